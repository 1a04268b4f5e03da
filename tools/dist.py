#!/usr/bin/env python3
"""Makes the archive of a release, and of it a package for Debian; the script `dist` tells the words.

The archive has what git has of the documents, the examples and the reference, and what was proved and built: out/sm_tool,
out/libsm_embed.a, out/libsm_node.a, and where they are there those for processors with AVX2, as out/sm_tool-v3, and the page
out/audit.html. tools/proved.py says whether they were proved from the sources that are checked out, and for which processors. The
compiler makes the heap and the shared libraries, which nothing proves. Where out/vamuretu is there, the archive has this program
with its units for systemd, and out/vamuretu-v3 if that is there too; tools/node_program.py says whether it was built from the
sources and over the libraries. Otherwise PROVED says that it is left out. For another target (tools/targets.py) the files are those
of its folder, and the compiler is the cross compiler. The archive is called by the version if the commit is tagged by it, with a v in front, and otherwise by the version and
the commit. A commit with this tag whose list of changes begins with "Unreleased" is refused.
Dates are that of the commit, or SOURCE_DATE_EPOCH; owners, modes and the order are fixed.
"""
import gzip
import hashlib
import io
import os
import re
import shutil
import subprocess
import sys
import tarfile
import tempfile
import time

import completions
import debian
import man_vamuretu
import node_program
import proved
from debian import read, write
from man3 import FUNCTION, HEADERS, SHARED
from targets import OWN, TARGETS, machine_of, target_of
from version import TOP, UNRELEASED, is_unreleased, short, version

# What was built, with the crate that it is of and its place in the archive.
BUILT = [("sm_tool", "sm_tool", "bin/sm_tool"), ("libsm_embed.a", "sm_embed", "lib/libsm_embed.a")]
BUILT += [("libsm_node.a", "sm_node", "lib/libsm_node.a")]
PAGE = ("audit.html", "sm_embed", "page/audit.html")
# What is there for processors with AVX2.
LEVEL_3 = [("sm_tool-v3", "sm_tool", "bin/sm_tool-v3"), ("libsm_embed-v3.a", "sm_embed", "lib/libsm_embed-v3.a")]
LEVEL_3 += [("libsm_node-v3.a", "sm_node", "lib/libsm_node-v3.a")]
# The level of those processors, by the name of the toolchain.
LEVEL = "x86-64-v3"
# The program that goes on, which nothing proves, with the manual page of it alone, and where systemd finds its units and users.
NODES, OF_NODES, UNITS, USERS = "bin/vamuretu", "vamuretu.1", "lib/systemd/system", "lib/sysusers.d"
# Over which of the archives each of its programs is built.
OVER = {"vamuretu": "the archives above for any processor", "vamuretu-v3": "those for processors of x86-64-v3"}
# What the archive has of the repository, at the same place.
KEPT = ("README.md", "CHANGELOG.md", "INSTALL.md", "SECURITY.md", "LICENSE-MIT", "LICENSE-APACHE", "install.sh")
FOLDERS = ("docs/", "examples/", "reference/", "embed/")
LEFT_OUT = ("embed/page/", "embed/vamuretu-config", "reference/.")
# The line of install.sh that reads a script, and this script: in the archive it stands in the place of the line.
READS, READ = b'. "$here/tools/level_3.sh"\n', "tools/level_3.sh"
COMPILED = ["-std=c11", "-O2", "-fPIC", "-Wall", "-Wextra", "-Werror"]
LINKED = ["-shared", "-s", "-Wl,--build-id=none", "-Wl,-z,relro,-z,now"]


class Refused(Exception):
    """Why there is no archive, in one line."""


def run(*words, **how):
    """What a command writes, whose failure refuses the archive."""
    try:
        ran = subprocess.run(words, capture_output=True, check=False, **how)
    except OSError as why:
        raise Refused(f"{words[0]} can't be run: {why.strerror}") from why
    if ran.returncode:
        said = ran.stderr.decode(errors="replace").strip().splitlines() or ["it says nothing"]
        raise Refused(f"{words[0]} failed: {said[0][:300]}")
    return ran.stdout.decode()


def commit():
    """The commit that is checked out, and its date in seconds. Files that git knows may not differ from it."""
    changed = run("git", "-C", TOP, "status", "--porcelain", "--untracked-files=no").splitlines()
    if changed:
        raise Refused(f"{len(changed)} files differ from the commit, the first of them {changed[0][3:]}: commit them first")
    named, seconds = run("git", "-C", TOP, "log", "-1", "--format=%H %ct").split()
    return named, int(os.environ.get("SOURCE_DATE_EPOCH") or seconds)


def name_of(named):
    """What an archive of a commit is called by: the version if the commit is tagged as its release, or else both."""
    is_tagged = f"v{version()}" in run("git", "-C", TOP, "tag", "--points-at", named).split()
    if is_tagged and is_unreleased():
        raise Refused(f"the commit is tagged v{version()}, and CHANGELOG.md begins with {UNRELEASED}: give the version its heading")
    return version() if is_tagged else f"{version()}+{named[:12]}"


def nodes(target):
    """The programs that go on which are there: none, that for any processor, or both."""
    return [name for name in OVER if all(os.path.exists(target.path(it)) for it in ("vamuretu", name))]


def may_lack(target):
    """What an archive is made without, if it is not there. The page is for browsers, and the same for all processors."""
    return [*(LEVEL_3 if target is OWN else []), PAGE]


def path_of(target, file):
    """Where a file of what was built lies."""
    return (OWN if file == PAGE else target).path(file[0])


def wrong_with(target, file):
    """What is wrong with a file of what was built, in one line, or None."""
    path, level = path_of(target, file), LEVEL if file in LEVEL_3 else ""
    wrong = proved.look(TOP, path, file[1], (OWN if file == PAGE else target).verdict(level))
    if wrong:
        return f"{wrong}; ./test{'' if target is OWN or file == PAGE else f' --{target.processor}'} proves and builds all of it"
    is_other = file[1] == "sm_tool" and machine_of(read(path)) != target.machine
    return f"{path} is no program for {target.processor}" if is_other else None


def look_over(target):
    """Refuses what is missing, or was not proved from the sources of the checkout for the target. Returns what is there."""
    there = [*BUILT, *(it for it in may_lack(target) if os.path.exists(path_of(target, it)))]
    wrong = next(filter(None, (wrong_with(target, it) for it in there)), None)
    if wrong is None and nodes(target):
        # The completions are written by the program for this machine, which is of the same sources.
        folders = dict.fromkeys(os.path.dirname(it.path("")) for it in (OWN, target))
        said = next(filter(None, (node_program.look(TOP, it) for it in folders)), None)
        wrong = said and f"{said}; tools/node_program.py builds it"
    if wrong:
        raise Refused(wrong.replace(TOP + "/", ""))
    return there


def kept_files():
    """The files of the repository that the archive has."""
    names = run("git", "-C", TOP, "ls-files", "-z").split("\0")
    found = [it for it in names if it in KEPT or it.startswith(FOLDERS) and not it.startswith(LEFT_OUT)]
    lacking = sorted(set(KEPT) - set(found))
    if lacking:
        raise Refused(f"git has no {lacking[0]}")
    return found


def put_pages(tree, target):
    """The manual pages."""
    for name in sorted(os.listdir(os.path.join(TOP, "man"))):
        section = name.rsplit(".", 1)[1]
        if name != OF_NODES or nodes(target):
            write(f"{tree}/share/man/man{section}/{name}", read(os.path.join(TOP, "man", name)))


def put_nodes(tree, target):
    """The programs that go on, their units and the users that they want, and what shells complete."""
    program, units = OWN.path("vamuretu"), os.path.join(TOP, "vamuretu", "systemd")
    for name in nodes(target):
        write(f"{tree}/bin/{name}", read(target.path(name)))
    for name in sorted(os.listdir(units)):
        write(f"{tree}/{UNITS if name.endswith('.service') else USERS}/{name}", read(os.path.join(units, name)))
    try:
        said = man_vamuretu.completions(program)
    except (OSError, subprocess.CalledProcessError) as why:
        raise Refused(f"out/vamuretu can't be run: {why}") from why
    for name, text in said.items():
        write(f"{tree}/{name}", text.encode())


def put_libraries(tree, target):
    """The heap, and the shared libraries, each with its own heap and with the functions of its header alone to be seen."""
    with tempfile.TemporaryDirectory() as scratch:
        for name in ("heap.c", "sm_heap.h"):
            shutil.copy(os.path.join(TOP, "embed", name), scratch)
        run(target.cc(), *COMPILED, "-c", "heap.c", "-o", "heap.o", cwd=scratch)
        run(target.tool("ar"), "rcsD", "heap.a", "heap.o", cwd=scratch)
        write(f"{tree}/lib/libsm_embed_heap.a", read(f"{scratch}/heap.a"))
        for name in SHARED:
            write(f"{tree}/include/{name}.h", read(os.path.join(TOP, "embed", f"{name}.h")))
        for name in HEADERS:
            header = read(os.path.join(TOP, "embed", f"{name}.h"))
            write(f"{tree}/include/{name}.h", header)
            shared, seen = f"lib{name}.so.{version()}", "; ".join(FUNCTION.findall(header.decode()))
            write(f"{scratch}/seen", f"{{ global: {seen}; local: *; }};\n".encode())
            shutil.copy(f"{tree}/lib/lib{name}.a", f"{scratch}/whole.a")
            soname = f"lib{name}.so.{short(version())}"
            whole = ["-Wl,--whole-archive", "whole.a", "-Wl,--no-whole-archive", "-Wl,--version-script=seen"]
            run(target.cc(), *LINKED, f"-Wl,-soname,{soname}", "heap.o", *whole, "-o", "shared", cwd=scratch)
            write(f"{tree}/lib/{shared}", read(f"{scratch}/shared"))
            os.symlink(shared, f"{tree}/lib/{soname}")
            os.symlink(soname, f"{tree}/lib/lib{name}.so")


def put_packages(tree):
    """What CMake and pkg-config read, which name no folder but their own."""
    puts = {"CMAKE_INSTALL_PREFIX": "${pcfiledir}/../..", "CMAKE_INSTALL_LIBDIR": "lib", "CMAKE_INSTALL_INCLUDEDIR": "include"}
    puts |= {"PROJECT_VERSION": version(), "SHORT_VERSION": short(version())}
    filled = lambda name: re.sub("@([A-Z_]+)@", lambda it: puts[it[1]], read(os.path.join(TOP, "embed", name)).decode())
    for name in HEADERS:
        text = filled(f"{name}.pc.in")
        write(f"{tree}/lib/pkgconfig/{name}.pc", text.encode())
        shared = text.replace(f"Name: {name}", f"Name: {name}_shared").replace(f"-l:lib{name}.a -lsm_embed_heap", f"-l{name}")
        write(f"{tree}/lib/pkgconfig/{name}_shared.pc", shared.encode())
    config = read(os.path.join(TOP, "embed", "vamuretu-config.cmake"))
    write(f"{tree}/lib/cmake/vamuretu/vamuretu-config.cmake", config)
    of_version = filled("vamuretu-config-version.cmake.in")
    write(f"{tree}/lib/cmake/vamuretu/vamuretu-config-version.cmake", of_version.encode())


def glibc_of(tree, target):
    """The oldest glibc that has all that the program and the shared libraries ask for."""
    files = [f"{tree}/bin/sm_tool", *(f"{tree}/lib/lib{name}.so.{version()}" for name in HEADERS)]
    files += [f"{tree}/bin/{name}" for name in nodes(target)]
    asked = (it for file in files for it in re.findall(rb"GLIBC_(\d+)\.(\d+)", read(file)))
    return ".".join(map(str, max((int(it[0]), int(it[1])) for it in asked)))


def proved_text(tree, target, named, seconds, built):
    """What PROVED says."""
    told = {it[2]: proved.kept(path_of(target, it)) for it in built}
    kits = {it["kit"] for it in told.values()}
    if len(kits) > 1:
        raise Refused("what was built is of several kits")
    lines = [f"vamuretu {name_of(named)} {target.processor}-linux", f"commit {named}"]
    lines += [f"date {time.strftime('%Y-%m-%dT%H:%M:%SZ', time.gmtime(seconds))}", f"kit {kits.pop()}"]
    lines += [f"glibc {glibc_of(tree, target)} or newer"]
    lines += [f"unproved, made by {run(target.cc(), '--version').splitlines()[0]}:"]
    lines += ["  lib/libsm_embed_heap.a", *(f"  lib/lib{name}.so.{version()}" for name in HEADERS)]
    for place, of in told.items():
        lines += ["", place, f"  sha256 {of['digest']}", f"  sources {of['sources']}", f"  gate {of['gate']}"]
        lines += [f"  verdict {of['verdict']}"]
        if place == "bin/sm_tool" and target is not OWN:
            lines += ["  unproved is the C that it is linked with: docs/ASSURANCE.md"]
    if PAGE in built:
        lines += ["  unproved is the step that compiles it for the browser: docs/PAGE.md"]
    lines += [line for name in nodes(target) for line in lines_of(name, target)]
    programs = OVER if target is OWN else ["vamuretu"]
    absent = [it[2] for it in may_lack(target) if it not in built] + [f"bin/{it}" for it in programs if it not in nodes(target)]
    lines += [line for it in absent for line in ("", f"{it} is not here: it was not made")]
    return "\n".join(lines) + "\n"


def lines_of(name, target):
    """What PROVED says of a program that goes on."""
    told = node_program.kept(target.path(name))
    lines = ["", f"bin/{name}", f"  sha256 {told['digest']}", f"  sources {told['sources']}"]
    return [*lines, f"  unproved, made by {told['compiler']} over {OVER[name]}"]


def make_tree(tree, target):
    """Puts all that the archive has to a folder. Returns by what the archive is called, and the date in seconds."""
    named, seconds = commit()
    built = look_over(target)
    for name in kept_files():
        write(f"{tree}/{name}", read(os.path.join(TOP, name)).replace(READS, read(os.path.join(TOP, READ))))
    for it in built:
        write(f"{tree}/{it[2]}", read(path_of(target, it)))
    put_pages(tree, target)
    for name, text in completions.files().items():
        write(f"{tree}/{name}", text.encode())
    if nodes(target):
        put_nodes(tree, target)
    put_libraries(tree, target)
    put_packages(tree)
    write(f"{tree}/PROVED", proved_text(tree, target, named, seconds, built).encode())
    os.symlink("bin/sm_tool", f"{tree}/sm_tool")
    names = [name for name in names_of(tree) if not os.path.islink(f"{tree}/{name}")]
    sums = (f"{hashlib.sha256(read(f'{tree}/{name}')).hexdigest()}  {name}\n" for name in names)
    write(f"{tree}/SHA256SUMS", "".join(sums).encode())
    for name in names_of(tree):
        if not os.path.islink(f"{tree}/{name}"):
            os.chmod(f"{tree}/{name}", 0o755 if runs(name, read(f"{tree}/{name}")) else 0o644)
    return name_of(named), seconds


def runs(name, data):
    """Whether a file of the archive can be run."""
    return name.startswith("bin/") or name == "install.sh" or data[:2] == b"#!" and name.startswith("examples/")


def names_of(tree):
    """All files and links of a folder, sorted by their bytes."""
    found = []
    for at, _, names in os.walk(tree):
        found += [os.path.relpath(os.path.join(at, name), tree) for name in names]
    return sorted(found, key=os.fsencode)


def pack(tree, folder, seconds):
    """The bytes of the archive of a folder, which is another one there."""
    packed = io.BytesIO()
    with gzip.GzipFile(filename="", mode="wb", fileobj=packed, mtime=0, compresslevel=9) as zipped:
        with tarfile.open(mode="w", fileobj=zipped, format=tarfile.GNU_FORMAT) as archive:
            for name in names_of(tree):
                it = archive.gettarinfo(f"{tree}/{name}", f"{folder}/{name}")
                it.uid = it.gid = 0
                it.uname = it.gname = "root"
                it.mtime = seconds
                it.mode = 0o777 if it.issym() else it.mode & 0o777
                archive.addfile(it, io.BytesIO(read(f"{tree}/{name}")) if it.isreg() else None)
    return packed.getvalue()


def make_archive(target, with_package):
    """Makes the archive, and the package where it is wanted."""
    with tempfile.TemporaryDirectory() as scratch:
        tree = f"{scratch}/tree"
        called, seconds = make_tree(tree, target)
        folder = f"vamuretu-{called}-{target.processor}-linux"
        made = {f"{folder}.tar.gz": pack(tree, folder, seconds)}
        if with_package:
            made |= debian.package(tree, scratch, called, seconds, run, target)
    for name, data in made.items():
        write(OWN.path(name), data)
        print(f"{hashlib.sha256(data).hexdigest()}  out/{name}")


def words_of(words):
    """What the words ask for: the target, whether a package is wanted, and the folder of --tree; or None."""
    target, names = OWN, " | ".join(it.processor for it in TARGETS)
    if "--target" in words[:-1]:
        at = words.index("--target")
        target, words = target_of(words[at + 1]), [*words[:at], *words[at + 2 :]]
    if target is None or words not in ([], ["--deb"]) and not (len(words) == 2 and words[0] == "--tree"):
        sys.exit(f"usage: ./dist [--deb | --tree FOLDER] [--target {names}]")
    return target, words == ["--deb"], words[1] if len(words) == 2 else None


def main():
    target, with_package, folder = words_of(sys.argv[1:])
    try:
        if folder:
            os.mkdir(folder)
            make_tree(folder, target)
        else:
            make_archive(target, with_package)
    except (Refused, OSError, LookupError) as why:
        return f"dist: {why}"
    return None


if __name__ == "__main__":
    sys.exit(main())
