#!/usr/bin/env python3
"""Builds the program vamuretu (vamuretu/) by cargo, over the archives of the libraries for C, and keeps of what it was
made.

    tools/node_program.py put TREE FOLDER            builds it in TREE, and puts it to FOLDER as vamuretu, with vamuretu.made beside
                                                     it. If FOLDER has the archives for processors with AVX2, vamuretu-v3 is the
                                                     same over these. Where it can't be built here a line says why, and FOLDER has
                                                     none
    tools/node_program.py put TREE FOLDER aarch64    the same for another target (targets.py), over the archives in FOLDER: by the
                                                     cross compiler, Rust's library for that target, and Debian's libsqlite3-dev
                                                     and libzstd-dev of that architecture
    tools/node_program.py look TREE FOLDER           says in one line what is wrong with those of FOLDER, with status 1, or nothing

vamuretu.made has the digests of the program, of its sources and of the two archives, and the compiler. The sources are what
cargo reads of vamuretu/ and embed/rust/, and the heap. Nothing is fetched, and nothing is written to the sources but
target/ and Cargo.lock, which is another on each version of Debian. The script `test` puts, and `dist` looks.
"""
import hashlib
import os
import re
import shutil
import subprocess
import sys
import tempfile

from targets import OWN, target_of

# Where Debian's packages of crates are, of vamuretu/packages, and one without which nothing is built.
CRATES, NEEDED = "/usr/share/cargo/registry", "tokio-rustls-"
OFFLINE = ["--offline", "--quiet"]
# What pkg-config is asked of for another target.
WANTED = ["--exists", "sqlite3", "libzstd"]
# The oldest cargo that builds the program.
OLDEST = (1, 80)
ARCHIVES = ("sm_embed", "sm_node")
# The programs, and what the names of the archives end with that each is built over.
PROGRAMS = {"vamuretu": "", "vamuretu-v3": "-v3"}
SOURCES = ("vamuretu/Cargo.toml", "vamuretu/.cargo", "vamuretu/src")
SOURCES += ("embed/rust/Cargo.toml", "embed/rust/build.rs", "embed/rust/src", "embed/heap.c", "embed/sm_heap.h")


def digest(path):
    with open(path, "rb") as file:
        return hashlib.sha256(file.read()).hexdigest()


def files_of(tree):
    """The sources, sorted."""
    found = []
    for name in SOURCES:
        path = os.path.join(tree, name)
        found += [name] if os.path.isfile(path) else []
        found += [os.path.relpath(os.path.join(at, it), tree) for at, _, names in os.walk(path) for it in names]
    return sorted(found)


def sources(tree):
    """The digest of the sources."""
    lines = [f"{digest(os.path.join(tree, name))}  {name}\n" for name in files_of(tree)]
    return hashlib.sha256("".join(lines).encode()).hexdigest()


def archive_of(tree, name):
    """The archive of a library that embed/rust/build.rs links, or None."""
    named = os.environ.get("VAMURETU_LIBRARIES")
    folders = [named] if named else [os.path.join(tree, it) for it in (f"crates/{name}/out", "lib", "out")]
    return next((it for it in (os.path.join(folder, f"lib{name}.a") for folder in folders) if os.path.exists(it)), None)


def is_old():
    """Whether cargo is older than the program needs, or tells no version."""
    told = subprocess.run(["cargo", "--version"], capture_output=True, text=True, check=False).stdout
    said = re.match(r"cargo (\d+)\.(\d+)", told)
    return said is None or tuple(map(int, said.groups())) < OLDEST


def rustc():
    """Rust's compiler that cargo takes."""
    return os.environ.get("RUSTC") or "rustc"


def crossing(target):
    """The environment in which cargo, its scripts and pkg-config work for another target; that of this machine has none of it."""
    if target is OWN:
        return {}
    folder = f"/usr/lib/{target.triple.replace('-unknown', '')}/pkgconfig"
    linker = f"CARGO_TARGET_{target.triple.upper().replace('-', '_')}_LINKER"
    found = {"CC": target.cc(), "AR": target.tool("ar"), linker: target.cc()}
    # A folder that is named already is kept: the libraries need not be installed on the machine.
    return {**found, "PKG_CONFIG_ALLOW_CROSS": "1", "PKG_CONFIG_LIBDIR": os.environ.get("PKG_CONFIG_LIBDIR", folder)}


def lacks_for(target):
    """What is not there of what another target needs."""
    words, env = [rustc(), "--print", "target-libdir", "--target", target.triple], {**os.environ, **crossing(target)}
    folder = subprocess.run(words, capture_output=True, text=True, check=False).stdout.strip()
    has_std = os.path.isdir(folder) and any(it.startswith("libstd-") for it in os.listdir(folder))
    lacks = [] if has_std else [f"Rust's library for {target.triple}"]
    has_libraries = shutil.which("pkg-config") and not subprocess.run(["pkg-config", *WANTED], env=env, check=False).returncode
    return lacks if has_libraries else [*lacks, f"libsqlite3-dev and libzstd-dev for {target.debian}"]


def what_lacks(tree, target=OWN, folder=None):
    """What is not there and is needed to build the program, in a few words, or None. The folder has the archives for another
    target."""
    archives = [archive_of(tree, name) if target is OWN else os.path.join(folder, f"lib{name}.a") for name in ARCHIVES]
    if not all(it and os.path.exists(it) for it in archives):
        return "the libraries for C are not built"
    lacks = [it for it in ("cargo", target.cc(), target.tool("ar")) if not shutil.which(it)]
    lacks += [f"cargo {OLDEST[0]}.{OLDEST[1]}"] if "cargo" not in lacks and is_old() else []
    here = os.listdir(CRATES) if os.path.isdir(CRATES) else []
    lacks += [] if any(it.startswith(NEEDED) for it in here) else ["Debian's crates (vamuretu/packages)"]
    lacks += [] if lacks or target is OWN else lacks_for(target)
    return f"{', '.join(lacks)} not here" if lacks else None


def build(tree, target=OWN, **over):
    """The path of the program, which is built if it is older than its sources. An error is the caller's."""
    package, env = os.path.join(tree, "vamuretu"), {**os.environ, **crossing(target), **over}
    words = [] if target is OWN else ["--target", target.triple]
    subprocess.run(["cargo", "build", *OFFLINE, "--release", *words], cwd=package, env=env, capture_output=True, check=True)
    made = os.environ.get("CARGO_TARGET_DIR") or os.path.join(package, "target")
    return os.path.join(made, *words[1:], "release", "vamuretu")


def record(tree, program, archives):
    """The text of vamuretu.made, of a program over archives by the names of their libraries."""
    compiler = subprocess.run([rustc(), "--version"], capture_output=True, text=True, check=True).stdout.strip()
    lines = {"digest": digest(program), "sources": sources(tree), "compiler": compiler}
    lines |= {name: digest(archives[name]) for name in ARCHIVES}
    return "".join(f"{name} {value}\n" for name, value in lines.items())


def kept(program):
    """What vamuretu.made says, by its names."""
    with open(f"{program}.made", encoding="utf-8") as file:
        return dict(line.rstrip("\n").split(" ", 1) for line in file)


def archives_in(folder, program):
    """The archives of a folder that a program is built over, by the names of their libraries."""
    return {it: os.path.join(folder, f"lib{it}{PROGRAMS[program]}.a") for it in ARCHIVES}


def keep(tree, folder, program, built, archives):
    """Puts a built program to a folder, and keeps of what it was made."""
    made = os.path.join(folder, program)
    shutil.copy(built, made)
    with open(f"{made}.made", "w", encoding="utf-8") as file:
        file.write(record(tree, made, archives))


def put_level_3(tree, folder):
    """Builds the program over the archives of the folder for processors with AVX2, if they are there, and puts it there."""
    archives = archives_in(folder, "vamuretu-v3")
    if not all(map(os.path.exists, archives.values())):
        return
    with tempfile.TemporaryDirectory() as over:
        for name, archive in archives.items():
            os.symlink(os.path.abspath(archive), os.path.join(over, f"lib{name}.a"))
        keep(tree, folder, "vamuretu-v3", build(tree, VAMURETU_LIBRARIES=over), archives)


def put_other(tree, folder, target):
    """Builds the program for another target over the archives of the folder, and puts it there."""
    keep(tree, folder, "vamuretu", build(tree, target, VAMURETU_LIBRARIES=os.path.abspath(folder)), archives_in(folder, "vamuretu"))


def put(tree, folder, target):
    """Builds the programs, and puts them to a folder. Returns the status."""
    for name in PROGRAMS:
        for path in (os.path.join(folder, f"{name}.made"), os.path.join(folder, name)):
            if os.path.lexists(path):
                os.remove(path)
    lacks = what_lacks(tree, target, folder)
    if lacks:
        print(f"vamuretu is left out{'' if target is OWN else f' for {target.processor}'}: {lacks}")
        return 0
    try:
        if target is not OWN:
            put_other(tree, folder, target)
            return 0
        keep(tree, folder, "vamuretu", build(tree), {name: archive_of(tree, name) for name in ARCHIVES})
        put_level_3(tree, folder)
    except subprocess.CalledProcessError as told:
        print(told.stderr.decode(errors="replace")[-2000:])
        return 1
    return 0


def wrong_with(tree, folder, name):
    """What is wrong with a program of a folder, in one line, or None."""
    program = os.path.join(folder, name)
    if not os.path.exists(program):
        return f"{program} is not there"
    if not os.path.exists(f"{program}.made"):
        return f"{program} is of unknown sources: {program}.made is not there"
    told = kept(program)
    if told.get("digest") != digest(program):
        return f"{program} is not the file that was built: its digest is another"
    if told.get("sources") != sources(tree):
        return f"{program} was built from other sources than those of the checkout"
    archives = archives_in(folder, name).items()
    others = [path for it, path in archives if not os.path.exists(path) or told.get(it) != digest(path)]
    return f"{program} was built over another {os.path.basename(others[0])}" if others else None


def look(tree, folder):
    """What is wrong with the programs of a folder, in one line, or None. One for processors with AVX2 need not be there."""
    there = [name for name in PROGRAMS if name == "vamuretu" or os.path.exists(os.path.join(folder, name))]
    return next(filter(None, (wrong_with(tree, folder, name) for name in there)), None)


def main():
    target = target_of(sys.argv[4]) if len(sys.argv) == 5 else OWN
    if len(sys.argv) in (4, 5) and sys.argv[1] == "put" and target:
        return put(*sys.argv[2:4], target)
    if len(sys.argv) == 4 and sys.argv[1] == "look":
        return look(*sys.argv[2:])
    return __doc__


if __name__ == "__main__":
    sys.exit(main())
