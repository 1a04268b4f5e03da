"""The package for Debian of an unpacked archive: what dpkg-deb makes of what install.sh installs."""
import gzip
import hashlib
import os
import re
import time

from version import short

FIELDS = """Package: vamuretu
Version: {version}
Architecture: {architecture}
Maintainer: Vamuretu maintainers <maintainers@users.noreply.vamuretu.example>
Installed-Size: {kilobytes}
Depends: {depends}
Suggests: systemd, sqlite3, zstd
Section: utils
Priority: optional
Description: signed Byzantine agreement that can be audited
 Several controllers decide on one value, though some of them may lie, and each
 keeps a signed log. The program sm_tool judges a run from the logs alone. Two
 libraries for C judge runs, and run one node of such a system. The program
 vamuretu, where it was built, runs a node of a system that goes on, or watches
 all runs of it.
 .
 The program sm_tool and the code of the libraries are proved to keep their
 contracts. The file PROVED in /usr/share/doc/vamuretu says from which sources.
"""
# The package of each shared library that the program vamuretu may want. Those of glibc are one package.
OF_LIBRARIES = {"libsqlite3.so.0": "libsqlite3-0", "libzstd.so.1": "libzstd1", "libgcc_s.so.1": "libgcc-s1"}
OF_GLIBC = ("libc.so.6", "libm.so.6", "ld-linux-x86-64.so.2", "ld-linux-aarch64.so.1", "libpthread.so.0", "libdl.so.2", "librt.so.1")
# What dpkg starts for the program vamuretu. Nodes are not started again for a newer package, since each that is started again
# counts as faulty in the runs that it misses. A purge leaves /etc/vamuretu, and what nodes and watchers have kept.
SCRIPTS = {"postinst": """#!/bin/sh
set -e
if [ "$1" = configure ]; then
    # Without this program systemd makes the users when it starts.
    ! command -v systemd-sysusers >/dev/null || systemd-sysusers /usr/lib/sysusers.d/vamuretu.conf
    [ ! -d /run/systemd/system ] || systemctl daemon-reload
fi
""", "prerm": """#!/bin/sh
set -e
if [ "$1" = remove ] && [ -d /run/systemd/system ]; then
    systemctl stop 'vamuretu-node@*.service' vamuretu-watch.service
fi
""", "postrm": """#!/bin/sh
set -e
[ "$1" != purge ] || rm -f /etc/systemd/system/multi-user.target.wants/vamuretu-watch.service \\
    /etc/systemd/system/multi-user.target.wants/vamuretu-node@*.service
[ ! -d /run/systemd/system ] || systemctl daemon-reload
"""}
COPYRIGHT = """Format: https://www.debian.org/doc/packaging-manuals/copyright-format/1.0/
Upstream-Name: vamuretu

Files: *
Copyright: {year} the Vamuretu maintainers
License: Expat or Apache-2.0

License: Expat
{mit}

License: Apache-2.0
 On Debian systems the text is in /usr/share/common-licenses/Apache-2.0.
"""
CHANGES = """vamuretu ({version}) unstable; urgency=low

  * The release of this version; /usr/share/doc/vamuretu/CHANGELOG.md tells its
    changes.

 -- Vamuretu maintainers <maintainers@users.noreply.vamuretu.example>  {date}
"""

# What lintian calls an error, and is meant.
OVERRIDES = """# The programs are byte for byte those that were proved and built, with their symbols: PROVED has their digests.
vamuretu: unstripped-binary-or-object [usr/bin/sm_tool*]
"""


def read(path):
    with open(path, "rb") as file:
        return file.read()


def write(path, data):
    os.makedirs(os.path.dirname(path), exist_ok=True)
    with open(path, "wb") as file:
        file.write(data)


def zipped(data):
    return gzip.compress(data, 9, mtime=0)


def indented(text):
    """A text as a field of a control file has it."""
    return "\n".join(f" {line}" if line.strip() else " ." for line in text.strip().split("\n"))


def names_of(root):
    """All files and links of the package, sorted."""
    found = []
    for at, _, names in os.walk(root):
        found += [os.path.relpath(os.path.join(at, name), root) for name in names]
    return sorted(it for it in found if not it.startswith("DEBIAN/"))


def put_documents(root, tree, version, seconds):
    """What Debian wants beside what was installed, and manual pages as it has them."""
    documents, moment = f"{root}/usr/share/doc/vamuretu", time.gmtime(seconds)
    licence = indented(read(f"{tree}/LICENSE-MIT").decode())
    copyright_text = COPYRIGHT.format(year=moment.tm_year, mit=licence)
    write(f"{documents}/copyright", copyright_text.encode())
    date = time.strftime("%a, %d %b %Y %H:%M:%S +0000", moment)
    write(f"{documents}/changelog.gz", zipped(CHANGES.format(version=version, date=date).encode()))
    write(f"{root}/usr/share/lintian/overrides/vamuretu", OVERRIDES.encode())
    for at, _, names in os.walk(f"{root}/usr/share/man"):
        for name in names:
            write(f"{at}/{name}.gz", zipped(read(f"{at}/{name}")))
            os.remove(f"{at}/{name}")


def depends(tree, run):
    """The packages of what the programs want."""
    glibc, nodes = re.search(r"^glibc (\S+)", read(f"{tree}/PROVED").decode(), re.M)[1], f"{tree}/bin/vamuretu"
    wanted = re.findall(r"\(NEEDED\).*\[(.*)\]", run("readelf", "-d", nodes)) if os.path.exists(nodes) else []
    unknown = {*wanted} - {*OF_LIBRARIES} - {*OF_GLIBC}
    if unknown:
        raise LookupError(f"tools/debian.py knows no package that has {min(unknown)}")
    return ", ".join([f"libc6 (>= {glibc})", *sorted(OF_LIBRARIES[it] for it in wanted if it in OF_LIBRARIES)])


def put_scripts(root):
    """What dpkg starts, and the folder of the configurations."""
    os.makedirs(f"{root}/etc/vamuretu")
    for name, text in SCRIPTS.items():
        write(f"{root}/DEBIAN/{name}", text.encode())
        os.chmod(f"{root}/DEBIAN/{name}", 0o755)


def put_control(root, tree, version, run, architecture):
    """The files of DEBIAN/."""
    files = [name for name in names_of(root) if not os.path.islink(f"{root}/{name}")]
    kilobytes = sum(-(-os.path.getsize(f"{root}/{name}") // 1024) for name in files)
    told = {"version": version, "architecture": architecture, "kilobytes": kilobytes, "depends": depends(tree, run)}
    write(f"{root}/DEBIAN/control", FIELDS.format(**told).encode())
    sums = (f"{hashlib.md5(read(f'{root}/{name}')).hexdigest()}  {name}\n" for name in files)
    write(f"{root}/DEBIAN/md5sums", "".join(sums).encode())
    least = version.partition("+")[0]
    shared = (f"lib{it} {short(version)} vamuretu (>= {least})\n" for it in ("sm_embed", "sm_node"))
    write(f"{root}/DEBIAN/shlibs", "".join(shared).encode())
    write(f"{root}/DEBIAN/triggers", b"activate-noawait ldconfig\n")


def package(tree, scratch, version, seconds, run, target):
    """The bytes of the package by its name."""
    root, made = f"{scratch}/root", f"vamuretu_{version}_{target.debian}.deb"
    run("sh", f"{tree}/install.sh", "PREFIX=/usr", f"DESTDIR={root}")
    # dpkg takes files away itself.
    os.remove(f"{root}/usr/share/vamuretu/install.sh")
    os.remove(f"{root}/usr/share/vamuretu/files")
    put_documents(root, tree, version, seconds)
    put_control(root, tree, version, run, target.debian)
    if os.path.exists(f"{tree}/bin/vamuretu"):
        put_scripts(root)
    for at, folders, names in os.walk(root):
        os.chmod(at, 0o755)
        for name in names:
            if f"{at}/" == f"{root}/DEBIAN/" or not os.path.islink(f"{at}/{name}"):
                os.chmod(f"{at}/{name}", 0o755 if os.access(f"{at}/{name}", os.X_OK) else 0o644)
    for at, folders, names in os.walk(root):
        for name in [*folders, *names, "."]:
            os.utime(f"{at}/{name}", (seconds, seconds), follow_symlinks=False)
    dated = {**os.environ, "SOURCE_DATE_EPOCH": str(seconds)}
    run("dpkg-deb", "--root-owner-group", "-Zgzip", "--build", root, f"{scratch}/{made}", env=dated)
    return {made: read(f"{scratch}/{made}")}
