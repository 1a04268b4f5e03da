#!/bin/sh
# Installs Vamuretu from an unpacked archive, or from a checkout that ./test has left everything in.
#
#     ./install.sh [PREFIX=/usr/local] [DESTDIR=]              puts the files below DESTDIR PREFIX
#     ./install.sh uninstall [PREFIX=/usr/local] [DESTDIR=]    takes away what it has put there, and folders that are then empty
#
# What lies in bin, lib, include and share goes to the same folders of PREFIX, and all else to share/doc/vamuretu. A file is
# installed if and only if SHA256SUMS of the archive names it, and none is if a digest is another. The list of what was installed
# is share/vamuretu/files. The programs bin/sm_tool and bin/vamuretu are those for processors with AVX2 where the archive has them,
# this processor has what they need, and nothing is put below a DESTDIR. Below a DESTDIR all are put, those for AVX2 as
# bin/sm_tool-v3 and bin/vamuretu-v3. Status 1: something is missing or failed, and a line says what. Status 2: wrong words.

set -u
umask 022
say() {
    echo "install.sh: $1" >&2
}
fail() {
    say "$1"
    exit 1
}

# Where a file of the archive goes, below PREFIX.
place_of() {
    case $1 in
    bin/* | lib/* | include/* | share/*) echo "$1" ;;
    page/*) echo "share/vamuretu/${1#page/}" ;;
    *) echo "share/doc/vamuretu/$1" ;;
    esac
}

# Puts one file there, or a link as the link that it is.
put() {
    mkdir -p "$(dirname "$root/$2")" && rm -f "$root/$2" || fail "$root/$2 can't be written"
    if [ -L "$1" ]; then
        cp -P "$1" "$root/$2" || fail "$root/$2 can't be written"
    elif [ -x "$1" ]; then
        cp "$1" "$root/$2" && chmod 755 "$root/$2" || fail "$root/$2 can't be written"
    else
        cp "$1" "$root/$2" && chmod 644 "$root/$2" || fail "$root/$2 can't be written"
    fi
    printf '%s\n' "$2" >>"$list" || fail "$list can't be written"
}

# Puts the program of a name for this processor, if the archive has one.
put_program() {
    if [ -f "$here/bin/$1-v3" ] && has_level_3; then
        put "$here/bin/$1-v3" "bin/$1"
    elif [ -f "$here/bin/$1" ]; then
        put "$here/bin/$1" "bin/$1"
    fi
}

install_all() {
    [ -f "$here/SHA256SUMS" ] || fail "$here/SHA256SUMS is not there: unpack the archive again"
    (cd "$here" && sha256sum -c --quiet --strict SHA256SUMS) >&2 || fail "the archive is damaged: unpack it again"
    [ ! -e "$list" ] || remove_all
    mkdir -p "$root/share/vamuretu" && : >"$list" || fail "$list can't be written"
    cut -c 67- "$here/SHA256SUMS" | while IFS= read -r file; do
        case $file in
        install.sh) ;;
        bin/*) [ -z "$destdir" ] || put "$here/$file" "$file" || exit 1 ;;
        *) put "$here/$file" "$(place_of "$file")" || exit 1 ;;
        esac
    done || exit 1
    [ -n "$destdir" ] || { put_program sm_tool && put_program vamuretu; }
    for link in "$here"/lib/*.so "$here"/lib/*.so.?.?; do
        [ ! -L "$link" ] || put "$link" "lib/${link##*/}"
    done
    put "$here/install.sh" share/vamuretu/install.sh
    say "installed below $root; to take it away:"
    say "sh $root/share/vamuretu/install.sh uninstall PREFIX=$prefix${destdir:+ DESTDIR=$destdir}"
}

remove_all() {
    [ -f "$list" ] || fail "$list is not there: nothing was installed below $root by this script"
    while IFS= read -r file; do
        rm -f "$root/$file" || fail "$root/$file can't be removed"
    done <"$list"
    # The folders, the deepest first: those that are not empty stay.
    folders=$(sed 's,/[^/]*$,,' "$list" | awk '{ for (at = $0; at != ""; ) { print at; if (!sub("/[^/]*$", "", at)) at = "" } }' |
        LC_ALL=C sort -ur)
    rm -f "$list"
    printf '%s\n' "$folders" | while IFS= read -r folder; do
        rmdir "$root/$folder" 2>/dev/null || :
    done
}

here=$(dirname "$0")
prefix=/usr/local destdir='' work=install
for word; do
    case $word in
    PREFIX=/*) prefix=${word#PREFIX=} ;;
    DESTDIR=*) destdir=${word#DESTDIR=} ;;
    install | uninstall) work=$word ;;
    *)
        say "usage: install.sh [install | uninstall] [PREFIX=/FOLDER] [DESTDIR=FOLDER]"
        exit 2
        ;;
    esac
done
root=$destdir$prefix
list=$root/share/vamuretu/files
. "$here/tools/level_3.sh"

if [ "$work" = uninstall ]; then
    remove_all
elif [ -x "$here/dist" ]; then
    made=$(mktemp -d) || exit 1
    trap 'rm -rf "$made"' EXIT
    "$here/dist" --tree "$made/tree" && sh "$made/tree/install.sh" "$@"
else
    install_all
fi
