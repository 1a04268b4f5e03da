# Functions of the scripts prove and test, which read this file with $top set to the top folder: a copy of the sources, which
# nobody edits, and what is kept of what is built there.
. "$top/tools/level_3.sh"

# Copies the sources to a folder of their own, $copy, which goes when the script ends.
copy_sources() {
    copy=$(mktemp -d) || exit 126
    trap 'rm -rf "$copy"' EXIT
    trap 'exit 130' HUP INT TERM
    # A source that changes from here on is newer than this file.
    touch "$copy/begun" && mkdir "$copy/tree" || exit 126
    tar -C "$top" --exclude=.git --exclude=out --exclude=__pycache__ --exclude=target -cf - . | tar -C "$copy/tree" -xf - || exit 126
    python3 -B "$top/tools/built.py" write "$copy/tree" || exit 126
}

# The crates of the program in the copy: sm_tool and all that it stands on, each in a line.
names_of_program() {
    python3 -B "$top/tools/crates.py" "$copy/tree" sm_tool
}

# Puts the program that was proved and built in the copy to out/, with the sources that it was made of: ./sm_tool takes it for
# as long as none of these is newer than the copy. What the gate said last, the first word, and of the program, in the file of the
# second word, is kept beside it. The program of before for processors of level 3 goes.
keep_program() {
    kept=$top/out/sm_tool
    mkdir -p "$top/out" && rm -f "$kept.sources" "$kept-v3" &&
        put_built "$copy/tree/crates/sm_tool/out/sm_tool" sm_tool "$1" "$2" || return 1
    names_of_program | sed 's,.*,crates/&/src,' | tr '\n' ' ' >"$copy/sources" && echo crates.txt >>"$copy/sources" &&
        touch -r "$copy/begun" "$copy/sources" && cp -p "$copy/sources" "$kept.sources"
}

# Builds what a crate of the copy has built once more, for other processors, and puts it to $copy. The words are the crate, the
# file of its out/, the name of what comes of it, the word of the toolchain's verdict that names these processors, and the words of
# rt. The libraries below are those that the gate has built, which count as built by tools/libraries.py. The toolchain proves the
# crate itself anew, and what it says is $copy/NAME.said. It also links a program that it has built for this machine, and runs it,
# which need not be possible: neither counts. The gate's own file stays where it is.
build_once_more() {
    built=$copy/tree/crates/$1/out/$2 new=$copy/$3 wanted=$4
    mkdir -p "$(dirname "$new")" && mv "$built" "$copy/$2" || return 1
    (cd "$copy/tree/crates/$1" && shift 4 && rt "$@") >"$new.said" 2>&1 </dev/null
    grep -q "^logic=proved .* $wanted " "$new.said" && mv "$built" "$new"
    is_built=$?
    mv "$copy/$2" "$built" || return 1
    [ "$is_built" -eq 0 ] || tail -n 5 "$new.said" >&2
    return "$is_built"
}

# The program for processors of level 3, as $copy/sm_tool-v3.
build_level_3() {
    build_once_more sm_tool sm_tool sm_tool-v3 cpu=x86-64-v3 run --cpu=x86-64-v3 -- --version
}

# The two libraries for C for processors of level 3, as $copy/libNAME-v3.a.
build_libraries_level_3() {
    for it in sm_embed sm_node; do
        build_once_more "$it" "lib$it.a" "lib$it-v3.a" cpu=x86-64-v3 lib --cpu=x86-64-v3 || return 1
    done
}

# Whether this machine can compile for aarch64, and run what comes of it.
has_aarch64() {
    command -v aarch64-linux-gnu-gcc >/dev/null && command -v qemu-aarch64-static >/dev/null
}

# A library for C for aarch64, as $copy/aarch64/libNAME.a.
build_library_aarch64() {
    build_once_more "$1" "lib$1.a" "aarch64/lib$1.a" target=aarch64-unknown-linux-gnu lib --target=aarch64-unknown-linux-gnu
}

# The program for aarch64, as $copy/aarch64/sm_tool: what the toolchain compiles, which the cross compiler links with the heap and
# with what the program asks of its process.
build_program_aarch64() {
    build_once_more sm_tool sm_tool.o aarch64/sm_tool.o target=aarch64-unknown-linux-gnu \
        run --target=aarch64-unknown-linux-gnu -- --version || return 1
    mv "$copy/aarch64/sm_tool.o.said" "$copy/aarch64/sm_tool.said" &&
        aarch64-linux-gnu-gcc -std=c11 -O2 -Wall -Wextra -Werror -I "$copy/tree/embed" "$copy/tree/tools/process.c" \
            "$copy/tree/embed/heap.c" "$copy/aarch64/sm_tool.o" -o "$copy/aarch64/sm_tool"
}

# Puts a built file of a crate to out/, or to its folder there that the last word names, and keeps what it was proved from, what the
# gate said last, and the verdict on the crate, in the file of the fourth word: ./dist looks at that.
put_built() {
    folder=$top/out${5:+/$5}
    new=$folder/$(basename "$1")
    mkdir -p "$folder" && rm -f "$new.proved" && cp "$1" "$new.new" && mv "$new.new" "$new" &&
        python3 -B "$top/tools/proved.py" keep "$copy/tree" "$new" "$2" "$3" "$4"
}

# How many provers run side by side: one for each core, and for each 3 GiB of free memory.
count_jobs() {
    cores=$(nproc)
    rooms=$(awk '/^MemAvailable:/ { print int($2 / 3145728) }' /proc/meminfo)
    [ "${rooms:-1}" -ge 1 ] || rooms=1
    [ "$rooms" -lt "$cores" ] && echo "$rooms" || echo "$cores"
}
