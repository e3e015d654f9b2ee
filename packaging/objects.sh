#!/usr/bin/env bash
# The objects that the toolchain proves and builds, and what is joined of them. `install` and `release` source this.

: "${top:?the folder of the repository}"
# Those that are built for, the least one first.
declare -a processors
# The programs, each with words to try it with.
readonly PROGRAMS=("rq send 2 0" "rqcast send --cell 72 --repair 0")
# The crates of the toolchain that are linked in, of which it has the licences.
readonly LINKED="arrayvec clap hex memchr sha2 smallvec serde strsim thiserror"

fail() {
    echo "${0##*/}: $1" >&2
    exit 1
}

# Reads the tools, each of which may be several words, and flags. CROSS stands before their names where none are named.
read_tools() {
    read -ra compiler <<<"${CC:-${1:+$1gcc}}"
    [ ${#compiler[@]} -gt 0 ] || compiler=(cc)
    read -ra linker <<<"${LD:-$1ld}"
    read -ra copier <<<"${OBJCOPY:-$1objcopy}"
    read -ra archiver <<<"${AR:-$1ar}"
    read -ra lister <<<"${NM:-$1nm}"
    read -ra compiler_flags <<<"${CFLAGS-}"
    read -ra linker_flags <<<"${LDFLAGS-}"
}

# Three bytes, which programs are tried on.
three_bytes() {
    printf '\007\010\011'
}

# Proves and builds a program: BUILT PROCESSOR NAME WORDS.. What is built for another processor than this ends with 127.
prove_program() {
    local built=$1 processor=$2 name=$3 status=0
    (cd "$top/crates/$name" && three_bytes | rt run --cpu "$processor" -- "${@:4}" >/dev/null) >&2 || status=$?
    [ "$status" -eq 0 ] || { [ "$status" -eq 127 ] && [ "$(level)" -lt "${processor##*-v}" ]; } || fail "$name isn't built: $status"
    cp "$top/crates/$name/out/$name.o" "$built/$processor/"
}

# Proves and builds all objects for a processor: BUILT PROCESSOR.
prove_objects() {
    local program target=(--cpu "$2")
    mkdir -p "$1/$2"
    if [ "$2" = aarch64 ]; then
        target=(--target aarch64-unknown-linux-gnu)
    else
        for program in "${PROGRAMS[@]}"; do
            # shellcheck disable=SC2086 # a name and words
            prove_program "$1" "$2" $program
        done
    fi
    (cd "$top/crates/raptorq_c" && rt lib "${target[@]}") >&2 || fail "the library for C isn't built"
    cp "$top/crates/raptorq_c/out/libraptorq_c.a" "$1/$2/"
    echo "$(commit), by $(rt version | head -n 1)" >"$1/$2/PROVED"
}

# The commit that is proved, with a mark where files differ from it.
commit() {
    git -C "$top" describe --always --dirty --abbrev=40 --exclude='*' 2>/dev/null || echo "no commit that is known"
}

# Keeps what is linked in of the toolchain: BUILT.
keep_toolchain() {
    local kit crate
    command -v rt >/dev/null || fail "there is no rt: it comes with the toolchain"
    kit=$(dirname "$(rt doc | head -n 1)")
    mkdir -p "$1/toolchain"
    cp "$kit"/c/lib{os,libc}_c.a "$1/toolchain/"
    for crate in $LINKED; do
        mkdir -p "$1/toolchain/licences/$crate"
        cp "$kit/rattle/$crate"/LICENSE* "$1/toolchain/licences/$crate/"
    done
}

# Compiles lines of C that are linked in: MADE FILE FLAGS.. They are for any processor of the architecture, whatever CFLAGS say.
compile() {
    local least=()
    [ "${processors[0]}" = aarch64 ] || least=(-march=x86-64)
    "${compiler[@]}" -std=c11 -O2 "${compiler_flags[@]}" -fPIC -fno-lto "${least[@]}" -I "$top/include" "${@:3}" \
        -c "$top/$2" -o "$1/$(basename "$2" .c).o"
}

# Joins a processor's archive with what takes memory, and gives its calls names of their own: BUILT MADE PROCESSOR. Its note goes, for
# which the system's loader would refuse all of the library.
join_build() {
    local build=v${3##*-v} made=$2/$3.o
    "${linker[@]}" -r -o "$made" --whole-archive "$1/toolchain/liblibc_c.a" "$1/$3/libraptorq_c.a"
    "${copier[@]}" -w --remove-section=.note.gnu.property --keep-global-symbol='reamertan_*' "$made"
    "${lister[@]}" -P -g --defined-only "$made" | sed "s/^\([^ ]*\) .*/\1 ${build}_\1/" >"$2/$build.names"
    "${copier[@]}" --redefine-syms="$2/$build.names" "$made"
}

# Makes the static library, in which no name but the header's is left for programs to meet: BUILT MADE. A note names the least
# processor, at which the system's loader looks.
make_archive() {
    local joined=() processor
    if [ "${processors[0]}" = aarch64 ]; then
        # There the toolchain has no archive that hands out memory: lines of C stand for it.
        compile "$2" library/constants.c -DREAMERTAN_PROCESSOR='"aarch64"'
        compile "$2" library/arm_memory.c
        joined=("$2/arm_memory.o" --whole-archive "$1/aarch64/libraptorq_c.a")
    elif [ ${#processors[@]} -eq 1 ]; then
        compile "$2" library/constants.c -DREAMERTAN_PROCESSOR="\"${processors[0]}\""
        joined=(-z "${processors[0]}" --whole-archive "$1/toolchain/liblibc_c.a" "$1/${processors[0]}/libraptorq_c.a")
    else
        compile "$2" library/constants.c
        compile "$2" library/choose.c
        joined=(-z "${processors[0]}" "$2/choose.o")
        for processor in "${processors[@]}"; do
            join_build "$1" "$2" "$processor"
            joined+=("$2/$processor.o")
        done
    fi
    "${linker[@]}" -r -o "$2/reamertan.o" "$2/constants.o" "${joined[@]}"
    "${copier[@]}" -w --keep-global-symbol='reamertan_*' "$2/reamertan.o"
    rm -f "$2/libreamertan.a"
    "${archiver[@]}" rcsD "$2/libreamertan.a" "$2/reamertan.o"
}

# Makes the shared library of what `make_archive` joined: MADE SONAME. Its calls have the version of the interface.
make_shared() {
    echo "REAMERTAN_${2##*.so.} { global: reamertan_*; local: *; };" >"$1/reamertan.map"
    "${compiler[@]}" -shared "${compiler_flags[@]}" -o "$1/libreamertan.so" -Wl,-soname,"$2" -Wl,-z,defs,-z,relro,-z,now \
        -Wl,--version-script,"$1/reamertan.map" "$1/reamertan.o" "${linker_flags[@]}"
}

# Links a program, with all its builds: BUILT MADE NAME.
make_program() {
    local made=$2/$3 processor build builds=() objects=()
    for processor in "${processors[@]}"; do
        build=v${processor##*-v}
        "${copier[@]}" --remove-section=.note.gnu.property --redefine-sym main="${build}_main" "$1/$processor/$3.o" "$made-$build.o"
        "${copier[@]}" --keep-global-symbol="${build}_main" "$made-$build.o"
        builds+=("-DREAMERTAN_${build^^}") objects+=("$made-$build.o")
    done
    compile "$2" library/main.c "${builds[@]}"
    "${compiler[@]}" "${compiler_flags[@]}" -o "$made" "$2/main.o" "${objects[@]}" "$1"/toolchain/lib{os,libc}_c.a \
        -Wl,--gc-sections,-z,relro,-z,now "${linker_flags[@]}"
}

# The number N of x86-64-vN of this machine, and 0 where it is another one. A shell of its own takes its folder away, also where it is ended.
level() (
    [ "$(uname -m)" = x86_64 ] || { echo 0 && return; }
    asks=$(mktemp -d)
    trap 'rm -r "$asks"' EXIT
    printf '#include "processor.h"\n#include <stdio.h>\nint main(void) { printf("%%d\\n", processor_level()); }\n' >"$asks/level.c"
    "${compiler[@]}" -I "$top/library" "$asks/level.c" -o "$asks/level" && "$asks/level" ||
        fail "a program that asks for the processor can't be built, or not run in $asks: TMPDIR names another folder"
)

# Refuses a library that answers another version than the header's: MADE.
try_library() {
    "${compiler[@]}" -std=c11 -I "$top/include" "${compiler_flags[@]}" -o "$1/asks" -x c - -x none "$1/libreamertan.a" \
        "${linker_flags[@]}" <<'TEXT'
#include "reamertan.h"
int main(void) { return reamertan_version() != REAMERTAN_VERSION; }
TEXT
    "$1/asks" || fail "the library that was built answers another version than include/reamertan.h says"
}

# Makes the library and programs for x86-64, and tries them where this machine has a processor for them: BUILT MADE SONAME.
make_all() {
    local program words found
    make_archive "$1" "$2"
    make_shared "$2" "$3"
    for program in "${PROGRAMS[@]}"; do
        make_program "$1" "$2" "${program%% *}"
    done
    found=$(level)
    [ "$found" -ge "${processors[0]##*-v}" ] || return 0
    try_library "$2"
    three_bytes >"$2/three"
    for program in "${PROGRAMS[@]}"; do
        read -ra words <<<"$program"
        "$2/${words[0]}" "${words[@]:1}" <"$2/three" >/dev/null 2>"$2/told" || { cat "$2/told" >&2 && fail "$program doesn't run"; }
    done
}
