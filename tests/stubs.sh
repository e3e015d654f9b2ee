#!/usr/bin/env bash
# The stand-in for the toolchain in the tests of `install` and `release`, which source this. It makes programs that end at once, and
# libraries whose calls answer the number ANSWERED; in those for x86-64-vN one call answers N.

: "${top:?the folder of the repository}" "${scratch:?a scratch folder}"
export KIT=$scratch/kit ANSWERED
# Nobody's settings.
unset CC LD OBJCOPY AR NM CFLAGS LDFLAGS LIBDIR DESTDIR

# Passes over where a program isn't installed: PROGRAM..
need() {
    local program
    for program in "$@"; do
        command -v "$program" >/dev/null || { echo "passed over: $program isn't installed" && exit 0; }
    done
    [ "$(uname -m)" = x86_64 ] || { echo "passed over: this machine isn't x86-64" && exit 0; }
}

failed() {
    echo "${0##*/}: $1" >&2
    exit 1
}

# The version of the header here, in one number.
version() {
    sed -n 's/^#define REAMERTAN_VERSION_\(MAJOR\|MINOR\|PATCH\) //p' include/reamertan.h | awk '{ sum = 1000 * sum + $1 } END { print sum }'
}

make_toolchain() {
    local crate
    mkdir -p "$scratch/bin" "$KIT/c"
    for crate in $(sed -n 's/^readonly LINKED="\(.*\)"$/\1/p' "$top/packaging/objects.sh"); do
        install -D -m 644 "$top/LICENSE" "$KIT/rattle/$crate/LICENSE"
    done
    ar rcs "$KIT/c/liblibc_c.a"
    ar rcs "$KIT/c/libos_c.a"
    cat >"$scratch/bin/rt" <<'TEXT'
#!/bin/sh
mkdir -p out
cc=cc
[ "${2-}" != --target ] || cc=aarch64-linux-gnu-gcc
case $1 in
    doc) echo "$KIT/START-HERE.md" ;;
    version) echo "a stand-in" ;;
    run) cat >/dev/null && echo 'int main(void) { return 0; }' | cc -fPIC -c -x c - -o "out/$(basename "$PWD").o" ;;
    lib)
        sed -n 's/^[a-z].*\(reamertan_[a-z_]*\)(.*/\1/p' ../../include/reamertan.h | grep -vE '_(answer_text|processor)$' |
            sed "s/.*/unsigned &(void) { return $ANSWERED; }/; s/\(_plan_share.*return\) [0-9]*\(.*\)/\1 0\2/" >out/calls.c
        [ "$2" != --cpu ] || sed -i "s/\(_plan_share.*return\) 0/\1 ${3##*-v}/" out/calls.c
        "$cc" -fPIC -c out/calls.c -o out/calls.o && ar rcs out/libraptorq_c.a out/calls.o
        ;;
esac
TEXT
    chmod +x "$scratch/bin/rt"
    export PATH=$scratch/bin:$PATH
}
