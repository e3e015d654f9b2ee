#!/usr/bin/env bash
# What checks/bare_release runs in a bare root, where /try has what it brought.
set -euo pipefail
export LC_ALL=C.UTF-8 DEBIAN_FRONTEND=noninteractive HOME=/root
cd /try

say() {
    echo "bare: $1"
}

failed() {
    echo "bare: $1" >&2
    exit 1
}

# Each file of the system, but what packages are kept by and what this makes.
listing() {
    find / -xdev \( -path /try -o -path /proc -o -path /sys -o -path /dev -o -path /tmp -o -path /run -o -path /var -o -path /root \) -prune -o \
        -not -name 'ld.so.cache*' -print | sort
}

# Writes a file that stands in a page: PAGE FILE.
take() {
    mkdir -p "$(dirname "$2")"
    awk -v file="$2" '/^```/ { inside = !inside && $2 == file; next } inside' "$1" >"$2"
}

# Sends the licence, loses each tenth frame, and receives it: RQ..
loss_demo() {
    "$@" send 1280 13 <LICENSE >stream
    # shellcheck disable=SC2016 # what split runs
    (head -c 12 && split -da6 -b1284 --filter='case $FILE in *7) ;; *) cat ;; esac') <stream >lossy
    "$@" receive <lossy >back
    cmp LICENSE back
}

# Sends the licence as cells, cuts some of them out and receives it: RQCAST..
cell_demo() {
    "$@" send --quiet --cell 300 --repair 20% LICENSE >cells
    (head -c 5000 cells && tail -c +5500 cells) | "$@" receive >back 2>told || { cat told >&2 && failed "cells weren't received"; }
    cmp LICENSE back
}

# The page's program in C.
first_in_c() {
    take C.md hello.c
    # shellcheck disable=SC2046 # flags of pkg-config
    cc hello.c $(pkg-config --cflags --libs reamertan) -o hello
    [ "$(./hello)" = "it came back" ] || failed "the page's program in C prints something else"
}

# Compiles an example in C and runs it: COMPILER.. -- FLAGS..
hello() {
    local compiler=()
    while [ "$1" != -- ]; do compiler+=("$1") && shift; done
    "${compiler[@]}" -std=c11 -O2 there_and_back.c -o hello "${@:2}"
    ./hello LICENSE stream >/dev/null
}

# Programs in C by a library in a folder: FOLDER FLAGS..
in_c() {
    local compiler
    for compiler in gcc clang; do
        # shellcheck disable=SC2046 # flags of pkg-config
        hello "$compiler" -- $(pkg-config --cflags --libs reamertan) "${@:2}"
        # shellcheck disable=SC2046
        hello "$compiler" -- $(pkg-config --cflags reamertan) "$1/libreamertan.a"
        # shellcheck disable=SC2046
        hello "$compiler" -static -- $(pkg-config --cflags reamertan) "$1/libreamertan.a"
    done
    # musl's compiler is to see none of glibc's headers.
    mkdir -p headers
    cp "$(pkg-config --variable=includedir reamertan)"/reamertan*.h headers
    hello musl-gcc -static -- -I headers "$1/libreamertan.a"
    say "hello in C, shared and static, with gcc and clang, and with musl"
}

# The example of two threads, by CMake: PREFIX DOCUMENTS.
by_cmake() {
    mkdir -p asks
    cat >asks/CMakeLists.txt <<'TEXT'
cmake_minimum_required(VERSION 3.16)
project(asks C)
find_package(Threads REQUIRED)
find_package(reamertan REQUIRED)
add_executable(threads threads.c)
target_link_libraries(threads reamertan::reamertan Threads::Threads)
TEXT
    cp "$2/examples/threads.c" asks/
    { cmake -S asks -B asks/made "-DCMAKE_PREFIX_PATH=$1" && cmake --build asks/made; } >printed 2>&1 || { cat printed >&2 && failed "CMake builds no program"; }
    ./asks/made/threads >/dev/null
    rm -r asks
    say "two threads over one encoder, by CMake"
}

# The emulator of an architecture, which Debian's suites name otherwise.
emulator() {
    command -v "qemu-$1-static" || command -v "qemu-$1"
}

# A processor of each level makes the same stream, and what is less than the least is refused: PROGRAM WORDS..
on_processors() {
    local processor status=0
    "$@" <LICENSE >stream 2>/dev/null || failed "$* ends with $?"
    for processor in Nehalem Haswell; do
        # It warns of features that it lacks.
        "$(emulator x86_64)" -cpu "$processor" "$@" <LICENSE 2>/dev/null | cmp - stream
    done
    "$(emulator x86_64)" -cpu core2duo "$@" <LICENSE >/dev/null 2>printed || status=$?
    [ "$status" -eq 127 ] && [ -s printed ] || failed "on a core2duo $1 ends with $status"
}

# What loads the library is refused there too.
on_core2duo() {
    local status=0
    # shellcheck disable=SC2046 # flags of pkg-config
    gcc there_and_back.c -o hello $(pkg-config --cflags --libs reamertan)
    "$(emulator x86_64)" -cpu core2duo ./hello LICENSE made >/dev/null 2>printed || status=$?
    [ "$status" -eq 127 ] && [ -s printed ] || failed "on a core2duo the loader ends with $status"
    say "Nehalem and Haswell make the same stream, and core2duo is refused with 127"
}

by_apt() {
    apt-get install --yes --quiet=2 ./out/reamertan_*.deb ./out/libreamertan*_amd64.deb >/dev/null
    first_in_c
    loss_demo reamertan-rq
    cell_demo rqcast
    zcat /usr/share/man/man1/reamertan-rq.1.gz | grep -q '^reamertan.-rq ' || failed "the man page has another name"
    zcat /usr/share/man/man1/rqcast.1.gz | grep -q '^rqcast ' || failed "the man page has another name"
    zcat /usr/share/man/man3/reamertan.3.gz | grep -q reamertan_encoder_share || failed "the library has no man page"
    by_cmake /usr /usr/share/doc/libreamertan-dev
    say "installed by apt, a stream without each tenth frame was received, and cells with a hole"
    in_c /usr/lib/x86_64-linux-gnu
    on_processors /usr/bin/reamertan-rq send 1280 13
    on_processors /usr/bin/rqcast send --quiet --cell 1280 --repair 13
    on_core2duo
}

on_arm() {
    local architecture
    architecture=$(dpkg --print-foreign-architectures)
    dpkg --add-architecture arm64
    dpkg --install ./out/libreamertan-dev_*_arm64.deb >/dev/null
    aarch64-linux-gnu-gcc -std=c11 -O2 -static there_and_back.c /usr/lib/aarch64-linux-gnu/libreamertan.a -o hello
    "$(emulator aarch64)" ./hello LICENSE arm_stream >/dev/null
    gcc there_and_back.c /usr/lib/x86_64-linux-gnu/libreamertan.a -o hello
    ./hello LICENSE x86_stream >/dev/null
    cmp arm_stream x86_stream
    dpkg --purge libreamertan-dev:arm64 >/dev/null
    [ -n "$architecture" ] || dpkg --remove-architecture arm64
    say "arm64's package lies beside amd64's, and makes the same stream"
}

unpacked() {
    mkdir -p /opt/reamertan
    tar -C /opt/reamertan --strip-components=1 -xzf out/reamertan-*-linux.tar.gz
    loss_demo /opt/reamertan/bin/rq
    cell_demo /opt/reamertan/bin/rqcast
    PKG_CONFIG_PATH=/opt/reamertan/lib/pkgconfig LD_LIBRARY_PATH=/opt/reamertan/lib first_in_c
    by_cmake /opt/reamertan /opt/reamertan/share/doc/reamertan
    PKG_CONFIG_PATH=/opt/reamertan/lib/pkgconfig in_c /opt/reamertan/lib -Wl,-rpath,/opt/reamertan/lib
    rm -r /opt/reamertan
    say "unpacked, and removed"
}

in_python() {
    python3 -m venv venv
    venv/bin/pip install --quiet --no-index out/*.whl
    venv/bin/python python/test >printed 2>&1 || { cat printed >&2 && failed "a test of Python's module fails"; }
    venv/bin/python -c 'import reamertan as raptorq
data = open("LICENSE", "rb").read()
packets = raptorq.Encoder.with_defaults(data, 1280).get_encoded_packets(3)
decoder = raptorq.Decoder.with_defaults(len(data), 1280)
assert [decoder.decode(packet) for packet in packets[3:]][-1] == data'
    take PYTHON.md hello.py
    [ "$(venv/bin/python hello.py)" = "it came back" ] || failed "the page's program in Python prints something else"
    venv/bin/pip uninstall --quiet --yes reamertan
    ! venv/bin/python -c 'import reamertan' 2>/dev/null || failed "pip leaves the module"
    say "the wheel, its tests and a script"
}

# A program that names the crate, over the package, also where a lock file names the one of crates.io.
in_rust() {
    local rustc words
    export PATH=/try/rust/bin:$PATH
    rustc=$(rustc --version 2>/dev/null || echo "rustc 1.0")
    rustc=${rustc#rustc 1.}
    [ "${rustc%%.*}" -ge 85 ] || { say "passed over: there is no Rust 1.85" && return; }
    tar -xzf out/raptorq-*.crate
    rm -f hello
    take RUST.md hello/Cargo.toml
    take RUST.md hello/src/main.rs
    cat >hello/Cargo.lock <<'TEXT'
version = 4

[[package]]
name = "hello"
version = "0.1.0"
dependencies = ["raptorq"]

[[package]]
name = "raptorq"
version = "2.0.1"
source = "registry+https://github.com/rust-lang/crates.io-index"
checksum = "0000000000000000000000000000000000000000000000000000000000000000"
TEXT
    for words in --offline "--offline --locked"; do
        # shellcheck disable=SC2086 # options of cargo
        [ "$(cd hello && cargo run --quiet $words)" = "it came back" ] || failed "the page's program in Rust prints something else"
    done
    (cd raptorq-2.0.1 && cargo test --quiet --release --offline >/dev/null)
    say "a program in Rust, over the package and an old lock, and the package's tests"
}

(cd out && sha256sum --quiet --check SHA256SUMS)
listing >before
by_apt
on_arm
apt-get purge --yes --quiet=2 reamertan libreamertan-dev 'libreamertan0*' >/dev/null
listing | diff before - || failed "purging the packages leaves these"
say "the packages were removed, and nothing is left"
unpacked
in_python
in_rust
listing | diff before - || failed "something is left of these"
say "nothing is left"
