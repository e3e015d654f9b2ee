#!/usr/bin/env bash
# Makes the Debian packages. `release` sources this, behind staging.sh.

: "${top:?the folder of the repository}" "${work:?a scratch folder}" "${version:?of the header}" "${soname:?of the library}" "${interface:?of both}"
# The objects, and where packages are put, which are named later.
built=${built-} out=${out-}
readonly MAINTAINED_BY=${MAINTAINER:-Reamertan <reamertan@example.org>}
readonly SUMMARY="RaptorQ erasure codec (RFC 6330) that is proved"
readonly X86_LIBRARIES=usr/lib/x86_64-linux-gnu ARM_LIBRARIES=usr/lib/aarch64-linux-gnu
# The name of the package of the shared library is that of its interface.
readonly LIBRARY=libreamertan${soname##*.so.}

# Begins a package: NAME ARCHITECTURE.
begin() {
    package=$1 architecture=$2
    staged=$work/deb/$1_$2
    mkdir -p "$staged/DEBIAN"
}

# The KB that a package takes, as dpkg counts: each file by itself, and 1 for what is none.
installed_size() {
    find "$staged" -mindepth 1 -path "$staged/DEBIAN" -prune -o -type f -printf '%s\n' -o -printf '1\n' |
        awk '{ sum += int(($1 + 1023) / 1024) } END { print sum }'
}

# Writes what a package is: SECTION DEPENDS SUMMARY TEXT FIELDS..
write_control() {
    cat >"$staged/DEBIAN/control" <<TEXT
Package: $package
Source: reamertan
Version: $version-1
Architecture: $architecture
Maintainer: $MAINTAINED_BY
Installed-Size: $(installed_size)
${2:+Depends: $2
}Section: $1
Priority: optional
$(printf '%s\n' "${@:5}")
Description: $3
$(fold -sw 76 <<<"$4" | sed 's/^/ /; s/ *$//')
TEXT
    sed -i '/^$/d' "$staged/DEBIAN/control"
}

# The licences of what is linked in. Most crates are under the MIT licence or under Apache-2.0, as one likes.
write_licences() {
    local crate
    for crate in $LINKED; do
        printf '\nThe licence of %s:\n\n' "$crate"
        cat "$built/toolchain/licences/$crate/LICENSE-MIT" 2>/dev/null || cat "$built/toolchain/licences/$crate/LICENSE"
    done
}

# Under which licences a package is, and what is linked into it. It is the same for each architecture, so that packages of
# several can lie side by side.
write_copyright() {
    local processors=(x86-64-v2 x86-64-v3 aarch64)
    cat <<TEXT
Format: https://www.debian.org/doc/packaging-manuals/copyright-format/1.0/
Upstream-Name: reamertan
Comment:
$({ write_linked "$built" | sed 's/ LICENSE (Apache-2.0)/ Apache-2.0/; s/ in licences/ below/' && write_licences; } | sed 's/^/ /; s/^ *$/ ./')

Files: *
Copyright: 2026 the authors of Reamertan
License: Apache-2.0

License: Apache-2.0
 On Debian systems the licence is in /usr/share/common-licenses/Apache-2.0.
TEXT
}

# Ends a package, with its documents, and packs it.
finish() {
    local documents=$staged/usr/share/doc/$package
    mkdir -p "$documents"
    [ "$package" = "$LIBRARY" ] || stage_pages "usr/share/doc/$package"
    write_copyright >"$documents/copyright"
    printf 'reamertan (%s-1) unstable; urgency=medium\n\n  * Version %s.\n\n -- %s  %s\n' "$version" "$version" \
        "$MAINTAINED_BY" "$(date -uR -d "@$SOURCE_DATE_EPOCH")" | gzip -9n >"$documents/changelog.Debian.gz"
    write_control "$@"
    (cd "$staged" && find usr -type f | sort | xargs md5sum >DEBIAN/md5sums)
    find "$staged" -exec touch -h -d "@$SOURCE_DATE_EPOCH" {} +
    dpkg-deb --root-owner-group -Zxz --threads-max=1 --build "$staged" "$out/${package}_$version-1_$architecture.deb" >/dev/null
}

# The C library that programs and libraries ask for, by the greatest version of glibc that they name.
needed_glibc() {
    local greatest
    greatest=$(objdump -T "$@" | sed -n 's/.*(\{0,1\}GLIBC_\([0-9.]*\).*/\1/p' | sort -V | tail -n 1)
    echo "libc6${greatest:+ (>= $greatest)}"
}

make_library_deb() {
    begin "$LIBRARY" amd64
    stage 644 "$work/x86/libreamertan.so" "$X86_LIBRARIES/libreamertan.so.$version"
    ln -s "libreamertan.so.$version" "$staged/$X86_LIBRARIES/$soname"
    echo "libreamertan ${soname##*.so.} $LIBRARY (>= $version)" >"$staged/DEBIAN/shlibs"
    echo "$soname $LIBRARY #MINVER#" >"$staged/DEBIAN/symbols"
    nm -D --defined-only "$work/x86/libreamertan.so" | sed "s/.* //; s/@.*//; s/.*/ &@REAMERTAN_$interface $version/" | sort \
        >>"$staged/DEBIAN/symbols"
    echo "activate-noawait ldconfig" >"$staged/DEBIAN/triggers"
    finish libs "$(needed_glibc "$work/x86/libreamertan.so")" "$SUMMARY" \
        "This is the shared library. It holds builds for x86-64-v2 and x86-64-v3, and runs the greatest that the machine has." \
        "Multi-Arch: same"
}

# What programs in C are compiled with: ARCHITECTURE FOLDER ARCHIVE DEPENDS.
make_dev_deb() {
    # shellcheck disable=SC2034 # where `stage_development` finds what was made
    local example made=$work
    begin libreamertan-dev "$1"
    stage 644 "$3" "$2/libreamertan.a"
    write_pkgconfig /usr "${2#usr/}" >"$work/reamertan.pc"
    stage_development usr/include "$2"
    sed "s/@VERSION@/$version/; s/^\.BR rq/.BR reamertan\\\\-rq/" "$top/docs/reamertan.3" |
        sed 's|share/doc/reamertan/LINKED|/usr/share/doc/libreamertan-dev/copyright|; s|share/doc/reamertan|/usr/share/doc/libreamertan-dev|' |
        gzip -9n >"$work/reamertan.3.gz"
    stage 644 "$work/reamertan.3.gz" usr/share/man/man3/reamertan.3.gz
    for example in "$top"/examples/*.c; do stage 644 "$example" "usr/share/doc/libreamertan-dev/examples/${example##*/}"; done
    [ -z "$4" ] || ln -s "$soname" "$staged/$2/libreamertan.so"
    finish libdevel "$4" "$SUMMARY - for compiling" \
        "These are the header, the static library, the files for pkg-config and CMake, a man page and examples. For arm64 there is no shared library." \
        "Multi-Arch: same"
}

# python3-rq has a /usr/bin/rq: here that program has the name of this package before its own.
make_program_deb() {
    local program script programs=("${PROGRAMS[@]%% *}")
    begin reamertan amd64
    sed 's/^\(\.TH \)/\1REAMERTAN-/; s/\brq\b/reamertan\\-rq/g' "$top/docs/rq.1" >"$work/reamertan-rq.1"
    cp "$top/docs/rqcast.1" "$work/rqcast.1"
    stage 755 "$work/x86/rq" usr/bin/reamertan-rq
    stage 755 "$work/x86/rqcast" usr/bin/rqcast
    for program in reamertan-rq rqcast; do
        sed "s/@VERSION@/$version/; s/share\/doc\/reamertan\/LINKED/\/usr\/share\/doc\/reamertan\/copyright/" "$work/$program.1" | gzip -9n >"$work/$program.1.gz"
        stage 644 "$work/$program.1.gz" "usr/share/man/man1/$program.1.gz"
    done
    stage 644 "$top/docs/rqcast.bash" usr/share/bash-completion/completions/rqcast
    for script in "${SCRIPTS[@]}"; do stage 755 "$top/examples/$script" "usr/share/doc/reamertan/examples/$script"; done
    finish utils "$(needed_glibc "${programs[@]/#/$work/x86/}")" "sends files over links that lose data (RaptorQ, RFC 6330)" \
        "These are the programs rq and rqcast of Reamertan, the first as reamertan-rq. They make packets or cells of a file, and the file of any that determine it." \
        "Suggests: parallel, python3, socat"
}

make_debs() {
    make_library_deb
    make_dev_deb amd64 "$X86_LIBRARIES" "$work/x86/libreamertan.a" "$LIBRARY (= $version-1)"
    (
        # shellcheck disable=SC2034 # what `write_pkgconfig` names
        processors=(aarch64)
        make_dev_deb arm64 "$ARM_LIBRARIES" "$work/arm/libreamertan.a" ""
    )
    make_program_deb
}
