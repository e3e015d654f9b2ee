#!/usr/bin/env bash
# What is put in place beside the library and programs, and where. `install` and `release` source this, behind objects.sh.

: "${top:?the folder of the repository}" "${made:?a scratch folder}" "${staged:?the tree}"
declare -a processors

# Prints one of the numbers of the version, by the header. `.ci/outside` compares all places where they stand.
number() {
    sed -n "s/^#define REAMERTAN_VERSION_$1 \([0-9]*\)$/\1/p" "$top/include/reamertan.h"
}

version=$(number MAJOR).$(number MINOR).$(number PATCH)
# A program that loads the library goes on with a later one of the same interface.
interface=$(number MAJOR)
[ "$interface" != 0 ] || interface=0.$(number MINOR)
soname=libreamertan.so.$interface

# What the library is for, in few words.
architecture() {
    if [ ${#processors[@]} -gt 1 ]; then
        printf '%s\n' "${processors[@]%-v*}" | uniq | paste -sd ' ' | sed 's/ / and /'
    else
        echo "${processors[0]}"
    fi
}

# The file for pkg-config: PREFIX LIBDIR, which is below PREFIX.
write_pkgconfig() {
    cat <<TEXT
prefix=$1
libdir=\${prefix}/$2
includedir=\${prefix}/include
processor=$(architecture)

Name: reamertan
Description: RaptorQ erasure codec (RFC 6330) that is proved
Version: $version
Cflags: -I\${includedir}
Libs: -L\${libdir} -lreamertan
TEXT
}

# The files for `find_package(reamertan)` of CMake: LIBDIR, which is below PREFIX. Where they stand says where PREFIX is.
write_cmake() {
    cat <<TEXT
# reamertan::reamertan is the shared library where there is one, and else the static one; reamertan::static is that.
get_filename_component(_reamertan_libdir "\${CMAKE_CURRENT_LIST_DIR}/../.." REALPATH)
get_filename_component(_reamertan_include "\${_reamertan_libdir}/$(sed 's|[^/][^/]*|..|g' <<<"$1")/include" ABSOLUTE)
if(NOT TARGET reamertan::reamertan)
  add_library(reamertan::static STATIC IMPORTED)
  set_target_properties(reamertan::static PROPERTIES
    IMPORTED_LOCATION "\${_reamertan_libdir}/libreamertan.a"
    INTERFACE_INCLUDE_DIRECTORIES "\${_reamertan_include}")
  if(EXISTS "\${_reamertan_libdir}/$soname")
    add_library(reamertan::reamertan SHARED IMPORTED)
    set_target_properties(reamertan::reamertan PROPERTIES
      IMPORTED_LOCATION "\${_reamertan_libdir}/$soname"
      INTERFACE_INCLUDE_DIRECTORIES "\${_reamertan_include}")
  else()
    add_library(reamertan::reamertan INTERFACE IMPORTED)
    set_target_properties(reamertan::reamertan PROPERTIES INTERFACE_LINK_LIBRARIES reamertan::static)
  endif()
endif()
TEXT
}

# Which versions that `find_package` is asked for this one is: those of its interface that aren't later.
write_cmake_version() {
    cat <<TEXT
set(PACKAGE_VERSION $version)
if(PACKAGE_FIND_VERSION VERSION_GREATER_EQUAL $interface AND PACKAGE_FIND_VERSION VERSION_LESS_EQUAL PACKAGE_VERSION)
  set(PACKAGE_VERSION_COMPATIBLE TRUE)
endif()
if(PACKAGE_FIND_VERSION VERSION_EQUAL PACKAGE_VERSION)
  set(PACKAGE_VERSION_EXACT TRUE)
endif()
TEXT
}

# The scripts of examples/ over the programs.
readonly SCRIPTS=(carousel diode many relay)
# The pages for users, which stand in packages as they do here, so that their links to each other hold.
readonly PAGES=(README.md docs/SEND.md docs/C.md docs/CELLS.md)

# From which commit each build was proved, and by which toolchain: BUILT PROCESSOR..
write_proved() {
    local processor
    for processor in "${@:2}"; do
        echo "  $processor: $(cat "$1/$processor/PROVED")"
    done
}

# What is linked in beside this repository, and under which licence: BUILT.
write_linked() {
    cat <<TEXT
Reamertan $version, for $(architecture). Its licence is in LICENSE (Apache-2.0).

Programs and libraries also hold compiled code that comes with the toolchain which proved them:

- of its standard library, and of the functions in C by which that takes memory, reads and writes. The toolchain
  has no file that says under which licence. Ask whoever gave it to you before you hand these files on.
- of its crates ${LINKED// /, }, which are after the Rust crates of these names, as far as they are
  called. Their licences are in licences.

They take memory from the system's C library. What was proved:

TEXT
    write_proved "$1" "${processors[@]}"
}

# Puts a file into the tree: MODE FILE PLACE.
stage() {
    command install -D -m "$1" "$2" "$staged/$3"
}

# The pages: FOLDER.
stage_pages() {
    local page
    for page in "${PAGES[@]}"; do stage 644 "$top/$page" "$1/$page"; done
}

stage_documents() {
    local crate file
    stage_pages share/doc/reamertan
    stage 644 "$top/LICENSE" share/doc/reamertan/LICENSE
    write_linked "$1" >"$made/LINKED"
    stage 644 "$made/LINKED" share/doc/reamertan/LINKED
    for crate in $LINKED; do
        for file in "$1/toolchain/licences/$crate"/*; do
            stage 644 "$file" "share/doc/reamertan/licences/$crate/$(basename "$file")"
        done
    done
}

# What programs in C are compiled with, but the library: FOLDER of the header, LIBDIR.
stage_development() {
    stage 644 "$top/include/reamertan.h" "$1/reamertan.h"
    stage 644 "$made/reamertan.pc" "$2/pkgconfig/reamertan.pc"
    write_cmake "${2#usr/}" >"$made/reamertan-config.cmake"
    write_cmake_version >"$made/reamertan-config-version.cmake"
    stage 644 "$made/reamertan-config.cmake" "$2/cmake/reamertan/reamertan-config.cmake"
    stage 644 "$made/reamertan-config-version.cmake" "$2/cmake/reamertan/reamertan-config-version.cmake"
}

# What is there for x86-64 alone: LIBDIR.
stage_programs() {
    local program script
    stage 755 "$made/libreamertan.so" "$1/libreamertan.so.$version"
    ln -s "libreamertan.so.$version" "$staged/$1/$soname"
    ln -s "$soname" "$staged/$1/libreamertan.so"
    for program in "${PROGRAMS[@]%% *}"; do
        stage 755 "$made/$program" "bin/$program"
        sed "s/@VERSION@/$version/" "$top/docs/$program.1" >"$made/$program.1"
        stage 644 "$made/$program.1" "share/man/man1/$program.1"
    done
    stage 644 "$top/docs/rqcast.bash" share/bash-completion/completions/rqcast
    for script in "${SCRIPTS[@]}"; do stage 755 "$top/examples/$script" "share/doc/reamertan/examples/$script"; done
}

# Puts all files into the tree `staged`, of what was made in `made`: BUILT PREFIX LIBDIR.
stage_all() {
    local example
    write_pkgconfig "$2" "$3" >"$made/reamertan.pc"
    stage_development include "$3"
    stage 644 "$made/libreamertan.a" "$3/libreamertan.a"
    sed "s/@VERSION@/$version/" "$top/docs/reamertan.3" >"$made/reamertan.3"
    stage 644 "$made/reamertan.3" share/man/man3/reamertan.3
    for example in "$top"/examples/*.c; do stage 644 "$example" "share/doc/reamertan/examples/${example##*/}"; done
    stage_documents "$1"
    [ "${processors[0]}" = aarch64 ] || stage_programs "$3"
}
