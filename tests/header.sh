#!/usr/bin/env bash
# The header alone, as C11 and as C++17; then a host in each that links the archive, checks document 01's circuit, runs it for a scan, writes
# it out as rows and reads them.
source "$(dirname "${BASH_SOURCE[0]}")/host.bash"
need_c
need_cxx
need_archive

# alone COMPILER STANDARD SUFFIX: a file that includes the header twice and has nothing else of use
alone() {
    printf '#include "serifdove.h"\n#include "serifdove.h"\nextern int nothing;\n' >"$work/alone.$3"
    $1 "-std=$2" $warnings -Iinclude -c -o "$work/alone.o" "$work/alone.$3" || exit 1
    echo "header: alone, $2: $($1 --version | head -n 1)"
}

# answers PROGRAM STANDARD: document 01's line
answers() {
    local line
    line=$(run "$1")
    local status=$?
    echo "header: linked, $2: $line"
    [ "$status" -eq 0 ] && [ "$line" = "0 0 1 1" ] || exit 1
}

alone "$cc" c11 c
alone "$cxx" c++17 cc
build_c "$work/host_c" tests/header.c
answers "$work/host_c" c11
cp tests/header.c "$work/header.cc"
build_cxx "$work/host_cxx" "$work/header.cc"
answers "$work/host_cxx" c++17
