# Sourced by the host tests and the bench: the compilers, how a program is run, the archive.
# The archive is for x86-64. On another machine programs are built by a cross compiler and run by an emulator.
set -u
cd "$(dirname "${BASH_SOURCE[0]}")/.." || exit 2
work=$(mktemp -d) || exit 2
trap 'rm -rf "$work"' EXIT

warnings="-Wall -Wextra -Werror -pedantic"
archive=${SERIFDOVE_ARCHIVE:-crates/serifdove/out/libserifdove.a}
oracle="oracle/check.c oracle/rules.c oracle/scan.c oracle/rows.c"
if [ "$(uname -m)" = x86_64 ]; then
    emulated=no
    cc=gcc cxx=g++
    runner=()
else
    emulated=yes
    cc=x86_64-linux-gnu-gcc cxx=x86_64-linux-gnu-g++
    runner=(qemu-x86_64 -L /usr/x86_64-linux-gnu)
fi

# install PACKAGE..: Debian packages
install() {
    echo "host: installing $*"
    export DEBIAN_FRONTEND=noninteractive
    { apt-get update && apt-get -o DPkg::Lock::Timeout=300 install -y "$@"; } >"$work/apt" 2>&1 </dev/null && return
    tail -n 20 "$work/apt"
    exit 2
}

# need COMMAND PACKAGE..: installs them where the command is missing
need() {
    command -v "$1" >/dev/null 2>&1 || install "${@:2}"
}

# what runs a program
need_runner() {
    [ "$emulated" = no ] || need qemu-x86_64 qemu-user
    [ "$emulated" = no ] || [ -d /usr/x86_64-linux-gnu ] || install libc6-amd64-cross
}

need_c() {
    need_runner
    if [ "$emulated" = no ]; then need gcc gcc libc6-dev; else need "$cc" gcc-x86-64-linux-gnu libc6-dev-amd64-cross; fi
}

need_cxx() {
    if [ "$emulated" = no ]; then need g++ g++; else need "$cxx" g++-x86-64-linux-gnu; fi
}

# is_stale FILE: it is missing, or older than a source; a crate's out/ holds none
is_stale() {
    [ ! -f "$1" ] || [ crates.txt -nt "$1" ] || [ -n "$(find crates -mindepth 2 -path 'crates/*/out' -prune -o -newer "$1" -print -quit)" ]
}

# What the proving of the archive prints, line by line. A script that shows progress has its own.
show_progress() {
    cat >/dev/null
}

# what proves
need_rt() {
    command -v rt >/dev/null 2>&1 || { echo "host: the Rattle toolchain is needed to prove the $1, and its command rt is not found" >&2 && exit 2; }
}

# Makes the archive, for every x86-64, where it is missing or older than a source. SERIFDOVE_ARCHIVE names another one, taken as it is.
need_archive() {
    if [ -z "${SERIFDOVE_ARCHIVE:-}" ] && is_stale "$archive"; then
        need_rt archive
        echo "host: rt lib --cpu=x86-64, in crates/serifdove"
        (cd crates/serifdove && rt lib --cpu=x86-64) 2>&1 </dev/null | tee "$work/archive" | show_progress
        [ "${PIPESTATUS[0]}" -eq 0 ] || { cat "$work/archive" && exit 1; }
    fi
    [ -f "$archive" ] || { echo "host: there is no $archive" && exit 1; }
    echo "host: $archive, $("$cc" --version | head -n 1), emulated: $emulated"
}

# Makes the program check_circuit, likewise; `rt run` also runs it, here on no byte.
program=crates/check_circuit/out/check_circuit
need_program() {
    is_stale "$program" || return 0
    need_rt program
    echo "host: rt run, in crates/check_circuit"
    (cd crates/check_circuit && rt run) >"$work/program" 2>&1 </dev/null || { cat "$work/program" && exit 1; }
    touch "$program"
}

# build_c OUT FILE..: a program of these C files and the archive
build_c() {
    $cc -std=c11 $warnings -O2 -Iinclude -Ioracle -Itests -pthread -o "$1" "${@:2}" "$archive" || exit 1
}

# The host's programs, made in target/host.
replay=target/host/replay
replay_sources="host/replay.c host/trace.c"
circuit_file="host/circuit_file.c host/series.c host/row_text.c host/refusals.c host/circuit.c host/files.c"
rows=target/host/rows
rows_sources="host/rows.c $circuit_file"
gateway=target/host/gateway
gateway_sources="host/gateway.c host/box.c host/look.c host/words.c host/record_file.c host/trace.c $circuit_file"
build_replay() {
    mkdir -p target/host
    build_c $replay $replay_sources
}

build_rows() {
    mkdir -p target/host
    build_c $rows $rows_sources
}

build_gateway() {
    mkdir -p target/host
    build_c $gateway $gateway_sources
}

# What a test of these programs needs: Python, diff and cmp, the compiler, the archive, the programs.
need_programs() {
    need python3 python3
    need diff diffutils
    need_c
    need_archive
    build_replay
    build_rows
    build_gateway
}

# make_circuit CSV CIRCUIT: by the program rows
make_circuit() {
    run $rows "$1" "$2" >"$work/made" || exit 1
}

# page_lines PAGE NAME: the lines of the page's blocks of this name
page_lines() {
    awk -v name="\`\`\`$2" '$0 == name { inside = 1; next } $0 == "```" { inside = 0 } inside' "$1"
}

# play_page PAGE NAME FOLDER: carries out the commands in the page's blocks of this name, in their order, in a folder in which the programs
# stand where the page says; they must print what it shows. Leaves the blocks in $work/shown.
play_page() {
    local program line
    mkdir -p "$3/target/host" || exit 2
    for program in rows gateway; do
        { printf '#!/usr/bin/env bash\nexec' && printf ' %q' "${runner[@]}" "$PWD/target/host/$program" && printf ' "$@"\n'; } >"$3/target/host/$program"
        chmod +x "$3/target/host/$program"
    done
    page_lines "$1" "$2" >"$work/shown"
    while IFS= read -r line; do
        [ "${line:0:2}" != '$ ' ] || { echo "$line" && (cd "$3" && bash -c "${line:2}") 2>&1 </dev/null; }
    done <"$work/shown" >"$work/printed"
    diff "$work/shown" "$work/printed"
}

# The demo's program, and the circuit that it plays.
demo=target/host/demo
demo_sources="host/demo.c host/box.c host/record_file.c host/trace.c $circuit_file"
harbour=target/host/harbour.circuit
build_demo() {
    mkdir -p target/host
    build_c $demo $demo_sources
    build_rows
    make_circuit samples/harbour.csv $harbour
}

# build_by_oracle OUT FILE..: a program of these C files, with the oracle's calls for the archive's
build_by_oracle() {
    local call by_the_oracle=()
    for call in check check_profile cold_start warm_start latch run publish read_rows write_rows; do
        by_the_oracle+=("-Dserifdove_$call=oracle_$call")
    done
    $cc -std=c11 $warnings -O2 -Iinclude -Ioracle "${by_the_oracle[@]}" -o "$1" "${@:2}" $oracle || exit 1
}

build_cxx() {
    $cxx -std=c++17 $warnings -O2 -Iinclude -o "$1" "${@:2}" "$archive" || exit 1
}

# run PROGRAM WORD..
run() {
    "${runner[@]}" "$@"
}

# found PROGRAM MISMATCH NAME: by `--self-test NAME` the program is told to meet a fault; it must print a line that begins so, with status 1
found() {
    local status told="$work/found.$3"
    run "$1" --self-test "$3" >"$told" 2>&1
    status=$?
    if [ "$status" -ne 1 ] || ! grep -q "^$2" "$told"; then
        echo "${1##*/}: self-test $3: not found (status $status)"
        cut -c1-200 "$told"
        return 1
    fi
    echo "${1##*/}: self-test $3: found"
}

# finds PROGRAM MISMATCH NAME..: each of them, two at a time
finds() {
    local program=$1 mismatch=$2 name pid
    shift 2
    while [ $# -gt 0 ]; do
        local pids=()
        for name in "${@:1:2}"; do
            found "$program" "$mismatch" "$name" &
            pids+=($!)
        done
        for pid in "${pids[@]}"; do
            wait "$pid" || exit 1
        done
        shift $(($# > 1 ? 2 : 1))
    done
}
