#!/usr/bin/env bash
# Compares the archive's calls on a record with the oracle, call by call and word by word, on at least 300,000 calls; first it is tried
# whether a mismatch would be found. A mismatch is printed as a trace, which host/replay.c plays.
# bash tests/traces.sh [SEED] [COUNT]: another seed, a longer run.
source "$(dirname "${BASH_SOURCE[0]}")/host.bash"
need_c
need_archive
build_c "$work/traces" tests/traces.c tests/wrong_sides.c tests/wrong_kinds.c tests/sweeps.c tests/plays.c tests/calls.c tests/ends.c \
    tests/records.c tests/guarded.c tests/sides.c tests/constructed.c tests/circuits.c $oracle

names=$(run "$work/traces" --self-test-names) && [ -n "$names" ] || exit 1
finds "$work/traces" '# traces: mismatch: ' $names
run "$work/traces" "$@"
