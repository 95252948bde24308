#!/usr/bin/env bash
# Compares the archive's serifdove_check_profile with the oracle on all small cases and on 500,000 circuits near each limit of 0BA6, and
# serifdove_check on the same; first it is tried whether a mismatch would be found.
# bash tests/profile.sh [SEED] [COUNT]: another seed, a longer run.
source "$(dirname "${BASH_SOURCE[0]}")/host.bash"
need_c
need_archive
build_c "$work/profile" tests/profile.c tests/guarded.c tests/sides.c tests/constructed.c tests/circuits.c $oracle

names=$(run "$work/profile" --self-test-names) && [ -n "$names" ] || exit 1
finds "$work/profile" 'profile: mismatch: ' $names

# the two parts take about as long
run "$work/profile" --others "$@" >"$work/others" 2>&1 &
others=$!
run "$work/profile" --blocks "$@"
blocks=$?
wait "$others"
others=$?
cat "$work/others"
[ "$blocks" -eq 0 ] && [ "$others" -eq 0 ]
