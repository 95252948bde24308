#!/usr/bin/env bash
# Compares the archive's serifdove_check with the oracle on 2,000,000 inputs; first it is tried whether a mismatch would be found.
# bash tests/compare.sh [SEED] [COUNT]: another seed, a longer run.
source "$(dirname "${BASH_SOURCE[0]}")/host.bash"
need_c
need_archive
build_c "$work/compare" tests/compare.c tests/wrong_kinds.c tests/guarded.c tests/sides.c tests/constructed.c tests/circuits.c $oracle

names=$(run "$work/compare" --self-test-names) && [ -n "$names" ] || exit 1
finds "$work/compare" 'compare: mismatch: ' $names
run "$work/compare" "$@"
