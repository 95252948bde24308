#!/usr/bin/env bash
# Compares the archive's serifdove_read_rows and serifdove_write_rows with the oracle on 1,000,000 texts, and on circuits, byte by byte; first
# it is tried whether a mismatch would be found.
# bash tests/rows_compare.sh [SEED] [COUNT]: another seed, a longer run.
source "$(dirname "${BASH_SOURCE[0]}")/host.bash"
need_c
need_archive
build_c "$work/rows_compare" tests/rows_compare.c tests/row_texts.c tests/wrong_rows.c tests/wrong_kinds.c tests/guarded.c tests/sides.c \
    tests/constructed.c tests/circuits.c $oracle

names=$(run "$work/rows_compare" --self-test-names) && [ -n "$names" ] || exit 1
finds "$work/rows_compare" 'rows: mismatch: ' $names
run "$work/rows_compare" "$@"
