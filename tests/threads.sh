#!/usr/bin/env bash
# The archive's calls keep nothing between them: two threads on two records get what each gets alone, on one circuit and on two. First
# it is tried whether a fault would be found.
# bash tests/threads.sh [SEED] [COUNT]: another seed, more pairs of plays.
source "$(dirname "${BASH_SOURCE[0]}")/host.bash"
need_c
need_archive
build_c "$work/threads" tests/threads.c tests/row_texts.c tests/sides.c tests/records.c tests/circuits.c $oracle

names=$(run "$work/threads" --self-test-names) && [ -n "$names" ] || exit 1
finds "$work/threads" 'threads: mismatch: ' $names
run "$work/threads" "$@"
