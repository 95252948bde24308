#!/usr/bin/env bash
# What the archive makes of products of either sign, which it divides by 100 without a division, against C's own quotient; first it is tried
# whether a mismatch would be found. bash tests/hundredths.sh --all: every gain with every input of 16 bits.
source "$(dirname "${BASH_SOURCE[0]}")/host.bash"
need_c
need_archive
build_c "$work/hundredths" tests/hundredths.c tests/circuits.c

names=$(run "$work/hundredths" --self-test-names) && [ -n "$names" ] || exit 1
finds "$work/hundredths" 'hundredths: mismatch: ' $names
run "$work/hundredths" "$@"
