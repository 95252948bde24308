#!/usr/bin/env bash
# The stored circuits of crates/cases are those that tests/stored_circuits.py makes, with the answers that stand there by hand; the
# independent program prints of them what the program of crates/cases must print, scans and all; and it gives every answer of the stored
# trace, which stand in tests/stored_traces.py by hand too.
source "$(dirname "${BASH_SOURCE[0]}")/host.bash"
need python3 python3
need diff diffutils
need_c
python3 tests/stored_circuits.py "$work/cases" || exit 1
for part in data args; do
    diff -r "$work/cases/$part" crates/cases/$part || exit 1
done
grep -v -E '^[^ ]* (scan|analog|nine scans:) ' crates/cases/stdout | diff "$work/cases/stdout" - || exit 1
grep -F -x -f "$work/cases/nine_scans" crates/cases/stdout | diff "$work/cases/nine_scans" - || exit 1
echo "stored: $(wc -l <crates/cases/args) circuits"

$cc -std=c11 $warnings -O2 -Iinclude -Ioracle -o "$work/stored" tests/stored.c $oracle || exit 1
(cd crates/cases/data && run "$work/stored" $(cat ../args)) >"$work/lines" || exit 1
diff crates/cases/stdout "$work/lines" || { echo "stored: the oracle prints other lines" && exit 1; }
echo "stored: by the oracle the same $(wc -l <"$work/lines") lines"

build_by_oracle "$work/player" $replay_sources
run "$work/player" <tests/data/cases.trace | diff <(grep '^<' tests/data/cases.trace) - >"$work/differs" ||
    { cut -c1-200 "$work/differs" && echo "stored: the oracle plays the stored trace otherwise" && exit 1; }
echo "stored: by the oracle the same answers to the stored trace"
