#!/usr/bin/env bash
# Python's csv module writes rows of circuits by chance, and the archive reads them to the circuits' bytes; what the archive writes of
# circuits, Python reads to the same cells. First it is tried whether a fault would be found.
source "$(dirname "${BASH_SOURCE[0]}")/host.bash"
need python3 python3
need_c
need_archive
build_c "$work/rows_calls" tests/rows_calls.c

# it calls the archive by the program that is built here
cat >"$work/rows_python" <<END
#!/usr/bin/env bash
exec python3 tests/rows_python.py "\$@" ${runner[*]} $work/rows_calls
END
chmod +x "$work/rows_python"
runner=()
names=$(python3 tests/rows_python.py --self-test-names) && [ -n "$names" ] || exit 1
finds "$work/rows_python" 'rows_python: mismatch: ' $names
run "$work/rows_python"
