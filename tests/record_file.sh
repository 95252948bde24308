#!/usr/bin/env bash
# Record files, host/record_file.c: round trips; damaged, forged and foreign files; names that cannot be saved to; several processes at
# once; a process that is killed while it saves. First it is tried whether a fault would be found.
source "$(dirname "${BASH_SOURCE[0]}")/host.bash"
need_c
need_archive
wrapped=()
for call in open flock ftruncate write fsync rename; do
    wrapped+=("-Wl,--wrap=$call")
done
build_c "$work/record_file" "${wrapped[@]}" tests/record_file.c host/record_file.c host/files.c tests/records.c tests/circuits.c

cd "$work" || exit 2
names=$(run ./record_file --self-test-names) && [ -n "$names" ] || exit 1
finds ./record_file 'record_file: mismatch: ' $names
run ./record_file
