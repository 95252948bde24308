#!/usr/bin/env bash
# The gateway, started over and over with circuits and commands by chance, and killed at any moment, most often while it saves: what it
# prints is as expected, and no record file is ever torn, refused or another's. First it is tried whether a fault would be found.
# bash tests/soak.sh [--minutes N] [--seed S]: longer (1 minute if none is named), or again the circuits and commands that a seed gave;
# the moments of the kills are others each time. On a mismatch the files are kept.
source "$(dirname "${BASH_SOURCE[0]}")/host.bash"
words=("$@")
for ((i = 0; i < $#; i += 2)); do
    case ${words[i]} in
    --minutes | --seed) ;;
    *) echo "usage: soak.sh [--minutes N] [--seed S]" >&2 && exit 2 ;;
    esac
done
need_c
need_archive
build_gateway
cp $gateway "$work/gateway" || exit 2
build_c "$work/soak" tests/soak.c host/record_file.c host/files.c tests/records.c tests/circuits.c

# soak WORD..: in $folder
soak() {
    run "$work/soak" "$@" -- "$folder" "${runner[@]}" "$work/gateway"
}

for name in torn_file first_save_back file_lost another_word another_line; do
    folder=$work/$name
    mkdir "$folder" || exit 2
    soak --minutes 0.2 --seed 1 --self-test $name >"$work/found" 2>&1
    [ $? -eq 1 ] && grep -q '^soak: mismatch: ' "$work/found" || { echo "soak: self-test $name: not found" && cat "$work/found" && exit 1; }
    echo "soak: self-test $name: found: $(grep -m 1 '^soak: mismatch: ' "$work/found" | cut -c17-120)"
done

folder=$(mktemp -d) || exit 2
soak "$@" || { status=$? && rmdir "$folder" 2>/dev/null; exit $status; }
rm -r "$folder"
