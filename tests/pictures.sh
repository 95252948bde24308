#!/usr/bin/env bash
# The pictures of docs/pictures, NAME by NAME: the gateway program makes NAME.trace of NAME.csv and NAME.script, the player of traces gives
# the answers that stand in it, and tests/pictures.py draws NAME.svg from it, all to the byte; docs/OPERATING.md shows it.
# `bash tests/pictures.sh anew` writes traces and pictures anew.
source "$(dirname "${BASH_SOURCE[0]}")/host.bash"
need_programs
folder=docs/pictures
names=$(python3 tests/pictures.py --names) || exit 1

# make_trace NAME: in the work folder. The gateway's status is 1 where a script has calls that are refused.
make_trace() {
    { echo "trace $work/$1.trace" && cat "$folder/$1.script"; } | run $gateway "$folder/$1.csv" >"$work/printed" 2>&1
    [ "${PIPESTATUS[1]}" -le 1 ] || { cat "$work/printed" && exit 1; }
}

# same NAME.SUFFIX WHAT: the file in the work folder is the one that is kept
same() {
    cmp "$work/$1" "$folder/$1" || { echo "pictures: $folder/$1 is not what $2; 'bash tests/pictures.sh anew' writes it anew" && exit 1; }
}

for name in $names; do
    make_trace "$name"
done
if [ "${1:-}" = anew ]; then
    for name in $names; do
        cp "$work/$name.trace" $folder/ || exit 1
    done
    python3 tests/pictures.py $folder
    exit
fi

python3 tests/pictures.py "$work" || exit 1
for name in $names; do
    same "$name.trace" "the gateway program makes of its rows and script"
    run $replay <"$folder/$name.trace" | cmp - <(grep '^<' "$folder/$name.trace") || { echo "pictures: the player answers $name.trace otherwise" && exit 1; }
    same "$name.svg" "tests/pictures.py draws from its trace"
    python3 -c 'import sys, xml.dom.minidom as dom; dom.parse(sys.argv[1])' "$folder/$name.svg" || exit 1
    grep -q -F "(pictures/$name.svg)" docs/OPERATING.md || { echo "pictures: docs/OPERATING.md does not show $name.svg" && exit 1; }
    echo "pictures: $name, $(grep -c '^<' "$folder/$name.trace") answers"
done
for file in "$folder"/*; do
    grep -q -x "$(basename "${file%.*}")" <<<"$names" || { echo "pictures: tests/pictures.py draws nothing from $file" && exit 1; }
done
