#!/usr/bin/env bash
# The player of traces, target/host/replay: it plays the stored trace, whose answers stand there by hand, and long lines, and tells the
# line of each sort of malformed one.
source "$(dirname "${BASH_SOURCE[0]}")/host.bash"
need python3 python3
need cmp diffutils
need_c
need_archive
build_replay

python3 tests/stored_traces.py | cmp - tests/data/cases.trace || { echo "replay: tests/data/cases.trace is not what tests/stored_traces.py prints" && exit 1; }
run $replay <tests/data/cases.trace >"$work/answers" || exit 1
grep '^<' tests/data/cases.trace | cmp - "$work/answers" || { echo "replay: an answer of the stored trace is another" && exit 1; }
echo "replay: the stored trace, $(wc -l <"$work/answers") answers"

# says LINE: what the player prints of standard input, to the byte
says() {
    run $replay >"$work/line" 2>"$work/errors" || { cat "$work/errors" && exit 1; }
    [ ! -s "$work/errors" ] && [ "$(cat "$work/line")" = "$1" ] || { echo "replay: expected '$1', got '$(cut -c1-200 "$work/line")'" && exit 1; }
}

# nothing, what is passed over, a last line without its end, and the ends of 32 bits
says '' </dev/null || exit 1
printf '# a comment\n< passed over\n.\nC -\n' | says '' || exit 1
printf '> cold' | says '< 1 0 0 0 0 0' || exit 1
printf 'R 2 -2147483648 2147483647\nO 1 -0\nC 0100030100007f0000\n> run 4294967295\n' | says '< 20 0 0 0 2 -2147483648 2147483647 1 0' || exit 1
printf 'C 0100030100007F0000\nR 0\n> check\n> latch -2147483648 0\n' | says $'< 0 0 0 0 0 0\n< 20 0 0 0 0 0' || exit 1

# long lines: 400 blocks with a label each, a record of 1364 words; then far more words than any record has
long=010003010190$(for ((k = 0; k < 400; k++)); do printf 10000508000100012000104142434445464748494A4B4C4D4E4F50; done)7F0000
zeros=$(printf ' 0%.0s' {1..1364})
printf 'C %s\nR 1364%s\n> cold\n> check\n' "$long" "$zeros" >"$work/long"
run $replay <"$work/long" | awk '{ print $1, $2, $3, $4, $5, $6, NF }' | cmp - <(printf '< 0 0 0 0 1364 1371\n< 0 0 400 0 1364 1371\n') || exit 1
{ printf 'R 300000' && printf ' -1%.0s' {1..300000} && printf '\n> warm\n'; } >"$work/long"
run $replay <"$work/long" | awk '{ print $2, $6, NF }' | cmp - <(printf '1 300000 300007\n') || exit 1
echo "replay: long lines"

# refuses LINE: behind two good lines and one answer, it is told as line 4, with status 2
refuses() {
    printf '# one\nC -\n> check\n%b\n> check\n' "$1" | run $replay >"$work/line" 2>"$work/errors"
    [ "${PIPESTATUS[1]}" -eq 2 ] && [ "$(cat "$work/line")" = '< 1 0 0 0 0 0' ] && grep -q '^replay: line 4: ' "$work/errors" ||
        { echo "replay: not refused: '$1': $(cat "$work/line" "$work/errors")" && exit 1; }
}

malformed=('' ' ' 'X' 'c -' 'C' 'C ' 'C  -' 'C --' 'C 0' 'C 0G' 'C 01 02' 'C 010' 'C - -' 'CC -' 'R' 'R ' 'R x' 'R -1' 'R +1 1' 'R 1' 'R 2 1' 'R 0 1' 'R 1 1 1'
    'R 1  1' 'R 1 1 ' 'R 1 1x' 'R 1 -' 'R 1 --1' 'R 1 0x1' 'R 1 1.0' 'R 1\t1' 'R 1 2147483648' 'R 1 -2147483649' 'R 1 99999999999999999999' 'R 99999999999999999999 1'
    'R 4294967295 1' 'O' 'O 1' 'O 1 2147483648' '>' '> ' '>check' '> chec' '> checks' '> check 1' '> cold ' '> cold 0' '> warm x' '> run' '> run ' '> run -1'
    '> run 4294967296' '> run 1 1' '> run x' '> latch' '> latch 1' '> latch x 0' '> latch 2147483648 0' '> latch -2147483649 0' '> latch 1 1' '> latch 1 2 1'
    '> latch 1 0 0' '> latch 1 1 2147483648' '> publish 1' '> rec' '> rec 1' '> rec 1 2147483648' '> out' '> out 2 1' '> Cold' '..' '. .' 'R 1 1\r' '> cold\r' '> co\0ld' '.\0')
for line in "${malformed[@]}"; do
    refuses "$line"
done
echo "replay: ${#malformed[@]} malformed lines"

run $replay <tests/data/cases.trace >/dev/full 2>"$work/errors"
[ $? -eq 2 ] && grep -q '^replay: standard output' "$work/errors" || { echo "replay: no error where nothing can be printed" && exit 1; }
run $replay --help | grep -q '^usage: ' || exit 1
for words in --hel "-- x" "tests/data/cases.trace"; do
    run $replay $words >"$work/line" 2>"$work/errors" </dev/null
    [ $? -eq 2 ] && [ ! -s "$work/line" ] && grep -q '^usage: ' "$work/errors" || { echo "replay: no error for: $words" && exit 1; }
done
