#!/usr/bin/env bash
# The program check_circuit: document 01's lines, its limit of 65,536 bytes, that anything at all gets one line and status 0; and the lines
# for the series 0BA6, in words.
source "$(dirname "${BASH_SOURCE[0]}")/host.bash"
need_runner
need_program

# says LINES [WORD..]: what the program prints of standard input, to the byte, with status 0; the words are its arguments
says() {
    local status
    run "$program" "${@:2}" >"$work/line" 2>"$work/errors"
    status=$?
    printf '%s\n' "$1" >"$work/expected"
    if [ "$status" -ne 0 ] || [ -s "$work/errors" ] || ! cmp -s "$work/expected" "$work/line"; then
        echo "program: expected '$1', got '$(cat "$work/line" "$work/errors")' with status $status"
        exit 1
    fi
    echo "program: $1"
}

# document_01 CONNECTOR: its circuit, with this first connector
document_01() {
    printf '\x01\x00\x03\x01\x00\x01\x10\x00\x0e\x01\x00%b\x01\x00\x02\x00\x00\x00\x00\x00\x00' "$1"
    printf '\x30\x00\x05\x01\x01\x06\x00\x01\x7f\x00\x00'
}

document_01 '\x01\x00\x01' | says '0 0 1 1' || exit 1
document_01 '\x06\x00\x01' | says '7 6 0 0' || exit 1
document_01 '\x06\x00\x02' | says '6 6 0 0' || exit 1
says '1 0 0 0' </dev/null || exit 1
{ document_01 '\x01\x00\x01' && printf '\x00'; } | says '11 34 0 0' || exit 1

# the longest input that is judged, and one byte more
{ document_01 '\x01\x00\x01' && head -c $((65536 - 34)) /dev/zero; } | says '11 34 0 0' || exit 1
{ document_01 '\x01\x00\x01' && head -c $((65537 - 34)) /dev/zero; } | says 'too long' || exit 1
head -c 1000000 /dev/zero | says 'too long' || exit 1

# the script around it: a file, standard input, help, and words that are wrong
document_01 '\x06\x00\x01' >"$work/own_block"
[ "$(./check_circuit "$work/own_block" 2>"$work/errors")" = '7 6 0 0' ] || { cat "$work/errors" && exit 1; }
[ "$(./check_circuit <"$work/own_block" 2>"$work/errors")" = '7 6 0 0' ] || { cat "$work/errors" && exit 1; }
./check_circuit --help | grep -q '^usage: ' || exit 1
for words in "$work/there_is_none" "$work" "$work/own_block $work/own_block"; do
    ./check_circuit $words >"$work/line" 2>"$work/errors"
    [ $? -eq 2 ] && [ ! -s "$work/line" ] && [ -s "$work/errors" ] || { echo "program: no error for: $words" && exit 1; }
done
echo "program: the script"

# a slow writer: the circuit in parts
{ document_01 '\x01\x00\x01' | head -c 7 && sleep 1 && document_01 '\x01\x00\x01' | tail -c +8; } | says '0 0 1 1' || exit 1

# ---- the series 0BA6

# two NUMBER, field TAG BYTE..: a circuit's bytes by their numbers
two() { printf "\\x$(printf %02x $(($1 / 256)))\\x$(printf %02x $(($1 % 256)))"; }
field() {
    local byte tag=$1
    shift
    printf "\\x$(printf %02x "$tag")"
    two $#
    for byte; do printf "\\x$(printf %02x "$byte")"; done
}

# header N, not CLASS NUMBER, row CLASS NUMBER CLASS NUMBER, end
header() { field 1 1 $(($1 / 256)) $(($1 % 256)); }
not() { field 16 8 0 "$1" 0 "$2"; }
row() { field 48 "$1" "$2" "$3" 0 "$4"; }
end() { field 127; }
nots() { for _ in $(seq "$1"); do not 1 1; done; }

# for_series FIRST SECOND: the two lines of the circuit on standard input
for_series() { says "$1"$'\n'"$2" --series 0BA6; }

document_01 '\x01\x00\x01' | for_series '0 0 1 1' 'fits 0BA6' || exit 1
{ header 200 && nots 200 && end; } | for_series '0 0 200 0' 'fits 0BA6' || exit 1
{ header 201 && nots 201 && end; } | for_series '4 0 0 0' 'does not fit 0BA6: the header says 201 blocks; 0BA6 has at most 200' || exit 1
{ header 0 && row 1 16 4 27 && row 2 27 1 1 && row 3 2 8 6 && row 4 6 7 8 && end; } | for_series '0 0 0 4' 'fits 0BA6' || exit 1
in_the_way='does not fit 0BA6: row 2 at byte 14: its destination is'
for case in '1 17 1 1:Q17; 0BA6 has Q1 to Q16' '2 28 1 1:M28; 0BA6 has M1 to M27' '3 3 7 1:AQ3; 0BA6 has AQ1 and AQ2' '4 7 7 1:AM7; 0BA6 has AM1 to AM6'; do
    { header 0 && row 1 1 1 1 && row ${case%%:*} && end; } | for_series '9 14 0 0' "$in_the_way ${case#*:}" || exit 1
done
flag='a connector names a flag above M27 or AM6'
{ header 0 && row 1 1 132 28 && end; } | for_series '6 6 0 0' "does not fit 0BA6: row 1 at byte 6: $flag" || exit 1
{ header 0 && row 3 1 8 7 && end; } | for_series '6 6 0 0' "does not fit 0BA6: row 1 at byte 6: $flag" || exit 1
{ header 3 && nots 2 && not 4 28 && row 1 17 1 1 && end; } | for_series '6 22 0 0' "does not fit 0BA6: block 3 at byte 22: $flag" || exit 1
{ header 2 && nots 1 && not 4 64 && end; } | for_series '6 14 0 0' "does not fit 0BA6: block 2 at byte 14: $flag" || exit 1
# a label moves the places, and not the numbers; both faults in one row: the lower number
{ header 1 && not 1 1 && field 32 65 66 && row 1 17 4 28 && end; } | for_series '6 19 0 0' "does not fit 0BA6: row 1 at byte 19: $flag" || exit 1
# refused for any series, by the same field or by another
document_01 '\x06\x00\x01' | for_series '7 6 0 0' 'is refused for any series: 7 6 0 0' || exit 1
{ header 201 && end; } | for_series '4 0 0 0' 'is refused for any series: 4 6 0 0' || exit 1
for_series '1 0 0 0' 'is refused for any series: 1 0 0 0' </dev/null || exit 1
head -c 1000000 /dev/zero | says 'too long' --series 0BA6 || exit 1
for name in 0BA7 0ba6 0BA 0BA66 ''; do
    document_01 '\x01\x00\x01' | says 'there is no such series; expected is 0BA6' --series "$name" || exit 1
done
for words in 0BA6 --series '--serie 0BA6' '--series7 0BA6' '0BA6 --series' '--series 0BA6 0BA6'; do
    document_01 '\x01\x00\x01' | says 'expected is no word, or --series 0BA6' $words || exit 1
done

# the script: its status, and words that are wrong
{ header 0 && row 1 17 1 1 && end; } >"$work/q17"
{ header 0 && row 1 16 1 1 && end; } >"$work/q16"
for name in 0BA6 0ba6 0Ba6; do
    ./check_circuit --series $name "$work/q16" >"$work/line" 2>"$work/errors" || { cat "$work/errors" && exit 1; }
    printf '0 0 0 1\nfits 0BA6\n' | cmp - "$work/line" || exit 1
done
./check_circuit --series 0BA6 <"$work/q17" >"$work/line" 2>"$work/errors"
[ $? -eq 1 ] && grep -q '^does not fit 0BA6: row 1 at byte 6: ' "$work/line" || { cat "$work/line" "$work/errors" && exit 1; }
./check_circuit --series 0BA6 "$work/own_block" >"$work/line" 2>"$work/errors"
[ $? -eq 1 ] && grep -q '^is refused for any series: ' "$work/line" || { cat "$work/line" "$work/errors" && exit 1; }
head -c 70000 /dev/zero | ./check_circuit --series 0BA6 >"$work/line" 2>"$work/errors"
[ $? -eq 1 ] && [ "$(cat "$work/line")" = 'too long' ] || { cat "$work/line" "$work/errors" && exit 1; }
./check_circuit --help | grep -q -e '--series 0BA6' || exit 1
./check_circuit "$work/q16" --series 0BA6 >"$work/line" 2>"$work/errors" && grep -q -x 'fits 0BA6' "$work/line" || { cat "$work/errors" && exit 1; }
for words in '--series' '--series 0BA7' "$work/q16 --series" "--series 0BA6 $work/there_is_none" "--series 0BA6 $work/q16 $work/q16" '--serie 0BA6' --serie; do
    ./check_circuit $words >"$work/line" 2>"$work/errors" </dev/null
    [ $? -eq 2 ] && [ ! -s "$work/line" ] && [ -s "$work/errors" ] || { echo "program: no error for: $words" && exit 1; }
done
# where it cannot be judged or told, that is no misfit: the disk is full; nothing can be read; the program cannot be proved
for words in '' '--series 0BA6'; do
    ./check_circuit $words "$work/q16" >/dev/full 2>"$work/errors"
    [ $? -eq 2 ] && [ -s "$work/errors" ] || { echo "program: a full disk is not told" && exit 1; }
    ./check_circuit $words >"$work/line" 2>"$work/errors" </
    [ $? -eq 2 ] && [ ! -s "$work/line" ] && [ -s "$work/errors" ] || { echo "program: a folder for an input is not told" && exit 1; }
done
mkdir -p "$work/fresh/tests" "$work/fresh/crates/check_circuit" "$work/stub" && cp check_circuit "$work/fresh" && cp tests/host.bash "$work/fresh/tests" && touch "$work/fresh/crates.txt" || exit 2
printf '#!/bin/sh\necho not proved\nexit 1\n' >"$work/stub/rt" && chmod +x "$work/stub/rt" || exit 2
for words in '' '--series 0BA6'; do
    PATH=$work/stub:$PATH "$work/fresh/check_circuit" $words "$work/q16" >"$work/line" 2>"$work/errors"
    [ $? -eq 2 ] && [ ! -s "$work/line" ] && grep -q 'not proved' "$work/errors" || { echo "program: a failed proof is not told" && exit 1; }
done
echo "program: the series"
