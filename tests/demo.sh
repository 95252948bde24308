#!/usr/bin/env bash
# The demo's program: it plays the visit with status 0 and tells what was worked out by hand; each fault that it is told to meet is found;
# a wrong circuit, file or word is told with status 2. And the command ./demo: help and wrong words.
source "$(dirname "${BASH_SOURCE[0]}")/host.bash"
need python3 python3
need cmp diffutils
need tar tar
need_c
need_archive
build_demo

wrong() {
    echo "demo: $1"
    exit 1
}

run $demo $harbour >"$work/told" 2>"$work/errors" || wrong "status $?: $(cat "$work/errors")"
[ ! -s "$work/errors" ] || wrong "it says on standard error: $(cat "$work/errors")"

# in_scan N LINE..: scan N has these lines, in this order, blanks counted once
in_scan() {
    local number=$1 line told found
    awk -v head="Scan $number," 'index($0, "Scan ") == 1 { inside = index($0, head) == 1 } inside' "$work/told" | sed -E 's/^ +//; s/ +/ /g' >"$work/scan"
    exec 3<"$work/scan"
    for line in "${@:2}"; do
        found=no
        while [ $found = no ] && IFS= read -r told <&3; do
            case $told in "$line"*) found=yes ;; esac
        done
        [ $found = yes ] || { cat "$work/scan" && wrong "scan $number does not tell, or not there: $line"; }
    done
    exec 3<&-
}

# The first scan: the mark's M8 blocks the motors; green by the shut door.
in_scan 1 'Scan 1, the first (e 0), in one turn' 'read I3 emergency stop not pressed, I7 door shut, AI1 pit level 42.0 %' 'turn 1 B1-B15 B4 lane_stop (NAND) 0 -> 1' \
    'B8 blocked (OR) 0 -> 1' 'publish all at once: Q7 lamp green 0 -> 1, AQ1 level display 0.0 % -> 42.0 %'
# The interlock: OPEN with the leveller up moves nothing, in fifteen turns of one block.
in_scan 3 'Scan 3, 2.00 s after the one before (e 200), in turns of 1 block' 'yard OPEN is pressed with the leveller still up' 'read I1 button OPEN' \
    'turn 1 B1 B1 open_press (AND edge) 0 -> 1 printer: job 5, 74 bytes' 'turn 7 B7 no change' 'turn 15 B15 no change' \
    'publish no output changes: Q7 lamp green, AQ1 level display 42.0 %'
# An empty turn works out no block.
in_scan 4 'turn 1 none an empty turn' 'turn 2 B1-B8 B1 open_press (AND edge) 1 -> 0' 'B3 clear (AND) 0 -> 1' 'turn 3 B9-B15 no change' 'publish no output changes'
# The door goes up at the publish and not before, though its block is 1 four turns earlier; a publish in between is refused.
in_scan 5 'turn 4 B7-B8 B7 up (latching relay) 0 -> 1' 'too early publish with 7 blocks to go: refused by number 22, nothing has changed' 'turn 8 B15 B15 stay (NOT) 0 -> 1' \
    'till here outputs untouched: Q7 lamp green, AQ1 level display 42.0 %' 'publish all at once: Q1 door motor UP 0 -> 1, Q7 lamp green 1 -> 0, Q8 lamp red 0 -> 1' \
    'on now Q1 door motor UP, Q8 lamp red, AQ1 level display 42.0 %'
in_scan 7 'publish all at once: Q1 door motor UP 1 -> 0'
# The lane: on with the pallet, off 3 s behind it, and no door comes down on it.
in_scan 8 'turn 1 B1-B5 B5 lane (off-delay) 0 -> 1' 'publish all at once: Q3 lane 1 runs 0 -> 1'
in_scan 10 'turn 1 B1-B8 B2 close_press (AND edge) 0 -> 1' 'B5 lane (off-delay) at 1.50 s of 3.00 s' 'publish no output changes'
in_scan 11 'B5 lane (off-delay) 1 -> 0' 'publish all at once: Q3 lane 1 runs 1 -> 0'
# The pit: pump above 60 %, alarm 5 s later, both off below 50 %.
in_scan 9 'turn 4 B10-B12 B11 level (threshold trigger) 0 -> 1' 'publish all at once: Q4 pit pump 0 -> 1, AQ1 level display 42.0 % -> 64.0 %'
in_scan 12 'turn 2 B8-B14 B12 level_alarm (on-delay) 0 -> 1' 'publish all at once: Q5 level alarm 0 -> 1, Q6 stairs light 0 -> 1'
in_scan 16 'publish all at once: Q2 door motor DOWN 0 -> 1, Q4 pit pump 1 -> 0, Q5 level alarm 1 -> 0'
# The emergency stop, the door shut, and the light two minutes after its button.
in_scan 14 'publish all at once: Q2 door motor DOWN 1 -> 0'
in_scan 15 'publish no output changes'
in_scan 17 'publish all at once: Q2 door motor DOWN 1 -> 0, Q7 lamp green 0 -> 1, Q8 lamp red 1 -> 0'
in_scan 18 'publish all at once: Q6 stairs light 1 -> 0' '- The same 18 scans in one go gave the same 4266 words'
[ "$(grep -c '^Scan ' "$work/told")" -eq 18 ] || wrong "there are not 18 scans"

# 18 scans of 15 blocks in turns of 15, 3, 1, 8, 2, 4, 15, 5, 3, 8, 6, 7, 2, 4, 3, 5, 6, 15 blocks, and the empty one; a job between two turns
turns=$((1 + 5 + 15 + 3 + 8 + 4 + 1 + 3 + 5 + 2 + 3 + 3 + 8 + 4 + 5 + 3 + 3 + 1))
[ "$(grep -c '^  turn ' "$work/told")" -eq $turns ] || wrong "there are not $turns turns"
[ "$(grep -c ' printer: job ' "$work/told")" -eq $((turns - 18)) ] || wrong "there are not $((turns - 18)) printer jobs"
grep -q "18 scans in $turns turns, and $((turns - 18)) printer jobs between the turns" "$work/told" || wrong "the end tells other counts"
awk 'length > 100 { print; long = 1 } END { exit long }' "$work/told" || wrong "a line has more than 100 columns"
! grep -q "$(printf '\033')" "$work/told" || wrong "there is colour without a terminal"
echo "demo: the visit, $(wc -l <"$work/told") lines"

build_by_oracle "$work/by_oracle" $demo_sources
run "$work/by_oracle" $harbour | cmp - "$work/told" || wrong "by the oracle it tells another visit"
echo "demo: by the oracle the same lines"

# finds_fault NAME LINE: by --break NAME it ends with status 1, this line and no word of the same words
finds_fault() {
    run $demo $harbour --break "$1" >"$work/told" 2>"$work/errors"
    [ $? -eq 1 ] && [ "$(cat "$work/errors")" = "demo: $2" ] && ! grep -q 'gave the same' "$work/told" || wrong "--break $1: expected '$2', got '$(cat "$work/errors")'"
    echo "demo: --break $1: found"
}

finds_fault reading 'scan 7: record word I6: in turns 1, in one go 0'
finds_fault output 'scan 5: output word Q1: turn 1 makes it 1, it must be 0'
finds_fault flag 'scan 5: record word M1: turn 1 makes it 1, it must be 0'
finds_fault turn 'scan 5: turn 1, a run of 2 blocks, answers 3 worked out and 12 to go; expected are 2 and 13'
finds_fault refused 'scan 5: record word the output of B1 open_press: the refused publish makes it 0, it must stay 1'
finds_fault yard 'scan 5: Q1 door motor UP is 0; worked out by hand it is 1'

# another circuit with the same labels is told where it publishes otherwise: here the lane runs on for 4 s
sed 's/,300,1,lane/,400,1,lane/' samples/harbour.csv >"$work/other.csv"
make_circuit "$work/other.csv" "$work/other"
run $demo "$work/other" >/dev/null 2>"$work/errors"
[ $? -eq 1 ] && grep -qx 'demo: scan 11: Q3 lane 1 runs is 1; worked out by hand it is 0' "$work/errors" || wrong "a lane of 4 s: $(cat "$work/errors")"

# cannot LINE WORD..: status 2, nothing on standard output, and this on standard error
cannot() {
    run $demo "${@:2}" >"$work/told" 2>"$work/errors"
    [ $? -eq 2 ] && [ ! -s "$work/told" ] && grep -qF "$1" "$work/errors" || wrong "no message '$1' for: ${*:2}: $(cat "$work/told" "$work/errors")"
}

sed '/,stay/d; /^48,1,8,/d' samples/harbour.csv >"$work/short.csv"
sed 's/,clear/,cleared/' samples/harbour.csv >"$work/named.csv"
for name in short named; do
    make_circuit "$work/$name.csv" "$work/$name"
done
{ cat $harbour && printf 'x'; } >"$work/surplus"
head -c 65537 /dev/zero >"$work/long"
: >"$work/empty"
cannot "has 14 blocks; the story is of samples/harbour.csv, which has 15" "$work/short"
cannot "block 3 is 'cleared'; the story is of samples/harbour.csv, where it is 'clear'" "$work/named"
cannot "is refused." "$work/surplus"
cannot "Refusal 11 at byte $(wc -c <$harbour): bytes follow the end field" "$work/surplus"
cannot "Refusal 1 at byte 0: " "$work/empty"
cannot "is too long" "$work/long"
cannot "cannot be opened" "$work/nowhere"
cannot "is not a file" "$work"
cannot "usage: demo "
cannot "usage: demo " --hel
cannot "usage: demo " $harbour --break
cannot "usage: demo " $harbour --break nothing
cannot "usage: demo " $harbour --break ''
cannot "usage: demo " $harbour --brake reading
cannot "usage: demo " $harbour $harbour
cannot "usage: demo " $harbour --break reading x
run $demo $harbour >/dev/full 2>"$work/errors"
[ $? -eq 2 ] && grep -q 'standard output cannot be written' "$work/errors" || wrong "no error where nothing can be printed"
run $demo --help | grep -q '^usage: demo ' || wrong "no help"

./demo --help | grep -q '^usage: ./demo' || wrong "./demo --help has no help"
for words in --hel '' '--help x' samples/harbour.csv; do
    ./demo "$words" >"$work/told" 2>"$work/errors"
    [ $? -eq 2 ] && [ ! -s "$work/told" ] && grep -q '^usage: ./demo' "$work/errors" || wrong "./demo $words is no error"
done
echo "demo: wrong circuits, files and words"

# The command in a clone without an archive, where rt is missing, and where it proves one crate and not the next.
mkdir "$work/commands" "$work/clone"
tar -cf - --exclude='crates/*/out' demo tests crates.txt crates | tar -xf - -C "$work/clone" || exit 1
IFS=: read -ra folders <<<"$PATH"
for folder in "${folders[@]}"; do
    ln -s "$folder"/* "$work/commands" 2>/dev/null
done
in_clone() {
    (unset SERIFDOVE_ARCHIVE && cd "$work/clone" && PATH=$work/commands ./demo) >"$work/told" 2>"$work/errors" </dev/null
}
rm -f "$work/commands/rt"
in_clone
[ $? -eq 2 ] && grep -q 'the Rattle toolchain is needed to prove the archive, and its command rt is not found' "$work/errors" || wrong "without rt: $(cat "$work/told" "$work/errors")"
cat >"$work/commands/rt" <<'END'
#!/bin/sh
echo 'rt: chose --jobs 2 for words'
echo 'fn words::both: proved'
echo 'crate words: modules loaded=1 checked=0'
echo 'logic=proved functions=1 sum=0'
echo 'rt: chose --jobs 2 for kinds'
echo 'fn kinds::table: not proved'
echo 'crate kinds: modules loaded=1 checked=0'
echo 'logic=not-proved'
exit 1
END
chmod +x "$work/commands/rt"
in_clone
[ $? -eq 1 ] && grep -qx 'demo:   1 of [0-9]*: words proved; functions: 1' "$work/told" && grep -qx 'demo:   fn kinds::table: not proved' "$work/told" &&
    grep -qx 'demo:   kinds NOT PROVED' "$work/told" ||
    wrong "with a crate that is not proved: $(cat "$work/told" "$work/errors")"
echo "demo: the command without rt, and with a crate that is not proved"
