#!/usr/bin/env bash
# The gateway program as a user meets it: every command, every sort of bad word, circuit and file, circuits for the older series, a look
# between two blocks, a trace that is played again, in a pipe and at a terminal. And what docs/OPERATING.md shows of the older series.
source "$(dirname "${BASH_SOURCE[0]}")/host.bash"
need_programs
here=$PWD

# wrong WHAT: tells it and ends
wrong() {
    echo "gateway: $*"
    exit 1
}

# says STATUS [WORD..]: the gateway's words; commands on standard input; `expected` and `complaints` hold what it must print, to the byte
says() {
    local status
    (cd "$work" && run "$here/$gateway" "${@:2}" >out 2>err)
    status=$?
    if [ "$status" -ne "$1" ] || ! diff "$work/expected" "$work/out" || ! diff "$work/complaints" "$work/err"; then
        echo "gateway: status $status, expected $1, or it printed otherwise (above): ${*:2}"
        exit 1
    fi
}

# complains STATUS TEXT [WORD..]: nothing on standard output, and a complaint that holds this text
complains() {
    local status
    (cd "$work" && run "$here/$gateway" "${@:3}" >out 2>err </dev/null)
    status=$?
    if [ "$status" -ne "$1" ] || [ -s "$work/out" ] || ! grep -qF -- "$2" "$work/err"; then
        echo "gateway: status $status, expected $1 and '$2': ${*:3}: $(head -c 300 "$work/out" "$work/err")"
        exit 1
    fi
}

# bytes HEX FILE: a file of these bytes
bytes() {
    python3 -c 'import sys; open(sys.argv[2], "wb").write(bytes.fromhex(sys.argv[1]))' "$1" "$work/$2"
}

# ---- words and circuits that are refused
printf '' >"$work/expected"
complains 2 'usage: gateway CIRCUIT'
complains 2 '`--help` is not expected' x --help
complains 2 '`y` is not expected' x y
complains 2 '`-t` is not expected' -t
for wrong in 0 -1 4294967296 2x ''; do
    complains 2 "--turn needs a number of blocks, 1 to 4294967295, or all, not $wrong" x --turn "$wrong"
done
complains 2 '--turn needs a number of blocks, 1 to 4294967295, or all' x --turn
complains 2 '--script needs the name' x --script
# the series, before any circuit is read
complains 2 'gateway: --series needs the name of a series: 0BA6' there_is_none --series
for wrong in 0BA7 0BA 0BA66 BA6 there_is_none ''; do
    complains 2 "gateway: there is no series \`$wrong\` here; expected is 0BA6" --series "$wrong" there_is_none
done
complains 2 'usage: gateway CIRCUIT' --series 0BA6
complains 2 'there_is_none cannot be opened: No such file or directory; a file with a circuit is expected' there_is_none --series 0BA6
complains 2 'there_is_none cannot be opened: No such file or directory; a file with a circuit is expected' there_is_none
complains 2 '. is not a file; a file with a circuit is expected' .
head -c 65537 /dev/zero >"$work/long"
complains 2 'long is too long: a circuit has at most 65536 bytes' long
bytes '' empty
complains 2 'the script there_is_none cannot be opened: No such file or directory; a file with commands is expected' empty --script there_is_none
complains 2 'the script . cannot be opened: it is a folder; a file with commands is expected' empty --script .

head=010003010001 block=10000e0100010001010002000000000000 row=300005010106 end=7f0000
good=$head$block${row}0001$end
refused=0
# refuses NUMBER PLACE HEX TEXT: with a series it is told the same
refuses() {
    bytes "$3" bad
    complains 2 "  Refusal $1 at byte $2: " bad
    complains 2 "$4" bad
    complains 2 "^^ byte $2" bad
    cp "$work/err" "$work/complaints"
    says 2 bad --series 0BA6 </dev/null
    refused=$((refused + 1))
}
refuses 1 31 "$head$block${row}0001" 'The bytes end here, after 31 of them.'
refuses 1 6 "$head${block%00}" 'There begins a block (tag 10), block 1, kind 1, AND, content of 14 bytes.'
refuses 2 0 "02${good#01}" 'There begins no field that is known (tag 02)'
refuses 2 0 "$block${good#$head}" 'It is out of place: a circuit begins with its header.'
refuses 2 0 "0100040100017f$end" 'Its length is wrong: a header has 3 bytes.'
refuses 2 6 "${head}10000d01000100010100020000000000$end" 'Its length is wrong: kind 1, AND, has 14 bytes.'
refuses 2 6 "${head}100012110000000000000000000000000300000002$end" 'Its length is wrong: kind 17, up/down counter, has 19 bytes.'
refuses 2 6 "${head}1000141200000000000000000000000600000003000000$end" 'Its length is wrong: kind 18, stairway switch, has 21 bytes.'
refuses 2 6 "${head}10000c130007000100000064000000$end" 'Its length is wrong: kind 19, analog amplifier, has 13 bytes.'
refuses 2 6 "${head}100000$end" 'Its length is wrong: a block has a kind.'
refuses 2 23 "$head${block}200011$(printf '41%.0s' {1..17})$end" 'Its length is wrong: a label has at most 16 bytes.'
refuses 2 27 "$head${block}20000141200000$end" 'It is out of place: a label stands behind its block, one at most.'
refuses 2 31 "$head$block${row}0001$block$end" 'It is out of place: blocks stand behind the header and before the rows.'
refuses 2 23 "$head${block}30000401010100$end" 'Its length is wrong: a row has 5 bytes.'
refuses 2 23 "$head${block}7f000100" 'Its length is wrong: an end field has no content.'
refuses 2 6 "$head$head$end" 'It is out of place: a header stands at the beginning, once.'
refuses 1 32 "010003010001${block}2000061111111111117f" 'There begins an end field (tag 7f).'
refuses 1 32 "010003010001${block}200006111111111111" 'The bytes end here, after 32 of them.'
refuses 3 0 "01000302${good#01000301}" 'the version is not 1'
refuses 4 23 "010003010002${good#$head}" 'There begins a row (tag 30), content of 5 bytes.'
refuses 5 6 "${head}10000e14${good#${head}10000e01}" 'kinds are 1 to 19, and only kinds 9 to 12, 17 and 18 may be retentive'
refuses 5 6 "${head}10000d13010700010000006400000000$end" 'There begins a block (tag 10), block 1, kind 19, analog amplifier, content of 13 bytes.'
refuses 6 6 "${head}10000e0100060002${good#${head}10000e0100010001}" 'a connector is not allowed there'
refuses 6 22 "01000301000210000d130007000100000064000000001000050800060001$end" 'whether the block that it names is digital or analog'
refuses 7 6 "${head}10000e0100060001${good#${head}10000e0100010001}" '       0  01 00 03 01 00 01 10 00 0e 01 00 06 00 01 01 00'
refuses 8 6 "${head}10000d09000100010000000300000000$end" 'a parameter is out of range, or times are not in order'
! grep -q 'Its times' "$work/err" || wrong "an on-delay has three times: $(cat "$work/err")"
refuses 8 6 "${head}10000d1300070001000003e900000000$end" 'There begins a block (tag 10), block 1, kind 19, analog amplifier, content of 13 bytes.'
stairs=100015120001000100000000
refuses 8 6 "$head${stairs}000000050000000600000002$end" 'Its times are T 5, T! 6, T!L 2: not T!L <= T! <= T.'
refuses 8 6 "$head${stairs}000000050000000300000004$end" 'Its times are T 5, T! 3, T!L 4: not T!L <= T! <= T.'
refuses 8 6 "$head${stairs}000027100000000600000002$end" 'Its times are T 10000, T! 6, T!L 2: in order, so a parameter is out of range.'
refuses 8 6 "$head${stairs}00000005ffffffffffffffff$end" 'Its times are T 5, T! -1, T!L -1: in order, so a parameter is out of range.'
refuses 9 31 "$head$block${row}0001${row}0001$end" 'there are Q1 to Q20, M1 to M64, AQ1 to AQ8 and AM1 to AM64; give each one row at most'
register=1000130c000000000000000000000000000100000001
refuses 10 28 "010003010002$register$register$end" 'give each shift register an index of its own'
refuses 11 34 "${good}00" 'bytes follow the end field'
# block 1 reads M28, which does not fit the series, and block 2 names itself
refuses 7 14 "010003010002100005080004001c1000050800060002$end" 'There begins a block (tag 10), block 2, kind 8, NOT'
complains 2 '  Refusal 1 at byte 0: ' empty
complains 2 'The bytes end here, after 0 of them.' empty
echo "gateway: $refused refused circuits, each with number, place, bytes and what to do"

# ---- a dialogue, worked out by hand: each command, a scan in turns, a look between two blocks
cat >"$work/yard.csv" <<'END'
16,2,0,1,1,0,0,0,0,0,0,1,press
16,10,1,6,1,129,2,0,300,1,lane
16,12,0,1,1,1,2,2,0,1,1,1,bits
16,13,0,7,1,-33,10,5,4,1,level
16,15,0,3,0,6,2,0,0,-5,0,700,9,1,"a\b,ü"
48,1,1,6,2
48,2,1,6,4
48,3,1,9,5
48,4,1,7,1
END
make_circuit "$work/yard.csv" "$work/yard"
cat >"$work/yard.script" <<'END'
# a comment, then an empty line

set I1 1 i2=1   ai1 10   # behind a command too
latch 0
run 3
look
run
publish
set I1 0 AI1 0
scan 100
scan 1s 4
turn all
look 2 3
turn 1
scan 250ms	2
warm
look 2
save yard.record
latch 2.5s
run 0
run all
look 5
cold
load yard.record
help quit
quit
run
END
cat >"$work/expected" <<'END'
circuit: yard, 192 bytes, 5 blocks, 4 rows; cold start
set: I1 1, I2 1, AI1 10
latch: e 0 (0.00 s); I1 1, I2 1, AI1 10
run: 3 blocks worked out, 2 to go
phase    in a scan, 3 of 5 blocks done, e 0 (0.00 s); nothing published since the start
inputs   I1 1, I2 1, AI1 10 (as latched)
M        M8 1 (change at publish)
AM       all 0 (change at publish)
outputs  all 0 (nothing is published yet)
block  label             kind                  inputs                       output
    1  press             AND edge              I1 1, - 1, - 1, - 1               1  remembered 1
    2  lane              off-delay             Trg B1 1, R !I2 0                 1  retentive; remembered 1; Ta 0.00 s of 3.00 s
    3  bits              shift register        In I1 1, Trg I2 1, Dir lo 0       1  remembered 1; bits 8 to 1: 00000001; index 1, bit 1
====>  the scan stands here, before block 4: 3 done, 2 to go, which show their words from before this scan
    4  level             threshold trigger     Ax AI1 10                         0  A -0.33, B 10, On 5, Off 4
    5  a\x5cb,\xc3\xbc   multiplexer           En hi 1, S1 B2 1, S2 - 0          0  V1 -5, V2 0, V3 700, V4 9
run: 2 blocks worked out, 0 to go
publish: Q1 1, AQ1 700; changed: Q1 0 -> 1, AQ1 0 -> 700
set: I2 1
scan 1 of 1: e 100 (1.00 s), 3 turns; Q1 1, AQ1 700; nothing changed
scan 3 of 4: e 100 (1.00 s), 3 turns; AQ1 -5; changed: Q1 1 -> 0, AQ1 700 -> -5
scan 4 of 4: e 100 (1.00 s), 3 turns; AQ1 -5; nothing changed
turn: all blocks
phase    waiting
inputs   I2 1 (as latched)
M        M1 1 (for the next scan; the blocks saw those before)
AM       all 0 (for the next scan; the blocks saw those before)
outputs  AQ1 -5 (as published)
block  label             kind                  inputs                       output
    2  lane              off-delay             Trg B1 0, R !I2 0                 0  retentive; remembered 0; Ta 0.00 s of 3.00 s
    3  bits              shift register        In I1 0, Trg I2 1, Dir lo 0       1  remembered 1; bits 8 to 1: 00000001; index 1, bit 1
turn: 1 block
scan 2 of 2: e 25 (0.25 s), 5 turns; AQ1 -5; nothing changed
warm: begun anew, retentive blocks kept
phase    waiting; nothing published since the start
inputs   all 0 (as latched)
M        M8 1 (for the next scan; the blocks saw those before)
AM       all 0 (for the next scan; the blocks saw those before)
outputs  AQ1 -5 (as published)
block  label             kind                  inputs             output
    2  lane              off-delay             Trg B1 0, R !I2 1       0  retentive; remembered 0; Ta 0.00 s of 3.00 s
save: yard.record
latch: e 250 (2.50 s); I2 1
run: 0 blocks worked out, 5 to go
run: 5 blocks worked out, 0 to go
phase    in a scan, 5 of 5 blocks done, e 250 (2.50 s); nothing published since the start
inputs   I2 1 (as latched)
M        M8 1 (change at publish)
AM       all 0 (change at publish)
outputs  AQ1 -5 (as published)
block  label             kind                  inputs                    output
    5  a\x5cb,\xc3\xbc   multiplexer           En hi 1, S1 B2 0, S2 - 0      -5  V1 -5, V2 0, V3 700, V4 9
====>  the scan stands here: all are done, publish closes it
cold: begun anew; the scan that was open is given up, its outputs were not published
load: yard.record, waiting
quit                   ends; so does the end of input
                       A trace is ended; a record that was not saved is lost.
END
printf '' >"$work/complaints"
says 0 yard --turn 2 --script yard.script </dev/null
says 0 yard --turn 2 <"$work/yard.script"
sed 's/$/\r/' "$work/yard.script" >"$work/yard.crlf"
says 0 yard --turn 2 --script yard.crlf </dev/null
echo "gateway: a dialogue of $(grep -c '^[a-z]' "$work/yard.script") commands, as worked out by hand"

# ---- the older series: with --series a circuit that fits runs the same, and tells the same but for its first line; the order of options is free
sed -i '1s/; cold start$/; fits 0BA6; cold start/' "$work/expected"
says 0 --series 0BA6 yard --turn 2 --script yard.script </dev/null
says 0 yard --series 0ba6 --turn 2 <"$work/yard.script"
says 0 --turn 2 --series 0Ba6 --script yard.script yard </dev/null
{ echo 'trace any.trace' && cat "$work/yard.script"; } | (cd "$work" && run "$here/$gateway" yard --turn 2) >"$work/out" || wrong "no trace: $(cat "$work/out")"
{ echo 'trace fits.trace' && cat "$work/yard.script"; } | (cd "$work" && run "$here/$gateway" yard --turn 2 --series 0BA6) >"$work/out" || wrong "no trace: $(cat "$work/out")"
[ "$(grep -c '^<' "$work/any.trace")" -ge 40 ] && cmp "$work/any.trace" "$work/fits.trace" || wrong "with --series it makes other calls"

# exactly at each limit: 200 blocks, M27, AM6, Q16, AQ2; all else as far as it goes in any circuit
{
    printf '16,1,0,4,1,4,27,132,27,129,24,1,sixteen bytes...\n16,14,0,8,6,7,8,100,0,5,5,0,\n16,15,0,4,27,132,27,0,0,1,2,3,4,0,\n'
    printf '16,12,1,4,27,4,26,0,0,%d,8,0,\n' 1 2 3 4
    printf '16,17,1,4,27,1,1,0,0,5,4,0,\n16,18,1,4,27,2,5999,300,200,0,\n16,19,0,8,6,1000,10000,0,\n'
    printf '16,8,0,6,%d,0,\n' 9 {11..199}
    printf '48,1,16,6,200\n48,2,27,4,27\n48,3,2,9,3\n48,4,6,9,10\n'
} >"$work/limits.csv"
make_circuit "$work/limits.csv" "$work/limits"
printf '' >"$work/complaints"
for name in limits limits.csv; do
    echo "circuit: $name, $(wc -c <"$work/limits") bytes, 200 blocks, 4 rows; fits 0BA6; cold start" >"$work/expected"
    says 0 $name --series 0BA6 </dev/null
done

# one above: told to the byte, of a circuit's bytes and of rows
lower='take a lower flag that is free (not M8, which is 1 in the first scan), in the row that writes it and wherever it is read; or split the circuit.'
other='take a lower output or flag that is free (not M8, which is 1 in the first scan), a flag wherever it is read too; or split the circuit.'
printf '' >"$work/expected"
misfits=0
# one_above NUMBER BYTE WORDS RANGE COLUMNS CELLS ROW..: these rows, of which the last does not fit; its field begins at the byte
one_above() {
    local row=${*: -1} before count=$(($# - 6)) meaning='the flag that a connector names' cure=$lower
    [ "$1" -eq 6 ] || meaning="the row's destination" cure=$other
    before=${row%%"$6"*}
    printf '%s\n' "${@:7}" >"$work/misfit.csv"
    make_circuit "$work/misfit.csv" "$work/misfit"
    cat >"$work/complaints" <<END
gateway: the circuit in misfit does not fit 0BA6; without --series it is accepted.
  Refusal $1 at byte $2: 0BA6 has not $meaning.
  It is $3; 0BA6 has $4.
  What to do: $cure
END
    says 2 misfit --series 0BA6 </dev/null
    cat >"$work/complaints" <<END
gateway: the circuit of the rows in misfit.csv does not fit 0BA6; without --series it is accepted.
  Refusal $1 at row $count (line $count of the file): 0BA6 has not $meaning.
  It is $3; 0BA6 has $4.
  Cells $5: \`$6\`; expected is $4.
    $row
    ${before//?/ }${6//?/^}
  What to do: $cure
END
    says 2 misfit.csv --series 0BA6 </dev/null
    misfits=$((misfits + 1))
}
first='4 and 5, input 1 class and input 1 number' from='4 and 5, connector class and connector number' to='2 and 3, destination class and destination number'
one_above 6 6 'block 1, kind 8, NOT: its input 1 is M28' 'M1 to M27' "$first" 4,28 16,8,0,4,28,0,
one_above 6 14 'block 2, kind 8, NOT, label `Door 3, north`: its input 1 is !M64' 'M1 to M27' "$first" 132,64 16,8,0,132,27,0, '16,8,0,132,64,1,"Door 3, north"'
one_above 6 6 'block 1, kind 1, AND: its input 2 is M28' 'M1 to M27' '6 and 7, input 2 class and input 2 number' 4,28 16,1,0,4,27,4,28,4,27,0,0,1,
one_above 6 20 'block 2, kind 10, off-delay, label `lane`: its input R is M28' 'M1 to M27' '6 and 7, R class and R number' 4,28 16,8,0,4,27,1,abc 16,10,0,4,27,4,28,0,300,1,lane
one_above 6 6 'block 1, kind 12, shift register: its input Dir is !M28' 'M1 to M27' '8 and 9, Dir class and Dir number' 132,28 16,12,0,1,1,4,27,132,28,1,8,0,
one_above 6 6 'block 1, kind 13, threshold trigger: its input Ax is AM64' 'AM1 to AM6' '4 and 5, Ax class and Ax number' 8,64 16,13,0,8,64,100,0,5,5,0,
one_above 6 6 'block 1, kind 14, comparator: its input Ay is AM7' 'AM1 to AM6' '6 and 7, Ay class and Ay number' 8,7 16,14,0,8,6,8,7,100,0,5,5,0,
one_above 6 6 'block 1, kind 19, analog amplifier: its input Ax is AM7' 'AM1 to AM6' '4 and 5, Ax class and Ax number' 8,7 16,19,0,8,7,100,0,0,
one_above 6 6 'the output row to Q1: its connector is M28' 'M1 to M27' "$from" 4,28 48,1,1,4,28
one_above 6 14 'the output row to M27: its connector is !M28' 'M1 to M27' "$from" 132,28 48,1,16,132,27 48,2,27,132,28
one_above 6 6 'the output row to AM6: its connector is AM7' 'AM1 to AM6' "$from" 8,7 48,4,6,8,7
one_above 9 14 'the output row to Q17' 'Q1 to Q16' "$to" 1,17 16,8,0,0,0,0, 48,1,17,6,1
one_above 9 6 'the output row to Q20' 'Q1 to Q16' "$to" 1,20 48,1,20,3,0
one_above 9 6 'the output row to M28' 'M1 to M27' "$to" 2,28 48,2,28,1,24
one_above 9 6 'the output row to AQ3' 'AQ1 and AQ2' "$to" 3,3 48,3,3,7,8
one_above 9 6 'the output row to AM7' 'AM1 to AM6' "$to" 4,7 48,4,7,8,6

# above 200 blocks, with the row where block 201 stands; one more place that does not fit
{ printf '16,8,0,0,0,1,"two\nlines"\n' && printf '16,8,0,0,0,1,%s\n' b{2..201} && printf '48,1,16,6,1\n48,1,17,6,1\n'; } >"$work/many.csv"
make_circuit "$work/many.csv" "$work/many"
cat >"$work/complaints" <<'END'
gateway: the circuit in many does not fit 0BA6; without --series it is accepted.
  Refusal 4 at byte 0: 0BA6 has not so many blocks.
  The header says 201 blocks; 0BA6 has at most 200.
  1 more place does not fit:
    byte 2928: the output row to Q17; 0BA6 has Q1 to Q16
  What to do: leave blocks out, or split the circuit.
END
says 2 many --series 0BA6 </dev/null
cat >"$work/complaints" <<'END'
gateway: the circuit of the rows in many.csv does not fit 0BA6; without --series it is accepted.
  Refusal 4 at byte 0 of the circuit: 0BA6 has not so many blocks.
  0BA6 has at most 200 blocks.
  There are 201 blocks; block 201 stands in row 201 (line 202 of the file).
    16,8,0,0,0,1,b201
  1 more place does not fit:
    row 203 (line 204 of the file): the output row to Q17; 0BA6 has Q1 to Q16
  What to do: leave blocks out, or split the circuit.
END
says 2 many.csv --series 0BA6 </dev/null

# many places that do not fit, two of them in some fields: the first is told, then how many more, five of those by name
cat >"$work/several.csv" <<'END'
16,8,0,1,1,1,"two
lines"
16,10,1,6,1,132,28,0,300,1,"lane 4, ü"
16,1,0,4,29,4,27,4,64,0,0,0,
16,14,0,8,6,8,7,100,0,5,5,0,
48,1,16,6,2
48,1,17,4,30
48,2,28,6,2
48,4,7,8,9
48,3,3,7,1
48,2,27,4,27
END
make_circuit "$work/several.csv" "$work/several"
cat >"$work/complaints" <<END
gateway: the circuit in several does not fit 0BA6; without --series it is accepted.
  Refusal 6 at byte 26: 0BA6 has not the flag that a connector names.
  It is block 2, kind 10, off-delay, label \`lane 4, \xc3\xbc\`: its input R is !M28; 0BA6 has M1 to M27.
  9 more places do not fit:
    byte 58: block 3, kind 1, AND: its input 1 is M29; 0BA6 has M1 to M27
    byte 58: block 3, kind 1, AND: its input 3 is M64; 0BA6 has M1 to M27
    byte 75: block 4, kind 14, comparator: its input Ay is AM7; 0BA6 has AM1 to AM6
    byte 110: the output row to Q17: its connector is M30; 0BA6 has M1 to M27
    byte 110: the output row to Q17; 0BA6 has Q1 to Q16
    and 4 more
  What to do: $lower
END
says 2 several --series 0BA6 </dev/null
# of rows: as many as are named, then one more
head -n 7 "$work/several.csv" >"$work/six.csv"
cat >"$work/complaints" <<END
gateway: the circuit of the rows in six.csv does not fit 0BA6; without --series it is accepted.
  Refusal 6 at row 2 (line 3 of the file): 0BA6 has not the flag that a connector names.
  It is block 2, kind 10, off-delay, label \`lane 4, \xc3\xbc\`: its input R is !M28; 0BA6 has M1 to M27.
  Cells 6 and 7, R class and R number: \`132,28\`; expected is M1 to M27.
    16,10,1,6,1,132,28,0,300,1,"lane 4, \xc3\xbc"
                ^^^^^^
  5 more places do not fit:
    row 3 (line 4 of the file): block 3, kind 1, AND: its input 1 is M29; 0BA6 has M1 to M27
    row 3 (line 4 of the file): block 3, kind 1, AND: its input 3 is M64; 0BA6 has M1 to M27
    row 4 (line 5 of the file): block 4, kind 14, comparator: its input Ay is AM7; 0BA6 has AM1 to AM6
    row 6 (line 7 of the file): the output row to Q17: its connector is M30; 0BA6 has M1 to M27
    row 6 (line 7 of the file): the output row to Q17; 0BA6 has Q1 to Q16
  What to do: $lower
END
says 2 six.csv --series 0BA6 </dev/null
head -n 8 "$work/several.csv" >"$work/seven.csv"
sed -i 's/six\.csv/seven.csv/; s/^  5 more places/  6 more places/; s/^  What to do/    and 1 more\n&/' "$work/complaints"
says 2 seven.csv --series 0BA6 </dev/null
for name in misfit many several seven.csv; do
    printf 'quit\n' | (cd "$work" && run "$here/$gateway" $name) >"$work/out" 2>"$work/err" || wrong "$name without --series: $(cat "$work/err")"
    [ ! -s "$work/err" ] && grep -q "^circuit: $name, .* rows*; cold start\$" "$work/out" || wrong "$name without --series: $(cat "$work/out" "$work/err")"
done
echo "gateway: circuits at each limit of the older series and $misfits just above one, many misfits; as bytes and as rows"

# The library decides. Where its answer is none that is found here, only that is told; where it accepts, the gateway begins.
build_c "$work/told" -Dserifdove_check_profile=told_profile tests/told.c $gateway_sources
# told NUMBER PLACE FILE: what the gateway tells, if the library answers so
told() {
    (cd "$work" && NUMBER=$1 PLACE=$2 run ./told "$3" --series 0BA6 </dev/null >out 2>err)
}
while read -r number place where words; do
    for name in several several.csv; do
        told "$number" "$place" $name
        [ $? -eq 2 ] && [ "$(wc -l <"$work/err")" -eq 3 ] && grep -q '^  What to do: ..*\.$' "$work/err" || wrong "told $number $place of $name: $(cat "$work/err")"
        [ $name = several ] && at="byte $place" || at=${where//_/ }
        grep -qxF "  Refusal $number at $at: $words." "$work/err" || wrong "told $number $place of $name: $(cat "$work/err")"
    done
done <<'END'
4 0 byte_0_of_the_circuit 0BA6 has not so many blocks
6 6 row_1_(line_1_of_the_file) 0BA6 has not the flag that a connector names
6 58 row_3_(line_4_of_the_file) 0BA6 has not the flag that a connector names
9 26 row_2_(line_3_of_the_file) 0BA6 has not the row's destination
9 118 row_7_(line_8_of_the_file) 0BA6 has not the row's destination
8 26 row_2_(line_3_of_the_file) a parameter is out of range, or times are not in order
1 65535 byte_65535_of_the_circuit the bytes end inside a field or before the end field
99 0 byte_0_of_the_circuit this number is none of the list
END
told 6 26 several
grep -q '^  It is block 2, .*: its input R is !M28; ' "$work/err" && grep -q '^  9 more places do not fit:$' "$work/err" || wrong "the library's answer is not told: $(cat "$work/err")"
told 0 0 several
[ $? -eq 0 ] && [ ! -s "$work/err" ] && grep -q '; fits 0BA6; cold start$' "$work/out" || wrong "the library accepts: $(cat "$work/out" "$work/err")"
echo "gateway: where it finds no such misfit itself, only the library's answer is told"

# the page: what it shows of the series is what the program prints
mkdir -p "$work/page" && page_lines docs/OPERATING.md csv >"$work/page/door.csv" || exit 2
play_page docs/OPERATING.md series "$work/page" && [ "$(grep -c '^\$ .*--series' "$work/shown")" -ge 2 ] || wrong "docs/OPERATING.md: the gateway tells of the series otherwise"
# and its limits are the header's
sed -n 's/^| .* | .*[^0-9]\([0-9]*\) | `\(SERIFDOVE_0BA6_[A-Z]*\)` |$/_Static_assert(\2 == \1, "\2");/p' docs/OPERATING.md >"$work/limits.c"
[ "$(sort -u "$work/limits.c" | wc -l)" -eq 5 ] || wrong "docs/OPERATING.md has not the five limits of the series"
sed -i '1i #include "serifdove.h"' "$work/limits.c"
$cc -std=c11 $warnings -Iinclude -fsyntax-only "$work/limits.c" || wrong "docs/OPERATING.md has other limits than include/serifdove.h"
echo "gateway: docs/OPERATING.md on the series"

# ---- analog amplifiers, worked out by hand: 10 · AI1, 10 times that less 10, and -10 · AM1 + 4, which AM1 becomes
cat >"$work/gauge.csv" <<'END'
16,19,0,7,1,1000,0,1,litres
16,19,0,9,1,1000,-10,1,fine
16,19,0,8,1,-1000,4,1,swing
48,3,1,9,1
48,3,2,9,2
48,4,1,9,3
END
make_circuit "$work/gauge.csv" "$work/gauge"
cat >"$work/gauge.script" <<'END'
set AI1 300
scan 0
set AI1 1000
latch 0
run 2
look
run
publish
scan 0 3
look 3
scan 0
look 3
END
cat >"$work/expected" <<'END'
circuit: gauge, 105 bytes, 3 blocks, 3 rows; cold start
set: AI1 300
scan 1 of 1: e 0 (0.00 s), 1 turn; AQ1 3000, AQ2 29990; changed: AQ1 0 -> 3000, AQ2 0 -> 29990
set: AI1 1000
latch: e 0 (0.00 s); AI1 1000
run: 2 blocks worked out, 1 to go
phase    in a scan, 2 of 3 blocks done, e 0 (0.00 s)
inputs   AI1 1000 (as latched)
M        all 0 (change at publish)
AM       AM1 4 (change at publish)
outputs  AQ1 3000, AQ2 29990 (as published)
block  label             kind                  inputs       output
    1  litres            analog amplifier      Ax AI1 1000   10000  A 10.00, B 0
    2  fine              analog amplifier      Ax B1 10000   32767  A 10.00, B -10; at the upper end
====>  the scan stands here, before block 3: 2 done, 1 to go, which show their words from before this scan
    3  swing             analog amplifier      Ax AM1 4          4  A -10.00, B 4
run: 1 block worked out, 0 to go
publish: AQ1 10000, AQ2 32767; changed: AQ1 3000 -> 10000, AQ2 29990 -> 32767
scan 3 of 3: e 0 (0.00 s), 1 turn; AQ1 10000, AQ2 32767; nothing changed
phase    waiting
inputs   AI1 1000 (as latched)
M        all 0 (for the next scan; the blocks saw those before)
AM       AM1 32767 (for the next scan; the blocks saw those before)
outputs  AQ1 10000, AQ2 32767 (as published)
block  label             kind                  inputs        output
    3  swing             analog amplifier      Ax AM1 32767   32767  A -10.00, B 4; at the upper end
scan 1 of 1: e 0 (0.00 s), 1 turn; AQ1 10000, AQ2 32767; nothing changed
phase    waiting
inputs   AI1 1000 (as latched)
M        all 0 (for the next scan; the blocks saw those before)
AM       AM1 -32768 (for the next scan; the blocks saw those before)
outputs  AQ1 10000, AQ2 32767 (as published)
block  label             kind                  inputs         output
    3  swing             analog amplifier      Ax AM1 -32768  -32768  A -10.00, B 4; at the lower end
END
printf '' >"$work/complaints"
says 0 gauge --script gauge.script </dev/null

# ---- up/down counters and stairway switches, worked out by hand: what look tells of their words
cat >"$work/tower.csv" <<'END'
16,17,1,1,3,1,1,1,2,3,2,1,pallets
16,18,1,1,4,0,600,300,200,1,stairs
16,18,0,1,5,2,5999,0,0,1,gate
16,17,0,0,0,1,1,0,0,0,999999,0,
48,1,1,6,1
48,1,2,6,2
48,1,3,6,3
END
make_circuit "$work/tower.csv" "$work/tower"
cat >"$work/tower.script" <<'END'
set I1 1 I4 1 I5 1
scan 0
set I1 0 I4 0
scan 1s
set I1 1
latch 3s
run 2
look
run
publish
set I1 0
scan 2s
set I1 1
scan 99
set I1 0 I2 1
scan 1
set I1 1
scan 1
look 1 2
save tower.record
warm
set I3 1
scan 1
look 1
END
cat >"$work/expected" <<'END'
circuit: tower, 151 bytes, 4 blocks, 3 rows; cold start
set: I1 1, I4 1, I5 1
scan 1 of 1: e 0 (0.00 s), 1 turn; Q2 1, Q3 1; changed: Q2 0 -> 1, Q3 0 -> 1
set: I5 1
scan 1 of 1: e 100 (1.00 s), 1 turn; Q2 1, Q3 1; nothing changed
set: I1 1, I5 1
latch: e 300 (3.00 s); I1 1, I5 1
run: 2 blocks worked out, 2 to go
phase    in a scan, 2 of 4 blocks done, e 300 (3.00 s)
inputs   I1 1, I5 1 (as latched)
M        all 0 (change at publish)
AM       all 0 (change at publish)
outputs  Q2 1, Q3 1 (as published)
block  label             kind                  inputs                      output
    1  pallets           up/down counter       R I3 0, Cnt I1 1, Dir I2 0       0  retentive; remembered 1; count 2, On 3, Off 2
    2  stairs            stairway switch       Trg I4 0                         0  retentive; remembered 2 (Trg 0, runs); Ta 3.00 s of 6.00 s; T! 3.00 s, T!L 2.00 s: dark from 3.00 s to 5.00 s
====>  the scan stands here, before block 3: 2 done, 2 to go, which show their words from before this scan
    3  gate              stairway switch       Trg I5 1                         1  remembered 3 (Trg 1, runs); Ta 0.00 s of 99:59:00.00 h; T! 0.00 s, T!L 0.00 s: never dark
    4                    up/down counter       R - 0, Cnt I1 1, Dir - 0         1  remembered 0; count 1, On 0, Off 999999
run: 2 blocks worked out, 0 to go
publish: Q3 1; changed: Q2 1 -> 0
set: I5 1
scan 1 of 1: e 200 (2.00 s), 1 turn; Q2 1, Q3 1; changed: Q2 0 -> 1
set: I1 1, I5 1
scan 1 of 1: e 99 (0.99 s), 1 turn; Q1 1, Q2 1, Q3 1; changed: Q1 0 -> 1
set: I2 1, I5 1
scan 1 of 1: e 1 (0.01 s), 1 turn; Q1 1, Q3 1; changed: Q2 1 -> 0
set: I1 1, I2 1, I5 1
scan 1 of 1: e 1 (0.01 s), 1 turn; Q1 1, Q3 1; nothing changed
phase    waiting
inputs   I1 1, I2 1, I5 1 (as latched)
M        all 0 (for the next scan; the blocks saw those before)
AM       all 0 (for the next scan; the blocks saw those before)
outputs  Q1 1, Q3 1 (as published)
block  label             kind                  inputs                      output
    1  pallets           up/down counter       R I3 0, Cnt I1 1, Dir I2 1       1  retentive; remembered 1; count 2, On 3, Off 2
    2  stairs            stairway switch       Trg I4 0                         0  retentive; remembered 0 (Trg 0, does not run); Ta 0.00 s of 6.00 s; T! 3.00 s, T!L 2.00 s: dark from 3.00 s to 5.00 s
save: tower.record
warm: begun anew, retentive blocks kept
set: I1 1, I2 1, I3 1, I5 1
scan 1 of 1: e 1 (0.01 s), 1 turn; Q3 1; changed: Q1 1 -> 0
phase    waiting
inputs   I1 1, I2 1, I3 1, I5 1 (as latched)
M        all 0 (for the next scan; the blocks saw those before)
AM       all 0 (for the next scan; the blocks saw those before)
outputs  Q3 1 (as published)
block  label             kind                  inputs                      output
    1  pallets           up/down counter       R I3 1, Cnt I1 1, Dir I2 1       0  retentive; remembered 1; count 0, On 3, Off 2
END
printf '' >"$work/complaints"
says 0 tower --script tower.script </dev/null

# Records that no scan leaves here. The first is sound: the counter stands below its upper stop, and the stairway switch remembers Trg 1 and
# does not run. In the others a word of the one or the other is out of its range.
# forge FILE PLACE=WORD ..: the record with these words in these places, from 0
forge() {
    python3 - "$work/tower.record" "$work/$1" "${@:2}" <<'END' || exit 1
import sys, zlib
lines = open(sys.argv[1]).read().split("\n")
words = lines[2].split(" ")
for place, word in (pair.split("=") for pair in sys.argv[3:]):
    words[2 + int(place)] = word
head = "\n".join(lines[:2] + [" ".join(words)]) + "\n"
open(sys.argv[2], "w").write(head + f"sum {zlib.crc32(head.encode()):08x}\n")
END
}
forge sound.record 165=0 166=999998 168=1
cat >"$work/sound.script" <<'END'
load sound.record
set I1 1 I4 1
scan 0
look 1 2
set I1 0 I4 0
scan 0
set I1 1 I4 1
scan 0
look 1 2
END
cat >"$work/expected" <<'END'
circuit: tower, 151 bytes, 4 blocks, 3 rows; cold start
load: sound.record, waiting
set: I1 1, I4 1
scan 1 of 1: e 0 (0.00 s), 1 turn; Q1 1, Q3 1; changed: Q1 0 -> 1, Q3 0 -> 1
phase    waiting
inputs   I1 1, I4 1 (as latched)
M        all 0 (for the next scan; the blocks saw those before)
AM       all 0 (for the next scan; the blocks saw those before)
outputs  Q1 1, Q3 1 (as published)
block  label             kind                  inputs                      output
    1  pallets           up/down counter       R I3 0, Cnt I1 1, Dir I2 0       1  retentive; remembered 1; count 999999, On 3, Off 2
    2  stairs            stairway switch       Trg I4 1                         0  retentive; remembered 1 (Trg 1, does not run); Ta 0.00 s of 6.00 s; T! 3.00 s, T!L 2.00 s: dark from 3.00 s to 5.00 s
set: all inputs 0
scan 1 of 1: e 0 (0.00 s), 1 turn; Q1 1, Q3 1; nothing changed
set: I1 1, I4 1
scan 1 of 1: e 0 (0.00 s), 1 turn; Q1 1, Q2 1, Q3 1; changed: Q2 0 -> 1
phase    waiting
inputs   I1 1, I4 1 (as latched)
M        all 0 (for the next scan; the blocks saw those before)
AM       all 0 (for the next scan; the blocks saw those before)
outputs  Q1 1, Q2 1, Q3 1 (as published)
block  label             kind                  inputs                      output
    1  pallets           up/down counter       R I3 0, Cnt I1 1, Dir I2 0       1  retentive; remembered 1; count 999999, On 3, Off 2
    2  stairs            stairway switch       Trg I4 1                         1  retentive; remembered 3 (Trg 1, runs); Ta 0.00 s of 6.00 s; T! 3.00 s, T!L 2.00 s: dark from 3.00 s to 5.00 s
END
says 0 tower --script sound.script </dev/null
for word in 165=2 166=1000000 166=-1 167=2 168=4 169=601; do
    forge unsound.record $word
    echo 'load unsound.record' | (cd "$work" && run "$here/$gateway" tower) >"$work/out" 2>"$work/err"
    [ $? -eq 1 ] && grep -q 'unsound.record holds a record that is not sound for this circuit' "$work/err" || wrong "a record with $word is loaded: $(cat "$work/out" "$work/err")"
done
# the same kinds, retentive and not, behind a warm start: with Cnt 1 and Trg 0 before and now, then with Cnt 0 and Trg 1
cat >"$work/cut.csv" <<'END'
16,17,1,0,0,1,1,0,0,2,1,1,kept
16,17,0,0,0,1,1,0,0,2,1,1,lost
16,17,0,0,0,1,1,0,0,0,5,1,low
16,18,1,1,2,0,600,300,200,1,light
16,18,0,1,2,0,600,300,200,1,dark
48,1,1,6,1
48,1,2,6,2
48,1,3,6,3
48,1,4,6,4
48,1,5,6,5
END
make_circuit "$work/cut.csv" "$work/cut"
cat >"$work/cut.script" <<'END'
set I1 1 I2 1
scan 0
set I1 0 I2 0
scan 1
set I1 1
scan 2s
warm
scan 1s
look
set I1 0 I2 1
scan 1s
warm
scan 1s
look
END
cat >"$work/expected" <<'END'
circuit: cut, 198 bytes, 5 blocks, 5 rows; cold start
set: I1 1, I2 1
scan 1 of 1: e 0 (0.00 s), 1 turn; Q3 1, Q4 1, Q5 1; changed: Q3 0 -> 1, Q4 0 -> 1, Q5 0 -> 1
set: all inputs 0
scan 1 of 1: e 1 (0.01 s), 1 turn; Q3 1, Q4 1, Q5 1; nothing changed
set: I1 1
scan 1 of 1: e 200 (2.00 s), 1 turn; Q1 1, Q2 1, Q3 1, Q4 1, Q5 1; changed: Q1 0 -> 1, Q2 0 -> 1
warm: begun anew, retentive blocks kept
scan 1 of 1: e 100 (1.00 s), 1 turn; Q1 1, Q3 1; changed: Q2 1 -> 0, Q4 1 -> 0, Q5 1 -> 0
phase    waiting
inputs   I1 1 (as latched)
M        all 0 (for the next scan; the blocks saw those before)
AM       all 0 (for the next scan; the blocks saw those before)
outputs  Q1 1, Q3 1 (as published)
block  label             kind                  inputs                    output
    1  kept              up/down counter       R - 0, Cnt I1 1, Dir - 0       1  retentive; remembered 1; count 2, On 2, Off 1
    2  lost              up/down counter       R - 0, Cnt I1 1, Dir - 0       0  remembered 1; count 1, On 2, Off 1
    3  low               up/down counter       R - 0, Cnt I1 1, Dir - 0       1  remembered 1; count 1, On 0, Off 5
    4  light             stairway switch       Trg I2 0                       0  retentive; remembered 2 (Trg 0, runs); Ta 3.00 s of 6.00 s; T! 3.00 s, T!L 2.00 s: dark from 3.00 s to 5.00 s
    5  dark              stairway switch       Trg I2 0                       0  remembered 0 (Trg 0, does not run); Ta 0.00 s of 6.00 s; T! 3.00 s, T!L 2.00 s: dark from 3.00 s to 5.00 s
set: I2 1
scan 1 of 1: e 100 (1.00 s), 1 turn; Q1 1, Q3 1, Q4 1, Q5 1; changed: Q4 0 -> 1, Q5 0 -> 1
warm: begun anew, retentive blocks kept
scan 1 of 1: e 100 (1.00 s), 1 turn; Q1 1, Q3 1, Q4 1, Q5 1; nothing changed
phase    waiting
inputs   I2 1 (as latched)
M        all 0 (for the next scan; the blocks saw those before)
AM       all 0 (for the next scan; the blocks saw those before)
outputs  Q1 1, Q3 1, Q4 1, Q5 1 (as published)
block  label             kind                  inputs                    output
    1  kept              up/down counter       R - 0, Cnt I1 0, Dir - 0       1  retentive; remembered 0; count 2, On 2, Off 1
    2  lost              up/down counter       R - 0, Cnt I1 0, Dir - 0       0  remembered 0; count 0, On 2, Off 1
    3  low               up/down counter       R - 0, Cnt I1 0, Dir - 0       1  remembered 0; count 0, On 0, Off 5
    4  light             stairway switch       Trg I2 1                       1  retentive; remembered 3 (Trg 1, runs); Ta 0.00 s of 6.00 s; T! 3.00 s, T!L 2.00 s: dark from 3.00 s to 5.00 s
    5  dark              stairway switch       Trg I2 1                       1  remembered 3 (Trg 1, runs); Ta 0.00 s of 6.00 s; T! 3.00 s, T!L 2.00 s: dark from 3.00 s to 5.00 s
END
says 0 cut --script cut.script </dev/null
echo "gateway: counters and stairway switches, as worked out by hand"

# ---- every bad command: told with its line, and nothing else happens
cat >"$work/bad.script" <<'END'
open
set I25 1
set I1
set I1 2
set AI1 1001
set I2 1 Q1 1
set
latch x
latch 655.36s
latch 15ms
latch 1 2
run
publish
turn 0
turn
turn 2 x
look 6
look 0
look 4 3
look 1 2 3
scan 1 0
scan 1 2 3
scan -1
latch 65535
latch
warm
load yard.record
run 4294967296
run -1
run 1 1
publish
run all
scan
publish
save
load
trace
help open
help run x
quit now
look 1
END
cat >"$work/expected" <<'END'
circuit: yard, 192 bytes, 5 blocks, 4 rows; cold start
set: all inputs 0
latch: e 65535 (10:55.35 min); all inputs 0
run: 5 blocks worked out, 0 to go
publish: AQ1 -5; changed: AQ1 0 -> -5
phase    waiting
inputs   all 0 (as latched)
M        M1 1 (for the next scan; the blocks saw those before)
AM       all 0 (for the next scan; the blocks saw those before)
outputs  AQ1 -5 (as published)
block  label             kind                  inputs               output
    1  press             AND edge              I1 0, - 1, - 1, - 1       0  remembered 0
END
cat >"$work/complaints" <<'END'
gateway: line 1: there is no command `open`; help tells those that there are
gateway: line 2: `I25` is no input; expected is I1 to I24 or AI1 to AI8
gateway: line 3: a word is missing; expected is: set INPUT VALUE ..
gateway: line 4: `2` is no value of I1; expected is 0 or 1
gateway: line 5: `1001` is no value of AI1; expected is 0 to 1000
gateway: line 6: `Q1` is no input; expected is I1 to I24 or AI1 to AI8
gateway: line 8: `x` is no time; expected are whole ticks of 10 ms, such as 50, 500ms, 2.5s or 3min
gateway: line 9: `655.36s` is too long for one latch; expected is at most 65535 ticks, which are 655.35s
gateway: line 10: `15ms` is no time; expected are whole ticks of 10 ms, such as 50, 500ms, 2.5s or 3min
gateway: line 11: `2` is too much; expected is: latch [TIME]
gateway: line 12: run is refused (22): no scan is open; latch opens one
gateway: line 13: publish is refused (22): no scan is open; latch opens one
gateway: line 14: `0` is no number of blocks; expected is 1 to 4294967295, or all
gateway: line 15: a word is missing; expected is: turn N
gateway: line 16: `x` is too much; expected is: turn N
gateway: line 17: `6` is no block; expected is 1 to 5
gateway: line 18: `0` is no block; expected is 1 to 5
gateway: line 19: `3` is no block; expected is 4 to 5
gateway: line 20: `3` is too much; expected is: look [FIRST [LAST]]
gateway: line 21: `0` is no number of scans; expected is 1 to 1000000
gateway: line 22: `3` is too much; expected is: scan [TIME [COUNT]]
gateway: line 23: `-1` is no time; expected are whole ticks of 10 ms, such as 50, 500ms, 2.5s or 3min
gateway: line 25: latch is refused (22): a scan is open with 5 blocks to go; run, then publish
gateway: line 26: warm is refused (22): a scan is open with 5 blocks to go; run, then publish
gateway: line 27: load is refused: a scan is open and would be lost; close it by run and publish, or give it up by cold
gateway: line 28: `4294967296` is no number of blocks; expected is 0 to 4294967295, or all
gateway: line 29: `-1` is no number of blocks; expected is 0 to 4294967295, or all
gateway: line 30: `1` is too much; expected is: run [N]
gateway: line 31: publish is refused (22): a scan is open with 5 blocks to go; run, then publish
gateway: line 33: latch is refused (22): a scan is open and worked out; publish closes it
gateway: line 35: a word is missing; expected is: save FILE
gateway: line 36: a word is missing; expected is: load FILE
gateway: line 37: no trace is being written: trace FILE begins one
gateway: line 38: there is no command `open`; help tells those that there are
gateway: line 39: `x` is too much; expected is: help [COMMAND]
gateway: line 40: `now` is too much; expected is: quit
END
says 1 yard --script bad.script </dev/null
echo "gateway: $(wc -l <"$work/complaints") bad commands, each told"

# ---- a circuit without blocks
bytes 0100030100007f0000 none
cat >"$work/expected" <<'END'
circuit: none, 9 bytes, 0 blocks, 0 rows; cold start
scan 1 of 1: e 1 (0.01 s), 1 turn; all outputs 0; nothing changed
latch: e 2 (0.02 s); all inputs 0
phase    in a scan, 0 of 0 blocks done, e 2 (0.02 s)
inputs   all 0 (as latched)
M        all 0 (change at publish)
AM       all 0 (change at publish)
outputs  all 0 (as published)
block  label             kind                  inputs  output
====>  the scan stands here: all are done, publish closes it
publish: all outputs 0; nothing changed
END
printf 'gateway: line 4: `1` is no block: this circuit has none\n' >"$work/complaints"
printf 'scan 1\nlatch 2\nlook\nlook 1\npublish\n' >"$work/none.script"
says 1 none --script none.script </dev/null

# ---- lines that are no text
{ head -c 4097 /dev/zero | tr '\0' x && printf '\nru\0n\n#%4095s\nset' '' ; } >"$work/lines.script"
printf 'circuit: yard, 192 bytes, 5 blocks, 4 rows; cold start\nset: all inputs 0\n' >"$work/expected"
cat >"$work/complaints" <<'END'
gateway: line 1: a line has at most 4096 bytes
gateway: line 2: a zero byte stands in the line; a line is text of at most 4096 bytes
END
says 1 yard --script lines.script </dev/null

# ---- files: what is no record of this circuit is refused, and what stands at a name is kept
make_circuit samples/harbour.csv "$work/harbour"
printf 'save harbour.record\n' | (cd "$work" && run "$here/$gateway" harbour) >/dev/null || exit 1
sed 's/^\(record .* \)1\(.*\)$/\10\2/' "$work/yard.record" >"$work/damaged.record"
sed 's/ 1$/ 2/;q' "$work/yard.record" >"$work/version.record"
head -c 100 "$work/yard.record" >"$work/cut.record"
mkdir "$work/folder"
cp "$work/yard.record" "$work/before.record"
cat >"$work/files.script" <<'END'
load there_is_none
load folder
load yard
load harbour.record
load damaged.record
load version.record
load cut.record
load a name with blanks
save yard
save folder
save there/is/none
trace yard
trace there/is/none
trace one.trace
trace two.trace
trace
trace one.trace
save a name with blanks
load a name with blanks
save my #2
trace # ends it
load a\033[31mname
save yard.record.new
save box
load dddd
END
printf 'kept' >"$work/box.new"
long=$(printf 'd/%.0s' {1..400})
sed -i "s/^load dddd/load ${long//\//\\/}x/; s/\\\\033/\x1b/" "$work/files.script"
cat >"$work/expected" <<'END'
circuit: yard, 192 bytes, 5 blocks, 4 rows; cold start
trace: one.trace
trace: ended
save: a name with blanks
load: a name with blanks, waiting
END
sums=($(sed -n 's/^\(circuit [0-9]*\|sum\) //p' "$work/harbour.record" "$work/yard.record" "$work/damaged.record"))
cat >"$work/complaints" <<END
gateway: line 1: there_is_none cannot be opened: No such file or directory; a file with a record is expected; the record is as it was
gateway: line 2: folder is not a file; a file with a record is expected; the record is as it was
gateway: line 3: yard is no record file: it does not begin with 'serifdove record '; the record is as it was
gateway: line 4: harbour.record is of another circuit, with 496 bytes and sum ${sums[0]}; this one has 192 bytes and sum ${sums[2]}; the record is as it was
gateway: line 5: damaged.record is damaged: its sum is ${sums[3]}, that of its bytes is $(head -n 3 "$work/damaged.record" | python3 -c 'import sys, zlib; print("%08x" % zlib.crc32(sys.stdin.buffer.read()))'); the record is as it was
gateway: line 6: version.record is a record file of version 2; version 1 is expected; the record is as it was
gateway: line 7: cut.record is cut short: its last line, 'sum SUM', is missing; the record is as it was
gateway: line 8: a name with blanks cannot be opened: No such file or directory; a file with a record is expected; the record is as it was
gateway: line 9: yard is no record file and is not replaced; a record file or a name that is free is expected
gateway: line 10: folder is not a file and is not replaced; a record file or a name that is free is expected
gateway: line 11: there/is/none is as it was: its folder cannot be opened: No such file or directory
gateway: line 12: yard is there already and is not replaced: give the trace another name
gateway: line 13: there/is/none cannot be made: No such file or directory; a trace needs the name of a file that is not there yet
gateway: line 15: a trace is being written: trace alone ends it, then another can begin
gateway: line 17: one.trace is there already and is not replaced: give the trace another name
gateway: line 20: behind save no word may begin with #: a file's name is the rest of the line
gateway: line 21: behind trace no word may begin with #: a file's name is the rest of the line
gateway: line 22: a\x1b[31mname cannot be opened: No such file or directory; a file with a record is expected; the record is as it was
gateway: line 23: yard.record.new ends in .new, as only the temporary file of a save does; another name is expected
gateway: line 24: box is as it was: at its temporary name, with .new behind it, stands what no save has left; move that away
gateway: line 25: ${long:0:48}..${long:753:47}x cannot be opened: No such file or directory; a file with a record is expected; the record is as it was
END
cp "$work/yard" "$work/yard.before"
says 1 yard --script files.script </dev/null
cmp "$work/yard" "$work/yard.before" || wrong "the circuit is changed"
[ "$(cat "$work/box.new")" = kept ] && rm "$work/box.new" && [ -z "$(find "$work" -name '*.new')" ] || { echo "gateway: a temporary file is left, or another's is lost" && exit 1; }
echo "gateway: $(wc -l <"$work/complaints") bad files and names, each told"

# full CALL: the files of the gateway may have at most 1,024 bytes, as on a full disk
full() {
    (trap '' XFSZ && ulimit -f 1 && cd "$work" && printf '%s\n' "$@" | run "$here/$gateway" harbour >/dev/null 2>err)
    [ $? -eq 1 ] || { echo "gateway: a full disk is not told: $*" && exit 1; }
}
full 'trace full.trace' 'scan 1 3' 'scan 1'
grep -q 'the trace could not be written whole' "$work/err" || { cat "$work/err" && exit 1; }
printf 'set I9 1\nscan 5\nsave small.record\n' | (cd "$work" && run "$here/$gateway" harbour) >/dev/null || exit 1
cp "$work/small.record" "$work/small.before"
(trap '' XFSZ && ulimit -f 0 && cd "$work" && printf 'save small.record\nload small.record\n' | run "$here/$gateway" harbour 2>&1 >/dev/null) | cat >"$work/err"
grep -q 'small.record is as it was' "$work/err" && cmp "$work/small.record" "$work/small.before" && [ ! -e "$work/small.record.new" ] ||
    { echo "gateway: a record file is lost on a full disk: $(cat "$work/err")" && exit 1; }
run $gateway "$work/harbour" </dev/null >/dev/full 2>"$work/err"
[ $? -eq 2 ] && grep -q 'standard output cannot be written' "$work/err" || { echo "gateway: no error where nothing can be printed" && exit 1; }
echo "gateway: a full disk"

# ---- a fault sent as a trace: the dialogue again, with refused calls and a load, played by the player to the same answers
{ printf 'trace yard.trace\n' && cat "$work/yard.script"; } >"$work/traced.script"
sed -i '1a publish\nload yard.record\nrun 3' "$work/traced.script"
(cd "$work" && run "$here/$gateway" yard --turn 2 --script traced.script >out 2>err)
[ $? -eq 1 ] && [ "$(tail -n 1 "$work/yard.trace")" = . ] || wrong "its trace has no end: $(cat "$work/err")"
run $replay <"$work/yard.trace" >"$work/answers" || exit 1
grep '^<' "$work/yard.trace" | cmp - "$work/answers" || { echo "gateway: its trace is played otherwise" && exit 1; }
made=$(grep -c '^> ' "$work/yard.trace") answers=$(wc -l <"$work/answers") loads=$(grep -c '^> rec ' "$work/yard.trace")
[ "$loads" -eq 2 ] && [ "$made" -eq $((answers + loads)) ] && grep -q '^< 22 ' "$work/answers" || wrong "its trace lacks a call, an answer or a load"
# what the dialogue published is what its trace says: Q1 is the 28th word from the end, AQ1 the 8th
[ "$(awk '$2 == 0 && last == "publish" { print $(NF - 27), $(NF - 7) } /^>/ { last = $2 }' "$work/yard.trace" | uniq | tr '\n' ' ')" = '1 700 0 -5 ' ] || wrong "its trace has other outputs than it published"
echo "gateway: a trace of $answers answers, played again"

# ---- by the clock, here one that the test sets: the first latch has e 0, a later one what passed. A rest below a tick counts at the next
# latch, a refused latch uses up nothing, more than e can be is told and dropped.
build_c "$work/clocked" -Wl,--wrap=clock_gettime tests/clock.c $gateway_sources
cat >"$work/expected" <<'END'
circuit: yard, 192 bytes, 5 blocks, 4 rows; cold start
scan 1 of 1: e 0 (0.00 s), 1 turn; AQ1 -5; changed: AQ1 0 -> -5
scan 1 of 1: e 0 (0.00 s), 1 turn; AQ1 -5; nothing changed
scan 1 of 1: e 1 (0.01 s), 1 turn; AQ1 -5; nothing changed
scan 1 of 1: e 1 (0.01 s), 1 turn; AQ1 -5; nothing changed
latch: the clock counted 4465 ticks more than e can be; they are not counted
scan 1 of 1: e 65535 (10:55.35 min), 1 turn; AQ1 -5; nothing changed
latch: e 1 (0.01 s); all inputs 0
run: 5 blocks worked out, 0 to go
publish: AQ1 -5; nothing changed
scan 1 of 1: e 2 (0.02 s), 1 turn; AQ1 -5; nothing changed
scan 1 of 1: e 5 (0.05 s), 1 turn; AQ1 -5; nothing changed
scan 1 of 1: e 3 (0.03 s), 1 turn; AQ1 -5; nothing changed
END
printf 'gateway: line 7: latch is refused (22): a scan is open with 5 blocks to go; run, then publish\n' >"$work/complaints"
printf '%s\n' scan scan scan scan scan latch latch run publish scan 'scan 5' scan |
    CLOCK_MILLISECONDS='123456 123465 123474 123483 823476 823486 823496 823506 999999 1000029' run "$work/clocked" "$work/yard" 2>"$work/err" |
    sed "s,^circuit: $work/,circuit: ," >"$work/out"
diff "$work/expected" "$work/out" && diff "$work/complaints" "$work/err" || { echo "gateway: by the clock it is otherwise (above)" && exit 1; }
echo "gateway: by the clock"

# ---- at a terminal: a prompt, colour unless it is not wanted, no line numbers; in a pipe none of that
cat >"$work/terminal.py" <<'END'
import os, pty, sys
lines, words = sys.argv[1].split(";"), sys.argv[2:]
child, terminal = pty.fork()
if child == 0:
    os.execvp(words[0], words)
seen = b""
def until(end):
    global seen
    more, fresh = b"-", b""
    while more and not fresh.endswith(end):
        try:
            more = os.read(terminal, 4096)
        except OSError:
            more = b""
        fresh += more
    seen += fresh
for line in lines:
    until(b"gateway> ")
    os.write(terminal, line.encode() + b"\n")
until(b"\0")
sys.stdout.write(seen.decode().replace("\r", ""))
sys.exit(os.waitstatus_to_exitcode(os.waitpid(child, 0)[1]))
END
dialogue='latch 1;run 2;look;open;quit'
NO_COLOR= TERM=xterm python3 "$work/terminal.py" "$dialogue" "${runner[@]}" $gateway "$work/yard" >"$work/seen"
[ $? -eq 1 ] && grep -q '^gateway> look' "$work/seen" && grep -q $'^\033\\[1;33m====>.*\033\\[0m$' "$work/seen" && grep -q $'^\033\\[2m    3  bits' "$work/seen" &&
    grep -q '^gateway: there is no command `open`' "$work/seen" || { echo "gateway: at a terminal:" && cat -v "$work/seen" && exit 1; }
NO_COLOR=1 TERM=xterm python3 "$work/terminal.py" "$dialogue" "${runner[@]}" $gateway "$work/yard" >"$work/seen"
grep -q '^====>' "$work/seen" && ! grep -q $'\033' "$work/seen" || { echo "gateway: colour that is not wanted" && exit 1; }
tr ';' '\n' <<<"$dialogue" | run $gateway "$work/yard" >"$work/seen" 2>&1
! grep -q -e $'\033' -e 'gateway> ' "$work/seen" && grep -q '^gateway: line 4: ' "$work/seen" || { echo "gateway: in a pipe:" && cat -v "$work/seen" && exit 1; }
echo "gateway: at a terminal and in a pipe"

# ---- commands that break off in the middle of a line: that line is not carried out
cat >"$work/broken.py" <<'END'
import socket, struct, subprocess, sys
listener = socket.create_server(("127.0.0.1", 0))
ours = socket.create_connection(listener.getsockname())
theirs, _ = listener.accept()
child = subprocess.Popen(sys.argv[1:], stdin=theirs, stdout=subprocess.PIPE)
theirs.close()
ours.sendall(b"latch 1\nrun 1")
seen = b""
while b"latch: " not in seen:
    seen += child.stdout.readline() or sys.exit("it ends before its first command")
ours.setsockopt(socket.SOL_SOCKET, socket.SO_LINGER, struct.pack("ii", 1, 0))
ours.close()  # the reader gets an error, not an end
sys.stdout.buffer.write(seen + child.stdout.read())
sys.exit(child.wait())
END
python3 "$work/broken.py" "${runner[@]}" $gateway "$work/yard" >"$work/out" 2>"$work/err"
[ $? -eq 1 ] && grep -q 'latch: e 1 ' "$work/out" && ! grep -q 'run: ' "$work/out" && grep -q 'the commands cannot be read any further' "$work/err" ||
    wrong "half a line: $(cat "$work/out" "$work/err")"
for word in --help -h; do
    run $gateway $word >"$work/out" && grep -q '^usage: gateway CIRCUIT' "$work/out" && grep -q '^  --series 0BA6 ' "$work/out" || wrong "it has no help"
done
