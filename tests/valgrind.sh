#!/usr/bin/env bash
# The host's programs under valgrind, on x86-64: the player on the stored trace, the gateway with every command, with circuits that are
# refused and files that are no record, the reader of rows on good and bad ones, both with a series. No byte that is not theirs is read or
# written, no word that was never set is used, no memory is lost. First it is tried whether a fault would be found.
source "$(dirname "${BASH_SOURCE[0]}")/host.bash"
[ "$emulated" = no ] || { echo "valgrind: only on x86-64" && exit 0; }
need valgrind valgrind libc6-dbg
need_programs
here=$PWD

# under PROGRAM WORD..: in the work folder, under valgrind; what it finds stands in `report`
under() {
    (cd "$work" && valgrind -q --log-file=report --error-exitcode=99 --leak-check=full --errors-for-leak-kinds=definite,indirect,possible \
        "$@" >out 2>err)
}

# watched STATUS PROGRAM WORD..: it ends with this status, and valgrind finds nothing
runs=0
watched() {
    local status
    under "${@:2}"
    status=$?
    if [ "$status" -ne "$1" ] || [ -s "$work/report" ]; then
        echo "valgrind: status $status, expected $1: ${*:2}"
        head -n 40 "$work/report" "$work/err"
        exit 1
    fi
    runs=$((runs + 1))
}

cat >"$work/wrong.c" <<'END'
#include <stdlib.h>
#include <string.h>
int main(int argc, char **argv) {
    volatile int *volatile memory = malloc(4 * sizeof *memory);
    if (argc != 2 || memory == NULL)
        return 2;
    memory[0] = 0;
    int seen = memory[strcmp(argv[1], "behind") == 0 ? 4 : 0];
    if (strcmp(argv[1], "never_set") == 0 && memory[1] == 1)
        seen = 1;
    if (strcmp(argv[1], "lost") != 0)
        free((void *)memory);
    memory = NULL;
    return seen == 1;
}
END
build_c "$work/wrong" "$work/wrong.c"
watched 0 ./wrong nothing
for fault in behind never_set lost; do
    under ./wrong $fault
    [ $? -eq 99 ] && [ -s "$work/report" ] || { echo "valgrind: self-test $fault: not found" && exit 1; }
    echo "valgrind: self-test $fault: found"
done

# ---- the player
watched 0 "$here/$replay" <tests/data/cases.trace
grep '^<' tests/data/cases.trace | cmp - "$work/out" || { echo "valgrind: the player prints otherwise" && exit 1; }
watched 2 "$here/$replay" <<<'> rec 3 1 2'

# ---- the gateway: every command, on a circuit of all kinds and on the greatest
cat >"$work/script" <<'END'
# every command
help
help save
set
set I1 1 AI2 250 I24 1
set AI1=1000
turn 2
latch 50
run
run 1
look
look 1 3
save box.record
run 4294967295
publish
look
scan 2.5s 3
scan
turn all
scan 10ms 3
warm
trace calls.trace
latch
run 0
cold
load box.record
run
publish
scan 1 5
save box.record
save dock door 4.record
load dock door 4.record
trace
quit
END
for circuit in all_kinds n_400; do
    rm -f "$work/"*.record "$work/"*.trace
    watched 0 "$here/$gateway" "$here/crates/cases/data/$circuit" --turn 3 --script script
    watched 0 "$here/$replay" <"$work/calls.trace"
    grep '^<' "$work/calls.trace" | cmp - "$work/out" || { echo "valgrind: the gateway's trace is played otherwise" && exit 1; }
done

# ---- bad commands and bad files: each is refused, and those behind them are carried out
record=$work/box.record
printf '' >"$work/empty"
printf 'serifdove record 1' >"$work/first_line"
printf 'serifdove record 2\n' >"$work/version_2"
printf 'serifdove record 1\nsum 00000000\n' >"$work/wrong_sum"
printf 'serifdove record 1\nsum 00' >"$work/cut_sum"
head -c 100 "$record" >"$work/cut"
{ cat "$record" && printf x; } >"$work/behind"
head -c 100000 /dev/zero >"$work/long"
cat >"$work/bad" <<'END'
frobnicate
help frobnicate
set I25 1
set I1
set AI1 1001
latch x
latch 65536
latch 1 2
run
run -1
publish
scan x
scan 1 0
turn 0
look 0
look 2 1
look 401
warm now
save
save .
save missing/x
save empty
load
load .
load missing
load empty
load first_line
load version_2
load wrong_sum
load cut_sum
load cut
load behind
load long
load box.record
trace
trace missing/x
trace empty
latch 1
latch 1
warm
load box.record
publish
END
{ cat "$work/bad" && printf 'a\0b\n' && printf '%05000d\n' 0 && printf 'look'; } >"$work/bad_and_long"
watched 1 "$here/$gateway" "$here/crates/cases/data/all_kinds" <"$work/bad_and_long"
[ "$(grep -c '^gateway: line ' "$work/err")" -eq $(($(wc -l <"$work/bad_and_long") - 1)) ] ||
    { echo "valgrind: not every bad command was refused" && cat "$work/err" && exit 1; }

# ---- what cannot begin
for circuit in header_cut destination_twice; do
    watched 2 "$here/$gateway" "$here/crates/cases/data/$circuit" </dev/null
done
for words in long 'script --turn'; do
    watched 2 "$here/$gateway" $words </dev/null
done

# ---- rows: good ones forth, back and trimmed, and by the gateway; each fault; what cannot be read or written
for name in harbour coldstore; do
    watched 0 "$here/$rows" "$here/samples/$name.csv" $name.circuit
    watched 0 "$here/$rows" --back $name.circuit $name.csv
    watched 0 "$here/$rows" --trim $name.csv $name.trimmed.csv
    cmp samples/$name.csv "$work/$name.trimmed.csv" || { echo "valgrind: the rows of $name come back otherwise" && exit 1; }
done
watched 0 "$here/$gateway" "$here/samples/coldstore.csv" </dev/null
while IFS= read -r text; do
    printf '%b' "$text" >"$work/bad.csv"
    watched 1 "$here/$rows" bad.csv bad.circuit
    rm -f "$work/bad_trimmed.csv"
    watched 0 "$here/$rows" --trim bad.csv bad_trimmed.csv
done <<'END'
16,8,0,0,0,1,"a
16,8,0,0,0,1,"
16,8,0,0,0,1,"a"b
16,8,0,0,0,1,a"
16
16,
16,99
,,,,
\xef\xbb\xbf
\xef\xbb\xbf16,8,0,0,0,0,
\xff
48
48,1,1,3,0,,,,
48,1,1,3,"0",,,,,,,,,,,,,,,,,,,,,,,
48,1,1,3,99999999999999999999999999
16,9,0,1,1,0,-,0,
16,9,0,1,1,0,1,0,x
16,9,0,1,1,0,1,1,"""""""""""""""""""""""""""""""""""
16,9,0,1,1,0,1,001,0,
"",""
48,1,1,3,0,""
48,1,1,3,"0","",""""
16,8,0,0,0,0,\r
16;8
1\x006\x00
48,1,1,6,1
48,3,1,"3","0"
48,9,1,3,0
48,1,1,3,0\n16,8,0,0,0,0,
16,8,0,6,1,0,
16,8,1,0,0,0,
16,9,0,1,1,3,20000,0,
16,15,0,0,0,0,0,0,0,0,0,0,40000,0,
16,17,0,0,0,1,1,0,0,5,1000000,0,
16,18,0,1,1,0,6,3,0,
16,18,0,1,1,0,6,3,4,0,
16,19,0,7,1,1001,0,0,
16,19,0,6,1,100,0,0,
16,20,0,1,1,0,6,3,2,0,
END
watched 2 "$here/$gateway" bad.csv </dev/null
watched 2 "$here/$rows"
watched 2 "$here/$rows" missing.csv x
watched 2 "$here/$rows" bad.csv x.csv
watched 2 "$here/$rows" --back missing x.csv
watched 2 "$here/$rows" --back harbour.circuit harbour.csv

# ---- the series 0BA6: what fits it, and what does not, as bytes and as rows
watched 0 "$here/$gateway" "$here/crates/cases/data/series_all_limits" --series 0BA6 </dev/null
for circuit in n_400 all_destinations all_kinds series_m28_at_a_block series_q17_from_m28; do
    watched 2 "$here/$gateway" "$here/crates/cases/data/$circuit" --series 0BA6 </dev/null
    watched 0 "$here/$rows" --back "$here/crates/cases/data/$circuit" $circuit.csv
    watched 2 "$here/$gateway" $circuit.csv --series 0BA6 </dev/null
    watched 1 "$here/$rows" $circuit.csv $circuit.circuit --series 0BA6
done
watched 2 "$here/$gateway" harbour.circuit --series 0BA7 </dev/null
watched 2 "$here/$rows" --series
echo "valgrind: $runs runs, nothing found"
