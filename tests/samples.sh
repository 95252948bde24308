#!/usr/bin/env bash
# The samples: the rows of each make a circuit that is accepted, and are what is written of it; the gateway plays its day to the stored
# trace, byte for byte; the player and the independent program give every answer of that trace; it shows what samples/NAME.expect says by
# hand, and what is said there of every scan holds in walks with random inputs. All kinds and sorts of connectors occur, and each block
# matters to some output.
source "$(dirname "${BASH_SOURCE[0]}")/host.bash"
need_programs
build_by_oracle "$work/by_oracle" $replay_sources
build_c "$work/walks" tests/sample_walks.c tests/circuits.c host/files.c
names=$(cd samples && ls -- *.csv | sed 's/\.csv$//') && [ -n "$names" ] || exit 1
top=$PWD
scans=50000

# differs FILE MESSAGE: prints what differs, cut, and ends
differs() {
    head -n 20 "$1" | cut -c1-200
    echo "samples: $2"
    exit 1
}

# play NAME: the day in $work, with the status that is expected
play() {
    local status expected
    expected=$(sed -n 's/^status //p' "samples/$1.expect")
    (cd "$work" && run "$top/$gateway" "$1.circuit" --script "$top/samples/$1.day") >"$work/$1.out" 2>"$work/$1.errors"
    status=$?
    [ "$status" -eq "$expected" ] || differs "$work/$1.errors" "$1: the gateway's status is $status, expected is $expected"
    [ "$(wc -l <"$work/$1.errors")" -eq "$(grep -c '^< [^0]' "samples/$1.trace")" ] ||
        differs "$work/$1.errors" "$1: the gateway tells other refusals than the trace has"
}

# answers NAME WHO PROGRAM: it gives every answer of the stored trace
answers() {
    run "$3" <"samples/$1.trace" >"$work/answers" || exit 1
    grep '^<' "samples/$1.trace" | diff - "$work/answers" >"$work/differs" || differs "$work/differs" "$1: $2 plays the stored trace otherwise"
}

# walk NAME CIRCUIT SEED: what samples/NAME.expect says of every scan, in scans with random inputs
walk() {
    run "$work/walks" "$2" "samples/$1.expect" "$3" $scans >"$work/walked"
}

for name in $names; do
    make_circuit samples/$name.csv "$work/$name.circuit"
    run $rows --back "$work/$name.circuit" "$work/$name.csv" >"$work/made" || exit 1
    cmp samples/$name.csv "$work/$name.csv" || differs "$work/$name.csv" "$name: the rows are written otherwise than they stand"
    printf 'C %s\n> check\n' "$(od -An -v -tx1 "$work/$name.circuit" | tr -d ' \n')" | run $replay >"$work/verdict" || exit 1
    grep -q '^< 0 0 ' "$work/verdict" || differs "$work/verdict" "$name: the circuit is refused"
    play $name
    python3 tests/sample_facts.py day samples/$name.expect "$work/$name.trace" >"$work/differs" || differs "$work/differs" "$name: the day shows something else"
    diff samples/$name.trace "$work/$name.trace" >"$work/differs" || differs "$work/differs" "$name: the day's trace is another than samples/$name.trace"
    answers $name "the player" $replay
    answers $name "the oracle" "$work/by_oracle"
    walk $name "$work/$name.circuit" 1 || differs "$work/walked" "$name: a rule is broken"
    read -r _ _ _ blocks output_rows _ <"$work/verdict"
    echo "samples: $name: $blocks blocks, $output_rows rows, $(grep -c '^<' samples/$name.trace) answers; $(cat "$work/walked")"
done
python3 tests/sample_facts.py sorts "$work"/*.circuit >"$work/differs" || differs "$work/differs" "something is in no sample"
grep -q '"Door 3, north"' samples/*.csv || { echo "samples: no label holds a comma" && exit 1; }

# samples/README.md tells the blocks of each by their labels, in order
python3 - $names <<'END' || exit 1
import csv, sys
page = open("samples/README.md", encoding="utf-8").read()
for name in sys.argv[1:]:
    part = page.split(f"\n### {name}\n")[1].split("\n### ")[0].split("| block | label | why |")[1]
    told = ", ".join(line.split(" | ")[1].replace("; ", ", ") for line in part.splitlines() if line.startswith("| "))
    with open(f"samples/{name}.csv", encoding="utf-8", newline="") as file:
        labels = ", ".join(cells[-1] for cells in csv.reader(file) if cells[0] == "16")
    if told != labels:
        sys.exit(f"samples: samples/README.md tells other blocks of {name}: {told}")
END

# told JOB WORD..: the facts are found to be wrong
told() {
    python3 tests/sample_facts.py "$@" >"$work/differs" 2>"$work/errors"
    [ $? -eq 1 ] && [ -s "$work/differs" ] && [ ! -s "$work/errors" ] || differs "$work/errors" "not told: $*"
}

# a fact that is wrong, missing or too much; an output word that is another; a refusal too many; no sample with a kind; an unused block
sed 's/^scan 17: Q3/scan 16: Q3/' samples/harbour.expect >"$work/wrong" && told day "$work/wrong" samples/harbour.trace
sed '/^scan 9:/d' samples/harbour.expect >"$work/wrong" && told day "$work/wrong" samples/harbour.trace
sed '/^scan 9:/s/$/, Q9 0 -> 1/' samples/harbour.expect >"$work/wrong" && told day "$work/wrong" samples/harbour.trace
sed '/^refused/d' samples/airfreight.expect >"$work/wrong" && told day "$work/wrong" samples/airfreight.trace
sed '/^> publish/{n;s/ 28 0 0/ 28 1 1/}' samples/harbour.trace >"$work/wrong" && told day samples/harbour.expect "$work/wrong"
told sorts "$work/harbour.circuit"
printf '%s\n' 16,1,0,1,1,0,0,0,0,0,0,1,used 16,1,0,6,1,0,0,0,0,0,0,1,unused 48,2,1,6,2 48,1,1,6,1 >"$work/unused.csv"
make_circuit "$work/unused.csv" "$work/unused.circuit"
told sorts "$work"/*.circuit
grep -q 'unused.circuit: blocks that matter to no output: \[2\]$' "$work/differs" || differs "$work/differs" "an unused block is not told"

# shows_otherwise NAME EDIT: with this edit of its rows the day shows something else
shows_otherwise() {
    mkdir "$work/other" || exit 2
    sed "$2" samples/$1.csv >"$work/other/$1.csv"
    ! cmp -s samples/$1.csv "$work/other/$1.csv" || differs "$work/other/$1.csv" "the rows are not changed"
    make_circuit "$work/other/$1.csv" "$work/other/$1.circuit"
    (cd "$work/other" && run "$top/$gateway" $1.circuit --script "$top/samples/$1.day") >"$work/made" 2>&1
    told day samples/$1.expect "$work/other/$1.trace"
    rm -r "$work/other"
}

# full a pallet later, or free a pallet earlier; a key that is not there; counts that are not kept; a dark time that is a tick shorter or begins
# a tick later; times that are not kept
for rule in 's/,5,3,1,"Lane/,6,3,1,"Lane/' 's/,5,3,1,"Lane/,5,4,1,"Lane/' 's/^16,17,1,1,4,/16,17,1,0,0,/' 's/^16,17,1,/16,17,0,/'; do
    shows_otherwise bottling "$rule"
done
for rule in s/,1500,100,/,1500,99,/ s/,1500,100,/,1499,100,/ s/,20,2,/,20,1,/ 's/^16,18,1,/16,18,0,/'; do
    shows_otherwise highbay "$rule"
done

# an end of the fine gauge that Off reaches above, and one that it does not reach below; a gain and an offset that are less; a jump that is told later
for rule in s/,20000,15000,/,20000,12767,/ s/,-20000,-12768,/,-20000,-12769,/ s/,1000,-5000,/,999,-5000,/ s/,1000,-5000,/,1000,-5001,/ s/,300,300,/,310,310,/; do
    shows_otherwise rainwater "$rule"
done

# an intake that starts with the power, and one that the chain does not stop
for rule in 's/,132,8,0,0,0,0,1,intake_stop/,0,0,0,0,0,0,1,intake_stop/' 's/^16,10,0,1,11,6,15,/16,10,0,1,11,0,0,/'; do
    shows_otherwise returns "$rule"
done

# a harbour in which the open button no longer stops the motor on its way down
sed -e 's/4,2,1,up_stop/0,0,1,up_stop/' -e 's/1,1,6,8,1,down_stop/0,0,6,8,1,down_stop/' samples/harbour.csv >"$work/unsafe.csv"
[ "$(diff samples/harbour.csv "$work/unsafe.csv" | grep -c '^>')" -eq 2 ] || differs "$work/unsafe.csv" "the interlock is not taken out"
make_circuit "$work/unsafe.csv" "$work/unsafe.circuit"
walk harbour "$work/unsafe.circuit" 1
[ $? -eq 1 ] && grep -q ' breaks: never Q1 Q2$' "$work/walked" || differs "$work/walked" "a walk does not find the missing interlock"

# a lane of which one count is forgotten at a warm start, and the other is not
sed 's/^16,17,1,\(.*nearly empty\)/16,17,0,\1/' samples/bottling.csv >"$work/forgetful.csv"
[ "$(diff samples/bottling.csv "$work/forgetful.csv" | grep -c '^>')" -eq 1 ] || differs "$work/forgetful.csv" "both counts are kept"
make_circuit "$work/forgetful.csv" "$work/forgetful.circuit"
walk bottling "$work/forgetful.circuit" 1
[ $? -eq 1 ] && grep -q ' breaks: never Q3 Q4$' "$work/walked" || differs "$work/walked" "a walk does not find the forgotten count"
echo "samples: wrong facts are told"
