#!/usr/bin/env bash
# docs/OPERATING.md and docs/example.c. The example is built and run, on accepted circuits and on one that is refused. The page tells the truth: its C
# stands in the example, its table of words fits the header, its bytes are refused as it says, its dialogues are what the gateway program
# prints, its trace plays. And it is complete: it has each name and number of the header, and each command that `help` tells.
source "$(dirname "${BASH_SOURCE[0]}")/host.bash"
need_programs
page=docs/OPERATING.md
header=include/serifdove.h
example=$work/example
build_c "$example" docs/example.c

# wrong WORDS..: tells what is wrong, and ends the test
wrong() {
    echo "example: $*"
    exit 1
}

# block SORT K: what stands in the page's k-th block of this sort
block() {
    awk -v fence="\`\`\`$1" -v wanted="$2" '$0 == fence { inside = ++n == wanted; next } $0 == "```" { inside = 0 } inside' $page
}

# blocks SORT: how many there are
blocks() {
    grep -c -x "\`\`\`$1" $page
}

# ---- the example

# prints FILE STATUS: what the example prints of a circuit, errors too, is standard input
prints() {
    run "$example" "$1" >"$work/printed" 2>&1
    [ $? -eq "$2" ] || wrong "docs/example.c: not status $2: $(cat "$work/printed")"
    diff - "$work/printed" || wrong "docs/example.c prints something else of $(basename "$1")"
}

block hex 1 | sed 's/^ *[0-9]*  //; s/   *.*//; s/[^ ][^ ]/\\x&/g; s/ //g' >"$work/escaped"
printf '%b' "$(tr -d '\n' <"$work/escaped")" >"$work/own_block.circuit"
[ "$(wc -c <"$work/own_block.circuit")" -eq 34 ] || wrong "$page: its bytes are not 34"
{ head -c 11 "$work/own_block.circuit" && printf '\x01\x00\x01' && tail -c +15 "$work/own_block.circuit"; } >"$work/document_01.circuit"
{
    echo '1 blocks, 1 rows'
    for k in 1 2 3 4; do
        printf 'scan %d\n  Q 10000000000000000000, AQ 0 0 0 0 0 0 0 0\n' $k
    done
} | prints "$work/document_01.circuit" 0 || exit 1

cat >"$work/delays.csv" <<'END'
16,9,0,1,1,0,100,1,delay
16,15,0,1,1,2,0,1,2,1,-250,3,4,1,value
16,8,0,1,1,1,third
16,8,0,6,3,1,fourth
16,8,0,6,4,1,fifth
16,8,0,6,5,1,sixth
16,8,0,6,6,1,seventh
16,8,0,6,7,1,eighth
16,8,0,6,8,1,ninth
16,1,0,6,8,6,1,0,0,0,0,1,last
48,1,1,6,10
48,1,20,6,1
48,3,8,9,2
END
make_circuit "$work/delays.csv" "$work/delays.circuit"
{
    echo '10 blocks, 3 rows'
    for scan in 1:0 2:0 3:1 4:1; do
        printf 'scan %d\n  other work, with 8 blocks done\n  Q %d000000000000000000%d, AQ 0 0 0 0 0 0 0 -250\n' "${scan%:*}" "${scan#*:}" "${scan#*:}"
    done
} | prints "$work/delays.circuit" 0 || exit 1

grep -q '^An example. These 34 bytes are refused with 7 at byte 6:$' $page || wrong "$page does not tell how its bytes are refused"
echo 'example: the circuit is refused with 7 at byte 6' | prints "$work/own_block.circuit" 1 || exit 1
printf '' >"$work/empty"
echo 'example: the circuit is refused with 1 at byte 0' | prints "$work/empty" 1 || exit 1
head -c 65537 /dev/zero >"$work/long"
for file in "$work/there_is_none" "$work" "$work/long"; do
    echo 'usage: example CIRCUIT, a file of at most 65536 bytes' | prints "$file" 2 || exit 1
done
echo "example: docs/example.c, $(wc -l <docs/example.c) lines"

# ---- the page against the example and the header

[ "$(blocks c)" -gt 0 ] || wrong "$page shows nothing of docs/example.c"
for ((k = 1; k <= $(blocks c); k++)); do
    python3 -c 'import sys; sys.exit(not sys.argv[1] or sys.argv[1] not in open("docs/example.c").read())' "$(block c $k)" || wrong "$page: its C block $k does not stand in docs/example.c"
done

for name in $(grep -o 'SERIFDOVE_[A-Z0-9_]*' $header | sort -u | grep -v -x SERIFDOVE_H); do
    grep -q "$name\b" $page || wrong "$page does not name $name"
done
numbers=$(sed -n '/^enum serifdove_number/,/^}/s/^ *\(SERIFDOVE_[A-Z_]*\) = \([0-9]*\).*/\2 \1/p' $header | grep -v '^0 ')
while read -r number name; do
    grep -q "^| $number | \`$name\` | .* | .* |\$" $page || wrong "$page does not tell refusal $number, $name"
done <<<"$numbers"

# each row of the tables of words and refusals, as an assertion on the header's names
{
    echo '#include "serifdove.h"'
    sed -n 's/^| \([0-9]*\) | `\(SERIFDOVE_[A-Z_]*\)` | .*/_Static_assert(\2 == \1, "\2");/p' $page
    sed -n 's/^| \([0-9]*\) to \([0-9]*\) | `\(SERIFDOVE_[A-Z_]*\)(k)`, k 1 to \([0-9]*\) | .*/_Static_assert(\3(1) == \1 \&\& \3(\4) == \2, "\3");/p' $page
    sed -n 's/^| \([0-9]*\), \([0-9]*\), \.\. | `\(SERIFDOVE_[A-Z_]*\)(k)` | .*/_Static_assert(\3(1) == \1 \&\& \3(2) == \2, "\3");/p' $page
} >"$work/words.c"
$cc -std=c11 $warnings -Iinclude -fsyntax-only "$work/words.c" || wrong "$page: a table is not that of $header"
echo "example: $page, $(blocks c) blocks of C, $(wc -l <<<"$numbers") refusals, $(grep -c _Static_assert "$work/words.c") rows of names"

# every link within the page leads to a heading
for link in $(grep -o '](#[^)]*' $page | sed 's/^](#//' | sort -u); do
    sed -n 's/^##* //p' $page | tr 'A-Z ' 'a-z-' | tr -d , | grep -q -x -e "$link" || wrong "$page has no heading for #$link"
done

# ---- the page against the gateway program

root=$PWD
# in_work PROGRAM WORD..: runs it in the work folder, where the dialogues' files stand
in_work() {
    (cd "$work" && run "$root/$1" "${@:2}")
}

block csv 1 >"$work/door.csv"
make_circuit "$work/door.csv" "$work/door.circuit"
[ "$(blocks terminal)" -eq 2 ] || wrong "$page has not two dialogues"
for k in 1 2; do
    block terminal $k >"$work/dialogue"
    [ "$(head -n 1 "$work/dialogue")" = "\$ $gateway door.circuit" ] || wrong "$page: dialogue $k does not begin with the program"
    sed -n 's/^> //p' "$work/dialogue" | in_work $gateway door.circuit >"$work/printed" 2>&1
    sed '1d; /^> /d' "$work/dialogue" | diff - "$work/printed" || wrong "$page: in dialogue $k the gateway program prints something else"
done

{ block refusal 1 | head -n 1 && in_work $gateway own_block.circuit 2>&1 </dev/null; } >"$work/printed"
block refusal 1 | diff - "$work/printed" || wrong "$page: the gateway program tells the refused circuit otherwise"

echo help | run $gateway "$work/door.circuit" | sed 1d >"$work/help"
[ -s "$work/help" ] || wrong "help tells no command"
while read -r command _; do
    grep -q "^| \`$command[ \`]" $page || wrong "$page has no row for the command $command"
    grep -q "^> $command\b" $page || wrong "$page shows no $command in a dialogue"
done <"$work/help"

# the trace of the dialogue, played again, by the independent program too
build_by_oracle "$work/by_oracle" $replay_sources
for player in "$replay" "$work/by_oracle"; do
    run "$player" <"$work/door.trace" | diff - <(grep '^<' "$work/door.trace") >"$work/differs" ||
        { cut -c1-200 "$work/differs" && wrong "the dialogue's trace is played otherwise by ${player##*/}"; }
done
echo "example: $page, 2 dialogues, $(wc -l <"$work/help") commands, a trace of $(grep -c '^<' "$work/door.trace") answers"
