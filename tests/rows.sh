#!/usr/bin/env bash
# The program rows as a user meets it, and rows in the gateway: every form of the command, every message, every sort of bad file; nothing is
# touched where something is refused; labels of any bytes come back byte for byte. And docs/ROWS.md: its tables are what the library takes,
# its commands print what it shows.
source "$(dirname "${BASH_SOURCE[0]}")/host.bash"
need_programs
here=$PWD
page=docs/ROWS.md

# wrong WORDS..: tells what is wrong, and ends the test
wrong() {
    echo "rows: $*"
    exit 1
}

# in_work PROGRAM WORD..: in the work folder; its status
in_work() {
    (cd "$work" && run "$here/$1" "${@:2}" >out 2>err)
}

# says STATUS [WORD..]: the words of the program; `expected` and `complaints` hold what it must print, to the byte
says() {
    local status
    in_work $rows "${@:2}"
    status=$?
    [ "$status" -eq "$1" ] && diff "$work/expected" "$work/out" && diff "$work/complaints" "$work/err" ||
        wrong "status $status, expected $1, or it printed otherwise (above): ${*:2}"
}

# complains STATUS TEXT [WORD..]: nothing on standard output, and a complaint that holds this text
complains() {
    local status
    in_work $rows "${@:3}"
    status=$?
    [ "$status" -eq "$1" ] && [ ! -s "$work/out" ] && grep -qF -- "$2" "$work/err" ||
        wrong "status $status, expected $1 and '$2': ${*:3}: $(head -c 600 "$work/out" "$work/err")"
}

# ---- forth and back: labels of any bytes, every kind
PYTHONPATH=tests python3 -B - "$work" <<'END' || exit 1
import csv, sys
from stored_circuits import block, destinations, end, header, label, not_of, one_of_each, row
def write(name, content):
    with open(f"{sys.argv[1]}/{name}", "wb") as file:
        file.write(content)
labels = [b"Door 3, north", b'the "big" door', b"two\r\nlines", b"", b'""""""""""""""""', b"\r", b"\n", b" ", b"7"]
labels += [bytes(range(16 * k, 16 * k + 16)) for k in range(16)]
write("labels.circuit", header(len(labels) + 1) + b"".join(not_of((0, 0)) + label(text) for text in labels) + not_of((0, 0)) + end)
rows = [["16", "8", "0", "0", "0", "1", text.decode("latin-1")] for text in labels] + [["16", "8", "0", "0", "0", "0", ""]]
with open(f"{sys.argv[1]}/labels.cells", "w", encoding="latin-1", newline="") as file:
    csv.writer(file).writerows(rows)
quotes = label(b'"' * 16)
widest = [block(15, [(0x86, 1)] * 3, [-32768] * 4)] * 396 + [block(12, [(0x86, 1)] * 3, [k, 8], 1) for k in range(1, 4)]
rows = [row(cls, number, (0x86, 399) if cls <= 2 else (9, 397)) for cls, number in destinations]
write("greatest.circuit", header(400) + b"".join(each + quotes for each in [not_of((1, 24))] + widest) + b"".join(rows) + end)
write("all.circuit", header(19) + b"".join(each + label(b"") for each in one_of_each) + row(1, 20, (6, 18)) + row(3, 8, (9, 15)) + row(4, 64, (9, 19)) + end)
END
cat >"$work/all.csv" <<'END'
16,1,0,1,1,0,0,0,0,0,0,1,
16,2,0,1,1,0,0,0,0,0,0,1,
16,3,0,129,24,0,0,0,0,0,0,1,
16,4,0,4,64,0,0,0,0,0,0,1,
16,5,0,6,1,134,2,130,0,131,0,1,
16,6,0,6,5,0,0,0,0,0,0,1,
16,7,0,6,6,1,1,1,
16,8,0,6,7,1,
16,9,1,6,8,0,9999,1,
16,10,1,6,9,0,0,1,5999,1,
16,11,1,6,10,0,0,1,
16,12,1,6,11,1,1,0,0,4,8,1,
16,13,0,7,8,-1000,10000,20000,-20000,1,
16,14,0,8,64,7,1,1000,-10000,-20000,20000,1,
16,15,0,6,14,0,0,2,0,-32768,32767,0,-1,1,
16,16,0,9,15,100,0,20000,20000,1,
16,17,1,6,16,129,2,0,0,999999,0,1,
16,18,1,134,17,1,5999,5999,0,1,
16,19,0,9,15,-1000,10000,1,
48,1,20,6,18
48,3,8,9,15
48,4,64,9,19
END
printf '' >"$work/complaints"
echo "made: $(wc -c <"$work/all.circuit") bytes, 19 blocks, 3 output rows" >"$work/expected"
says 0 all.csv made
cmp "$work/all.circuit" "$work/made" || wrong "the kinds have other bytes"
sed 's/$/\r/' "$work/all.csv" >"$work/all.crlf"
echo "back.CSV: $(wc -c <"$work/all.crlf") bytes, 22 rows" >"$work/expected"
says 0 --back made back.CSV
cmp "$work/all.crlf" "$work/back.CSV" || wrong "the kinds are written otherwise"

in_work $rows --back labels.circuit labels.csv || wrong "$(cat "$work/err")"
python3 -c 'import csv, sys
one, other = (list(csv.reader(open(path, encoding="latin-1", newline=""))) for path in sys.argv[1:])
sys.exit(one != other or len(one) != 26)' "$work/labels.csv" "$work/labels.cells" || wrong "Python's csv reads other labels than were written"
for text in labels.csv labels.cells; do
    cp "$work/$text" "$work/read.csv"
    in_work $rows read.csv read.circuit && cmp "$work/labels.circuit" "$work/read.circuit" || wrong "the labels of $text come back otherwise: $(cat "$work/err")"
done
in_work $rows --back greatest.circuit greatest.csv && in_work $rows greatest.csv read.circuit && cmp "$work/greatest.circuit" "$work/read.circuit" &&
    [ "$(wc -c <"$work/greatest.csv")" -le $((400 * 98 + 156 * 17)) ] && grep -q " 41,852 |$" docs/OPERATING.md || wrong "400 blocks and 156 output rows: $(cat "$work/err")"
printf '' >"$work/empty.csv"
echo 'empty.circuit: 9 bytes, 0 blocks, 0 output rows' >"$work/expected"
says 0 empty.csv empty.circuit
echo 'empty_again.csv: 0 bytes, 0 rows' >"$work/expected"
says 0 --back empty.circuit empty_again.csv
echo "rows: all kinds, 26 labels of any bytes, 400 blocks and 156 output rows ($(wc -c <"$work/greatest.csv") bytes), forth and back"

# ---- words, names and files that are not as expected
printf '' >"$work/expected"
run $rows --help >"$work/help" && run $rows -h | cmp - "$work/help" && grep -q '^usage: rows CSV CIRCUIT \[--series 0BA6\]$' "$work/help" || wrong "it has no help"
for words in '' 'all.csv' 'all.csv x y' '--back' '--back made' '--back made x.csv y' '--trim all.csv' '--help x' '--bak made x.csv' 'all.csv -x'; do
    complains 2 'usage: rows CSV CIRCUIT' $words
done
complains 2 '`made` is no name for rows; expected is one that ends in .csv' made other
complains 2 '`b.Csv` is no name for a circuit; expected is one that does not end in .csv' all.csv b.Csv
complains 2 '`all.csv` is no name for a circuit' --back all.csv other.csv
complains 2 '`csv` is no name for rows' --back made csv
complains 2 '`x` is no name for rows' --trim all.csv x
mkdir "$work/folder.csv" "$work/folder" || exit 2
complains 2 'there_is_none.csv cannot be opened: No such file or directory; a file with a text of rows is expected' there_is_none.csv x
complains 2 'folder.csv is not a file; a file with a text of rows is expected' folder.csv x
complains 2 'folder.csv is not a file; a file with a text of rows is expected' --trim folder.csv x.csv
complains 2 'there_is_none cannot be opened: No such file or directory; a file with a circuit is expected' --back there_is_none x.csv
head -c 1048577 /dev/zero | tr '\0' '\n' >"$work/long.csv"
complains 2 'long.csv is too long: a text of rows has at most 1048576 bytes' long.csv x
head -c 65537 /dev/zero >"$work/long"
complains 2 'long is too long: a circuit has at most 65536 bytes' --back long x.csv
printf 'x' >"$work/no_circuit"
complains 1 'rows: the circuit in no_circuit is refused.' --back no_circuit x.csv
grep -q '^  Refusal 1 at byte 0: ' "$work/err" || wrong "a refused circuit is told otherwise: $(cat "$work/err")"
complains 2 'the name of a file is expected' all.csv ''
complains 2 'x.new ends in .new, as only the temporary file of a save does; another name is expected' all.csv x.new
complains 2 'there/is/none is as it was: its folder cannot be opened: No such file or directory' all.csv there/is/none
[ ! -e "$work/x" ] && [ ! -e "$work/x.csv" ] || wrong "a file is made where nothing could be read"

# keeps FILE TEXT STATUS WORD..: the complaint, and the file stays as it was
keeps() {
    cp "$work/$1" "$work/before"
    complains "$3" "$2" "${@:4}"
    cmp "$work/$1" "$work/before" || wrong "$1 is changed: ${*:4}"
    [ -z "$(find "$work" -name '*.new' ! -name kept.new)" ] || wrong "a temporary file is left: ${*:4}"
}
printf 'a letter' >"$work/letter"
keeps letter 'letter is no circuit and is not replaced; a circuit or a name that is free is expected' 2 all.csv letter
complains 2 'folder is not a file and is not replaced; a circuit or a name that is free is expected' all.csv folder
ln -s made "$work/link"
keeps made 'link is a link and is not replaced' 2 all.csv link
keeps all.csv 'all.csv is there already and is not replaced; a name that is free is expected' 2 --back labels.circuit all.csv
keeps all.csv 'all.csv is there already and is not replaced; a name that is free is expected' 2 --trim labels.csv all.csv
printf 'kept' >"$work/kept.new"
keeps kept.new 'kept is as it was: at its temporary name, with .new behind it, stands what no save has left' 2 all.csv kept
cp "$work/labels.circuit" "$work/made"
in_work $rows all.csv made && cmp "$work/made" "$work/all.circuit" || wrong "a circuit is not replaced"
(trap '' XFSZ && ulimit -f 0 && cd "$work" && run "$here/$rows" labels.csv made 2>&1) | cat >"$work/err"
grep -q '^rows: made is as it was: its temporary file (.new) cannot be written: File too large$' "$work/err" && cmp "$work/made" "$work/all.circuit" && [ ! -e "$work/made.new" ] ||
    wrong "on a full disk: $(cat "$work/err")"
(trap '' XFSZ && ulimit -f 0 && cd "$work" && run "$here/$rows" --back made full.csv 2>&1) | cat >"$work/err"
grep -q '^rows: full.csv is as it was' "$work/err" && [ ! -e "$work/full.csv" ] && [ ! -e "$work/full.csv.new" ] || wrong "on a full disk: $(cat "$work/err")"
for words in "$work/all.csv $work/made" --help; do
    run $rows $words >/dev/full 2>"$work/err"
    [ $? -eq 2 ] && grep -q '^rows: standard output cannot be written$' "$work/err" || wrong "no error where nothing can be printed: $words"
done
echo "rows: bad words, names and files, a full disk"

# ---- rows that are refused: the message to the byte
cp "$work/all.circuit" "$work/made"
# refused NAME TEXT: with `complaints`; made stays
refused() {
    printf '%b' "$2" >"$work/$1.csv"
    says 1 "$1.csv" made
    cmp "$work/all.circuit" "$work/made" || wrong "a circuit is replaced though the rows are refused"
}
cat >"$work/complaints" <<'END'
rows: the rows in number.csv are refused.
  Refusal 32 at row 3 (line 4 of the file): a cell is not a number, or a number or label does not fit its place.
  Cell 7, R number: `65536` is too large; expected is a whole number, 0 to 65535.
    16,10,0,1,1,1,65536,0,300,1,"Door 3,\x0d\x0anorth"
                  ^^^^^
  What to do: mend that cell; docs/ROWS.md tells what each column takes.
END
refused number '16,8,0,0,0,1,"a\nb"\n16,8,0,0,0,0,\r\n16,10,0,1,1,1,65536,0,300,1,"Door 3,\r\nnorth"\r\nx'
cat >"$work/complaints" <<'END'
rows: the rows in open.csv are refused.
  Refusal 30 at row 2 (line 2 of the file): a quote is not closed, is followed by a stray byte, or stands in a cell that does not begin with one.
  Cell 7: the quote that opens it is never closed; expected is a closing quote behind its text.
    tag,,,,,,"\x1b[31m,\xc3\xbc\x5c\x0a48,1,1,3,0\x0a48,1,2,3,0\x0a48,1,3,3,0\x0a48,1,4,3,0\x0a48,1,5,3,0\x0a48,1,..
             ^
  What to do: put a cell that holds a comma, a quote or a line end in quotes, and write each quote inside it twice.
END
refused open '16,8,0,0,0,0,\ntag,,,,,,"\033[31m,ü\\\n48,1,1,3,0\n48,1,2,3,0\n48,1,3,3,0\n48,1,4,3,0\n48,1,5,3,0\n48,1,6,3,0\n'
cat >"$work/complaints" <<'END'
rows: the circuit of the rows in later.csv is refused.
  Refusal 7 at row 2 (line 4 of the file): the block names itself or a later block.
  It is block 2, kind 8, NOT.
  Cells 4 and 5, input 1 class and input 1 number: `6,3`; expected is the number of an earlier block.
    16,8,0,6,3,0,
           ^^^
  What to do: let it name an earlier block, or take the value over a flag.
END
refused later '16,8,0,0,0,1,"a\n\nb"\r\n16,8,0,6,3,0,\n16,8,0,0,0,0,\n48,1,1,6,1'
cat >"$work/complaints" <<'END'
rows: the circuit of the rows in early.csv is refused.
  Refusal 4 at row 1 (line 1 of the file): an output row stands before a block.
    48,1,1,3,0
  What to do: let all blocks (16) stand before the first output row (48).
END
refused early '48,1,1,3,0\n16,8,0,0,0,0,\n'
cat >"$work/complaints" <<'END'
rows: the rows in blocks.csv are refused.
  Refusal 34: more than 400 rows are blocks.
  There are 402 blocks; block 401 stands in row 402 (line 403 of the file).
    16,8,0,0,0,1,"401"
  What to do: split the circuit: it has at most 400 blocks.
END
refused blocks "16,8,0,0,0,1,\"a\\nb\"\\n48,1,1,3,0\\n$(printf '16,8,0,0,0,0,\\n%.0s' {1..399})16,8,0,0,0,1,\"401\"\\n16,8,0,0,0,0,"

# ---- each fault by its words. Cells are 16 and 48 at first, so that all of them are tried.
tried=0
# tells NUMBER ROW WORDS TEXT: status 1, and a message that holds the number with the row, and these words
tells() {
    printf '%b' "$4" >"$work/bad.csv"
    complains 1 "  Refusal $1 at row $2 (line $2 of the file): " bad.csv made
    grep -qF -- "$3" "$work/err" && grep -q '^  What to do: ..*\.$' "$work/err" || wrong "expected is '$3': $(cat "$work/err")"
    tried=$((tried + 1))
}
tells 30 1 'Cell 7, label: more stands behind its closing quote; expected is a comma or the end of the row, or two quotes for one.' '16,8,0,0,0,1,"a"b\n'
tells 30 1 'Cell 7, label: a quote stands in it; expected is a cell in quotes, with two quotes for one.' '16,8,0,0,0,1,a"b"\n'
tells 30 1 'Cell 2, kind: more stands behind its closing quote' '16,"8"\r,0,0,0,1,\n'
tells 30 2 'Cell 40: the quote that opens it is never closed' "16,8,0,0,0,0,\\n48$(printf ',%.0s' {1..39})\""
tells 31 2 'The row: it is empty; expected is a block or an output row, and no blank line.' '16,8,0,0,0,0,\n\n'
tells 31 1 'What to do: take the row away, or let rows --trim do it.' ',,,\n'
tells 31 1 'Cell 1, tag: `tag` is no tag; expected is 16 for a block or 48 for an output row.' 'tag,kind\n'
tells 31 1 'Cell 1, tag: `1` is no tag' '1,3\n'
tells 31 1 'The row: it is empty' '"",""'
tells 31 1 'What to do: take the row away, if no block stood there; blocks are numbered in order, so look at what names the later ones.' ',,\n16,8,0,0,0,0,\n'
tells 31 1 'What to do: take the row away, if it holds headings or a remark.' 'tag,kind\n'
tells 31 1 'What to do: compare the row with the columns of its kind (docs/ROWS.md).' '17,1,1,3,0\n'
tells 31 1 'Cell 1, tag: `-16` is no tag' '-16,8,0,0,0,0,\n'
tells 31 1 'The row: it ends behind its tag; expected is a kind, 1 to 19, and the cells of that kind.' '16\n'
for kind in 0 20 255 256 -1 AND ''; do
    tells 31 1 "Cell 2, kind: \`$kind\` is no kind; expected is 1 to 19." "16,$kind,0\n"
done
tells 31 1 'The row: it has 1 cell; expected are 5: 48, destination class' '48\n'
tells 31 1 'The row: it has 4 cells; expected are 5: 48, destination class, destination number, connector class, connector number.' '48,1,1,6'
tells 31 1 'The row: it has 10 cells; expected are 9: 16, 9, option, Trg class, Trg number, base, T, mark, label.' '16,9,0,1,1,0,300,1,Door 3, north\n'
tells 31 1 'What to do: put a label that holds a comma in quotes, as "Door 3, north", and write a number without one, 1000 for 1,000.' '16,9,0,1,1,0,300,1,Door 3, north,,\n'
tells 31 1 'What to do: empty cells stand behind its own, as spreadsheet programs put them there: let rows --trim take them away.' '48,1,1,6,1,,,\n'
tells 31 1 'let rows --trim take them away.' '48,1,1,6,1,"",\n'
tells 31 1 'let rows --trim take them away.' '16,8,0,0,0,1,"two\r\nlines",,\n'
for row in '16,9,0,1,1,0,1,001,0,' '16,9,0,1,1,0,1,000,0,,' '16,13,0,7,1,100,0,1,500,1,0,' '16,8,0,0,0,1,01,,'; do
    tells 31 1 'What to do: if a comma parts a number, write that without it, 1000 for 1,000; if 0 or 1 is the label, take the empty cells behind it away by hand.' "$row\n"
done
tells 31 1 'What to do: an output row has no label: take the cells away that are too many.' '48,1,1,6,1,x\n'
tells 31 1 'What to do: an output row has a class and a number twice: put in what is missing.' '48,1,1\n'
tells 31 1 'What to do: put in what is missing: an unused input is 0,0, and behind all stand 1 and a label, or 0 and an empty cell, so that the row ends in a comma.' '16,8,0,0,0,0\n'
for row in '16;8;0;0;0;0;' '16;8;0;0;0;1;Door 3, north' '16;13;0;7;1;100;0;2,5;3;0;'; do
    tells 31 1 'What to do: semicolons seem to part the cells: export the file again with commas between them.' "$row\n"
done
tells 30 1 'What to do: semicolons seem to part the cells' '"16";"8"\n'
tells 31 1 'What to do: tabs seem to part the cells: export the file again with commas between them.' '16\t8\t0\t0\t0\t0\t\n'
ends='What to do: the lines seem to end in CR alone, or in CR CR LF: save the file with CR LF or LF.'
tells 31 1 "$ends" '48,1,1,3,0\r48,1,2,3,0\r'
tells 30 1 "$ends" '16,8,0,0,0,1,"a"\r16,8,0,0,0,1,"b"\r'
tells 30 1 "$ends" '48,1,1,3,0\r"48",1,2,3,0\r'
tells 32 1 "$ends" '48,1,1,3,0\r\r\n'
tells 32 1 "$ends" '16,8,0,0,0,0,\r\r\n'
# a CR inside a cell in quotes is no line end
tells 32 1 'What to do: mend that cell' '16,8,0,0,0,0,"\r"\n'
tells 31 1 'What to do: put a label' '16,8,0,0,0,1,"two\r\nlines",x\n'
tells 30 1 'What to do: the cell goes over more than one line: where it should not, its own closing quote is missing; else write each quote inside it twice.' '16,8,0,0,0,1,"a\n16,8,0,0,0,1,"b"\n'
tells 31 1 'What to do: the file begins with a byte order mark (ef bb bf): save it as UTF-8 without one, or let rows --trim take it away.' '\xef\xbb\xbf16,8,0,0,0,0,\n'
tells 30 1 'What to do: the file begins with a byte order mark (ef bb bf)' '\xef\xbb\xbf"16",8,0,0,0,0,\n'
for text in '\xff\xfe1\x006\x00,\x008\x00' '1\x006\x00,\x008\x00' '\x001\x006\x00,\x008'; do
    tells 31 1 'What to do: the file seems to be UTF-16: save it as UTF-8 without a byte order mark.' "$text"
done
tells 32 1 'Cell 3, option: `256` is too large; expected is a whole number, 0 to 255.' '16,8,256,0,0,0,\n'
tells 32 1 'Cell 4, input 1 class: `-1` has a minus, as only a parameter may; expected is a whole number, 0 to 255.' '16,8,0,-1,0,0,\n'
tells 32 1 'Cell 11, input 4 number: it is empty; expected is a whole number, 0 to 65535.' '16,1,0,1,1,1,1,1,1,1,,0,\n'
tells 32 1 'Cell 6, base: `+1` is no number in decimal digits; expected is a whole number, -2147483648 to 2147483647.' '16,9,0,1,1,+1,1,0,\n'
tells 32 1 'Cell 7, T: `2147483648` is too large' '16,9,0,1,1,0,2147483648,0,\n'
tells 32 1 'Cell 7, T: `-2147483649` is too small' '16,9,0,1,1,0,-2147483649,0,\n'
tells 32 1 "Cell 7, T: \`$(printf '9%.0s' {1..40})..\` is too large" "16,9,0,1,1,0,$(printf '9%.0s' {1..400}),0,\\n"
tells 32 1 '    ..000000000000000000000000000000000000000,9999999999,0,' "16,9,0,1,1,$(printf '0%.0s' {1..400}),9999999999,0,\\n"
tells 32 1 'Cell 7, T: `-` is no number' '16,9,0,1,1,0,-,0,\n'
tells 32 1 'What to do: write it in digits alone; spreadsheet programs may write 1000 as 1,000 or 1E+03' '16,9,0,1,1,0,"1,000",0,\n'
tells 32 1 'Cell 8, mark: `2` is no mark; expected is 1 and a label, or 0 and an empty cell.' '16,9,0,1,1,0,1,2,x\n'
tells 32 1 'Cell 8, mark: `` is no mark' '16,9,0,1,1,0,1,,x\n'
tells 32 1 'Cell 9, label: `x` stands behind mark 0; expected is an empty cell, or mark 1.' '16,9,0,1,1,0,1,0,x\n'
tells 32 1 'Cell 9, label: it has 17 bytes; expected are at most 16 (a letter outside ASCII has two or more).' "16,9,0,1,1,0,1,1,\"$(printf '\"\"%.0s' {1..17})\"\\n"
tells 32 1 'Cell 2, destination class: `256` is too large; expected is a whole number, 0 to 255.' '48,256,1,6,1\n'
tells 32 1 'Cell 3, destination number: `x` is no number' '48,1,x,6,1\n'
tells 32 1 'Cell 4, connector class: `256` is too large' '48,1,1,256,1\n'
tells 32 1 'Cell 5, connector number: `65536` is too large; expected is a whole number, 0 to 65535.' '48,1,1,6,65536\n'
# the lowest number of the first row with a fault
tells 30 1 'Cell 5: more stands' 'x,1,1,6,"1"x\n'
tells 31 1 'expected are 5' '48,x,1,6\n48,"\n'
tells 32 2 '`y`' '48,1,1,3,0\n48,y,1,6,1\n\n'
# what check refuses: the cells, also where others behind them are wrong, or have a higher number
digital='class 0 to 4 or 6, or inverted 129 to 132 or 134, and a number that this class has (docs/ROWS.md, Connectors).'
analog='class 7, 8 or 9, and a number that this class has (docs/ROWS.md, Connectors).'
tells 5 1 'Cell 3, option: `1`; expected is 0, or for kinds 9 to 12, 17 and 18 also 1: retentive.' '16,8,1,9,9,0,\n'
tells 5 1 'Cell 3, option: `2`; expected is 0' '16,9,2,1,1,0,1,0,\n'
tells 5 1 'Cell 3, option: `1`; expected is 0' '16,19,1,7,1,100,0,0,\n'
tells 6 1 'Cells 6 and 7, input 2 class and input 2 number: `7,1`; expected is '"$digital" '16,1,0,1,1,7,1,5,0,0,0,0,\n'
tells 6 1 'Cells 8 and 9, input 3 class and input 3 number: `"6","5"`; expected is '"$digital" '16,1,0,6,1,1,2,"6","5",0,0,0,\n'
tells 6 1 'Cells 6 and 7, Ay class and Ay number: `1,1`; expected is '"$analog" '16,14,0,7,1,1,1,9999,0,5,5,0,\n'
tells 6 1 'Cells 4 and 5, Ax class and Ax number: `3,0`; expected is '"$analog" '16,19,0,3,0,1001,0,0,\n'
tells 6 2 'Cells 4 and 5, input 1 class and input 1 number: `6,1`; expected is '"$digital" '16,19,0,7,1,100,0,0,\n16,8,0,6,1,0,\n'
tells 6 1 'Cells 4 and 5, connector class and connector number: `0,0`; expected is class 1 to 4 or 6, or inverted 129' '48,2,1,0,0\n'
tells 6 1 'Cells 4 and 5, connector class and connector number: `3,"0"`; expected is '"$analog" '48,3,1,3,"0"'
tells 6 1 'Cells 4 and 5, connector class and connector number: `5,0`; expected is a connector that docs/ROWS.md has, behind a destination that it has.' '48,5,1,5,0\n'
tells 7 2 'Cells 6 and 7, R class and R number: `134,2`; expected is the number of an earlier block.' '16,8,0,0,0,0,\n16,11,0,6,1,134,2,0,\n'
tells 9 2 'Cells 2 and 3, destination class and destination number: `1,1`; expected is a destination that docs/ROWS.md has, and no earlier row.' '48,1,1,3,0\n48,1,1,3,0\n'
tells 10 2 'Cell 10, index: `1`; expected is an index that no earlier block has, 1 to 4.' '16,12,0,0,0,0,0,0,0,1,1,0,\n16,12,0,0,0,0,0,0,0,1,1,1,x\n'
tells 8 1 'Cell 6, base: `3`; expected is 0 to 2.' '16,9,0,1,1,3,20000,0,\n'
# the three times of a stairway switch: the first that is out of its range, or above the one before it
for times in 50,50,50 50,50,0 50,0,0 0,0,0 9999,9999,9999; do
    printf '16,18,0,1,1,0,%s,0,\n' $times >"$work/good.csv"
    in_work $rows good.csv good.circuit || wrong "the times $times are refused: $(cat "$work/err")"
done
tells 8 1 'or times are not in order.' '16,18,0,1,1,0,50,51,0,0,\n'
tells 8 1 'Cells 7 and 8, T and T!: `50,51`; expected is a T! of at most T.' '16,18,0,1,1,0,50,51,52,0,\n'
tells 8 1 'Cells 7 and 8, T and T!: `9999,10000`; expected is a T! of at most T.' '16,18,0,1,1,0,9999,10000,0,0,\n'
tells 8 1 'Cells 8 and 9, T! and T!L: `40,"41"`; expected is a T!L of at most T!.' '16,18,0,1,1,0,50,40,"41",0,\n'
tells 8 1 'Cell 8, T!: `-1`; expected is 0 to T.' '16,18,0,1,1,0,50,-1,0,0,\n'
tells 8 1 'Cell 9, T!L: `-1`; expected is 0 to T!.' '16,18,0,1,1,0,50,40,-1,0,\n'
tells 8 1 'Cell 7, T: `6000`; expected is 0 to 9999 with base 0, else 0 to 5999.' '16,18,0,1,1,1,6000,6001,6002,0,\n'
tells 8 1 'Cell 6, base: `-1`; expected is 0 to 2.' '16,18,0,1,1,-1,5,6,7,0,\n'
# each range as it is told: its ends are taken, what lies beside them is refused by 8 at its cell
ranges=0
while IFS='|' read -r cell name least greatest range row; do
    for number in "$least" "$greatest"; do
        printf '%s\n' "${row/@/$number}" >"$work/good.csv"
        in_work $rows good.csv good.circuit || wrong "$name $number is refused: $(cat "$work/err")"
    done
    for number in $((least - 1)) $((greatest + 1)); do
        tells 8 1 "Cell $cell, $name: \`$number\`; expected is $range." "${row/@/$number}\\n"
    done
    ranges=$((ranges + 1))
done <<'END'
6|base|0|2|0 to 2|16,9,0,1,1,@,5999,0,
7|T|0|9999|0 to 9999 with base 0, else 0 to 5999|16,9,0,1,1,0,@,0,
9|T|0|5999|0 to 9999 with base 0, else 0 to 5999|16,10,0,1,1,0,0,1,@,0,
9|T|0|5999|0 to 9999 with base 0, else 0 to 5999|16,10,0,1,1,0,0,2,@,0,
10|index|1|4|1 to 4|16,12,0,0,0,0,0,0,0,@,1,0,
11|bit|1|8|1 to 8|16,12,0,0,0,0,0,0,0,1,@,0,
6|A|-1000|1000|-1000 to 1000|16,13,0,7,1,@,0,0,0,0,
7|B|-10000|10000|-10000 to 10000|16,13,0,7,1,0,@,0,0,0,
10|On|-20000|20000|-20000 to 20000|16,14,0,7,1,7,1,0,0,@,0,0,
9|Off|-20000|20000|-20000 to 20000|16,13,0,7,1,0,0,0,@,0,
9|Delta|-20000|20000|-20000 to 20000|16,16,0,7,1,0,0,0,@,0,
10|V1|-32768|32767|-32768 to 32767|16,15,0,0,0,0,0,0,0,@,0,0,0,0,
13|V4|-32768|32767|-32768 to 32767|16,15,0,0,0,0,0,0,0,0,0,0,@,0,
10|On|0|999999|0 to 999999|16,17,0,0,0,1,1,0,0,@,0,0,
11|Off|0|999999|0 to 999999|16,17,0,0,0,1,1,0,0,0,@,0,
6|base|0|2|0 to 2|16,18,0,1,1,@,5999,5999,5999,0,
7|T|0|9999|0 to 9999 with base 0, else 0 to 5999|16,18,0,1,1,0,@,0,0,0,
7|T|0|5999|0 to 9999 with base 0, else 0 to 5999|16,18,0,1,1,1,@,0,0,0,
7|T|0|5999|0 to 9999 with base 0, else 0 to 5999|16,18,0,1,1,2,@,0,0,0,
6|A|-1000|1000|-1000 to 1000|16,19,0,7,1,@,0,0,
7|B|-10000|10000|-10000 to 10000|16,19,0,7,1,0,@,0,
END
[ $ranges -eq 21 ] || wrong "$ranges ranges are tried, not 21"
for circuit in 5:1:'16,8,1,0,0,0,' 6:1:'48,1,1,6,1' 8:1:'16,9,0,1,1,0,10000,0,' 9:2:'48,1,1,3,0\n48,1,1,3,0' 10:2:'16,12,0,0,0,0,0,0,0,1,1,0,\n16,12,0,0,0,0,0,0,0,1,1,1,x'; do
    IFS=: read -r number row text <<<"$circuit"
    tells "$number" "$row" 'the circuit of the rows in bad.csv is refused.' "$text\\n"
done
echo "rows: $tried rows with a fault, each told with row, cell and what is expected"

# ---- the older series: a circuit that fits is written as ever, wherever the option stands; one that does not is told, and no file is touched
printf '16,8,0,4,27,0,\r\n48,1,16,6,1\r\n' >"$work/fitting.csv"
printf '16,8,0,4,28,0,\n48,1,16,6,1\n' >"$work/misfit.csv"
in_work $rows fitting.csv plain && in_work $rows misfit.csv misfit || wrong "without --series they are refused: $(cat "$work/err")"
printf '' >"$work/complaints"
echo 'fitted: 25 bytes, 1 block, 1 output row; fits 0BA6' >"$work/expected"
for words in '--series 0BA6 fitting.csv fitted' 'fitting.csv --series 0ba6 fitted' 'fitting.csv fitted --series 0BA6'; do
    says 0 $words
    cmp "$work/plain" "$work/fitted" && rm "$work/fitted" || wrong "with --series the circuit has other bytes: $words"
done
echo 'fitted.csv: 29 bytes, 2 rows; fits 0BA6' >"$work/expected"
for words in '--series 0BA6 --back plain fitted.csv' '--back --series 0ba6 plain fitted.csv' '--back plain fitted.csv --series 0BA6'; do
    says 0 $words
    cmp "$work/fitting.csv" "$work/fitted.csv" && rm "$work/fitted.csv" || wrong "with --series other rows are written: $words"
done
cat >"$work/complaints" <<'END'
rows: the circuit of the rows in misfit.csv does not fit 0BA6; without --series it is accepted.
  Refusal 6 at row 1 (line 1 of the file): 0BA6 has not the flag that a connector names.
  It is block 1, kind 8, NOT: its input 1 is M28; 0BA6 has M1 to M27.
  Cells 4 and 5, input 1 class and input 1 number: `4,28`; expected is M1 to M27.
    16,8,0,4,28,0,
           ^^^^
  What to do: take a lower flag that is free (not M8, which is 1 in the first scan), in the row that writes it and wherever it is read; or split the circuit.
END
printf '' >"$work/expected"
says 1 misfit.csv made --series 0BA6
cmp "$work/all.circuit" "$work/made" || wrong "a circuit is replaced though it does not fit"
complains 1 'rows: the circuit in misfit does not fit 0BA6; without --series it is accepted.' --back misfit x.csv --series 0BA6
grep -q '^  Refusal 6 at byte 6: ' "$work/err" && [ ! -e "$work/x.csv" ] || wrong "the rows of a circuit that does not fit: $(cat "$work/err")"
complains 2 'rows: --series needs the name of a series: 0BA6' there_is_none.csv x --series
complains 2 'rows: there is no series `there_is_none.csv` here; expected is 0BA6' --series there_is_none.csv x
complains 2 'rows: --series does not go with --trim, which judges no circuit' --trim all.csv x.csv --series 0BA6
for words in '--series 0BA6' 'all.csv --series 0BA6' '--series 0BA6 --back made'; do
    complains 2 'usage: rows CSV CIRCUIT' $words
done
[ ! -e "$work/x" ] && [ ! -e "$work/x.csv" ] || wrong "a file is made by a command that is not as expected"
echo "rows: circuits that fit the older series, and that do not"

# ---- what the message says where the library's answer is none that is found here
build_c "$work/told" -Dserifdove_read_rows=told_read_rows tests/told.c $rows_sources
for answer in '30 1' '32 1' '31 2' '31 9' '33 0' '34 0' '99 0'; do
    read -r number place <<<"$answer"
    printf '16,8,0,0,0,0\n16,8,0,0,0,0,\n' >"$work/bad.csv"
    (cd "$work" && NUMBER=$number PLACE=$place run ./told bad.csv made >out 2>err)
    [ $? -eq 1 ] && [ "$(wc -l <"$work/err")" -eq 3 ] && grep -q "^  Refusal $number$([ "$place" -eq 0 ] || echo " at row $place"): " "$work/err" && ! grep -q 'Cell\|(line' "$work/err" ||
        wrong "told $answer: $(cat "$work/err")"
done
(cd "$work" && NUMBER=31 PLACE=1 run ./told bad.csv made >out 2>err)
grep -q '^  The row: it has 6 cells; expected are 7: ' "$work/err" || wrong "the library's answer is not told: $(cat "$work/err")"
echo "rows: where the reader of messages disagrees, only the library's answer is told"

# ---- texts by chance: the row is always found, and a cell or the row told; first it is tried whether wrong answers would be found
row_messages="tests/row_messages.c host/series.c host/row_text.c host/refusals.c host/circuit.c host/files.c"
build_c "$work/wrong_messages" -Dserifdove_read_rows=told_read_rows tests/told.c $row_messages
NUMBER=32 PLACE=1 run "$work/wrong_messages" 1 100 >"$work/out"
[ $? -eq 1 ] && grep -q '^row_messages: mismatch: ' "$work/out" || wrong "a wrong row is not found: $(cat "$work/out")"
build_c "$work/wrong_messages" -Dserifdove_check_profile=told_profile tests/told.c $row_messages
NUMBER=9 PLACE=6 run "$work/wrong_messages" 1 100 >"$work/out"
[ $? -eq 1 ] && grep -q '^row_messages: mismatch: the place that does not fit' "$work/out" || wrong "a wrong place is not found: $(cat "$work/out")"
build_c "$work/messages" $row_messages
run "$work/messages" 1 20000 || exit 1

# ---- trimmed

# trims NAME TAKEN: NAME.csv is trimmed to trimmed.expected; it is told so what was taken away, and what was left
trims() {
    echo "$1_trimmed.csv: $(wc -c <"$work/trimmed.expected") bytes; taken away: $2" >"$work/expected"
    says 0 --trim "$1.csv" "$1_trimmed.csv"
    cmp "$work/trimmed.expected" "$work/$1_trimmed.csv" || wrong "$1.csv is trimmed otherwise"
}

printf '\xef\xbb\xbf16,8,0,0,0,0,,,,,\r\n"16",9,0,1,1,0,3,1,"a,b",,\r\n16,9,0,1,1,0,3,1,a, b,,\n,,,,,,,\r\n48,1,1,3,0,,,,\n\n48,1,1,3,0,x\n48,1,1,3,"0",,' >"$work/padded.csv"
printf '16,8,0,0,0,0,\r\n"16",9,0,1,1,0,3,1,"a,b"\r\n16,9,0,1,1,0,3,1,a, b,,\n48,1,1,3,0\n48,1,1,3,0,x\n48,1,1,3,"0"' >"$work/trimmed.expected"
printf '' >"$work/complaints"
trims padded 'a byte order mark, 2 blank rows, empty cells behind 4 rows'
printf '48,1,1,3,0,,\n16,8,0,0,0,1,a"b,,\n\n48,1,1,3,0,,\n' >"$work/quote.csv"
printf '48,1,1,3,0\n16,8,0,0,0,1,a"b,,\n\n48,1,1,3,0,,\n' >"$work/trimmed.expected"
trims quote 'no byte order mark, 0 blank rows, empty cells behind 1 row'
for text in all.csv labels.csv empty.csv; do
    in_work $rows --trim $text "same_$text" && cmp "$work/$text" "$work/same_$text" || wrong "$text is changed by trimming"
done
# empty cells in quotes; cells that hold quotes alone are not empty
printf '"16","8","0","0","0","1","","",""\n"48","1","1","3","0","",""\n48,1,1,3,0,"""",\n"",""\n""\n' >"$work/quoted.csv"
printf '"16","8","0","0","0","1",""\n"48","1","1","3","0"\n48,1,1,3,0,"""",\n' >"$work/trimmed.expected"
trims quoted 'no byte order mark, 2 blank rows, empty cells behind 2 rows'
# what stays, as it could say something else then: a blank row before a block, empty cells behind a label 0 or 1
printf '16,8,0,1,1,0,,\n,,,\n16,8,0,6,1,0,\n\n16,9,0,1,1,0,1,001,0,\n\n48,1,1,6,2,,\n,,\n' >"$work/left.csv"
printf '16,8,0,1,1,0,\n,,,\n16,8,0,6,1,0,\n\n16,9,0,1,1,0,1,001,0,\n48,1,1,6,2\n' >"$work/trimmed.expected"
trims left 'no byte order mark, 2 blank rows, empty cells behind 2 rows
left as they were: 3 rows, where a block may be missing or a comma may part a number; reading tells which'
printf ',,\n16,8,0,0,0,1,a"b\n' >"$work/behind.csv"
in_work $rows --trim behind.csv behind_trimmed.csv && cmp "$work/behind.csv" "$work/behind_trimmed.csv" || wrong "a blank row before a row that cannot be read is taken away"
# every row filled up with empty cells to the widest, as spreadsheet programs write them
sed 's/$/,,,,,,,,,,,,,,,/' "$work/all.csv" >"$work/wide.csv"
in_work $rows --trim wide.csv narrow.csv && cmp "$work/all.csv" "$work/narrow.csv" || wrong "a filled up text is trimmed otherwise"
echo "rows: trimmed"

# ---- the gateway takes rows as it takes bytes: the same words, trace and record
printf 'set I1 1 AI8 30\nscan 10 3\ntrace NAME.trace\nscan 1s 3\nsave NAME.record\ntrace\nlook\n' >"$work/day"
cp "$work/back.CSV" "$work/rows.CSV"
for name in all.circuit rows.CSV; do
    sed "s/NAME/$name/" "$work/day" >"$work/day.script"
    in_work $gateway $name --turn 3 --script day.script && [ ! -s "$work/err" ] || wrong "the gateway with $name: $(cat "$work/err")"
    sed "s/$name/NAME/" "$work/out" >"$work/$name.out"
done
diff "$work/all.circuit.out" "$work/rows.CSV.out" && cmp "$work/all.circuit.trace" "$work/rows.CSV.trace" && cmp "$work/all.circuit.record" "$work/rows.CSV.record" ||
    wrong "the gateway does something else with rows than with bytes"
run $replay <"$work/rows.CSV.trace" | cmp - <(grep '^<' "$work/rows.CSV.trace") || wrong "the trace of rows is played otherwise"
echo 'load all.circuit.record' >"$work/day.script"
in_work $gateway rows.CSV --script day.script && grep -q '^load: all.circuit.record, waiting$' "$work/out" || wrong "the record of the bytes is not that of the rows"
for name in number open later early blocks; do
    in_work $rows $name.csv made
    sed 's/^rows: /gateway: /' "$work/err" >"$work/complaints"
    in_work $gateway $name.csv
    [ $? -eq 2 ] && [ ! -s "$work/out" ] && diff "$work/complaints" "$work/err" || wrong "the gateway tells $name.csv otherwise"
    in_work $gateway $name.csv --series 0BA6
    [ $? -eq 2 ] && [ ! -s "$work/out" ] && diff "$work/complaints" "$work/err" || wrong "with --series the gateway tells $name.csv otherwise"
done
in_work $gateway there_is_none.csv
[ $? -eq 2 ] && grep -q '^gateway: there_is_none.csv cannot be opened: No such file or directory; a file with a text of rows is expected$' "$work/err" || wrong "the gateway: $(cat "$work/err")"
run $gateway --help | grep -q '\.csv' || wrong "the gateway's help does not tell of rows"
echo "rows: the gateway with rows"

# ---- the page: each row of its tables is offered to the program
# offers ANSWER TEXT [ROW]: as a file; the answer is 0, or the refusal's number, at this row or the first
offered=0
offers() {
    local status
    printf '%b' "$2" >"$work/offered.csv"
    in_work $rows offered.csv offered.circuit
    status=$?
    case $1 in
    0) [ $status -eq 0 ] || wrong "$page: refused: $2: $(cat "$work/err")" ;;
    *) [ $status -eq 1 ] && grep -q "^  Refusal $1 at row ${3:-1} " "$work/err" || wrong "$page: not refused by $1: $2: $(cat "$work/out" "$work/err")" ;;
    esac
    offered=$((offered + 1))
}
kinds=0
all_kinds=
rows_of=()
while IFS='|' read -r _ kind name cells columns _; do
    kind=${kind// /} name=$(sed 's/^ *//; s/ *$//' <<<"$name") columns=$(sed 's/^ *//; s/ *$//' <<<"$columns")
    text=$(sed -E 's/A[xy] class/7/g; s/[A-Za-z0-9 ]+ class/0/g; s/A[xy] number/1/g; s/[A-Za-z0-9 ]+ number/0/g; s/option|mark/0/g; s/label//; s/base|T!L|T!|T|index|bit|On|Off|Delta|V[1-4]/1/g; s/\b[AB]\b/1/g; s/, */,/g' <<<"$columns")
    [ -n "$kind" ] || text=48,1,1,3,0
    [ "$(tr -cd , <<<"$columns" | wc -c)" -eq $((cells - 1)) ] || wrong "$page: $name has not $cells columns"
    [ -z "$kind" ] || grep -qF "[$kind] = {\"$name\"," host/circuit.c || wrong "$page: kind $kind is not called $name"
    offers 0 "$text\\n"
    for other in "$text," "${text%,*}"; do
        offers 31 "$other\\n"
        grep -qF "expected are $((cells)): $columns." "$work/err" || wrong "$page: the columns of $name are told otherwise: $(cat "$work/err")"
    done
    kinds=$((kinds + 1)) all_kinds+="$text\\n"
    [ -z "$kind" ] || rows_of[kind]=$text
done < <(sed -n '/^| kind | name /,/^$/p' $page | sed 1,2d | grep '^|')
[ $kinds -eq 20 ] || wrong "$page has $kinds kinds and rows, not 20"
offers 0 "$all_kinds"
grep -q '19 blocks, 1 output row$' "$work/out" || wrong "$page: all kinds at once: $(cat "$work/out")"
examples=0
while IFS='|' read -r _ row _; do
    row=${row# \`} row=${row%\` }
    offers 0 "$row\\n"
    examples=$((examples + 1))
done < <(sed -n '/^| example row | /,/^$/p' $page | sed 1,2d | grep '^|')
[ $examples -eq 3 ] || wrong "$page has $examples example rows, not 3"

# connectors: the ends of each range are taken, inverted too where that is allowed; the numbers beside them are refused
classes=0
while IFS='|' read -r _ class inverted numbers what; do
    read -r least _ greatest <<<"$numbers"
    class=${class// /} inverted=${inverted// /} before='' head=48,1,1, tail='\n' place=1
    case $what in
    *nothing*) head=16,8,0, tail=',0,\n' ;;
    *'digital block'*) before='16,8,0,0,0,0,\n' least=1 place=2 ;;
    *'analog block'*) before='16,15,0,0,0,0,0,0,0,1,1,1,1,0,\n' head=48,3,1, least=1 place=2 ;;
    *analog*) head=48,3,1, ;;
    esac
    [ "$place" -eq 1 ] || greatest=1
    [ -z "$inverted" ] || [ "$inverted" -eq $((class + 128)) ] || wrong "$page: class $class inverted is not $inverted"
    for each in $class $inverted; do
        for number in $least $greatest; do
            offers 0 "$before$head$each,$number$tail"
        done
        for number in $((least - 1)) $((${greatest:-$least} + 1)); do
            [ $number -lt 0 ] || offers 6 "$before$head$each,$number$tail" $place
        done
    done
    [ -n "$inverted" ] || offers 6 "$before$head$((class + 128)),$least$tail" $place
    classes=$((classes + 1))
done < <(sed -n '/^| class | inverted /,/^$/p' $page | sed 1,2d | grep '^|')
[ $classes -eq 9 ] || wrong "$page has $classes classes of connectors, not 9"
# which kinds are digital blocks and which are analog ones: each is named by its class, and not by the other
analog_kinds=" $(sed -n 's/^| 9 | .* analog block: kind \(.*\) |$/\1/p' $page) "
grep -q "^| 6 | .* digital block: any kind but${analog_kinds/ or / and }|\$" $page || wrong "$page: the digital blocks are not those that are not analog"
for kind in "${!rows_of[@]}"; do
    case $analog_kinds in
    *" $kind "*) of_q=6 of_aq=0 ;;
    *) of_q=0 of_aq=6 ;;
    esac
    offers $of_q "${rows_of[kind]}\\n48,1,1,6,1\\n" 2
    offers $of_aq "${rows_of[kind]}\\n48,3,1,9,1\\n" 2
done
classes=0
while IFS='|' read -r _ class numbers _ takes _; do
    read -r least _ greatest <<<"$numbers"
    class=${class// /} connector=3,0
    [ "${takes// /}" = digital ] || connector=7,1
    offers 0 "48,$class,$least,$connector\\n48,$class,$greatest,$connector\\n"
    offers 9 "48,$class,$((greatest + 1)),$connector\\n"
    classes=$((classes + 1))
done < <(sed -n '/^| class | number | a destination/,/^$/p' $page | sed 1,2d | grep '^|')
[ $classes -eq 4 ] || wrong "$page has $classes classes of destinations, not 4"

exports=0
while IFS='|' read -r _ row answer _; do
    row=${row# \`} row=${row%\` }
    offers "${answer// /}" "$row\\n"
    exports=$((exports + 1))
done < <(sed -n '/^| row | answer /,/^$/p' $page | sed 1,2d | grep '^|')
[ $exports -ge 14 ] || wrong "$page shows $exports rows of spreadsheet programs, not 14"
for number in 30 31 32 33 34; do
    grep -q "^| $number | ..* | ..* |\$" $page || wrong "$page does not tell refusal $number"
done
echo "rows: $page, $kinds rows of columns, $examples example rows, $exports of spreadsheet programs, $offered offered"

# ---- the page: its commands, in the order in which they stand, print what it shows
mkdir -p "$work/page" && page_lines $page csv >"$work/page/door.csv" || exit 2
play_page $page terminal "$work/page" || wrong "$page: its commands print something else"
[ "$(grep -c '^\$ ' "$work/shown")" -ge 8 ] || wrong "$page shows too few commands"
echo "rows: $page, $(grep -c '^\$ ' "$work/shown") commands"
