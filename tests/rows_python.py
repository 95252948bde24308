#!/usr/bin/env python3
"""Python's csv module as a peer of serifdove_read_rows and serifdove_write_rows.

usage: rows_python.py [--self-test NAME] COMMAND..     COMMAND is tests/rows_calls.c, built
       rows_python.py --self-test-names

Circuits by chance. What Python's writer writes of their rows, in every style of its own that is RFC 4180, is read to the circuit's bytes. What
write_rows writes, Python's reader reads to the same cells, and Python's writer writes byte for byte. Bytes are characters of Latin-1.

Where Python differs from the papers:
- To its reader a CR outside quotes is a line end; to the papers it is text. write_rows quotes every cell that holds CR, so the reader never meets one.
- With LF as the line end its writer may leave a cell that holds CR without quotes. Inside a row that is the paper's text and is read as such. At the
  end of a row CR and LF would be a CRLF, so a row that ends in CR is written with all cells quoted.
- Its writer quotes a row of one empty cell; no circuit has such a row.
- Before version 3.11 its reader refuses a byte 0, so no label has one there.
"""
import csv
import io
import itertools
import random
import subprocess
import sys

sys.dont_write_bytecode = True
from stored_circuits import block, end, header, label, row  # noqa: E402

GAIN, OFFSET, THRESHOLD, VALUE = (-1000, 1000), (-10000, 10000), (-20000, 20000), (-32768, 32767)
BASE, TIME, COUNT = (0, 2), (0, 5999), (0, 999999)
# inputs, a letter each: d digital, a analog; ranges of the parameters; may be retentive
KINDS = {kind: ("dddd", (), False) for kind in range(1, 7)} | {
    7: ("dd", (), False),
    8: ("d", (), False),
    9: ("d", (BASE, TIME), True),
    10: ("dd", (BASE, TIME), True),
    11: ("dd", (), True),
    12: ("ddd", ((1, 4), (1, 8)), True),
    13: ("a", (GAIN, OFFSET, THRESHOLD, THRESHOLD), False),
    14: ("aa", (GAIN, OFFSET, THRESHOLD, THRESHOLD), False),
    15: ("ddd", (VALUE,) * 4, False),
    16: ("a", (GAIN, OFFSET, THRESHOLD, THRESHOLD), False),
    17: ("ddd", (COUNT, COUNT), True),
    18: ("d", (BASE, TIME, TIME, TIME), True),
    19: ("a", (GAIN, OFFSET), False),
}
REGISTER, STAIRWAY = 12, 18
ANALOG_BLOCKS = {15, 19}
UNUSED = (0, 0)
DESTINATIONS = [(cls, k) for cls, greatest in ((1, 20), (2, 64), (3, 8), (4, 64)) for k in range(1, greatest + 1)]
MOST_BLOCKS = 400

STYLES = list(itertools.product((csv.QUOTE_MINIMAL, csv.QUOTE_ALL, csv.QUOTE_NONNUMERIC), ("\r\n", "\n"), (True, False)))
BYTES = range(0 if sys.version_info >= (3, 11) else 1, 256)
HARD = b',,"""\r\r\n\n -01;\t\''


# ---- circuits by chance, as rows of cells and as bytes


def random_connector(chance, sort, blocks):
    """Class and number of what an input of this sort, or such a row, may take; blocks: the kinds so far."""
    named = [k for k, kind in enumerate(blocks, 1) if (kind in ANALOG_BLOCKS) == (sort == "a")]
    if named and chance.random() < 0.4:
        cls, number = (9 if sort == "a" else 6), chance.choice(named)
    elif sort == "a":
        cls, number = chance.choice([(7, chance.randint(1, 8)), (8, chance.randint(1, 64))])
    else:
        cls, number = chance.choice([(1, chance.randint(1, 24)), (2, 0), (3, 0), (4, chance.randint(1, 64))])
    return (cls + 0x80 if sort == "d" and chance.random() < 0.3 else cls, number)


def random_label(chance):
    """Most often of bytes that matter to rows; None: no label."""
    if chance.random() < 0.3:
        return None
    length = chance.choice([0, 1, 2, 16, chance.randint(0, 16)])
    return bytes(chance.choice(HARD) if chance.random() < 0.5 else chance.choice(BYTES) for _ in range(length))


def random_circuit(chance, n, rows):
    """The rows, each a list of cells: numbers, and the label as characters; and the circuit's bytes."""
    cells, fields, kinds, registers = [], [header(n)], [], 0
    for _ in range(n):
        kind = chance.choice([k for k in KINDS if k != REGISTER or registers < 4])
        inputs, ranges, retentive = KINDS[kind]
        connectors = [UNUSED if sort == "d" and chance.random() < 0.2 else random_connector(chance, sort, kinds) for sort in inputs]
        parameters = [chance.choice([least, greatest, chance.randint(least, greatest)]) for least, greatest in ranges]
        if kind == REGISTER:
            registers += 1
            parameters[0] = registers
        if kind == STAIRWAY:
            parameters[1:] = sorted(parameters[1:], reverse=True)
        options = chance.randint(0, 1) if retentive else 0
        name = random_label(chance)
        kinds.append(kind)
        fields.append(block(kind, connectors, parameters, options) + (b"" if name is None else label(name)))
        cells.append([16, kind, options, *itertools.chain(*connectors), *parameters, int(name is not None), (name or b"").decode("latin-1")])
    for cls, number in chance.sample(DESTINATIONS, rows):
        source = random_connector(chance, "d" if cls <= 2 else "a", kinds)
        fields.append(row(cls, number, source))
        cells.append([48, cls, number, *source])
    return cells, b"".join(fields) + end


# ---- texts


def text_of(cells, quoting, line_end, end_of_the_last):
    """As Python's writer writes it."""
    out = io.StringIO(newline="")
    writer = csv.writer(out, quoting=quoting, lineterminator=line_end, doublequote=True)
    all_quoted = csv.writer(out, quoting=csv.QUOTE_ALL, lineterminator=line_end, doublequote=True)
    for each in cells:
        ends_in_cr = line_end == "\n" and isinstance(each[-1], str) and each[-1].endswith("\r")
        (all_quoted if ends_in_cr else writer).writerow(each)
    text = out.getvalue()
    if text and not end_of_the_last:
        text = text[: -len(line_end)]
    return text.encode("latin-1")


def cells_of(text):
    """As Python's reader reads it; what it says where it refuses it."""
    try:
        return list(csv.reader(io.StringIO(text.decode("latin-1"), newline=""), strict=True, doublequote=True))
    except csv.Error as refusal:
        return str(refusal)


# ---- asking


def request(call, data, room):
    return call + len(data).to_bytes(4, "big") + data + room.to_bytes(4, "big")


def answers_to(command, requests):
    """Four numbers and the bytes written, of each."""
    out = subprocess.run(command, input=b"".join(requests), stdout=subprocess.PIPE, check=True).stdout
    answers, at = [], 0
    while at < len(out):
        numbers = tuple(int.from_bytes(out[at + 4 * k : at + 4 * k + 4], "big") for k in range(4))
        answers.append((numbers, out[at + 16 : at + 16 + numbers[2]]))
        at += 16 + numbers[2]
    return answers


# ---- faults that must be found: in a text before it is read, or in a text that was written

TEXT_FAULTS = {
    "a_number_changed": lambda text: text.replace(b",0,", b",1,", 1),
    "quotes_left_out": lambda text: text.replace(b'"', b""),
    "the_last_row_left_out": lambda text: text[: text.rstrip(b"\n").rfind(b"\n") + 1],
    "a_line_end_left_out": lambda text: text.replace(b"\n", b"", 1),
}
WRITTEN_FAULTS = {
    "a_written_quote_left_out": lambda text: text.replace(b'""', b'"', 1),
    "a_written_number_changed": lambda text: text.replace(b"48,1,", b"48,01,", 1),
    "a_written_cr_left_out": lambda text: text.replace(b"\r\n", b"\n", 1),
}


def mismatch(what, text, got, want):
    print(f"rows_python: mismatch: {what}\n  text: {text!r}\n  got:  {got!r}\n  want: {want!r}")
    sys.exit(1)


def compare_read(circuits, command, fault):
    texts = [(text_of(cells, *style), cells, circuit) for cells, circuit in circuits for style in STYLES]
    if fault is not None:
        texts = [(fault(text), cells, circuit) for text, cells, circuit in texts]
    answers = answers_to(command, [request(b"R", text, len(circuit)) for text, _, circuit in texts])
    if len(answers) != len(texts):
        mismatch("read_rows: answers are missing", b"", len(answers), len(texts))
    for (text, cells, circuit), got in zip(texts, answers):
        want = ((0, 0, len(circuit), len(cells)), circuit)
        if got != want:
            mismatch("read_rows", text, got, want)
    return len(texts)


def compare_written(circuits, command, fault):
    answers = answers_to(command, [request(b"W", circuit, 1 << 17) for _, circuit in circuits])
    if len(answers) != len(circuits):
        mismatch("write_rows: answers are missing", b"", len(answers), len(circuits))
    for (cells, _), (numbers, text) in zip(circuits, answers):
        text = text if fault is None else fault(text)
        if numbers != (0, 0, len(text), len(cells)) and fault is None:
            mismatch("write_rows: the answer", text, numbers, (0, 0, len(text), len(cells)))
        read = [[str(cell) for cell in each] for each in cells]
        if cells_of(text) != read:
            mismatch("write_rows: the cells", text, cells_of(text), read)
        if text != text_of(cells, csv.QUOTE_MINIMAL, "\r\n", True):
            mismatch("write_rows: the bytes", text, text, text_of(cells, csv.QUOTE_MINIMAL, "\r\n", True))


def main(words):
    text_fault = written_fault = None
    count = 2500
    if words == ["--self-test-names"]:
        print("\n".join([*TEXT_FAULTS, *WRITTEN_FAULTS]))
        return
    if words[0] == "--self-test":
        text_fault, written_fault = TEXT_FAULTS.get(words[1]), WRITTEN_FAULTS.get(words[1])
        if text_fault is None and written_fault is None:
            sys.exit("rows_python: --self-test and one of --self-test-names")
        words, count = words[2:], 40
    chance = random.Random(1)
    circuits = [random_circuit(chance, k % 8, chance.randint(0, 6)) for k in range(count)]
    circuits += [random_circuit(chance, n, rows) for n, rows in ((MOST_BLOCKS, len(DESTINATIONS)), (257, 0), (0, len(DESTINATIONS)))]
    texts = compare_read(circuits, words, text_fault)
    compare_written(circuits, words, written_fault)
    rows = sum(len(cells) for cells, _ in circuits)
    print(f"rows_python: Python {sys.version.split()[0]}: {len(circuits)} circuits, {rows} rows; {texts} texts read, {len(circuits)} written")


if __name__ == "__main__":
    main(sys.argv[1:])
