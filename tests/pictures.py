#!/usr/bin/env python3
"""The timing diagrams of docs/pictures, drawn from the traces there: circuit, record and output words of a trace are all that is read.
pictures.py FOLDER: writes FOLDER/NAME.svg for each docs/pictures/NAME.trace that the tables below name.
pictures.py --names: prints the names."""
import os
import sys
from collections import namedtuple

sys.dont_write_bytecode = True
from circuit_bytes import BLOCK as BLOCK_TAG, ROW as ROW_TAG, connectors_of, fields_of  # noqa: E402

TRACES = os.path.join(os.path.dirname(os.path.abspath(__file__)), "..", "docs", "pictures")

# ---- a trace

# a call in words, its four numbers, and what it left; the first one has no words: it is what is lent
Call = namedtuple("Call", "words number place first second record outputs")


def counted(words):
    """A count and so many words; and what stands behind them."""
    count = int(words[0])
    return [int(word) for word in words[1:1 + count]], words[1 + count:]


def read_trace(name):
    """The circuit's bytes and the calls of a trace with one circuit, behind what is lent."""
    circuit, calls, words, lent = None, [], None, {}
    with open(os.path.join(TRACES, name + ".trace"), encoding="ascii") as lines:
        for line in lines:
            head, *rest = line.split()
            if head == "C":
                circuit = bytes.fromhex(rest[0])
            elif head in ("R", "O"):
                lent[head] = counted(rest)[0]
            elif head == ">":
                words = rest
            elif head == "<":
                record, behind = counted(rest[4:])
                calls.append(Call(words, *map(int, rest[:4]), record, counted(behind)[0]))
    return circuit, [Call([""], 0, 0, 0, 0, lent["R"], lent["O"])] + calls


# ---- the layout of a record, as in include/serifdove.h

PHASE, DONE, E = 0, 1, 3


def i_word(k):
    return 3 + k


def m_word(k):
    return 35 + k


def output_word(k):
    return 161 + 3 * k


def number_word(k):
    return 163 + 3 * k


# ---- the circuit's bytes

INPUT, HI, FLAG, DIGITAL_BLOCK = 1, 3, 4, 6  # connector classes
INVERTED = 0x80
Q = 1  # destination class

Block = namedtuple("Block", "kind connectors parameters")


def block_of(content):
    connectors = connectors_of(BLOCK_TAG, content)
    parameters = range(2 + 3 * len(connectors), len(content), 4)
    return Block(content[0], connectors, [int.from_bytes(content[at:at + 4], "big", signed=True) for at in parameters])


def blocks_of(circuit):
    return [block_of(content) for tag, content in fields_of(circuit) if tag == BLOCK_TAG]


def q_rows(circuit):
    """For each row of a Q: its number and its connector."""
    return [(content[1], connectors_of(ROW_TAG, content)[0]) for tag, content in fields_of(circuit) if tag == ROW_TAG and content[0] == Q]


def value_of(connector, record):
    """What a digital connector carries; an unused one is drawn as 0."""
    words = {INPUT: i_word, FLAG: m_word, DIGITAL_BLOCK: output_word}
    cls = connector[0] & ~INVERTED
    bit = record[words[cls](connector[1])] if cls in words else int(cls == HI)
    return bit ^ (connector[0] & INVERTED > 0)


def ticks(base, setting):
    return (1, 100, 6000)[base] * setting


# ---- drawing

WIDTH, MARGIN, LEFT, RIGHT = 800, 16, 136, 784
TEXT, PALE, GRID, WHITE = "#1f2933", "#5f6b76", "#dfe3e8", "#ffffff"
READ, INNER, SHOWN, REFUSED = "#1d5fa8", "#3d7a3d", "#b3400e", "#b00020"
BANDS = ("#eef3fa", "#f6f1e4")
BUSY = "#e9ebee"


class Canvas:
    def __init__(self):
        self.parts = []

    def rect(self, x, y, width, height, fill):
        self.parts.append(f'<rect x="{x:.1f}" y="{y:.1f}" width="{width:.1f}" height="{height:.1f}" fill="{fill}"/>')

    def line(self, points, colour, width=1.0, dashed=False):
        dash = ' stroke-dasharray="5 4"' if dashed else ""
        listed = " ".join(f"{x:.1f},{y:.1f}" for x, y in points)
        self.parts.append(f'<polyline points="{listed}" fill="none" stroke="{colour}" stroke-width="{width}"{dash}/>')

    def dot(self, x, y, colour):
        self.parts.append(f'<circle cx="{x:.1f}" cy="{y:.1f}" r="2.4" fill="{colour}"/>')

    def text(self, x, y, words, room, anchor="start", colour=TEXT, size=12, weight="normal"):
        """Words that take no more than the room: a letter is counted as 0.58 of the size."""
        if len(words) * size * 0.58 > room:
            sys.exit(f"pictures: '{words}' is wider than {room:.0f}")
        escaped = words.replace("&", "&amp;").replace("<", "&lt;")
        self.parts.append(f'<text x="{x:.1f}" y="{y:.1f}" font-size="{size}" font-weight="{weight}" text-anchor="{anchor}" fill="{colour}">{escaped}</text>')

    def save(self, path, title, height):
        with open(path, "w", encoding="utf-8", newline="\n") as out:
            out.write(f'<svg xmlns="http://www.w3.org/2000/svg" width="{WIDTH}" height="{height:.0f}" viewBox="0 0 {WIDTH} {height:.0f}" '
                      'font-family="Arial, Helvetica, sans-serif">\n')
            out.write(f'<title>{title}</title>\n<rect width="{WIDTH}" height="{height:.0f}" fill="{WHITE}"/>\n')
            out.write("\n".join(self.parts) + "\n</svg>\n")


# One signal: a value for each span of the picture, its greatest value, lines to draw across with a name to each, and what is drawn beside.
Row = namedtuple("Row", "label values colour top height levels dotted numbered", defaults=(1, 18, (), False, False))
ROW_GAP = 16


def height_of(rows):
    return sum(row.height + ROW_GAP for row in rows)


def draw_row(canvas, y, edges, row):
    """The signal as steps, from its zero at the bottom of y .. y + height."""
    def level(value):
        return y + row.height * (1 - value / row.top)

    canvas.text(MARGIN, y + row.height / 2 + 4, row.label, LEFT - MARGIN - (52 if row.levels else 8))
    canvas.line([(edges[0], level(0)), (edges[-1], level(0))], GRID)
    for name, value in row.levels:
        canvas.line([(edges[0], level(value)), (edges[-1], level(value))], PALE, 1, dashed=value > 0)
        canvas.text(LEFT - 6, level(value) + 4, name, 50, "end", PALE, 11)
    points = []
    for start, end, value in zip(edges, edges[1:], row.values):
        points += [(start, level(value)), (end, level(value))]
        if row.dotted:
            canvas.dot(start, level(value), row.colour)
        if row.numbered:
            canvas.text((start + end) / 2, level(value) - 3, str(value), end - start, "middle", TEXT, 10)
    canvas.line(points, row.colour, 2)


def draw_rows(canvas, y, edges, rows):
    for row in rows:
        draw_row(canvas, y + ROW_GAP / 2, edges, row)
        y += row.height + ROW_GAP
    return y


def draw_bands(canvas, top, bottom, spans):
    """Each span shaded, with its number at the top."""
    for k, (start, end) in enumerate(spans):
        canvas.rect(start, top, end - start, bottom - top, BANDS[k % 2])
        canvas.text((start + end) / 2, top + 13, str(k + 1), end - start, "middle", weight="bold")


def draw_legend(canvas, y, notes, remarks):
    """What each number says, then the remarks."""
    for number, words in [(str(k), note) for k, note in enumerate(notes, 1)] + [("", remark) for remark in remarks]:
        canvas.text(MARGIN, y, number, 20, weight="bold")
        canvas.text(MARGIN + 18, y, words, WIDTH - 2 * MARGIN - 18)
        y += 18
    return y


# ---- one block over scans, along the time that e tells

# The kind, what the picture is called by the block's parameters, the names of its inputs, what its number is, the levels of that by the
# parameters, the notes, each on the span from one scan to another, counted from 1, and remarks.
Scans = namedtuple("Scans", "kind title inputs number levels notes remarks", defaults=((),))
ScansNote = namedtuple("ScansNote", "start end text")


def timed(base, **settings):
    """The times by their names."""
    return ", ".join(f"{name} {ticks(base, setting)} ticks ({ticks(base, setting) / 100:.2f} s)" for name, setting in settings.items())


def levels_of_t(base, t):
    return [("T", ticks(base, t))]


def levels_of_warning(base, t, warning, dark):
    return levels_of_t(base, t) + [("lit", ticks(base, t - warning + dark)), ("dark", ticks(base, t - warning))]


SCANS = {
    "on_delay": Scans(9, lambda base, t: "On-delay, " + timed(base, T=t), ("Trg",), "Ta", levels_of_t, (
        ScansNote(3, 6, "Trg is 1 for less than T: Ta goes back to 0, Q stays 0."),
        ScansNote(8, 12, "Trg falls for one scan and rises again: the time begins anew. In the scan of a rise e is not added."),
        ScansNote(12, 18, "Trg stays 1 for T: Q is 1 when Ta is T, and 0 when Trg falls."),
        ScansNote(20, 24, "A long scan, e 55: Ta goes to T and not beyond."))),
    "off_delay": Scans(10, lambda base, t: "Off-delay, " + timed(base, T=t), ("Trg", "R"), "Ta", levels_of_t, (
        ScansNote(2, 8, "Trg is 1 for less than T: Q is 1 at once, and for T from the fall on. When T is reached, Q and Ta are 0."),
        ScansNote(10, 18, "Trg comes again before T is reached: the time begins anew at its fall."),
        ScansNote(18, 19, "R ends it: Q and Ta are 0."),
        ScansNote(20, 24, "Trg held while R comes and goes: Q is 1, 0, and stays 0."),
        ScansNote(24, 26, "Trg let go and pressed again: a rise, so Q is 1."),
        ScansNote(26, 28, "A long scan, e 55, is beyond T: Q and Ta are 0."))),
    "up_down_counter": Scans(17, lambda on, off: f"Up/down counter, On {on}, Off {off}", ("R", "Cnt", "Dir"), "the count",
                             lambda on, off: [("On", on), ("Off", off)], (
        ScansNote(2, 11, "A rise of Cnt counts one, however long Cnt stays 1. From On up Q1 is 1."),
        ScansNote(11, 17, "With Dir 1 a rise takes one. Q1 stays 1 down to Off, and is 0 below it."),
        ScansNote(17, 21, "The count stops at 0: a rise with Dir 1 is lost there."),
        ScansNote(25, 28, "R: the count is 0, and Q is what that count gives. A rise under R is lost, though Cnt stays 1 behind it.")), (
        "Q1: On 4, Off 2. Q2: a second counter of the same inputs, On 0, Off 2, which is 1 at counts of 0 and 1.",)),
    "stairway_switch": Scans(18, lambda base, t, warning, dark: "Stairway switch, " + timed(base, **{"T": t, "T!": warning, "T!L": dark}), ("Trg",), "Ta",
                             levels_of_warning, (
        ScansNote(2, 11, "A rise lights it. From the fall on Ta grows; T! before the end it is dark for T!L, and at T it is out."),
        ScansNote(12, 18, "Trg comes in the dark: Q is 1 at once, and the time begins anew at its fall."),
        ScansNote(20, 24, "Trg comes in the light and stays 1: Q is 1 and Ta is 0 as long, and it is never dark."),
        ScansNote(24, 27, "A long scan, e 55, steps over the dark time. The next one reaches T.")), (
        "It is dark while Ta is from T - T!, which is 30, to below T - T! + T!L, which is 50.",)),
}


def scans_of(calls):
    """Each whole scan: e, the record when all blocks are worked out, the outputs that its publish wrote."""
    accepted = [call for call in calls if call.number == 0]
    return [(before.record[E], before.record, call.outputs) for before, call in zip(accepted, accepted[1:]) if call.words[0] == "publish"]


def times_of(scans):
    """When each scan's latch was, in ticks from the first one on, and an end."""
    times = [0]
    for e, _, _ in scans[1:]:
        times.append(times[-1] + e)
    return times + [times[-1] + 10]


def draw_time(canvas, y, times, x_of):
    """The axis: a mark for each scan, ticks and seconds below."""
    canvas.line([(x_of(0), y), (x_of(times[-1]), y)], PALE)
    for time in times[:-1]:
        canvas.line([(x_of(time), y), (x_of(time), y + 6)], PALE)
    for k, (name, unit) in enumerate((("ticks of 10 ms", 1), ("seconds", 100))):
        canvas.text(MARGIN, y + 22 + 16 * k, name, LEFT - MARGIN - 8, colour=PALE)
        for time in range(0, times[-1] + 1, 50):
            words = str(time) if unit == 1 else f"{time / unit:.1f}"
            canvas.text(x_of(time), y + 22 + 16 * k, words, 60, "middle", PALE)
    return y + 22 + 16


def rows_of_scans(picture, circuit, scans):
    """The inputs of the first block of the picture's kind, its number, and what every block of the kind shows."""
    own = {k: block for k, block in enumerate(blocks_of(circuit), 1) if block.kind == picture.kind}
    first, block = next(iter(own.items()))
    levels = picture.levels(*block.parameters)
    numbers = [record[number_word(first)] for _, record, _ in scans]
    rows = [Row(f"{named} (I{connector[1]})", [value_of(connector, record) for _, record, _ in scans], READ)
            for named, connector in zip(picture.inputs, block.connectors)]
    rows.append(Row(picture.number, numbers, INNER, max([level for _, level in levels] + numbers), 84,
                    [("0", 0)] + [(f"{named} {level}", level) for named, level in levels], True))
    rows += [Row(f"Q{q}, published", [outputs[q - 1] for _, _, outputs in scans], SHOWN)
             for q, (cls, number) in q_rows(circuit) if cls == DIGITAL_BLOCK and number in own]
    return picture.title(*block.parameters), rows


def draw_scans_of_block(name, folder):
    picture = SCANS[name]
    circuit, calls = read_trace(name)
    scans = scans_of(calls)
    title, rows = rows_of_scans(picture, circuit, scans)
    times = times_of(scans)

    def x_of(time):
        return LEFT + time * (RIGHT - LEFT) / times[-1]

    edges = [x_of(time) for time in times]
    canvas = Canvas()
    canvas.text(MARGIN, 26, title, WIDTH - 2 * MARGIN, size=15, weight="bold")
    top = 40
    bottom = top + 18 + height_of(rows)
    draw_bands(canvas, top, bottom, [(edges[note.start - 1], edges[note.end - 1]) for note in picture.notes])
    for x in edges[:-1]:
        canvas.line([(x, top + 18), (x, bottom)], GRID, 0.6)
    draw_rows(canvas, top + 18, edges, rows)
    y = draw_time(canvas, bottom, times, x_of)
    y = draw_legend(canvas, y + 26, [note.text for note in picture.notes],
                    [*picture.remarks, f"Each scan stands at the time of its latch, by the sum of e. A dot is {picture.number} as that scan left it."])
    canvas.save(os.path.join(folder, name + ".svg"), title, y)


# ---- a scan in turns: call after call

# What the picture is called, and the notes: each on a call, counted from 1.
Turns = namedtuple("Turns", "title notes")
CallNote = namedtuple("CallNote", "call text")

TURNS = {
    "scan_in_turns": Turns("Two scans in turns", (
        CallNote(3, "An empty turn changes nothing."),
        CallNote(4, "A latch in a scan is refused (22): the inputs of a scan are read once."),
        CallNote(7, "The publish: Q1 and Q2 change, both at once, though block 1 was worked out in the first turn."),
        CallNote(10, "A publish with blocks to go is refused (22): no output changes."))),
}

CALL, BLOCK, OTHER_WORK = 32, 6, 14  # widths: a call, what a block adds to it, and what lies between two calls


def answer_of(call):
    """In a few letters."""
    if call.number != 0:
        return str(call.number)
    return f"{call.first}, {call.second}" if call.words[0] == "run" else "0"


def spans_of(calls):
    """Where each call begins and ends."""
    x, spans = LEFT + OTHER_WORK, []
    for call in calls:
        spans.append((x, x + CALL + BLOCK * call.first))
        x = spans[-1][1] + OTHER_WORK
    return spans


def draw_calls(canvas, y, calls, spans):
    """Each call's words above what it answered."""
    canvas.text(MARGIN, y, "call", LEFT - MARGIN)
    canvas.text(MARGIN, y + 16, "answer", LEFT - MARGIN)
    for call, (start, end) in zip(calls, spans):
        words = " ".join(call.words[:2]) if call.words[0] == "run" else call.words[0]
        room = end - start + OTHER_WORK
        canvas.text((start + end) / 2, y, words, room, "middle", size=11)
        canvas.text((start + end) / 2, y + 16, answer_of(call), room, "middle", REFUSED if call.number else TEXT, 11, "bold" if call.number else "normal")


def draw_scans(canvas, y, calls, spans):
    """A bar over each scan, from its latch to its publish."""
    count, start, e = 0, None, None
    for call, span in zip(calls, spans):
        if call.number == 0 and call.words[0] == "latch":
            count, start, e = count + 1, span[0], call.record[E]
        elif call.number == 0 and call.words[0] == "publish":
            end = span[1]
            canvas.line([(start, y + 10), (start, y + 4), (end, y + 4), (end, y + 10)], PALE)
            canvas.text((start + end) / 2, y, f"scan {count}, e {e}", end - start, "middle", PALE)


def turn_rows(circuit, states):
    blocks = blocks_of(circuit)
    read = sorted({number for block in blocks for cls, number in block.connectors if cls == INPUT})
    shown = q_rows(circuit)
    rows = [Row("phase", [state.record[PHASE] for state in states], INNER),
            Row(f"blocks done of {len(blocks)}", [state.record[DONE] for state in states], INNER, len(blocks), 44, (), False, True)]
    rows += [Row(f"I{k} in the record", [state.record[i_word(k)] for state in states], READ) for k in read]
    rows += [Row(f"block {k}, output", [state.record[output_word(k)] for state in states], INNER) for _, (_, k) in shown]
    return rows + [Row(f"Q{q}, published", [state.outputs[q - 1] for state in states], SHOWN) for q, _ in shown]


def draw_turns(name, folder):
    turns = TURNS[name]
    circuit, states = read_trace(name)
    calls = states[1:]  # what is lent stands at the left edge
    spans = spans_of(calls)
    edges = [LEFT] + [end for _, end in spans] + [spans[-1][1] + OTHER_WORK]
    rows = turn_rows(circuit, states)
    canvas = Canvas()
    canvas.text(MARGIN, 26, turns.title, WIDTH - 2 * MARGIN, size=15, weight="bold")
    draw_scans(canvas, 54, calls, spans)
    draw_calls(canvas, 82, calls, spans)
    top = 108
    bottom = top + 18 + height_of(rows)
    canvas.rect(LEFT, top, edges[-1] - LEFT, bottom - top, BUSY)
    for start, end in spans:
        canvas.rect(start, top, end - start, bottom - top, WHITE)
    draw_bands(canvas, top, bottom, [spans[note.call - 1] for note in turns.notes])
    draw_rows(canvas, top + 18, edges, rows)
    y = draw_legend(canvas, bottom + 24, [note.text for note in turns.notes],
                    ["Grey: other work, between any two calls. What a call changes is drawn where it returns.",
                     "run answers the blocks worked out and the blocks to go; the others 0, or why they are refused."])
    canvas.save(os.path.join(folder, name + ".svg"), turns.title, y)


def main():
    if sys.argv[1:] == ["--names"]:
        print("\n".join([*TURNS, *SCANS]))
        return
    if len(sys.argv) != 2 or not os.path.isdir(sys.argv[1]):
        sys.exit("usage: pictures.py FOLDER | --names")
    for name in TURNS:
        draw_turns(name, sys.argv[1])
    for name in SCANS:
        draw_scans_of_block(name, sys.argv[1])


if __name__ == "__main__":
    main()
