#!/usr/bin/env python3
"""What a sample must show, samples/NAME.expect, against traces.

sample_facts.py day EXPECT TRACE    the changes of the outputs, scan by scan, and what holds in every scan
sample_facts.py sorts CIRCUIT..     that all kinds and sorts of connectors occur in these circuits, and each block matters to some output

What is otherwise is printed, and the status is 1.

The lines of EXPECT:
    status N, scans N, refused N            the gateway's status, how many scans are published, how many calls are refused
    scan N: Q1 0 -> 1, AQ1 0 -> 420         all that changes in this scan; scans without a line change nothing
    never Q1 Q2                             in no scan are all of these on
    without I3: Q1 Q2                       in each scan that read a 0 there, all of these are off"""
import re
import sys

sys.dont_write_bytecode = True
from circuit_bytes import ANALOG_BLOCK, BLOCK, DIGITAL_BLOCK, INPUTS_OF, INVERTED, RETENTIVE, ROW, connectors_of, fields_of  # noqa: E402

FIRST_INPUT_WORD = 4
INPUTS = [f"I{k}" for k in range(1, 25)]
FLAG_OF_DESTINATION = {2: 4, 4: 8}  # the class of a flag as a destination, and as a connector: M, AM
OUTPUTS = [f"Q{k}" for k in range(1, 21)] + [f"AQ{k}" for k in range(1, 9)]


class Expect:
    def __init__(self, path):
        self.numbers = {"status": 0, "scans": 0, "refused": 0}
        self.changes, self.never, self.without = {}, [], []
        with open(path, encoding="utf-8") as file:
            for number, line in enumerate(file, 1):
                if line.split("#")[0].strip():
                    self.read(line.strip(), f"{path}:{number}")

    def read(self, line, place):
        head, _, rest = line.partition(":")
        words = head.split()
        if words[0] in self.numbers and len(words) == 2:
            self.numbers[words[0]] = int(words[1])
        elif words[0] == "scan" and re.fullmatch(r"( A?Q\d+ -?\d+ -> -?\d+(,|$))+", rest):
            assert int(words[1]) not in self.changes, place
            self.changes[int(words[1])] = rest.strip()
        elif words[0] == "never" and set(words[1:]) <= set(OUTPUTS):
            self.never.append(words[1:])
        elif words[0] == "without" and words[1] in INPUTS and set(rest.split()) <= set(OUTPUTS):
            self.without.append((words[1], rest.split()))
        else:
            sys.exit(f"{place}: '{line}' is no fact")


def answer_of(line):
    """The number, the record words and the output words of an answer line."""
    words = [int(word) for word in line.split()[1:]]
    outputs_from = 5 + words[4]
    return words[0], words[5:outputs_from], words[outputs_from + 1 :]


def scans_of(lines):
    """For each publish that was accepted the inputs as read and the outputs, both by name; and how many calls were refused."""
    scans, refused = [], 0
    calls = [line for line in lines if line.startswith("> ") and line.split()[1] not in ("rec", "out")]
    answers = [line for line in lines if line.startswith("<")]
    if len(calls) != len(answers):
        sys.exit(f"sample_facts: {len(calls)} calls and {len(answers)} answers")
    for call, line in zip(calls, answers):
        number, record, outputs = answer_of(line)
        refused += number != 0
        if call.split()[1] == "publish" and number == 0:
            scans.append((dict(zip(INPUTS, record[FIRST_INPUT_WORD:])), dict(zip(OUTPUTS, outputs))))
    return scans, refused


def changes_of(scans):
    """By the scan's number, what it changes, in the words of EXPECT."""
    before, changes = dict.fromkeys(OUTPUTS, 0), {}
    for number, (_, outputs) in enumerate(scans, 1):
        told = [f"{name} {before[name]} -> {outputs[name]}" for name in OUTPUTS if outputs[name] != before[name]]
        if told:
            changes[number] = ", ".join(told)
        before = outputs
    return changes


def broken_rules(expect, scans):
    for number, (inputs, outputs) in enumerate(scans, 1):
        for names in expect.never:
            if all(outputs[name] for name in names):
                yield f"scan {number}: {' and '.join(names)} are on"
        for name, off in expect.without:
            if not inputs[name] and any(outputs[output] for output in off):
                yield f"scan {number}: {name} is 0, and of {' '.join(off)} one is on"


def day(expect, trace):
    with open(trace, encoding="utf-8") as file:
        scans, refused = scans_of(file.readlines())
    changes = changes_of(scans)
    for number in sorted({*changes, *expect.changes}):
        expected, got = expect.changes.get(number, "nothing changes"), changes.get(number, "nothing changes")
        if expected != got:
            yield f"scan {number}: expected '{expected}', the trace has '{got}'"
    for name, got in (("scans", len(scans)), ("refused", refused)):
        if expect.numbers[name] != got:
            yield f"{name}: expected {expect.numbers[name]}, the trace has {got}"
    yield from broken_rules(expect, scans)


def unused_blocks(fields):
    """The numbers of the blocks from which no way leads to an output, by blocks and by flags."""
    sources, reached = {}, []
    blocks = [connectors_of(tag, content) for tag, content in fields if tag == BLOCK]
    for tag, content in fields:
        if tag == ROW and content[0] in FLAG_OF_DESTINATION:
            sources[FLAG_OF_DESTINATION[content[0]], content[1]] = connectors_of(tag, content)
        elif tag == ROW:
            reached += connectors_of(tag, content)
    sources.update({(cls, number): inputs for number, inputs in enumerate(blocks, 1) for cls in (DIGITAL_BLOCK, ANALOG_BLOCK)})
    seen = set()
    while reached:
        cls, number = reached.pop()
        place = (cls & ~INVERTED, number)
        if place not in seen:
            seen.add(place)
            reached += sources.get(place, [])
    return [number for number in range(1, len(blocks) + 1) if not {(DIGITAL_BLOCK, number), (ANALOG_BLOCK, number)} & seen]


def sorts(*circuits):
    kinds, classes, options = set(), set(), set()
    for circuit in circuits:
        with open(circuit, "rb") as file:
            fields = list(fields_of(file.read()))
        classes |= {cls for tag, content in fields if tag in (BLOCK, ROW) for cls, _ in connectors_of(tag, content)}
        kinds |= {content[0] for tag, content in fields if tag == BLOCK}
        options |= {content[1] for tag, content in fields if tag == BLOCK}
        unused = unused_blocks(fields)
        if unused:
            yield f"{circuit}: blocks that matter to no output: {unused}"
    # unused, I, lo, hi, M, digital block, AI, AM, analog block; I, M and digital block inverted
    wanted = {0, 1, 2, 3, 4, 6, 7, 8, 9, 0x81, 0x84, 0x86}
    all_missing = {"kinds": {*INPUTS_OF} - kinds, "classes of connectors": wanted - classes, "options": {0, RETENTIVE} - options}
    for what, missing in all_missing.items():
        if missing:
            yield f"{what} that no sample has: {sorted(missing)}"


def main():
    jobs = {"day": lambda expect, trace: day(Expect(expect), trace), "sorts": sorts}
    if len(sys.argv) < 3 or sys.argv[1] not in jobs:
        print(__doc__, file=sys.stderr)
        return 2
    told = list(jobs[sys.argv[1]](*sys.argv[2:]))
    for line in told:
        print(line)
    return 1 if told else 0


if __name__ == "__main__":
    sys.exit(main())
