#!/usr/bin/env python3
"""The stored trace tests/data/cases.trace: the papers' cases as calls, with what each call must answer and leave, written by hand.
stored_traces.py: prints it."""
import sys

sys.dont_write_bytecode = True
from stored_circuits import ai1, am1, amplifier, and_of, block, comparator, differential, document_01, end, header, i1, i2, m8, none, on_delay, row, stairway, trigger

PHASE, DONE, MARK, E = range(4)
Q, M, AQ, AM = 1, 2, 3, 4  # destination classes
block1 = (6, 1)


def i_word(k):
    return 3 + k


def ai_word(k):
    return 27 + k


def m_word(k):
    return 35 + k


def am_word(k):
    return 99 + k


def own(k, output, remembered=0, number=0):
    """The three words of block k."""
    return {161 + 3 * k: output, 162 + 3 * k: remembered, 163 + 3 * k: number}


def listed(words):
    return " ".join(str(word) for word in [len(words)] + words)


class Trace:
    """Circuit, record and outputs as they stand; each method tells one call and its answer."""

    def __init__(self, title, circuit, n):
        print("#", title)
        print("C", circuit.hex().upper() or "-")
        self.n, self.record, self.outputs = n, [0] * (164 + 3 * n), [7] * 28
        self.lend()

    def lend(self):
        print("R", listed(self.record))
        print("O", listed(self.outputs))

    def put(self, words):
        """Replaces words of the record."""
        for place, word in words.items():
            self.record[place] = word
        print("> rec", listed(self.record))

    def said(self, call, number=0, first=0, second=0, place=0):
        print(">", call)
        print("<", number, place, first, second, listed(self.record), listed(self.outputs))

    def cold(self):
        self.record = [0] * len(self.record)
        self.record[MARK] = self.record[m_word(8)] = 1
        self.said("cold")

    def warm(self, kept):
        self.record = [0] * len(self.record)
        self.record[MARK] = self.record[m_word(8)] = 1
        self.record = [kept.get(place, word) for place, word in enumerate(self.record)]
        self.said("warm")

    def inputs(self, bits, analog):
        return [bits.get(k, 0) for k in range(1, 25)] + [analog.get(k, 0) for k in range(1, 9)]

    def latch(self, e=0, bits={}, analog={}):
        inputs = self.inputs(bits, analog)
        self.record[4:36] = inputs
        self.record[PHASE], self.record[E] = 1, e
        self.said(f"latch {e} {listed(inputs)}")

    def latch_refused(self, number, e=0, bits={}, analog={}):
        self.said(f"latch {e} {listed(self.inputs(bits, analog))}", number)

    def run(self, c, done, words):
        """Of c blocks so many are worked out: these words are what they become."""
        for place, word in words.items():
            self.record[place] = word
        self.record[DONE] += done
        self.said(f"run {c}", 0, done, self.n - self.record[DONE])

    def publish(self, shown):
        """These destinations become these values, all others 0."""
        self.outputs = [shown.get((Q, k), 0) for k in range(1, 21)] + [shown.get((AQ, k), 0) for k in range(1, 9)]
        self.record[36:100] = [shown.get((M, k), 0) for k in range(1, 65)]
        self.record[100:164] = [shown.get((AM, k), 0) for k in range(1, 65)]
        self.record[0:4] = [0, 0, 0, 0]
        self.said("publish")

    def scan(self, words, shown, **latch):
        self.latch(**latch)
        self.run(self.n, self.n, words)
        self.publish(shown)

    def end(self):
        print(".")


def checks():
    trace = Trace("check: the empty circuit", b"", 0)
    trace.said("check", 1)
    trace.said("cold", 1)
    trace.end()
    for title, first, number in [("own", b"\x06\x00\x01", 7), ("a missing", b"\x06\x00\x02", 6)]:
        trace = Trace(f"check: {title} block named", document_01[:11] + first + document_01[14:], 1)
        trace.said("check", number, place=6)
        trace.said("run 1", number, place=6)
        trace.end()
    trace = Trace("check: the circuit of 34 bytes", document_01, 1)
    trace.said("check", 0, 1, 1)
    trace.cold()
    trace.scan(own(1, 1), {(Q, 1): 1}, bits={1: 1, 2: 1})
    trace.scan(own(1, 0), {}, bits={1: 1})
    trace.end()


def delays():
    trace = Trace("off-delay, T 3 ticks, Trg 1 then 0, 0, 0 with e 2: Q 1, 1, 1, 0", header(1) + block(10, [i1, none], [0, 3]) + row(Q, 1, block1) + end, 1)
    trace.cold()
    trace.scan(own(1, 1, 1, 0), {(Q, 1): 1}, e=2, bits={1: 1})
    trace.scan(own(1, 1, 0, 0), {(Q, 1): 1}, e=2)
    trace.scan(own(1, 1, 0, 2), {(Q, 1): 1}, e=2)
    trace.scan(own(1, 0, 0, 0), {}, e=2)
    trace.end()
    q1, off_delay = {(Q, 1): 1}, [10, [i1, i2], [0, 3]]  # Trg is I1, R is I2
    trace = Trace("off-delay, Trg held through R and after it: Q 1, 0, 0, and 1 again when it was let go and pressed", header(1) + block(*off_delay) + row(Q, 1, block1) + end, 1)
    trace.cold()
    trace.scan(own(1, 1, 1, 0), q1, e=1, bits={1: 1})
    trace.scan(own(1, 0, 1, 0), {}, e=1, bits={1: 1, 2: 1})
    trace.scan(own(1, 0, 1, 0), {}, e=1, bits={1: 1})
    trace.scan(own(1, 0, 0, 0), {}, e=1)
    trace.scan(own(1, 1, 1, 0), q1, e=1, bits={1: 1})
    trace.put(own(1, 0, 1, 2))
    trace.scan(own(1, 0, 1, 0), {}, e=1, bits={1: 1})
    trace.put(own(1, 1, 1, 2))
    trace.scan(own(1, 1, 1, 0), q1, e=1, bits={1: 1})
    trace.end()
    two = header(2) + block(*off_delay, 1) + block(*off_delay) + row(Q, 1, block1) + row(Q, 2, (6, 2)) + end
    trace = Trace("off-delays, the first retentive: Trg held through a warm start is a rise to the other alone, pressed in between to both", two, 2)
    trace.cold()
    trace.scan(own(1, 1, 1, 0) | own(2, 1, 1, 0), {(Q, 1): 1, (Q, 2): 1}, e=1, bits={1: 1})
    trace.scan(own(1, 0, 1, 0) | own(2, 0, 1, 0), {}, e=1, bits={1: 1, 2: 1})
    trace.warm(own(1, 0, 1, 0))
    trace.scan(own(1, 0, 1, 0) | own(2, 1, 1, 0), {(Q, 2): 1}, e=1, bits={1: 1})
    trace.scan(own(1, 0, 0, 0) | own(2, 1, 0, 0), {(Q, 2): 1}, e=1)
    trace.warm(own(1, 0, 0, 0))
    trace.scan(own(1, 1, 1, 0) | own(2, 1, 1, 0), {(Q, 1): 1, (Q, 2): 1}, e=1, bits={1: 1})
    trace.warm(own(1, 1, 1, 0))
    trace.scan(own(1, 1, 1, 0) | own(2, 1, 1, 0), {(Q, 1): 1, (Q, 2): 1}, e=1, bits={1: 1})
    trace.end()
    led_over_an_and = header(2) + and_of(i1, (0x81, 2)) + block(10, [block1, i2], [0, 3]) + row(Q, 1, (6, 2)) + end
    trace = Trace("off-delay, its Trg led over an AND with R inverted: it goes on by itself when R goes", led_over_an_and, 2)
    trace.cold()
    trace.scan(own(1, 1) | own(2, 1, 1, 0), q1, e=1, bits={1: 1})
    trace.scan(own(1, 0) | own(2, 0, 0, 0), {}, e=1, bits={1: 1, 2: 1})
    trace.scan(own(1, 1) | own(2, 1, 1, 0), q1, e=1, bits={1: 1})
    trace.scan(own(1, 0) | own(2, 1, 0, 0), q1, e=1)
    trace.end()
    first_scan_too = header(3) + block(5, [i2, m8, none, none]) + and_of(i1, (0x81, 2)) + block(10, [(6, 2), block1], [0, 3]) + row(Q, 1, (6, 3)) + end
    trace = Trace("off-delay, M8 among its R besides: held through the start it stays off, and goes on by itself when the other R goes", first_scan_too, 3)
    trace.cold()
    trace.scan(own(1, 1) | own(2, 1) | own(3, 0, 1, 0), {}, e=1, bits={1: 1})
    trace.scan(own(1, 0) | own(2, 1) | own(3, 0, 1, 0), {}, e=1, bits={1: 1})
    trace.scan(own(1, 0) | own(2, 0) | own(3, 0, 0, 0), {}, e=1)
    trace.scan(own(1, 0) | own(2, 1) | own(3, 1, 1, 0), q1, e=1, bits={1: 1})
    trace.scan(own(1, 1) | own(2, 0) | own(3, 0, 0, 0), {}, e=1, bits={1: 1, 2: 1})
    trace.scan(own(1, 0) | own(2, 1) | own(3, 1, 1, 0), q1, e=1, bits={1: 1})
    trace.end()
    trace = Trace("on-delay, T 0: Q follows Trg at once", header(1) + on_delay(0, 0) + row(Q, 20, block1) + end, 1)
    trace.cold()
    trace.scan(own(1, 1, 1, 0), {(Q, 20): 1}, e=9, bits={1: 1})
    trace.scan(own(1, 0, 0, 0), {}, e=9)
    trace.end()
    trace = Trace("on-delay, T 3 ticks, retentive: e is not added in the scan where Trg rises", header(1) + block(9, [i1], [0, 3], 1) + row(M, 8, block1) + end, 1)
    trace.cold()
    trace.scan(own(1, 0, 1, 0), {}, e=5, bits={1: 1})
    trace.scan(own(1, 0, 1, 2), {}, e=2, bits={1: 1})
    trace.warm(own(1, 0, 1, 2))
    trace.scan(own(1, 1, 1, 3), {}, e=1, bits={1: 1})  # M8 becomes 0, the mark was 1
    trace.scan(own(1, 1, 1, 3), {(M, 8): 1}, e=0, bits={1: 1})
    trace.end()
    trace = Trace("hours 5999: Ta up to 35,994,000 ticks is sound", header(1) + on_delay(2, 5999) + end, 1)
    trace.put(own(1, 0, 1, 35994000))
    trace.scan(own(1, 1, 1, 35994000), {}, e=65535, bits={1: 1})
    trace.put(own(1, 0, 1, 35994001))
    trace.latch_refused(21)
    trace.end()


def bits():
    trace = Trace("AND edge, four unused, after cold start: 1, then 0", header(1) + block(2, [none] * 4) + row(Q, 1, block1) + end, 1)
    trace.cold()
    trace.scan(own(1, 1, 1), {(Q, 1): 1})
    trace.scan(own(1, 0, 1), {})
    trace.scan(own(1, 0, 1), {})
    trace.end()
    trace = Trace("register 128, In 1: shift up 1, shift down 192", header(1) + block(12, [i1, i2, (1, 3)], [1, 8]) + row(Q, 1, block1) + end, 1)
    trace.put(own(1, 0, 0, 128))
    trace.scan(own(1, 0, 1, 1), {}, bits={1: 1, 2: 1})
    trace.put(own(1, 0, 0, 128))
    trace.scan(own(1, 1, 1, 192), {(Q, 1): 1}, bits={1: 1, 2: 1, 3: 1})
    trace.put(own(1, 0, 0, 128))
    trace.scan(own(1, 0, 1, 0), {}, bits={2: 1})
    trace.end()


def counter_of(on, off, options=0):
    """R is I1, Cnt is I2, Dir is I3."""
    return block(17, [i1, i2, (1, 3)], [on, off], options)


def counts():
    q1 = {(Q, 1): 1}
    trace = Trace("counter, On = Off = 5: count 5 gives 1, 4 gives 0", header(1) + counter_of(5, 5) + row(Q, 1, block1) + end, 1)
    trace.put(own(1, 0, 0, 4))
    trace.scan(own(1, 1, 1, 5), q1, bits={2: 1})
    trace.scan(own(1, 1, 0, 5), q1)
    trace.scan(own(1, 0, 1, 4), {}, bits={2: 1, 3: 1})
    trace.end()
    trace = Trace("counter: a rise in the first scan counts, one during R is lost, and 0 is a stop", header(1) + counter_of(1, 1) + row(Q, 1, block1) + end, 1)
    trace.cold()
    trace.scan(own(1, 1, 1, 1), q1, bits={2: 1})
    trace.scan(own(1, 1, 0, 1), q1, bits={3: 1})
    trace.scan(own(1, 0, 1, 0), {}, bits={1: 1, 2: 1})
    trace.scan(own(1, 0, 1, 0), {}, bits={2: 1})
    trace.scan(own(1, 0, 0, 0), {})
    trace.scan(own(1, 0, 1, 0), {}, bits={2: 1, 3: 1})
    trace.end()
    trace = Trace("counter, Off 0 below On: R holds Q", header(1) + counter_of(5, 0) + row(Q, 1, block1) + end, 1)
    trace.put(own(1, 1, 0, 7))
    trace.scan(own(1, 1, 0, 0), q1, bits={1: 1})
    trace.put(own(1, 0, 0, 7))
    trace.scan(own(1, 1, 0, 7), q1)
    trace.put(own(1, 0, 0, 4))
    trace.scan(own(1, 0, 0, 0), {}, bits={1: 1})
    trace.end()
    trace = Trace("counter, On 0: R makes Q 1", header(1) + counter_of(0, 3) + row(Q, 1, block1) + end, 1)
    trace.put(own(1, 0, 0, 7))
    trace.scan(own(1, 1, 0, 0), q1, bits={1: 1})
    trace.end()
    trace = Trace("counter: 999,999 is a stop, and sound; 1,000,000 is not", header(1) + counter_of(999999, 999999) + row(Q, 1, block1) + end, 1)
    trace.put(own(1, 0, 0, 999998))
    trace.scan(own(1, 1, 1, 999999), q1, bits={2: 1})
    trace.scan(own(1, 1, 0, 999999), q1)
    trace.scan(own(1, 1, 1, 999999), q1, bits={2: 1})
    trace.put(own(1, 1, 1, 1000000))
    trace.latch_refused(21)
    trace.put(own(1, 1, 2, 999999))
    trace.latch_refused(21)
    trace.end()
    two = header(2) + counter_of(2, 2, 1) + counter_of(2, 2) + row(Q, 1, block1) + row(Q, 2, (6, 2)) + end
    trace = Trace("counters, the first retentive: after a warm start the other begins again, and Cnt is a rise to it", two, 2)
    trace.cold()
    trace.scan(own(1, 0, 1, 1) | own(2, 0, 1, 1), {}, bits={2: 1})
    trace.warm(own(1, 0, 1, 1))
    trace.scan(own(1, 0, 1, 1) | own(2, 0, 1, 1), {}, bits={2: 1})
    trace.warm(own(1, 0, 1, 1))
    trace.scan(own(1, 0, 0, 1) | own(2, 0, 0, 0), {})
    trace.scan(own(1, 1, 1, 2) | own(2, 0, 1, 1), q1, bits={2: 1})
    trace.end()


def stairs():
    q1 = {(Q, 1): 1}
    example = header(1) + stairway(0, 6, 3, 2) + row(Q, 1, block1) + end
    trace = Trace("stairway switch, T 6, T! 3, T!L 2, e 1, Trg 1, 1, 0, ..: Q 1, 1, 1, 1, 1, 0, 0, 1, 0", example, 1)
    trace.cold()
    trace.scan(own(1, 1, 3, 0), q1, e=1, bits={1: 1})
    trace.scan(own(1, 1, 3, 0), q1, e=1, bits={1: 1})
    trace.scan(own(1, 1, 2, 0), q1, e=1)
    trace.scan(own(1, 1, 2, 1), q1, e=1)
    trace.scan(own(1, 1, 2, 2), q1, e=1)
    trace.scan(own(1, 0, 2, 3), {}, e=1)
    trace.scan(own(1, 0, 2, 4), {}, e=1)
    trace.scan(own(1, 1, 2, 5), q1, e=1)
    trace.scan(own(1, 0, 0, 0), {}, e=1)
    trace.end()
    trace = Trace("stairway switch: a rise while it runs, words that no scan leaves, words that are not sound", example, 1)
    trace.put(own(1, 0, 2, 4))
    trace.scan(own(1, 1, 3, 0), q1, e=1, bits={1: 1})
    trace.scan(own(1, 1, 2, 0), q1, e=6)
    trace.scan(own(1, 0, 0, 0), {}, e=6)
    trace.put(own(1, 1, 1, 5))
    trace.scan(own(1, 0, 1, 0), {}, e=1, bits={1: 1})
    trace.put(own(1, 1, 2, 6))
    trace.scan(own(1, 0, 0, 0), {}, e=0)
    trace.put(own(1, 1, 2, 7))
    trace.latch_refused(21)
    trace.put(own(1, 1, 4, 0))
    trace.latch_refused(21)
    trace.end()
    trace = Trace("stairway switch, T 3, T! 3, T!L 1: dark from the fall on", header(1) + stairway(0, 3, 3, 1) + row(Q, 1, block1) + end, 1)
    trace.cold()
    trace.scan(own(1, 1, 3, 0), q1, e=1, bits={1: 1})
    trace.scan(own(1, 0, 2, 0), {}, e=1)
    trace.scan(own(1, 1, 2, 1), q1, e=1)
    trace.scan(own(1, 1, 2, 2), q1, e=1)
    trace.scan(own(1, 0, 0, 0), {}, e=1)
    trace.end()
    trace = Trace("stairway switch, T 0: it ends on the fall", header(1) + stairway(0, 0, 0, 0) + row(Q, 1, block1) + end, 1)
    trace.cold()
    trace.scan(own(1, 1, 3, 0), q1, e=9, bits={1: 1})
    trace.scan(own(1, 1, 3, 0), q1, e=9, bits={1: 1})
    trace.scan(own(1, 0, 0, 0), {}, e=9)
    trace.end()
    two = header(2) + block(18, [i1], [1, 2, 1, 1], 1) + stairway(1, 2, 1, 1) + row(Q, 1, block1) + row(Q, 2, (6, 2)) + end
    trace = Trace("stairway switches in minutes, the first retentive: after a warm start it goes on, and the other is off", two, 2)
    trace.cold()
    trace.scan(own(1, 1, 3, 0) | own(2, 1, 3, 0), {(Q, 1): 1, (Q, 2): 1}, e=100, bits={1: 1})
    trace.scan(own(1, 1, 2, 0) | own(2, 1, 2, 0), {(Q, 1): 1, (Q, 2): 1}, e=100)
    trace.scan(own(1, 1, 2, 99) | own(2, 1, 2, 99), {(Q, 1): 1, (Q, 2): 1}, e=99)
    trace.warm(own(1, 1, 2, 99))
    trace.scan(own(1, 0, 2, 100) | own(2, 0, 0, 0), {}, e=1)
    trace.scan(own(1, 0, 2, 199) | own(2, 0, 0, 0), {}, e=99)
    trace.scan(own(1, 0, 0, 0) | own(2, 0, 0, 0), {}, e=1)
    trace.end()
    trace = Trace("stairway switch, hours 5999: Ta up to 35,994,000 ticks is sound", header(1) + stairway(2, 5999, 5999, 5998) + end, 1)
    trace.put(own(1, 0, 2, 35922465))
    trace.scan(own(1, 1, 2, 35988000), {}, e=65535)
    trace.scan(own(1, 1, 2, 35993999), {}, e=5999)
    trace.put(own(1, 1, 2, 35994000))
    trace.scan(own(1, 0, 0, 0), {}, e=0)
    trace.put(own(1, 0, 2, 35994001))
    trace.latch_refused(21)
    trace.end()
    trace = Trace("check: times out of order", header(1) + stairway(0, 6, 3, 4) + end, 1)
    trace.said("check", 8, place=6)
    trace.said("cold", 8, place=6)
    trace.end()


def thresholds():
    window = header(1) + trigger(ai1, (-33, 0, -3, -2)) + row(Q, 1, block1) + end
    trace = Trace("gain -33, input 10, B 0: -3, seen through a window", window, 1)
    trace.scan(own(1, 1), {(Q, 1): 1}, analog={1: 10})
    trace.scan(own(1, 0), {}, analog={1: 13})
    trace.scan(own(1, 0), {}, analog={1: 9})
    trace.end()
    trace = Trace("On = Off = 5: 5 gives 0, 6 gives 1", header(1) + trigger(ai1, (100, 0, 5, 5)) + row(Q, 1, block1) + end, 1)
    trace.scan(own(1, 0), {}, analog={1: 5})
    trace.scan(own(1, 1), {(Q, 1): 1}, analog={1: 6})
    trace.scan(own(1, 0), {}, analog={1: 5})
    trace.end()


def held_values():
    """AM1 and AM2 are lent; no row writes them, so publish makes them 0."""
    am2, q1 = (8, 2), {(Q, 1): 1}
    trace = Trace("differential trigger, On 20000, Off 35000, gain 10: all that is above 32767 is held there, below Off", header(1) + differential(am1, [1000, 0, 20000, 15000]) + row(Q, 1, block1) + end, 1)
    for am, output in [(1999, 0), (2000, 1), (3276, 1), (3277, 1), (3501, 1), (32767, 1), (-32768, 0)]:
        trace.put({am_word(1): am})
        trace.scan(own(1, output), q1 if output else {})
    trace.end()
    trace = Trace("differential trigger, On 20000, Off 32767 and 32768: 32767 lies below the second alone", header(2) + differential(am1, [1000, 0, 20000, 12767]) + differential(am1, [1000, 0, 20000, 12768]) + row(Q, 1, block1) + row(Q, 2, (6, 2)) + end, 2)
    trace.put({am_word(1): 32767})
    trace.scan(own(1, 0) | own(2, 1), {(Q, 2): 1})
    trace.put({am_word(1): 3276})
    trace.scan(own(1, 1) | own(2, 1), {(Q, 1): 1, (Q, 2): 1})
    trace.end()
    trace = Trace("differential trigger, Off -32768 and -32769 below On: -32768 is at the first, and above the second", header(2) + differential(am1, [1000, 0, -20000, -12768]) + differential(am1, [1000, 0, -20000, -12769]) + row(Q, 1, block1) + row(Q, 2, (6, 2)) + end, 2)
    trace.put({am_word(1): -32768} | own(1, 1) | own(2, 1))
    trace.scan(own(1, 0) | own(2, 1), {(Q, 2): 1})
    trace.end()
    trace = Trace("differential trigger, held after the offset: 35000 less 10000 is 25000, and no less", header(1) + differential(am1, [1000, -10000, 20000, 5000]) + row(Q, 1, block1) + end, 1)
    for am, output in [(3499, 1), (3500, 0), (3000, 1)]:
        trace.put({am_word(1): am})
        trace.scan(own(1, output), q1 if output else {})
    trace.end()
    trace = Trace("comparator at gain 10: 32767 less 30000 is 2767, and -32768 less -30000 is -2768", header(2) + comparator(am1, am2, [1000, 0, 2767, 2768]) + comparator(am1, am2, [1000, 0, -2768, -2767]) + row(Q, 1, block1) + row(Q, 2, (6, 2)) + end, 2)
    trace.put({am_word(1): 32767, am_word(2): 3000})
    trace.scan(own(1, 1) | own(2, 0), q1)
    trace.put({am_word(1): -32768, am_word(2): -3000})
    trace.scan(own(1, 0) | own(2, 1), {(Q, 2): 1})
    trace.put({am_word(1): 3000, am_word(2): 32767})
    trace.scan(own(1, 0) | own(2, 0), {})
    trace.end()
    trace = Trace("comparator: B 10000 is cancelled where neither is held, and not where one is", header(1) + comparator(am1, am2, [1000, 10000, 2000, 2001]) + row(Q, 1, block1) + end, 1)
    trace.put({am_word(1): 2200, am_word(2): 2000})
    trace.scan(own(1, 1), q1)
    trace.put({am_word(1): 2400, am_word(2): 2200})
    trace.scan(own(1, 0), {})
    trace.end()


def amplifiers():
    """Block 1 reads AM1 and writes it, scan by scan, unless the title tells otherwise."""
    block9 = (9, 1)
    for title, a, b, am, outputs in [
        ("A 1000: ten times as much in each scan, up to 32767", 1000, 0, 5, [50, 500, 5000, 32767, 32767]),
        ("A -1000: from one end to the other", -1000, 0, 4, [-40, 400, -4000, 32767, -32768, 32767, -32768]),
        ("A 100, B 10000: up, and held", 100, 10000, 0, [10000, 20000, 30000, 32767, 32767]),
        ("A 100, B -10000: down, and held", 100, -10000, 0, [-10000, -20000, -30000, -32768, -32768]),
        ("A -33: the fraction is dropped toward zero", -33, 0, 10, [-3, 0, 0]),
        ("A 33: the fraction of a value below 0 too", 33, 0, -10, [-3, 0, 0]),
        ("A 1000, B -10000: held after the offset", 1000, -10000, 3500, [25000, 32767, 32767]),
        ("A 100, B 1 at the upper end", 100, 1, 32766, [32767, 32767]),
        ("A 100, B -1 at the lower end", 100, -1, -32767, [-32768, -32768]),
    ]:
        trace = Trace("amplifier, " + title, header(1) + amplifier(am1, a, b) + row(AM, 1, block9) + row(AQ, 1, block9) + end, 1)
        trace.put({am_word(1): am})
        for output in outputs:
            trace.scan(own(1, output), {(AM, 1): output, (AQ, 1): output})
        trace.end()
    chain = header(4) + amplifier(ai1, 300, 7) + amplifier((9, 1), 1000, 0) + amplifier((9, 2), -200, 0) + amplifier((9, 3), -100, 0)
    trace = Trace("amplifiers behind one another: each reads this scan's value of the one before it", chain + row(AQ, 1, (9, 4)) + row(AM, 1, (9, 3)) + end, 4)
    trace.cold()
    trace.scan(own(1, 3007) | own(2, 30070) | own(3, -32768) | own(4, 32767), {(AQ, 1): 32767, (AM, 1): -32768}, analog={1: 1000})
    trace.scan(own(1, 10) | own(2, 100) | own(3, -200) | own(4, 200), {(AQ, 1): 200, (AM, 1): -200}, analog={1: 1})
    trace.warm({})
    trace.scan(own(1, 7) | own(2, 70) | own(3, -140) | own(4, 140), {(AQ, 1): 140, (AM, 1): -140})
    trace.end()
    ring = header(3) + amplifier(am1, 1000, 0) + amplifier((8, 2), -1000, 0) + amplifier((9, 2), 100, 1) + row(AM, 2, block9) + row(AM, 1, (9, 2)) + row(AQ, 8, (9, 3)) + end
    trace = Trace("two amplifiers, each reading the other's value of the scan before through AM1 and AM2", ring, 3)
    trace.put({am_word(1): 3, am_word(2): -7})
    for first, second, third in [(30, 70, 71), (700, -300, -299), (-3000, -7000, -6999), (-32768, 30000, 30001), (32767, 32767, 32767), (32767, -32768, -32767), (-32768, -32768, -32767)]:
        trace.scan(own(1, first) | own(2, second) | own(3, third), {(AM, 1): second, (AM, 2): first, (AQ, 8): third})
    trace.end()
    trace = Trace("amplifier: -32768 and 32767 are sound, one beyond is not; its other words are 0", header(1) + amplifier(ai1, 100, 0) + end, 1)
    for output in (-32768, 32767):
        trace.put(own(1, output))
        trace.scan(own(1, 12), {}, analog={1: 12})
    for words in (own(1, -32769), own(1, 32768), own(1, 5, 1, 0), own(1, 5, 0, 1)):
        trace.put(words)
        trace.latch_refused(21)
        trace.said("warm", 21)
    trace.end()
    for title, circuit, number, place in [
        ("named as a digital block", header(2) + amplifier(ai1, 100, 0) + block(8, [block1]) + end, 6, 22),
        ("a row of Q from it, as from an analog block", header(1) + amplifier(ai1, 100, 0) + row(Q, 1, block9) + end, 6, 22),
        ("retentive", header(1) + amplifier(ai1, 100, 0, 1) + end, 5, 6),
        ("B 10001", header(1) + amplifier(ai1, 100, 10001) + end, 8, 6),
    ]:
        trace = Trace("check: amplifier, " + title, circuit, circuit[5])
        trace.said("check", number, place=place)
        trace.said("cold", number, place=place)
        trace.end()


def rows():
    exchange = header(0) + row(M, 1, (4, 2)) + row(M, 2, (4, 1)) + row(AM, 1, (8, 2)) + row(AM, 2, (8, 1)) + row(AQ, 8, ai1) + end
    trace = Trace("M1 from M2 and M2 from M1: the two exchange, and so do AM1 and AM2", exchange, 0)
    trace.put({m_word(1): 1, am_word(1): -32768, am_word(2): 32767})
    trace.scan({}, {(M, 2): 1, (AM, 1): 32767, (AM, 2): -32768, (AQ, 8): 1000}, analog={1: 1000})
    trace.scan({}, {(M, 1): 1, (AM, 1): -32768, (AM, 2): 32767})
    trace.latch_refused(23, analog={1: 1001})
    trace.end()
    trace = Trace("M8 in the first scan: other rows still read 1", header(0) + row(Q, 1, (4, 8)) + row(M, 8, (3, 0)) + end, 0)
    trace.cold()
    trace.scan({}, {(Q, 1): 1})
    trace.scan({}, {(M, 8): 1})
    trace.scan({}, {(Q, 1): 1, (M, 8): 1})
    trace.end()


def turns():
    two = header(2) + block(8, [none]) + block(8, [block1]) + row(Q, 1, (6, 2)) + row(Q, 2, (0x86, 2)) + end
    trace = Trace("turns: a run of 0 blocks changes nothing; calls out of turn are refused", two, 2)
    trace.cold()
    trace.said("run 1", 22)
    trace.said("publish", 22)
    trace.latch(e=65535)
    trace.run(0, 0, {})
    trace.run(1, 1, own(1, 1))
    trace.run(0, 0, {})
    trace.said("publish", 22)
    trace.said("warm", 22)
    trace.latch_refused(22, e=70000)
    trace.run(4294967295, 1, own(2, 0))
    trace.run(1, 0, {})
    trace.outputs = [7] * 27
    print("> out", listed(trace.outputs))
    trace.said("publish", 24)
    trace.outputs = [7] * 28
    print("> out", listed(trace.outputs))
    trace.publish({(Q, 2): 1})
    trace.latch_refused(23, e=-1)
    trace.latch_refused(23, e=65536)
    trace.latch_refused(23, bits={24: 2})
    trace.record = trace.record[:-1]
    print("> rec", listed(trace.record))
    trace.said("cold", 20)
    trace.said("warm", 20)
    trace.end()


checks()
delays()
bits()
counts()
stairs()
thresholds()
held_values()
amplifiers()
rows()
turns()
