#!/usr/bin/env python3
"""The stored circuits of crates/cases: how each is made, and what check and the check for 0BA6 answer, written by hand.
stored_circuits.py FOLDER: writes them to FOLDER/data, and FOLDER/args, FOLDER/stdout and FOLDER/nine_scans beside."""
import os
import sys


def two(k):
    return (k & 0xFFFF).to_bytes(2, "big")


def four(k):
    return (k & 0xFFFFFFFF).to_bytes(4, "big")


def field(tag, content):
    return bytes([tag]) + two(len(content)) + content


def header(n, version=1):
    return field(0x01, bytes([version]) + two(n))


def connector(cls, number):
    return bytes([cls]) + two(number)


def block(kind, inputs, parameters=(), options=0):
    return field(0x10, bytes([kind, options]) + b"".join(connector(*c) for c in inputs) + b"".join(four(p) for p in parameters))


def label(text):
    return field(0x20, text)


def row(cls, number, source):
    return field(0x30, bytes([cls, number]) + connector(*source))


end = field(0x7F, b"")
none, i1, i2, ai1, m8, am1, hi = (0, 0), (1, 1), (1, 2), (7, 1), (4, 8), (8, 1), (3, 0)


def and_of(*inputs):  # 17 bytes
    return block(1, list(inputs) + [none] * (4 - len(inputs)))


def not_of(source):  # 8 bytes
    return block(8, [source])


def on_delay(base, t):  # 16 bytes
    return block(9, [i1], [base, t])


def off_delay(trg, r, t):  # 19 bytes
    return block(10, [trg, r], [0, t])


def register(index, bit, source=i1):  # 22 bytes
    return block(12, [source, i2, none], [index, bit])


def trigger(source, parameters=(0, 0, 0, 0)):  # 24 bytes
    return block(13, [source], parameters)


def multiplexer(values=(0, 0, 0, 0)):  # 30 bytes
    return block(15, [i1, i1, i2], values)


def counter(on, off, options=0):  # 22 bytes: counts I2
    return block(17, [none, i2, none], [on, off], options)


def stairway(base, t, warning, dark, trg=i1):  # 24 bytes
    return block(18, [trg], [base, t, warning, dark])


def amplifier(source, a, b, options=0):  # 16 bytes
    return block(19, [source], [a, b], options)


def comparator(x, y, parameters):  # 27 bytes
    return block(14, [x, y], parameters)


def differential(source, parameters):  # 24 bytes
    return block(16, [source], parameters)


document_01 = header(1) + and_of(i1, i2) + row(1, 1, (6, 1)) + end
one_of_each = [
    and_of(i1), block(2, [i1, none, none, none]), block(3, [(0x81, 24), none, none, none]), block(4, [(4, 64), none, none, none]),
    block(5, [(6, 1), (0x86, 2), (0x82, 0), (0x83, 0)]), block(6, [(6, 5), none, none, none]), block(7, [(6, 6), i1]), not_of((6, 7)),
    block(9, [(6, 8)], [0, 9999], 1), block(10, [(6, 9), none], [1, 5999], 1), block(11, [(6, 10), none], (), 1),
    block(12, [(6, 11), i1, none], [4, 8], 1), block(13, [(7, 8)], [-1000, 10000, 20000, -20000]), block(14, [(8, 64), (7, 1)], [1000, -10000, -20000, 20000]),
    block(15, [(6, 14), none, (2, 0)], [-32768, 32767, 0, -1]), block(16, [(9, 15)], [100, 0, 20000, 20000]),
    block(17, [(6, 16), (0x81, 2), none], [999999, 0], 1), block(18, [(0x86, 17)], [1, 5999, 5999, 0], 1), amplifier((9, 15), -1000, 10000),
]
# AM1 from block 1, which makes of AM1 ten times as much and 5 more: 5, 55, 555, 5555, then 32767 in every scan
growing, am1_of_it = amplifier(am1, 1000, 5), row(4, 1, (9, 1))
fixed_3000 = block(15, [hi, none, none], [3000, 0, 0, 0])
destinations = [(1, k) for k in range(1, 21)] + [(2, k) for k in range(1, 65)] + [(3, k) for k in range(1, 9)] + [(4, k) for k in range(1, 65)]
all_rows = b"".join(row(c, k, (3, 0) if c <= 2 else (8, 1)) for c, k in destinations)
most_of_0ba6 = {1: 16, 2: 27, 3: 2, 4: 6}
all_rows_of_0ba6 = b"".join(row(c, k, {1: (4, 27), 2: (6, 200)}.get(c, (8, 6))) for c, k in destinations if k <= most_of_0ba6[c])

# name, circuit, number, place, first, second; where 0BA6 has another answer, its number and place
cases = [
    # document 01's own
    ("empty", b"", 1, 0, 0, 0),
    ("document_01", document_01, 0, 0, 1, 1),
    ("own_block", header(1) + and_of((6, 1), i2) + row(1, 1, (6, 1)) + end, 7, 6, 0, 0),
    ("above_n", header(1) + and_of((6, 2), i2) + row(1, 1, (6, 1)) + end, 6, 6, 0, 0),
    ("hours_5999", header(1) + on_delay(2, 5999) + end, 0, 0, 1, 0),
    ("hours_6000", header(1) + on_delay(2, 6000) + end, 8, 6, 0, 0),
    ("n_400", header(400) + and_of(i1) * 400 + end, 0, 0, 400, 0, 4, 0),
    ("n_401", header(401) + end, 4, 0, 0, 0),
    # accepted
    ("no_blocks", header(0) + end, 0, 0, 0, 0),
    ("all_kinds", header(19) + b"".join(one_of_each) + row(1, 20, (6, 16)) + row(3, 8, (9, 15)) + row(1, 18, (6, 18)) + row(4, 64, (9, 19)) + end, 0, 0, 19, 4, 6, 57),
    ("labels", header(2) + and_of(i1) + label(b"") + not_of((6, 1)) + label(bytes(range(16))) + end, 0, 0, 2, 0),
    ("all_destinations", header(0) + all_rows + end, 0, 0, 0, 156, 9, 134),
    ("four_registers", header(4) + register(3, 1) + register(1, 8) + register(4, 1) + register(2, 1) + end, 0, 0, 4, 0),
    ("counter_5", header(1) + counter(5, 5) + row(1, 1, (6, 1)) + end, 0, 0, 1, 1),
    ("stairway_6_3_2", header(1) + stairway(0, 6, 3, 2) + row(1, 1, (6, 1)) + end, 0, 0, 1, 1),
    ("off_delay_held", header(1) + off_delay((3, 0), (0x81, 2), 3) + row(1, 1, (6, 1)) + end, 0, 0, 1, 1),  # Trg is hi, R is 1 while I2 is 0
    ("counter_275", header(1) + counter(275, 275) + row(1, 1, (6, 1)) + end, 0, 0, 1, 1),  # I2 rises in each scan of an even number
    ("counter_276", header(1) + counter(276, 276) + row(1, 1, (6, 1)) + end, 0, 0, 1, 1),
    ("stairway_dark_at_last", header(1) + stairway(2, 5999, 13, 12, m8) + row(1, 1, (6, 1)) + end, 0, 0, 1, 1),  # M8 is 1 in the first scan
    ("stairway_ends_at_last", header(1) + stairway(2, 5996, 5996, 1, m8) + row(1, 1, (6, 1)) + end, 0, 0, 1, 1),
    ("stairway_all_the_same", header(1) + stairway(0, 9999, 9999, 9999) + end, 0, 0, 1, 0),
    ("amplifier_chain", header(3) + amplifier(ai1, 300, 7) + amplifier((9, 1), 1000, 0) + amplifier((9, 2), -200, 0) + row(3, 1, (9, 1)) + row(3, 2, (9, 2)) + row(3, 8, (9, 3)) + end, 0, 0, 3, 3, 9, 70),
    ("amplifier_counts", header(1) + amplifier(am1, 100, 1) + am1_of_it + row(3, 1, (9, 1)) + end, 0, 0, 1, 2),
    ("amplifier_falls", header(1) + amplifier(am1, 100, -10000) + am1_of_it + row(3, 1, (9, 1)) + end, 0, 0, 1, 2),
    ("amplifier_swings", header(1) + amplifier(am1, -1000, 4) + am1_of_it + row(3, 1, (9, 1)) + end, 0, 0, 1, 2),
    ("amplifier_ends", header(2) + amplifier((8, 6), -1000, 10000) + amplifier((7, 8), 1000, -10000) + end, 0, 0, 2, 0),
    ("amplifier_named", header(5) + growing + trigger((9, 1)) + comparator((9, 1), (9, 1), [0] * 4) + differential((9, 1), [0] * 4) + amplifier((9, 1), 0, 0) + row(3, 1, (9, 5)) + row(4, 6, (9, 1)) + end, 0, 0, 5, 2),
    ("differential_held_above", header(2) + growing + differential((9, 1), [1000, 0, 20000, 15000]) + am1_of_it + row(1, 1, (6, 2)) + end, 0, 0, 2, 2),
    ("differential_held_below", header(2) + growing + differential((9, 1), [-1000, 0, -20000, -15000]) + am1_of_it + row(1, 1, (6, 2)) + end, 0, 0, 2, 2),
    ("comparator_held_above", header(3) + growing + fixed_3000 + comparator((9, 1), (9, 2), [1000, 0, 2767, 2768]) + am1_of_it + row(1, 1, (6, 3)) + end, 0, 0, 3, 2),
    ("comparator_held_below", header(3) + growing + fixed_3000 + comparator((9, 1), (9, 2), [-1000, 0, -2768, -2767]) + am1_of_it + row(1, 1, (6, 3)) + end, 0, 0, 3, 2),
    ("flags_exchange", header(0) + row(2, 1, (4, 2)) + row(2, 2, (4, 1)) + end, 0, 0, 0, 2),
    # 1
    ("one_byte", b"\x01", 1, 0, 0, 0),
    ("header_cut", header(0)[:5], 1, 0, 0, 0),
    ("unknown_tag_cut", b"\xff\x00\x01", 1, 0, 0, 0),
    ("no_end_field", header(1) + and_of(i1), 1, 23, 0, 0),
    ("no_end_field_blocks_missing", header(2) + and_of(i1), 1, 23, 0, 0),
    ("block_too_many_cut", header(0) + and_of(i1)[:9], 1, 6, 0, 0),
    ("end_field_cut", header(0) + end[:2], 1, 6, 0, 0),
    # 2
    ("end_field_first", end, 2, 0, 0, 0),
    ("unknown_tag", header(0) + b"\x7e\x00\x00", 2, 6, 0, 0),
    ("second_header", header(0) + header(0) + end, 2, 6, 0, 0),
    ("header_of_two_bytes", field(0x01, b"\x01\x00") + end, 2, 0, 0, 0),
    ("block_without_kind", header(1) + field(0x10, b"") + end, 2, 6, 0, 0),
    ("and_of_three_inputs", header(1) + block(1, [i1, i1, i1]) + end, 2, 6, 0, 0),
    ("counter_of_one_byte", header(1) + field(0x10, b"\x11") + end, 2, 6, 0, 0),
    ("stairway_of_two_times", header(1) + block(18, [i1], [0, 6, 3]) + end, 2, 6, 0, 0),
    ("amplifier_of_one_byte", header(1) + field(0x10, b"\x13") + end, 2, 6, 0, 0),
    ("amplifier_without_b", header(1) + block(19, [ai1], [100]) + end, 2, 6, 0, 0),
    ("amplifier_with_on_and_off", header(1) + block(19, [ai1], [100, 0, 5, 5]) + end, 2, 6, 0, 0),
    ("block_behind_row", header(0) + row(1, 1, i1) + not_of(i1) + end, 2, 14, 0, 0),
    ("label_behind_header", header(1) + label(b"A") + not_of(i1) + end, 2, 6, 0, 0),
    ("label_twice", header(1) + not_of(i1) + label(b"") + label(b"A") + end, 2, 17, 0, 0),
    ("label_of_17", header(1) + not_of(i1) + label(b"A" * 17) + end, 2, 14, 0, 0),
    ("end_field_with_content", header(0) + b"\x7f\x00\x01\x00\x00", 2, 6, 0, 0),
    # 3
    ("version_0", header(0, 0) + end, 3, 0, 0, 0),
    ("version_2", header(0, 2) + end, 3, 0, 0, 0),
    ("version_2_n_401", header(401, 2) + end, 3, 0, 0, 0),
    # 4
    ("block_too_many", header(1) + not_of(i1) + label(b"AB") + not_of(i1) + end, 4, 19, 0, 0),
    ("block_too_many_unknown_kind", header(0) + field(0x10, b"\x14") + end, 4, 6, 0, 0),
    ("row_blocks_missing", header(2) + not_of(i1) + row(5, 0, none) + end, 4, 14, 0, 0),
    ("end_field_blocks_missing", header(1) + end + b"\x00", 4, 6, 0, 0),
    # 5
    ("kind_0", header(1) + block(0, [i1]) + end, 5, 6, 0, 0),
    ("kind_20_one_byte", header(1) + field(0x10, b"\x14") + end, 5, 6, 0, 0),
    ("kind_255", header(1) + block(255, [i1]) + end, 5, 6, 0, 0),
    ("retentive_not", header(1) + block(8, [(5, 0)], (), 1) + end, 5, 6, 0, 0),
    ("counter_option_bit_1", header(1) + counter(0, 0, 2) + end, 5, 6, 0, 0),
    ("amplifier_retentive", header(1) + amplifier(ai1, 100, 0, 1) + end, 5, 6, 0, 0),
    ("option_bit_1", header(1) + block(11, [i1, none], (), 2) + end, 5, 6, 0, 0),
    # 6
    ("class_5", header(1) + not_of((5, 1)) + end, 6, 6, 0, 0),
    ("input_25", header(1) + not_of((1, 25)) + end, 6, 6, 0, 0),
    ("unused_inverted", header(1) + not_of((0x80, 0)) + end, 6, 6, 0, 0),
    ("unused_analog_input", header(1) + trigger(none) + end, 6, 6, 0, 0),
    ("multiplexer_as_digital", header(2) + multiplexer() + not_of((6, 1)) + end, 6, 36, 0, 0),
    ("counter_as_analog", header(2) + counter(0, 0) + trigger((9, 1)) + end, 6, 28, 0, 0),
    ("amplifier_as_digital", header(2) + amplifier(ai1, 100, 0) + not_of((6, 1)) + end, 6, 22, 0, 0),
    ("amplifier_of_a_trigger", header(2) + trigger(ai1) + amplifier((9, 1), 100, 0) + end, 6, 30, 0, 0),
    ("amplifier_unused_input", header(1) + amplifier(none, 100, 0) + end, 6, 6, 0, 0),
    ("row_q_from_amplifier", header(1) + amplifier(ai1, 100, 0) + row(1, 1, (6, 1)) + end, 6, 22, 0, 0),
    ("row_m_from_amplifier_as_analog", header(1) + amplifier(ai1, 100, 0) + row(2, 1, (9, 1)) + end, 6, 22, 0, 0),
    ("row_aq_from_amplifier_as_digital", header(1) + amplifier(ai1, 100, 0) + row(3, 1, (6, 1)) + end, 6, 22, 0, 0),
    ("later_then_class_5", header(2) + and_of((6, 2), (5, 0)) + not_of(i1) + end, 6, 6, 0, 0),
    ("later_than_n", header(2) + not_of((6, 3)) + not_of(i1) + end, 6, 6, 0, 0),
    ("row_unused", header(0) + row(1, 1, none) + end, 6, 6, 0, 0),
    ("row_unknown_class_inverted_analog", header(0) + row(5, 1, (0x87, 1)) + end, 6, 6, 0, 0),
    ("row_q21_unused", header(0) + row(1, 21, none) + end, 6, 6, 0, 0),
    # 7
    ("later_block", header(2) + not_of((6, 2)) + not_of(i1) + end, 7, 6, 0, 0),
    ("later_block_of_wrong_sort", header(2) + not_of((6, 2)) + multiplexer() + end, 7, 6, 0, 0),
    ("stairway_names_itself", header(2) + not_of(i1) + stairway(0, 0, 1, 0, (6, 2)) + end, 7, 14, 0, 0),
    ("amplifier_names_itself", header(1) + amplifier((9, 1), 1001, 0) + end, 7, 6, 0, 0),
    ("trigger_names_itself", header(2) + not_of(i1) + trigger((9, 2)) + end, 7, 14, 0, 0),
    # 8
    ("base_257", header(1) + on_delay(257, 0) + end, 8, 6, 0, 0),
    ("seconds_10000", header(1) + on_delay(0, 10000) + end, 8, 6, 0, 0),
    ("minutes_minus_1", header(1) + on_delay(1, -1) + end, 8, 6, 0, 0),
    ("gain_1001", header(1) + trigger(ai1, (1001, 0, 0, 0)) + end, 8, 6, 0, 0),
    ("value_32768", header(1) + multiplexer((0, 0, 0, 32768)) + end, 8, 6, 0, 0),
    ("counter_on_1000000", header(1) + counter(1000000, 0) + end, 8, 6, 0, 0),
    ("counter_off_minus_1", header(1) + counter(0, -1) + end, 8, 6, 0, 0),
    ("stairway_warning_above_t", header(1) + stairway(0, 6, 7, 2) + end, 8, 6, 0, 0),
    ("stairway_dark_above_warning", header(1) + stairway(0, 6, 3, 4) + end, 8, 6, 0, 0),
    ("stairway_below_0_in_order", header(1) + stairway(0, 5, -1, -1) + end, 8, 6, 0, 0),
    ("stairway_minutes_6000", header(1) + stairway(1, 6000, 6000, 6000) + end, 8, 6, 0, 0),
    ("amplifier_gain_1001", header(1) + amplifier(ai1, 1001, 0) + end, 8, 6, 0, 0),
    ("amplifier_gain_minus_1001", header(1) + amplifier(ai1, -1001, 0) + end, 8, 6, 0, 0),
    ("amplifier_offset_10001", header(1) + amplifier(ai1, 0, 10001) + end, 8, 6, 0, 0),
    ("amplifier_offset_minus_10001", header(1) + amplifier(ai1, 0, -10001) + end, 8, 6, 0, 0),
    ("index_twice_bit_9", header(2) + register(1, 1) + register(1, 9) + end, 8, 28, 0, 0),
    # 9
    ("destination_class_5", header(2) + not_of(i1) + multiplexer() + row(5, 1, (6, 2)) + end, 9, 44, 0, 0),
    ("destination_q0", header(0) + row(1, 0, i1) + end, 9, 6, 0, 0),
    ("destination_am65", header(0) + row(4, 65, ai1) + end, 9, 6, 0, 0),
    ("destination_twice", header(0) + row(2, 1, i1) + row(1, 1, i1) + row(2, 1, i2) + end, 9, 22, 0, 0),
    # 10
    ("index_twice", header(2) + register(1, 1) + register(1, 2) + end, 10, 28, 0, 0),
    ("index_twice_apart", header(3) + register(4, 1) + label(b"A") + not_of((6, 1)) + register(4, 1) + end, 10, 40, 0, 0),
    ("five_registers", header(5) + register(1, 1) + register(2, 1) + register(3, 1) + register(4, 1) + register(3, 2) + end, 10, 94, 0, 0),
    # 11
    ("one_byte_behind", header(0) + end + b"\x00", 11, 9, 0, 0),
    ("second_end_field", header(1) + not_of(i1) + end + end, 11, 17, 0, 0),
    ("circuit_behind", document_01 + document_01, 11, 34, 0, 0),
    # the first field with a fault
    ("parameter_before_tag", header(2) + on_delay(3, 0) + b"\x00\x00\x00" + end, 8, 6, 0, 0),
    # the limits of 0BA6: accepted
    ("series_n_200", header(200) + not_of(i1) * 200 + end, 0, 0, 200, 0),
    ("series_q16", header(0) + row(1, 16, i1) + end, 0, 0, 0, 1),
    ("series_aq2", header(0) + row(3, 2, ai1) + end, 0, 0, 0, 1),
    ("series_m27", header(1) + not_of((4, 27)) + row(2, 27, (6, 1)) + row(1, 1, (0x84, 27)) + end, 0, 0, 1, 2),
    ("series_am6", header(1) + trigger((8, 6)) + row(4, 6, ai1) + row(3, 1, (8, 6)) + end, 0, 0, 1, 2),
    ("series_all_limits", header(200) + not_of(i1) * 200 + all_rows_of_0ba6 + end, 0, 0, 200, 51),
    # one more of each
    ("series_n_201", header(201) + not_of(i1) * 201 + end, 0, 0, 201, 0, 4, 0),
    ("series_q17", header(0) + row(1, 16, i1) + row(1, 17, i1) + end, 0, 0, 0, 2, 9, 14),
    ("series_aq3", header(0) + row(3, 3, ai1) + row(3, 2, ai1) + end, 0, 0, 0, 2, 9, 6),
    ("series_m28", header(1) + not_of(i1) + row(2, 27, i1) + row(2, 28, (6, 1)) + end, 0, 0, 1, 2, 9, 22),
    ("series_m28_at_a_block", header(2) + not_of((4, 27)) + and_of(i1, i2, (6, 1), (4, 28)) + end, 0, 0, 2, 0, 6, 14),
    ("series_m28_at_a_row", header(0) + row(1, 1, (4, 27)) + row(2, 1, (0x84, 28)) + end, 0, 0, 0, 2, 6, 14),
    ("series_am7", header(0) + row(4, 7, ai1) + end, 0, 0, 0, 1, 9, 6),
    ("series_am7_at_a_block", header(1) + comparator((8, 6), (8, 7), [100, 0, 0, 0]) + end, 0, 0, 1, 0, 6, 6),
    ("series_am7_at_a_row", header(0) + row(4, 6, (8, 7)) + end, 0, 0, 0, 1, 6, 6),
    # two things of a field do not fit: the lowest number
    ("series_q17_from_m28", header(0) + row(1, 17, (4, 28)) + end, 0, 0, 0, 1, 6, 6),
    ("series_m28_from_m28", header(0) + row(2, 28, (4, 28)) + end, 0, 0, 0, 1, 6, 6),
    # refused by both: an earlier field, a lower number, another place
    ("series_m28_before_q21", header(1) + not_of((4, 28)) + row(1, 21, i1) + end, 9, 14, 0, 0, 6, 6),
    ("series_unknown_class_from_m28", header(0) + row(5, 1, (4, 28)) + end, 9, 6, 0, 0, 6, 6),
    ("series_n_201_blocks_missing", header(201) + end, 4, 6, 0, 0, 4, 0),
]

# Q1 in nine scans, a tick apart: I1 is 1 in the first two, I2 in the first, the third, .. the ninth
nine_scans = {
    "counter_5": "0 0 0 0 0 0 0 0 1",  # the fifth rise; 4 give 0
    "stairway_6_3_2": "1 1 1 1 1 0 0 1 0",
    "off_delay_held": "1 0 0 0 0 0 0 0 0",  # R goes in the third, the fifth, .. : no rise
    "differential_held_above": "0 0 0 1 1 1 1 1 1",  # 50, 550, 5550, then 32767 for 55550 and more, which is below Off 35000
    "differential_held_below": "1 1 1 1 1 1 1 1 1",  # -50, -550, -5550, then -32768 for -55550 and less, which is above Off -35000
    "comparator_held_above": "0 0 0 1 1 1 1 1 1",  # in the fourth 32767 less 30000
    "comparator_held_below": "0 0 0 1 1 1 1 1 1",  # in the fourth -32768 less -30000
    "series_m27": "1 0 1 0 1 0 1 0 1",  # the opposite of M27, which is the opposite of itself a scan before
}


def line(name, answer):
    return " ".join([name] + [str(number) for number in answer]) + "\n"


def main():
    folder = sys.argv[1]
    os.makedirs(os.path.join(folder, "data"), exist_ok=True)
    names = [case[0] for case in cases]
    assert len(set(names)) == len(names)
    assert len(document_01) == 34
    for number in range(1, 12):
        assert sum(case[2] == number for case in cases) >= 3, number
    for number in (4, 6, 9):
        assert sum(case[6:7] == (number,) for case in cases) >= 3, number
    for name, circuit, *answers in cases:
        with open(os.path.join(folder, "data", name), "wb") as f:
            f.write(circuit)
    with open(os.path.join(folder, "args"), "w") as f:
        f.write("".join(name + "\n" for name in names))
    with open(os.path.join(folder, "nine_scans"), "w") as f:
        f.write("".join(name + " nine scans: Q1 " + nine_scans[name] + "\n" for name in names if name in nine_scans))
    with open(os.path.join(folder, "stdout"), "w") as f:
        for name, circuit, *answers in cases:
            of_0ba6 = answers[4:] + [0, 0] if answers[4:] else answers
            f.write(line(name, answers[:4]) + line(name + " 0BA6", of_0ba6))


if __name__ == "__main__":
    main()
