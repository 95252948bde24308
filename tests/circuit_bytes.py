"""The fields of an accepted circuit, for tests that read its bytes."""
BLOCK, ROW = 0x10, 0x30
RETENTIVE = 1  # an option
INVERTED = 0x80  # added to a class
DIGITAL_BLOCK, ANALOG_BLOCK = 6, 9  # classes
INPUTS_OF = {1: 4, 2: 4, 3: 4, 4: 4, 5: 4, 6: 4, 7: 2, 8: 1, 9: 1, 10: 2, 11: 2, 12: 3, 13: 1, 14: 2, 15: 3, 16: 1, 17: 3, 18: 1, 19: 1}  # by kind


def fields_of(circuit):
    """Tag and content of each field."""
    at = 0
    while at < len(circuit):
        length = int.from_bytes(circuit[at + 1 : at + 3], "big")
        yield circuit[at], circuit[at + 3 : at + 3 + length]
        at += 3 + length


def connectors_of(tag, content):
    """Of a block or a row, class and number of each connector."""
    places = [2] if tag == ROW else range(2, 2 + 3 * INPUTS_OF[content[0]], 3)
    return [(content[at], int.from_bytes(content[at + 1 : at + 3], "big")) for at in places]
