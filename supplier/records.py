"""The records of sheet and certificate: their kinds, bodies and bytes."""

from collections import namedtuple

from supplier.fault import Fault

Record = namedtuple("Record", "offset kind name numbers")

# Kind byte to name and to the length of each number in the body.
KINDS = {
    0x01: ("HEAD", (2, 2, 2)),
    0x02: ("START", (2, 1)),
    0x10: ("INPUT", (2,)),
    0x11: ("COIL", (2,)),
    0x12: ("CONSTANT", (1,)),
    0x13: ("NOT", ()),
    0x14: ("AND", ()),
    0x15: ("OR", ()),
    0x20: ("RUNG", (2,)),
    0x21: ("CONDITION", ()),
    0x2F: ("END", ()),
    0x40: ("STEP", (2, 2, 2)),
    0x41: ("QED", ()),
    0x50: ("SAFE", ()),
    0x51: ("INVARIANT", ()),
    0x60: ("TRACE", ()),
    0x61: ("INPUT-ON", (2,)),
    0x62: ("SCAN", ()),
}
KIND_OF = {name: kind for kind, (name, _) in KINDS.items()}
FORMULA = ("INPUT", "COIL", "CONSTANT", "NOT", "AND", "OR")


def record(name, *numbers):
    """The bytes of one record."""
    kind = KIND_OF[name]
    body = b""
    for number, length in zip(numbers, KINDS[kind][1], strict=True):
        if number >= 256 ** length:
            raise Fault(f"{name} cannot hold the number {number}")
        body += number.to_bytes(length, "little")
    return bytes([kind]) + body


def formula(records):
    """The bytes of formula records, each a name and its numbers."""
    return b"".join(record(name, *numbers) for name, *numbers in records)


def read(data):
    """The records as far as they can be read, and why reading stopped."""
    found, place = [], 0
    while place < len(data):
        if found and found[-1].name == "END":
            return found, f"a byte after END at {place}"
        kind = data[place]
        if kind not in KINDS:
            return found, f"no such kind {kind:02X} at {place}"
        name, lengths = KINDS[kind]
        body = data[place + 1:place + 1 + sum(lengths)]
        if len(body) < sum(lengths):
            return found, (f"{name} at {place} is cut: {len(body)} of "
                           f"{sum(lengths)} body bytes are there")
        found.append(Record(place, kind, name, _numbers(body, lengths)))
        place += 1 + len(body)
    if not found or found[-1].name != "END":
        return found, f"the bytes end at {place} without END"
    return found, None


def _numbers(body, lengths):
    numbers, place = [], 0
    for length in lengths:
        numbers.append(int.from_bytes(body[place:place + length], "little"))
        place += length
    return tuple(numbers)
