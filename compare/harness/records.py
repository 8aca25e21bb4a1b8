"""Records as bytes: a body length, a kind, the body; 16 bits a field unless said, little-endian."""

import struct

COLUMN, LITERAL, OPERATION, PAIR, CONSTANT, NORMAL, EQUALITY, ORDERING = range(1, 9)
NODES = (COLUMN, LITERAL, OPERATION)
MOST_BYTES = 65536

# The places in a body of the given length where an expression's number stands.
REFERENCES = {
    OPERATION: lambda length: range(4, length, 2),
    PAIR: lambda length: range(0, length, 2),
    CONSTANT: lambda length: range(0, min(length, 2), 2),
    NORMAL: lambda length: range(0, length, 2),
    EQUALITY: lambda length: range(0, length, 2),
    ORDERING: lambda length: range(0, length, 4),
}


def record(kind, body):
    """A record of this kind."""
    return struct.pack("<HH", len(body), kind) + body


def numbers(fields):
    """Fields of 16 bits."""
    return struct.pack(f"<{len(fields)}H", *fields)


def column(name, index):
    return record(COLUMN, numbers([name, index]))


def literal(value):
    return record(LITERAL, struct.pack("<I", value))


def operation(label, children):
    return record(OPERATION, struct.pack("<I", label) + numbers(children))


def pair(left, right):
    return record(PAIR, numbers([left, right]))


def constant(expression, flavour, value):
    return record(CONSTANT, struct.pack("<HHI", expression, flavour, value))


def normal(expression):
    return record(NORMAL, numbers([expression]))


def equality(left, right):
    return record(EQUALITY, numbers([left, right]))


def ordering(keys):
    """Keys are pairs of expression and options."""
    return record(ORDERING, numbers([field for key in keys for field in key]))


def kind_of(one):
    """The kind that a record's header names, or none where the header is cut."""
    return struct.unpack_from("<H", one, 2)[0] if len(one) >= 4 else None


def split(session):
    """The records of a session; the last one may be cut."""
    parts, place = [], 0
    while place < len(session):
        rest = session[place:]
        length = 4 + struct.unpack_from("<H", rest)[0] if len(rest) >= 4 else len(rest)
        parts.append(rest[:length])
        place += len(parts[-1])
    return parts


def is_node(part):
    """Whether the record adds a node."""
    return kind_of(part) in NODES


def moved_down(part, first, gone):
    """The record with each reference from `first` + `gone` on made smaller by `gone`."""
    places = REFERENCES.get(kind_of(part))
    if places is None or len(part) % 2:
        return part
    moved = bytearray(part)
    for place in places(len(part) - 4):
        number = struct.unpack_from("<H", part, 4 + place)[0]
        if number >= first + gone:
            struct.pack_into("<H", moved, 4 + place, number - gone)
    return bytes(moved)
