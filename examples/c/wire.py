"""Frames, packets and records, written here once more from the paper, for the tests of the boxes."""

BEGIN, END, ESCAPE = 0xF0, 0xF1, 0xF2
STREAMS = (0, 2, 6)
CONTROL, ALEXA = 0, 6
# The version bytes, and how many bytes a record's length has. A file that a box begins is of the last.
WIDTHS = {b"\x01": 2, b"\x02": 4}
NEW = b"\x02"


def escaped(data):
    return b"".join(bytes((ESCAPE, ESCAPE ^ b)) if b in (BEGIN, END, ESCAPE) else bytes((b,)) for b in data)


def frame(sequence, payload, checksum_error=0):
    checksum = (2 + sum(payload) + checksum_error) % 65536
    return bytes((BEGIN, 2, 0, sequence)) + escaped(payload + checksum.to_bytes(2, "big")) + bytes((END,))


def record(version, stream, payload):
    return (1 + len(payload)).to_bytes(WIDTHS[version], "big") + bytes((stream,)) + payload


def packet(stream, number, sequence, kind, flag, piece, total=None, reserved=0):
    """A packet of type `kind`, the first with the total; the extender only where the length needs it."""
    first = b"" if total is None else bytes((reserved,)) + total.to_bytes(2, "big")
    size = len(piece).to_bytes(2 if len(piece) > 255 else 1, "big")
    return bytes((stream << 4 | number, sequence % 16 << 4 | kind << 2 | flag << 1 | len(size) - 1)) + first + size + piece


def acknowledgement(stream, number, sequence, positive=True):
    return bytes((stream << 4 | number, sequence << 4 | 12 | positive << 1, 0, 2, 1, 0 if positive else 3))


def sized(data):
    """A packet as a Low Energy box reads and sends it."""
    return len(data).to_bytes(2, "big") + data
