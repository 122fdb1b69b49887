"""What the vector programs read: calls of one byte, with fields and numbers (crates/lines, read.rt).

A field is a run of pieces and a 0: 1, a length in three bytes and the bytes, or 2, a first byte, the step from
each byte to the next and their number in three bytes. The second is for long runs, which need not stand here."""


def number(n, width=3):
    return n.to_bytes(width, "big")


def literal(data):
    return b"\x01" + number(len(data)) + data


def series(first, step, count):
    """first, first + step, .. modulo 256"""
    return bytes((2, first, step)) + number(count)


def shown(pieces):
    """The bytes that pieces stand for."""
    out = b""
    while pieces:
        n = int.from_bytes(pieces[1:4] if pieces[0] == 1 else pieces[3:6], "big")
        if pieces[0] == 1:
            out, pieces = out + pieces[4 : 4 + n], pieces[4 + n :]
        else:
            out, pieces = out + bytes((pieces[1] + i * pieces[2]) % 256 for i in range(n)), pieces[6:]
    return out


def field(pieces):
    return pieces + b"\x00"
