"""Bytes that are replaced by others, each in turn."""
REPLACEMENTS = b"\x00\x0a\x22\x2c\x7f\xff"


def replaced(good):
    """A place of these bytes, which of the replacements stands there, and the bytes with it."""
    for at in range(len(good)):
        for kind, byte in enumerate(REPLACEMENTS):
            if good[at] != byte:
                yield at, kind, good[:at] + bytes([byte]) + good[at + 1:]


def damaged(pieces):
    """The bytes of these pieces with each one replaced, and what is answered then."""
    answers_at = [answers for piece, answers in pieces for _ in piece]
    for at, kind, given in replaced(b"".join(piece for piece, _ in pieces)):
        yield given, answers_at[at][(0, 1, 2, 3, 0, 4)[kind]]
