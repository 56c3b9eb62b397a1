"""The fields of a record, for the samples' scripts.  Nothing is tested."""
import struct

REPL, FLP = 1, 2


def field(tag, value, length=None):
    return struct.pack(">BH", tag, len(value) if length is None else length) + value


def f1(kind, *degrees):
    return field(1, bytes((kind,) + degrees))


def f2(*n):
    return field(2, b"".join(struct.pack(">h", c) for c in n))


def f3(*rows):
    return field(3, b"".join(struct.pack(">i", c) for r in rows for c in r))


def f4(*moves):
    return field(4, b"".join(struct.pack(">BBhhh", *m) for m in moves))


def f5(*w):
    return field(5, b"".join(struct.pack(">h", c) for c in w))
