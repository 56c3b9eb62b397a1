"""The line `frame` of a text (request E5), for make_published.py and the samples.

A record has the first frame and the moves.  A move that is taken puts q, or the vertex with
the other sign, in the vertex's place; one that is refused leaves the frame.  Which moves were
refused is not found out here: their lines stand in the text.  No polynomial is looked at, no
net and no limit.
"""
import struct

FLIP = 2


def after(kind, frame, move):
    """The frame after a move that is taken.  The weights are those of all vertices, or of the
    vertex's own pair."""
    op, vertex, *weights = move
    place = vertex - 1
    if op == FLIP:
        new = tuple(-n for n in frame[place])
    else:
        first = place // 2 * 2 if kind == 3 else 0
        own = frame[first:first + len(frame[place])]
        new = tuple(sum(w * v[n] for w, v in zip(weights, own)) for n in range(len(frame[place])))
    return frame[:place] + (new,) + frame[place + 1:]


def line(kind, frame, moves):
    """The line after moves that are all taken."""
    for move in moves:
        frame = after(kind, frame, move)
    return " ".join(["frame"] + [str(n) for vertex in frame for n in vertex]) + "\n"


def values(record):
    """Tag -> value of an accepted record's fields."""
    out = {}
    while record:
        end = 3 + int.from_bytes(record[1:3], "big")
        out[record[0]] = record[3:end]
        record = record[end:]
    return out


def with_frame(record, text):
    """The text with the line put in before the entries: after the first line and those of the
    refused moves.  The text of a refused record stays."""
    if text.startswith("refused"):
        return text
    lines = text.splitlines(keepends=True)
    refused = [int(l.split()[1]) for l in lines if l.startswith("move")]
    fields = values(record)
    kind = fields[1][0]
    size = 3 if kind == 2 else 2                 # numbers of a vertex
    numbers = struct.unpack(">%dh" % (len(fields[2]) // 2), fields[2])
    frame = tuple(numbers[i:i + size] for i in range(0, len(numbers), size))
    moves = struct.iter_unpack(">BBhhh", fields.get(4, b""))
    taken = [move for k, move in enumerate(moves, 1) if k not in refused]
    head = 1 + len(refused)
    return "".join(lines[:head]) + line(kind, frame, taken) + "".join(lines[head:])
