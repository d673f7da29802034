"""The output of `modemctl replay` (docs/FORMATS.md), read as a list of acts."""
from collections import namedtuple

from frames import FLAG, Frame, candidate

Took = namedtuple("Took", "number ask")
Got = namedtuple("Got", "frame")
Sent = namedtuple("Sent", "frame octets")
Told = namedtuple("Told", "number answer lines")
Heard = namedtuple("Heard", "kind dlci line")
Tick = namedtuple("Tick", "")
Lost = namedtuple("Lost", "")

LONGEST = 32767


class Wrong(Exception):
    """What is wrong with an output."""


def frame_of(words):
    dlci, kind, cr, pf, info = words.split(" ")
    return Frame(int(dlci), kind, int(cr), int(pf), bytes.fromhex("" if info == "-" else info))


def sent_of(digits):
    octets = bytes.fromhex(digits)
    frame, used = candidate(octets[1:], LONGEST)
    if not frame or octets[0] != FLAG or used != len(octets) - 1:
        raise Wrong(f"what was sent isn't one frame: {digits}")
    return Sent(frame, octets)


def told_of(words):
    number, answer = words.split(" ")
    return Told(int(number), answer, [])


def heard_of(words):
    kind, dlci, line = words.split(" ", 2)
    return Heard(kind, int(dlci), line)


READERS = {
    "took": lambda words: Took(int(words.split(" ")[0]), words.split(" ", 1)[1]),
    "got": lambda words: Got(frame_of(words)),
    "sent": sent_of,
    "told": told_of,
    "heard": heard_of,
    "tick": lambda words: Tick(),
    "lost": lambda words: Lost(),
}


def read_acts(output):
    acts = []
    for line in output.decode("ascii").split("\n")[:-1]:
        word, _, words = line.partition(" ")
        if word == "|":
            if not acts or not isinstance(acts[-1], Told) or acts[-1].answer != "done":
                raise Wrong(f"a line of no answer: {line}")
            acts[-1].lines.append(words)
        elif word in READERS:
            acts.append(READERS[word](words))
        else:
            raise Wrong(f"no act: {line}")
    if output and not output.endswith(b"\n"):
        raise Wrong("the last line has no end")
    return acts


def pieces_of(acts):
    """The acts in pieces, each begun by a request, a frame, a tick or a loss."""
    pieces = []
    for act in acts:
        if isinstance(act, (Took, Got, Tick, Lost)):
            pieces.append([])
        elif not pieces:
            raise Wrong(f"before anything came: {act}")
        pieces[-1].append(act)
    return pieces
