"""What has to hold of the acts that a script comes to. Each sentence is checked on the list of acts by itself."""
from bisect import bisect_right

from acts import Got, Heard, Lost, Sent, Tick, Told, Took, Wrong, pieces_of, read_acts
from frames import message, read, spelled
from lines import printed, split
from tables import FC_OFF, FC_ON, CLD, MSC, Tables

DLCIS = range(62)


def want(holds, *said):
    if not holds:
        raise Wrong(" ".join(str(it) for it in said))


def events_of(script, n1):
    """The first act of each piece that the lines of a script come to; of a request its number and words."""
    octets = b"".join(bytes.fromhex(line[3:]) for line in script if line.startswith("in "))
    frames = read(octets, n1)
    came = number = 0
    for line in script:
        if line.startswith("in "):
            came += len(line[3:]) // 2
            while frames and frames[0][1] <= came:
                yield Got(frames.pop(0)[0])
        elif line in ("tick", "lost"):
            yield Tick() if line == "tick" else Lost()
        else:
            number += 1
            word, _, digits = line.partition(" ")
            yield Took(number, f"probe {digits.lower()}" if word == "probe" else line)


def is_data(act):
    return isinstance(act, Sent) and act.frame.kind == "UIH" and act.frame.dlci != 0


def rank(act):
    """A piece is its first act, control frames, lines and outcomes, and data: in that order."""
    if isinstance(act, Sent):
        return 3 if is_data(act) else 1
    return 2 if isinstance(act, (Heard, Told)) else 0


def check_pieces(pieces, script, n1):
    """Each event brought its piece, and nothing else began one; the frames got are those of Reads."""
    firsts = [piece[0] for piece in pieces]
    events = list(events_of(script, n1))
    for i, (first, event) in enumerate(zip(firsts, events)):
        want(first == event, f"piece {i} begins with {first}, where there came {event}")
    want(len(firsts) == len(events), f"{len(events)} events come to {len(firsts)} pieces")
    for piece in pieces:
        want([rank(it) for it in piece] == sorted(rank(it) for it in piece), "acts out of order:", piece)


def check_outcomes(acts):
    """Each request has at most one outcome, and was taken before."""
    taken, told = set(), set()
    for act in acts:
        if isinstance(act, Took):
            taken.add(act.number)
        elif isinstance(act, Told):
            want(act.number in taken, "told and not taken before:", act)
            want(act.number not in told, "told twice:", act)
            told.add(act.number)


def check_spelled(acts):
    """Each frame sent is spelled as the initiator writes it."""
    for act in acts:
        if isinstance(act, Sent):
            kind = act.frame.kind
            first = (int(kind in ("SABM", "DISC", "UIH")), int(kind != "UIH"))
            want(spelled(act.frame) == act.octets, "not in the shortest spelling:", act)
            want((act.frame.cr, act.frame.pf) == first, "not an initiator's bits:", act)


class Openings:
    """Which connections are open after the acts so far, and which are stopped, by Opening and Stopped of
    docs/DEFINITIONS.md alone."""

    def __init__(self):
        self.asked = [False] * 62
        self.open = [False] * 62
        self.own = [False] * 62
        self.all = False
        self.count = [0] * 62

    def ended(self, act):
        """The connections that the act ends."""
        if isinstance(act, Lost):
            return DLCIS
        if not isinstance(act, (Got, Sent)):
            return ()
        frame, came = act.frame, isinstance(act, Got)
        said = self.said(act)
        if frame.kind == "DISC" or came and frame.kind in ("DM", "SABM"):
            return (frame.dlci,) if frame.dlci else DLCIS
        return DLCIS if said and said[0] == CLD else ()

    def said(self, act):
        """The control message that the act carries; one that came counts while 0 is open."""
        if not isinstance(act, (Got, Sent)) or act.frame.kind != "UIH" or act.frame.dlci != 0:
            return None
        return None if isinstance(act, Got) and not self.open[0] else message(act.frame.info)

    def go_on(self, act):
        said, ended = self.said(act), self.ended(act)
        if isinstance(act, (Got, Sent)) and act.frame.kind != "UIH":
            dlci = act.frame.dlci
            if isinstance(act, Got) and act.frame.kind == "UA" and self.asked[dlci]:
                self.open[dlci] = True
                self.own[dlci] = False
                self.all = self.all and dlci != 0
            self.asked[dlci] = isinstance(act, Sent) and act.frame.kind == "SABM"
        for dlci in ended:
            self.open[dlci] = self.asked[dlci] = False
        if isinstance(act, Got) and said:
            octet, value = said
            if octet in (FC_OFF, FC_ON):
                self.all = octet == FC_OFF
            elif octet == MSC and len(value) >= 2 and 1 <= value[0] >> 2 <= 61:
                self.own[value[0] >> 2] = bool(value[1] & 2)

    def stopped(self, dlci):
        return dlci != 0 and (self.open[dlci] and self.own[dlci] or self.open[0] and self.all)


class Opening:
    """What went over a connection from one opening on: the accepted commands, how many octets of them have left, how many
    are answered, and in their places the commands that left wholly and the lines that came."""

    def __init__(self, dlci, dialect):
        self.dlci, self.dialect = dlci, dialect
        self.accepted = []
        self.text = b""
        self.ends = [0]
        self.out = 0
        self.done = 0
        self.rest = b""
        self.placed = []

    def accepts(self, number, text):
        self.accepted.append((number, text))
        self.text += text + b"\r"
        self.ends.append(len(self.text))

    def whole(self):
        """How many commands have left wholly."""
        return bisect_right(self.ends, self.out) - 1

    def waiting(self):
        """How many octets of the command under way haven't left."""
        return self.ends[min(self.done + 1, len(self.accepted))] - self.out

    def sends(self, place, info):
        was = self.whole()
        want(self.text[self.out :].startswith(info), f"on {self.dlci} left what isn't the next of its commands:", info)
        want(len(info) <= self.waiting(), f"on {self.dlci} a command left before its turn:", info)
        self.out += len(info)
        if self.whole() > was:
            self.placed.append((place, self.accepted[was], None))

    def gets(self, place, info):
        lines, self.rest = split(self.rest + info)
        self.placed += [(place, None, line) for line in lines]

    def called_for(self):
        """The lines that have to be heard and the answers that have to be told, each with the piece in which."""
        command, answer = None, []
        for place, begun, line in self.placed:
            if begun:
                command, answer, is_first = begun, [], True
                continue
            kind = self.dialect.kind(line)
            if kind or not command:
                yield place, Heard(kind or "OTHER", self.dlci, printed(line))
                continue
            if not is_first or line != command[1]:
                answer.append(printed(line))
            is_first = False
            if self.dialect.is_final(line):
                yield place, Told(command[0], "done", answer)
                command = None

    def is_quiet(self):
        """One command is wholly sent and waits for its answer, or there is nothing without one."""
        return self.waiting() == 0


class Data:
    """What leaves and comes on all connections, over all their openings."""

    def __init__(self, n1, dialect):
        self.n1, self.dialect = n1, dialect
        self.now = Openings()
        self.live = {}
        self.past = []
        self.last = 0
        self.lost = False

    def next_sender(self):
        """The least connection above the last that sent data, else the least, of those that have data and may send."""
        able = [it for it, one in self.live.items() if one.waiting() and not self.now.stopped(it)]
        return min((it for it in able if it > self.last), default=min(able, default=None))

    def piece(self, place, piece):
        busy = [it.number for it in piece if isinstance(it, Told) and it.answer == "busy"]
        for act in piece:
            want(not (self.lost and isinstance(act, Sent)), "sent after a loss:", act)
            if is_data(act):
                self.sends(place, act.frame)
            elif isinstance(act, Took) and act.number not in busy:
                self.takes(act)
            elif isinstance(act, Got) and act.frame.kind == "UIH" and act.frame.dlci in self.live:
                self.live[act.frame.dlci].gets(place, act.frame.info)
            elif isinstance(act, Told) and act.answer == "done":
                self.ends(act)
            self.lost = self.lost or isinstance(act, Lost)
            self.goes_on(act)
        for dlci, one in self.live.items():
            want(one.is_quiet() or self.now.stopped(dlci), f"connection {dlci} isn't quiet after piece {place}")

    def sends(self, place, frame):
        dlci, count = frame.dlci, len(frame.info)
        want(dlci in self.live, f"data on {dlci}, which isn't open:", frame)
        want(not self.now.stopped(dlci), f"data on {dlci}, which is stopped:", frame)
        want(dlci == self.next_sender(), f"data on {dlci}, where it is the turn of {self.next_sender()}")
        want(count == min(self.n1, self.live[dlci].waiting()), "data of another length:", frame)
        self.live[dlci].sends(place, frame.info)
        self.last = dlci

    def takes(self, act):
        word, *rest = act.ask.split(" ", 2)
        if word == "cmd" and int(rest[0]) in self.live:
            self.live[int(rest[0])].accepts(act.number, rest[1].encode())

    def ends(self, act):
        """A command has its answer: it is the first of an open connection that has none."""
        for one in self.live.values():
            if one.accepted[one.done :] and one.accepted[one.done][0] == act.number:
                one.done += 1
                return
        raise Wrong(f"an answer of no command that waits for one: {act}")

    def goes_on(self, act):
        was = list(self.now.open)
        opens = isinstance(act, Got) and act.frame.kind == "UA" and self.now.asked[act.frame.dlci]
        self.now.go_on(act)
        for dlci in DLCIS[1:]:
            if was[dlci] and not self.now.open[dlci]:
                self.past.append(self.live.pop(dlci))
        if opens and act.frame.dlci:
            self.live[act.frame.dlci] = Opening(act.frame.dlci, self.dialect)


def check_data(pieces, n1, dialect):
    """What leaves, what is answered and what is heard, on each connection over all its openings."""
    data = Data(n1, dialect)
    for place, piece in enumerate(pieces):
        data.piece(place, piece)
    called = {}
    for one in [*data.past, *data.live.values()]:
        called.setdefault(one.dlci, []).extend(one.called_for())
    owner = {it.number: int(it.ask.split(" ")[1]) for it, *_ in pieces if isinstance(it, Took) and it.ask[:3] == "cmd"}
    stands = {}
    for place, piece in enumerate(pieces):
        for act in piece:
            if isinstance(act, Heard):
                stands.setdefault(act.dlci, []).append((place, act))
            elif isinstance(act, Told) and act.answer == "done":
                stands.setdefault(owner[act.number], []).append((place, act))
    for dlci in DLCIS:
        for it, called_for in zip(stands.get(dlci, []), called.get(dlci, [])):
            want(it == called_for, f"on {dlci} there stands {it}, and {called_for} is called for")
        count, number = len(stands.get(dlci, [])), len(called.get(dlci, []))
        want(count == number, f"on {dlci} {count} lines and answers stand, {number} are called for")


def check_tables(pieces):
    """The control frames and the other outcomes are those of the initiator's table; it has open what Opening says."""
    tables, now = Tables(), Openings()
    for piece in pieces:
        first = piece[0]
        if isinstance(first, Took):
            tables.took(first.number, first.ask.split(" ", 2))
        elif isinstance(first, Got):
            tables.got(first.frame)
        elif isinstance(first, Tick):
            tables.tick()
        else:
            tables.lose()
        sent, told = tables.piece()
        stands = [it.frame for it in piece if isinstance(it, Sent) and not is_data(it)]
        want(stands == sent, f"after {first} were sent {stands}, and {sent} are called for")
        stands = [(it.number, it.answer) for it in piece if isinstance(it, Told) and it.answer != "done"]
        want(stands == told, f"after {first} were told {stands}, and {told} are called for")
        for act in piece:
            now.go_on(act)
            if isinstance(act, Told):
                tables.hand.pop(act.number, None)
        for dlci in DLCIS:
            want(now.open[dlci] == (tables.state[dlci] == "opened"), f"connection {dlci} after {first}")


def check(script, n1, dialect, output):
    """Raises Wrong where the output is not what these lines may come to at a modem of this dialect."""
    acts = read_acts(output)
    pieces = pieces_of(acts)
    check_pieces(pieces, script, n1)
    check_outcomes(acts)
    check_spelled(acts)
    check_data(pieces, n1, dialect)
    check_tables(pieces)
    return acts
