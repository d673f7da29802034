"""A script of `replay`, played by a session with one caller and a listener of each kind, and by an endpoint.

By a session it is played octet by octet, and the session turns after each as long as it moves, on lines whose calls give and take one octet,
seven, or as much as there is. It has to send the octets that the replay sends, and to tell the same outcomes; of each kind the same
lines are heard. Passed over are scripts in which the line is lost, since the line of a session fails of its own accord, and those
with more than 16 requests untold at once, since a caller may have no more.

By an endpoint it is played octet by octet, and after each all is taken that goes out, by one octet, by sevens and as it comes. It has
to give the octets that the replay sends, and to tell and to announce the same, in the same order.
"""
import subprocess

KINDS = "RING CRING CREG CGREG CGEV CIEV OTHER".split()
CUTS = ["1x8192", "7x8192", "16384"]
PIECES = [1, 7, 4096]
MOST = 16

# Turns as long as it moves; twice, since no more than eight outcomes wait for a caller.
SETTLE = 2 * ["run", "drain"]


class Replayed:
    """What a replay's output says."""

    def __init__(self, output):
        self.sent, self.told, self.lines, self.heard = "", [], [], {kind: [] for kind in KINDS}
        self.untold = self.most_untold = 0
        for line in output.splitlines():
            word, _, rest = line.partition(" ")
            if word == "sent":
                self.sent += rest
            elif word in ("told", "|"):
                self.told.append(line)
                self.untold -= word == "told"
            elif word == "heard":
                self.lines.append(line)
                self.heard[rest.split(" ")[0]].append(line)
            elif word == "took":
                self.untold += 1
                self.most_untold = max(self.most_untold, self.untold)

    def ending(self, most):
        """What is to be said behind the last event: the octets, and of each kind the lines and so many times that there is no more."""
        return [self.sent or "-", *(it for kind in KINDS for it in [*self.heard[kind], *["-"] * (most - len(self.heard[kind]))])]


def events(script):
    """The lines of a script, a line for each octet."""
    for line in script.decode().replace("\r\n", "\n").split("\n"):
        word, _, rest = line.partition(" ")
        if word == "in":
            yield from (f"in {rest[at : at + 2]}" for at in range(0, len(rest), 2))
        elif line:
            yield line


def most_heard(script):
    """More than the lines that end in a script."""
    octets = [line[3:] for line in script.decode().splitlines() if line.startswith("in ")]
    return 1 + sum(it.lower().count("0d") + it.lower().count("0a") for it in octets)


def by_session(script, cut):
    """The script for test_player's session."""
    lines = [*(f"listen {kind}" for kind in KINDS), f"reads {cut}", f"writes {cut}", "room 16384", "session"]
    for event in events(script):
        lines += [event, *SETTLE]
    lines += ["sent", *(f"listen {kind}" for kind in KINDS for _ in range(most_heard(script)))]
    return "".join(f"{line}\n" for line in lines).encode()


def session_fault(script, output, replayed):
    """What the session does otherwise, or None."""
    lines, ending = output.splitlines(), replayed.ending(most_heard(script))
    told = [it for it in lines[: -len(ending)] if it not in ("Idle", "Waiting(0)")]
    if told != replayed.told:
        return f"told {told}"
    if lines[-len(ending) :] != ending:
        return f"at the end {lines[-len(ending) :]}"
    return None


def by_endpoint(script, piece):
    """The script for test_player's endpoint."""
    lines = [*(f"listen {kind}" for kind in KINDS), "endpoint"]
    for event in events(script):
        lines += [event, f"out {piece}", "outcomes"]
    return "".join(f"{line}\n" for line in [*lines, "sent", "lines"]).encode()


def endpoint_fault(script, output, replayed):
    """What the endpoint does otherwise, or None."""
    wanted = [*replayed.told, replayed.sent or "-", *replayed.lines]
    came = [it for it in output.splitlines() if it != "the line was lost before"]
    return None if came == wanted else f"came {came}"


class Play:
    """A script as an endpoint or a session plays it: how, test_player's input, and the function that says what it did otherwise."""

    def __init__(self, script, how, lines, fault_of, is_session=False):
        self.script, self.how, self.input, self.fault_of, self.is_session = script, how, lines, fault_of, is_session

    def is_passed_over(self, replayed):
        return self.is_session and replayed.most_untold > MOST

    def fault(self, output, replayed):
        """What came otherwise than it was replayed, or None."""
        said = self.fault_of(self.script, output, replayed)
        return said and f"{self.how}: {said}"


def plays(script):
    """All ways to play a script."""
    for piece in PIECES:
        yield Play(script, f"by an endpoint, in pieces of {piece}", by_endpoint(script, piece), endpoint_fault)
    if b"lost\n" not in script:
        for cut in CUTS:
            yield Play(script, f"by a session, with cuts {cut}", by_session(script, cut), session_fault, is_session=True)


def output_of(words, script):
    ran = subprocess.run(words, input=script, capture_output=True, timeout=60)
    return text_of(ran.stdout, ran.stderr, ran.returncode)


def text_of(output, said, status):
    """The output of a run that ended well, or what else became of it."""
    return output.decode(errors="replace") if status == 0 else f"status {status}: {said.decode(errors='replace')}"


def faults(replay, player, scripts):
    """How many scripts were played by sessions, and what came otherwise."""
    count, others = 0, []
    for place, script in scripts:
        replayed = Replayed(output_of([replay, "replay"], script))
        here = [it for it in plays(script) if not it.is_passed_over(replayed)]
        said = [it.fault(output_of([player], it.input), replayed) for it in here]
        others += [f"{place}: {it}" for it in said if it]
        count += any(it.is_session for it in here)
    return count, others
