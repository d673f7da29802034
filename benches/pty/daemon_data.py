"""Cases of cimbalotyd: connections that carry data, beside commands on others."""
import hashlib
import os
import random
import select
import subprocess
import threading
import time
import tty

import daemons
import modem
from daemons import Daemon, Terminal, check, is_own
from modem import DISC, DM, PF, UA, UIH, frame

N1 = 512
WORDS = ("--n1", str(N1), "--connections", "3")
FLOW_OFF, GO, NO_CARRIER = 0x8F, 0x8D, 0x0D


class DataModem(daemons.Modem):
    """A modem that carries data on connection 2: from its opening on, or behind ATD*99#. It sends what it is given to send, keeps what came
    in each opening, and neither waits for the line nor sends where it is asked to stop."""

    def __init__(self, fd, raw=True):
        super().__init__(fd)
        os.set_blocking(fd, False)
        self.raw, self.carries, self.came, self.shuts = raw, False, [], 0
        self.out, self.sends, self.at, self.holds = bytearray(), b"", 0, 0

    def write(self, octets):
        with self.writing:
            self.out += octets

    def give(self, octets):
        self.sends = self.sends[self.at:] + octets
        self.at = 0

    def take_message(self, info):
        self.holds += len(info) >= 4 and info[0] == 0xE3 and info[2] >> 2 == 2 and bool(info[3] & 2)
        super().take_message(info)

    def take_frames(self, octets):
        before = 2 in self.lines
        super().take_frames(octets)
        if 2 in self.lines and not before:
            self.stopped.discard(2)     # an opening begins without a stop
            self.begin(self.raw)
        elif before and 2 not in self.lines:
            self.carries = False

    def begin(self, carries):
        self.carries = carries
        if carries:
            self.came.append(bytearray())

    def take_info(self, dlci, info):
        if dlci == 2 and self.carries:
            self.came[-1] += info
        elif dlci == 2 and b"ATD*99#\r" in self.lines[dlci] + info:
            self.lines[2].clear()
            self.begin(True)
            self.write(frame(2, UIH, b"\r\nCONNECT 150000000\r\n" + self.next(7), cr=0))
        else:
            super().take_info(dlci, info)

    def next(self, count):
        octets = self.sends[self.at:self.at + count]
        self.at += len(octets)
        return octets

    def close(self):
        """It closes connection 2 by itself (27.010, 5.3.4), behind all that it was given to send."""
        while self.at < len(self.sends):
            time.sleep(0.01)
        self.carries = False
        self.lines.pop(2)
        self.write(frame(2, DISC | PF, cr=0))
        self.shuts += 1

    def flow(self, signals):
        """An MSC on connection 2 (27.010, 5.4.6.3.7)."""
        self.write(frame(0, UIH, bytes([0xE3, 5, 2 << 2 | 3, signals]), cr=0))

    def run(self):
        while not self.gone or self.out:
            while self.carries and 2 not in self.stopped and self.at < len(self.sends) and len(self.out) < 8192:
                self.write(frame(2, UIH, self.next(N1), cr=0))
            ready, able, _ = select.select([self.fd], [self.fd] if self.out else [], [], 0.01)
            try:
                if able:
                    with self.writing:
                        del self.out[:os.write(self.fd, self.out)]
                if ready:
                    octets = os.read(self.fd, 4096)
                    if not octets:
                        return
                    self.take(octets)
            except BlockingIOError:
                pass
            except OSError:
                return
        os.close(self.fd)


class DataLine:
    """A modem of that kind in a thread."""

    def __init__(self, raw=True):
        self.ours, self.theirs, self.path = modem.open_terminal()
        self.modem = DataModem(self.ours, raw)
        self.thread = threading.Thread(target=self.modem.run, daemon=True)
        self.thread.start()

    def end(self):
        self.modem.gone = True
        self.thread.join(timeout=5)
        os.close(self.theirs)


def digest(octets):
    return hashlib.sha256(octets).hexdigest()[:12]


def read(terminal, count, seconds=60):
    """So many octets, or fewer where no more come in time or it is hung up."""
    got, end = bytearray(), time.monotonic() + seconds * terminal.slow
    while len(got) < count and select.select([terminal.line], [], [], max(0, end - time.monotonic()))[0]:
        try:
            octets = os.read(terminal.line, min(65536, count - len(got)))
        except OSError:
            break
        if not octets:
            break
        got += octets
    return bytes(got)


def until(what, seconds=10):
    end = time.monotonic() + seconds
    while not what() and time.monotonic() < end:
        time.sleep(0.005)
    return what()


def ask_on(terminal, told, stop):
    while not stop.is_set():
        begun = time.monotonic()
        command = f"AT+N{len(told)}"
        told.append((is_own(terminal.ask(command), command), time.monotonic() - begun))


def carried(build, daemon, line, count, pause=0):
    """So many octets each way on data2, with commands on at1 beside them; the reader pauses in the middle."""
    chance = random.Random(count)
    down, up, told, stop = chance.randbytes(count), chance.randbytes(count), [], threading.Event()
    with daemon.terminal("data2") as data, daemon.terminal("at1") as terminal:
        until(lambda: line.modem.carries, 10 * build.slow)
        time.sleep(0.1 * build.slow)
        begun = time.monotonic()
        line.modem.give(down)
        workers = [threading.Thread(target=data.write, args=(up,)), threading.Thread(target=ask_on, args=(terminal, told, stop))]
        for it in workers:
            it.start()
        got = read(data, count // 2 if pause else count)
        time.sleep(pause)
        held = line.modem.holds
        got += read(data, count - len(got))
        workers[0].join()
        whole = until(lambda: len(line.modem.came[0]) >= count, 60 * build.slow)
        took = time.monotonic() - begun
        stop.set()
        workers[1].join()
    came = bytes(line.modem.came[0])
    right, slowest = sum(it for it, _ in told), max(it for _, it in told)
    seen = (f"{took:.2f} s; {len(got)} octets came, {digest(got)}, {len(came)} went, {digest(came)}; {right} of {len(told)} commands have their own "
            f"answers, the slowest in {slowest * 1000:.0f} ms; the modem was asked {held} times to wait")
    return got == down and whole and came == up and right == len(told), held, seen


def both_ways(build):
    line = DataLine()
    with Daemon(build, line.path, *WORDS, "--data", "2") as daemon:
        holds, _, seen = carried(build, daemon, line, 10_000_000 // build.slow ** 2)
        check(f"{build.name}: data both ways", holds, seen)
    line.end()


def slow_reader(build):
    """A reader that pauses has the modem asked to wait, and nothing is lost."""
    line = DataLine()
    with Daemon(build, line.path, *WORDS, "--data", "2") as daemon:
        holds, held, seen = carried(build, daemon, line, 1_000_000 // build.slow, pause=1)
        check(f"{build.name}: a reader that pauses", holds and held > 0, seen)
    line.end()


def held_by_modem(build):
    """Where the modem asks to wait nothing goes, and a writer waits."""
    line = DataLine()
    with Daemon(build, line.path, *WORDS, "--data", "2") as daemon, daemon.terminal("data2") as data:
        until(lambda: line.modem.carries)
        line.modem.flow(FLOW_OFF)
        time.sleep(0.2 * build.slow)
        data.write(b"x" * 2000)
        time.sleep(0.3 * build.slow)
        before = len(line.modem.came[0])
        line.modem.flow(GO)
        whole = until(lambda: len(line.modem.came[0]) == 2000, 5 * build.slow)
        check(f"{build.name}: a modem that asks to wait", before == 0 and whole, f"{before} octets went, then {len(line.modem.came[0])}")
    line.end()


def dialled(build):
    """Behind CONNECT data2 carries data, and at2 refuses commands until the program has left; then the modem has hung up."""
    line = DataLine(raw=False)
    with Daemon(build, line.path, *WORDS, "--dial", "2", "--dialect", "dialling") as daemon:
        line.modem.give(b"seven7!and more")
        with daemon.terminal("at2") as terminal:
            first = terminal.ask("AT+FIRST")
            terminal.write(b"ATD*99#\r")
            connect = terminal.next()
            refused = terminal.ask("AT+NOT")
            with daemon.terminal("data2") as data:
                got = read(data, 15, 5)
                data.write(b"to the modem")
                sent = until(lambda: bytes(line.modem.came[0]) == b"to the modem", 5 * build.slow)
            opened = until(lambda: line.modem.shut == [2] and line.modem.opened.count(2) == 2, 5 * build.slow)
            again = terminal.ask("AT+AGAIN")
        check(f"{build.name}: data behind a command", is_own(first, "AT+FIRST") and connect == "CONNECT 150000000" and refused == ["ERROR"]
              and got == b"seven7!and more" and sent and opened and is_own(again, "AT+AGAIN"),
              f"{first}, {connect}, {refused}, {got}, sent {sent}, shut {line.modem.shut}, {again}")
    line.end()


def written_and_left(build):
    """What a program wrote before it left goes to the modem; then the connection is closed, and the next program has an opening of its own."""
    line = DataLine()
    octets = random.Random(1).randbytes(300_000 // build.slow)
    with Daemon(build, line.path, *WORDS, "--data", "2") as daemon:
        until(lambda: line.modem.carries)
        with daemon.terminal("data2") as data:
            line.modem.give(b"unread" * 100)
            data.write(octets)
        time.sleep(0.1 * build.slow)
        with daemon.terminal("data2") as data:
            data.write(b"the next one's")
            whole = until(lambda: len(line.modem.came) == 2 and len(line.modem.came[1]) == 14, 20 * build.slow)
            line.modem.give(b"for the next one")
            got = read(data, 16, 2)
        came = [bytes(it) for it in line.modem.came]
        check(f"{build.name}: written and left", whole and came[0] == octets and came[1] == b"the next one's" and got == b"for the next one"
              and line.modem.shut[:1] == [2], f"{[len(it) for it in came]} octets came in each opening, {got[:40]}")
    line.end()


def closed_by_modem(build):
    """The modem closes the connection: the program reads all that came, and is hung up. Its successor has the next opening."""
    line = DataLine()
    octets = random.Random(2).randbytes(50_000)
    with Daemon(build, line.path, *WORDS, "--data", "2") as daemon:
        with daemon.terminal("data2") as data:
            until(lambda: line.modem.carries)
            line.modem.give(octets)
            first = read(data, 100, 5)
            threading.Thread(target=line.modem.close, daemon=True).start()
            time.sleep(0.5)
            got = first + read(data, 100_000, 5)
            ended = data.is_hung_up(5)
        told = daemon.await_text("connection 2 was closed")
        until(lambda: len(line.modem.came) == 2, 5 * build.slow)
        with daemon.terminal("data2") as data:
            time.sleep(0.2 * build.slow)
            line.modem.give(b"anew")
            again = read(data, 4, 5)
        check(f"{build.name}: a modem that closes a connection", got == octets and ended and told and again == b"anew",
              f"{len(got)} of {len(octets)} octets, hung up: {ended}, then {again}")
    line.end()


def line_lost(build):
    """The line hangs up: the program reads all that came, and is hung up."""
    line = DataLine()
    octets = random.Random(3).randbytes(50_000)
    with Daemon(build, line.path, *WORDS, "--data", "2") as daemon:
        with daemon.terminal("data2") as data:
            until(lambda: line.modem.carries)
            line.modem.give(octets)
            first = read(data, 100, 5)
            until(lambda: line.modem.at == len(octets) and not line.modem.out, 5)
            line.end()
            told = daemon.await_text("the line hung up")
            got = first + read(data, 100_000, 5)
            ended = data.is_hung_up(5)
        check(f"{build.name}: a line that hangs up under data", len(got) > 100 and octets.startswith(got) and ended and told,
              f"{len(got)} of {len(octets)} octets, hung up: {ended}")


def carrier_lost(build):
    """The modem loses its carrier: the program reads all that came, and is hung up, the line NO CARRIER is unsolicited, and the next
    program has a call of its own on the same opening. Without `--carrier` nothing of that happens."""
    octets = random.Random(4).randbytes(50_000)
    for words in ((), ("--carrier", "2")):
        line = DataLine(raw=False)
        with Daemon(build, line.path, *WORDS, "--dial", "2", *words, "--dialect", "dialling") as daemon, daemon.terminal("at2") as terminal, \
                daemon.terminal("events") as events:
            line.modem.give(octets)
            terminal.write(b"ATD*99#\r")
            connect = terminal.next()
            line.modem.flow(GO)
            with daemon.terminal("data2") as data:
                got = read(data, len(octets), 10)
                line.modem.carries = False
                line.modem.flow(NO_CARRIER)
                line.modem.write(frame(2, UIH, b"\r\nNO CARRIER\r\n", cr=0))
                ended = data.is_hung_up(1)
            told = "lost its carrier" in daemon.said()
            heard, again = events.next(1), terminal.ask("AT+AGAIN") if words else None
        holds = connect == "CONNECT 150000000" and got == octets and ended == told == bool(words)
        if words:
            holds = holds and heard == "NO CARRIER" and is_own(again, "AT+AGAIN") and line.modem.opened.count(2) == 1
        else:
            holds = holds and heard is None
        check(f"{build.name}: a carrier that is lost{', with --carrier' if words else ''}", holds,
              f"{connect}, {len(got)} of {len(octets)} octets, hung up: {ended}, said: {told}, events: {heard}, then {again}")
        line.end()


class TextModem(daemons.Modem):
    """A modem that takes the text of AT+CMGS on connection 1 behind a prompt, which it cuts in two; but none for number 0."""

    def __init__(self, fd):
        super().__init__(fd)
        self.is_prompted, self.texts = False, []

    def take_info(self, dlci, info):
        if dlci == 1 and self.is_prompted:
            self.texts[-1] += info
            self.is_prompted = b"\x1A" not in info
            if not self.is_prompted:
                self.say(1, b"\r\n+CMGS: %d\r\n\r\nOK\r\n" % len(self.texts))
        else:
            super().take_info(dlci, info)

    def answer(self, dlci, line):
        if b"+CMGS=" not in line or line.endswith(b"?"):
            return super().answer(dlci, line)
        self.asked.append((dlci, line))
        if line == b"AT+CMGS=0":
            self.say(dlci, b"\r\n+CMS ERROR: 304\r\n")
        else:
            self.is_prompted = True
            self.texts.append(b"")
            self.say(dlci, b"\r\n>")
            self.say(dlci, b" ")
        return None


class TextLine(DataLine):
    """A modem of that kind in a thread."""

    def __init__(self):
        self.ours, self.theirs, self.path = modem.open_terminal()
        self.modem = TextModem(self.ours)
        self.thread = threading.Thread(target=self.modem.run, daemon=True)
        self.thread.start()


def prompts(terminal, count=1):
    """Whether so many prompts come, and nothing else."""
    return read(terminal, 4 * count, 5) == b"\r\n> " * count


def sent(terminal, command, text):
    """The answer to a command and its text, once a prompt came; else none."""
    terminal.write(command + b"\r")
    if not prompts(terminal):
        return None
    terminal.write(text)
    return terminal.rest()


def texts(build):
    """An SMS goes behind the modem's prompt, once, and each of two lines of a text behind a prompt of the daemon's. One that is given up, that
    is too long, whose program leaves, or that the modem doesn't ask for isn't sent. Beside it another program has its answers."""
    line = TextLine()
    there, long = line.modem, b"x" * 4096
    with Daemon(build, line.path, "--connections", "2", "--sms", "1") as daemon, daemon.terminal("at1") as one, daemon.terminal("at2") as two:
        first = sent(one, b'AT+CMGS="+49"', b"a text" * 30 + b"\x1A")
        one.write(b"AT+CMGF=1;+CMGS=7\r\n")
        asked = prompts(one)
        beside = two.ask("AT+BESIDE")
        one.write(b"two\rlines\x1A")
        second = prompts(one) and one.rest()
        given_up, late = sent(one, b"at+cmgs=8", b"never\x1B"), sent(one, b"AT+CMGS=9", long + b"\x1A")
        refused, tested = sent(one, b"AT+CMGS=0", b"none\x1A"), one.ask("AT+CMGS=?")
        one.write(b"AT+CMGS=10\rhalf a text")
        asked = prompts(one) and asked
        one.close()
        with daemon.terminal("at1") as next_one:
            after = next_one.ask("AT+AFTER")
    commands = [it for _, it in there.asked if b"CMGS" in it]
    holds = (first == ["+CMGS: 1", "OK"] and asked and is_own(beside, "AT+BESIDE") and second == ["+CMGS: 2", "OK"] and given_up == ["OK"] and late == ["ERROR"]
             and refused == ["+CMS ERROR: 304"] and is_own(tested, "AT+CMGS=?") and is_own(after, "AT+AFTER")
             and there.texts == [b"a text" * 30 + b"\x1A", b"two\rlines\x1A"]
             and commands == [b'AT+CMGS="+49"', b"AT+CMGF=1;+CMGS=7", b"AT+CMGS=0", b"AT+CMGS=?"])
    check(f"{build.name}: texts of SMS", holds, f"{first}, {second}, {given_up}, {late}, {refused}, {tested}, {beside}, {after}; {there.texts}, {commands}")
    line.end()


CASES = [both_ways, slow_reader, held_by_modem, dialled, written_and_left, closed_by_modem, line_lost, carrier_lost, texts]
