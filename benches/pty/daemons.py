"""What the checks of cimbalotyd share: the daemon as it was built, a modem in Python that does what a case wants, and terminals."""
import os
import pathlib
import select
import subprocess
import sys
import tempfile
import threading
import time
import tty

import modem
from modem import UIH, frame
from peers import TOP, check, failures  # noqa: F401

SANITIZERS = "-g -O1 -fsanitize=address,undefined -fno-sanitize-recover=all"
VALGRIND = ["valgrind", "-q", "--leak-check=full", "--errors-for-leak-kinds=definite,possible", "--error-exitcode=9"]
BUILDS = {
    "plain": ("", "-O2", "", []),
    "sanitizers": ("", SANITIZERS, "", []),
    "valgrind": ("", "-g -O1", "", VALGRIND),
    "aarch64": ("aarch64-linux-gnu", "-O2", "", ["qemu-aarch64", "-L", "/usr/aarch64-linux-gnu"]),
}


class Build:
    """The daemon, built in a folder that goes at the end, and the words that start it."""

    def __init__(self, name):
        self.name = name
        self.folder = tempfile.TemporaryDirectory()
        self.target, flags, last, before = BUILDS[name]
        self.slow = 8 if name in ("valgrind", "aarch64") else 1
        words = [f"TARGET={self.target}", f"OUT={self.folder.name}", f"CFLAGS={flags}", f"LDFLAGS={last}"]
        subprocess.run(["make", "-s", "-C", TOP / "daemon", *words], check=True)
        self.words = [*before, f"{self.folder.name}/cimbalotyd"]


class Built:
    """A daemon that was built before, on a machine so many times slower."""

    def __init__(self, program, slow=1):
        self.name, self.slow, self.words = "plain", slow, [program]


class Modem(modem.Modem):
    """Stops where an MSC says so, resets without a hang-up, and answers some commands late, long or never."""

    def __init__(self, fd, probes=True, piece=31, **how):
        super().__init__(fd, **how)
        self.probes, self.piece, self.late = probes, piece, 0.7
        self.stopped, self.asked, self.opened, self.shut, self.stops, self.tested = set(), [], [], [], 0, 0
        self.writing = threading.Lock()
        self.inits = []

    def write(self, octets):
        with self.writing:
            super().write(octets)

    def say(self, dlci, text):
        for start in range(0, len(text), self.piece):
            self.write(frame(dlci, UIH, text[start:start + self.piece], cr=0))

    def answer(self, dlci, line):
        self.asked.append((dlci, line))
        if line == b"AT+LATE":
            answer = super().answer(dlci, line)
            threading.Timer(self.late, self.say, (dlci, answer)).start()
            return None
        if line == b"AT+PROMPT":
            self.say(dlci, b"\r\n> ")
            return None
        if line.startswith(b"AT+BIG="):
            text = b"".join(b"\r\n+BIG: %d,0123456789012345678901234567890123456789\r\n" % n for n in range(int(line[7:])))
            self.say(dlci, text + b"\r\nOK\r\n")
            return None
        answer = super().answer(dlci, line)
        if answer is not None:
            self.say(dlci, answer)
        return None

    def take_plain(self, octets):
        before = len(self.entered)
        self.inits += [it for it in octets.split(b"\r") if it.startswith(b"AT") and b"CMUX" not in it]
        super().take_plain(octets)
        if len(self.entered) > before:
            self.stopped.clear()

    def take_message(self, info):
        if info and info[0] == 0x23:
            self.tested += 1
            if not self.probes:
                return
        if len(info) >= 4 and info[0] == 0xE3:
            (self.stopped.add if info[3] & 2 else self.stopped.discard)(info[2] >> 2)
        self.stops += info[:1] == b"\xc3"
        super().take_message(info)

    def take_frames(self, octets):
        before = set(self.lines)
        super().take_frames(octets)
        self.opened += set(self.lines) - before
        self.shut += before - set(self.lines)

    def reset(self):
        """It begins anew at plain commands, and doesn't hang up."""
        self.multiplexed = False
        self.lines.clear()
        self.plain.clear()
        self.write(b"\r\nRDY\r\n")

    def report(self, first, count, dlci=1):
        """Reports numbered lines in a row, and waits where it is told to."""
        for number in range(first, first + count):
            while dlci in self.stopped:
                time.sleep(0.001)
            self.write(frame(dlci, UIH, b"\r\n+CREG: %d\r\n" % number, cr=0))


class Line:
    """A modem in a thread at one end of a pseudo-terminal, whose other end stays."""

    def __init__(self, **how):
        self.ours, self.theirs, self.path = modem.open_terminal()
        self.modem = Modem(self.ours, **how)
        self.thread = threading.Thread(target=self.modem.run, daemon=True)
        self.thread.start()

    def end(self):
        self.modem.gone = True
        self.thread.join(timeout=5)
        os.close(self.theirs)

    def hang_up(self):
        self.end()


class Daemon:
    """A daemon at a line, in a folder of its own; without a path the words name both. It is ended by SIGTERM, and its status then has
    to be 0."""

    def __init__(self, build, path, *words, folder=None, wait=True, **more):
        self.build, self.place, self.ends_itself = build, tempfile.TemporaryDirectory(), False
        self.folder = pathlib.Path(folder or self.place.name)
        self.log = pathlib.Path(self.place.name) / "log"
        operands = [path, self.folder] if path else []
        with open(self.log, "wb") as log:
            self.process = subprocess.Popen([*build.words, *words, *operands], stdin=subprocess.DEVNULL, **{"stderr": log, **more})
        if wait:
            self.await_text("is in the multiplexer")

    def __enter__(self):
        return self

    def wait(self):
        """The status of a daemon that ends by itself; none where it doesn't in ten seconds."""
        self.ends_itself = True
        try:
            return self.process.wait(timeout=10 * self.build.slow)
        except subprocess.TimeoutExpired:
            return None

    def __exit__(self, kind, *_):
        status = self.end()
        if kind is None and status != 0 and not self.ends_itself:
            check(f"{self.build.name}: the daemon ends", False, f"status {status}\n{self.said()}")
        self.place.cleanup()

    def end(self):
        if self.process.poll() is None:
            self.process.terminate()
        try:
            return self.process.wait(timeout=5 * self.build.slow)
        except subprocess.TimeoutExpired:
            self.process.kill()
            self.process.wait()
            return "none: it was killed"

    def said(self):
        return self.log.read_text(errors="replace") if self.log.exists() else ""

    def await_text(self, text, seconds=10, times=1):
        end = time.monotonic() + seconds * self.build.slow
        while self.said().count(text) < times:
            if time.monotonic() > end:
                return False
            if self.process.poll() is not None:
                return self.said().count(text) >= times
            time.sleep(0.01)
        return True

    def processor(self):
        """The seconds of processor that it has used."""
        fields = pathlib.Path(f"/proc/{self.process.pid}/stat").read_text().rsplit(")", 1)[1].split()
        return (int(fields[11]) + int(fields[12])) / os.sysconf("SC_CLK_TCK")

    def terminal(self, name):
        return Terminal(self.folder / name, self.build.slow)


class Terminal:
    """Lines of a terminal."""

    def __init__(self, path, slow=1):
        self.line, self.octets, self.slow = os.open(path, os.O_RDWR | os.O_NOCTTY), b"", slow

    def __enter__(self):
        return self

    def __exit__(self, *_):
        self.close()

    def close(self):
        if self.line >= 0:
            os.close(self.line)
        self.line = -1

    def next(self, seconds=10):
        """The next line that isn't empty, or none where none comes in time."""
        end = time.monotonic() + seconds * self.slow
        while True:
            while b"\n" in self.octets:
                text, self.octets = self.octets.split(b"\n", 1)
                if text.strip():
                    return text.strip().decode()
            if not select.select([self.line], [], [], max(0, end - time.monotonic()))[0]:
                return None
            try:
                got = os.read(self.line, 4096)
            except OSError:
                got = b""
            if not got:
                return None
            self.octets += got

    def write(self, octets):
        while octets:
            octets = octets[os.write(self.line, octets):]

    def ask(self, command, seconds=10):
        self.write(command.encode() + b"\r")
        lines = []
        while not lines or (lines[-1] not in ("OK", "ERROR", None) and not lines[-1].startswith("+CME ERROR")):
            lines.append(self.next(seconds))
        return lines

    def is_hung_up(self, seconds):
        """Whether it is hung up in time; what comes before is passed over."""
        end = time.monotonic() + seconds * self.slow
        while select.select([self.line], [], [], max(0, end - time.monotonic()))[0]:
            try:
                if not os.read(self.line, 4096):
                    return True
            except OSError:
                return True
        return False

    def rest(self, seconds=0.3):
        """All lines that still come, each at most so long behind the one before; of endless ones those of five seconds."""
        lines, end = [], time.monotonic() + 5
        while time.monotonic() < end and (line := self.next(seconds / self.slow)) is not None:
            lines.append(line)
        return lines


def is_own(said, command):
    """Whether the modem's answer is to this command."""
    return len(said) == 2 and said[0].startswith("+ECHO: ") and said[0].endswith(f',"{command}"') and said[1] == "OK"


class Throttle:
    """Carries octets between a modem's end and another pseudo-terminal, at so many in a second each way."""

    def __init__(self, line, speed):
        self.ours, self.theirs, self.path = modem.open_terminal()
        tty.setraw(line.theirs)
        for source, target in ((self.ours, line.theirs), (line.theirs, self.ours)):
            threading.Thread(target=self.carry, args=(source, target, speed), daemon=True).start()

    @staticmethod
    def carry(source, target, speed):
        while True:
            try:
                octets = os.read(source, 8)
                time.sleep(len(octets) * 10 / speed)
                os.write(target, octets)
            except OSError:
                return


def run_all(cases, build, names):
    for case in cases:
        if not names or case.__name__ in names:
            try:
                case(build)
            except Exception as what:  # a check that can't go on has failed; the others go on
                check(f"{build.name}: {case.__name__}", False, repr(what))


def end():
    print(f"{len(failures)} failed")
    sys.exit(1 if failures else 0)
