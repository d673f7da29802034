"""What the checks by other people's clients share: `modemctl sim` on a terminal, a message bus of their own, and what was said."""
import os
import pathlib
import shutil
import subprocess
import sys
import tempfile
import time
from itertools import zip_longest

sys.dont_write_bytecode = True
TOP = pathlib.Path(__file__).resolve().parent.parent.parent
sys.path.insert(0, str(pathlib.Path(__file__).resolve().parent))

from mux import FLAG, POLL, UIH, check_octet  # noqa: E402

failures = []
ENDS = {">": "client", "<": "modem"}


def check(what, holds, seen=""):
    print(("ok      " if holds else "FAILED  ") + what + (f": {seen}" if seen else ""), flush=True)
    if not holds:
        failures.append(what)


class Place:
    """A folder that goes, and processes that are ended, at the end."""

    def __enter__(self):
        self.folder, self.processes = pathlib.Path(tempfile.mkdtemp()), []
        return self

    def __exit__(self, *_):
        for process in reversed(self.processes):
            process.terminate()
            try:
                process.wait(timeout=5)
            except subprocess.TimeoutExpired:
                process.kill()
        shutil.rmtree(self.folder)

    def start(self, *words, log=None, **more):
        """Runs a program beside this one. It is ended after four minutes, if not before."""
        output = open(self.folder / log, "wb") if log else subprocess.DEVNULL
        process = subprocess.Popen(["timeout", "240", *words], stdin=subprocess.DEVNULL, stdout=output, stderr=output, **more)
        self.processes.append(process)
        return process

    def log(self, name):
        return (self.folder / name).read_bytes().decode(errors="replace")

    def modem(self, program=None, name="modem"):
        """`modemctl sim` on a terminal, all that goes either way kept: the terminal's path."""
        path = self.folder / name
        if not program:
            subprocess.run([TOP / "modemctl", "prove"], stdin=subprocess.DEVNULL, check=True)
            program = f"{TOP}/modemctl sim --capture {path}.pcap"
        kept = ["-r", f"{path}.sent", "-R", f"{path}.said"]
        self.start("socat", *kept, f"pty,raw,echo=0,link={path}", f"EXEC:{program}", log=f"{name}.socat")
        self.await_path(path)
        return str(path)

    def bus(self):
        """A message bus that anybody may speak on; programs that are given `system()` take it for the system's."""
        path = self.folder / "bus"
        self.address = f"unix:path={path}"
        self.start("dbus-daemon", "--session", "--nofork", f"--address={self.address}", log="dbus")
        self.await_path(path)

    def system(self, **more):
        return {**os.environ, "DBUS_SYSTEM_BUS_ADDRESS": self.address, **more}

    def call(self, name, path, method, *words, seconds=20):
        """A call over the bus: what it answers, or what it complains of."""
        ran = subprocess.run(
            ["gdbus", "call", "--address", self.address, "--dest", name, "--object-path", path, "--method", method,
             "--timeout", str(seconds), *words], capture_output=True, text=True, timeout=seconds + 10)
        return ran.returncode == 0, (ran.stdout or ran.stderr).strip()

    def await_name(self, name):
        for _ in range(100):
            holds, said = self.call("org.freedesktop.DBus", "/org/freedesktop/DBus", "org.freedesktop.DBus.NameHasOwner", name)
            if holds and said == "(true,)":
                return
            time.sleep(0.1)
        sys.exit(f"{name} didn't come")

    def print_refused(self, name="modem"):
        """Which command lines the modem didn't answer by OK."""
        talk = self.talk(name)
        others = dict.fromkeys(f"{line.decode(errors='replace').strip()} ({(code or b'nothing').decode()})" for _, line, code in talk if code != b"OK")
        print(f"{len(talk)} command lines; not answered by OK: {'; '.join(others) or 'none'}")

    def complaints(self, name="modem"):
        """What `modemctl show` complains of in the modem's capture: who is complained of, the rule, and the frame. None where there is no capture."""
        file = self.folder / f"{name}.pcap"
        if not file.exists():
            return None
        shown = subprocess.run([TOP / "modemctl", "show", "--strict", file], capture_output=True, text=True, timeout=30)
        check("its capture is shown", shown.returncode in (0, 3) and not shown.stderr, shown.stderr)
        found = []
        for line in shown.stdout.splitlines():
            way, _, rest = line.partition(" ! ")
            if rest:
                rule, _, frame = rest.partition(" ")[2].partition(": ")
                found.append((ENDS[way.split(" ")[-1]], rule, frame))
        for end, rule, _frame in dict.fromkeys((*it[:2], "") for it in found):
            frames = [it[2] for it in found if it[:2] == (end, rule)]
            print(f"        the {end}: {rule}: {len(frames)} times, {', '.join(dict.fromkeys(frames[:3]))}", flush=True)
        return found

    @staticmethod
    def await_path(path):
        for _ in range(100):
            if path.exists():
                return
            time.sleep(0.1)
        sys.exit(f"{path} didn't come")

    def talk(self, name):
        """Each command line that the client sent, with its connection (None where plain) and its final code."""
        sent, said = (texts((self.folder / f"{name}.{way}").read_bytes()) for way in ("sent", "said"))
        return [(dlci, *pair) for dlci in sent for pair in zip_longest(commands(sent[dlci]), codes(said.get(dlci, b"")))]


def frame_at(octets, at):
    """The frame that begins here: its length to the closing flag, connection, kind and information."""
    if octets[at] != FLAG or len(octets) < at + 6 or not octets[at + 1] & 1 or octets[at + 1] == FLAG:
        return None
    size = 1 if octets[at + 3] & 1 else 2
    length = octets[at + 3] >> 1 | (octets[at + 4] << 7 if size == 2 else 0)
    info, end = at + 3 + size, at + 3 + size + length + 1
    if end >= len(octets) or octets[end] != FLAG or octets[end - 1] != check_octet(octets[at + 1:info]):
        return None
    return end - at, octets[at + 1] >> 2, octets[at + 2] & ~POLL, octets[info:end - 1]


def texts(octets):
    """What stands on each connection, and outside of frames (None)."""
    found, at = {None: b""}, 0
    while at < len(octets):
        frame = frame_at(octets, at)
        if frame is None:
            if octets[at] != FLAG:
                found[None] += octets[at:at + 1]
            at += 1
            continue
        length, dlci, kind, info = frame
        if kind == UIH and dlci:
            found[dlci] = found.get(dlci, b"") + info
        at += length + 1 if octets[at + length + 1:at + length + 2] == bytes([FLAG]) else length
    return found


def commands(sent):
    return [it for it in sent.split(b"\r") if b"AT" in it.upper()]


def codes(said):
    return [it for it in said.replace(b"\n", b"\r").split(b"\r") if it in (b"OK", b"ERROR") or it.startswith(b"+CME ERROR:")]
