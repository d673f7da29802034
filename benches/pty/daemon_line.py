"""Cases of cimbalotyd: the line, what the modem does on it, and signals."""
import os
import signal
import statistics
import subprocess
import tempfile
import time

import modem
from daemons import Daemon, Line, Throttle, check, is_own


def prompt(build):
    """A command that ends in a prompt, and so never: behind --limit it is answered by ERROR and the connection opened again."""
    line = Line()
    with Daemon(build, line.path, "--limit", "2") as daemon:
        with daemon.terminal("at1") as terminal, daemon.terminal("at2") as other:
            begun = time.monotonic()
            said = terminal.ask("AT+PROMPT", 20)
            took = time.monotonic() - begun
            beside = other.ask("AT+BESIDE")
            again = terminal.ask("AT+AGAIN")
        check(f"{build.name}: a prompt without end", said[-1] == "ERROR" and 1.9 < took < 2.6 * build.slow and is_own(again, "AT+AGAIN")
              and is_own(beside, "AT+BESIDE") and line.modem.opened.count(1) == 2 and line.modem.shut == [1]
              and "no answer for 2 s: connection 1 is closed and opened again" in daemon.said(),
              f"{said} after {took:.2f} s, then {again}; connection 1 was opened {line.modem.opened.count(1)} times")
    line.end()


def silent_reset(build):
    """The modem begins anew and doesn't hang up."""
    line = Line()
    with Daemon(build, line.path, "--probe", "1") as daemon:
        with daemon.terminal("at1") as terminal:
            first = terminal.ask("AT+FIRST")
            terminal.write(b"AT+SILENT\r")
            time.sleep(0.2)
            line.modem.reset()
            begun = time.monotonic()
            lost = terminal.next(20)
            back = daemon.await_text("is in the multiplexer", 20, times=2)
            took = time.monotonic() - begun
            again = terminal.ask("AT+AGAIN")
        check(f"{build.name}: a modem that resets without a hang-up", is_own(first, "AT+FIRST") and lost == "ERROR" and back and is_own(again, "AT+AGAIN")
              and took < 6 * build.slow and "fallen silent" in daemon.said(), f"told {lost}, entered again after {took:.1f} s, {again}")
    line.end()


def no_probes(build):
    """A modem that answers no probe isn't taken for silent."""
    line = Line(probes=False)
    with Daemon(build, line.path, "--probe", "1") as daemon:
        time.sleep(4)
        with daemon.terminal("at1") as terminal:
            said = terminal.ask("AT+THERE")
        check(f"{build.name}: a modem without probes", is_own(said, "AT+THERE") and len(line.modem.entered) == 1 and line.modem.tested == 1
              and "answers no probes" in daemon.said(), f"{said}, entered {len(line.modem.entered)} times, probed {line.modem.tested} times")
    line.end()


def deaf_connection(build):
    """One connection that doesn't open keeps no other from it; it is said once."""
    line = Line(deaf=(2,))
    with Daemon(build, line.path) as daemon:
        told = daemon.await_text("connection 2 doesn't open")
        with daemon.terminal("at1") as terminal, daemon.terminal("at2") as other:
            said, refused = terminal.ask("AT+ONE"), other.ask("AT+TWO")
        time.sleep(2)
        check(f"{build.name}: a connection that doesn't open", told and is_own(said, "AT+ONE") and refused == ["ERROR"]
              and daemon.said().count("connection 2") == 1 and len(line.modem.entered) == 1, f"{said}, {refused}, {daemon.said().strip()}")
    line.end()


def shut_by_modem(build):
    """The modem shuts a connection by itself: it is opened again, and what waits there is told ERROR."""
    line = Line()
    with Daemon(build, line.path) as daemon:
        with daemon.terminal("at1") as terminal:
            terminal.ask("AT+ONE")
            terminal.write(b"AT+SILENT\r")
            time.sleep(0.2)
            line.modem.lines.pop(1)
            line.modem.write(modem.frame(1, modem.DISC | modem.PF, cr=0))
            lost = terminal.next()
            opened = daemon.await_text("the modem shut connection 1")
            time.sleep(1.5)
            said = terminal.ask("AT+TWO")
        check(f"{build.name}: shut by the modem", lost == "ERROR" and opened and is_own(said, "AT+TWO"), f"{lost}, then {said}")
    line.end()


def two_daemons(build):
    line, other = Line(), Line()
    with Daemon(build, line.path) as daemon:
        with Daemon(build, line.path, wait=False) as second:
            status = second.wait()
            said = second.said()
            same_line = status == 1 and "another program drives it" in said
            check(f"{build.name}: a second daemon on the line", same_line, f"status {status}, {said.strip()}")
        with Daemon(build, other.path, folder=daemon.folder, wait=False) as third:
            status = third.wait()
            said = third.said()
            check(f"{build.name}: a second daemon in the folder", status == 1 and "another cimbalotyd serves it" in said and not other.modem.entered,
                  f"status {status}, {said.strip()}")
        with daemon.terminal("at1") as terminal:
            said = terminal.ask("AT+STILL")
        check(f"{build.name}: the first goes on", is_own(said, "AT+STILL") and len(line.modem.entered) == 1, str(said))
    line.end()
    other.end()


def sigpipe(build):
    """Nobody reads its standard error any more."""
    line = Line()
    with Daemon(build, line.path, wait=False, stderr=subprocess.PIPE) as daemon:
        while b"multiplexer" not in daemon.process.stderr.readline():
            pass
        daemon.process.stderr.close()
        for _ in range(3):
            daemon.process.send_signal(signal.SIGUSR1)
            time.sleep(0.1)
        with daemon.terminal("at1") as terminal:
            said = terminal.ask("AT+ALIVE")
        check(f"{build.name}: standard error is gone", is_own(said, "AT+ALIVE") and daemon.process.poll() is None, str(said))
    line.end()


def stalled_log(build):
    """Its standard error is a pipe that is full: no command waits for that."""
    line = Line()
    reader, writer = os.pipe()
    with Daemon(build, line.path, wait=False, stderr=writer) as daemon:
        while b"multiplexer" not in os.read(reader, 4096):
            pass
        os.set_blocking(writer, False)
        try:
            while os.write(writer, b"x" * 4096):
                pass
        except BlockingIOError:
            os.set_blocking(writer, True)
        daemon.process.send_signal(signal.SIGUSR1)
        with daemon.terminal("at1") as terminal:
            said = terminal.ask("AT+ALIVE", 3)
        check(f"{build.name}: standard error is full", is_own(said, "AT+ALIVE"), str(said))
        os.read(reader, 1 << 20)
    os.close(reader)
    os.close(writer)
    line.end()


def ended(build, command):
    """Ends a daemon: its status, the milliseconds, how often the multiplexer was ended, and what is left in the folder."""
    line = Line()
    with Daemon(build, line.path) as daemon:
        with daemon.terminal("at1") as terminal:
            terminal.ask("AT+ONE")
            if command:
                terminal.write(command)
                time.sleep(0.1)
            begun = time.monotonic()
            daemon.process.send_signal(signal.SIGTERM)
            status = daemon.process.wait(timeout=10)
            took = (time.monotonic() - begun) * 1000
        left = [it for it in os.listdir(daemon.folder) if it != "log"]
    line.end()
    return status, took, 0 if line.modem.multiplexed else line.modem.stops, left


def sigterm(build):
    """The multiplexer is ended at once, also with a command under way; terminals and their links go. The median of five counts, since
    the machine may have other work."""
    for name, command in (("idle", None), ("with a command under way", b"AT+SILENT\r")):
        ends = [ended(build, command) for _ in range(5)]
        took = statistics.median(it[1] for it in ends)
        check(f"{build.name}: SIGTERM, {name}", all((status, stops, left) == (0, 1, []) for status, _, stops, left in ends)
              and took < 100 * build.slow, f"median {took:.1f} ms, {[(it[0], round(it[1]), *it[2:]) for it in ends]}")


def sigterm_of_silent(build):
    """A modem that answers nothing doesn't hold the end up."""
    line = Line()
    with Daemon(build, line.path) as daemon:
        line.modem.mute = True
        begun = time.monotonic()
        status = daemon.end()
        took = time.monotonic() - begun
        check(f"{build.name}: SIGTERM, the modem silent", status == 0 and took < 1.5 * build.slow, f"status {status} after {took:.2f} s")
    line.end()


def sighup(build):
    """The line is opened anew; the terminals stay."""
    line = Line()
    with Daemon(build, line.path) as daemon:
        with daemon.terminal("at1") as terminal:
            first = terminal.ask("AT+ONE")
            daemon.process.send_signal(signal.SIGHUP)
            daemon.await_text("is opened anew")
            second = terminal.ask("AT+TWO")
        check(f"{build.name}: SIGHUP", is_own(first, "AT+ONE") and is_own(second, "AT+TWO") and line.modem.stops == 1
              and len(line.modem.entered) == 2, f"{first}, {second}, entered {len(line.modem.entered)} times, ended {line.modem.stops} times")
    line.end()


def killed_daemon(build):
    """A daemon that was killed leaves the modem in the multiplexer; the next one brings it out and in again."""
    line = Line()
    first = Daemon(build, line.path)
    first.process.kill()
    first.process.wait()
    left = line.modem.multiplexed
    with Daemon(build, line.path, folder=first.folder) as daemon:
        with daemon.terminal("at1") as terminal:
            said = terminal.ask("AT+BACK")
        check(f"{build.name}: a daemon behind one that was killed", left and is_own(said, "AT+BACK"), str(said))
    first.place.cleanup()
    line.end()


def replugged(build):
    """The device isn't there, comes, goes and comes again."""
    with tempfile.TemporaryDirectory() as place:
        path = place + "/tty"
        with Daemon(build, path, wait=False) as daemon:
            daemon.await_text("No such file")
            with_none = daemon.folder / "at1"
            while not with_none.exists():
                time.sleep(0.01)
            with daemon.terminal("at1") as terminal:
                none = terminal.ask("AT+NONE")
            line = Line()
            os.symlink(line.path, path)
            daemon.await_text("is in the multiplexer", 15)
            with daemon.terminal("at1") as terminal:
                first = terminal.ask("AT+ONE")
                terminal.write(b"AT+SILENT\r")
                time.sleep(0.2)
                os.unlink(path)
                line.hang_up()
                lost = terminal.next()
                line = Line()
                os.symlink(line.path, path)
                daemon.await_text("is in the multiplexer", 15, times=2)
                second = terminal.ask("AT+TWO")
            check(f"{build.name}: a device that comes and goes", none == ["ERROR"] and is_own(first, "AT+ONE") and lost == "ERROR"
                  and is_own(second, "AT+TWO") and daemon.said().count("No such file") <= 2, f"{none}, {first}, {lost}, {second}\n{daemon.said()}")
    line.end()


def refused_entry(build):
    """A modem that refuses: the reason is said once, and it is tried again, ever later."""
    line = Line(refuses=True)
    with Daemon(build, line.path, wait=False) as daemon:
        told = daemon.await_text("AT+CMUX=0 by ERROR")
        time.sleep(3)
        tries = len(line.modem.entered)
        line.modem.refuses = False
        back = daemon.await_text("is in the multiplexer", 15)
        check(f"{build.name}: a modem that refuses to enter", told and back and 3 <= tries <= 6 and daemon.said().count("by ERROR") == 1,
              f"{tries} tries in 3 s, {daemon.said().strip()}")
    line.end()


def not_a_terminal(build):
    with tempfile.NamedTemporaryFile() as file:
        file.write(b"as it was")
        file.flush()
        with Daemon(build, file.name, wait=False) as daemon:
            status = daemon.wait()
            said = daemon.said()
            check(f"{build.name}: a device that is a file", status == 1 and "it is no terminal" in said and open(file.name, "rb").read() == b"as it was",
                  f"status {status}, {said.strip()}")


def slow_line(build):
    """At 9,600 bit/s all connections open at the first try, and commands are answered."""
    line = Line()
    slow = Throttle(line, 9600)
    with Daemon(build, slow.path, "--speed", "9600", "--connections", "61") as daemon:
        with daemon.terminal("at61") as terminal, daemon.terminal("at1") as other:
            said = terminal.ask("AT+SLOW")
            answers = [other.ask(f"AT+S{n}") for n in range(10)]
        check(f"{build.name}: 9,600 bit/s", is_own(said, "AT+SLOW") and all(is_own(it, f"AT+S{n}") for n, it in enumerate(answers))
              and sorted(line.modem.opened) == list(range(62)) and len(line.modem.entered) == 1 and "doesn't open" not in daemon.said(),
              f"opened {line.modem.opened}, entered {len(line.modem.entered)} times, {said}")
        begun = time.monotonic()
    line.end()
    check(f"{build.name}: 9,600 bit/s, the end", line.modem.stops == 1, f"{time.monotonic() - begun:.2f} s")


def wrong_n1(build):
    """The modem sends longer frames than agreed: that is said, and counted; with the right N1 all is well."""
    line = Line(piece=64)
    with Daemon(build, line.path, "--limit", "2") as daemon:
        with daemon.terminal("at1") as terminal:
            said = terminal.ask("AT+" + "L" * 80, 20)
        daemon.process.send_signal(signal.SIGUSR1)
        counted = daemon.await_text("longer than N1 2")
        told = "a frame of 64 octets came, and N1 is 31" in daemon.said()
        check(f"{build.name}: a wrong N1", said[-1] == "ERROR" and told and counted, f"{said}\n{daemon.said().strip()}")
    line.end()
    line = Line(piece=64)
    with Daemon(build, line.path, "--n1", "64") as daemon:
        with daemon.terminal("at1") as terminal:
            said = terminal.ask("AT+" + "L" * 80)
        check(f"{build.name}: the right N1", is_own(said, "AT+" + "L" * 80) and line.modem.entered == [b"AT+CMUX=0,0,,64"], f"{said[-1]}, {line.modem.entered}")
    line.end()


def cut_answer(build):
    """An answer that lost a frame longer than N1 isn't taken for whole, and doesn't hold its connection up for long."""
    line = Line(piece=64)
    with Daemon(build, line.path) as daemon:
        with daemon.terminal("at1") as terminal:
            part = terminal.ask("AT+" + "L" * 57)  # the frame with its end is short
            whole = terminal.ask("AT+X")
            begun = time.monotonic()
            none = terminal.ask("AT+" + "L" * 80, 20)
            took = time.monotonic() - begun
            again = terminal.ask("AT+Y")
        check(f"{build.name}: an answer that lost a frame", part == none == ["ERROR"] and is_own(whole, "AT+X") and is_own(again, "AT+Y")
              and 4 < took < 7 * build.slow and "has lost a frame: connection 1 is closed" in daemon.said(),
              f"{part}, {none} after {took:.1f} s, then {again}\n{daemon.said().strip()}")
    line.end()


def unfinished_frame(build):
    """A driver died in the middle of a frame: the modem takes what comes for the rest of it. The first try behind that enters."""
    for n1 in (31, 1500):
        line = Line()
        line.modem.multiplexed = True
        length = bytes([n1 << 1 | 1]) if n1 < 128 else bytes([n1 << 1 & 0xFE, n1 >> 7])
        os.write(line.theirs, b"\xf9\x07\xef" + length + b"A")
        time.sleep(0.1)
        begun = time.monotonic()
        with Daemon(build, line.path, "--n1", str(n1)) as daemon:
            took = time.monotonic() - begun
            with daemon.terminal("at1") as terminal:
                said = terminal.ask("AT+BACK")
            check(f"{build.name}: behind half a frame, N1 {n1}", is_own(said, "AT+BACK") and len(line.modem.entered) == 1 and line.modem.stops == 1
                  and took < 3 * build.slow, f"{said}, entered {len(line.modem.entered)} times after {took:.1f} s")
        line.end()


CASES = [prompt, silent_reset, no_probes, deaf_connection, shut_by_modem, two_daemons, sigpipe, stalled_log, sigterm, sigterm_of_silent, sighup,
         killed_daemon, replugged, refused_entry, not_a_terminal, slow_line, wrong_n1, cut_answer, unfinished_frame]
