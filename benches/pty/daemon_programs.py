"""Cases of cimbalotyd: programs that come and leave, and share it."""
import fcntl
import os
import signal
import struct
import subprocess
import sys
import termios
import threading
import time

from asks import KINDS
from daemons import Daemon, Line, Terminal, TOP, check, is_own
from peers import Place

TIOCEXCL, TIOCGEXCL, TIOCVHANGUP = 0x540C, 0x80045440, 0x5437


def killed(build):
    """A program is killed while its command is under way: the next one gets its own answers alone."""
    line = Line()
    line.modem.late *= build.slow
    with Daemon(build, line.path) as daemon:
        script = "import os,sys,time; fd=os.open(sys.argv[1],os.O_RDWR|os.O_NOCTTY); os.write(fd,b'AT+LATE\\rAT+NEXT\\r'); print('x',flush=True); time.sleep(60)"
        program = subprocess.Popen([sys.executable, "-c", script, daemon.folder / "at1"], stdout=subprocess.PIPE)
        program.stdout.readline()
        time.sleep(0.2 * build.slow)
        program.send_signal(signal.SIGKILL)
        program.wait()
        program.stdout.close()
        time.sleep(0.1 * build.slow)
        with daemon.terminal("at1") as terminal:
            said = [terminal.ask(f"AT+N{n}") for n in range(3)]
            rest = terminal.rest()
        asked = [text for dlci, text in line.modem.asked]
        check(f"{build.name}: killed with a command under way", all(is_own(it, f"AT+N{n}") for n, it in enumerate(said)) and not rest
              and asked == [b"AT+LATE", b"AT+N0", b"AT+N1", b"AT+N2"], f"{said} {rest}, the modem was asked {asked}")
    line.end()


def half_a_line(build):
    line = Line()
    with Daemon(build, line.path) as daemon:
        with daemon.terminal("at1") as terminal:
            terminal.write(b"AT+HALF")
            time.sleep(0.1 * build.slow)
        time.sleep(0.1 * build.slow)
        with daemon.terminal("at1") as terminal:
            said = terminal.ask("AT+WHOLE")
        check(f"{build.name}: half a line left behind", is_own(said, "AT+WHOLE") and [it for _, it in line.modem.asked] == [b"AT+WHOLE"],
              f"{said}, the modem was asked {line.modem.asked}")
    line.end()


def unread(build):
    """100,000 octets of an answer that nobody reads."""
    line = Line()
    with Daemon(build, line.path) as daemon:
        with daemon.terminal("at1") as terminal:
            terminal.write(b"AT+BIG=2000\r")
            time.sleep(1 * build.slow)
        time.sleep(0.2 * build.slow)
        with daemon.terminal("at1") as terminal:
            early = terminal.rest()
            said = terminal.ask("AT+MINE")
        check(f"{build.name}: an unread answer", early == [] and is_own(said, "AT+MINE"), f"{len(early)} lines were there, then {said}")
    line.end()


def told_and_left(build):
    """A command that a program writes and doesn't wait for is sent; its answer is nobody's, also where the next program comes at once. A
    program that came so early that it read the answer is hung up."""
    line, said, hung = Line(), [], 0
    with Daemon(build, line.path) as daemon:
        for n in range(40):
            with daemon.terminal("at1") as terminal:
                terminal.write(b"AT+GONE%d\r" % n)
            if n % 2:
                time.sleep(0.02)
            with daemon.terminal("at1") as terminal:
                said.append(terminal.ask(f"AT+HERE{n}", 5))
                hung += is_own(said[-1], f"AT+GONE{n}") and terminal.is_hung_up(5)
        asked = [text for _, text in line.modem.asked]
        errors = said.count(["ERROR"])
        right = sum(is_own(it, f"AT+HERE{n}") for n, it in enumerate(said))
        check(f"{build.name}: written and left", right + errors + hung == 40 and right >= 30 and sum(it.startswith(b"AT+GONE") for it in asked) >= 30,
              f"{right} of 40 later commands have their own answers, {errors} ERROR, {hung} programs were hung up; {len(asked) - right} of those left were sent")
    line.end()


def glued(build):
    """Half a line of a program that leaves as the next one writes isn't put before its command."""
    line, said = Line(), []
    with Daemon(build, line.path) as daemon:
        for n in range(40):
            with daemon.terminal("at1") as terminal:
                terminal.write(b"AT+HALF%d=" % n)
            with daemon.terminal("at1") as terminal:
                said.append(terminal.ask(f"AT+HERE{n}", 1))
        asked = [text for _, text in line.modem.asked]
        right = sum(is_own(it, f"AT+HERE{n}") for n, it in enumerate(said))
        check(f"{build.name}: half a line and the next program at once", right + said.count(["ERROR"]) == 40 and not any(b"HALF" in it for it in asked),
              f"{right} have their own answers, {said.count(['ERROR'])} ERROR")
    line.end()


def flood(daemon, n):
    with daemon.terminal("at1") as terminal:
        os.set_blocking(terminal.line, False)
        try:
            for k in range(2000):
                os.write(terminal.line, b"AT+FLOOD%d.%d\r" % (n, k))
        except BlockingIOError:
            pass


def told_behind_flood(daemon, n):
    """What the next program is told: its own answer, ERROR, nothing since it was hung up, or what is wrong."""
    try:
        with daemon.terminal("at1") as terminal:
            said = terminal.ask(f"AT+HERE{n}", 2)
            if is_own(said, f"AT+HERE{n}"):
                return "own"
            if said == ["ERROR"]:
                return "ERROR"
            return "hung up" if terminal.is_hung_up(2) else str(said)
    except OSError:
        return "hung up"


def flooded(build):
    """A program leaves more behind than the daemon reads ahead, and answers. The next one, which comes at once, gets its own answer or
    ERROR. If it is so quick that it reads what was left there, it is hung up."""
    line, told = Line(), []
    with Daemon(build, line.path) as daemon:
        for n in range(30):
            try:
                flood(daemon, n)
            except OSError:
                pass  # the last one was hung up, and this one came before the terminal was made anew
            told.append(told_behind_flood(daemon, n))
        counts = {it: told.count(it) for it in dict.fromkeys(told)}
        check(f"{build.name}: a flood left behind", not set(counts) - {"own", "ERROR", "hung up"}, str(counts))
    line.end()


def set_sane(build):
    """With the settings of a login terminal, echo too, no answer comes back as a command; they go with the program."""
    line = Line()
    with Daemon(build, line.path) as daemon:
        with daemon.terminal("at1") as terminal:
            subprocess.run(["stty", "-F", daemon.folder / "at1", "sane"], check=True)
            said = terminal.ask("AT+SANE")
            rest = terminal.rest(0.5)
        asked = [text for _, text in line.modem.asked]
        time.sleep(0.1 * build.slow)
        with daemon.terminal("at1") as terminal:
            how = termios.tcgetattr(terminal.line)
            again = terminal.ask("AT+RAW")
        is_raw = not how[3] & (termios.ECHO | termios.ICANON | termios.ISIG) and not how[0] & termios.ICRNL and not how[1] & termios.OPOST
        check(f"{build.name}: stty sane", asked == [b"AT+SANE"] and is_own(said, "AT+SANE") and not rest and is_raw and is_own(again, "AT+RAW"),
              f"asked {asked}, told {said} and {len(rest)} lines more, raw again: {is_raw}, {again}")
    line.end()


def exclusive(build):
    """A program that wants the terminal for itself and is gone keeps no other out."""
    line = Line()
    with Daemon(build, line.path) as daemon:
        with daemon.terminal("at1") as terminal:
            fcntl.ioctl(terminal.line, TIOCEXCL)
        time.sleep(0.1 * build.slow)
        with daemon.terminal("at1") as terminal:
            is_held = struct.unpack("i", fcntl.ioctl(terminal.line, TIOCGEXCL, b"\0\0\0\0"))[0]
        check(f"{build.name}: a terminal left exclusive", not is_held, f"exclusive: {is_held}")
    line.end()


def hung_up(build):
    """Somebody hangs a terminal up: another takes its place."""
    line = Line()
    with Daemon(build, line.path) as daemon:
        with daemon.terminal("at1") as terminal:
            before = os.readlink(daemon.folder / "at1")
            try:
                fcntl.ioctl(terminal.line, TIOCVHANGUP)
            except PermissionError:
                print(f"left out {build.name}: hung_up: it wants root", flush=True)
                return
        told = daemon.await_text("at1 was hung up: it is made anew")
        with daemon.terminal("at1") as terminal:
            said = terminal.ask("AT+ANEW")
        check(f"{build.name}: a terminal that was hung up", told and is_own(said, "AT+ANEW"), f"{before}, {said}")
    line.end()


def idle(build):
    line = Line()
    with Daemon(build, line.path) as daemon:
        with daemon.terminal("at1") as terminal:
            terminal.ask("AT+ONE")
            used = daemon.processor()
            time.sleep(4)
            used = daemon.processor() - used
        check(f"{build.name}: 4 s idle", used < 0.04 * build.slow, f"{used:.2f} s of processor")
    line.end()


def bad_lines(build):
    line = Line()
    with Daemon(build, line.path) as daemon:
        with daemon.terminal("at1") as terminal:
            said = [terminal.ask(text) for text in ("hello", "AT+" + "X" * 254, "A" * 10000, "AT+\x01")]
            good = terminal.ask("AT+" + "X" * 253)
        check(f"{build.name}: what is no command", all(it == ["ERROR"] for it in said) and is_own(good, "AT+" + "X" * 253), f"{said}, {good[-1]}")
    line.end()


def ask_many(terminal, dlci, count, wrong):
    for n in range(count):
        said = terminal.ask(f"AT+P{dlci}N{n}")
        if said != [f'+ECHO: {dlci},{n + 1},"AT+P{dlci}N{n}"', "OK"]:
            wrong.append(said)
            return


def side_by_side(build):
    """Four programs ask 250 commands each."""
    line, wrong = Line(), []
    count = 250 // build.slow
    with Daemon(build, line.path) as daemon:
        terminals = [daemon.terminal(f"at{d}") for d in range(1, 5)]
        workers = [threading.Thread(target=ask_many, args=(terminal, 1 + d, count, wrong)) for d, terminal in enumerate(terminals)]
        begun = time.monotonic()
        for it in workers:
            it.start()
        for it in workers:
            it.join()
        took = time.monotonic() - begun
        for it in terminals:
            it.close()
    check(f"{build.name}: {4 * count} commands of four programs", not wrong and line.modem.answered == 0 and len(line.modem.asked) == 4 * count,
          f"{took:.2f} s, wrong: {wrong}")
    line.end()


def in_a_row(build):
    """Commands that are written in a row are asked one behind the other."""
    line = Line()
    with Daemon(build, line.path) as daemon:
        with daemon.terminal("at2") as terminal:
            terminal.write(b"".join(b"AT+R%d\r" % n for n in range(100)))
            lines = []
            while lines.count("OK") < 100 and (got := terminal.next(5)) is not None:
                lines.append(got)
        want = [it for n in range(100) for it in (f'+ECHO: 2,{n + 1},"AT+R{n}"', "OK")]
        check(f"{build.name}: 100 commands in a row", lines == want, f"{len(lines)} lines")
    line.end()


def share(build):
    """Four programs ask the simulated modem of this repository; each change of registration comes to the terminal for events."""
    sim = TOP / "crates" / "modemctl" / "out" / "modemctl"
    if not sim.exists():
        print(f"left out {build.name}: share: modemctl isn't built", flush=True)
        return
    count, right = 250 // build.slow, []
    with Place() as place:
        device = place.modem(f"{sim} sim")
        held = os.open(device, os.O_RDWR | os.O_NOCTTY)  # so that the terminal stays while the daemon isn't there
        with Daemon(build, device) as daemon:
            with daemon.terminal("events") as events:
                workers = [threading.Thread(target=share_one, args=(daemon.terminal(f"at{d + 1}"), kind, count, right)) for d, kind in enumerate(KINDS)]
                for it in workers:
                    it.start()
                for it in workers:
                    it.join()
                heard = events.rest(0.5)
        os.close(held)
        with Terminal(device) as plain:
            said = plain.ask("AT+CSQ")
    check(f"{build.name}: {count * len(KINDS)} commands at modemctl sim", len(right) == count * len(KINDS), f"{len(right)} answers are the modem's own")
    check(f"{build.name}: changes of registration", heard == [f"+CREG: {place % 2}" for place in range(count - 1)], f"{len(heard)} of {count - 1} came")
    check(f"{build.name}: plain lines behind it", said == ["+CSQ: 18,99", "OK"], str(said))


def share_one(terminal, kind, count, right):
    for number in range(count):
        command, answer = kind(number)
        said = terminal.ask(command)
        if said != [*answer, "OK"]:
            print(f"{command} is answered by {said}")
            return
        right.append(command)


CASES = [killed, half_a_line, unread, told_and_left, glued, flooded, set_sane, exclusive, hung_up, idle, bad_lines, side_by_side, in_a_row, share]
