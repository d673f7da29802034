"""Cases of cimbalotyd: unsolicited lines."""
import threading
import time

from daemons import Daemon, Line, check, is_own


def numbers(lines):
    return [int(line.removeprefix("+CREG: ")) for line in lines if line and line.startswith("+CREG: ")]


def slow_reader(build):
    """A reader that stands still has the modem stop; every report comes, in order. Commands of another connection go on."""
    line, count = Line(), 100000 // build.slow
    with Daemon(build, line.path) as daemon:
        with daemon.terminal("events") as events, daemon.terminal("at2") as terminal:
            terminal.ask("AT+READY")
            reporter = threading.Thread(target=line.modem.report, args=(0, count))
            reporter.start()
            time.sleep(3)
            used = daemon.processor()
            time.sleep(2)
            used = daemon.processor() - used
            stopped = 1 in line.modem.stopped
            beside = terminal.ask("AT+BESIDE")
            heard, begun = [], time.monotonic()
            while len(heard) < count and (text := events.next(5)) is not None:
                heard.append(text)
                if len(heard) % 1000 == 0:
                    time.sleep(0.02)
            reporter.join(timeout=10)
        right = numbers(heard) == list(range(count))
        check(f"{build.name}: {count} reports and a slow reader", right and stopped and is_own(beside, "AT+BESIDE") and used < 0.1 * build.slow,
              f"{len(heard)} came{' in order' if right else ''}, the modem was stopped: {stopped}, {time.monotonic() - begun:.1f} s; "
              f"{used:.2f} s of processor in 2 s of standing still")
    line.end()


def no_reader(build):
    """Nobody reads: the last 256 are kept, one line says how many weren't, and commands go on."""
    line, count = Line(), 100000 // build.slow
    with Daemon(build, line.path) as daemon:
        with daemon.terminal("at1") as terminal:
            terminal.ask("AT+READY")
            reporter = threading.Thread(target=line.modem.report, args=(0, count))
            reporter.start()
            during = terminal.ask("AT+DURING")
            reporter.join(timeout=120)
            behind = terminal.ask("AT+BEHIND")
        with daemon.terminal("events") as events:
            heard = events.rest(1)
            line.modem.report(count, 1)
            later = events.next()
        said = f"{count - 256} weren't kept while nobody read them"
        check(f"{build.name}: {count} reports and no reader", numbers(heard) == list(range(count - 256, count)) and later == f"+CREG: {count}"
              and is_own(during, "AT+DURING") and is_own(behind, "AT+BEHIND") and daemon.said().count("weren't kept") == 1 and said in daemon.said(),
              f"{len(heard)} were kept, {daemon.said().strip().splitlines()[-1]}")
    line.end()


def on_commands(build):
    """With --events at1 reports come there too, never inside of an answer."""
    line = Line()
    with Daemon(build, line.path, "--events", "at1") as daemon:
        with daemon.terminal("at1") as terminal, daemon.terminal("at2") as other, daemon.terminal("events") as events:
            first = terminal.ask("AT+ONE")
            line.modem.report(7, 1, dlci=2)
            heard = terminal.next(), events.next()
            rung = terminal.ask("AT+RING")
            rung += terminal.rest()
            beside = other.rest()
        check(f"{build.name}: reports on a terminal for commands", is_own(first, "AT+ONE") and heard == ("+CREG: 7", "+CREG: 7")
              and sorted(rung) == ["OK", "RING"] and beside == [], f"{heard}, {rung}, on at2 {beside}")
    line.end()


def at_loss(build):
    """Reports that wait as the line hangs up still come."""
    line = Line()
    with Daemon(build, line.path) as daemon:
        with daemon.terminal("events") as events:
            daemon.terminal("at1").ask("AT+ONE")
            line.modem.report(0, 200)
            time.sleep(0.3)
            line.hang_up()
            heard = events.rest(1)
        check(f"{build.name}: reports before a hang-up", numbers(heard) == list(range(200)), f"{len(heard)} of 200 came")


CASES = [slow_reader, no_reader, on_commands, at_loss]
