"""Cases of cimbalotyd: its words, its file, and what it tells the service manager."""
import os
import pathlib
import signal
import socket
import stat
import subprocess
import tempfile
import time

from daemons import Daemon, Line, TOP, check, is_own


def run(build, *words):
    ran = subprocess.run([*build.words, *words], capture_output=True, text=True, timeout=20)
    return ran.returncode, ran.stdout, ran.stderr.strip()


def refusals(build):
    """Each bad word is refused before anything is opened, with what has to stand there."""
    rows = [
        (["--n1", "30", "t", "d"], "--n1 30: a number from 31 to 32767 has to stand there"),
        (["--n1", "031", "t", "d"], "--n1 031: a number"),
        (["--n1=32768", "t", "d"], "--n1 32768: a number"),
        (["--n1"], "--n1: a value has to stand behind it"),
        (["--speed", "12345", "t", "d"], "--speed 12345: a usual speed"),
        (["--t1", "9", "t", "d"], "--t1 9: a number from 10 to 60000"),
        (["--entry", "+CMUX=0", "t", "d"], "--entry +CMUX=0: AT or at"),
        (["--init", "ATé", "t", "d"], "--init ATé: AT or at"),
        (["--connections", "0", "t", "d"], "--connections 0: a number from 1 to 61"),
        (["--events", "at5", "t", "d"], "events at5: there are only 4 connections"),
        (["--events", "ati", "t", "d"], "--events ati: the name"),
        (["--data", "0", "t", "d"], "--data 0: the number of a connection"),
        (["--dial", "5", "t", "d"], "connection 5: there is no such connection"),
        (["--sms", "62", "t", "d"], "sms 62: the number of a connection"),
        (["--carrier", "2", "--sms", "2", "t", "d"], "connection 2: it has a carrier, and carries no data"),
        (["--connections", "9", *(word for n in range(1, 10) for word in ("--data", str(n))), "t", "d"], "at most 8 connections carry data"),
        (["--mode", "8", "t", "d"], "--mode 8: permissions in octal"),
        (["--group", "no-such-group", "t", "d"], "--group no-such-group: the name or number of a group"),
        (["--rtscts=1", "t", "d"], "--rtscts 1: no value"),
        (["--log", "file", "t", "d"], "--log file: stderr or syslog"),
        (["--level", "loud", "t", "d"], "--level loud: error, warning"),
        (["--limit", "0", "t", "d"], "--limit 0: a number from 1"),
        (["--colour", "t", "d"], "--colour: no such option"),
        (["--dialect", "/no/such/file", "t", "d"], "dialect /no/such/file: No such file"),
        (["--config", "/no/such/file", "t", "d"], "--config /no/such/file: No such file"),
        (["t"], "usage: cimbalotyd [OPTION..] TTY DIRECTORY"),
        (["t", "d", "e"], "e: an operand too many"),
    ]
    wrong = []
    for words, want in rows:
        status, out, said = run(build, *words)
        if status != 2 or want not in said or out or said.count("\n"):
            wrong.append((words, status, said))
    check(f"{build.name}: {len(rows)} refused words", not wrong, str(wrong) if wrong else "each with its reason")


def files(build):
    """The same words from a file: a bad one is named with its line."""
    rows = [("# a comment\n\nn1 30\n", ":3: n1 30: a number from 31"), ("tty\n", ":1: tty: a value"), ("rtscts yes\n", ":1: rtscts yes: no value"),
            ("speed 9600\nfast\n", ":2: fast: no such word"), ("config other\n", ":1: config: no such word")]
    wrong = []
    with tempfile.TemporaryDirectory() as place:
        path = pathlib.Path(place) / "modem.conf"
        for text, want in rows:
            path.write_text(text)
            status, out, said = run(build, "--config", path, "t", "d")
            if status != 2 or str(path) + want not in said:
                wrong.append((text, status, said))
        rules = [("final line OK2\nfinal maybe X\n", ":2: line, prefix"), ("final prefix AT\n", ":1: a line that begins with AT"),
                 ("sometimes line X\n", ":1: final or unsolicited"), ("unsolicited line X\n", ":1: a name"), ("# none\n\nfinal line \n", ":3: the text of the rule"),
                 ("final line A\rB\n", ":1: the text of a rule has no CR")]
        for text, want in rules:
            path.write_text(text)
            status, out, said = run(build, "--dialect", path, "t", "d")
            if status != 2 or str(path) + want not in said:
                wrong.append((text, status, said))
        line = Line()
        path.write_text(f"tty {line.path}\r\nn1=64\n  entry = AT+CMUX=0,0,5,64  \ninit AT+CPIN=\"1234\"\ninit ATE0\nconnections 2\nlevel debug\n")
        with Daemon(build, None, "--config", path, "--directory", place, folder=place) as daemon:
            is_open = daemon.await_text("connection 2 is open")
            names = sorted(os.listdir(place))
            said = daemon.said()
    check(f"{build.name}: words from a file", not wrong and is_open and names == ["at1", "at2", "events", "modem.conf"]
          and line.modem.entered == [b"AT+CMUX=0,0,5,64"] and line.modem.inits == [b"AT", b'AT+CPIN="1234"', b"ATE0"],
          f"{wrong or ''} {names}, entered by {line.modem.entered} behind {line.modem.inits}, {said.strip()}")
    line.end()


def help_and_version(build):
    status, out, said = run(build, "--help")
    version = run(build, "--version")
    page = (TOP / "daemon" / "cimbalotyd.8").read_text().replace("\\-", "-")
    words = [line.split()[0] for line in out.splitlines() if line.startswith("  --")]
    missing = [word for word in words if word.rstrip(",") not in page]
    check(f"{build.name}: --help and --version", status == 0 and not said and len(words) == 24 and not missing and version[0] == 0
          and version[1] == "cimbalotyd 0.1.0\n", f"{len(words)} words, not in the man page: {missing}, {version[1].strip()}")


def dialect(build):
    """A final code and a kind of the modem's own."""
    line = Line()
    with tempfile.NamedTemporaryFile("w") as rules:
        rules.write("# of its own\nfinal line SEND FAIL\r\nunsolicited prefix +QIURC: QIURC\n")
        rules.flush()
        with Daemon(build, line.path, "--dialect", rules.name) as daemon:
            with daemon.terminal("at1") as terminal, daemon.terminal("events") as events:
                terminal.write(b"AT+QISEND\r")
                said, heard = terminal.next(), events.next()
                later = terminal.ask("AT+LATER")
            check(f"{build.name}: a dialect from a file", said == "SEND FAIL" and heard == '+QIURC: "recv",0' and is_own(later, "AT+LATER"), f"{said}, {heard}")
    line.end()


def permissions(build):
    line = Line()
    with Daemon(build, line.path, "--mode", "660", "--group", "tty", "--connections", "1") as daemon:
        how = os.stat(daemon.folder / "at1")
        events = os.stat(daemon.folder / "events")
        check(f"{build.name}: --mode and --group", stat.S_IMODE(how.st_mode) == stat.S_IMODE(events.st_mode) == 0o660 and how.st_gid == 5,
              f"{stat.S_IMODE(how.st_mode):o}, group {how.st_gid}")
    line.end()


def in_the_way(build):
    """A file that has a terminal's name isn't removed."""
    line = Line()
    with tempfile.TemporaryDirectory() as place:
        (pathlib.Path(place) / "at2").write_text("mine")
        with Daemon(build, line.path, folder=place, wait=False) as daemon:
            status, said = daemon.wait(), daemon.said()
            left = sorted(os.listdir(place))
            check(f"{build.name}: a file in the way", status == 1 and "at2" in said and left == ["at2"], f"status {status}, {said.strip()}, left {left}")
    line.end()


def service_manager(build):
    """READY, STATUS, signs of life and STOPPING, by sd_notify's protocol."""
    line = Line()
    with tempfile.TemporaryDirectory() as place:
        heard, told = [], socket.socket(socket.AF_UNIX, socket.SOCK_DGRAM)
        told.bind(place + "/notify")
        told.settimeout(0.3)
        environment = {**os.environ, "NOTIFY_SOCKET": place + "/notify", "WATCHDOG_USEC": "600000"}
        with Daemon(build, line.path, env=environment) as daemon:
            end = time.monotonic() + 2 * build.slow
            while time.monotonic() < end:
                try:
                    heard.append(told.recv(4096).decode())
                except TimeoutError:
                    pass
            daemon.end()
        while True:
            try:
                heard.append(told.recv(4096).decode())
            except TimeoutError:
                break
        told.close()
    lives = heard.count("WATCHDOG=1")
    check(f"{build.name}: the service manager", heard.count("READY=1") == 1 and "STATUS=4 of 4 connections are open" in heard and lives >= 4
          and heard.count("STOPPING=1") == 1, f"{lives} signs of life in 2 s, {[it for it in heard if it != 'WATCHDOG=1']}")
    line.end()


def report(build):
    """SIGUSR1 says how each connection stands, and what was counted."""
    line = Line()
    with Daemon(build, line.path) as daemon:
        with daemon.terminal("at1") as terminal, daemon.terminal("at2") as other:
            terminal.ask("AT+ONE")
            other.write(b"AT+SILENT\r")
            time.sleep(1.2)
            line.modem.write(b"\xf9\x05\xef\x05ab\x00\xf9")
            time.sleep(0.1)
            daemon.process.send_signal(signal.SIGUSR1)
            done = daemon.await_text("events (")
        said = daemon.said()
        check(f"{build.name}: SIGUSR1", done and "bad 1, longer than N1 0" in said and "connected, opened 1 times; 1 programs; 1 commands\n" in said
              and "1 commands, one for 1 s" in said and said.count(": connected, opened 1 times;") == 4 and "entered 1 times, lost 0 times" in said, said.strip())
    line.end()


def installed(build):
    """make install puts all in place; the unit is what systemd takes, and the page what man takes."""
    with tempfile.TemporaryDirectory() as place:
        subprocess.run(["make", "-s", "-C", TOP / "daemon", "install", f"DESTDIR={place}", "PREFIX=/usr", f"OUT={build.folder.name}", f"TARGET={build.target}"], check=True)
        files = sorted(str(it.relative_to(place)) for it in pathlib.Path(place).rglob("*") if it.is_file())
        unit = (pathlib.Path(place) / "usr/lib/systemd/system/cimbalotyd@.service").read_text()
        page = subprocess.run(["man", "--warnings", "-l", f"{place}/usr/share/man/man8/cimbalotyd.8"], capture_output=True, text=True, env={**os.environ, "MANPAGER": "cat"})
    check(f"{build.name}: make install", len(files) == 5 and "ExecStart=/usr/sbin/cimbalotyd" in unit and "@PREFIX@" not in unit and not page.stderr
          and "cimbalotyd" in page.stdout, f"{files} {page.stderr.strip()}")


CASES = [refusals, files, help_and_version, dialect, permissions, in_the_way, service_manager, report, installed]
