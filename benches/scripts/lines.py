"""Lines of AT texts: ITU-T V.250, 5.7, and 3GPP TS 27.007, 9."""
import re

MOST = 512
REGISTERED = re.compile(rb"\+(CG?REG): *[0-9](?:[^,]*$|[^,]*, *\")", re.S)
STARTS = [(b"+CRING:", "CRING"), (b"+CGEV:", "CGEV"), (b"+CIEV:", "CIEV")]


def split(octets):
    """The whole lines in these octets, and the unfinished one behind them."""
    *whole, rest = re.split(rb"[\r\n]", octets)
    return [line[:MOST] for line in whole if line], rest


def is_final(line):
    return line in (b"OK", b"ERROR") or line.startswith(b"+CME ERROR:")


def unsolicited(line):
    """The kind of an unsolicited line; None where it is none."""
    if line == b"RING":
        return "RING"
    for start, kind in STARTS:
        if line.startswith(start):
            return kind
    found = REGISTERED.match(line)
    return found and found[1].decode()


def printed(line):
    """The line as modemctl prints it."""
    return "".join(chr(it) if 0x20 <= it <= 0x7E else f"\\x{it:02x}" for it in line)
