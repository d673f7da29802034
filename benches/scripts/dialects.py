"""Dialects made by chance (docs/FORMATS.md, the file of `--dialect`): the codes of a modem beside those of the standards."""
import random
import re
from collections import namedtuple

import lines

Rule = namedtuple("Rule", "form text name")

# How a line goes on behind the text of a rule.
GOES_ON = {
    "line": re.compile(rb"\Z"),
    "prefix": re.compile(rb""),
    "quoted": re.compile(rb' *"'),
    "report": re.compile(rb' *[0-9][^,]*(?:\Z|, *")'),
    "open-report": re.compile(rb" *[0-9][^,]*(?:\Z|,(?! *[0-9]))"),
}

# What may stand behind the text of a rule, so that it is a line of some forms and not of others.
BEHIND = [
    *(b"", b"", b" ", b"x", b'"', b' "x"', b'  "', b"1", b" 2", b" 0,1", b" 1, 1", b' 1,"00A1"', b' 1, "A",7', b" 3,,,,0,11", b" 1,"),
    *(b" ,1", b" x", b': "SM",3', b" 9x, x"),
]

FINALS = [
    *(("line", b"NO CARRIER"), ("line", b"BUSY"), ("line", b"NO ANSWER"), ("line", b"SEND FAIL"), ("line", b"+CREG: 0,1"), ("line", b"O")),
    *(("prefix", b"+CMS ERROR:"), ("prefix", b"NO"), ("prefix", b"+CME"), ("prefix", b"OK "), ("prefix", b"CONNECT"), ("prefix", b"E")),
    *(("quoted", b"+CLIP:"), ("quoted", b"^END:"), ("report", b"+CREG: 0,"), ("report", b"+DONE:"), ("open-report", b"+CEREG:")),
    *(("open-report", b"+DONE:"), ("prefix", b"\xf9"), ("prefix", b"+CSQ: 18,")),
]
UNSOLICITED = [
    *(("open-report", b"+CEREG:"), ("report", b"+CEREG:"), ("prefix", b"+CEREG: 1"), ("prefix", b"+CREG"), ("prefix", b"RING ")),
    *(("quoted", b"+CLIP:"), ("quoted", b"+CCWA:"), ("prefix", b"+CMTI:"), ("prefix", b"+CTZV:"), ("line", b"RDY"), ("line", b"x")),
    *(("prefix", b"+QIND:"), ("prefix", b"+Q"), ("prefix", b"+QIURC:"), ("line", b"^SYSSTART"), ("quoted", b"+CSQ"), ("line", b"OK ")),
    *(("report", b"+CREG: 0,"), ("prefix", b"\x00"), ("prefix", b"N"), ("open-report", b"^MODE:"), ("line", b"|")),
]
NAMES = ["READY", "READY", "CEREG", "OTHER", "RING", "QIURC", "A-1", "+CLIP:", "#"]


def takes(rule, line):
    return line.startswith(rule.text) and GOES_ON[rule.form].match(line, len(rule.text)) is not None


class Dialect:
    """The standards' codes, and rules of its own, each sort in its order."""

    def __init__(self):
        self.finals, self.unsolicited = [], []

    def is_final(self, line):
        return lines.is_final(line) or any(takes(it, line) for it in self.finals)

    def kind(self, line):
        """The kind of an unsolicited line; None where it is none."""
        return lines.unsolicited(line) or next((it.name for it in self.unsolicited if takes(it, line)), None)

    def is_clear(self):
        """No line of those that its rules could both take is a final code and unsolicited."""
        texts = [it.text for it in self.finals + self.unsolicited]
        texts += [b"OK", b"ERROR", b"+CME ERROR:", b"RING", b"+CRING:", b"+CREG:", b"+CGREG:", b"+CGEV:", b"+CIEV:"]
        tried = [text + it for text in texts for it in (b"", b'"', b"0")]
        return not any(self.is_final(it) and self.kind(it) for it in tried)

    def add(self, rules, rule):
        """One more rule, unless it were refused."""
        rules.append(rule)
        if not self.is_clear():
            rules.pop()

    def text(self, rng):
        """The file of it: a rule a line, the two sorts mixed, with comments and blank lines."""
        finals = [b"final " + it.form.encode() + b" " + it.text for it in self.finals]
        unsolicited = [b"unsolicited " + it.form.encode() + b" " + it.text + b" " + it.name.encode() for it in self.unsolicited]
        mixed = []
        while finals or unsolicited:
            mixed.append((finals if finals and (not unsolicited or rng.random() < 0.5) else unsolicited).pop(0))
            if rng.random() < 0.3:
                mixed.append(rng.choice([b"", b"# final line x", b"   ", b"#"]))
        return b"".join(it + rng.choice([b"\n", b"\n", b"\r\n"]) for it in mixed)

    def lines(self):
        """Lines that its rules take, or nearly."""
        return [it.text[:count] + more for it in self.finals + self.unsolicited for count in (len(it.text), len(it.text) - 1) for more in BEHIND]


def made(seed):
    """The dialect of this seed and the file of it, of every second seed; else None."""
    if seed % 2 == 0:
        return None, None
    rng, dialect = random.Random(f"dialect {seed}"), Dialect()
    for _ in range(rng.choice([0, 1, 2, 2, 5, 12])):
        dialect.add(dialect.finals, Rule(*rng.choice(FINALS), None))
    for _ in range(rng.choice([0, 1, 2, 2, 5, 12])):
        dialect.add(dialect.unsolicited, Rule(*rng.choice(UNSOLICITED), rng.choice(NAMES)))
    return dialect, dialect.text(rng)
