"""Scripts for `modemctl replay`, made by chance from a seed: requests, ticks and losses, and a modem that answers mostly.
What the driver does is only guessed here, so that things happen; what is right is for judge.py."""
import random

from frames import FLAG, Frame, spelled
from tables import CLD, CLD_BACK, FC_OFF, FC_ON, MSC, NSC, TEST, TEST_BACK

ENDS = [b"\r\n", b"\r", b"\n", b"\r\n\r\n", b"\n\r", b"\r\r"]
FINALS = [b"OK", b"OK", b"OK", b"ERROR", b"+CME ERROR: 10", b"+CME ERROR:", b"+CME ERROR: SIM busy", b"+CME ERROR:  7x"]
UNSOLICITED = [
    *(b"RING", b"+CRING: VOICE", b"+CGEV: NW DETACH", b"+CIEV: 2,3", b"+CREG: 2", b"+CREG:5", b"+CGREG: 1", b"+CREG:  1x"),
    *(b'+CREG: 1,"00A1","01B2C3D4",7', b'+CGREG: 1, "00A1","B"', b'+CREG: 1x,"', b"+CRING:", b"+CIEV:"),
]
PLAIN = [
    *(b"+CSQ: 18,99", b"+CREG: 0,1", b"+CGREG: 0,1", b"+CREG: (0-2)", b"+CREG:", b"+CREG: ,1", b"RING ", b" RING", b"ring"),
    *(b"OK ", b" OK", b"ok", b"ERRORS", b"+CME ERROR", b"+CMS ERROR: 1", b"CME ERROR: 1", b"+CSQ: 1,1", b"AT", b"+CREG: 1,,"),
    *(b"x", b"|", b"\\x41", b"told 1 done", b"\x00\x01\x7f\x80\xff", b"\xf9\x05\xef\x01", b"+CREG: 1,\xf9", b" "),
]
COMMANDS = [
    *("AT", "at", "AT+CSQ", "AT+CREG?", "AT+CGREG?", "at+cops?", "AT+CSQ ", "AT  +CREG?", "ATOK", "AT RING", "AT\\x0d"),
    *('AT+CGDCONT=1,"IP","internet.example"', "AT+CPIN?", "AT+CGATT?", "AT+CMUX=0", "AT+CREG: 1", "ATERROR", "AT|"),
]


class Player:
    """A script under way, and what the modem knows."""

    def __init__(self, seed, dialect=None):
        self.rng = random.Random(seed)
        own = dialect.lines() if dialect else []
        self.finals = FINALS + [it for it in own if dialect.is_final(it)][:40]
        self.unsolicited = UNSOLICITED + [it for it in own if dialect.kind(it)][:80]
        self.plain = PLAIN + own
        self.n1 = self.rng.choice([31, 31, 31, 31, 32, 33, 64, 127, 128, 200, 600, 32767])
        self.script = []
        self.wire = b""
        self.state = {}
        self.asked = []
        self.commands = {}
        self.stream = {}
        self.probes = []
        self.lost = False
        few = self.rng.choice([1, 1, 1, 2, 2, 3, 5, 8, 20, 61] if seed % 4 else [1, 2])
        self.dlcis = self.rng.sample(range(1, 62), few)
        self.damage = self.rng.choice([0, 0, 0, 0.01, 0.03, 0.15])
        self.cut = self.rng.choice([0, 0, 0.2, 0.7])
        self.quiet = self.rng.choice([0, 0.05, 0.3])

    def play(self):
        steps = self.rng.choice([8, 20, 40, 40, 80, 80, 160])
        if self.rng.random() < 0.95:
            self.begin()
        while len(self.script) < steps:
            if self.rng.random() < 0.3 and self.state.get(0) is None and not self.lost:
                self.flush()
                self.begin()
            self.step()
            if self.rng.random() >= self.quiet:
                self.flush()
            if self.lost:
                steps = min(steps, len(self.script) + 4)
        self.flush()
        return self.script

    def begin(self):
        """0 opens, and the connections mostly."""
        self.ask_open(0)
        self.answer_ask()
        for dlci in self.dlcis:
            if self.rng.random() < 0.9:
                self.flush()
                self.ask_open(dlci)
                self.answer_ask()

    def step(self):
        does = [
            (30, self.ask_command), (5, self.ask_open_some), (2, self.ask_close), (3, self.ask_probe), (0.25, self.ask_stop),
            (50, self.answer), (18, self.answer_ask), (8, self.announce), (6, self.flow), (5, self.say), (1, self.hang_up),
            (0.3, self.close_down), (1.5, self.stray), (1.5, self.noise), (6, self.tick), (0.25, self.lose), (0.3, self.flood),
            (2, self.reopen),
        ]  # fmt: skip
        weights, calls = zip(*does)
        self.rng.choices(calls, weights)[0]()

    # What the callers ask.

    def some(self):
        return self.rng.choice(self.dlcis) if self.rng.random() < 0.97 else self.rng.randrange(62)

    def some_open(self):
        opened = [it for it in self.dlcis if self.state.get(it) == "open"]
        return self.rng.choice(opened) if opened and self.rng.random() < 0.95 else self.some()

    def ask_open_some(self):
        shut = [it for it in [0, *self.dlcis] if it not in self.state]
        self.ask_open(self.rng.choice(shut) if shut and self.rng.random() < 0.8 else self.some())

    def ask_open(self, dlci):
        self.script.append(f"open {dlci}")
        if dlci not in self.state and (dlci == 0 or self.state.get(0) == "open"):
            self.state[dlci] = "opening"
            self.asked.append(("open", dlci))

    def ask_close(self, dlci=None):
        if dlci is None:
            dlci = self.some_open()
        self.script.append(f"close {dlci}")
        if dlci and self.state.get(dlci) == "open":
            self.state[dlci] = "closing"
            self.asked.append(("close", dlci))
            self.forget(dlci)

    def text(self):
        if self.rng.random() < 0.8:
            return self.rng.choice(COMMANDS)
        length = self.rng.choice([2, 29, 30, 31, 60, 61, 62, 92, 123, 255, 256, self.rng.randrange(2, 257)])
        return "AT" + "".join(chr(self.rng.randrange(0x20, 0x7F)) for _ in range(length - 2))

    def ask_command(self, dlci=None):
        if dlci is None:
            dlci = self.some_open() if self.rng.random() < 0.97 else self.rng.randrange(62)
        text = self.text()
        self.script.append(f"cmd {dlci} {text}")
        if dlci and self.state.get(dlci) == "open":
            self.commands.setdefault(dlci, []).append(text.encode())

    def ask_probe(self):
        data = self.rng.randbytes(self.rng.randrange(1, 17))
        self.script.append("probe " + (data.hex().upper() if self.rng.random() < 0.3 else data.hex()))
        if self.state.get(0) == "open":
            self.probes.append(data)
            self.asked.append(("probe", data))

    def ask_stop(self):
        self.script.append("stop")
        if self.state.get(0) == "open":
            self.forget_all()
            self.state[0] = "stopping"
            self.asked.append(("stop", None))

    def flood(self):
        """More requests than may be in hand."""
        for _ in range(self.rng.randrange(100, 160)):
            self.rng.choices([self.ask_command, self.ask_open_some, self.ask_probe], [50, 1, 1])[0]()

    # What the modem sends.

    def put(self, frame):
        octets = spelled(frame, self.rng.random() < 0.05)
        if self.wire[-1:] == bytes([FLAG]) and self.rng.random() < 0.3:
            octets = octets[1:]
        elif self.rng.random() < 0.1:
            octets = bytes([FLAG]) * self.rng.randrange(1, 4) + octets
        if self.rng.random() < self.damage:
            octets = self.damaged(octets)
        self.wire += octets

    def damaged(self, octets):
        at = self.rng.randrange(len(octets))
        how = self.rng.randrange(6)
        if how == 0:
            return octets[:at] + bytes([octets[at] ^ 1 << self.rng.randrange(8)]) + octets[at + 1 :]
        if how == 1:
            return octets[:at] + octets[at + 1 :]
        if how == 2:
            return octets[: at + 1] + octets[at:]
        if how == 3:
            return octets[:at]
        if how == 4:
            return octets[:at] + self.rng.randbytes(self.rng.randrange(1, 6)) + octets[at:]
        return octets[:at] + bytes([FLAG]) + octets[at:]

    def put_control(self, dlci, kind):
        bits = self.rng.random() < 0.05
        self.put(Frame(dlci, kind, int((kind in ("UA", "DM")) != bits), int(self.rng.random() < 0.9), b""))

    def put_info(self, dlci, info):
        bits = self.rng.random() < 0.05
        self.put(Frame(dlci, "UIH", int(bits), int(self.rng.random() < 0.1), info))

    def put_message(self, octet, value):
        info = bytes([octet, len(value) << 1 | 1]) + value
        if self.rng.random() < 0.05:
            info = self.rng.choice([info[:1], info[:-1], info + b"\xe3\x05\x07\x0f", info + b"x"])
        if self.rng.random() < 0.03 and len(info) > 1:
            at = self.rng.randrange(2)
            info = info[:at] + bytes([info[at] ^ 1]) + info[at + 1 :]
        self.put_info(0, info[: self.n1])

    def flush(self):
        """What is on the wire comes, in lines cut anywhere."""
        while self.wire:
            count = len(self.wire)
            if self.rng.random() < self.cut:
                count = self.rng.choice([1, 2, 3, self.rng.randrange(1, count + 1)])
            piece, self.wire = self.wire[:count], self.wire[count:]
            self.script.append("in " + (piece.hex().upper() if self.rng.random() < 0.1 else piece.hex()))
            if self.rng.random() < self.quiet:
                return

    # How the modem answers.

    def answer_ask(self):
        """A SABM, DISC, probe or stop is answered, mostly well."""
        if not self.asked:
            return self.answer()
        word, what = self.asked.pop(self.rng.randrange(len(self.asked)) if self.rng.random() < 0.2 else 0)
        if self.rng.random() < 0.06:
            return None
        return {"open": self.answer_open, "close": self.answer_close, "probe": self.answer_probe, "stop": self.answer_stop}[word](what)

    def answer_open(self, dlci):
        kind = self.rng.choices(["UA", "DM", "DISC", "SABM"], [92, 5, 1.5, 1.5])[0]
        self.put_control(dlci, kind)
        if kind == "UA":
            self.state[dlci] = "open"
            if dlci and self.rng.random() < 0.5:
                self.put_message(MSC & 0xFD, bytes([dlci << 2 | 3, 0x8D]))
        else:
            self.state.pop(dlci, None)
        if self.rng.random() < 0.05:
            self.put_control(dlci, "UA")

    def answer_close(self, dlci):
        self.put_control(dlci, self.rng.choices(["UA", "DM", "DISC", "SABM"], [80, 10, 5, 5])[0])
        self.state.pop(dlci, None)

    def answer_probe(self, data):
        octet, value = self.rng.choices(
            [(TEST_BACK, data), (NSC, bytes([TEST])), (NSC, bytes([TEST_BACK])), (NSC, bytes([TEST, 0])), (TEST_BACK, data[:-1])],
            [70, 10, 5, 5, 10],
        )[0]
        self.put_message(octet, value)

    def answer_stop(self, _):
        octet, value = self.rng.choice([(CLD_BACK, b""), (CLD_BACK, b"x"), (CLD, b""), (MSC, b"\x07\x8d"), (TEST, b"ab"), (FC_OFF, b"")])
        if self.rng.random() < 0.3:
            self.put_control(0, self.rng.choice(["UA", "DM", "DISC", "SABM"]))
        self.put_message(octet, value)
        if octet in (CLD, CLD_BACK):
            self.forget_all()

    def line(self, dlci):
        """A line that is none of a final code, mostly."""
        kind = self.rng.randrange(12)
        if kind < 4:
            return self.rng.choice(self.unsolicited)
        if kind == 4:
            letters = self.rng.randbytes(1).translate(bytes.maketrans(b"\r\n", b"xx"))
            return self.rng.choice([b"", b"+CREG: 1,", b"OK", b"+CREG: 1"]) + letters * self.rng.choice([30, 200, 509, 511, 512, 513, 700])
        if kind == 5 and self.commands.get(dlci):
            return self.rng.choice(self.commands[dlci])
        if kind == 6:
            return self.rng.randbytes(self.rng.randrange(1, 40)).translate(bytes.maketrans(b"\r\n", b"xx"))
        return self.rng.choice(self.plain)

    def reply(self, dlci):
        """The octets that answer the first command."""
        text = self.commands[dlci].pop(0)
        lines = [self.line(dlci) for _ in range(self.rng.choice([0, 1, 1, 2, 4]))]
        if self.rng.random() < 0.3:
            lines.insert(0 if self.rng.random() < 0.8 else self.rng.randrange(len(lines) + 1), text)
        if self.rng.random() < 0.05:
            lines.insert(0, text)
        lines.append(self.rng.choice(self.finals))
        if self.rng.random() < 0.1:
            lines.append(self.rng.choice([*self.finals, *self.plain, *self.unsolicited]))
        return b"".join(self.wrapped(it) for it in lines)

    def wrapped(self, line):
        return self.rng.choice([b"\r\n", b"\r\n", b"\r\n", b"", b"\n"]) + line + self.rng.choice([b"\r\n", b"\r\n", b"\r\n", *ENDS])

    def answer(self):
        """The next octets of an answer, in a frame or some."""
        ready = [it for it in self.dlcis if self.stream.get(it) or self.commands.get(it)]
        if not ready:
            return self.announce()
        dlci = self.rng.choice(ready)
        if not self.stream.get(dlci):
            self.stream[dlci] = self.reply(dlci)
            if self.rng.random() < 0.1 and self.commands[dlci]:
                self.stream[dlci] += self.reply(dlci)
        return self.send_stream(dlci, self.rng.choice([1, 1, 2, 4, 40]))

    def send_stream(self, dlci, frames):
        for _ in range(frames):
            if not self.stream.get(dlci):
                return
            most = min(self.n1, len(self.stream[dlci]))
            count = self.rng.choice([1, most, most, most, self.rng.randrange(1, most + 1)])
            self.put_info(dlci, self.stream[dlci][:count])
            self.stream[dlci] = self.stream[dlci][count:]

    def announce(self):
        """A line that nobody asked for, sometimes a final code or only a part of a line."""
        dlci = self.some_open()
        line = self.rng.choice([self.line(dlci), self.rng.choice(self.unsolicited), self.rng.choice(self.finals + self.plain)])
        octets = self.wrapped(line)
        if self.rng.random() < 0.15:
            octets = octets[: self.rng.randrange(len(octets))]
        rest, self.stream[dlci] = self.stream.get(dlci, b""), octets
        self.send_stream(dlci, 60)
        self.stream[dlci] = rest if self.rng.random() < 0.98 else b""

    def flow(self):
        dlci = self.some_open()
        signals = self.rng.choice([0x8F, 0x8D, 0x0F, 0x0D, 0x02, 0xFD, self.rng.randrange(256)])
        value = bytes([dlci << 2 | self.rng.choice([3, 3, 3, 0, 1, 2]), signals]) + self.rng.choice([b"", b"", b"\x01", b"xyz"])
        octet = self.rng.choices([MSC, FC_OFF, FC_ON, MSC & 0xFD, FC_OFF & 0xFD, FC_ON & 0xFD], [60, 10, 15, 5, 2, 2])[0]
        self.put_message(octet, value if octet | 2 == MSC else self.rng.choice([b"", b"", b"", b"v"]))

    def say(self):
        """Any other control message."""
        value = self.rng.randbytes(self.rng.choice([0, 1, 1, 2, 8, 20]))
        octet = self.rng.choice([TEST, TEST_BACK, NSC, 0x13, 0x83, 0x81, 0x93, 0x53, 0xD3, self.rng.randrange(256)])
        if self.probes and self.rng.random() < 0.3:
            octet, value = TEST_BACK, self.rng.choice(self.probes)
        if octet & ~2 == CLD_BACK and self.rng.random() < 0.8:
            octet = NSC
        self.put_message(octet, value[: self.n1 - 2])

    def hang_up(self, dlci=None):
        if dlci is None:
            dlci = self.some_open() if self.rng.random() < 0.9 else 0
        kind = self.rng.choice(["DM", "DISC", "SABM"])
        self.put_control(dlci, kind)
        if dlci:
            self.state.pop(dlci, None)
            self.forget(dlci)
        else:
            self.forget_all()

    def reopen(self):
        """A connection, stopped or not, is asked a command, closed by either end and opened again."""
        dlci = self.some_open()
        if self.rng.random() < 0.6:
            self.put_message(MSC, bytes([dlci << 2 | 3, 0x8F]))
            self.flush()
        self.ask_command(dlci)
        if self.rng.random() < 0.5:
            self.ask_close(dlci)
            self.answer_ask()
        else:
            self.hang_up(dlci)
        self.flush()
        self.ask_open(dlci)
        self.answer_ask()

    def close_down(self):
        self.put_message(CLD, self.rng.choice([b"", b"", b"v"]))
        self.forget_all()

    def stray(self):
        """A frame that nobody waits for."""
        self.put_control(self.rng.choice([*self.dlcis, *range(1, 62)]), self.rng.choice(["UA", "UA", "UA", "DM", "DISC", "SABM"]))

    def noise(self):
        heads = [b"", b"\xf9", b"\xf9\x05\xef", b"\xf9\x05\xef\x3f", b"\xf9\x05\xef\x00\x01", b"\xf9\x03\x73", b"\xf9\xf9\x05"]
        self.wire += self.rng.choice(heads) + self.rng.randbytes(self.rng.choice([0, 1, 3, 20]))

    def tick(self):
        for _ in range(self.rng.choice([1, 1, 1, 2, 4, 5])):
            self.script.append("tick")
        if self.rng.random() < 0.3:
            for word, what in self.asked:
                if word in ("open", "close"):
                    self.state.pop(what, None)

    def lose(self):
        self.script.append("lost")
        self.lost = True
        if self.rng.random() < 0.2:
            self.script.append("lost")

    def forget(self, dlci):
        self.commands.pop(dlci, None)
        if self.rng.random() < 0.5:
            self.stream.pop(dlci, None)

    def forget_all(self):
        self.state = {}
        self.asked = []
        for dlci in list(self.commands):
            self.forget(dlci)
