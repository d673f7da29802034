#!/usr/bin/env python3
"""A client of a modem on a terminal: client.py DEVICE [COMMANDS].

It sends what clients send as they begin, enters the multiplexer, talks on two connections, so many commands on each (50), leaves by
DISC, finds plain lines again, enters once more, and leaves by CLD. It ends by itself, at the latest a minute after it began, and says
each thing that came otherwise. Wants Python's standard library alone.
"""
import os, select, signal, sys, termios, time, tty

from mux import DISC, POLL, SABM, UA, UIH, Reader, frame


class Client:
    def __init__(self, device):
        self.line = os.open(device, os.O_RDWR | os.O_NOCTTY)
        tty.setraw(self.line, termios.TCSANOW)
        self.octets, self.reader, self.info, self.answered = b"", Reader(), {}, []

    def come(self):
        ready, _, _ = select.select([self.line], [], [], 5)
        if not ready:
            sys.exit(f"nothing came for five seconds; at hand: {self.octets!r} {self.info!r} {self.answered!r}")
        return os.read(self.line, 4096)

    def plain(self, text, want):
        """A plain command line, and what is wanted to be all that comes."""
        os.write(self.line, text)
        while len(self.octets) < len(want) and want.startswith(self.octets):
            self.octets += self.come()
        assert self.octets.startswith(want), (text, self.octets)
        self.octets = self.octets[len(want):]

    def frames(self):
        for dlci, kind, info in self.reader.take(self.come()):
            if kind == UIH and dlci:
                self.info[dlci] = self.info.get(dlci, b"") + info
            elif kind != UIH:
                self.answered.append((dlci, kind))
            elif info == b"\xc1\x01":
                self.answered.append((0, "closed"))

    def control(self, dlci, kind):
        os.write(self.line, frame(dlci, 1, kind | POLL))
        self.until(lambda: (dlci, UA) in self.answered)
        self.answered.remove((dlci, UA))

    def until(self, holds):
        while not holds():
            self.frames()

    def say(self, dlci, text):
        os.write(self.line, frame(dlci, 1, UIH, text))

    def hear(self, dlci, want):
        self.until(lambda: len(self.info.get(dlci, b"")) >= len(want))
        assert self.info[dlci].startswith(want), (dlci, want, self.info[dlci])
        self.info[dlci] = self.info[dlci][len(want):]


def answer(*lines):
    return b"".join(b"\r\n" + line + b"\r\n" for line in lines)


def begin(client, cmux):
    client.plain(b"\x1aATZ\r", answer(b"OK"))
    client.plain(b"ATE0 +CMEE=1\r", answer(b"OK"))
    client.plain(b"AT+CFUN=1;+CFUN?\r", answer(b"+CFUN: 1", b"OK"))
    client.plain(b"AT+CGATT=2\r", answer(b"ERROR"))
    client.plain(b"AT+CMUX=1\r", answer(b"ERROR"))
    client.plain(b"AT+CMUX=?\r", answer(b"+CMUX: (0),(0),(1-8),(31-32767),(1-255),(0-100),(2-255),(1-255)", b"OK"))
    client.plain(cmux, answer(b"OK"))


def talk(client, commands):
    for dlci in 0, 1, 2:
        client.control(dlci, SABM)
    for place in range(commands):
        client.say(1, b"AT+CSQ;+CREG?\r")
        client.say(2, b"AT+CGDCONT=%d,\"IP\",\"net%d\"\r" % (place % 15 + 1, place))
        client.hear(1, answer(b"+CSQ: 18,99", b"+CREG: 0,1", b"OK"))
        client.hear(2, answer(b"OK"))
    cids = sorted({place % 15 + 1: place for place in range(commands)}.items())
    client.say(2, b"AT+CGDCONT?\r")
    client.hear(2, answer(*(b"+CGDCONT: %d,\"IP\",\"net%d\",\"\",0,0" % it for it in cids), b"OK"))


def main():
    signal.alarm(60)
    client, commands = Client(sys.argv[1]), int(sys.argv[2]) if len(sys.argv) > 2 else 50
    begun = time.monotonic()
    begin(client, b"AT+CMUX=0,0,5,127\r")
    talk(client, commands)
    took = time.monotonic() - begun
    for dlci in 1, 2, 0:
        client.control(dlci, DISC)
    client.plain(b"ATI\r", answer(b"Cimbaloty simulated modem", b"OK"))
    client.plain(b"AT+CMUX=0\r", answer(b"OK"))
    for dlci in 0, 3:
        client.control(dlci, SABM)
    client.say(3, b"AT+CREG=1\r")
    client.hear(3, answer(b"OK"))
    client.say(3, b"AT+CFUN=4\r")
    client.hear(3, answer(b"OK", b"+CREG: 0"))
    os.write(client.line, frame(0, 1, UIH, b"\xc3\x01"))
    client.until(lambda: (0, "closed") in client.answered)
    client.plain(b"AT+CREG?\r", answer(b"+CREG: 1,0", b"OK"))
    print(f"{2 * commands} commands on two connections in {took:.2f} s; left by DISC and by CLD, and found plain lines again")


main()
