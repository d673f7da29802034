"""A modem on a pseudo-terminal, by 27.010 (basic option), 27.007 and V.250, that shares nothing with the crates.

It is at plain commands until AT+CMUX=0, then in the multiplexer until CLD, and then at plain commands again. It answers commands
by numbers of its own, so that each answer shows which command it is for.
"""
import os
import select
import tty

FLAG = 0xF9
SABM, UA, DM, DISC, UIH = 0x2F, 0x63, 0x0F, 0x43, 0xEF
PF = 0x10


def check_octet(octets):
    """The check octet of 27.010, 5.2.1.6: generator x^8+x^2+x+1, low bit first, complemented."""
    register = 0xFF
    for octet in octets:
        for place in range(8):
            bit = (octet >> place) & 1
            mixed = (register & 1) ^ bit
            register >>= 1
            if mixed:
                register ^= 0xE0
    return 0xFF - register


def frame(dlci, control, info=b"", cr=1):
    """A frame of the responder: a command has C/R 0, a response 1."""
    head = bytes([dlci << 2 | cr << 1 | 1, control])
    if len(info) < 128:
        head += bytes([len(info) << 1 | 1])
    else:
        head += bytes([(len(info) & 0x7F) << 1, len(info) >> 7])
    return bytes([FLAG]) + head + info + bytes([check_octet(head)]) + bytes([FLAG])


class Frames:
    """Frames out of octets."""

    def __init__(self):
        self.held = bytearray()

    def feed(self, octets):
        self.held += octets
        while True:
            while self.held and self.held[0] != FLAG:
                del self.held[0]
            while len(self.held) > 1 and self.held[1] == FLAG:
                del self.held[0]
            if len(self.held) < 6:
                return
            if self.held[2] & ~PF & 0xFF not in (SABM, UA, DM, DISC, UIH):
                del self.held[0]
                continue
            head = 4
            length = self.held[3] >> 1
            if not self.held[3] & 1:
                length |= self.held[4] << 7
                head = 5
            if len(self.held) < head + length + 2:
                return
            info = bytes(self.held[head:head + length])
            check = self.held[head + length]
            header = bytes(self.held[1:head])
            if check != check_octet(header) or self.held[head + length + 1] != FLAG:
                del self.held[0]
                continue
            del self.held[:head + length + 1]
            yield header[0] >> 2, header[1] & ~PF & 0xFF, info


class Modem:
    """A modem at the end `fd` of a pseudo-terminal."""

    def __init__(self, fd, boot=b"", refuses=False, mute=False, deaf=()):
        self.fd, self.refuses, self.mute, self.deaf = fd, refuses, mute, deaf
        self.longest = 0  # the most octets of information that came in one frame
        self.unheard = []  # the control octets, without P/F, of what came on a connection of `deaf` but data
        self.boot = boot
        self.multiplexed = False
        self.frames = Frames()
        self.plain = bytearray()
        self.lines = {}
        self.count = {}
        self.entered = []
        self.answered = 0
        self.gone = self.stands_still = False

    def write(self, octets):
        while octets:
            octets = octets[os.write(self.fd, octets):]

    def answer(self, dlci, line):
        """What a command is answered: its text, and how many came on its connection."""
        self.count[dlci] = self.count.get(dlci, 0) + 1
        if line == b"AT+SILENT":
            return None
        if line == b"AT+RING":
            return b"\r\nRING\r\n\r\nOK\r\n"
        if line == b"AT+QISEND":
            return b"\r\n+QIURC: \"recv\",0\r\n\r\nSEND FAIL\r\n"
        if line == b"AT+NO":
            return b"\r\n+CME ERROR: 3\r\n"
        return b"\r\n+ECHO: %d,%d,\"%s\"\r\n\r\nOK\r\n" % (dlci, self.count[dlci], line)

    def take(self, octets):
        if self.mute:
            return
        if self.multiplexed:
            self.take_frames(octets)
        else:
            self.take_plain(octets)

    def take_plain(self, octets):
        for place, octet in enumerate(octets):
            if octet != 13:
                self.plain.append(octet)
                continue
            line = bytes(self.plain)
            self.plain.clear()
            at = line.rfind(b"AT")
            if at < 0:
                continue
            line = line[at:]
            if self.boot:
                self.write(self.boot)
                self.boot = b""
            if line.startswith(b"AT+CMUX=0"):
                self.entered.append(line)
                if self.refuses:
                    self.write(b"\r\nERROR\r\n")
                    continue
                self.write(b"\r\nOK\r\n")
                self.multiplexed = True
                self.frames = Frames()
                self.lines.clear()
                self.take_frames(octets[place + 1:])
                return
            self.write(b"\r\nOK\r\n")

    def take_frames(self, octets):
        for dlci, control, info in self.frames.feed(octets):
            self.longest = max(self.longest, len(info))
            if dlci in self.deaf and control != UIH:
                self.unheard.append(control)
            elif control == SABM:
                self.write(frame(dlci, UA | PF))
                self.lines[dlci] = bytearray()
            elif control == DISC:
                self.write(frame(dlci, (UA if dlci in self.lines else DM) | PF))
                self.lines.pop(dlci, None)
            elif control == UIH and dlci == 0:
                self.take_message(info)
                if not self.multiplexed:
                    rest = bytes(self.frames.held[1:])
                    self.frames.held.clear()
                    self.take_plain(rest)
                    return
            elif control == UIH and dlci in self.lines:
                self.take_info(dlci, info)

    def take_message(self, info):
        if not info or not info[0] & 2:
            return
        self.write(frame(0, UIH, bytes([info[0] & 0xFD]) + info[1:], cr=0))
        if info[0] & 0xFD == 0xC1:
            self.multiplexed = False

    def take_info(self, dlci, info):
        for octet in info:
            if octet != 13:
                self.lines[dlci].append(octet)
                continue
            line = bytes(self.lines[dlci])
            self.lines[dlci].clear()
            text = self.answer(dlci, line)
            if text is None:
                continue
            self.answered += 1
            for start in range(0, len(text), 31):
                self.write(frame(dlci, UIH, text[start:start + 31], cr=0))

    def run(self):
        """Goes on until the other end is gone, or this one hangs up. Where it stands still it reads nothing."""
        while True:
            ready, _, _ = select.select([] if self.stands_still else [self.fd], [], [], 0.05)
            if self.gone:
                os.close(self.fd)
                return
            if not ready:
                continue
            try:
                octets = os.read(self.fd, 4096)
            except OSError:
                return
            if not octets:
                return
            self.take(octets)


def open_terminal():
    """A pseudo-terminal: the modem's end, and the path of the other."""
    ours, theirs = os.openpty()
    tty.setraw(theirs)
    path = os.ttyname(theirs)
    return ours, theirs, path
