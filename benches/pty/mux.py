"""Frames of 3GPP TS 27.010's basic option, from the standard alone: it shares nothing with the crates."""

FLAG = 0xF9
SABM, UA, DM, DISC, UIH = 0x2F, 0x63, 0x0F, 0x43, 0xEF
POLL = 0x10


def check_octet(octets):
    """5.2.3.6 and annex B: generator x^8 + x^2 + x + 1, low bit first, begun with ones, complemented."""
    register = 0xFF
    for octet in octets:
        register ^= octet
        for _ in range(8):
            register = (register >> 1) ^ 0xE0 if register & 1 else register >> 1
    return 0xFF - register


def frame(dlci, command, control, info=b""):
    """A frame as it stands on the line; the check octet of UIH doesn't cover the information."""
    length = [len(info) << 1 | 1] if len(info) < 128 else [len(info) << 1 & 0xFE, len(info) >> 7]
    head = bytes([dlci << 2 | command << 1 | 1, control, *length])
    return bytes([FLAG, *head, *info, check_octet(head), FLAG])


class Reader:
    """Frames out of octets as they come: pairs of a connection, a kind and information."""

    def __init__(self):
        self.octets = bytearray()

    def take(self, octets):
        self.octets += octets
        frames = []
        while (got := self.next()) is not None:
            frames.append(got)
        return frames

    def next(self):
        while len(self.octets) > 1 and self.octets[0] == FLAG and self.octets[1] == FLAG:
            del self.octets[0]
        if len(self.octets) < 6:
            return None
        assert self.octets[0] == FLAG, self.octets
        size = 1 if self.octets[3] & 1 else 2
        length = self.octets[3] >> 1 | (self.octets[4] << 7 if size == 2 else 0)
        whole = 3 + size + length + 2
        if len(self.octets) < whole:
            return None
        head, info = self.octets[1:3 + size], bytes(self.octets[3 + size:3 + size + length])
        assert self.octets[whole - 2] == check_octet(head) and self.octets[whole - 1] == FLAG, self.octets
        del self.octets[:whole]
        return head[0] >> 2, head[1] & ~POLL, info
