"""Frames of 3GPP TS 27.010's basic option, read and written plainly over whole octets."""
from collections import namedtuple

FLAG = 0xF9
KINDS = {0x2F: "SABM", 0x63: "UA", 0x0F: "DM", 0x43: "DISC", 0xEF: "UIH"}
CONTROLS = {kind: octet for octet, kind in KINDS.items()}
PF = 0x10

Frame = namedtuple("Frame", "dlci kind cr pf info")


def check_octet(octets):
    """Section 5.2.1.6: x^8+x^2+x+1, preset to ones, low bit first, complemented."""
    left = 0xFF
    for octet in octets:
        left ^= octet
        for _ in range(8):
            left = left >> 1 ^ 0xE0 if left & 1 else left >> 1
    return 0xFF - left


def spelled(frame, two=False):
    """The frame with both its flags; `two` writes the length in two octets whatever it is."""
    count = len(frame.info)
    length = [count & 0x7F, count >> 7] if two or count > 127 else [count]
    length[0] = length[0] << 1 | (len(length) == 1)
    head = bytes([frame.dlci << 2 | frame.cr << 1 | 1, CONTROLS[frame.kind] | frame.pf << 4, *length])
    return bytes([FLAG]) + head + frame.info + bytes([check_octet(head), FLAG])


def candidate(text, n1):
    """Whether a frame and a flag stand at the front of the text behind a flag: the frame or None, and how many octets it
    takes to say so; (None, None) where more octets are wanted."""
    head = text[:3]
    if head and (not head[0] & 1 or head[0] >> 2 > 61):
        return None, 1
    if len(head) > 1 and head[1] & ~PF not in KINDS:
        return None, 2
    if len(head) < 3:
        return None, None
    kind, count = KINDS[head[1] & ~PF], head[2] >> 1
    most = n1 if kind == "UIH" else 0
    if count > most:
        return None, 3
    if not head[2] & 1:
        head = text[:4]
        if len(head) < 4:
            return None, None
        count |= head[3] << 7
        if count > most:
            return None, 4
    end = len(head) + count
    if len(text) > end and text[end] != check_octet(head):
        return None, end + 1
    if len(text) > end + 1 and text[end + 1] != FLAG:
        return None, end + 2
    if len(text) < end + 2:
        return None, None
    return Frame(head[0] >> 2, kind, head[0] >> 1 & 1, head[1] >> 4 & 1, text[len(head) : end]), end + 2


def read(octets, n1):
    """The frames of Reads (docs/DEFINITIONS.md) in these octets, each with how many octets it takes to know it."""
    frames, known = [], 0
    flag = octets.find(FLAG)
    while flag >= 0:
        text = octets[flag + 1 : flag + n1 + 8]
        frame, used = candidate(text, n1)
        if text[:1] == bytes([FLAG]):
            flag += 1
        elif used is None:
            break
        else:
            known = max(known, flag + 1 + used)
            if frame:
                frames.append((frame, known))
                flag += used
            else:
                flag = octets.find(FLAG, flag + 1)
    return frames


def message(info):
    """The control message at the front of the information of a UIH on 0: its type octet and value; None where there is
    none (5.4.6.3, with length fields of one octet)."""
    if len(info) < 2 or not info[0] & info[1] & 1 or 2 + (info[1] >> 1) > len(info):
        return None
    return info[0], info[2 : 2 + (info[1] >> 1)]
