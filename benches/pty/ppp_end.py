"""An end of a link by PPP, in a network namespace of its own, with TCP above it. It shares nothing with the crates.

  ppp_end.py serve|fetch WHERE OCTETS [pppd]

WHERE is a terminal's path, or fd:N for an open file. PPP is that of RFC 1661, 1662 and 1332, without options but the address, between WHERE
and a tun device; or it is pppd's. `serve` is 10.9.0.2 and waits at a port of TCP. `fetch` is 10.9.0.1: it connects, then sends three ICMP echoes. Both send so
many octets, made by chance from a seed of each end, and read as many. Then one line of JSON tells what came. It wants root.
"""
import binascii
import ctypes
import fcntl
import hashlib
import json
import os
import random
import re
import select
import socket
import struct
import subprocess
import sys
import threading
import time
import tty

ADDRESSES = {"serve": "10.9.0.2", "fetch": "10.9.0.1"}
SEEDS = {"serve": 1, "fetch": 2}
PORT = 8099
NEWNET, TUNSETIFF, TUN, NO_PI = 0x40000000, 0x400454CA, 1, 0x1000
GETFLAGS, SETFLAGS, SETADDRESS, SETPEER, SETMTU = 0x8913, 0x8914, 0x8916, 0x8918, 0x8922
UP, POINT_TO_POINT, RUNNING, NO_ARP = 1, 0x10, 0x40, 0x80
LCP, IPCP, IP = 0xC021, 0x8021, 0x0021
REQUEST, ACK, REJECT, ECHO, ECHO_REPLY = 1, 2, 4, 9, 10
FLAG = 0x7E
TO_ESCAPE, ESCAPED = re.compile(rb"[\x00-\x1f\x7d\x7e]"), re.compile(rb"\x7d(.)", re.S)
REVERSED = bytes(int(f"{it:08b}"[::-1], 2) for it in range(256))


def check_of(octets):
    """The check sequence of RFC 1662, C.2, as it stands in a frame. `crc_hqx` takes the high bit of an octet first, PPP the low one."""
    register = binascii.crc_hqx(octets.translate(REVERSED), 0xFFFF) ^ 0xFFFF
    return bytes([REVERSED[register >> 8], REVERSED[register & 0xFF]])


def digest(octets):
    return hashlib.sha256(octets).hexdigest()[:12]


def blob(end, count):
    return random.Random(SEEDS[end]).randbytes(count)


class Tun:
    """A tun device of this namespace: its file, and how it gets its addresses."""

    def __init__(self):
        self.fd = os.open("/dev/net/tun", os.O_RDWR)
        fcntl.ioctl(self.fd, TUNSETIFF, struct.pack("16sH22x", b"ppp0", TUN | NO_PI))
        os.set_blocking(self.fd, False)

    def set_up(self, local, remote):
        with socket.socket(socket.AF_INET, socket.SOCK_DGRAM) as it:
            for call, address in ((SETADDRESS, local), (SETPEER, remote)):
                fcntl.ioctl(it, call, struct.pack("16sHxx4s16x", b"ppp0", socket.AF_INET, socket.inet_aton(address)))
            fcntl.ioctl(it, SETMTU, struct.pack("16si20x", b"ppp0", 1500))
            fcntl.ioctl(it, SETFLAGS, struct.pack("16sH22x", b"ppp0", UP | POINT_TO_POINT | RUNNING | NO_ARP))


class Control:
    """LCP or IPCP of a link: whether either end's request has been granted (RFC 1661, 4)."""

    def __init__(self, link, protocol, options):
        self.link, self.protocol, self.options = link, protocol, options
        self.id, self.granted, self.grants = 0, False, False

    def say(self, code, number, body=b""):
        self.link.send(self.protocol, struct.pack(">BBH", code, number, len(body) + 4) + body)

    def request(self):
        self.id = (self.id + 1) & 0xFF
        self.say(REQUEST, self.id, self.options)

    def take(self, packet):
        code, number, length = struct.unpack(">BBH", packet[:4])
        body = packet[4:length]
        if code == REQUEST:
            unknown = self.unknown(body)
            self.say(REJECT if unknown else ACK, number, unknown or body)
            self.grants = self.grants or not unknown
        elif code == ACK:
            self.granted = True
        elif code == ECHO and self.protocol == LCP:
            self.say(ECHO_REPLY, number, bytes(4))

    def unknown(self, body):
        """The options but addresses that are asked for: each is rejected."""
        found = b""
        while len(body) >= 2 and body[1] >= 2:
            if not (self.protocol == IPCP and body[0] == 3):
                found += body[: body[1]]
            body = body[body[1] :]
        return found

    def is_open(self):
        return self.granted and self.grants


class Link:
    """PPP between an open file and a tun device."""

    def __init__(self, fd, end):
        self.fd, self.tun, self.end = fd, Tun(), end
        self.out, self.held = bytearray(), bytearray()
        self.up, self.ended = threading.Event(), threading.Event()
        self.lcp = Control(self, LCP, b"")
        self.ipcp = Control(self, IPCP, bytes([3, 6]) + socket.inet_aton(ADDRESSES[end]))
        os.set_blocking(fd, False)

    def send(self, protocol, body):
        octets = b"\xff\x03" + struct.pack(">H", protocol) + body
        octets += check_of(octets)
        self.out += b"\x7e" + TO_ESCAPE.sub(lambda it: bytes([0x7D, it[0][0] ^ 0x20]), octets) + b"\x7e"

    def take_frame(self, octets):
        octets = ESCAPED.sub(lambda it: bytes([it[1][0] ^ 0x20]), octets)
        if len(octets) < 6 or check_of(octets[:-2]) != octets[-2:]:
            return
        protocol = struct.unpack(">H", octets[2:4])[0]
        if protocol == IP and self.up.is_set():
            os.write(self.tun.fd, octets[4:-2])
        elif protocol in (LCP, IPCP):
            (self.lcp if protocol == LCP else self.ipcp).take(octets[4:-2])

    def negotiate(self):
        if not self.lcp.is_open():
            self.lcp.request()
        elif not self.ipcp.is_open():
            self.ipcp.request()

    def run(self):
        asked = 0.0
        while not self.ended.is_set():
            if not self.up.is_set() and time.monotonic() - asked > 0.3:
                asked = time.monotonic()
                self.negotiate()
            readers = [self.fd, *([self.tun.fd] if self.up.is_set() and len(self.out) < 32768 else [])]
            ready, able, _ = select.select(readers, [self.fd] if self.out else [], [], 0.1)
            try:
                self.step(ready, able)
            except BlockingIOError:
                pass
            except OSError:
                self.ended.set()

    def step(self, ready, able):
        if able:
            del self.out[: os.write(self.fd, self.out[:8192])]
        if self.tun.fd in ready:
            self.send(IP, os.read(self.tun.fd, 2000))
        if self.fd in ready:
            octets = os.read(self.fd, 65536)
            if not octets:
                self.ended.set()
            self.held += octets
            *frames, self.held = self.held.split(b"\x7e")
            for it in frames:
                self.take_frame(bytes(it))
            if self.ipcp.is_open() and not self.up.is_set():
                other = ADDRESSES["serve" if self.end == "fetch" else "fetch"]
                self.tun.set_up(ADDRESSES[self.end], other)
                self.up.set()


class Pppd:
    """PPP by pppd, where the kernel has it."""

    def __init__(self, where, end):
        self.up, self.ended = threading.Event(), threading.Event()
        own, other = ADDRESSES[end], ADDRESSES["serve" if end == "fetch" else "fetch"]
        words = ["nodetach", "nolog", "noauth", "local", "nocrtscts", "nodefaultroute", "mtu", "1500", f"{own}:{other}"]
        if where.startswith("fd:"):
            file = int(where[3:])
            self.process = subprocess.Popen(["pppd", "notty", *words], stdin=file, stdout=file)
        else:
            self.process = subprocess.Popen(["pppd", os.path.realpath(where), *words], stdin=subprocess.DEVNULL, stdout=subprocess.DEVNULL)

    @staticmethod
    def is_up():
        with socket.socket(socket.AF_INET, socket.SOCK_DGRAM) as it:
            try:
                return struct.unpack("16xH22x", fcntl.ioctl(it, GETFLAGS, struct.pack("16s24x", b"ppp0")))[0] & UP
            except OSError:
                return False

    def run(self):
        while self.process.poll() is None:
            if self.is_up():
                self.up.set()
            time.sleep(0.05)
        self.ended.set()


def ones_sum(octets):
    """The checksum of RFC 1071."""
    total = sum(struct.unpack(f">{len(octets) // 2}H", octets))
    while total >> 16:
        total = (total & 0xFFFF) + (total >> 16)
    return total ^ 0xFFFF


def pings(count):
    """How long each of so many ICMP echoes (RFC 792) took that were answered within two seconds."""
    took = []
    with socket.socket(socket.AF_INET, socket.SOCK_RAW, socket.IPPROTO_ICMP) as it:
        it.settimeout(2)
        for number in range(count):
            body = struct.pack(">HH", 77, number) + b"cimbaloty " * 5
            head = struct.pack(">BBH", 8, 0, ones_sum(struct.pack(">BBH", 8, 0, 0) + body))
            begun = time.monotonic()
            try:
                it.sendto(head + body, (ADDRESSES["serve"], 0))
                while (said := it.recv(2000))[20] != 0 or said[24:] != body:
                    pass
                took.append(time.monotonic() - begun)
            except OSError:
                pass    # no answer in time, or the link has ended
    return took


def exchange(end, it, count):
    """Sends its octets and reads as many, at once."""
    it.settimeout(30)
    writer = threading.Thread(target=send_all, args=(it, blob(end, count)), daemon=True)
    writer.start()
    came = bytearray()
    try:
        while len(came) < count and (octets := it.recv(65536)):
            came += octets
        writer.join()
    except OSError:
        pass  # what came until then is told
    return bytes(came)


def send_all(it, octets):
    try:
        it.sendall(octets)
    except OSError:
        pass  # the one who reads has seen it end


def connected(until):
    """The other end may not wait for connections yet."""
    while True:
        try:
            return socket.create_connection((ADDRESSES["serve"], PORT), 10)
        except OSError:
            if time.monotonic() > until:
                raise
            time.sleep(0.1)


def connection(end):
    if end == "fetch":
        return connected(time.monotonic() + 60)
    with socket.create_server((ADDRESSES["serve"], PORT)) as waiting:
        waiting.settimeout(60)
        return waiting.accept()[0]


def leave(told, ended):
    print(json.dumps({**told, "ended": ended}), flush=True)
    os._exit(0)


def leave_at_end(link, told):
    link.ended.wait()
    leave(told, ended=True)


def link_by_tun(where, end):
    fd = int(where[3:]) if where.startswith("fd:") else os.open(where, os.O_RDWR | os.O_NOCTTY)
    if os.isatty(fd):
        tty.setraw(fd)
    return Link(fd, end)


def carry(end, count, told):
    """TCP over the link, behind three echoes: what came of it is told."""
    with connection(end) as it:
        told["pings"] = pings(3) if end == "fetch" else []
        begun = time.monotonic()
        came = exchange(end, it, count)
        told.update(came=len(came), digest=digest(came), seconds=time.monotonic() - begun)
        it.shutdown(socket.SHUT_WR)
        it.recv(1)


def main():
    end, where, count = sys.argv[1], sys.argv[2], int(sys.argv[3])
    if ctypes.CDLL(None, use_errno=True).unshare(NEWNET) != 0:
        sys.exit(f"ppp_end.py: no network namespace: {os.strerror(ctypes.get_errno())}")
    link = Pppd(where, end) if sys.argv[4:] == ["pppd"] else link_by_tun(where, end)
    threading.Thread(target=link.run, daemon=True).start()
    told = {"up": link.up.wait(60), "pings": [], "came": 0}
    threading.Thread(target=leave_at_end, args=(link, told), daemon=True).start()
    if told["up"]:
        try:
            carry(end, count, told)
        except OSError:
            pass    # the link has ended
    time.sleep(0.3)  # the last acknowledgement leaves
    leave(told, ended=told["came"] < count and link.ended.wait(10))


if __name__ == "__main__":
    main()
