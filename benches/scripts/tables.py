"""What the control channel and the callers are owed: the initiator's table, the control messages and the outcomes, each
as docs/FORMATS.md and docs/DEFINITIONS.md have it. Of data and of answers it knows nothing."""
from frames import Frame, message

TEST, TEST_BACK, NSC, NSC_COMMAND = 0x23, 0x21, 0x11, 0x13
FC_OFF, FC_ON, CLD, CLD_BACK, MSC = 0x63, 0xA3, 0xC3, 0xC1, 0xE3
RESPONSE = 0xFD
AGAIN = {"opening": "SABM", "closing": "DISC"}
MOST_IN_HAND = 128


class Tables:
    """Of a driver: how each connection stands and which requests are in hand, read off what came."""

    def __init__(self):
        self.state = ["shut"] * 62
        self.ticks = [0] * 62
        self.probe = None
        self.probe_ticks = 0
        self.hand = {}
        self.lost = False
        self.sent = []
        self.told = []

    def piece(self):
        """The control frames and the outcomes that were called for since the last time."""
        sent, told = self.sent, sorted(self.told)
        self.sent, self.told = [], []
        return sent, told

    def send(self, dlci, kind, info=b""):
        self.sent.append(Frame(dlci, kind, int(kind in ("SABM", "DISC", "UIH")), int(kind != "UIH"), info))

    def send_message(self, octet, value):
        self.send(0, "UIH", bytes([octet, len(value) << 1 | 1]) + value)

    def tell(self, answer, which):
        """Those in hand of which `which` holds are told this, in the order in which they were taken."""
        for number in [it for it, ask in self.hand.items() if which(ask)]:
            del self.hand[number]
            self.told.append((number, answer))

    def tell_asked(self, word, dlci, answer):
        self.tell(answer, lambda ask: ask[0] == word and (dlci is None or ask[1] == str(dlci)))

    def turn(self, dlci, state):
        self.state[dlci] = state
        self.ticks[dlci] = 0

    def took(self, number, ask):
        """A request is taken: the words of its line."""
        answer = "linelost" if self.lost else "busy" if len(self.hand) >= MOST_IN_HAND else self.refusal(ask)
        if answer:
            self.told.append((number, answer))
            return
        word, dlci = ask[0], int(ask[1]) if ask[0] in ("open", "close", "cmd") else 0
        if word == "open":
            self.turn(dlci, "opening")
            self.send(dlci, "SABM")
        elif word == "close":
            self.turn(dlci, "closing")
            self.send(dlci, "DISC")
            self.tell_asked("cmd", dlci, "closed")
        elif word == "probe":
            self.probe, self.probe_ticks = bytes.fromhex(ask[1]), 0
            self.send_message(TEST, self.probe)
        elif word == "stop":
            self.send_message(CLD, b"")
            self.end_all("stopping")
        self.hand[number] = ask

    def refusal(self, ask):
        word = ask[0]
        zero = self.state[0] == "opened"
        if word == "probe":
            return "notopen" if not zero else "busy" if self.probe is not None else None
        if word == "stop":
            return None if zero else "notopen"
        dlci = int(ask[1])
        state = self.state[dlci]
        if word == "open":
            if dlci and not zero:
                return "notopen"
            return {"opened": "alreadyopen", "shut": None}.get(state, "busy")
        if not dlci:
            return "controlchannel"
        if word == "close":
            return {"opened": None, "shut": "notopen"}.get(state, "busy")
        return None if state == "opened" else "notopen"

    def end_all(self, zero):
        """0 leaves Opened or Stopping: nothing else stays open."""
        for dlci in range(62):
            self.turn(dlci, "shut")
        self.turn(0, zero)
        self.probe = None
        self.tell("stopped", lambda ask: ask[0] == "stop")
        self.tell("closed", lambda ask: True)

    def end(self, dlci):
        """The connection leaves Opening, Opened, Closing or Stopping, because the other end says so."""
        if dlci == 0 and self.state[0] != "opening":
            self.end_all("shut")
            return
        self.turn(dlci, "shut")
        self.tell_asked("open", dlci, "refused")
        self.tell_asked("close", dlci, "shut")
        self.tell_asked("cmd", dlci, "closed")

    def got(self, frame):
        if self.lost:
            return
        dlci, state = frame.dlci, self.state[frame.dlci]
        if frame.kind == "UIH":
            if dlci == 0 and state in ("opened", "stopping"):
                self.read(message(frame.info))
        elif frame.kind == "UA":
            if state == "opening":
                self.turn(dlci, "opened")
                if dlci:
                    self.send_message(MSC, bytes([dlci << 2 | 3, 0x8D]))
                self.tell_asked("open", dlci, "opened")
            elif state == "closing":
                self.end(dlci)
        elif frame.kind == "DM":
            if state != "shut":
                self.end(dlci)
        else:
            self.send(dlci, "UA" if state == "opened" and frame.kind == "DISC" else "DM")
            if state in ("opening", "opened"):
                self.end(dlci)

    def read(self, said):
        """A control message, or None, while 0 is Opened or Stopping."""
        if not said:
            return
        octet, value = said
        if octet == CLD:
            self.send_message(CLD_BACK, value)
            self.end_all("shut")
        elif self.state[0] == "stopping":
            if octet == CLD_BACK:
                self.end_all("shut")
        elif octet == MSC:
            if len(value) >= 2 and 1 <= value[0] >> 2 <= 61:
                self.send_message(octet & RESPONSE, value)
        elif octet in (TEST, FC_OFF, FC_ON):
            self.send_message(octet & RESPONSE, value)
        elif octet & 2:
            if octet != NSC_COMMAND:
                self.send_message(NSC, bytes([octet]))
        elif self.probe is not None:
            self.read_of_probe(octet, value)

    def read_of_probe(self, octet, value):
        if octet == TEST_BACK and value == self.probe:
            answer = "probeback"
        elif octet == NSC and value in (bytes([TEST]), bytes([TEST_BACK])):
            answer = "refused"
        else:
            return
        self.probe = None
        self.tell_asked("probe", None, answer)

    def tick(self):
        if self.lost:
            return
        for dlci, state in enumerate(self.state):
            if state not in ("opening", "closing", "stopping"):
                continue
            self.ticks[dlci] += 1
            if self.ticks[dlci] < 4:
                if state in AGAIN:
                    self.send(dlci, AGAIN[state])
                continue
            if state == "opening":
                self.send(dlci, "DISC")
            self.turn(dlci, "shut")
            word = {"opening": "open", "closing": "close", "stopping": "stop"}[state]
            self.tell_asked(word, None if word == "stop" else dlci, "noanswer")
        if self.probe is not None:
            self.probe_ticks += 1
            if self.probe_ticks == 4:
                self.probe = None
                self.tell_asked("probe", None, "noanswer")

    def lose(self):
        self.lost = True
        self.state = ["shut"] * 62
        self.probe = None
        self.tell("linelost", lambda ask: True)
