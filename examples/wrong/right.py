"""A right fixture, and the frames that it hears and sends. docs/WIDGET.md has the messages of the interface, E1.20 section 6.2 the slots."""
import os
import subprocess
from dataclasses import dataclass, replace

DISCOVERY, DISCOVERY_RESPONSE, GET, GET_RESPONSE, SET, SET_RESPONSE = 0x10, 0x11, 0x20, 0x21, 0x30, 0x31
ACK, ACK_TIMER, NACK = 0, 1, 2
UNKNOWN_PID, FORMAT_ERROR, UNSUPPORTED_COMMAND_CLASS, DATA_OUT_OF_RANGE, BUFFER_FULL, SUB_DEVICE_OUT_OF_RANGE = 0, 1, 5, 6, 7, 9
ALL_SUBS = 0xFFFF
# The labels of an interface: an RDM request, a discovery request, bytes from the line, and none of them.
REQUEST, SEARCH, HEARD, SILENCE = 7, 11, 5, 12
# Other messages that are answered: which parameters, and which serial number.
ANSWERED = (3, 10)


@dataclass
class Frame:
    """A request or a response. `port` is the port ID of a request, and the response type of a response."""
    dst: bytes
    src: bytes
    tn: int
    port: int
    count: int
    sub: int
    kind: int
    pid: int
    data: bytes

    @staticmethod
    def read(text):
        """The frame with these slots, or None if one isn't right."""
        if len(text) < 26 or text[:2] != b"\xCC\x01" or text[2] != len(text) - 2 or text[23] != text[2] - 24:
            return None
        if sum(text[:-2]) & 0xFFFF != int.from_bytes(text[-2:], "big"):
            return None
        sub, pid = (int.from_bytes(text[at:at + 2], "big") for at in (18, 21))
        return Frame(text[3:9], text[9:15], text[15], text[16], text[17], sub, text[20], pid, text[24:-2])

    def text(self):
        """Its slots."""
        head = bytes([0xCC, 1, 24 + len(self.data)]) + self.dst + self.src + bytes([self.tn, self.port, self.count])
        head += self.sub.to_bytes(2, "big") + bytes([self.kind]) + self.pid.to_bytes(2, "big") + bytes([len(self.data)]) + self.data
        return head + (sum(head) & 0xFFFF).to_bytes(2, "big")

    def but(self, **fields):
        """The same with other values in these fields."""
        return replace(self, **fields)

    @property
    def is_broadcast(self):
        return self.dst[2:] == b"\xFF" * 4


def response(request, port, data=b"", count=0, **fields):
    """The response to a request."""
    return Frame(request.src, request.dst, request.tn, port, count, request.sub, request.kind + 1, request.pid, data).but(**fields)


def refusal(request, reason):
    return response(request, NACK, reason.to_bytes(2, "big"))


def is_reply(answer, port=ACK):
    """Whether an answer is a response of this type."""
    return isinstance(answer, Frame) and answer.port == port


def is_refused(answer, *reasons):
    """Whether an answer is a NACK for one of these reasons, or for any if none is named."""
    return is_reply(answer, NACK) and (not reasons or int.from_bytes(answer.data, "big") in reasons)


def message(label, body=b""):
    """A message of the interface."""
    return bytes([0x7E, label, len(body) & 255, len(body) >> 8]) + body + b"\xE7"


class Stream:
    """The messages that come from a descriptor."""

    def __init__(self, descriptor):
        self.descriptor, self.held = descriptor, b""

    def next(self):
        """The label and the body of the next message, or None at the end."""
        while True:
            self.held = self.held[max(self.held.find(b"\x7E"), 0):] if b"\x7E" in self.held else b""
            end = 5 + int.from_bytes(self.held[2:4], "little")
            if len(self.held) >= 5 and len(self.held) >= end:
                label, body, self.held = self.held[1], self.held[4:end - 1], self.held[end:]
                return label, body
            try:
                some = os.read(self.descriptor, 4096)
            except OSError:
                some = b""
            if not some:
                return None
            self.held += some


class Right:
    """The right fixture: a command that speaks the protocol of the interface on its standard streams."""

    def __init__(self, command):
        self.process = subprocess.Popen(command, stdin=subprocess.PIPE, stdout=subprocess.PIPE)
        self.heard = Stream(self.process.stdout.fileno())

    def tell(self, label, body):
        """Passes a message on. Gives the answer, if one is due."""
        os.write(self.process.stdin.fileno(), message(label, body))
        return self.heard.next() if label in (*ANSWERED, REQUEST) else None

    def ask(self, text):
        """What is on the line after these bytes."""
        answer = self.tell(REQUEST, text)
        return answer[1][1:] if answer and answer[0] == HEARD else b""


class Fixture:
    """A fixture as it is seen. This one makes no mistake: it answers as the right one does."""

    def __init__(self, right):
        self.right, self.uid = right, None

    def answer(self, text):
        """What it answers to these bytes."""
        request = Frame.read(text)
        if request is None:
            return self.unreadable(text)
        answer = self.hear(request)
        if not isinstance(answer, Frame):
            return answer
        if not request.is_broadcast:
            self.uid = request.dst
        return self.sent(request, answer)

    def hear(self, request):
        """What it answers to a request: a response, or other bytes."""
        return self.ask(request)

    def unreadable(self, text):
        """What it answers to what isn't a request."""
        return self.right.ask(text)

    def sent(self, _request, answer):
        """The bytes of a response."""
        return answer.text()

    def ask(self, request):
        """What the right fixture answers."""
        text = self.right.ask(request.text())
        return Frame.read(text) or text
