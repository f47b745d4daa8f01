"""Mistakes in the header of a response, in who is meant by a request, and in discovery. Each class is one: its comment says which rule it
breaks, and `fixture.py` has its name with underscores. felosumay test begins with DEVICE_INFO and SUPPORTED_PARAMETERS, so their responses
have no wrong header."""
from right import DISCOVERY, DISCOVERY_RESPONSE, FORMAT_ERROR, GET, SET_RESPONSE, Fixture, Frame, refusal

DISC_UNIQUE_BRANCH, DISC_MUTE, DISC_UN_MUTE = 1, 2, 3
SUPPORTED_PARAMETERS, DEVICE_INFO = 0x0050, 0x0060
FIRST, ALL = (0).to_bytes(6, "big"), b"\xFF" * 6


# Headers.


class Headers(Fixture):
    """Any mistake in the header of a response."""

    def sent(self, request, answer):
        begins = request.pid in (DEVICE_INFO, SUPPORTED_PARAMETERS) and request.sub == 0
        return answer.text() if begins else self.wrong(request, answer)

    def wrong(self, _request, answer):
        return answer.text()


class WrongTransactionNumber(Headers):
    """A response has the transaction number of its request (E1.20 section 6.2.6). Here it is one more."""

    def wrong(self, _request, answer):
        return answer.but(tn=(answer.tn + 1) % 256).text()


class SetResponseToGet(Headers):
    """The response to a GET is a GET_RESPONSE (E1.20 table A-1). Here it is a SET_RESPONSE."""

    def wrong(self, request, answer):
        return answer.but(kind=SET_RESPONSE).text() if request.kind == GET else answer.text()


class WrongDestination(Headers):
    """A response goes to the source of its request (E1.20 section 6.2.4). Here it always goes to the same controller."""

    def wrong(self, _request, answer):
        return answer.but(dst=bytes.fromhex("7FF000000002")).text()


class WrongSource(Headers):
    """The source of a response is the device (E1.20 section 6.2.5). Here the device ID is reversed."""

    def wrong(self, _request, answer):
        return answer.but(src=answer.src[:2] + answer.src[:1:-1]).text()


class RootInResponse(Headers):
    """A response has the sub-device of its request (E1.20 section 6.2.9). Here it is always the root."""

    def wrong(self, _request, answer):
        return answer.but(sub=0).text()


class WrongChecksum(Headers):
    """The checksum is the sum of all slots (E1.20 section 6.2.11). Here the START code is left out of it."""

    def wrong(self, _request, answer):
        text = answer.text()
        return text[:-2] + (sum(text[1:-2]) & 0xFFFF).to_bytes(2, "big")


class BadChecksumAnswered(Fixture):
    """A request with a wrong checksum is discarded (E1.20 section 6.2.11). Here the checksum isn't looked at."""

    def unreadable(self, text):
        request = Frame.read(text[:-2] + (sum(text[:-2]) & 0xFFFF).to_bytes(2, "big"))
        return self.answer(request.text()) if request else self.right.ask(text)


# Who is meant.


class BroadcastAnswered(Fixture):
    """A broadcast isn't answered (E1.20 section 6.2.4). Here it is."""

    def hear(self, request):
        is_meant = request.is_broadcast and request.kind != DISCOVERY and (request.dst == ALL or request.dst[:2] == self.uid[:2])
        return self.ask(request.but(dst=self.uid) if is_meant else request)


class BroadcastIgnored(Fixture):
    """A broadcast is carried out (E1.20 section 6.2.4). Here only requests to the device itself are."""

    def hear(self, request):
        return b"" if request.is_broadcast and request.kind != DISCOVERY else self.ask(request)


class MakerIgnored(Fixture):
    """A broadcast to all devices of a manufacturer is carried out (E1.20 section 6.2.4). Here only one to all devices is."""

    def hear(self, request):
        return b"" if request.is_broadcast and request.dst != ALL else self.ask(request)


class OtherMakerHeard(Fixture):
    """A broadcast to another manufacturer's devices isn't for this one (E1.20 section 6.2.4). Here the device ID alone decides."""

    def hear(self, request):
        return self.ask(request.but(dst=ALL) if request.is_broadcast else request)


class OthersAnswered(Fixture):
    """A request to another device isn't answered (E1.20 section 6.2.4). Here the destination isn't looked at, after the first request."""
    own = None

    def hear(self, request):
        if request.is_broadcast:
            return self.ask(request)
        self.own = self.own or request.dst
        answer = self.ask(request.but(dst=self.own))
        return answer.but(src=request.dst) if isinstance(answer, Frame) else answer


# Discovery.


class MutedAnswers(Fixture):
    """A muted device doesn't answer DISC_UNIQUE_BRANCH (E1.20 section 7.6). Here DISC_MUTE has no effect."""

    def hear(self, request):
        answer = self.ask(request)
        if request.kind == DISCOVERY and request.pid == DISC_MUTE:
            self.ask(request.but(dst=ALL, pid=DISC_UN_MUTE, data=b""))
        return answer


class BroadcastMuteIgnored(Fixture):
    """A broadcast of DISC_MUTE mutes (E1.20 section 7.6). Here only one to the device does."""

    def hear(self, request):
        is_ignored = request.kind == DISCOVERY and request.pid == DISC_MUTE and request.is_broadcast
        return b"" if is_ignored else self.ask(request)


class MuteDataAccepted(Fixture):
    """DISC_MUTE has no data, and what is wrong isn't answered (E1.20 section 7.6). Here its data are ignored."""

    def hear(self, request):
        return self.ask(request.but(data=b"") if request.kind == DISCOVERY and request.pid != DISC_UNIQUE_BRANCH else request)


class BoundsIgnored(Fixture):
    """DISC_UNIQUE_BRANCH is answered if the UID is between its two (E1.20 section 7.5). Here they aren't looked at."""

    def hear(self, request):
        is_branch = request.kind == DISCOVERY and request.pid == DISC_UNIQUE_BRANCH and len(request.data) == 12
        return self.ask(request.but(data=FIRST + ALL) if is_branch else request)


class ShortBranchAnswered(Fixture):
    """DISC_UNIQUE_BRANCH has two UIDs (E1.20 section 7.5). Here what is missing of them is taken for FF."""

    def hear(self, request):
        is_branch = request.kind == DISCOVERY and request.pid == DISC_UNIQUE_BRANCH
        return self.ask(request.but(data=request.data.ljust(12, b"\xFF")) if is_branch else request)


class UniqueBranchRefused(Fixture):
    """A discovery command is never refused (E1.20 section 7.5). Here one with data of a wrong length gets a NACK."""

    def hear(self, request):
        answer = self.ask(request)
        is_wrong = request.kind == DISCOVERY and request.pid == DISC_UNIQUE_BRANCH and len(request.data) != 12
        return refusal(request, FORMAT_ERROR).but(src=self.uid, kind=DISCOVERY_RESPONSE) if is_wrong else answer


class NeverFound(Fixture):
    """An un-muted device answers DISC_UNIQUE_BRANCH (E1.20 section 7.5). Here it never does."""

    def hear(self, request):
        return b"" if request.kind == DISCOVERY and request.pid == DISC_UNIQUE_BRANCH else self.ask(request)


class UnMuteIgnored(Fixture):
    """DISC_UN_MUTE un-mutes (E1.20 section 7.6). Here a device that was muted stays so."""

    def hear(self, request):
        answer = self.ask(request)
        if request.kind == DISCOVERY and request.pid == DISC_UN_MUTE:
            self.ask(request.but(dst=ALL, pid=DISC_MUTE, data=b""))
        return answer
