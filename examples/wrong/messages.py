"""Mistakes of slow commands, of the queue and of status messages. Each class is one: its comment says which rule it breaks, and `fixture.py`
has its name with underscores."""
from right import ACK, ACK_TIMER, BUFFER_FULL, DATA_OUT_OF_RANGE, GET, GET_RESPONSE, SET, Fixture, is_refused, is_reply, refusal, response

QUEUED_MESSAGE, STATUS_MESSAGES, CLEAR_STATUS_ID, THRESHOLD, LAMP_STATE = 0x0020, 0x0030, 0x0032, 0x0033, 0x0403
# Status types: that of a repeat, and that of most.
LAST, ADVISORY = b"\1", b"\2"


def is_poll(request):
    return request.kind == GET and request.pid == QUEUED_MESSAGE


def is_next(request):
    """Whether a poll asks for the next message."""
    return is_poll(request) and request.data != LAST


def is_message(answer):
    """Whether the answer to a poll is a message of the queue."""
    return is_reply(answer) and answer.pid != STATUS_MESSAGES


def is_status(answer):
    return is_reply(answer) and answer.pid == STATUS_MESSAGES


def content(answer):
    """What a message says."""
    return answer.kind, answer.pid, answer.sub, answer.data


def again(answer, request):
    """The same message as an answer to this poll."""
    return answer.but(dst=request.src, tn=request.tn)


def empty_status(request):
    return response(request, ACK, pid=STATUS_MESSAGES)


# The last message.


class LastMessageTaken(Fixture):
    """STATUS_GET_LAST_MESSAGE repeats the last message (E1.20 section 10.3.1). Here it takes the next one from the queue."""

    def hear(self, request):
        return self.ask(request.but(data=ADVISORY) if is_poll(request) else request)


class LastMessageForgotten(Fixture):
    """STATUS_GET_LAST_MESSAGE repeats the last message (E1.20 section 10.3.1). Here a message is forgotten once it is sent."""

    def hear(self, request):
        return empty_status(request) if is_poll(request) and request.data == LAST else self.ask(request)


class LastMessageRefused(Fixture):
    """STATUS_GET_LAST_MESSAGE is a status type of QUEUED_MESSAGE (E1.20 section 10.3.1). Here it is out of range."""

    def hear(self, request):
        return refusal(request, DATA_OUT_OF_RANGE) if is_poll(request) and request.data == LAST else self.ask(request)


class EmptyStatusNotKept(Fixture):
    """An empty status message is a last message, too (E1.20 section 10.3.1). Here the message before it is repeated."""
    kept = None

    def hear(self, request):
        answer = self.ask(request)
        if not is_poll(request):
            return answer
        if request.data == LAST and self.kept and is_status(answer) and not answer.data:
            return again(self.kept, request)
        self.kept = answer if answer.data else self.kept
        return answer


# The queue.


class EmptyQueueSilent(Fixture):
    """If no message waits, the status messages answer a poll (E1.20 section 10.3.1). Here nothing does."""

    def hear(self, request):
        answer = self.ask(request)
        return b"" if is_poll(request) and is_status(answer) and not answer.data else answer


class ReportDropped(Fixture):
    """The result of a slow command waits in the queue (E1.20 section 6.3.3). Here it never comes."""

    def hear(self, request):
        answer = self.ask(request)
        while is_next(request) and is_message(answer):
            answer = self.ask(request)
        return answer


class EqualMessageDropped(Fixture):
    """Each message of the queue is sent (E1.20 section 10.3.1). Here one that is equal to that before it is dropped."""
    before = None

    def hear(self, request):
        answer = self.ask(request)
        if is_next(request):
            while is_message(answer) and content(answer) == self.before:
                answer = self.ask(request)
            self.before = content(answer)
        return answer


class MessageTwice(Fixture):
    """A message leaves the queue when it is sent (E1.20 section 10.3.1). Here it leaves when it is sent for the second time."""
    held = None

    def hear(self, request):
        if is_next(request) and self.held:
            answer, self.held = again(self.held, request), None
            return answer
        answer = self.ask(request)
        if is_next(request) and is_message(answer):
            self.held = answer
        return answer


class ResultsOutOfOrder(Fixture):
    """Messages come in the order in which they were queued (E1.20 section 10.3.1). Here two that wait change places."""
    held = None

    def hear(self, request):
        if is_next(request) and self.held:
            answer, self.held = again(self.held, request), None
            return answer
        answer = self.ask(request)
        if is_next(request) and is_message(answer) and answer.count > 0:
            self.held = answer.but(count=answer.count - 1)
            answer = self.ask(request).but(count=answer.count)
        return answer


class CountBeforeDispense(Fixture):
    """The message count is that of the messages that still wait (E1.20 section 6.2.8). Here the one that is sent is counted, too."""

    def hear(self, request):
        answer = self.ask(request)
        return answer.but(count=min(answer.count + 1, 255)) if is_poll(request) and is_message(answer) else answer


class MessageUnnamed(Fixture):
    """A message has the parameter that it reports (E1.20 section 10.3.1). Here it is a response to QUEUED_MESSAGE."""

    def hear(self, request):
        answer = self.ask(request)
        return answer.but(kind=GET_RESPONSE, pid=QUEUED_MESSAGE) if is_poll(request) and is_message(answer) else answer


class FullAccepted(Fixture):
    """A command whose result has no room gets a NACK for BUFFER_FULL (E1.20 table A-17). Here it is accepted, and no result comes."""

    def hear(self, request):
        answer = self.ask(request)
        return response(request, ACK_TIMER, b"\0\1") if is_refused(answer, BUFFER_FULL) else answer


# Slow commands.


class BusyWhileSlow(Fixture):
    """While a slow command is carried out, others are answered (E1.20 section 6.3.3). Here they get an ACK_TIMER, too, until a poll."""
    is_busy = False

    def hear(self, request):
        if self.is_busy and request.kind in (GET, SET) and not is_poll(request):
            return response(request, ACK_TIMER, b"\0\1")
        answer = self.ask(request)
        self.is_busy = is_reply(answer, ACK_TIMER)
        return answer


class ChangedOnAcceptance(Fixture):
    """After ACK_TIMER a value changes when the command is carried out (E1.20 section 6.3.3). Here it changes when it is accepted."""
    value = None

    def hear(self, request):
        answer = self.ask(request)
        if request.pid != LAMP_STATE or request.sub != 0:
            return answer
        if request.kind == SET and is_reply(answer, ACK_TIMER):
            self.value = request.data
        return answer.but(data=self.value) if request.kind == GET and self.value and is_reply(answer) else answer


class FailedJobStored(Fixture):
    """A command that fails changes nothing (E1.20 section 6.3.3). Here the lamp that didn't strike says that it does."""
    is_striking = False

    def hear(self, request):
        answer = self.ask(request)
        if request.kind == SET and request.pid == LAMP_STATE and is_reply(answer, ACK_TIMER):
            self.is_striking = request.data == b"\2"
        is_told = is_poll(request) or request.kind == GET and request.pid == LAMP_STATE
        if is_told and self.is_striking and is_reply(answer) and answer.kind == GET_RESPONSE and answer.pid == LAMP_STATE:
            return answer.but(data=b"\2")
        return answer


# Status messages.


class AlwaysEmptyStatus(Fixture):
    """A status message has the entries that weren't shown yet (E1.20 section 10.3.2). Here it is always empty."""

    def hear(self, request):
        answer = self.ask(request)
        return answer.but(data=b"") if is_poll(request) and is_status(answer) else answer


class ShownAgain(Fixture):
    """An entry is sent in one status message (E1.20 section 10.3.2). Here it comes again in each further one."""
    shown = b""

    def hear(self, request):
        answer = self.ask(request)
        if not is_poll(request) or not is_status(answer):
            return answer
        self.shown = answer.data or self.shown
        return answer.but(data=self.shown)


class StatusTypeIgnored(Fixture):
    """A poll asks for entries of its status type and worse ones (E1.20 section 10.3.2). Here all are sent."""

    def hear(self, request):
        return self.ask(request.but(data=ADVISORY) if is_next(request) else request)


class ThresholdIgnored(Fixture):
    """An entry below the threshold isn't kept (E1.20 section 10.3.5). Here a threshold can be set, and has no effect."""
    threshold = ADVISORY

    def hear(self, request):
        answer = self.ask(request)
        if request.pid != THRESHOLD or request.sub != 0 or not is_reply(answer):
            return answer
        if request.kind == GET:
            return answer.but(data=self.threshold)
        self.threshold = request.data
        self.ask(request.but(data=ADVISORY))
        return answer


class ClearStatusIgnored(Fixture):
    """CLEAR_STATUS_ID clears the status entries (E1.20 section 10.3.4). Here it gets an ACK without effect."""

    def hear(self, request):
        is_clear = request.kind == SET and request.pid == CLEAR_STATUS_ID and not request.data
        return response(request, ACK) if is_clear else self.ask(request)


class ClearStatusClearsQueue(Fixture):
    """CLEAR_STATUS_ID clears the status entries alone (E1.20 section 10.3.4). Here it also empties the queue."""

    def hear(self, request):
        answer = self.ask(request)
        if request.kind == SET and request.pid == CLEAR_STATUS_ID and is_reply(answer):
            while is_message(self.ask(request.but(kind=GET, pid=QUEUED_MESSAGE, data=ADVISORY))):
                pass
        return answer
