"""Mistakes in refusals, in values, and of sub-devices. Each class is one: its comment says which rule it breaks, and `fixture.py` has its
name with underscores."""
from right import ACK, ALL_SUBS, DATA_OUT_OF_RANGE, GET, SET, SUB_DEVICE_OUT_OF_RANGE, UNKNOWN_PID, UNSUPPORTED_COMMAND_CLASS
from right import Fixture, is_refused, is_reply, refusal, response

DEVICE_LABEL, FACTORY_DEFAULTS, DMX_PERSONALITY, DMX_START_ADDRESS = 0x0082, 0x0090, 0x00E0, 0x00F0
SENSOR_VALUE, IDENTIFY_DEVICE = 0x0201, 0x1000


# Refusals.


class UnknownOutOfRange(Fixture):
    """The reason for an unknown parameter is UNKNOWN_PID (E1.20 table A-17). Here it is DATA_OUT_OF_RANGE."""

    def hear(self, request):
        answer = self.ask(request)
        return refusal(request, DATA_OUT_OF_RANGE) if is_refused(answer, UNKNOWN_PID) else answer


class UnknownSilent(Fixture):
    """An unknown parameter gets a NACK (E1.20 section 6.3.4). Here it isn't answered."""

    def hear(self, request):
        answer = self.ask(request)
        return b"" if is_refused(answer, UNKNOWN_PID) else answer


class ShortReason(Fixture):
    """The reason of a NACK has two slots (E1.20 section 6.3.4). Here it has one."""

    def hear(self, request):
        answer = self.ask(request)
        return answer.but(data=answer.data[1:]) if is_refused(answer) else answer


class ReadOnlyAcknowledged(Fixture):
    """A SET of a parameter that has none gets a NACK (E1.20 section 6.3.4). Here it gets an ACK without effect."""

    def hear(self, request):
        answer = self.ask(request)
        return response(request, ACK) if request.kind == SET and is_refused(answer, UNSUPPORTED_COMMAND_CLASS) else answer


class ReadOnlyUnknown(Fixture):
    """The reason for a parameter without this command is UNSUPPORTED_COMMAND_CLASS (E1.20 table A-17). Here it is UNKNOWN_PID."""

    def hear(self, request):
        answer = self.ask(request)
        return refusal(request, UNKNOWN_PID) if is_refused(answer, UNSUPPORTED_COMMAND_CLASS) else answer


class ValueClamped(Fixture):
    """A value out of range gets a NACK (E1.20 section 6.3.4). Here the nearest start address is taken, with ACK."""

    def hear(self, request):
        if request.kind == SET and request.pid == DMX_START_ADDRESS and len(request.data) == 2:
            address = min(max(int.from_bytes(request.data, "big"), 1), 512)
            request = request.but(data=address.to_bytes(2, "big"))
        return self.ask(request)


class PersonalityZero(Fixture):
    """Personalities are numbered from 1 on (E1.20 section 10.6.1). Here they are numbered from 0 on."""

    def hear(self, request):
        if request.pid != DMX_PERSONALITY or request.kind != SET or len(request.data) != 1:
            return self.ask(request)
        return self.ask(request.but(data=bytes([min(request.data[0] + 1, 255)])))


class LabelCutOff(Fixture):
    """A label of more than 32 bytes gets a NACK (E1.20 section 10.5.5). Here it is cut off, with ACK."""

    def hear(self, request):
        is_label = request.kind == SET and request.pid == DEVICE_LABEL
        return self.ask(request.but(data=request.data[:32]) if is_label else request)


class ShortDataAccepted(Fixture):
    """Data of a wrong length get a NACK (E1.20 section 6.3.4). Here a SET with too few slots is filled up with zeros in front."""

    def hear(self, request):
        is_address = request.kind == SET and request.pid == DMX_START_ADDRESS
        return self.ask(request.but(data=request.data.rjust(2, b"\0")) if is_address else request)


class GetDataIgnored(Fixture):
    """Data of a GET that has none get a NACK (E1.20 section 6.3.4). Here they are ignored."""

    def hear(self, request):
        answer = self.ask(request)
        bare = self.ask(request.but(data=b"")) if request.kind == GET and is_refused(answer) else answer
        return bare if is_reply(bare) else answer


class RefusedAndDone(Fixture):
    """A rejected command changes nothing (E1.20 section 6.3.4). Here IDENTIFY_DEVICE with a wrong value is switched on all the same."""

    def hear(self, request):
        answer = self.ask(request)
        if request.pid == IDENTIFY_DEVICE and is_refused(answer, DATA_OUT_OF_RANGE):
            self.ask(request.but(data=b"\1"))
        return answer


class AllSensorsRead(Fixture):
    """A GET of SENSOR_VALUE is of one sensor (E1.20 section 10.7.2). Here FF is answered for the first."""

    def hear(self, request):
        is_all = request.kind == GET and request.pid == SENSOR_VALUE and request.data == b"\xFF"
        return self.ask(request.but(data=b"\0") if is_all else request)


# Values.


class SetForgotten(Fixture):
    """A SET that gets an ACK is carried out (E1.20 section 6.3.1). Here a start address isn't kept."""

    def hear(self, request):
        if request.kind != SET or request.pid != DMX_START_ADDRESS:
            return self.ask(request)
        before, answer = self.ask(request.but(kind=GET, data=b"")), self.ask(request)
        if is_reply(answer) and is_reply(before):
            self.ask(request.but(data=before.data))
        return answer


class SetEchoed(Fixture):
    """The response to SET IDENTIFY_DEVICE has no data (E1.20 section 10.11). Here it repeats those of the request."""

    def hear(self, request):
        answer = self.ask(request)
        is_echoed = request.kind == SET and request.pid == IDENTIFY_DEVICE and is_reply(answer)
        return answer.but(data=request.data) if is_echoed else answer


class LabelPadded(Fixture):
    """A label has as many slots as characters (E1.20 section 10.5.5). Here it is filled up with NULs to 32."""

    def hear(self, request):
        answer = self.ask(request)
        is_label = request.kind == GET and request.pid == DEVICE_LABEL and is_reply(answer)
        return answer.but(data=answer.data.ljust(32, b"\0")) if is_label else answer


class LowByteFirst(Fixture):
    """Numbers are sent with the most significant byte first (E1.20 section 6.2.10). Here start addresses aren't."""

    def hear(self, request):
        if request.pid != DMX_START_ADDRESS:
            return self.ask(request)
        answer = self.ask(request.but(data=request.data[::-1]))
        return answer.but(data=answer.data[::-1]) if is_reply(answer) else answer


class DefaultsForgetLabel(Fixture):
    """FACTORY_DEFAULTS sets values back (E1.20 section 10.5.6). Here the label stays, which a GET then says."""

    def hear(self, request):
        if request.kind != SET or request.pid != FACTORY_DEFAULTS:
            return self.ask(request)
        label = self.ask(request.but(kind=GET, pid=DEVICE_LABEL))
        answer = self.ask(request)
        self.ask(request.but(pid=DEVICE_LABEL, data=label.data))
        return answer


class DefaultsAlways(Fixture):
    """A GET of FACTORY_DEFAULTS says whether values were changed (E1.20 section 10.5.6). Here it always says that none was."""

    def hear(self, request):
        answer = self.ask(request)
        is_said = request.kind == GET and request.pid == FACTORY_DEFAULTS and is_reply(answer)
        return answer.but(data=b"\1") if is_said else answer


# Sub-devices.


class SubAnsweredByRoot(Fixture):
    """A sub-device that isn't there gets a NACK (E1.20 section 9). Here the root answers for it."""

    def hear(self, request):
        answer = self.ask(request)
        if not is_refused(answer, SUB_DEVICE_OUT_OF_RANGE):
            return answer
        return self.ask(request.but(sub=0)).but(sub=request.sub)


class AllSubsRead(Fixture):
    """A GET can't go to all sub-devices (E1.20 section 9). Here the first one answers."""

    def hear(self, request):
        if request.kind != GET or request.sub != ALL_SUBS:
            return self.ask(request)
        return self.ask(request.but(sub=1)).but(sub=request.sub)


class SubsShareRoot(Fixture):
    """A sub-device has values of its own (E1.20 section 9). Here IDENTIFY_DEVICE is that of the root."""

    def hear(self, request):
        if request.pid != IDENTIFY_DEVICE or request.sub not in (1, 2):
            return self.ask(request)
        return self.ask(request.but(sub=0)).but(sub=request.sub)


class AllCallToRoot(Fixture):
    """A SET of all sub-devices doesn't change the root (E1.20 section 9). Here it does."""

    def hear(self, request):
        answer = self.ask(request)
        if request.kind == SET and request.sub == ALL_SUBS and is_reply(answer):
            self.ask(request.but(sub=0))
        return answer


class AllCallToFirst(Fixture):
    """A SET of all sub-devices changes each (E1.20 section 9). Here it changes the first alone."""

    def hear(self, request):
        if request.kind != SET or request.sub != ALL_SUBS:
            return self.ask(request)
        return self.ask(request.but(sub=1)).but(sub=ALL_SUBS)
