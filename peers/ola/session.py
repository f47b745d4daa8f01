"""Plays the session of steps/ on the fixture through olad, and one slow command at real speed."""
import sys
import time

import steps
from line import end_within, line, new_room

# At this speed no job takes longer than a millisecond, so each has ended when the next client asks.
FAST = ("widget", "--speed", "10000", "--subs", "2")
REAL = ("widget", "--speed", "1", "--subs", "0")
LAMP_SECONDS = 5.0
POLL = "get --frame queued_message Error"
NOTHING_WAITS = ["frame ACK 21 0030 0000 -"]
LAMP_BURNS = ["frame ACK 31 0403 0000 -"]
# A whole session takes less than half of it.
MOST_SECONDS = 110


class Session:
    """What was played, and how much of it went wrong."""

    def __init__(self, definitions):
        self.definitions = definitions
        self.played = 0
        self.wrong = 0

    def count(self, fault):
        """Counts a step, and tells on standard error what is wrong with it, if something is."""
        self.played += 1
        if fault:
            self.wrong += 1
            print(fault, file=sys.stderr)

    def play(self, step):
        """Plays a step of the table."""
        self.count(steps.difference(step, steps.ask(step.asked, self.definitions)))

    def play_lamp(self):
        """Strikes the lamp at real speed, and polls for the result.

        The job begins at some time while the client of the SET is at work. So its five seconds are counted from before that for
        the polls that must find nothing, and from after it for the one that must find the result.
        """
        before = time.monotonic()
        self.play(real_step("set --frame lamp_state On", ["frame ACK_TIMER 31 0403 0000 0032"]))
        after = time.monotonic()
        self.count(self.lamp_fault(before + LAMP_SECONDS, after + LAMP_SECONDS))
        self.play(real_step("get lamp_state", ["State: On"]))

    def lamp_fault(self, earliest, latest):
        """Polls until the result comes, and says what is wrong with when it came, or None."""
        while True:
            begun = time.monotonic()
            printed = steps.ask(POLL, self.definitions)
            ended = time.monotonic()
            if printed == LAMP_BURNS and ended < earliest:
                return f"the result of LAMP_STATE came {earliest - ended:.3f} s too early"
            if printed == LAMP_BURNS:
                return None
            if printed != NOTHING_WAITS or begun > latest:
                return steps.difference(real_step(POLL, LAMP_BURNS if begun > latest else NOTHING_WAITS), printed)


def real_step(asked, expected):
    """A step that is played at real speed."""
    return steps.Step("session.py", "6.3.3 ACK_TIMER at real speed", asked, expected)


def play_all(program, room):
    """Plays everything in this folder."""
    table = steps.all_steps()
    session = Session(room / "definitions")
    steps.write_definitions(session.definitions, table)
    with line(room / "fast", [program, *FAST]):
        for step in table:
            session.play(step)
    with line(room / "real", [program, *REAL]):
        session.play_lamp()
    return session


def play(program):
    """Plays the session on the fixture of this program, reports the result, and returns whether each step printed what it must."""
    begun = time.monotonic()
    end_within(MOST_SECONDS)
    with new_room() as room:
        session = play_all(program, room)
    print(f"ola: {session.played} steps in {time.monotonic() - begun:.0f} s, {session.wrong} of them wrong", flush=True)
    return session.wrong == 0
