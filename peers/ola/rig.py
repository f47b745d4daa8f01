"""Lets olad find whole rigs of virtual fixtures on one line, and commands each fixture of them."""
import dataclasses
import pathlib
import time

import steps
from line import end_within, line, new_room

TOP = pathlib.Path(__file__).resolve().parents[2]
SPEED = ("--speed", "10000")
# It is struck in this state, and then in the other at the next fixture.
LAMP_STATES = ("On", "Standby")
# Both rigs take less than half of it.
MOST_SECONDS = 150


@dataclasses.dataclass
class Rig:
    """Fixtures on one line: the options that make them, and their UIDs in order."""
    name: str
    options: str
    uids: list[str]

    def program(self, program):
        """The command that makes them, with the whole paths of files."""
        words = [str(TOP / word) if (TOP / word).is_file() else word for word in self.options.split()]
        return [program, "widget", *SPEED, *words]


def counted_up(first, count):
    """So many UIDs of one manufacturer, from this device ID on."""
    return [f"7ff0:{device:08x}" for device in range(first, first + count)]


# Three of three files, whose answers are on the line all at once, and a hundred of the demonstration, whose first answer alone is heard.
FILES = "--fixture examples/par_can.toml --fixture examples/dimmer_pack.toml --fixture examples/moving_head.toml"
RIGS = (
    Rig("three", FILES, counted_up(0x01, 1) + counted_up(0x30, 1) + counted_up(0x40, 1)),
    Rig("hundred", "--count 100 --collision first", counted_up(0x01, 100)),
)


def rig_steps(rig):
    """What is asked of a rig: for each step the section, the UID, and the step itself.

    The lamps of all fixtures are struck before any is asked for its state, in turns in one state and in another, so that a request
    that another fixture hears is seen.
    """
    def step(section, asked, *expected):
        return steps.Step(f"rig.py: {rig.name}", section, asked, list(expected))

    yield rig.uids[0], step("7.5 DISC_UNIQUE_BRANCH", "discover --full", *rig.uids)
    for number, uid in enumerate(rig.uids):
        yield uid, step("10.8.4 LAMP_STATE", "get lamp_state", "State: Off")
        yield uid, step("6.3.3 ACK_TIMER", f"set --frame lamp_state {LAMP_STATES[number % 2]}", "frame ACK_TIMER 31 0403 0000 0032")
    for number, uid in enumerate(rig.uids):
        yield uid, step("10.3.1 QUEUED_MESSAGE", "get --frame queued_message Error", "frame ACK 31 0403 0000 -")
        yield uid, step("10.8.4 LAMP_STATE", "get lamp_state", f"State: {LAMP_STATES[number % 2]}")
    yield rig.uids[0], step("7.5 DISC_UNIQUE_BRANCH", "discover --incremental", *rig.uids)


def play_rig(session, program, rig, room):
    """Plays the steps of a rig, and reports the result."""
    begun, played, wrong = time.monotonic(), session.played, session.wrong
    with line(room / rig.name, rig.program(program)):
        for uid, step in rig_steps(rig):
            session.count(steps.difference(step, steps.ask(step.asked, session.definitions, uid)))
    print(f"ola: a rig of {len(rig.uids)}, asked {session.played - played} times in {time.monotonic() - begun:.0f} s: "
          f"{session.wrong - wrong} answers wrong", flush=True)


def play(program, new_session):
    """Plays all rigs with this program, and returns whether each step printed what it must."""
    end_within(MOST_SECONDS)
    with new_room() as room:
        session = new_session(room / "definitions")
        steps.write_definitions(session.definitions, [])
        for rig in RIGS:
            play_rig(session, program, rig, room)
    return session.wrong == 0
