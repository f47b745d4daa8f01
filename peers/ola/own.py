"""Lets olad find fixtures that have parameters beside those of the table, and OLA's clients read and set them: an LED wash with some of its
maker's own, of which they also read the descriptions, and a dimmer rack with those of E1.37-1.

What OLA knows of a maker's parameter is what the maker publishes for it: own_parameters/maker.proto has that. Those of E1.37-1 it knows.
"""
import dataclasses
import pathlib
import shutil
import time

import steps
from line import end_within, line, new_room
from rig import SPEED, TOP

FOLDER = pathlib.Path(__file__).parent / "own_parameters"
MAKER = "maker.proto"
# They take a few seconds each.
MOST_SECONDS = 120


@dataclasses.dataclass
class Fixture:
    """A fixture of examples/ by its name, its UID, and what it is called."""
    name: str
    uid: str
    words: str


FIXTURES = [
    Fixture("led_wash", "7ff0:00000050", "an LED wash with its maker's own parameters"),
    Fixture("dimmer_rack", "7ff0:00000060", "a dimmer rack with parameters of E1.37-1"),
]


def play(program, new_session):
    """Plays the steps of each with this program, reports the results, and returns whether each step printed what it must."""
    end_within(MOST_SECONDS)
    # Each is played, also if the one before went wrong.
    return all([play_one(program, new_session, fixture) for fixture in FIXTURES])


def play_one(program, new_session, fixture):
    """The same for one of them."""
    begun = time.monotonic()
    with new_room() as room:
        session = new_session(room / "definitions")
        table = steps.read_steps(FOLDER / f"{fixture.name}.txt")
        steps.write_definitions(session.definitions, table)
        shutil.copy(FOLDER / MAKER, session.definitions / steps.STANDARD / MAKER)
        example = TOP / "examples" / f"{fixture.name}.toml"
        with line(room / fixture.name, [program, "widget", *SPEED, "--fixture", str(example)]):
            for step in table:
                session.count(steps.difference(step, steps.ask(step.asked, session.definitions, fixture.uid)))
    print(f"ola: {fixture.words}, asked {session.played} times in {time.monotonic() - begun:.0f} s: {session.wrong} answers wrong", flush=True)
    return session.wrong == 0
