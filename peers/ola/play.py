#!/usr/bin/env python3
"""Plays the session of steps/ on the virtual fixture through olad, commands whole rigs and a fixture with parameters of its maker's own,
and then runs OLA's own device tests.

    python3 play.py PROGRAM            compares the result with what it must be
    python3 play.py PROGRAM --write    rewrites the files of device_tests/, and keeps their comments

PROGRAM is the fixture's program. The status is 0 if each step printed what it must and each test ended as it must, and 1 if one
didn't, or the session couldn't be played. What is left out is reported, and written to the file that SKIPPED names, if it names one.
"""
import os
import sys

import device_tests
import own
import rig
import session
from line import Fault
from source import Unfetched


def leave_out(why):
    """Tells why the device tests are left out."""
    why = f"OLA's device tests weren't run, since something that they need can't be had: {why}"
    print(f"ola-tests: left out: {why}")
    if skipped := os.environ.get("SKIPPED"):
        with open(skipped, "a", encoding="utf-8") as file:
            file.write(f"peers/ola/check: {why}\n")


def main():
    """Plays both, and reports the results."""
    program, is_writing = sys.argv[1], sys.argv[2:] == ["--write"]
    try:
        is_well = session.play(program)
        is_well = rig.play(program, session.Session) and is_well
        is_well = own.play(program, session.Session) and is_well
        try:
            is_well = device_tests.run(program, is_writing) and is_well
        except Unfetched as why:
            leave_out(why)
    except Fault as fault:
        sys.exit(f"ola: {fault}")
    sys.exit(0 if is_well else 1)


if __name__ == "__main__":
    main()
