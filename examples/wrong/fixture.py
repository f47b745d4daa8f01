#!/usr/bin/env python3
"""A fixture that makes one known mistake, behind an interface that speaks the protocol of the ENTTEC DMX USB Pro on standard input and
output.

    examples/wrong/fixture.py MISTAKE COMMAND..
    examples/wrong/fixture.py

COMMAND is a right one, such as `felosumay widget --fixture examples/wrong/fixture.toml`. This program stands between it and the console, and
alters what passes, so that the fixture as it is seen makes the mistake; with `none` it alters nothing. Without arguments it prints the
mistakes, each with the rule that it breaks. It ends with the line, and with status 64 if there is no such mistake.
"""
import os
import re
import sys

sys.dont_write_bytecode = True
import answers
import messages
import right
import values


def mistakes():
    """Each mistake by its name: the classes of three modules, with underscores."""
    found = {"none": right.Fixture}
    for module in (answers, values, messages):
        for name, kind in vars(module).items():
            if getattr(kind, "__module__", "") == module.__name__ and kind is not answers.Headers and isinstance(kind, type):
                found[re.sub(r"(?<!^)(?=[A-Z])", "_", name).lower()] = kind
    return found


def serve(fixture):
    """Answers the messages of a console."""
    console = right.Stream(0)
    while (came := console.next()) is not None:
        label, body = came
        if label in (right.REQUEST, right.SEARCH):
            answer = fixture.answer(body)
            written = right.message(right.HEARD, b"\0" + answer) if answer else b""
            if label == right.SEARCH or not answer:
                written += right.message(right.SILENCE)
        else:
            answer = fixture.right.tell(label, body)
            written = right.message(*answer) if answer else b""
        os.write(1, written)


def main():
    known = mistakes()
    if len(sys.argv) == 1:
        for name, kind in known.items():
            print(f"{name}: {kind.__doc__.splitlines()[0]}")
        return
    if len(sys.argv) < 3 or sys.argv[1] not in known:
        print(__doc__, file=sys.stderr)
        sys.exit(64)
    fixture = known[sys.argv[1]](right.Right(sys.argv[2:]))
    try:
        serve(fixture)
    except OSError:
        pass
    fixture.right.process.stdin.close()
    fixture.right.process.wait()


if __name__ == "__main__":
    main()
