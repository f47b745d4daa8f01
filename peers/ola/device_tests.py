"""Runs OLA's own device tests, those of rdm_responder_test.py, on virtual fixtures through olad, and compares how each ends with the files
of device_tests/, one for each fixture. The tests are taken from OLA's source; the modules that they use have to be installed.

A file begins with the options of the program and the UID of the fixture, and then has each test under its category, by its name, after how
it ends:

    passed    the reply was one of those that the test accepts
    absent    so it was, since the fixture says that it doesn't have the parameter
    failed    the reply was another one
    broken    the test couldn't go on
    not-run   the test needs something that the fixture doesn't have
    warning   what the test holds against the fixture beside that, as a deviation from the standard
    advisory  the same, of what the standard doesn't forbid
"""
import collections
import graphlib
import importlib
import logging
import pathlib
import sys
import time
import types

import source
from line import UNIVERSE, end_within, found_uid, line, new_room

FOLDER = pathlib.Path(__file__).parent / "device_tests"
TOP = FOLDER.parents[2]
SPEED = ("--speed", "10000")
# By so much less the tests wait for a slow command than its ACK_TIMER says.
HASTE = 100
HEADS = ("widget", "uid")
ABSENT = 'reason="Unknown PID"'
MOST_SECONDS = 170


def test_modules(folder):
    """OLA's modules of tests, which are in this folder of its source. They are written as the package ola.testing.rdm."""
    try:
        ola = importlib.import_module("ola")
    except ImportError as error:
        raise source.Unfetched("Debian's package ola-python isn't there") from error
    # StringUtils is missing from what Debian installs.
    ola.__path__.append(str(folder / "python" / "ola"))
    for name, folders in (("ola.testing", []), ("ola.testing.rdm", [str(folder / "tools" / "rdm")])):
        sys.modules[name] = types.ModuleType(name)
        sys.modules[name].__path__ = folders
    # It counts times, which nobody asks for here.
    sys.modules.setdefault("numpy", types.ModuleType("numpy"))
    return importlib.import_module("ola.testing.rdm.TestRunner"), importlib.import_module("ola.testing.rdm.TestDefinitions")


def in_one_order(tests):
    """The tests, each after those that it needs, and else by name. In OLA's own order they stand in another one each time."""
    sorter = graphlib.TopologicalSorter(tests)
    sorter.prepare()
    order = []
    while sorter.is_active():
        ready = sorted(sorter.get_ready(), key=str)
        order += ready
        sorter.done(*ready)
    return order


def run_tests(modules, uid):
    """Runs all tests on the device with this UID, and returns them as they ended."""
    runners, definitions = modules
    pids, clients, uids = (importlib.import_module(f"ola.{name}") for name in ("PidStore", "ClientWrapper", "UID"))
    store = pids.GetStore(None, ("pids.proto", "draft_pids.proto"))
    client = clients.ClientWrapper()
    wait = client.AddEvent
    client.AddEvent = lambda milliseconds, then: wait(milliseconds / HASTE, then)
    runner = runners.TestRunner(int(UNIVERSE), uids.UID.FromString(uid), 0, 0, store, client)
    # pylint: disable-next=protected-access
    runner._TopologicalSort = in_one_order
    for test in runners.GetTestClasses(definitions):
        runner.RegisterTest(test)
    return runner.RunTests()[0]


def ending(test):
    """How a test ended, by the words of the files."""
    state = str(test.state).lower().replace(" ", "-")
    return "absent" if state == "passed" and any(ABSENT in told for told in test.debug) else state


def told_of(test):
    """What a file says of a test: how it ended, and what it holds against the fixture."""
    return {str(test): ending(test),
            **{f"{test}: {text}": "warning" for text in test.warnings},
            **{f"{test}: {text}": "advisory" for text in test.advisories}}


def try_fixture(modules, program, options, room):
    """Runs the tests on the fixture with these options, and returns its UID and the tests."""
    words = [str(TOP / word) if (TOP / word).is_file() else word for word in options]
    with line(room, [program, "widget", *SPEED, *words]):
        uid = found_uid()
        return uid, run_tests(modules, uid)


def read_expected(path):
    """What a file says: of each test by its name how it must end, and of each head what follows it; and the comments above each."""
    said, comments, above = {}, {}, []
    for text in path.read_text().splitlines():
        first, _, rest = text.partition(" ")
        if first == "#":
            above.append(text)
        elif text and first != "=":
            name, value = (first, rest) if first in HEADS else (rest, first)
            said[name], comments[name], above = value, above, []
    return said, comments


def written(said, comments, categories):
    """The text of a file that says this of the tests of these categories."""
    text = [part for head in HEADS for part in (*comments.get(head, ()), f"{head} {said[head]}")]
    for category, names in sorted(categories.items()):
        text += ["", f"= {category}"]
        for name in sorted(names):
            text += [*comments.get(name, ()), f"{said[name]} {name}"]
    return "\n".join(text) + "\n"


def differences(fixture, expected, said, debug):
    """How what is said of a fixture differs from what must be, as lines for a person, with what a test tells of itself."""
    for name in sorted(expected.keys() | said.keys()):
        must, has = expected.get(name, "not there"), said.get(name, "not there")
        if must != has:
            yield f"{fixture}: {name}: expected {must}, and it is {has}"
            yield from debug.get(name, ())


def check(modules, program, path, room, is_writing):
    """Runs the tests on the fixture of this file, and returns what is wrong, as lines for a person, or writes the file."""
    expected, comments = read_expected(path)
    begun = time.monotonic()
    uid, tests = try_fixture(modules, program, expected["widget"].split(), room)
    said = {"widget": expected["widget"], "uid": uid}
    categories = collections.defaultdict(list)
    for test in tests:
        said |= told_of(test)
        categories[str(test.category)] += told_of(test)
    counts = sorted(collections.Counter(said[name] for names in categories.values() for name in names).items())
    print(f"ola-tests: {len(tests)} on {path.stem}, {uid}, in {time.monotonic() - begun:.0f} s:",
          ", ".join(f"{count} {end}" for end, count in counts), flush=True)
    if is_writing:
        path.write_text(written(said, comments, categories))
        return []
    return list(differences(path.stem, expected, said, {str(test): test.debug for test in tests}))


def run(program, is_writing):
    """Runs the tests on each fixture of this program, reports the result, and returns whether each ended as its file says."""
    end_within(MOST_SECONDS)
    # The tests log each request; what is wanted of that is in their `debug` too.
    logging.disable()
    with new_room() as room:
        modules = test_modules(source.fetch(room))
        wrong = [text for path in sorted(FOLDER.glob("*.txt")) for text in check(modules, program, path, room / path.stem, is_writing)]
    print(*wrong, sep="\n", end="\n" if wrong else "", file=sys.stderr)
    return not wrong
