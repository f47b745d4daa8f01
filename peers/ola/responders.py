#!/usr/bin/env python3
"""Lets `felosumay line` command devices that others wrote, OLA's own responders, and then our virtual fixtures.

    python3 responders.py PROGRAM RESPONDERS            compares the result with responders/
    python3 responders.py PROGRAM RESPONDERS --write    writes anew how each GET is answered, and keeps the comments

PROGRAM is felosumay, and RESPONDERS what responders.cpp is built to. The status is 0 if everything is answered as it must be.
"""
import contextlib
import dataclasses
import os
import pathlib
import re
import subprocess
import sys
import termios
import time

from line import Fault, end_within, new_room, started
from surveyed import Survey

PROGRAM = sys.argv[1]
HERE = pathlib.Path(__file__).resolve().parent
TOP = HERE.parents[1]
TABLES = HERE / "responders"
# What each device is asked to see whether it keeps the reply rules, and which rules it breaks.
PROBE, JUDGED = HERE / "probe.script", TABLES / "judged.txt"
# Its SETs are slow, and those of a virtual fixture aren't.
WAITING = HERE / "waiting.script"
MISCOUNTED = ["1: wrong response type (E1.20 section 6.3)", "2: wrong response type (E1.20 section 6.3)",
              "4: too few messages wait (E1.20 section 6.2.8)"]
WRONG = re.compile(r"^([0-9]+): WRONG: (.*)$", re.MULTILINE)
# The scripts with which each device is tested, and of which of them expectations fail. Two are for a device that is alone on its line.
SUITE, TESTED, ALONE = TOP / "suite", TABLES / "tested.txt", ("branch.script", "mute.script")
RESULT = re.compile(r"^\S*?(\w+\.script): ([0-9]+) passed, ([0-9]+) failed$", re.MULTILINE)
# The parameters that each device has, whether or not it lists them (E1.20 table A-3).
REQUIRED = ("0050", "0060", "00C0", "1000")
# Those that `collect` alone asks for.
COLLECTED = ("0020", "0030")
DEVICE = re.compile(r'[0-9A-F]{4}:[0-9A-F]{8}')
ANSWER = re.compile(r"^\S+ answers \S+: (.+?), (GET|SET) response ")
RIG = ("--fixture", TOP / "examples/par_can.toml", "--fixture", TOP / "examples/dimmer_pack.toml",
       "--fixture", TOP / "examples/moving_head.toml")
SECONDS_TO_START = 8
SECONDS_OF_JOB = 1
SECONDS_TO_WATCH = 4
MOST_SECONDS = 300
# Of the fields of DEVICE_INFO the first say what kind of device it is, up to the software version ID; and which field counts personalities.
FIELDS_OF_KIND = 4
PERSONALITIES = 7
PERSONALITY_DESCRIPTION = "00E1"


@dataclasses.dataclass
class Asked:
    """A GET of the table: the sub-device, the parameter and the data, and how it is answered."""
    sub: str
    pid: str
    data: str
    answer: str = ""

    def __str__(self):
        return f"    {self.sub} {self.pid} {self.data} {self.answer}"


@dataclasses.dataclass
class Device:
    """A device of the table: what find prints of it, and each GET. Lines of comments stand before what they are about."""
    found: str
    asked: list

    @property
    def uid(self):
        """Its UID."""
        return self.found.split()[0]


class Table:
    """A file of devices: the comments at its head, and the devices."""

    def __init__(self, name):
        self.path = TABLES / name
        self.head, self.devices = [], []
        for line in self.path.read_text(encoding="utf-8").splitlines():
            if DEVICE.match(line):
                self.devices.append(Device(line, []))
            elif self.devices and line.strip():
                words = line.split(maxsplit=3)
                self.devices[-1].asked.append(line if words[0] == "#" else Asked(*words))
            elif not self.devices:
                self.head.append(line)

    def count(self):
        """How many GETs it has."""
        return sum(isinstance(row, Asked) for device in self.devices for row in device.asked)

    def write(self):
        """Writes it anew."""
        lines = [*self.head]
        for device in self.devices:
            lines += [device.found, *map(str, device.asked), ""]
        self.path.write_text("\n".join(lines).rstrip() + "\n", encoding="utf-8")


class Console:
    """felosumay line on a port, and what of it went wrong."""

    def __init__(self, program, port, trace):
        self.command = [program, "line", "--port", str(port), "--trace", str(trace)]
        self.port = port
        self.trace = trace
        self.asked = 0
        self.wrong = 0

    def run(self, *words, seconds=60):
        """The status of a command, what it prints, and how long it takes."""
        self.asked += 1
        begun = time.monotonic()
        try:
            ran = subprocess.run([*self.command, *words], stdin=subprocess.DEVNULL, stdout=subprocess.PIPE, stderr=subprocess.PIPE,
                                 text=True, timeout=seconds, check=False)
        except subprocess.TimeoutExpired as expired:
            raise Fault(f"line {' '.join(words)}: no end within {seconds} s") from expired
        return ran.returncode, ran.stdout, ran.stderr, time.monotonic() - begun

    def answer(self, *words):
        """How a command was answered at last, in words."""
        status, printed, errors, _ = self.run(*words)
        answers = [match.group(1) for match in map(ANSWER.match, printed.splitlines()) if match]
        answer = answers[-1] if answers else errors.strip()
        self.expect(f"line {' '.join(words)}: the status", status, 0 if answer == "ACK" else 3)
        return answer

    def expect(self, what, is_so, must):
        """Tells what isn't as it must be."""
        if is_so != must:
            self.wrong += 1
            print(f"ola: {what} is {is_so!r}, and must be {must!r}", file=sys.stderr)

    def data(self, *words):
        """The parameter data of the reply to a GET. They are read from the trace, which keeps the bytes."""
        self.run("get", *words)
        replies = [line.split()[1] for line in self.trace.read_text().splitlines() if line.startswith("reply ")]
        frame = bytes.fromhex(replies[-1])
        return frame[24:24 + frame[23]]

    def supported(self, uid, sub):
        """The parameters that a device lists."""
        body = self.data(uid, "SUPPORTED_PARAMETERS", "--sub", sub)
        return [body[at:at + 2].hex().upper() for at in range(0, len(body), 2)]


@contextlib.contextmanager
def served(program, room):
    """A port with this program, a list of words, at its other end."""
    room.mkdir()
    (room / "program").symlink_to(program[0])
    for number, word in enumerate(program[1:]):
        if isinstance(word, pathlib.Path):
            (room / f"file{number}").symlink_to(word)
    words = [f"file{number}" if isinstance(word, pathlib.Path) else word for number, word in enumerate(program[1:])]
    port = room / "port"
    with started(["socat", f"PTY,link={port},raw,echo=0", " ".join(["EXEC:./program", *words])], cwd=room):
        end = time.monotonic() + SECONDS_TO_START
        while not port.exists():
            if time.monotonic() > end:
                raise Fault("socat made no terminal")
            time.sleep(0.05)
        set_waiting(port)
        yield port


def set_waiting(port):
    """Sets the port so that a read returns after a tenth of a second if no byte comes."""
    file = os.open(port, os.O_RDWR | os.O_NOCTTY)
    # socat makes the port before it sets it, and would set this back.
    end = time.monotonic() + SECONDS_TO_START
    while (settings := termios.tcgetattr(file))[3] & (termios.ICANON | termios.ECHO):
        if time.monotonic() > end:
            raise Fault("socat didn't set its terminal")
        time.sleep(0.05)
    settings[6][termios.VMIN], settings[6][termios.VTIME] = 0, 1
    termios.tcsetattr(file, termios.TCSANOW, settings)
    # It isn't closed: the terminal of a line that nobody has open may be set anew.
    set_waiting.open = file


def check_found(console, devices):
    """Whether find tells exactly these."""
    status, printed, errors, _ = console.run("find")
    console.expect("the status of find", (status, errors), (0, ""))
    console.expect("what find prints", printed.splitlines(), [device.found for device in devices])


def check_device(console, device, is_writing):
    """Reads each parameter of a device that the table has, and looks whether it has all that the device lists."""
    rows = [row for row in device.asked if isinstance(row, Asked)]
    for sub in dict.fromkeys(row.sub for row in rows):
        listed = {*console.supported(device.uid, sub), *REQUIRED}.difference(COLLECTED)
        console.expect(f"{device.uid}, {sub}: what it lists and the table hasn't",
                       sorted(listed - {row.pid for row in rows if row.sub == sub}), [])
    for row in rows:
        answer = console.answer("get", device.uid, row.pid, row.data, "--sub", row.sub)
        if is_writing:
            row.answer = answer
        console.expect(f"{device.uid}, {row.sub}: the answer to GET {row.pid} {row.data}", answer, row.answer)


def check_set(console, uid, parameter, data, *answers):
    """A SET is answered so: a slow one is waited for, and its result fetched; then nothing waits."""
    status, printed, errors, seconds = console.run("set", uid, parameter, data)
    told = [match.group(1) for match in map(ANSWER.match, printed.splitlines()) if match]
    console.expect(f"set {parameter}", (status, told, errors), (0, [*answers], ""))
    if len(answers) > 1:
        console.expect(f"set {parameter}: whether it was waited for", seconds >= 0.5, True)
    console.expect(f"get {parameter} behind the set", console.answer("get", uid, parameter), "ACK")
    console.expect("what waits behind the set", console.run("collect", uid)[:3], (0, "", ""))


def check_slow(console, uid):
    """The slow commands of the ack-timer responder. Without slots, as at first, it has no start address."""
    check_set(console, uid, "DMX_PERSONALITY", "02", "ACK")
    check_set(console, uid, "DMX_START_ADDRESS", "17", "ACK_TIMER 0.5 s", "ACK")
    check_set(console, uid, "IDENTIFY_DEVICE", "01", "ACK_TIMER 0.5 s", "ACK")


def plain(console, uid, *words):
    """What `get --format plain` prints of a parameter, without its line's end."""
    status, printed, errors, _ = console.run("get", uid, *words, "--format", "plain")
    console.expect(f"get {uid} {' '.join(words)}", (status, errors), (0, ""))
    return printed.rstrip("\n")


def identity(console, uid):
    """What a device says that it is: its texts, the fields of DEVICE_INFO that nobody sets, its personalities and its sensors."""
    fields = plain(console, uid, "DEVICE_INFO").split()
    told = [plain(console, uid, name) for name in ("MANUFACTURER_LABEL", "DEVICE_MODEL_DESCRIPTION", "SOFTWARE_VERSION_LABEL")]
    told += fields[:FIELDS_OF_KIND]
    if PERSONALITY_DESCRIPTION in console.supported(uid, "root"):
        told += [plain(console, uid, "DMX_PERSONALITY_DESCRIPTION", str(number + 1)) for number in range(int(fields[PERSONALITIES]))]
    # OLA pads the names of sensors with NULs.
    told += [console.data(uid, "SENSOR_DEFINITION", str(number)).rstrip(b"\0") for number in range(int(fields[-1]))]
    return told


def check_described(console, devices, room):
    """With the file that `describe` prints of each device, a virtual fixture stands in for it: it's found as the device is, and says that it
    is the same."""
    for number, device in enumerate(devices):
        status, printed, _, _ = console.run("describe", device.uid)
        console.expect(f"describe {device.uid}: the status", status, 0)
        file = room / f"described{number}.toml"
        file.write_text(printed, encoding="utf-8")
        with served([PROGRAM, "widget", "--fixture", file], room / f"stand-in{number}") as port:
            other = Console(PROGRAM, port, room / "trace-of-stand-in")
            check_found(other, [device])
            console.expect(f"{device.uid}: what its stand-in says that it is", identity(other, device.uid), identity(console, device.uid))
            console.wrong += other.wrong


def told_in(file):
    """What a file has of each device."""
    found = {}
    for line in file.read_text(encoding="utf-8").splitlines():
        if DEVICE.match(line):
            found[line] = []
        elif line.startswith("    "):
            found[list(found)[-1]].append(line.strip())
    return found


def check_judged(console, devices, room):
    """What `check` finds wrong in the replies of each device to the probe, beside the file that `describe` prints of it."""
    wanted = told_in(JUDGED)
    for number, device in enumerate(devices):
        console.expect(f"what check finds wrong in {device.uid}", judged(console, number, device, PROBE, room), wanted.get(device.uid))
        if "Ack Timer" in device.found:
            console.expect(f"how many wait in {device.uid}", judged(console, number, device, WAITING, room), MISCOUNTED)


def judged(console, number, device, script, room):
    """What `check` finds wrong in the replies of a device to a script. No message waits before it."""
    # Probes broadcast. That is a slow command of the ack-timer responder, with a result in its queue.
    time.sleep(SECONDS_OF_JOB)
    console.run("collect", device.uid)
    _, printed, _, _ = console.run("play", str(script), "--uid", device.uid)
    trace = room / f"probed{number}.trace"
    trace.write_text(printed, encoding="utf-8")
    file = room / f"described{number}.toml"
    ran = subprocess.run([PROGRAM, "check", trace, "--fixture", file], stdin=subprocess.DEVNULL, stdout=subprocess.PIPE,
                         stderr=subprocess.STDOUT, text=True, timeout=60, check=False)
    return [f"{at}: {rule}" for at, rule in WRONG.findall(ran.stdout)]


def check_tested(console, devices):
    """Which expectations of the scripts of suite/ fail on each device."""
    scripts = [str(script) for script in sorted(SUITE.glob("*.script")) if script.name not in ALONE]
    wanted, passed, failed = told_in(TESTED), 0, 0
    for device in devices:
        ran = subprocess.run([PROGRAM, "test", device.uid, "--port", str(console.port), *scripts], stdin=subprocess.DEVNULL,
                             stdout=subprocess.PIPE, stderr=subprocess.STDOUT, text=True, timeout=60, check=False)
        results = RESULT.findall(ran.stdout)
        passed += sum(int(right) for _, right, _ in results)
        failed += sum(int(wrong) for _, _, wrong in results)
        console.expect(f"which expectations fail on {device.uid}", [f"{name}: {wrong}" for name, _, wrong in results if wrong != "0"],
                       wanted.get(device.uid))
    print(f"ola-responders: {len(devices)} tested with suite/: {passed} expectations passed, {failed} failed", flush=True)


def check_watched(console, devices):
    """Whether watch polls all of these, until it is ended."""
    try:
        subprocess.run([*console.command, "watch"], stdin=subprocess.DEVNULL, stdout=subprocess.PIPE, stderr=subprocess.STDOUT,
                       timeout=SECONDS_TO_WATCH, check=False)
        printed = ""
    except subprocess.TimeoutExpired as expired:
        printed = (expired.stdout or b"").decode()
    told = printed.splitlines()
    expected = [f"watching {device.uid}" for device in devices]
    # The ack-timer responder alone has a queue.
    expected += [f"{device.uid} has no QUEUED_MESSAGE, and isn't polled" for device in devices if "Ack Timer" not in device.found]
    console.expect("what watch tells", told, expected)


def read_all(console, table, is_writing):
    """Finds all devices of a table, and reads all their parameters."""
    check_found(console, table.devices)
    for device in table.devices:
        check_device(console, device, is_writing)
    if is_writing:
        table.write()


def play(name, command, check_more, is_writing):
    """Commands the devices of a table, which this command makes, and returns how many answers are wrong."""
    table, begun = Table(f"{name}.txt"), time.monotonic()
    with new_room() as room, served(command, room / name) as port:
        console = Console(PROGRAM, port, room / "trace")
        read_all(console, table, is_writing)
        check_more(console, table.devices, room)
    print(f"ola-responders: {name}: {len(table.devices)} found, {table.count()} GETs, {console.asked} commands in all, in "
          f"{time.monotonic() - begun:.0f} s: {console.wrong} answers wrong", flush=True)
    return console.wrong


def check_more_of_olas(console, devices, room):
    """What is asked of OLA's responders besides."""
    check_described(console, devices, room)
    check_judged(console, devices, room)
    time.sleep(SECONDS_OF_JOB)
    console.run("collect", ",".join(device.uid for device in devices))
    Survey(console, devices).check()
    check_slow(console, next(device.uid for device in devices if "Ack Timer" in device.found))
    check_watched(console, devices)
    check_tested(console, devices)


def check_more_of_ours(console, devices, _room):
    """The lamp of the moving head is struck, and its result fetched."""
    check_set(console, devices[0].uid, "LAMP_STATE", "01", "ACK_TIMER 5.0 s", "ACK")


def main():
    """Commands both, and reports the result."""
    responders, is_writing = sys.argv[2], sys.argv[3:] == ["--write"]
    end_within(MOST_SECONDS)
    try:
        wrong = play("olas", [responders], check_more_of_olas, is_writing)
        wrong += play("ours", [PROGRAM, "widget", *RIG], check_more_of_ours, is_writing)
    except Fault as fault:
        sys.exit(f"ola: {fault}")
    sys.exit(0 if wrong == 0 else 1)


if __name__ == "__main__":
    main()
