#!/usr/bin/env python3
"""Commands the fixture of this folder on a board of qemu: OLA plays the session of peers/ola/steps, strikes the lamp in real time and
runs its device tests; its values are looked for after resets and kills; and `felosumay line` finds, reads and sets it, and collects what its menu
did.

    python3 play.py BOARD FIXTURE.elf [PROGRAM]

PROGRAM is felosumay; without it that part isn't played. The status is 0 if everything is as it must be.
"""
import contextlib
import logging
import os
import pathlib
import random
import re
import select
import shutil
import signal
import socket
import subprocess
import sys
import termios
import time

HERE = pathlib.Path(__file__).resolve().parent
sys.path.insert(0, str(HERE.parent / "peers" / "ola"))
sys.dont_write_bytecode = True
import device_tests
import session
import source
import steps
from line import UID, Fault, end_within, line, new_room, started

BOARD, FIXTURE = sys.argv[1], str(pathlib.Path(sys.argv[2]).resolve())
PROGRAM = str(pathlib.Path(sys.argv[3]).resolve()) if len(sys.argv) > 3 else None
DEVICE, CONTROLLER = bytes([0x7F, 0xF0, 0, 0, 0, 1]), bytes([0x7F, 0xF0, 0, 0, 0, 2])
GET, SET = 0x20, 0x30
LABEL, START, CYCLES = 0x0082, 0x00F0, 0x0405
KILLS = 10
# What the noise is made of: another number, other noise.
NOISE = 1
# Where the stack ends, of so many bytes (sections.ld).
STACKS = {"mps2": 0x20000000, "virt": 0x80400000}
STACK_BYTES = 20 * 1024
# Values are saved a second after a change.
SECONDS_TO_SAVE = 1.3
SECONDS_TO_ANSWER = 8
MOST_SECONDS = 600
# How often OLA's device tests are run, if olad gives up a request, and what they say then.
TEST_RUNS = 3
GIVEN_UP = "Failed to send request"
wrong = 0


def expect(what, is_so, must):
    """Tells what isn't as it must be."""
    global wrong
    if is_so != must:
        wrong += 1
        print(f"firmware: {BOARD}: {what} is {is_so!r}, and must be {must!r}", file=sys.stderr)


def told(what, begun):
    """Tells what was done, and how long it took."""
    print(f"firmware: {BOARD}: {what} in {time.monotonic() - begun:.0f} s", flush=True)


def command(folder):
    """The words that run the fixture, whose memory is in this folder."""
    return [str(HERE / "run"), BOARD, FIXTURE, str(folder)]


def converse(path, order, has_ended):
    """What comes at a socket after this order, until that has ended."""
    with contextlib.closing(socket.socket(socket.AF_UNIX)) as end:
        end.settimeout(SECONDS_TO_ANSWER)
        end.connect(str(path))
        end.sendall(order.encode() + b"\n")
        text = ""
        while not has_ended(text):
            came = end.recv(4096).decode("ascii", "replace")
            if not came:
                raise Fault(f"{path.name}: {order}: it ends after {text!r}")
            text += came
    return text


def at_menu(folder, order):
    """What the menu says to an order, without the word that it is done. After a reset it says that the fixture is on."""
    ends = ("done\r\n", "try help\r\n", "OUT_OF_RANGE\r\n", "TOO_LONG\r\n")
    text = converse(folder / "menu", order, lambda text: text.endswith(ends))
    return text.replace("\r\n", "\n").removesuffix("done\n")


def order_qemu(folder, order):
    """Has the monitor of qemu carry out an order."""
    converse(folder / "monitor", order, lambda text: text.count("(qemu) ") == 2)


def stack_taken(folder):
    """How much of its stack the fixture has written since power-on: where it hasn't, there are zeros."""
    order_qemu(folder, f"pmemsave {STACKS[BOARD]:#x} {STACK_BYTES} stack")
    kept = (folder / "stack").read_bytes()
    return len(kept.lstrip(b"\x00"))


class Port:
    """The fixture, spoken to without OLA."""

    def __init__(self, folder):
        self.process = subprocess.Popen(command(folder), stdin=subprocess.PIPE, stdout=subprocess.PIPE, start_new_session=True)

    def await_interface(self):
        """Asks for the serial number until it comes: what is sent before a UART is switched on is lost."""
        for _ in range(10 * SECONDS_TO_ANSWER):
            self.process.stdin.write(b"\x7E\x0A\x00\x00\xE7")
            self.process.stdin.flush()
            if select.select([self.process.stdout], [], [], 0.1)[0]:
                break
        # All that were sent are answered.
        while select.select([self.process.stdout], [], [], 0.3)[0]:
            expect("the serial number", self.read(), (10, bytes([1, 0, 0, 0])))

    def read_bytes(self, count):
        """So many bytes of what the fixture sends."""
        came = b""
        while len(came) < count:
            if not select.select([self.process.stdout], [], [], SECONDS_TO_ANSWER)[0]:
                raise Fault(f"no answer within {SECONDS_TO_ANSWER} s")
            came += os.read(self.process.stdout.fileno(), count - len(came)) or self.has_ended()
        return came

    def has_ended(self):
        """There is nothing more to read."""
        raise Fault("qemu has ended")

    def read(self):
        """The label and the body of the next message."""
        head = self.read_bytes(4)
        return head[1], self.read_bytes(int.from_bytes(head[2:4], "little") + 1)[:-1]

    def send(self, command_class, pid, data=b""):
        """Sends a request."""
        frame = bytes([0xCC, 1, 24 + len(data)]) + DEVICE + CONTROLLER + bytes([0, 1, 0, 0, 0, command_class]) + pid.to_bytes(2, "big")
        frame += bytes([len(data)]) + data
        frame += (sum(frame) % 65536).to_bytes(2, "big")
        self.process.stdin.write(bytes([0x7E, 7]) + len(frame).to_bytes(2, "little") + frame + bytes([0xE7]))
        self.process.stdin.flush()

    def ask(self, command_class, pid, data=b""):
        """The data of the reply to a request."""
        self.send(command_class, pid, data)
        label, body = self.read()
        if label != 5:
            raise Fault(f"no reply to {pid:04X}, but label {label}")
        return body[25:25 + body[24]]

    def kill(self):
        """Power is off, at once."""
        os.killpg(self.process.pid, signal.SIGKILL)
        self.process.wait()
        self.process.stdin.close()
        self.process.stdout.close()


@contextlib.contextmanager
def port(folder):
    """The fixture, which is ended afterwards."""
    made = Port(folder)
    try:
        made.await_interface()
        yield made
    finally:
        made.kill()


def steps_of_board():
    """OLA's session of peers/ola/steps. The board has counted its first power-on, which the virtual fixture of these steps hasn't."""
    table = steps.all_steps()
    first = next(step for step in table if step.asked == "get device_power_cycles")
    expect("the power cycles of a virtual fixture", first.expected, ["Power Cycles: 0"])
    first.expected = ["Power Cycles: 1"]
    return table


def play_steps(room):
    """OLA plays that session, at which jobs take a 10,000th of their time; then one slow command in real time."""
    begun, table = time.monotonic(), steps_of_board()
    played = session.Session(room / "definitions")
    steps.write_definitions(played.definitions, table)
    memory = room / "fast_memory"
    # A start that olad was too early for has counted a power-on.
    with line(room / "fast", command(memory), lambda: shutil.rmtree(memory, ignore_errors=True)):
        at_menu(memory, "hurry 10000")
        for step in table:
            played.play(step)
        taken = stack_taken(memory)
    with line(room / "real", command(room / "real_memory")):
        played.play_lamp()
        steps.ask("slots 10,20,30,40,50,60", played.definitions)
        expect("the levels that OLA has sent", at_menu(room / "real_memory", "show").split("levels")[1], " 10 20 30 40 50\n")
    expect("the number of steps that went wrong", played.wrong, 0)
    expect("whether the stack has room to spare", taken < STACK_BYTES - 1024, True)
    told(f"OLA plays {played.played} steps, {played.wrong} of them wrong, with {taken} bytes of stack,", begun)


def leave_out(why):
    """Tells what is left out, also to the gate's list."""
    print(f"firmware: left out: {why}")
    if skipped := os.environ.get("SKIPPED"):
        with open(skipped, "a", encoding="utf-8") as file:
            file.write(f"firmware/check: {why}\n")


def device_tests_on(modules, room):
    """How OLA's device tests end on the board. They are run once more if olad gave up a request: a board of QEMU's is slow where other
    programs keep the processor busy, and then the tests that need the reply aren't run."""
    for attempt in range(1, TEST_RUNS + 1):
        memory = room / f"tests_memory_{attempt}"
        with line(room / f"tests_{attempt}", command(memory)):
            at_menu(memory, "hurry 10000")
            tests = device_tests.run_tests(modules, UID)
        if not any(GIVEN_UP in text for test in tests for text in test.debug):
            break
    return tests


def run_device_tests(room):
    """OLA's own device tests end on the board as on the virtual fixture with the same profile, which peers/ola/device_tests has."""
    said, _ = device_tests.read_expected(device_tests.FOLDER / "demonstration.txt")
    (room / "source").mkdir()
    try:
        modules = device_tests.test_modules(source.fetch(room / "source"))
    except source.Unfetched as why:
        leave_out(f"OLA's device tests weren't run on {BOARD}: {why}")
        return
    # They log each request.
    logging.disable()
    begun, ended = time.monotonic(), {head: said[head] for head in device_tests.HEADS}
    tests = device_tests_on(modules, room)
    for test in tests:
        ended |= device_tests.told_of(test)
    different = list(device_tests.differences(BOARD, said, ended, {str(test): test.debug for test in tests}))
    print(*different, sep="\n", end="\n" if different else "", file=sys.stderr)
    expect("how many lines tell of device tests that end otherwise", len(different), 0)
    told(f"{len(tests)} device tests of OLA's were run", begun)


def values_of(fixture):
    """The label, the start address and the power cycles."""
    return [fixture.ask(GET, LABEL), fixture.ask(GET, START), int.from_bytes(fixture.ask(GET, CYCLES), "big")]


def keep_values(room):
    """Values outlive a reset by the menu, one by the processor's pin, and power-off. Each is a power cycle more; the first power-on is one."""
    begun, folder = time.monotonic(), room / "values"
    with port(folder) as fixture:
        expect("the values at first", values_of(fixture), [b"Fixture", b"\x00\x01", 1])
        fixture.ask(SET, LABEL, b"Front truss")
        at_menu(folder, "start 101")
        time.sleep(SECONDS_TO_SAVE)
        for cycles, reset in ((2, lambda: at_menu(folder, "reset")), (3, lambda: order_qemu(folder, "system_reset"))):
            reset()
            time.sleep(SECONDS_TO_SAVE)
            expect(f"the values at power-on {cycles}, a reset,", values_of(fixture), [b"Front truss", b"\x00\x65", cycles])
    for cycles in (4, 5):
        with port(folder) as fixture:
            expect(f"the values at power-on {cycles}", values_of(fixture), [b"Front truss", b"\x00\x65", cycles])
            time.sleep(SECONDS_TO_SAVE)
    told("values outlive 2 resets and 2 times power-off", begun)


def number_of(label):
    """Which of the labels this is: 0 is that of the profile."""
    found = re.fullmatch(rb"label (\d+)|Fixture", label)
    return int(found[1] or 0) if found else -1


def cut_power(room):
    """Power fails at any moment while labels are saved, one after another: a whole one is there afterwards, and none from before."""
    begun, folder, least, last = time.monotonic(), room / "cut", 0, 0
    for _ in range(KILLS + 1):
        with port(folder) as fixture:
            kept = number_of(fixture.ask(GET, LABEL))
            expect(f"whether label {kept} is kept, one of {least} to {last},", least <= kept <= last, True)
            least, end = kept, time.monotonic() + 0.5 + 3 * random.random()
            while time.monotonic() < end:
                last += 1
                fixture.ask(SET, LABEL, b"label %d" % last)
                time.sleep(0.05 * random.random())
    told(f"power fails {KILLS} times at any moment, and a whole label is left each time,", begun)


def hear_noise(room):
    """Whatever comes, the fixture goes on: bytes without sense, heads of messages, and requests that are cut or altered."""
    begun, made = time.monotonic(), random.Random(NOISE)
    with port(room / "noise") as fixture:
        fixture.ask(SET, LABEL, b"Front truss")
        for _ in range(2000):
            part = made.choice([made.randbytes(made.randrange(40)), bytes([0x7E, 7]), b"\x7E\xFF\xFF\xFF", b"\x7E\x06\x02\x00\x00\xFF\xE7",
                                b"\x7E\x07\x1A\x00\xCC\x01\x18" + made.randbytes(made.randrange(30))])
            fixture.process.stdin.write(part)
        # The longest message that may have begun is filled up, and what was answered is passed over.
        fixture.process.stdin.write(bytes(605))
        fixture.process.stdin.flush()
        while select.select([fixture.process.stdout], [], [], 1)[0]:
            os.read(fixture.process.stdout.fileno(), 4096)
        expect("the values behind noise", values_of(fixture), [b"Front truss", b"\x00\x01", 1])
    told("noise is heard without harm", begun)


def set_waiting(path):
    """Sets a port so that a read returns after a tenth of a second, and keeps it open: else it may be set anew."""
    file = os.open(path, os.O_RDWR | os.O_NOCTTY)
    settings = termios.tcgetattr(file)
    settings[6][termios.VMIN], settings[6][termios.VTIME] = 0, 1
    termios.tcsetattr(file, termios.TCSANOW, settings)
    return file


@contextlib.contextmanager
def terminal(room):
    """A pseudo terminal with the fixture at its other end, for felosumay line."""
    path = room / "port"
    with started(["socat", f"PTY,link={path},raw,echo=0", " ".join(["EXEC:" + command(room / "line")[0], *command(room / "line")[1:]])]):
        end = time.monotonic() + SECONDS_TO_ANSWER
        while not path.exists() or not (room / "line" / "menu").exists():
            if time.monotonic() > end:
                raise Fault("socat made no terminal")
            time.sleep(0.05)
        file = set_waiting(path)
        yield path
        os.close(file)


def line_of_console(path, *words):
    """What felosumay line prints, without the times of the UID that it has, and its status."""
    ran = subprocess.run([PROGRAM, "line", "--port", str(path), *words], stdin=subprocess.DEVNULL, stdout=subprocess.PIPE,
                         stderr=subprocess.STDOUT, text=True, timeout=60, check=False)
    return ran.returncode, re.sub(r"7FF0:00000001 answers \S+ |, transaction \d+", "", ran.stdout).splitlines()


def command_by_line(room):
    """felosumay line finds the fixture, reads and sets it, waits for its lamp, and collects what was done at its menu."""
    begun, uid = time.monotonic(), "7FF0:00000001"
    rows = [
        (("find",), ['7FF0:00000001 "Moving head" "Fixture"']),
        (("set", uid, "DEVICE_LABEL", "Front truss 1"), ["ACK, SET response DEVICE_LABEL (0082), root"]),
        (("get", uid, "DEVICE_LABEL"), ["ACK, GET response DEVICE_LABEL (0082), root", '  device label "Front truss 1"']),
    ]
    with terminal(room) as path:
        for words, printed in rows:
            expect(f"line {' '.join(words)}", line_of_console(path, *words), (0, printed))
        struck = time.monotonic()
        expect("line set LAMP_STATE", line_of_console(path, "set", uid, "LAMP_STATE", "on"),
               (0, ["ACK_TIMER 5.0 s, SET response LAMP_STATE (0403), root", "ACK, SET response LAMP_STATE (0403), root"]))
        expect("whether the lamp took five seconds", 5 <= time.monotonic() - struck < 8, True)
        at_menu(room / "line", "start 101")
        at_menu(room / "line", "warn 7")
        printed = ["ACK, GET response DMX_START_ADDRESS (00F0), root", "  DMX start address 101",
                   "ACK, GET response STATUS_MESSAGES (0030), root",
                   "  status: warning (03), Self test failed (8002), values 7 and 0, root"]
        expect("line collect", line_of_console(path, "collect", uid), (0, printed))
    told("felosumay line finds it, reads and sets it, waits for its lamp, and collects what its menu did,", begun)


def main():
    """Does all of it."""
    end_within(MOST_SECONDS)
    try:
        with new_room() as room:
            keep_values(room)
            cut_power(room)
            hear_noise(room)
            play_steps(room)
            run_device_tests(room)
            if PROGRAM:
                command_by_line(room)
    except Fault as fault:
        sys.exit(f"firmware: {BOARD}: {fault}")
    sys.exit(0 if wrong == 0 else 1)


if __name__ == "__main__":
    main()
