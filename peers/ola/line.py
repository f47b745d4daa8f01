"""A line with a fixture at one end and olad at the other, and olad's clients.

The fixture is our program, which speaks the protocol of an ENTTEC DMX USB Pro on its standard input and output. socat puts it
behind a pseudo terminal, where olad finds it as it finds a serial device. Whatever is started here is ended here, by its
process group, in whatever way the line is left.
"""
import contextlib
import os
import pathlib
import shutil
import signal
import socket
import subprocess
import sys
import tempfile
import time

UID = "7ff0:00000001"
UNIVERSE = "1"
# The clients ask there, and can't be told to ask elsewhere.
OLAD = ("127.0.0.1", 9010)
# olad won't run as root.
UNPRIVILEGED = {"user": "nobody", "group": "nogroup", "extra_groups": []}
PLUGINS_OFF = (
    "artnet", "dmx4linux", "dummy", "e131", "espnet", "ftdidmx", "gpio", "karate", "kinet", "milinst", "opendmx",
    "openpixelcontrol", "osc", "pathport", "renard", "sandnet", "shownet", "spi", "stageprofi", "uartdmx", "usbdmx",
)
TTY = f"ttyOLA{os.getpid()}"
# olad locks a serial device there, and leaves the lock where it is killed.
LOCK = pathlib.Path("/var/lock") / f"LCK..{TTY}"
# olad asks a device that it finds for a second, and one that hasn't answered no more.
SECONDS_TO_START = 8
TIMES_TO_START = 3
SECONDS_TO_END = 5
SECONDS_TO_ANSWER = 20
LOG_LINES = 8
SIGNALS = (signal.SIGINT, signal.SIGTERM, signal.SIGHUP, signal.SIGALRM)


class Fault(Exception):
    """Why the session can't be played."""


def end_within(seconds):
    """Ends this program after so many seconds, or when a signal comes, and with it all that was started. Signals that come while it ends
    change nothing."""
    def stop(number, _frame):
        for other in SIGNALS:
            signal.signal(other, signal.SIG_IGN)
        if number == signal.SIGALRM:
            sys.exit(f"ola: no end within {seconds} s")
        sys.exit(128 + number)

    for number in SIGNALS:
        signal.signal(number, stop)
    signal.alarm(seconds)


@contextlib.contextmanager
def new_room():
    """A new folder, in which olad reads and writes as another user, and which is removed afterwards."""
    with tempfile.TemporaryDirectory(prefix="felosumay-ola-") as name:
        room = pathlib.Path(name)
        room.chmod(0o755)
        yield room


def run_client(name, *words):
    """Runs a client of olad and returns what it prints on standard output and standard error.

    It is called by its whole path and without PATH, since a client that finds no olad would start one itself.
    """
    command = [shutil.which(name), *words]
    try:
        ran = subprocess.run(command, stdin=subprocess.DEVNULL, stdout=subprocess.PIPE, stderr=subprocess.STDOUT,
                             env={"PATH": "/nonexistent"}, timeout=SECONDS_TO_ANSWER, check=False)
    except subprocess.TimeoutExpired as expired:
        raise Fault(f"{name} {' '.join(words)}: no answer within {SECONDS_TO_ANSWER} s") from expired
    return ran.stdout.decode("utf-8", "backslashreplace")


def olad_listens():
    """Whether there is an olad that the clients would ask."""
    with contextlib.closing(socket.socket()) as probe:
        return probe.connect_ex(OLAD) == 0


def finds_fixture():
    """Whether olad has found an interface that speaks RDM."""
    return "RDM supported" in run_client("ola_dev_info")


def found_uid():
    """The UID of the fixture that olad has found on its line, or nothing."""
    return run_client("ola_rdm_discover", "--universe", UNIVERSE).strip()


def wait_until(happened, otherwise, log):
    """Waits until this has happened, and tells what happened otherwise, with the end of the log."""
    end = time.monotonic() + SECONDS_TO_START
    while not happened():
        if time.monotonic() > end:
            told = log.read_text().splitlines()[-LOG_LINES:]
            raise Fault("\n".join([f"{otherwise} within {SECONDS_TO_START} s, and the log ends", *told]))
        time.sleep(0.05)


@contextlib.contextmanager
def started(command, **options):
    """Runs a command in a process group of its own, and ends the group afterwards."""
    process = subprocess.Popen(command, stdin=subprocess.DEVNULL, start_new_session=True, **options)
    try:
        yield
    finally:
        end_group(process)


def end_group(process):
    """Asks a process and its children to end, and kills those that don't."""
    for order in (signal.SIGTERM, signal.SIGKILL):
        with contextlib.suppress(ProcessLookupError):
            os.killpg(process.pid, order)
        with contextlib.suppress(subprocess.TimeoutExpired):
            process.wait(SECONDS_TO_END)


def configure(room):
    """Writes a configuration by which olad looks at our line alone, where olad may write."""
    settings = room / "settings"
    settings.mkdir()
    for plugin in PLUGINS_OFF:
        (settings / f"ola-{plugin}.conf").write_text("enabled = false\n")
    (settings / "ola-usbserial.conf").write_text(f"enabled = true\ndevice_dir = {room}\ndevice_prefix = {TTY}\n")
    if os.geteuid() == 0:
        for path in (settings, *settings.iterdir()):
            shutil.chown(path, UNPRIVILEGED["user"], UNPRIVILEGED["group"])
    return settings


def start(stack, room, program):
    """Starts a line with this program, a list of words, and patches it to the universe. The room is a new folder for it."""
    room.mkdir(mode=0o755)
    log = room / "log"
    log_file = stack.enter_context(log.open("wb"))
    # socat has its own rules for words and paths, so it is given names that need none.
    (room / "fixture").symlink_to(program[0])
    socat = ["socat", f"PTY,link={TTY},raw,echo=0,mode=666", " ".join(["EXEC:./fixture", *program[1:]])]
    olad = ["olad", "--config-dir", configure(room), "--interface", OLAD[0], "--no-http", "--no-register-with-dns-sd",
            "--log-level", "3"]
    user = UNPRIVILEGED if os.geteuid() == 0 else {}
    stack.callback(LOCK.unlink, missing_ok=True)
    stack.enter_context(started(socat, stderr=log_file, cwd=room))
    wait_until((room / TTY).exists, "socat made no terminal", log)
    stack.enter_context(started(olad, stdout=log_file, stderr=log_file, **user))
    wait_until(olad_listens, "olad didn't listen", log)
    wait_until(finds_fixture, "olad found no interface that speaks RDM", log)
    run_client("ola_patch", "--device", "1", "--port", "0", "--universe", UNIVERSE)
    wait_until(found_uid, "olad found no fixture on the line", log)


@contextlib.contextmanager
def line(room, program, prepare=lambda: None):
    """A line with this program at its other end, in new folders whose names begin like the room's.

    On a machine under load the program may not be ready when olad asks. Then all is started again. Before each start this is prepared.
    """
    if olad_listens():
        raise Fault(f"an olad listens at {OLAD[0]}:{OLAD[1]} already, and the clients would ask that one: end it first")
    for left in reversed(range(TIMES_TO_START)):
        prepare()
        with contextlib.ExitStack() as stack:
            try:
                start(stack, room.with_name(f"{room.name}{left}"), program)
            except Fault:
                if left == 0:
                    raise
                continue
            yield
            return
