"""Virtual fixtures on pseudo terminals, for checks that have felosumay test ask them."""
import os
import pty
import re
import select
import subprocess
import termios
import time
import tty

SUM = re.compile(r"scripts: (\d+) played, (\d+) left out; expectations: (\d+) passed, (\d+) failed")
LEFT_OUT = re.compile(r"(\S+): left out: ")
# The message that asks an interface for its serial number, the length of the answer, and how long it may take at first, in seconds.
SERIAL, ANSWER, START = b"\x7E\x0A\0\0\xE7", 9, 20


class Line:
    """A line with a command that is a fixture behind an interface at its other end. `port` is the path of the pseudo terminal."""

    def __init__(self, *command):
        master, self.slave = pty.openpty()
        tty.setraw(self.slave)
        words = termios.tcgetattr(self.slave)
        words[6][termios.VMIN], words[6][termios.VTIME] = 0, 1
        termios.tcsetattr(self.slave, termios.TCSANOW, words)
        self.port = os.ttyname(self.slave)
        self.fixture = subprocess.Popen(command, stdin=master, stdout=master, stderr=subprocess.DEVNULL)
        os.close(master)
        self.await_start()

    def await_start(self):
        """Waits until the interface answers."""
        os.write(self.slave, SERIAL)
        heard, end = b"", time.monotonic() + START
        while len(heard) < ANSWER and time.monotonic() < end and self.fixture.poll() is None:
            if select.select([self.slave], [], [], 0.1)[0]:
                heard += os.read(self.slave, ANSWER)

    def __enter__(self):
        return self

    def __exit__(self, *_):
        # The port stays open until the end, so that it stays set; then the fixture reads that the line is gone.
        os.close(self.slave)
        try:
            self.fixture.wait(timeout=5)
        except subprocess.TimeoutExpired:
            self.fixture.kill()
            self.fixture.wait()


class Report:
    """What felosumay test prints, its status, and what it counts."""

    def __init__(self, ran):
        self.text, self.errors, self.status = ran.stdout, ran.stderr, ran.returncode
        self.left_out = set(LEFT_OUT.findall(self.text))
        found = SUM.search(self.text)
        self.played, self.omitted, self.passed, self.failed = map(int, found.groups()) if found else (None,) * 4


def test(program, port, uid, scripts, *options):
    """Plays scripts on the device at the other end of a line."""
    words = [program, "test", uid, "--port", port, *options, *scripts]
    return Report(subprocess.run(words, capture_output=True, text=True, timeout=120))
