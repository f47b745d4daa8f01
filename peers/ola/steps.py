"""The steps of a session: how they are written, and how one is played.

A file of steps has lines of five kinds, and README.md says more of each:

    = 10.8.4 LAMP_STATE             a heading: the section of ANSI E1.20-2010 on which the steps below it rest
    # why                           a comment
    set --frame lamp_state On       a step: what a client of olad is asked
        frame ACK_TIMER 31 ..       what it must print, a line each; nothing where no such line follows
    repeat 26 .. end                the steps between the two, so many times
"""
import dataclasses
import pathlib
import re
import shlex

from line import UID, UNIVERSE, Fault, run_client

CLIENTS = {"get": "ola_rdm_get", "set": "ola_rdm_set", "discover": "ola_rdm_discover", "slots": "ola_set_dmx"}
DESTINATIONS = {"all": "ffff:ffffffff", "maker": "7ff0:ffffffff"}
RESPONSE_TYPES = {0: "ACK", 1: "ACK_TIMER", 2: "NACK_REASON"}
OLAS_DEFINITIONS = pathlib.Path("/usr/share/ola/pids/pids.proto")
STANDARD = "standard"
BYTES = "bytes"
INDENT = "    "
FRAME_TITLE = "------- Frame Information --------"
# OLA's client rules off the number of messages that wait.
RULE = "-----------------------------------------------------"
FRAME_HEADER = 24
CHECKSUM = 2


@dataclasses.dataclass
class Step:
    """One step: where it is written, the section it rests on, what is asked, and the lines that must be printed."""
    place: str
    section: str
    asked: str
    expected: list[str]


def read_steps(path):
    """The steps of a file, in order."""
    steps, section, times, begin = [], None, 1, 0
    for number, line in enumerate(path.read_text().splitlines(), 1):
        first, _, rest = line.partition(" ")
        if line.startswith(INDENT) and steps:
            steps[-1].expected += repeated(with_repeated_data(line[len(INDENT):]))
        elif first == "=":
            section = rest
        elif first == "repeat":
            times, begin = int(rest), len(steps)
        elif first == "end":
            steps += steps[begin:] * (times - 1)
        elif first in CLIENTS and section:
            steps.append(Step(f"{path.name}:{number}", section, line, []))
        elif line and first != "#":
            raise Fault(f"{path.name}:{number}: neither a step below a heading nor anything else")
    return steps


def repeated(text):
    """N*TEXT stands for the text, N times."""
    several = re.fullmatch(r"(\d+)\*(.+)", text)
    return [several[2]] * int(several[1]) if several else [text]


def with_repeated_data(line):
    """In the data of a frame N*DIGITS stands for the digits, N times."""
    return re.sub(r" (\d+)\*([0-9A-F]+)$", lambda several: " " + several[2] * int(several[1]), line)


def client_words(asked, definitions, uid):
    """The client for a step, and its words. The folder has what `write_definitions` writes, and the UID is the fixture's."""
    command, *words = [part for word in shlex.split(asked) for part in repeated(word)]
    if command == "discover":
        return [CLIENTS[command], "--universe", UNIVERSE, *words]
    if command == "slots":
        return [CLIENTS[command], "--universe", UNIVERSE, "--dmx", *words]
    to, kind, options = uid, STANDARD, []
    while words and words[0].startswith("-"):
        option = words.pop(0)
        if option == "--frame":
            options.append("--frames")
        elif option == "--bytes":
            kind = BYTES
        elif option == "--sub":
            options += ["--sub-device", words.pop(0)]
        elif option == "--to":
            to = DESTINATIONS[words.pop(0)]
        else:
            raise Fault(f"{asked}: there is no option {option}")
    return [CLIENTS[command], "--universe", UNIVERSE, "--uid", to, "--pid-location", str(definitions / kind), *options, "--", *words]


def frame_line(dump):
    """A frame that a client dumped, in short: response type, command class, parameter ID, sub-device and data.

    The transaction number and the checksum are left out, since they count what olad has sent before.
    """
    frame = bytes.fromhex("".join(row[:3 * 8] for row in dump))
    if len(frame) < FRAME_HEADER + CHECKSUM:
        return f"frame of {len(frame)} bytes"
    kind = RESPONSE_TYPES.get(frame[16], f"{frame[16]:02X}")
    data = frame[FRAME_HEADER:-CHECKSUM].hex().upper() or "-"
    return f"frame {kind} {frame[20]:02X} {frame[21:23].hex().upper()} {frame[18:20].hex().upper()} {data}"


def printed_lines(text):
    """What a client printed, with the frame in short, without the rule and without empty lines."""
    lines = [line.rstrip() for line in text.splitlines()]
    if FRAME_TITLE in lines:
        at = lines.index(FRAME_TITLE)
        lines[at:] = [frame_line(lines[at + 1:])]
    return [line for line in lines if line and line != RULE]


def ask(asked, definitions, uid=UID):
    """What a client of olad prints when it is asked this of the fixture with this UID."""
    return printed_lines(run_client(*client_words(asked, definitions, uid)))


def difference(step, printed):
    """How what was printed differs from what must be, as lines for a person, or None."""
    if printed == step.expected:
        return None
    return "\n".join([f"{step.place}: {step.section}: {step.asked}",
                      *("  expected | " + line for line in step.expected or ["nothing"]),
                      *("  printed  | " + line for line in printed or ["nothing"])])


def write_definitions(folder, steps):
    """Writes two sets of definitions of parameters for OLA's clients: its own, and one for --bytes.

    Of its own those of the standard alone: it takes longer to read those of all makers than to play a step. By them the clients
    know which commands a parameter has, and send no other, and no data of another length. By those for --bytes they send any
    bytes to the parameters that the steps name.
    """
    any_bytes = '{ field { type: GROUP name: "data" field { type: UINT8 name: "byte" } } }'
    pids = sorted({pid for step in steps if "--bytes" in step.asked for pid in re.findall(r"0x[0-9a-f]{4}\b", step.asked)})
    rows = [f'pid {{ name: "BYTES_{pid}" value: {int(pid, 16)} get_request {any_bytes} get_response {any_bytes} '
            f'set_request {any_bytes} set_response {any_bytes} }}' for pid in pids]
    for kind in (STANDARD, BYTES):
        (folder / kind).mkdir(parents=True)
    (folder / STANDARD / OLAS_DEFINITIONS.name).symlink_to(OLAS_DEFINITIONS)
    (folder / BYTES / OLAS_DEFINITIONS.name).write_text("\n".join([*rows, "version: 1", ""]))


def all_steps():
    """The steps of the session, file by file in the order of their names."""
    folder = pathlib.Path(__file__).parent / "steps"
    return [step for path in sorted(folder.glob("*.txt")) for step in read_steps(path)]
