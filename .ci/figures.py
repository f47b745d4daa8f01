"""Compares each table of measured figures on a page with the file that a measuring script writes or compares: whole tables, cell by cell,
and the figures that sentences repeat.

A file has a line for each row: its name, and then its figures, with a tab before each. Lines that begin with a number sign say on which
machine and when they were measured, where that matters.
"""
import sources

TOP = sources.TOP


def rows_of(path):
    """The rows of a file of figures: a name, and its figures as numbers."""
    lines = [line.split("\t") for line in (TOP / path).read_text().splitlines() if not line.startswith("#")]
    return [(name, *(float(it) if "." in it else int(it) for it in figures)) for name, *figures in lines]


def figures_in(path):
    """The first figure of each row, by its name."""
    return {name: figures[0] for name, *figures in rows_of(path)}


def table(page, header):
    """The cells of a table of a page, row by row: that below the first header line with this text."""
    lines = (TOP / page).read_text().splitlines()
    begin = next((i for i, line in enumerate(lines) if line.startswith("|") and header in line), len(lines))
    found = []
    for line in lines[begin + 2 :]:
        if not line.startswith("|"):
            break
        found.append([cell.strip() for cell in line.strip().strip("|").split(" |")])
    return found


def shown(cells):
    return [f"{cell:,}" if isinstance(cell, int) else str(cell) for cell in cells]


# What each table has to say, from its files: the page, a text of the header, and the rows.


def performance():
    counts = figures_in("bench/counts.txt")
    yield "| Row | Instructions |", list(counts.items())
    slow, reported = counts["slow SET, ACK_TIMER alone"], counts["slow SET and its report"]
    poll, in_turn = counts["QUEUED_MESSAGE, 1024 to 25 waiting"], counts["slow SET, report, poll; 1 waits"]
    yield "| | Instructions |", [
        ("a slow SET, answered with ACK_TIMER", slow),
        ("the report of its job", reported - slow),
        ("the poll that collects its message, with QUEUED_MESSAGE", poll),
        ("all three in turn", in_turn),
    ]
    yield "Best, ns per job", rows_of("bench/crew.txt")[:3]
    yield "Best, ns per item", rows_of("bench/lane.txt")
    yield "UIDs counted up", line_rows()
    memory = figures_in("bench/memory.txt")
    kinds = ("heap", "stack to make it", "stack to receive a frame")
    yield "Stack to receive a frame", [(subs, *(memory[f"{kind}, sub-devices {subs}"] for kind in kinds)) for subs in (0, 1, 512)]
    sizes = ((8, 1024), (8, 64), (8, 1), (1, 1), (1024, 1024))
    yield "| Queue |", [(queue, entries, memory[f"heap, queue {queue}, status entries {entries}"]) for queue, entries in sizes]
    yield "Instructions at most", [
        ("a request of the mix", "420, and 400 if possible", counts["mix of the rows above"]),
        ("a GET of IDENTIFY_DEVICE", 350, counts["GET IDENTIFY_DEVICE"]),
        ("a GET of DEVICE_INFO", 450, counts["GET DEVICE_INFO"]),
        ("a SET of a label of 32 bytes", 520, counts["SET DEVICE_LABEL, 32 bytes"]),
        ("a slow SET", 520, slow),
        ("its report", 320, reported - slow),
        ("a poll", 460, poll),
        ("a SET of all 512 sub-devices", 24000, counts["SET of all 512 sub-devices"]),
        ("STATUS_MESSAGES over 1,024 entries", 16000, counts["STATUS_MESSAGES, none of 1024 shown"]),
    ]


def line_rows():
    """The devices of a line, for three ways to number them, each with what they take more than a responder alone."""
    counts = figures_in("bench/line.txt")
    alone = counts["a responder alone"]
    names = {1: "the only device of a line", 32: "one of 32", 512: "one of 512"}
    rows = [("a single responder", alone, "", alone, "", alone, "")]
    for devices, name in names.items():
        taken = [counts[f"{way}, {devices}"] for way in ("line", "gaps", "scattered")]
        rows.append((name, *(cell for count in taken for cell in (count, count - alone))))
    return rows


def evidence():
    counts = figures_in("bench/counts.txt")
    rows = []
    for name, instructions, theirs, ours in rows_of("bench/ola.txt"):
        said, count = name.replace("mix of the rows above", "a request of the mix"), counts[name]
        rows.append((said, instructions, count, f"{instructions / count:.1f}", theirs, ours, f"{theirs / ours:.1f}"))
    yield "OLA 0.10.9, instructions", rows


def library_for_c():
    inside = "a GET of IDENTIFY_DEVICE in-process, with the sum of the reply's bytes: the first row of `bench/run`"
    yield "| | Instructions |", [(inside, figures_in("bench/counts.txt")["GET IDENTIFY_DEVICE"]), *rows_of("bench/calls.txt")]


def search():
    lines = [line.split() for line in (TOP / "c/altered.txt").read_text().splitlines()]
    yield "Searches that miss a fixture", [(f"{it[0]} %", f"{it[3]} %", it[6], it[14]) for it in lines]
    lines = [line.split() for line in (TOP / "peers/ola/search.txt").read_text().splitlines()]
    rows = []
    for place in range(0, len(lines), 2):
        noise, one = lines[place : place + 2]
        kind = ("random", "adjacent", "of one manufacturer")[place // 2 % 3]
        kind = "any" if noise[1] == "1" else kind
        row = tuple(int(it) for it in (noise[2], noise[3], noise[5], one[3], one[5]))
        if (int(noise[1]), kind, *row) not in rows:
            rows.append((int(noise[1]), kind, *row))
    yield "Noise: this search", rows


def ports():
    ported = figures_in("c/port/figures.txt")
    targets = ("cortex-m0plus", "cortex-m3", "cortex-m4f", "cortex-m33", "rv32imc", "i686")
    forms = {"objects": "objects", "portable C": "portable C, gcc 12 `-Os`"}
    yield "| | Cortex-M0+ |", [(said, *(ported.get(f"size of {form}, {it}", "") for it in targets)) for form, said in forms.items()]
    yield "| `step` |", [tuple(figure for name, figure in ported.items() if name.startswith("stack of "))]
    taken = {name: ported.get(f"instructions of {name}", 0) for name, *_ in table("docs/PORTS.md", "| Request |")}
    yield "| Request |", [(name, count, round(count / 48)) for name, count in taken.items()]


def firmware():
    figures = figures_in("firmware/figures.txt")
    boards = {"mps2": "Cortex-M3, mps2-an385", "virt": "RV32IMAC, virt"}
    rows = [(said, *(figures[f"{what} of {board}"] for what in ("flash", "RAM", "stack"))) for board, said in boards.items()]
    yield "RAM beside the stack", rows


PAGES = {
    "docs/PERFORMANCE.md": performance,
    "docs/EVIDENCE.md": evidence,
    "docs/C.md": library_for_c,
    "docs/SEARCH.md": search,
    "docs/PORTS.md": ports,
    "firmware/README.md": firmware,
}


# Figures in sentences: the page, what it is, and the figure.


def said():
    memory, ported, board = (figures_in(path) for path in ("bench/memory.txt", "c/port/figures.txt", "firmware/figures.txt"))
    counts, (crew,) = figures_in("bench/counts.txt"), [row for row in rows_of("bench/crew.txt") if "millisecond" in row[0]]
    heap, small = memory["heap, queue 8, status entries 1024"], memory["heap, queue 8, status entries 64"]
    subs = memory["heap, sub-devices 512"] - memory["heap, sub-devices 0"]
    for page in ("README.md", "docs/FIXTURES.md"):
        yield page, "the heap of a responder with a queue of 8", heap
        yield page, "the heap with a queue of 8 and 64 status entries", small
    yield "docs/DECISIONS.md", "the heap of a responder with a queue of 8", heap
    yield "README.md", "the heap with a queue of 1,024", memory["heap, queue 1024, status entries 1024"]
    yield "README.md", "the heap of 512 sub-devices", subs
    for page in ("README.md", "docs/PERFORMANCE.md"):
        yield page, "the stack to receive a frame", memory["stack to receive a frame, sub-devices 0"]
    yield "docs/PERFORMANCE.md", "the stack to make a responder", memory["stack to make it, sub-devices 0"]
    yield "README.md", "a request of the mix", counts["mix of the rows above"]
    yield "docs/PERFORMANCE.md", "the seconds of slow jobs on the clock", crew[1]
    yield "docs/PERFORMANCE.md", "the processor time of slow jobs", crew[2]
    for page in ("README.md", "docs/PORTS.md"):
        yield page, "the flash of the fixture on a Cortex-M3", board["flash of mps2"]
    yield "README.md", "the RAM of the fixture on a Cortex-M3", board["RAM of mps2"]
    yield "docs/PORTS.md", "the flash of the fixture on RV32IMAC", board["flash of virt"]
    for name in ("flash of the least firmware, objects", "flash of the least firmware, portable C"):
        yield "docs/PORTS.md", f"the {name}", ported[name]
    yield "docs/PORTS.md", "the RAM of the least firmware", ported["RAM of the least firmware beside its stack, objects"]


def faults():
    """What is wrong on a page: its path, and a sentence."""
    for page, tables in PAGES.items():
        for header, rows in tables():
            found, wanted = table(page, header), [shown(row) for row in rows]
            for k in range(max(len(found), len(wanted))):
                is_row, is_wanted = found[k : k + 1], wanted[k : k + 1]
                if is_row != is_wanted:
                    yield page, f"its table has {is_row or 'no row'}, and the figures are {is_wanted or 'none'}"
    for page, what, figure in said():
        if f"{figure:,}" not in (TOP / page).read_text():
            yield page, f"it doesn't say {figure:,}, {what}"
