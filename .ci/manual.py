"""The manual pages of felosumay, made from its pages of help, and of felosumay-line (.ci/completions).

Version and date are those of the newest heading of CHANGELOG.md, so that the same sources give the same pages at any time.
"""
import re
import textwrap
from pathlib import Path

TOP = Path(__file__).resolve().parent.parent

FILES = """
The program has no settings, and keeps no file of its own. It writes those that an option or a command names, and no other:
.TP
the files of \\fB\\-\\-chart\\fR, \\fB\\-\\-output\\fR and \\fB\\-\\-junit\\fR
are overwritten: charts, and JUnit XML.
.TP
the trace of \\fBline \\-\\-trace\\fR and \\fBtest \\-\\-trace\\fR
is overwritten, line by line as it comes. With \\fB\\-\\-trace\\-as pcapng\\fR it is a capture, which Wireshark opens.
.TP
the values of \\fBwidget \\-\\-saved\\fR
are those of a fixture. The file is read when the fixture starts, and written when a value changes.
.TP
the survey of \\fBline save\\fR
is a file of JSON, which \\fBline compare\\fR and \\fBline restore\\fR read.
.TP
the port of \\fBline \\-\\-port\\fR
is a terminal device, such as
.IR /dev/ttyUSB0 .
It is locked while the program runs, so that a second console is rejected. \\fBfelosumay\\-line\\fR(1) sets it.
.TP
.I @DOC@/examples
has scripts, fixture files and traces.
"""
ENVIRONMENT = """
.TP
.B FELOSUMAY_LIST
The file from which shells complete UIDs: what \\fBline list \\-\\-format csv\\fR, \\fBline list \\-\\-format json\\fR or \\fBline save\\fR
has written. Without it, the newest such file in the current folder is taken. The program itself doesn't read it.
.TP
.B NO_COLOR
If it isn't empty, messages have no colours. They have none where standard error isn't a terminal, either.
"""
EXAMPLES = [
    ("Play a script on the demonstration fixture, and print what happens in words:", "felosumay play \\-\\-words lamp.script"),
    ("Check a fixture file, and print what a controller will find:", "felosumay fixture par_can.toml"),
    ("Draw a trace:", "felosumay chart lamp.trace \\-o lamp.svg"),
    ("Write the frames of a trace as a capture for Wireshark:", "felosumay words \\-\\-format pcapng lamp.trace > lamp.pcapng"),
    ("List all devices of a line by their start addresses, on the interface at /dev/ttyUSB0:",
     "felosumay\\-line /dev/ttyUSB0 list \\-\\-by address"),
    ("Keep a list, from which the shell then completes UIDs, and set an address:",
     "felosumay\\-line /dev/ttyUSB0 list \\-\\-format csv > rig.csv\nfelosumay\\-line /dev/ttyUSB0 set 7FF0:00000001 DMX_START_ADDRESS 101"),
    ("Try a console without an interface or a fixture, with a virtual one on a pseudo-terminal:",
     "socat PTY,link=port,raw,echo=0 EXEC:\"felosumay widget\" &\nfelosumay line \\-\\-port port list"),
]
LINE = """.SH NAME
felosumay\\-line \\- Set the port of an interface, and be a console on its line
.SH SYNOPSIS
.B felosumay\\-line
.I PORT COMMAND
.RI [ WORD ]...
.SH DESCRIPTION
Sets a serial port as \\fBfelosumay line\\fR needs it (\\fBstty raw \\-echo min 0 time 1\\fR), keeps it open, and calls
\\fBfelosumay line \\-\\-port\\fR
.I PORT COMMAND
with all further words. A \\fIPORT\\fR that isn't a terminal device is rejected, and nothing is written to it.
.PP
The commands are those of \\fBfelosumay line\\fR: \\fBfelosumay\\fR(1) has them.
.SH EXIT STATUS
That of \\fBfelosumay\\fR, and:
.TP
.B 4
if the port can't be opened or set
.TP
.B 64
without a port or a command
.SH ENVIRONMENT
.TP
.B FELOSUMAY
The program. Without it, that is the \\fBfelosumay\\fR beside this script, or else that in \\fBPATH\\fR.
.SH FILES
.TP
.I /dev/ttyUSB0
is where Linux has the first interface with a USB serial chip. Its group, often \\fBdialout\\fR, may use it.
.SH EXAMPLES
List all devices of the line:
.PP
.RS
.nf
felosumay\\-line /dev/ttyUSB0 list
.fi
.RE
.SH SEE ALSO
.BR felosumay (1),
.BR stty (1)
"""


def roff(text):
    text = text.replace("\\", "\\e").replace("-", "\\-")
    return "\\&" + text if text[:1] in (".", "'") else text


def folded(page):
    """A page whose lines of text have at most 80 columns. Those of examples and of requests stay as they are."""
    out, is_filled = [], True
    for line in page.splitlines():
        is_filled = line == ".fi" or is_filled and line != ".nf"
        whole = not is_filled or line.startswith(".")
        out += [line] if whole else textwrap.wrap(line, 80, break_long_words=False, break_on_hyphens=False)
    return "\n".join(out) + "\n"


def header(name):
    """The first lines of a page: who made it, and its title with date and version."""
    version, date = re.search(r"^## (\d[\w.]*), (.+)$", (TOP / "CHANGELOG.md").read_text(), re.M).groups()
    return ['.\\" made by .ci/completions', f'.TH {name.upper()} 1 "{date}" "felosumay {version}" "User Commands"']


def rows(found):
    out = []
    for value in found:
        choices = f" One of {', '.join(value.choices)}." if value.choices else ""
        out += [".TP", f"\\fB{roff(value.words)}\\fR", roff(value.text + ("." if choices else "") + choices)]
    return out


def command_rows(command, said):
    """A command with what it takes; options that are said above are left out."""
    options = [option for option in command.options if option.words not in said]
    return [f".SS {roff(command.usage)}", roff(command.text) + ".", *rows(command.arguments), *rows(options)]


def examples():
    out = []
    for text, line in EXAMPLES:
        out += [".PP", roff(text), ".PP", ".RS", ".nf", line, ".fi", ".RE"]
    # The heading begins a paragraph itself.
    return out[1:]


def felosumay(top, commands):
    about = top.page.splitlines()[0]
    statuses = re.search(r"^Exit status: (.*?)\.$", top.page, re.M | re.S)[1].replace("\n", " ")
    out = [*header("felosumay"), ".SH NAME", f"felosumay \\- {roff(about)}", ".SH SYNOPSIS"]
    for command in commands:
        out += [".B " + roff(command.usage), ".br"]
    out[-1] = ".SH DESCRIPTION"
    out += [roff("felosumay plays scripts of commands of Remote Device Management (RDM, ANSI E1.20). It decodes and draws what goes over a "
                 "line, and checks replies against the rules of the standard. It simulates a fixture or a rig of them. On a real line it is "
                 "a console, and tests devices."), ".PP",
            roff("A file that is named - is standard input or standard output."), ".SH OPTIONS", *rows(top.options), ".SH COMMANDS"]
    said = {option.words for option in top.options}
    for command in commands:
        out += command_rows(command, said)
        if command.commands:
            out += [".PP", "These options may come before its command or after it. Each command is below."]
            said |= {option.words for option in command.options}
    out.append(".SH EXIT STATUS")
    for one in re.split(r", (?:and )?", statuses):
        number, meaning = one.split(" ", 1)
        out += [".TP", f"\\fB{number}\\fR", roff(meaning)]
    out += [".SH ENVIRONMENT" + ENVIRONMENT.rstrip("\n"), ".SH FILES" + FILES.replace("@DOC@", "/usr/share/doc/felosumay").rstrip("\n"),
            ".SH EXAMPLES", *examples(), ".SH SEE ALSO", ".BR felosumay\\-line (1),", ".BR socat (1),", ".BR stty (1)"]
    return folded("\n".join(out))


def felosumay_line():
    return folded("\n".join(header("felosumay-line")) + "\n" + LINE)
