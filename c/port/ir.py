"""Reads the text of an optimized LLVM module: its functions in blocks, its constants, and what it declares."""
import re
import sys

NAME = r'(?:@"[^"]*"|@[\w.$-]+)'
LOCAL = r'(?:%"[^"]*"|%[\w.$-]+)'
TYPE = r"(?:ptr|void|i\d+|\{[^}]*\}|\[\d+ x i\d+\])"

# What clang says of a parameter, an argument or a result, and C doesn't.
_WORDS = re.compile(
    r"(?:^|(?<=\s))(?:noundef|zeroext|signext|nonnull|readonly|readnone|writeonly|noalias|nocapture|returned|immarg|nofree"
    r"|writable|dead_on_return|dead_on_unwind|captures\([^)]*\)|initializes\((?:\([^)]*\)(?:, )?)*\)"
    r"|dereferenceable(?:_or_null)?\(\d+\)|align \d+|range\([^)]*\))(?=\s|$)"
)
_NOTES = re.compile(r", ![\w.]+ !\d+")


def refuse(why, text):
    sys.exit(f"portable: {why}: {text.strip()}")


def split(text):
    """Splits at the commas that stand in no brackets and no quotes."""
    parts, depth, quoted, now = [], 0, False, ""
    for letter in text:
        quoted ^= letter == '"'
        if not quoted:
            depth += (letter in "([{<") - (letter in ")]}>")
        if letter == "," and depth == 0 and not quoted:
            parts.append(now.strip())
            now = ""
        else:
            now += letter
    return [*parts, now.strip()] if now.strip() else parts


def plain(text):
    """An operand or a parameter without the words that C doesn't say."""
    return " ".join(_WORDS.sub("", text).split())


def typed(text):
    """The type and the value of an operand."""
    found = re.fullmatch(rf"({TYPE}) (.*)", plain(text))
    return found.groups() if found else refuse("an operand", text)


def fields(kind):
    """The types of the parts of a struct or an array."""
    array = re.fullmatch(r"\[(\d+) x (\S+)\]", kind)
    return [array[2]] * int(array[1]) if array else split(kind.strip("{} "))


class Block:
    """Instructions that are carried out one after another, and the phis before them: (name, type, {block: value})."""

    def __init__(self, label):
        self.label, self.phis, self.lines = label, [], []

    def add(self, line):
        phi = re.fullmatch(rf"({LOCAL}) = phi ({TYPE}) (.*)", line)
        if not phi:
            self.lines.append(line)
            return
        arms = re.findall(r"\[ (.*?), (%\"[^\"]*\"|%[\w.$-]+) \]", phi[3])
        self.phis.append((phi[1], phi[2], {block: value for value, block in arms}))


class Function:
    def __init__(self, head):
        found = re.fullmatch(rf"define (.*?)({TYPE}) ({NAME})\((.*)\)[^()]*\{{", head)
        if not found:
            refuse("a function", head)
        self.is_internal = "internal" in found[1].split()
        self.result, self.name = found[2], found[3]
        self.parameters = [typed(it) for it in split(found[4])]
        self.blocks = []

    def add(self, line):
        label = re.fullmatch(r'("[^"]*"|[\w.$-]+):', line)
        if label:
            self.blocks.append(Block("%" + label[1]))
            return
        if not self.blocks:
            self.blocks.append(Block("%0"))
        self.blocks[-1].add(line.strip())


class Module:
    def __init__(self, path):
        self.functions, self.constants, self.declared = [], [], []
        function = None
        with open(path, encoding="ascii") as lines:
            for line in _whole_lines(lines):
                if line.startswith("define "):
                    function = Function(line)
                    self.functions.append(function)
                elif line == "}":
                    function = None
                elif function and line:
                    function.add(line)
                elif line.startswith("@"):
                    self.constants.append(line)
                elif line.startswith("declare ") and "@llvm." not in line:
                    self.declared.append(line)


def _whole_lines(lines):
    """The lines without comments and notes, those of a switch as one."""
    switch = ""
    for line in lines:
        line = _NOTES.sub("", re.sub(r"\s*; preds = .*$", "", line)).rstrip()
        if switch:
            switch += " " + line.strip()
            if line.strip() == "]":
                yield switch
                switch = ""
        elif re.match(r"  switch .*\[$", line):
            switch = line
        else:
            yield line
