"""Finds a caller of each public call: in a crate of tests, else in a program, else in a proved library over it, else in C.

A free function, and a call of the form `Type::name(..)`, is a caller's where the file imports that name from the crate. A method
is, where the type of what stands before the dot is known: by a parameter, by the `let` that made it, by the call that answers it,
or as a variable that is called as its type. Where that isn't known a name counts that one public type alone has.
"""
import re

import sources

# Methods of the standard library, whose names say nothing of the type before the dot.
COMMON = set("append as_slice clear copy count get last len name new next number over put push set take text".split())
MOST_LINES = 6


class Calls:
    """All public calls of the libraries, by which the type of an expression is told."""

    def __init__(self, libraries):
        self.public = {crate: [f for _, f in sources.public_calls(crate)] for crate in libraries}
        self.passed_on = {crate: sources.public_items(crate)[1] for crate in libraries}
        self.aliases = {}
        self.answers = {}  # the name of a call with the types that calls of this name answer
        self.owners = {}  # the name of a method with the public types that have it
        types = {f.owner for calls in self.public.values() for f in calls if f.owner}
        for crate, calls in self.public.items():
            for file in sources.files_of(crate):
                for alias, name in re.findall(r"(?m)^pub type (\w+) = (\w+)<", file.read_text()):
                    self.aliases[alias] = name
            for f in calls:
                if f.has_self:
                    self.owners.setdefault(f.name, set()).add(f.owner)
                self.answers.setdefault(f.name, set()).add(self.type_in(f, types))
        self.types = types

    def home(self, crate, name):
        """The crate that has an item of this name, where others may have passed it on to this one."""
        further = [path for path in self.passed_on.get(crate, []) if path.split("::")[-1] == name]
        return self.home(further[0].split("::")[0], name) if further else crate

    def type_in(self, f, types):
        """The public type that a function answers, perhaps in a `Result` or an `Option`, or none."""
        answer = re.search(r"\) -> (.*?)(?: where\b|$)", " ".join(f.signature))
        if not answer:
            return None
        for word in re.findall(r"\w+", answer[1]):
            word = f.owner if word == "Self" else self.aliases.get(word, word)
            if word in types:
                return word
        return None


class Place:
    """A crate whose functions may be callers: their texts, the names that each file imports, and what its own functions answer."""

    def __init__(self, crate, kind, calls):
        self.crate, self.kind, self.calls = crate, kind, calls
        self.functions, self.rows, self.answers = [], [], dict(calls.answers)
        imported_in = {}
        for file in sources.files_of(crate):
            text = file.read_text()
            imported_in[file] = {tuple(path.split("::")) for path in sources.uses_in(text)}
            self.functions += sources.functions_of(crate, file)
            if "macro_rules!" in text:
                self.rows += [(file, row.strip()) for row in text.splitlines() if re.match(r" +\(\w.*\)$", row)]
        for file, paths in imported_in.items():
            if ("super", "*") in paths:
                paths |= imported_in.get(file.parent.with_suffix(".rt"), set())
        self.imports = {file: {(p[0], p[-1]) for p in paths} for file, paths in imported_in.items()}
        for f in self.functions:
            answered = calls.type_in(f, calls.types)
            if answered and f.name not in self.answers:
                self.answers[f.name] = {answered}
        readme_first = lambda f: (not f.is_test, f.file.name != "readme.rt")
        self.functions.sort(key=readme_first)
        # In a crate of tests for several libraries: the functions of each module that has the name of one.
        self.modules = {}
        for f in self.functions:
            self.modules.setdefault(f.file.relative_to(sources.root_of(crate)).with_suffix("").parts[0], []).append(f)

    def imports_from(self, file, crate, name):
        """Whether a file imports this name of the crate, from itself or from a crate that passes it on."""
        return any(
            imported in (name, "*") and self.calls.home(origin, name) == crate for origin, imported in self.imports[file]
        )

    def find(self, f, uses):
        """The first function here that calls `f`, with the lines of the call, or none. Those of the module of its crate come first."""
        own = self.modules.get("tests" if self.crate == f"{f.crate}_tests" else f.crate.removeprefix("rdm_"), [])
        for caller in [*own, *self.functions]:
            text = "\n".join(caller.body)
            if f.name not in text:
                continue
            for match in self.matches(f, caller, text, f.crate in uses):
                return caller, excerpt(caller.body, text[: match.start()].count("\n"))
        return None

    def implementation(self, f):
        """The first function here that is what a trait asks for."""
        return next((g for g in self.functions if g.of_trait and (g.of_trait, g.name) == (f.owner, f.name)), None)

    def row(self, f):
        """The first row of a macro that names a function."""
        return next(((file, row) for file, row in self.rows if re.search(rf"\b{f.name}\b", row)), None)

    def matches(self, f, caller, text, is_over):
        """Where the text of a caller calls `f`."""
        generic = r"(?:::<[^()]*?>)?\("
        if f.owner and f.has_self:
            for match in re.finditer(rf"\.{f.name}{generic}", text):
                if self.is_of(f, caller, text, match, is_over):
                    yield match
            return
        names = [f.owner, *[a for a, t in self.calls.aliases.items() if t == f.owner]] if f.owner else [f.name]
        for name in names:
            tail = rf"(?:::<[^()]*?>)?::{f.name}" if f.owner else ""
            if self.imports_from(caller.file, f.crate, name):
                yield from re.finditer(rf"(?<![\w.]){name}{tail}{generic}", text)
            yield from re.finditer(rf"(?<!\w){f.crate}::(?:\w+::)*{name}{tail}{generic}", text)

    def is_of(self, f, caller, text, match, is_over):
        """Whether the method that is called there is that of the type of `f`."""
        before = text[: match.start()].rstrip()
        told = self.type_before(before, " ".join(caller.signature), text)
        if told is not None:
            return self.calls.aliases.get(told, told) == f.owner
        return is_over and f.name not in COMMON and self.calls.owners[f.name] == {f.owner}

    def type_before(self, before, signature, text):
        """The public type of the expression that a text ends with, or none where it isn't known."""
        before = before.removesuffix("?")
        if before.endswith(")"):
            depth = 0
            for i in range(len(before) - 1, -1, -1):
                depth += (before[i] == ")") - (before[i] == "(")
                if depth == 0:
                    break
            return self.answered(before[:i])
        variant = re.search(r"\b([A-Z]\w*)::[A-Z]\w*$", before)
        if variant:
            return variant[1]
        name = re.search(r"(?<![\w.])(\w+)$", before)
        if not name:
            return None
        types = self.calls.types | set(self.calls.aliases)
        given = re.search(rf"\b{name[1]}: &?(?:'\w+ )?(?:mut )?({'|'.join(sorted(types))})\b", signature + text)
        if given:
            return given[1]
        made = re.findall(rf"\blet (?:mut )?{name[1]}(?:: [^=]*)? = ([^;]*);", text)
        told = self.type_before(made[-1], signature, text) if made else None
        as_type = name[1].title().replace("_", "")
        return told or (as_type if as_type in types else None)

    def answered(self, called):
        """The type that the call of the name at the end of a text answers."""
        path = re.search(r"(?:(\w+)(?:::<[^()]*?>)?::)?(\w+)$", called)
        if not path:
            return None
        owner = self.calls.aliases.get(path[1], path[1])
        if owner in self.calls.types:
            own = [f for calls in self.calls.public.values() for f in calls if (f.owner, f.name) == (owner, path[2])]
            return self.calls.type_in(own[0], self.calls.types) if own else None
        told = self.answers.get(path[2], set())
        return next(iter(told)) if len(told) == 1 else None


def excerpt(lines, line):
    """The statement around a line, or the lines of the call alone where the statement is long."""
    first = line
    while first > 0 and not ends_statement(lines[first - 1]):
        first -= 1
    whole = statement(lines, first)
    if len(whole) > MOST_LINES or len(whole) <= line - first:
        whole = statement(lines, line)
    cut = min(len(text) - len(text.lstrip()) for text in whole if text.strip())
    return shortened([text[cut:] for text in whole])


def ends_statement(line):
    """Whether a statement may begin after a line: not after `assert_eq!(rt;`, whose bracket is open."""
    return bool(re.search(r"([;{}]|//.*|^)$", line.strip())) and not (line.endswith(";") and line.count("(") > line.count(")"))


def statement(lines, first):
    """The lines from the first to the one where its brackets are closed and no method follows."""
    depth = 0
    for last in range(first, len(lines)):
        depth += sum(lines[last].count(c) for c in "([{") - sum(lines[last].count(c) for c in ")]}")
        further = last + 1 < len(lines) and lines[last + 1].lstrip().startswith((".", "&&", "||"))
        if depth <= 0 and not further:
            break
    return lines[first : last + 1]


def shortened(lines):
    """The first of the lines, as many as an excerpt has."""
    return lines if len(lines) <= MOST_LINES else lines[: MOST_LINES - 1] + [".."]


def in_c(name):
    """The first call of a function in the programs in C: file, function and lines, or none."""
    name = name.removesuffix("_nonnull")  # a program calls such a one by the header's function of the name before
    for file in sorted((sources.TOP / "c").glob("*.c")):
        inside, lines = "", file.read_text().splitlines()
        for i, line in enumerate(lines):
            head = re.match(r"[a-z][\w *]*?\b(\w+)\([^;]*$", line)
            inside = head[1] if head else inside
            if re.search(rf"(?<!\w){name}\(", line) and line.startswith((" ", "\t")):
                return file, inside, excerpt(lines, i)
    return None
