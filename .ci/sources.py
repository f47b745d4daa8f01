"""What the scripts of this folder read in the sources of the crates: their functions, and which of them are public.

The reading goes by lines and by their indentation, which `rt fmt` fixes. It doesn't expand macros: no public call is made by one.
"""
import pathlib
import re
from dataclasses import dataclass, field

TOP = pathlib.Path(__file__).resolve().parent.parent
FUNCTION = re.compile(r'( *)(pub(?:\([a-z]+\))? )?((?:const |unsafe |extern "C" )*)fn (\w+)')
ITEM = r"(?m)^pub (?:const fn|(?:unsafe )?extern \"C\" fn|fn|struct|enum|trait|type|const|static) %s\b"


@dataclass
class Function:
    """A function as it stands in a file: its lines without the indentation, and where it is."""

    crate: str
    file: pathlib.Path
    name: str
    is_pub: bool
    is_test: bool
    owner: str = ""  # the type of the `impl`, or the trait
    of_trait: str = ""  # the trait of an `impl Trait for Type`
    block: str = ""  # the head of the `impl`
    doc: list = field(default_factory=list)
    signature: list = field(default_factory=list)
    clauses: list = field(default_factory=list)
    body: list = field(default_factory=list)

    @property
    def title(self):
        """Its name as a caller writes it."""
        return f"{self.owner}::{self.name}" if self.owner else self.name

    @property
    def has_self(self):
        return bool(re.search(r"\( *(?:&(?:'\w+ )?)?(?:mut )?self\b", " ".join(self.signature)))


def dependencies():
    """Each crate of crates.txt with the names of those that it depends on, in its order."""
    return {name: below for _, crates in blocks() for name, below in crates.items()}


def blocks():
    """The blocks of crates.txt: the title of each, and its crates with the names of those that they depend on."""
    found = []
    for line in (TOP / "crates.txt").read_text().splitlines():
        if line.startswith("## "):
            found.append((line[3:], {}))
        name, colon, below = line.split("#")[0].partition(":")
        if name.strip():
            found[-1][1][name.split()[0]] = below.split() if colon else []
    return found


def libraries():
    """The crates that have public calls, in the order of crates.txt."""
    return [c for c in dependencies() if not c.endswith("_tests") and (root_of(c) / "lib.rt").exists()]


def tests_of(crate):
    """The crate that has the tests of a library: NAME_tests, or one for several libraries, in which a module has the name without `rdm_`."""
    if (TOP / "crates" / f"{crate}_tests").is_dir():
        return f"{crate}_tests"
    module = crate.removeprefix("rdm_") + ".rt"
    return next((name for name in dependencies() if name.endswith("_tests") and (root_of(name) / module).exists()), None)


def root_of(crate):
    return TOP / "crates" / crate / "src"


def files_of(crate):
    """The files of a library without those of its own tests, or all files of another crate."""
    root = root_of(crate)
    own_tests = not crate.endswith("_tests")
    return [f for f in sorted(root.rglob("*.rt")) if not (own_tests and "tests" in f.relative_to(root).with_suffix("").parts)]


def block_end(lines, start, indent):
    """The first line from `start` on that closes a block of this indentation."""
    for i in range(start, len(lines)):
        if lines[i].startswith(indent + "}"):
            return i
    return len(lines) - 1


def functions_of(crate, file):
    """The functions of a file, in its order."""
    lines = file.read_text().splitlines()
    found, doc, is_test = [], [], False
    owner, of_trait, block, in_trait, promised = "", "", "", False, []
    i = 0
    while i < len(lines):
        line = lines[i]
        text = line.strip()
        head = re.match(r"(?:impl\b|pub trait )", line)
        match = FUNCTION.match(line)
        if head:
            while not lines[i].endswith(("{", "}")):
                i += 1
                text += " " + lines[i].strip()
            owner, of_trait = names_of_block(text)
            block = text.rstrip(" {}")
            in_trait = text.startswith("pub trait")
            promised = promises(lines[i : block_end(lines, i, "")]) if of_trait not in ("", "Model") else []
        elif line.startswith("}"):
            owner, of_trait, block, in_trait, promised = "", "", "", False, []
        if match:
            is_pub = match[2] == "pub " or bool(of_trait) or in_trait
            made = Function(crate, file, match[4], is_pub, is_test, owner, of_trait, block, doc)
            i = read_function(lines, i, match[1], made)
            made.clauses = made.clauses or promised
            found.append(made)
        if text.startswith("///"):
            doc = doc + [text[3:].removeprefix(" ")]
        elif not text.startswith(("#[", "//")):
            doc = []
        is_test = text.startswith(("#[", "//")) and (is_test or text == "#[test]")
        i += 1
    return found


def names_of_block(text):
    """The type or the trait of a block, and the trait that an `impl` of a trait is of."""
    text = re.sub(r"^(impl(<.*?>)?(?= )|pub trait) ", "", text)
    trait, middle, kind = text.partition(" for ")
    name = lambda part: re.match(r"(?:\w+::)*(\w+)", part)[1] if re.match(r"\w", part) else ""
    return (name(kind), name(trait)) if middle else (name(text), "")


def promises(lines):
    """What an `impl` of a trait says of its functions: the lines `ghost NAME = { .. };` in it."""
    found = []
    for line in lines:
        if re.match(r" {4}ghost \w+ = ", line) or found and not found[-1].endswith("};"):
            found.append(line[4:])
    return found


def read_function(lines, i, indent, made):
    """Puts the lines of a function into `made`, from its first line `i` on, and answers its last."""
    cut = len(indent)
    part = made.signature
    while True:
        line = lines[i][cut:].rstrip()
        if re.match(r" +(requires|ensures|// )", line):
            part = made.clauses
        if line in ("{", "{}") or part is made.signature and line.endswith(" {"):
            if line not in ("{", "{}"):
                part.append(line.removesuffix(" {"))
            break
        part.append(line.removesuffix(";"))
        if line.endswith(";"):
            return i
        i += 1
    if lines[i].endswith("{}"):
        return i
    end = block_end(lines, i + 1, indent)
    made.body = [body[cut:] for body in lines[i + 1 : end]]
    return end


def paths_in(use):
    """The paths of the inside of a `use`: `a::{b, c::d}` is `a::b` and `a::c::d`."""
    head, brace, rest = use.partition("{")
    if not brace:
        return [use.strip()]
    found, depth, part = [], 0, ""
    for letter in rest.rstrip().removesuffix("}") + ",":
        depth += (letter == "{") - (letter == "}")
        if letter == "," and depth == 0:
            found += [head.strip() + path for path in paths_in(part.strip())] if part.strip() else []
            part = ""
        else:
            part += letter
    return found


def uses_in(text, word=""):
    """The paths of all `use` of a text; `word` is `pub ` for those that are passed on."""
    return [path for use in re.findall(rf"(?ms)^{word}use (.*?);", text) for path in paths_in(re.sub(r"\s+", " ", use))]


def file_of_module(crate, parts):
    root = root_of(crate)
    for file in (root.joinpath(*parts).with_suffix(".rt"), root.joinpath(*parts, "mod.rt")) if parts else (root / "lib.rt",):
        if file.exists():
            return file
    return None


def public_items(crate, parts=()):
    """The public items of a crate in the order of lib.rt: path, file and name of each, and what it passes on of other crates."""
    file = file_of_module(crate, parts)
    text = file.read_text()
    items, passed = [], []
    if parts:
        items += [("::".join(parts), file, name) for name in re.findall(ITEM % r"(\w+)", text)]
    for path in uses_in(text, "pub "):
        home = defining_file(crate, parts, path)
        if home:
            items.append(("::".join(parts), home, path.split("::")[-1]))
        else:
            passed.append(path)
    for name in re.findall(r"(?m)^pub mod (\w+);", text):
        below, more = public_items(crate, (*parts, name))
        items += below
        passed += more
    return items, passed


def defining_file(crate, parts, path):
    """The file of this crate in which the item of a path of a `pub use` is defined, or none where it is another crate's."""
    *modules, name = path.split("::")
    if modules and modules[0] == "crate":
        at = tuple(modules[1:])
    else:
        at = (*parts, *[m for m in modules if m != "self"])
    file = file_of_module(crate, at)
    if file is None:
        return None
    text = file.read_text()
    if re.search(ITEM % name, text):
        return file
    further = [p for p in uses_in(text, r"pub(?:\(\w+\))? ") if p.split("::")[-1] == name]
    return defining_file(crate, at, further[0]) if further else None


def is_seen(f, everything):
    """Whether an `impl` of a trait is one for callers: the trait is no private one of the crate, and it converts from no private type."""
    source = re.search(r"<(\w+)>", f.block)
    hidden = [rf"(?m)^(?:pub\(\w+\) )?trait {f.of_trait}\b"]
    if source:
        hidden.append(rf"(?m)^(?:pub\(\w+\) )?(?:struct|enum) {source[1]}\b")
    return not any(re.search(pattern, file.read_text()) for file in {g.file for g in everything} for pattern in hidden)


def public_calls(crate):
    """The public functions of a crate, each with its module path: free ones, methods of public types, and what these promise by traits."""
    items, _ = public_items(crate)
    everything = [f for file in files_of(crate) for f in functions_of(crate, file)]
    found = []
    for module, file, name in items:
        for f in sorted(everything, key=lambda f: f.file != file):
            free = not f.owner and f.name == name and f.file == file and f.is_pub
            method = f.owner == name and f.is_pub and (not f.of_trait or f.clauses and is_seen(f, everything))
            if (free or method) and all(f is not other for _, other in found):
                found.append((module, f))
    return found
