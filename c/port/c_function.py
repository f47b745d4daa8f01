"""One function in C: each value of LLVM is a variable, each block a label, and a phi is a copy on the way to its block."""
import collections
import re

import c_calls
from c_text import cut, is_pack, load, number, signed, spaced, store, wide, width
from ir import LOCAL, NAME, TYPE, fields, refuse, split, typed

OPERATORS = {
    "add": "+", "sub": "-", "mul": "*", "udiv": "/", "urem": "%", "and": "&", "or": "|", "xor": "^",
    "shl": "<<", "lshr": ">>", "ashr": ">>", "sdiv": "/", "srem": "%",
}  # fmt: skip
COMPARED = {"eq": "==", "ne": "!=", "ult": "<", "ule": "<=", "ugt": ">", "uge": ">=", "slt": "<", "sle": "<=", "sgt": ">", "sge": ">="}
UNDEFINED = ("poison", "undef", "zeroinitializer")
GEP = rf"getelementptr (?:inbounds )?(?:(?:nuw|nusw) )*(i\d+|\[\d+ x i\d+\]), ptr (\S+|@\"[^\"]*\"), (.*)"


class Body:
    """The body of a function of the module."""

    def __init__(self, module, function):
        self.module, self.function = module, function
        self.names, self.labels, self.kinds, self.slots = {}, {}, {}, []
        self.phis = {block.label: block.phis for block in function.blocks}
        for _, name in function.parameters:
            self.variable(name)

    def variable(self, name):
        return self.names.setdefault(name, f"x{len(self.names)}")

    def label(self, block):
        return self.labels.setdefault(block, f"L{len(self.labels)}")

    def declare(self, name, kind):
        self.kinds[self.variable(name)] = self.module.types.name(kind)
        return self.variable(name)

    def value(self, text, kind):
        """A value of this type as an expression."""
        if text.startswith("%"):
            return self.variable(text)
        if text in UNDEFINED:
            return self.zero(kind)
        if is_pack(kind):
            parts = ", ".join(self.operand(it)[1] for it in split(text[1:-1]))
            return f"({self.module.types.name(kind)}){{{parts}}}"
        if kind == "ptr":
            return self.module.place(text)
        found = re.fullmatch(rf"ptrto(?:int|addr) \(ptr ({NAME}) to i64\)", text)
        if found:
            return f"address({self.module.place(found[1])})"
        return number(text, kind) if re.fullmatch(r"-?\d+|true|false", text) else refuse("a value", text)

    def zero(self, kind):
        if is_pack(kind):
            return f"({self.module.types.name(kind)}){{0}}"
        return "(uint8_t *)0" if kind == "ptr" else "0"

    def operand(self, text):
        """The type and the expression of a value with its type before it."""
        kind, value = typed(text)
        return kind, self.value(value, kind)

    def statements(self):
        """All lines of the body."""
        lines = []
        for block in self.function.blocks:
            for name, kind, _ in block.phis:
                self.declare(name, kind)
            lines.append(f"{self.label(block.label)}:;")
            for line in block.lines:
                lines += ["    " + it for it in self.statement(block.label, line)]
        return self.without_unused(lines)

    def without_unused(self, lines):
        """Leaves out labels that nothing goes to, and values that nothing reads, of which compilers would warn."""
        read = collections.Counter(re.findall(r"\b[xL]\d+\b", "\n".join(lines)))
        kept = []
        for line in lines:
            found = re.fullmatch(r"(L\d+):;|    (x\d+) = (.*);", line)
            if not found or read[found[1] or found[2]] > 1:
                kept.append(line)
            elif found[2]:
                self.kinds.pop(found[2])
                kept += [f"    (void){found[3]};"] if re.match(r"(?!get)\w+\(", found[3]) else []
        return kept if len(kept) == len(lines) else self.without_unused(kept)

    def declarations(self):
        """The variables, those of one type in a line, and the memory of the function's own."""
        by_kind = {}
        for name, kind in self.kinds.items():
            by_kind.setdefault(kind, []).append(name)
        for kind, names in sorted(by_kind.items()):
            for first in range(0, len(names), 16):
                star = " *" if kind.endswith("*") else " "
                yield kind.rstrip(" *") + star + f",{star}".join(names[first : first + 16]) + ";"
        yield from self.slots

    def statement(self, block, line):
        found = re.fullmatch(rf"({LOCAL}) = (.*)", line)
        if not found:
            return self.effect(block, line)
        name, text = found.groups()
        word = text.split(" ", 1)[0]
        if word == "insertvalue":
            return self.insert(name, text)
        if word == "alloca":
            return self.slot(name, text)
        if word in ("tail", "call", "notail"):
            kind, expression = c_calls.call(self, text)
        else:
            kind, expression = self.expression(text)
        return [f"{self.declare(name, kind)} = {expression};"]

    def expression(self, text):
        for form, write in EXPRESSIONS:
            found = form.fullmatch(text)
            if found:
                return write(self, *found.groups())
        return refuse("an instruction", text)

    def reckon(self, word, kind, operands):
        bits, (one, other) = width(kind), (self.value(it, kind) for it in split(operands))
        if word in ("shl", "lshr", "ashr") and not re.fullmatch(r"\d+u(ll)?", other):
            other = f"({other} & {63 if bits > 32 else 31})"
        if word in ("ashr", "sdiv", "srem"):
            one, other = signed(one, bits), other if word == "ashr" else signed(other, bits)
            return kind, cut(f"{one} {OPERATORS[word]} {other}", bits)
        return kind, cut(f"({wide(bits)}){one} {OPERATORS[word]} ({wide(bits)}){other}", bits)

    def compare(self, how, kind, operands):
        one, other = (self.value(it, kind) for it in split(operands))
        if kind == "ptr" and how not in ("eq", "ne"):
            one, other = f"address({one})", f"address({other})"
        if how[0] == "s":
            one, other = signed(one, width(kind)), signed(other, width(kind))
        return "i1", f"{one} {COMPARED[how]} {other}"

    def convert(self, word, kind, value, to):
        value = self.value(value, kind)
        if word == "zext":
            return to, value
        if word == "sext":
            value = f"(int64_t){signed(value, width(kind))}" if width(to) > 32 else signed(value, width(kind))
        return to, cut(value, width(to))

    def number_of(self, value, kind):
        return kind, cut(f"address({self.value(value, 'ptr')})", width(kind))

    def pointer_of(self, kind, value):
        return "ptr", f"pointer({self.value(value, kind)})"

    def choose(self, condition, one, other):
        kind, first = self.operand(one)
        return kind, f"{self.value(condition, 'i1')} ? {first} : {self.operand(other)[1]}"

    def load(self, kind, place, align):
        return kind, load(kind, self.value(place, "ptr"), int(align))

    def step(self, kind, base, indices):
        """A pointer that many things further."""
        indices = split(indices)
        if kind[0] == "[":
            if len(indices) != 2 or not indices.pop(0).endswith(" 0"):
                refuse("a step", kind)
            kind = fields(kind)[0]
        if len(indices) != 1:
            refuse("a step", kind)
        size = width(kind) // 8
        index_kind, index = indices[0].split(" ", 1)
        base = self.value(base, "ptr")
        if re.fullmatch(r"-?\d+", index):
            return "ptr", f"{base} {'-' if index[0] == '-' else '+'} {abs(int(index)) * size}"
        times = f" * {size}" if size > 1 else ""
        return "ptr", f"{base} + (ptrdiff_t){self.value(index, index_kind)}{times}"

    def part(self, kind, whole, index):
        return fields(kind)[int(index)], f"{self.variable(whole)}.f{index}"

    def same(self, operand):
        return self.operand(operand)

    def insert(self, name, text):
        whole, part, index = split(text.split(" ", 1)[1])
        kind, before = self.operand(whole)
        variable = self.declare(name, kind)
        return [f"{variable} = {before};", f"{variable}.f{index} = {self.operand(part)[1]};"]

    def slot(self, name, text):
        found = re.fullmatch(r"alloca (i\d+|\[(\d+) x i8\]), align (\d+)", text) or refuse("memory of a function", text)
        size = int(found[2]) if found[2] else width(found[1]) // 8
        variable = self.declare(name, "ptr")
        self.slots.append(f"MEMORY(m_{variable}, {max(size, 1)}, {found[3]});")
        return [f"{variable} = (uint8_t *)m_{variable};"]

    def effect(self, block, line):
        """The statements of an instruction that has no value."""
        if "call " in line[:12]:
            made = c_calls.call(self, line)
            if made is None:
                return []
            return [f"{made[1]};" if made[0] == "void" else f"(void){made[1]};"]
        for form, write in EFFECTS:
            found = form.fullmatch(line)
            if found:
                return write(self, block, *found.groups())
        return refuse("an instruction", line)

    def store(self, _, kind, value, place, align):
        place = self.value(place, "ptr")
        if kind in ("i128", "i256"):
            if value != "0" or width(kind) % 64:
                refuse("a store", kind)
            return [store("i64", "0", f"({place} + {at})", min(int(align), 8)) for at in range(0, width(kind) // 8, 8)]
        return [store(kind, self.value(value, kind), place, int(align))]

    def go(self, block, to):
        return [self.edge(block, to)]

    def branch(self, block, condition, yes, no):
        return [f"if ({self.value(condition, 'i1')}) {self.edge(block, yes)}", f"else {self.edge(block, no)}"]

    def switch(self, block, kind, value, other, cases):
        lines = [f"switch ({self.value(value, kind)}) {{"]
        for case, to in re.findall(rf"i\d+ (-?\d+|true|false), label ({LOCAL})", cases):
            lines.append(f"case {number(case, kind)}: {self.edge(block, to)}")
        return [*lines, f"default: {self.edge(block, other)}", "}"]

    def give_back(self, _, kind, value):
        return [f"return {self.value(value, kind)};"]

    def end(self, _):
        return ["return;"]

    def stop(self, _):
        return ["STOP();"]

    def edge(self, block, to):
        """The copies of the phis of a block, for the way to it from another, and the jump. All are taken at once: where a later copy
        needs what an earlier one writes, it was kept aside."""
        copies = [(self.variable(name), kind, self.value(arms[block], kind)) for name, kind, arms in self.phis[to]]
        copies = [it for it in copies if it[0] != it[2]]
        written, kept, steps = set(), [], []
        for index, (name, kind, value) in enumerate(copies):
            if written & set(re.findall(r"\bx\d+\b", value)):
                kept.append(f"{spaced(self.module.types.name(kind))}kept{index} = {value};")
                value = f"kept{index}"
            steps.append(f"{name} = {value};")
            written.add(name)
        jump = f"goto {self.label(to)};"
        return f"{{ {' '.join([*kept, *steps, jump])} }}" if steps else jump


# The forms of what has a value, and of what has none.
EXPRESSIONS = [
    (re.compile(form), write)
    for form, write in [
        (rf"({'|'.join(OPERATORS)}) (?:(?:nuw|nsw|exact|disjoint) )*(i\d+) (.*)", Body.reckon),
        (rf"icmp (?:samesign )?(\w+) ({TYPE}) (.*)", Body.compare),
        (r"(zext|sext|trunc) (?:(?:nneg|nuw|nsw) )*(i\d+) (.*) to (i\d+)", Body.convert),
        (r"ptrto(?:int|addr) ptr (.*) to (i\d+)", Body.number_of),
        (r"inttoptr (i\d+) (.*) to ptr", Body.pointer_of),
        (r"select i1 (\S+), ([^,{\[]*|[{\[].*?), ([^,]*)", Body.choose),
        (rf"load ({TYPE}), ptr (.*), align (\d+)", Body.load),
        (GEP, Body.step),
        (rf"extractvalue ({TYPE}) (\S+), (\d+)", Body.part),
        (r"freeze (.*)", Body.same),
    ]
]
EFFECTS = [
    (re.compile(form), write)
    for form, write in [
        (rf"store ({TYPE}) (.*), ptr (.*), align (\d+)", Body.store),
        (rf"br label ({LOCAL})", Body.go),
        (rf"br i1 (\S+), label ({LOCAL}), label ({LOCAL})", Body.branch),
        (rf"switch (i\d+) (\S+), label ({LOCAL}) \[(.*)\]", Body.switch),
        (rf"ret ({TYPE}) (.*)", Body.give_back),
        (r"ret void", Body.end),
        (r"unreachable", Body.stop),
    ]
]
