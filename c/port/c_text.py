"""How types and numbers of LLVM are written in C: a number is an unsigned one, whose bits above its width are 0, and a pointer is a
`uint8_t *`. What is undefined is 0."""
import re

from ir import fields, refuse


def width(kind):
    return int(kind[1:])


def box(bits):
    """How many bits the number of C has that holds so many."""
    return next((it for it in (8, 16, 32, 64) if bits <= it), None) or refuse("a number of too many bits", str(bits))


def is_pack(kind):
    return kind[0] in "{["


class Types:
    """The types that are needed, and a name for each struct that is passed by value."""

    def __init__(self):
        self.packs = {}

    def name(self, kind):
        if kind in ("ptr", "void"):
            return "uint8_t *" if kind == "ptr" else kind
        if is_pack(kind):
            parts = tuple(fields(kind))
            self.packs[parts] = "pack_" + "_".join(parts)
            return self.packs[parts]
        return f"uint{box(width(kind))}_t"

    def definitions(self):
        for parts, name in sorted(self.packs.items()):
            members = " ".join(f"{spaced(self.name(kind))}f{index};" for index, kind in enumerate(parts))
            yield f"typedef struct {{ {members} }} {name};"


def spaced(name):
    return name if name.endswith("*") else name + " "


def number(text, kind):
    """A number of LLVM, as C writes it."""
    bits = width(kind)
    value = {"true": 1, "false": 0, "poison": 0, "undef": 0}.get(text)
    value = int(text) & ((1 << bits) - 1) if value is None else value
    return f"{value}u" if bits <= 32 else f"{value}ull"


def wide(bits):
    """The unsigned type in which C reckons with so many bits, without a sign on the way."""
    return "uint64_t" if bits > 32 else "uint32_t"


def cut(expression, bits):
    """The lowest bits of an expression, as a value of that width."""
    kind = f"uint{box(bits)}_t"
    if bits == box(bits):
        return f"({kind})({expression})"
    return f"({kind})(({expression}) & {number(str((1 << bits) - 1), f'i{bits}')})"


def signed(expression, bits):
    """A value as a number with a sign."""
    room = 64 if bits > 32 else 32
    if bits == room:
        return f"(int{room}_t){expression}"
    return f"((int{room}_t)((uint{room}_t){expression} << {room - bits}) >> {room - bits})"


def load(kind, place, align):
    """What is loaded, by a function of the head of the file that knows the width and what the address is a multiple of."""
    if not re.fullmatch(r"i\d+", kind):
        refuse("what is loaded and isn't a number", kind)
    bits = width(kind)
    if bits % 8 and bits != 1:
        refuse("a load", kind)
    if bits <= 8:
        return f"{place}[0]"
    if bits != box(bits):
        return " | ".join(f"({wide(bits)}){place}[{at}] << {8 * at}" for at in range(bits // 8))
    return f"get{bits}_{min(align, bits // 8)}({place})"


def store(kind, value, place, align):
    """A statement that stores."""
    if not re.fullmatch(r"i\d+", kind):
        refuse("what is stored and isn't a number", kind)
    bits = width(kind)
    if bits % 8 and bits != 1:
        refuse("a store", kind)
    if bits <= 8:
        return f"{place}[0] = {value};"
    if bits != box(bits):
        return " ".join(f"{place}[{at}] = (uint8_t)({value} >> {8 * at});" for at in range(bits // 8))
    return f"put{bits}_{min(align, bits // 8)}({place}, {value});"


def c_name(name):
    """A name of LLVM's in letters of C."""
    return re.sub(r"\W+", "_", name.strip('@"')).strip("_")
