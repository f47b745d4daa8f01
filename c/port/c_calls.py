"""Calls in C: those of LLVM's own functions, of the module's, and of the heap's."""
import re

from c_text import cut, number, signed, wide, width
from ir import NAME, TYPE, plain, refuse, split

# What says something to an optimizer alone.
SILENT = ("lifetime.", "assume", "experimental.noalias")
HEAP = ("@rattle_alloc", "@rattle_realloc")


def call(function, text):
    """The type of what a call answers, and its expression; None if it is for nothing."""
    found = re.fullmatch(rf"(?:(?:tail|notail|musttail) )?call (?:fastcc )?(.*?)({TYPE}) ({NAME})\((.*)\)(?: #\d+)?", plain(text))
    if not found:
        refuse("a call", text)
    kind, callee, arguments = found[2], found[3], split(found[4])
    if callee.startswith("@llvm."):
        return of_llvm(function, kind, callee[6:], arguments)
    values = ", ".join(function.operand(it)[1] for it in arguments)
    expression = f"{function.module.function_name(callee)}({values})"
    if callee in HEAP:
        function.module.types.name(kind)
        expression = f"words_of({expression})"
    return kind, expression


def of_llvm(function, kind, name, arguments):
    if name.startswith(SILENT):
        return None
    if name == "trap":
        return "void", "STOP()"
    values = [function.operand(it)[1] for it in arguments]
    if name.startswith(("memset.", "memcpy.", "memmove.")):
        return "void", f"{name.split('.')[0]}({values[0]}, {values[1]}, (size_t){values[2]})"
    form = FORMS.get(re.sub(r"\.i\d+$", "", name))
    if not form:
        refuse("a function of LLVM", name)
    return kind, form(width(kind), *values)


def swapped(bits, value):
    return f"swap{bits}({value})"


def lesser(_, one, other):
    return f"{one} < {other} ? {one} : {other}"


def greater(_, one, other):
    return f"{one} > {other} ? {one} : {other}"


def signed_lesser(bits, one, other):
    return f"{signed(one, bits)} < {signed(other, bits)} ? {one} : {other}"


def signed_greater(bits, one, other):
    return f"{signed(one, bits)} > {signed(other, bits)} ? {one} : {other}"


def difference_or_zero(bits, one, other):
    return f"{one} > {other} ? {cut(f'({wide(bits)}){one} - ({wide(bits)}){other}', bits)} : 0"


def sum_or_most(bits, one, other):
    total = cut(f"({wide(bits)}){one} + ({wide(bits)}){other}", bits)
    return f"{total} < {one} ? {number('-1', f'i{bits}')} : {total}"


def magnitude(bits, value, _):
    return f"{signed(value, bits)} < 0 ? {cut(f'0 - ({wide(bits)}){value}', bits)} : {value}"


def rotated_left(bits, high, low, count):
    return f"{count} % {bits} == 0 ? {high} : {joined(bits, high, low, f'{count} % {bits}')}"


def rotated_right(bits, high, low, count):
    return f"{count} % {bits} == 0 ? {low} : {joined(bits, high, low, f'({bits} - {count} % {bits})')}"


def joined(bits, high, low, count):
    """The upper bits of two numbers in a row, from this count on."""
    return cut(f"(({wide(bits)}){high} << ({count})) | (({wide(bits)}){low} >> ({bits} - ({count})))", bits)


def ones(bits, value):
    return cut(f"ones_in({value})", bits)


FORMS = {
    "bswap": swapped,
    "umin": lesser,
    "umax": greater,
    "smin": signed_lesser,
    "smax": signed_greater,
    "usub.sat": difference_or_zero,
    "uadd.sat": sum_or_most,
    "abs": magnitude,
    "fshl": rotated_left,
    "fshr": rotated_right,
    "ctpop": ones,
}
