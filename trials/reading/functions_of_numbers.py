"""Rows of the functions of numbers."""

import re

from reading.function_rows import Rows, held
from reading.functions_of_strings import lower
from reading.kinds import INTEGER, STRING
from reading.values import SIXTY_FOUR, Failed, text, whole

ROWS = Rows()
row = ROWS.row


def literal_in(name, numbers):
    return lambda given: name in given and not (given[name].literal and given[name].literal[1] in numbers)


row("abs", "value:integer", INTEGER)(lambda args, run: whole(abs(args["value"][1])))


@row("mod", "value:integer modulus:integer", INTEGER, lambda given: not (given["modulus"].literal and given["modulus"].literal[1] != 0))
def _(args, run):
    a, b = args["value"][1], args["modulus"][1]
    if b == 0:
        raise Failed("modulus is 0")
    return "integer", abs(a) % abs(b) * (-1 if a < 0 else 1)


DIGITS = "0123456789abcdefghijklmnopqrstuvwxyz"


@row("parse_int", "value:string base:integer?", INTEGER, True)
def _(args, run):
    one, base = args["value"][1], held(args, "base")
    if base is not None and base not in range(2, 37):
        raise Failed("bad base")
    sign, digits = re.fullmatch(r"([+-]?)(.*)", one, re.S).groups()
    if base is None:
        base = {"0b": 2, "0o": 8, "0x": 16}.get(digits[:2])
        if base:
            digits = digits[2:]
        else:
            base = 8 if re.match(r"0[0-9]", digits) else 10
    if not digits or any(lower(c) not in DIGITS[:base] for c in digits):
        raise Failed("not a whole number")
    number = 0
    for c in digits:
        number = number * base + DIGITS.index(lower(c))
    number = -number if sign == "-" else number
    if number not in SIXTY_FOUR:
        raise Failed("not a whole number")
    return "integer", number


@row("format_int", "value:integer base:integer?", STRING, literal_in("base", range(2, 37)))
def _(args, run):
    number, base, digits = abs(args["value"][1]), held(args, "base", 10), ""
    if base not in range(2, 37):
        raise Failed("bad base")
    while number or not digits:
        digits = DIGITS[number % base] + digits
        number //= base
    return text(("-" if args["value"][1] < 0 else "") + digits)
