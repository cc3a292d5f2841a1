"""The rows of the functions over types and numbers, told a second time apart from those of the outside reading. This file runs nothing by itself."""

import datetime
from typing import NamedTuple

from reading.kinds import ABSENT, BOOLEAN, INTEGER, STRING, TAGS, Kind, minus, root_tags
from reading.values import Failed

LEAST, GREATEST = -2 ** 63, 2 ** 63 - 1
FIRST_SECOND, LAST_SECOND = -62167219200, 253402127999
# Unicode's property White_Space.
WHITE = [chr(one) for one in (*range(9, 14), 32, 133, 160, 5760, *range(8192, 8203), 8232, 8233, 8239, 8287, 12288)]
DIGITS = "0123456789abcdefghijklmnopqrstuvwxyz"


class Given(NamedTuple):
    kind: Kind
    literal: object = None


class Parameter(NamedTuple):
    name: str
    tags: tuple
    required: bool


class Row(NamedTuple):
    """kind and may_fail take what is known of each argument; apply takes each argument, None where it isn't given."""
    parameters: tuple
    kind: object
    may_fail: object
    apply: object


def lower(text):
    """ASCII letters alone have a case."""
    return "".join(one.lower() if one.isascii() else one for one in text)


# ---- rows

def number_of(text, base):
    """The number of 64 bits that digits of a base tell, behind at most one sign; None where there is none."""
    negative, digits = text[:1] == "-", lower(text[1:] if text[:1] in ("+", "-") else text)
    if not digits or not set(digits) <= set(DIGITS[:base]):
        return None
    number = 0
    for one in digits:
        number = number * base + DIGITS.index(one)
    number = -number if negative else number
    return number if LEAST <= number <= GREATEST else None


def numeral(number, base):
    """The digits of a number, with `-` in front of a negative one."""
    rest, digits = abs(number), ""
    while rest or not digits:
        rest, digit = divmod(rest, base)
        digits = DIGITS[digit] + digits
    return ("-" if number < 0 else "") + digits


def moment_text(nanos):
    """The text of a timestamp; Python's calendar begins with the year 1, so earlier days are told 400 years later."""
    seconds, fraction = divmod(nanos, 10 ** 9)
    days, second = divmod(seconds, 86400)
    later = 400 if days < 0 else 0
    day = datetime.date.fromordinal(datetime.date(1970 + later, 1, 1).toordinal() + days)
    told = f"{day.year - later:04}-{day.month:02}-{day.day:02}T{second // 3600:02}:{second // 60 % 60:02}:{second % 60:02}"
    for unit in (10 ** 9, 10 ** 6, 10 ** 3, 1):
        if fraction % unit == 0:
            size = {10 ** 9: 0, 10 ** 6: 3, 10 ** 3: 6, 1: 9}[unit]
            return told + (f".{fraction // unit:0{size}}" if size else "") + "Z"


def fits(tag, value):
    if value[0] != tag:
        raise Failed(f"value is {value[0]}")
    return value


def nullish(value):
    tag, held = value
    return tag == "null" or tag == "string" and (held == "-" or all(one in WHITE for one in held))


def to_string(value):
    tag, held = value
    return {"string": lambda: held, "integer": lambda: numeral(held, 10), "boolean": lambda: "true" if held else "false",
            "null": lambda: "", "timestamp": lambda: moment_text(held)}[tag]()


def to_int(value):
    tag, held = value
    if tag == "string":
        number = number_of(held, 10)
        if number is None:
            raise Failed("not a whole number")
        return number
    return {"integer": lambda: held, "boolean": lambda: 1 if held else 0, "null": lambda: 0, "timestamp": lambda: held // 10 ** 9}[tag]()


def to_bool(value):
    tag, held = value
    if tag == "string":
        word = lower(held)
        if word not in ("true", "t", "yes", "y", "1", "false", "f", "no", "n", "0"):
            raise Failed("not a boolean word")
        return word in ("true", "t", "yes", "y", "1")
    return tag != "null" and held not in (False, 0)


def remainder(value, modulus):
    if modulus == 0:
        raise Failed("modulus is 0")
    rest = abs(value) % abs(modulus)
    return -rest if value < 0 else rest


def without_sign(number):
    return LEAST if number == LEAST else abs(number)


def parse_int(text, base):
    if base is None:
        signs = 1 if text[:1] in ("+", "-") else 0
        sign, digits = text[:signs], text[signs:]
        prefix = {"0b": 2, "0o": 8, "0x": 16}.get(digits[:2])
        if prefix:
            # A sign stands in front of the prefix, and none behind it.
            text, base = "" if digits[2:3] in ("+", "-") else sign + digits[2:], prefix
        else:
            base = 8 if digits[:1] == "0" and digits[1:2] in tuple("0123456789") else 10
    if not 2 <= base <= 36:
        raise Failed("bad base")
    number = number_of(text, base)
    if number is None:
        raise Failed("not a whole number")
    return number


def format_int(number, base):
    if base is None:
        base = 10
    if not 2 <= base <= 36:
        raise Failed("bad base")
    return numeral(number, base)


def always(held):
    return lambda *given: held


def parameter(text):
    name, tags = text.split(":")
    return Parameter(name.rstrip("?"), TAGS if tags == "any" else tuple(tags.split(",")), not name.endswith("?"))


def row(parameters, tag, kind, may_fail, act):
    """A row whose function gives what a value of one tag holds, or with no tag the value itself; it takes what its
    arguments hold where no argument may be of several tags."""
    parameters = tuple(parameter(one) for one in parameters.split())
    bare = all(len(one.tags) == 1 for one in parameters)

    def apply(*args):
        held = act(*[one[1] if one and bare else one for one in args])
        return held if tag is None else (tag, held)

    return Row(parameters, kind, may_fail, apply)


def guard(tag):
    """The value, where it has this tag."""
    return row("value:any", None, lambda value: minus(value.kind, *(set(TAGS) - {tag}), ABSENT),
               lambda value: bool(root_tags(value.kind) - {tag, ABSENT}), lambda value: fits(tag, value))


def test(parameters, act):
    return row(parameters, "boolean", always(BOOLEAN), always(False), act)


def may_be_text(value):
    return "string" in value.kind.tags


ROWS = {
    **{f"is_{tag}": test("value:any", lambda value, tag=tag: value[0] == tag) for tag in TAGS},
    "is_nullish": test("value:any", nullish),
    "is_empty": test("value:string,array,object", lambda value: len(value[1]) == 0),
    **{name: guard(tag) for name, tag in (("string", "string"), ("int", "integer"), ("bool", "boolean"),
                                          ("timestamp", "timestamp"), ("array", "array"), ("object", "object"))},
    "to_string": row("value:string,integer,boolean,null,timestamp", "string", always(STRING), always(False), to_string),
    "to_int": row("value:string,integer,boolean,null,timestamp", "integer", always(INTEGER), may_be_text, to_int),
    "to_bool": row("value:string,integer,boolean,null", "boolean", always(BOOLEAN), may_be_text, to_bool),
    "abs": row("value:integer", "integer", always(INTEGER), always(False), without_sign),
    "mod": row("value:integer modulus:integer", "integer", always(INTEGER),
               lambda value, modulus: modulus.literal in (None, ("integer", 0)), remainder),
    "parse_int": row("value:string base?:integer", "integer", always(INTEGER), always(True), parse_int),
    "format_int": row("value:integer base?:integer", "string", always(STRING),
                      lambda value, base: base is not None and base.literal not in [("integer", one) for one in range(2, 37)], format_int),
}
