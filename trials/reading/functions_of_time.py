"""Rows of the functions of timestamps."""

import re

from reading import dates
from reading.function_rows import Rows, held
from reading.kinds import INTEGER, STRING, TIME
from reading.moments import FIRST_SECOND, LAST_SECOND, moment_text, read_moment
from reading.values import SIXTY_FOUR, Failed, text

ROWS = Rows()
row = ROWS.row


UNITS = {"seconds": 10 ** 9, "milliseconds": 10 ** 6, "microseconds": 1000, "nanoseconds": 1}
unit_allowed = lambda name, literal: literal[1] in UNITS
row("now", "", TIME)(lambda args, run: ("timestamp", run.moment))


def conversions(format_):
    """The conversions of a date format, None where there are others than the eight."""
    found = re.findall(r"%(.?)", format_, re.S)
    return found if all(one and one in "YmdHMSz%" for one in found) else None


def whole_format(name, literal):
    found = conversions(literal[1])
    return literal[1] == "%+" or (found is not None and sorted(c for c in found if c != "%") == sorted("YmdHMSz"))


@row("parse_timestamp", "value:string format:string!", TIME, True, whole_format)
def _(args, run):
    format_ = args["format"][1]
    found = read_moment(args["value"][1]) if format_ == "%+" else dates.read(format_, args["value"][1])
    if found is None:
        raise Failed("no match")
    return "timestamp", found


@row("format_timestamp", "value:timestamp format:string!", STRING, False,
     lambda name, literal: literal[1] == "%+" or conversions(literal[1]) is not None)
def _(args, run):
    moment, format_ = args["value"][1], args["format"][1]
    return text(moment_text(moment) if format_ == "%+" else dates.show(format_, moment))


@row("to_unix_timestamp", "value:timestamp unit:string!?", INTEGER,
     lambda given: "unit" in given and given["unit"].literal == text("nanoseconds"), unit_allowed)
def _(args, run):
    number = args["value"][1] // UNITS[held(args, "unit", "seconds")]
    if number not in SIXTY_FOUR:
        raise Failed("out of range")
    return "integer", number


@row("from_unix_timestamp", "value:integer unit:string!?", TIME, True, unit_allowed)
def _(args, run):
    nanos = args["value"][1] * UNITS[held(args, "unit", "seconds")]
    if not FIRST_SECOND <= nanos // 10 ** 9 <= LAST_SECOND:
        raise Failed("out of range")
    return "timestamp", nanos
