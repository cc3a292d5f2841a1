"""Dates in formats of the eight conversions, read and shown as `jiff` describes its strptime and strftime."""

import re

from reading.moments import FIRST_SECOND, LAST_SECOND, date_of, days_before

WHITE = rb"[ \t\n\f\r]*"
# A conversion's text: white space, then as many digits as it may have; a year's sign stands before the white space.
READ = {"Y": rb"([+-]?)" + WHITE + rb"([0-9]{1,4})", "z": rb"([+-])([0-9]{2})([0-9]{2})([0-9]{2})?", "%": rb"%"}
READ.update({letter: WHITE + rb"([0-9]{1,2})" for letter in "mdHMS"})
WITHIN = {"m": range(1, 13), "d": range(1, 32), "H": range(24), "M": range(60), "S": range(61)}


def pieces(format_):
    """Each conversion as its letter, each other byte by itself."""
    return [(one[1], None) if len(one) == 2 else (None, one.encode()) for one in re.findall("%.|[^%]", format_, re.S)]


def fields_of(format_, text):
    """The fields that a text has in a format, None where it hasn't this form."""
    data, at, fields = text.encode(), 0, {}
    for letter, plain in pieces(format_):
        if letter is None and plain in b" \t\n\f\r":
            at = re.compile(WHITE).match(data, at).end()
            continue
        found = re.compile(READ[letter] if letter else re.escape(plain)).match(data, at)
        if not found:
            return None
        at = found.end()
        if letter == "Y":
            fields["Y"] = int(found[2]) * (-1 if found[1] == b"-" else 1)
        elif letter == "z":
            hours, minutes, seconds = (int(one or 0) for one in found.groups()[1:])
            if hours > 25 or minutes > 59 or seconds > 59:
                return None
            fields["z"] = (hours * 3600 + minutes * 60 + seconds) * (-1 if found[1] == b"-" else 1)
        elif letter in WITHIN:
            fields[letter] = int(found[1])
            if fields[letter] not in WITHIN[letter]:
                return None
    return fields if at == len(data) else None


def read(format_, text):
    """The moment that a text gives in a format that has the seven conversions, in nanoseconds; None where there is none."""
    one = fields_of(format_, text)
    days = None if one is None else days_before(one["Y"], one["m"], one["d"])
    if days is None:
        return None
    # A leap second is the second before it.
    seconds = days * 86400 + one["H"] * 3600 + one["M"] * 60 + min(one["S"], 59) - one["z"]
    return seconds * 10 ** 9 if FIRST_SECOND <= seconds <= LAST_SECOND else None


def show(format_, nanos):
    """A moment in a format of the eight conversions, in UTC."""
    days, rest = divmod(nanos // 10 ** 9, 86400)
    year, month, day = date_of(days)
    told = {"Y": "%04d" % year, "m": "%02d" % month, "d": "%02d" % day, "H": "%02d" % (rest // 3600),
            "M": "%02d" % (rest // 60 % 60), "S": "%02d" % (rest % 60), "z": "+0000", "%": "%"}
    return re.sub(r"%(.)", lambda m: told[m[1]], format_)
