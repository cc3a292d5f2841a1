"""Moments, in nanoseconds since 1970, and their texts by RFC 3339."""

import re

MOMENT = re.compile(
    r"([0-9]{4})-([0-9]{2})-([0-9]{2})[Tt]([0-9]{2}):([0-9]{2}):([0-9]{2})(?:\.([0-9]{1,9}))?(?:[Zz]|([+-])([0-9]{2}):([0-9]{2}))")
FIRST_SECOND, LAST_SECOND = -62167219200, 253402127999


def days_before(year, month, day):
    """Days from 1970-01-01 to this date of the Gregorian calendar, None where it doesn't exist."""
    leap = year % 4 == 0 and (year % 100 != 0 or year % 400 == 0)
    lengths = [31, 29 if leap else 28, 31, 30, 31, 30, 31, 31, 30, 31, 30, 31]
    if not (1 <= month <= 12 and 1 <= day <= lengths[month - 1]):
        return None
    last = year - 1
    return 365 * year + last // 4 - last // 100 + last // 400 + 1 + sum(lengths[:month - 1]) + day - 1 - 719528


def read_moment(text):
    """Nanoseconds since 1970, or None."""
    found = MOMENT.fullmatch(text)
    if not found:
        return None
    year, month, day, hour, minute, second = (int(g) for g in found.groups()[:6])
    fraction, sign, off_hour, off_minute = found.groups()[6:]
    days = days_before(year, month, day)
    if days is None or hour > 23 or minute > 59 or second > 59:
        return None
    offset = 0
    if sign:
        if int(off_hour) > 23 or int(off_minute) > 59:
            return None
        offset = (int(off_hour) * 60 + int(off_minute)) * 60 * (1 if sign == "+" else -1)
    whole = days * 86400 + hour * 3600 + minute * 60 + second - offset
    if not FIRST_SECOND <= whole <= LAST_SECOND:
        return None
    return whole * 10 ** 9 + int(((fraction or "") + "0" * 9)[:9])


def date_of(days):
    """Year, month and day of a count of days from 1970."""
    year = max(0, 1970 + min(days // 365, days // 366) - 1)
    while days_before(year + 1, 1, 1) <= days:
        year += 1
    month = max(m for m in range(1, 13) if days_before(year, m, 1) <= days)
    return year, month, days - days_before(year, month, 1) + 1


def moment_text(nanos):
    seconds, fraction = divmod(nanos, 10 ** 9)
    days, rest = divmod(seconds, 86400)
    told = "%04d-%02d-%02dT%02d:%02d:%02d" % (date_of(days) + (rest // 3600, rest // 60 % 60, rest % 60))
    if fraction:
        digits = "%09d" % fraction
        while digits.endswith("000"):
            digits = digits[:-3]
        told += "." + digits
    return told + "Z"
