"""Random trial of dates in formats: what is read and shown, against Python's own calendar.

    python3 trials/dates.py [--seed N] [--count N] [--program PATH] [--show N]

With its rows it holds random moments and formats against Python's own calendar, in the years that this has. With --program it is the program's
`parse_timestamp`, `to_unix_timestamp` and `format_timestamp` that are held against that calendar, days that it doesn't have too.
"""

import argparse
import datetime
import json
import random
import sys

sys.dont_write_bytecode = True

import programs
from reading.dates import read, show
from reading.moments import FIRST_SECOND, LAST_SECOND

USUAL = "%Y-%m-%d %H:%M:%S %z"
ROWS = [
    ("2024-01-02 03:04:05 +0100", 1704161045), ("2024-01-02 03:04:60 +0000", 1704164699), ("2024-02-30 00:00:00 +0000", None), ("2024-1-2 3:4:5 +0000", 1704164645),
    ("+2024-01-02 03:04:05 +0000", 1704164645), ("  2024-01-02 03:04:05 +0000", 1704164645), ("2024-01-02    03:04:05\t+0000", 1704164645), ("2024-01-0203:04:05+0000", 1704164645),
    ("2024-01-02 03:04:05 +000030", 1704164615), ("2024-01-02 03:04:05 +00", None), ("2024-01-02 03:04:05 +00:00", None), ("2024-01-02 03:04:05 Z", None), ("2024-01-02 03:04:05 +2600", None),
    ("2024-01-02 03:04:05 +0000 ", None), ("2024-01-02 24:04:05 +0000", None), ("2024-13-02 03:04:05 +0000", None), ("0000-01-01 00:00:00 +0001", None), ("-0001-12-31 23:00:00 -0100", FIRST_SECOND),
    ("-1-12-31 23:00:00 -0100", FIRST_SECOND), ("9999-12-29 23:59:59 +0000", LAST_SECOND), ("9999-12-30 00:00:00 +0000", None), ("9999-12-30 00:00:00 +0001", LAST_SECOND - 59), ("", None), ("2023-02-29 00:00:00 +0000", None),
    ("2024-001-02 03:04:05 +0000", None), ("20240-01-02 03:04:05 +0000", None), ("2024-01-02 03:04:05 +0000", 1704164645), ("\u00a02024-01-02 03:04:05 +0000", None),
]


def self_check():
    for text, want in ROWS:
        assert read(USUAL, text) == (None if want is None else want * 10 ** 9), (text, read(USUAL, text), want)
    assert read("%Y%m%d%H%M%S%z%%é", "20240102030405+0100%é") == 1704161045 * 10 ** 9 and read("%z%Y%m%d%H%M%S", "+010020240102030405") is None
    assert show("%Y/%m/%d %H.%M.%S %z %%é", 1704164645 * 10 ** 9 + 1) == "2024/01/02 03.04.05 +0000 %é"
    assert show("%Y-%m-%d", FIRST_SECOND * 10 ** 9) == "0000-01-01" and show("%Y-%m-%d", LAST_SECOND * 10 ** 9) == "9999-12-29" and show("%S", -1) == "59"
    return len(ROWS) + 5


EPOCH = datetime.datetime(1970, 1, 1, tzinfo=datetime.timezone.utc)


def format_of(rng):
    letters = list("YmdHMSz")
    rng.shuffle(letters)
    return "".join("%" + one + rng.choice([" ", "-", "T", ":", "%%", ", "]) for one in letters)


def in_format(moment, format_):
    """A moment as Python's calendar shows it, its year in four digits."""
    return moment.strftime(format_.replace("%Y", "{:04}")).replace("{:04}", "%04d" % moment.year)


def moment_of(rng):
    offset = datetime.timezone(datetime.timedelta(minutes=rng.randint(-1439, 1439)))
    return (EPOCH + datetime.timedelta(seconds=rng.randint(-62135510400, 253402127999))).replace(microsecond=0).astimezone(offset)


def through_program(program, rng, count, show_):
    """Texts in formats through the program's calls: how many, how many of them name no moment, how many differ."""
    tried, no_days, differences = 0, 0, 0
    while tried < count:
        format_ = format_of(rng)
        lines, wanted = [], []
        for _ in range(200):
            moment = moment_of(rng)
            told = in_format(moment, format_)
            if rng.random() < 0.3:
                # Another day of the month, which the month may not have.
                day = rng.randint(28, 31)
                told = in_format(moment, format_.replace("%d", "%%d")).replace("%d", str(day))
                try:
                    moment = moment.replace(day=day)
                except ValueError:
                    moment = None
            seconds = None if moment is None else (moment - EPOCH) // datetime.timedelta(seconds=1)
            lines.append(json.dumps({"t": told}))
            if moment is None or not FIRST_SECOND <= seconds <= LAST_SECOND:
                no_days += 1
                wanted.append({"e": "parse_timestamp: no match"})
            else:
                wanted.append({"e": None, "n": seconds, "s": in_format(moment.astimezone(datetime.timezone.utc), format_)})
        script = f'm, e = parse_timestamp(string!(.t), "{format_}")\n. = {{"e": e}}\nif e == null {{\n.n = to_unix_timestamp(m)\n.s = format_timestamp(m, "{format_}")\n}}\n'
        output, report, status = program.run(script.encode(), programs.joined(lines))
        told = output.decode().splitlines()
        tried += len(lines)
        if (report, status, len(told)) != (b"", 0, len(lines)):
            differences += 1
            print("difference on", repr(script), "status", status, report[:300], len(told), "lines")
            continue
        for line, got, want in zip(lines, told, wanted):
            if json.loads(got) != want:
                differences += 1
                if differences <= show_:
                    print("difference on", repr(script), "over", line, "\n  wanted", want, "\n  got", got)
    return tried, no_days, differences


def main():
    words = argparse.ArgumentParser(description="dates in formats against Python's own calendar")
    words.add_argument("--seed", type=int, default=1)
    words.add_argument("--count", type=int, default=20000)
    words.add_argument("--program")
    words.add_argument("--show", type=int, default=10)
    given = words.parse_args()
    rows, rng = self_check(), random.Random(given.seed)
    if given.program:
        with programs.Program(given.program) as program:
            tried, no_days, differences = through_program(program, rng, given.count, given.show)
        print(f"dates: seed {given.seed}, {rows} rows, {tried} texts through the program, {no_days} of them no moments: {differences} differences")
        return 1 if differences else 0
    for _ in range(given.count):
        format_, moment = format_of(rng), moment_of(rng)
        told = in_format(moment, format_)
        seconds = (moment - EPOCH) // datetime.timedelta(seconds=1)
        assert read(format_, told) == seconds * 10 ** 9, (format_, told)
        shown = in_format(moment.astimezone(datetime.timezone.utc), format_)
        assert show(format_, seconds * 10 ** 9) == shown, (format_, moment)
    print(f"dates: seed {given.seed}, {rows} rows, {given.count} moments read and shown as Python's calendar has them")
    return 0


if __name__ == "__main__":
    sys.exit(main())
