"""Random trial of functions: each with arguments at random, its answer and its kind.

    python3 trials/rows.py [--seed N] [--count N] [--only NAME,NAME ..] [--out FILE]

Each of `count` cases of each function is worked out by the rows of `reading/functions.py` and held against their law: the result
kind doesn't allow absent, a value inhabits it, and a failure comes only where the row may fail. `run_calls.py` holds the
program against the rows. With --out the cases go to FILE, a JSON object a line:

    function, sources (the script's regexes), args (each parameter's value), literals (the parameters given as literals),
    kinds (each parameter's kind, within the tags that it allows, in which its value is), kind (the result kind's text),
    may_fail, want: {"value": VALUE} or {"failed": TEXT}

with kinds and values written as `cases.py` tells.
"""

import argparse
import json
import random
import sys

sys.dont_write_bytecode = True

import some_kinds
from cases import described_value, description
from reading import kinds
from reading.function_rows import Given, cut_to
from reading.functions import ROWS
from reading.functions_of_codecs import SHA2
from reading.functions_of_time import UNITS
from reading.values import Failed, objects, text

# Patterns that match no empty text, so that each reader of patterns walks over the same matches.
SOURCES = ["a", r"\d+", r"(?P<k>\w)=(?P<v>\w)", "(?<c>[a-z])(x)?", "[^,]+", "^a", "(a)(b)?", "[,;]", "é", r"\.", "(?P<k>a)|(?P<m>b)"]
STRINGS = [
    "", "a", "b", "ab", "abc", "aXb,a", "a,b,c", "é", "aéa", " a ", "\t", "-", "\u3000", "yes", "True", "f", "0", "12", "-7", "+9", "007", "0x1f", "-0b11",
    "0o17", "z", "9223372036854775807", "9223372036854775808", "-9223372036854775808", "1_0", " 1", "k=v", "a=1 b=\"x y\" c", "a=\"q\\\"r\" b", "=1", "a==b",
    "a=\"x", "a=\"x\"y", "aGk=", "aGk", "aGl=", "/w==", "6869", "68", "FF", "6g", "a%20b", "%", "%C3%A9", "%ff", "[1]", '{"a":1.5}', '{"a":[1,null]}', "{",
    "2024-01-02T03:04:05Z", "2024-02-30T00:00:00Z", "1969-12-31T23:59:59.5+01:00", "x\ny", "a\"b", "a;b", "?a=1&a=2&b", "a.b.c", ".", "..", "a&&b=c+d%20e", "$1", "http://u:p@h:81/p/..?q=1&q=%32#f", "https://[::1]:443", "mailto:a", "http://", "2024-01-02 03:04:05 +0100",
]
NUMBERS = [0, 1, -1, 2, 3, -3, 5, 7, 8, 10, 16, 36, 37, -2, 65535, 65536, 1700000000, 253402127999, 253402128000, -62167219200, -62167219201, 2 ** 63 - 1, -2 ** 63]
MOMENTS = [0, 1500000000, -1, 1704164645 * 10 ** 9, -62167219200 * 10 ** 9, 253402127999 * 10 ** 9 + 999999999, 10 ** 18 + 120000000, 9223372036854775808]
WITH = ["", "x", "[$1]", "$k-$v", "${k}", "$$", "$1x", "${1}x", "$", "a$"]
WORDS = {"with": WITH, "pattern": ["", "a", ",", "b", "é", "."], "separator": ["", ".", "-", ","], "suffix": ["", ".."], "delimiter": [",", ";", "", "ab", '"', "\n", "é"],
         "key_value_delimiter": ["=", ":", "", "=="], "field_delimiter": [" ", ",", "", "  "], "variant": sorted(SHA2), "format": ["%+", "%Y-%m-%d %H:%M:%S %z"],
         "unit": sorted(UNITS), "substring": ["", "a", "B", "é", "ab"]}
FORMATS = ["%+", "%Y", "%Y-%m-%d %H:%M:%S %z", "%%", "", "a%da", "%S.%M"]


class Maker:
    def __init__(self, rng):
        self.rng, self.shapes = rng, some_kinds.Maker(rng)

    def value(self, tag, depth=2):
        pick = self.rng.choice
        if tag == "array":
            how = self.rng.random()
            size = self.rng.randrange(4)
            if how < 0.3:
                return tag, tuple(text(pick(STRINGS)) for _ in range(size))
            if how < 0.4:
                return tag, tuple(("regex", self.rng.randrange(len(SOURCES))) for _ in range(size))
            if how < 0.6:
                return tag, tuple(pick([text(pick("ab")), ("integer", pick([0, 1, 2, -1, 65535, 65536]))]) for _ in range(size))
            if how < 0.7 and depth:
                return tag, tuple(("array", (self.value(pick(["string", "string", "integer"])), self.any(depth - 1))) for _ in range(size))
            return tag, tuple(self.any(depth - 1) for _ in range(size if depth else 0))
        if tag == "object":
            names = [pick(["a", "b", "c", "a.b", "a.b.c", "b.a", "é", "", "x y"]) for _ in range(self.rng.randrange(4) if depth else 0)]
            return objects({name: self.any(depth - 1) for name in names})
        return tag, {"string": lambda: pick(STRINGS), "integer": lambda: pick(NUMBERS), "boolean": lambda: pick([True, False]), "null": lambda: None,
                     "timestamp": lambda: pick(MOMENTS), "regex": lambda: self.rng.randrange(len(SOURCES))}[tag]()

    def any(self, depth):
        return self.value(self.rng.choice(kinds.TAGS + ("array", "object")), max(0, depth))

    def argument(self, name, parameter):
        tag = self.rng.choice(sorted(parameter.tags))
        if tag == "string" and name == "format_timestamp":
            return text(self.rng.choice(FORMATS))
        if tag == "string" and parameter.name in WORDS and (parameter.literal or self.rng.random() < 0.8):
            return text(self.rng.choice(WORDS[parameter.name]))
        return self.value(tag)

    def kind(self, value, parameter):
        """A kind within the tags of the parameter that the value inhabits."""
        exact = kinds.kind_of(value)
        how = self.rng.random()
        wide = exact
        if how < 0.25:
            wide = kinds.ANY
        elif how < 0.4:
            wide = kinds.join(exact, kinds.JSON)
        elif how < 0.6:
            wide = kinds.join(exact, self.shapes.kind(2))
        elif how < 0.7:
            wide = kinds.join(exact, kinds.kind_of(self.value(value[0])))
        return cut_to(wide, *parameter.tags)

    def case(self, row):
        args, given, literals = {}, {}, []
        for one in row.parameters:
            if not one.required and self.rng.random() < 0.45:
                continue
            value = self.argument(row.name, one)
            literal = value[0] not in ("array", "object") and (one.literal or self.rng.random() < 0.3)
            args[one.name] = value
            given[one.name] = Given(kinds.kind_of(value) if literal else self.kind(value, one), value if literal else None)
            literals += [one.name] if literal else []
        return args, given, literals


class Setting:
    sources, moment = SOURCES, 1714989600 * 10 ** 9


def answered(row, args):
    try:
        return "value", row.apply(args, Setting)
    except Failed as failed:
        return "failed", f"{row.name}: {failed.args[0]}"


def law(row, args, given):
    for name, one in given.items():
        assert kinds.inhabits(args[name], one.kind)
    kind, may_fail = row.result(given, SOURCES), bool(row.fails(given))
    word, held = answered(row, args)
    assert kinds.canonical(kind) and "absent" not in kind.tags, (row.name, kind)
    assert may_fail or word == "value", (row.name, args, held)
    assert word != "value" or kinds.inhabits(held, kind), (row.name, args, held, kinds.print_kind(kind))
    return kind, may_fail, word, held


def main():
    words = argparse.ArgumentParser(description="functions with arguments at random")
    words.add_argument("--seed", type=int, default=1)
    words.add_argument("--count", type=int, default=200)
    words.add_argument("--only")
    words.add_argument("--out")
    given = words.parse_args()
    maker = Maker(random.Random(given.seed))
    rows = [row for row in ROWS.values() if row.apply]
    if given.only:
        rows = [row for row in rows if row.name in given.only.split(",")]
    cases, failures = 0, 0
    out = open(given.out, "w") if given.out else None
    for row in rows:
        for _ in range(given.count):
            args, kinds_given, literals = maker.case(row)
            kind, may_fail, word, held = law(row, args, kinds_given)
            cases += 1
            failures += word == "failed"
            if out:
                one = {"function": row.name, "sources": SOURCES, "args": {n: described_value(v) for n, v in args.items()}, "literals": literals,
                       "kinds": {n: description(g.kind) for n, g in kinds_given.items()}, "kind": kinds.print_kind(kind), "may_fail": may_fail,
                       "want": {word: described_value(held) if word == "value" else held}}
                out.write(json.dumps(one) + "\n")
    if out:
        out.close()
    print(f"rows: seed {given.seed}, {len(rows)} functions, {cases} cases ({failures} failures), the law holds")
    return 0


if __name__ == "__main__":
    sys.exit(main())
