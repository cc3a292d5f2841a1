"""Random trial of kinds: what a kind allows at each path, and what each operation on kinds must answer.

    python3 trials/kinds.py [--seed N] [--count N] [--out FILE]

Each answer is worked out twice: by walks over trees, and by the definition at every path over the fields and places
that occur and one fresh of each. The paths go one step below the deepest tree of the case: further down no set of
tags changes any more. Where the two differ, or a tree isn't of the one form, the program says so and ends with 1.
With --out the cases go to FILE, for a driver of the product to read.

One case stands on one line, as a JSON object with the members `call` and `want` and the call's own:

    join, within, disjoint              a, b: kinds                     want: text; true or false
    has                                 a: kind, tag                    want: true or false
    without                             a: kind, tag                    want: text
    cut, flatten, parts, print          a: kind                         want: text
    nodes, levels                       a: kind                         want: number
    inhabits                            a: kind, value                  want: true or false
    kind_of                             value                           want: text
    read, remove                        a: kind, path                   want: text
    write                               a: kind, path, b: kind          want: text
    may_be_absent                       a: kind, path                   want: true or false
    list                                places: kinds, rest             want: text (the kind that they make)
    object                              fields: pairs, rest             want: text
    kind_file                           hex: the file's bytes           want: the kind's text, or the line of refusal

Kinds, values and paths are written as `cases.py` tells; a text is the printed kind.
"""

import argparse
import json
import random
import sys

sys.dont_write_bytecode = True

import some_kinds
from cases import described_value, description
from reading import kinds_at_paths
from reading.kind_files import kind_file
from reading.kinds import (
    ABSENT, ANY, EVENT, GONE, JSON, NEVER, TAGS, Kind, canonical, cut, disjoint, flatten, found_at, inhabits, join, kind_of, levels, make,
    may_be_absent, minus, nodes, parts, plus, print_kind, read, remove, scalars, tags_at, within, write)
from reading.kinds_at_paths import Paths, at

CALLS = ["join", "join", "within", "disjoint", "has", "without", "cut", "nodes", "levels", "flatten", "parts", "print", "inhabits", "kind_of",
         "read", "read", "remove", "remove", "may_be_absent", "write", "write", "list", "object", "kind_file"]


def some_case(maker):
    a = maker.kind(2)
    b = maker.near(a, 2)
    call = maker.rng.choice(CALLS)
    if call in ("read", "remove", "write") and maker.rng.random() < 0.2:
        a = maker.known_array(2)
    told = {"call": call}
    law = None
    if call in ("join", "within", "disjoint"):
        if call == "within" and maker.rng.random() < 0.3:
            b = maker.rng.choice([JSON, JSON, ANY, EVENT, flatten(a), parts(a)])
        told["a"], told["b"] = (a, b) if maker.rng.random() < 0.7 else (b, a)
        a, b = told["a"], told["b"]
        answer = {"join": join, "within": within, "disjoint": disjoint}[call](a, b)
        if call == "join":
            law = kinds_at_paths.join(at(a), at(b))
        elif call == "within":
            assert answer == Paths([a, b]).within(at(a), at(b)), (told, answer)
    elif call == "has":
        told["a"], told["tag"] = a, maker.rng.choice(TAGS + (ABSENT,))
        answer = told["tag"] in tags_at(a, ())
    elif call == "without":
        told["a"], told["tag"] = a, maker.rng.choice(TAGS)
        answer, law = minus(a, told["tag"]), kinds_at_paths.without(at(a), told["tag"])
    elif call in ("cut", "nodes", "levels", "flatten", "parts", "print"):
        told["a"] = a = maker.big() if call in ("cut", "nodes", "levels") and maker.rng.random() < 0.1 else a
        answer = {"cut": cut, "nodes": nodes, "levels": levels, "flatten": flatten, "parts": parts, "print": lambda k: k}[call](a)
        law = {"flatten": kinds_at_paths.flatten(at(a)), "parts": kinds_at_paths.parts(at(a), Paths([a]).steps), "print": at(a)}.get(call)
    elif call == "inhabits":
        told["a"], told["value"] = a, maker.value(a, 3)
        answer = inhabits(told["value"], a)
        assert answer == Paths([a, kind_of(told["value"])]).inhabits(told["value"], at(a)), (told, answer)
    elif call == "kind_of":
        told["value"] = maker.value(a, 3)
        answer = kind_of(told["value"])
        law = lambda q: {found_at(told["value"], q)} - {None}
    elif call in ("read", "remove", "may_be_absent"):
        told["a"], told["path"] = a, maker.path(3, call != "may_be_absent", a)
        answer = {"read": read, "remove": remove, "may_be_absent": may_be_absent}[call](a, told["path"])
        if call == "may_be_absent":
            assert answer == kinds_at_paths.absent(at(a), told["path"]), (told, answer)
        else:
            law = {"read": kinds_at_paths.read, "remove": kinds_at_paths.remove}[call](at(a), told["path"], Paths([a]).places)
    elif call == "write":
        told["a"], told["path"], told["b"] = a, maker.path(3, True, a), maker.kind(1)
        answer, law = write(a, told["path"], told["b"]), kinds_at_paths.write(at(a), told["path"], at(told["b"]), Paths([a]).places)
    elif call == "list":
        places, rest = maker.array(2)
        told["places"], told["rest"] = places, rest
        answer, law = make((), (places, rest)), kinds_at_paths.made("array", dict(enumerate(places)), rest)
    elif call == "object":
        fields, rest = maker.object(2)
        pairs = list(fields.items())
        if pairs and maker.rng.random() < 0.3:
            pairs.insert(0, (pairs[-1][0], maker.kind(1)))
        told["fields"], told["rest"] = pairs, rest
        answer, law = make((), None, (fields, rest)), kinds_at_paths.made("object", dict(pairs), rest)
    else:
        data = maker.file_bytes()
        told["hex"] = data.hex()
        answer = kind_file(data)
    if isinstance(answer, Kind):
        assert canonical(answer), (told, answer)
        given = list(told.values()) + told.get("places", []) + [one for _, one in told.get("fields", [])]
        kinds = [one for one in given if isinstance(one, Kind)] + [answer]
        assert law is None or Paths(kinds, told.get("path", ())).same(at(answer), law), (told, answer)
        answer = print_kind(answer)
    told["want"] = answer
    return told


def line_of(told):
    def plain(value):
        if isinstance(value, Kind):
            return description(value)
        if isinstance(value, list):
            return [plain(one) for one in value]
        if isinstance(value, tuple) and len(value) == 2 and isinstance(value[1], Kind):
            return [value[0], description(value[1])]
        return value
    out = {}
    for name, value in told.items():
        out[name] = described_value(value) if name == "value" else list(value) if name == "path" else plain(value)
    return json.dumps(out, ensure_ascii=True)


# ---- rows

def self_check():
    number, text, flag = scalars("integer"), scalars("string"), scalars("boolean")
    optional = lambda kind: plus(kind, ABSENT)
    rows = [
        (join(kind_of(("array", (("integer", 1),))), kind_of(("array", ()))), "[?integer]"),
        (write(EVENT, ("a", 1), number), '{"a": [json, integer, ..json], ..json}'),
        (remove(make((), ([text, number], "nothing")), (0,)), "[integer]"),
        (read(make((), None, ({"a": optional(text)}, "nothing")), ("a",)), "string|null"),
        (minus(scalars("string", "null"), "null"), "string"),
        (parts(make((), None, ({"a": optional(text), "b": number}, "nothing"))), "string|integer"),
        (make((), ([number, optional(text)], "nothing")), "[integer, ?string]"),
        (make((), None, ({"a": GONE}, "json")), '{"a"?: never, ..json}'),
        (scalars("null", "string"), "string|null"), (make((), ((), text)), "[..string]"),
        (write(EVENT, ("x",), text), '{"x": string, ..json}'), (EVENT, "{..json}"), (NEVER, "never"), (ANY, "any"), (JSON, "json"),
        (remove(make((), ([text, number], "nothing")), (1,)), "[string]"),
        (read(remove(make((), ([text, number], "nothing")), (0,)), (0,)), "integer"),
        (flatten(JSON), "string|integer|boolean|null|[..any]|{..any}"), (join(JSON, ANY), "any"), (join(JSON, text), "json"),
        (write(NEVER, (1,), number), "[null, integer]"), (write(text, (1,), number), "[null, integer]"),
        (write(make(("null",), ([text], "nothing")), (0,), number), "[integer]"),
        (write(make(("null",), ([text, text], "nothing")), (0,), number), "[integer, ?string]"),
        (read(make((), ([text, number], "nothing")), (-1,)), "string|integer|null"),
        # Written at places from the end: of one length, too short, of several lengths, beside another tag, of no array.
        (write(make((), ([number, text], "nothing")), (-1,), flag), "[integer, boolean]"), (write(make((), ([number, text], "nothing")), (-2,), flag), "[boolean, string]"),
        (write(make((), ([number, text], "nothing")), (-3,), flag), "[..string|integer|boolean|null]"), (write(make((), ([number, optional(text)], "nothing")), (-1,), flag), "[..string|integer|boolean|null]"),
        (write(make((), ([number], number)), (-1,), flag), "[..integer|boolean|null]"), (write(make(("null",), ([number], "nothing")), (-1,), flag), "[..integer|boolean|null]"),
        (write(optional(make((), ([number], "nothing"))), (-1,), flag), "[..integer|boolean|null]"), (write(make((), ([number], "nothing"), ({}, "nothing")), (-1,), flag), "[..integer|boolean|null]"),
        (write(text, (-1,), number), "[..integer|null]"), (write(NEVER, (-1,), number), "[..integer|null]"), (write(make((), ((), "nothing")), (-1,), number), "[..integer|null]"), (write(JSON, (-1,), number), "[..json]"),
        (write(JSON, (-1,), scalars("timestamp")), "[..string|integer|boolean|null|timestamp|[..json]|{..json}]"), (write(ANY, (-9,), number), "[..any]"), (write(EVENT, ("a", -1), number), '{"a": [..json], ..json}'),
        (write(make((), ([number, text], "nothing")), (-1, "k"), flag), '[integer, {"k": boolean}]'), (write(make((), ([number], number)), (-1, "k"), flag), '[..integer|null|{"k": boolean}]'),
        (write(make((), ((), make((), None, ({"j": number}, "nothing")))), (-1, "k"), flag), '[..null|{"j"?: integer, "k"?: boolean}]'),
        (write(make((), ([make((), ([number], "nothing"))], "nothing")), (-1, -1), flag), "[[boolean]]"), (write(make((), ([make((), ([number], "nothing"))], "nothing")), (-1, -2), flag), "[[..integer|boolean|null]]"),
        (write(NEVER, (-1, -1), number), "[..null|[..integer|null]]"), (write(NEVER, (-1, 1), number), "[..null|[null, integer]]"), (write(NEVER, (1, -1), number), "[null, [..integer|null]]"),
        # Removed from the end.
        (remove(make((), ([number, text], "nothing")), (-1,)), "[integer]"), (remove(make((), ([number, text], "nothing")), (-2,)), "[string]"), (remove(make((), ([number, text], "nothing")), (-3,)), "[integer, string]"),
        (remove(make((), ([number, optional(text)], "nothing")), (-1,)), "[..string|integer]"), (remove(make((), ([number], text)), (-1,)), "[..string|integer]"), (remove(make(("null",), ([number, text], "nothing")), (-1,)), "null|[integer]"),
        (remove(make(("null",), ([number, text], "nothing")), (-3,)), "null|[integer, string]"), (remove(make((), ([number], text), ({}, "nothing")), (-1,)), "[..string|integer]|{}"), (remove(text, (-1,)), "string"), (remove(NEVER, (-1,)), "never"),
        (remove(make((), ((), "nothing")), (-1,)), "[]"), (remove(make((), ([optional(number)], "nothing")), (-1,)), "[..integer]"), (remove(JSON, (-1,)), "json"),
        (remove(make((), ([make((), None, ({"k": flag}, "nothing"))], "nothing")), (-1, "k")), "[{}]"), (remove(make((), ((), make((), None, ({"k": flag}, "nothing")))), (-1, "k")), '[..{"k"?: boolean}]'),
        (remove(make((), ([number, make((), ([number, flag], "nothing"))], "nothing")), (-1, -2)), "[integer, [boolean]]"), (remove(make((), ((), make((), ([number, flag], "nothing")))), (-1, -2)), "[..[integer|boolean, ?boolean]]"),
        (remove(EVENT, ("a", -1)), '{..json}'),
        (kind_file(b'{"object":{"m":"string"},"rest":"nothing"}'), '{"m": string}'),
        (kind_file(b'{"object":{"m":"text"}}'), "kind file: bad kind at /object/m"), (kind_file(b"{"), "kind file: not JSON"),
        (kind_file(b'{"object":{"n":{"optional":["integer","null"]}}}'), '{"n"?: integer|null, ..json}'),
        (kind_file(b'"json"'), "kind file: bad kind at "), (kind_file(b" " * 65537), "kind file: too long"),
        (kind_file(b'{"object":{"a/b":{"array":["json",1]}}}'), "kind file: bad kind at /object/a~1b/array/1"),
    ]
    for got, want in rows:
        got = got if isinstance(got, str) else print_kind(got)
        assert got == want, (got, want)
    for depth, kept in ((32, True), (33, False)):
        kind = flag
        for _ in range(depth):
            kind = make((), ([kind], "nothing"))
        assert levels(kind) == depth and (cut(kind) == kind) == kept
        assert kept or print_kind(cut(kind)) == "[..any]"
    for size, kept in ((999, True), (1000, False)):
        kind = make((), ([flag] * size, "nothing"))
        assert nodes(kind) == size + 1 and (cut(kind) == kind) == kept
    assert not may_be_absent(write(EVENT, ("a", 1), number), ("a", 1)) and may_be_absent(EVENT, ("a",))
    return len(rows) + 6


def main():
    words = argparse.ArgumentParser(description="random kinds against the definition at every path")
    words.add_argument("--seed", type=int, default=1)
    words.add_argument("--count", type=int, default=5000)
    words.add_argument("--out")
    given = words.parse_args()
    rows = self_check()
    maker = some_kinds.Maker(random.Random(given.seed))
    cases = [some_case(maker) for _ in range(given.count)]
    if given.out:
        with open(given.out, "w") as file:
            file.writelines(line_of(one) + "\n" for one in cases)
    met = {}
    for one in cases:
        met[one["call"]] = met.get(one["call"], 0) + 1
    told = ", ".join(f"{met[call]} {call}" for call in sorted(met))
    print(f"kinds: seed {given.seed}, {rows} rows, {len(cases)} cases ({told}): both readings agree")
    return 0


if __name__ == "__main__":
    sys.exit(main())
