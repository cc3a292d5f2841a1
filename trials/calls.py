"""Random trial of single calls: the functions over types and numbers, each with arguments and kinds at random.

    python3 trials/calls.py [--seed N] [--count N] [--only NAME,NAME ..] [--out FOLDER [--size N]] [--show N]

The rows of these functions stand in `second_rows.py` a second time, told apart from those of the outside reading. Each of `count`
cases of each function, four times as many of `parse_int`, is worked out by both and held against the law of functions. Where they
differ, or the law breaks, the program says so and ends with 1. With --out the cases go to files of `size` lines in
FOLDER, and beside each file NAME the answers wanted, NAME.stdout, a line for a line, for a driver of the product.

Each line is a JSON object, and has an answer:

    sources             the regexes that a script has, for the cases      N regexes
                        behind it; the first line of each file
    name                a name that is looked up                          NAME is a function, or NAME is no function
    parameters          a function, whose parameters are asked            NAME(value: string|integer, base?: integer)
    bind, keywords      a function, and the keyword of each argument of   NAME binds 1 -, or NAME: number, NAME: unknown 0,
                        a call, null for one without                      NAME: missing 1
    call, given         what is known of the argument of each parameter   NAME: kind KIND; may fail true
    call, given, args   the same, and the arguments                       NAME: kind KIND; may fail true; value VALUE;
                                                                          inhabits true, or .. failed "TEXT" in its place

Places count from 0; an answer to `bind` has for each parameter the place of its argument, or `-`. `given` and `args` are
lists by parameter, null where it isn't given; a member of `given` is {"kind": KIND} or {"kind": KIND, "literal": VALUE}.
Kinds and values are written as `cases.py` tells, but a timestamp as the pair of its whole seconds, rounded down,
and its nanoseconds. In an answer a text stands as in JSON, a timestamp as t(SECONDS,NANOSECONDS), a regex as r(NUMBER),
and the parts of an array or an object without blanks.
"""

import argparse
import json
import os
import random
import sys

sys.dont_write_bytecode = True

import some_arguments
from cases import description
from reading import functions, json_lines, kinds
from reading.function_rows import Given as Known
from reading.function_rows import Parameter, cut_to
from reading.kinds import ABSENT, ANY, INTEGER, JSON, NEVER, STRING, root_tags, scalars
from reading.values import Failed
from second_rows import FIRST_SECOND, GREATEST, LAST_SECOND, LEAST, ROWS, Given
from some_arguments import SOURCES

# ---- answers

def told_value(value):
    tag, held = value
    if tag == "array":
        return "[" + ",".join(told_value(one) for one in held) + "]"
    if tag == "object":
        return "{" + ",".join(f"{json_lines.text_of(name)}:{told_value(one)}" for name, one in held) + "}"
    if tag == "timestamp":
        return "t(%d,%d)" % divmod(held, 10 ** 9)
    return f"r({held})" if tag == "regex" else json_lines.write(held)


def described_value(value):
    tag, held = value
    if tag == "array":
        held = [described_value(one) for one in held]
    elif tag == "object":
        held = {name: described_value(one) for name, one in held}
    return {tag: divmod(held, 10 ** 9) if tag == "timestamp" else held}


def answered(apply, name):
    try:
        return "value", apply()
    except Failed as failed:
        return "failed", f"{name}: {failed.args[0]}"


def truth(held):
    return "true" if held else "false"


def law(kind, may_fail, ended, args, given):
    """Arguments that are what they are known to be end in a value of the kind, or fail where the row may."""
    assert kinds.canonical(kind) and ABSENT not in root_tags(kind)
    if ended is None:
        return
    for one, known in zip(args, given):
        assert (one is None) == (known is None)
        assert one is None or kinds.inhabits(one, known.kind) and known.literal in (None, one)
    word, held = ended
    assert kinds.inhabits(held, kind) if word == "value" else may_fail


def other_reading(name, given, args):
    """The same by the rows of the outside reading."""
    row = functions.ROWS[name]
    parameters = [Parameter(one.name, frozenset(one.tags), one.required, False) for one in ROWS[name].parameters]
    assert row.parameters == parameters, name
    cut = {one.name: Known(cut_to(known.kind, *one.tags), known.literal) for one, known in zip(row.parameters, given) if known}
    by_name = {one.name: held for one, held in zip(row.parameters, args or []) if held}
    ended = answered(lambda: row.apply(by_name, None), name) if args else None
    return row.result(cut, SOURCES), bool(row.fails(cut)), ended


def case_of_call(name, given, args):
    """A case, the answer wanted, how it ended, and whether both readings agree."""
    row = ROWS[name]
    kind, may_fail = row.kind(*given), row.may_fail(*given)
    ended = answered(lambda: row.apply(*args), name) if args else None
    law(kind, may_fail, ended, args, given)
    told = f"{name}: kind {kinds.print_kind(kind)}; may fail {truth(may_fail)}"
    if ended:
        told += f"; failed {json_lines.text_of(ended[1])}" if ended[0] == "failed" else f"; value {told_value(ended[1])}; inhabits true"
    known = [one and {"kind": description(one.kind), **({"literal": described_value(one.literal)} if one.literal else {})} for one in given]
    case = {"call": name, "given": known}
    if args:
        case["args"] = [one and described_value(one) for one in args]
    return case, told, ended[0] if ended else "kind", other_reading(name, given, args) == (kind, may_fail, ended)


def bound(parameters, keywords):
    """What the arguments of a call are bound to: the place of each parameter's argument, or the fault and its place."""
    words = [word for word in keywords if word is not None]
    if len(keywords) > len(parameters) or len(set(words)) < len(words):
        return "number"
    names = [one.name for one in parameters]
    for place, word in enumerate(keywords):
        if word is not None and word not in names:
            return f"unknown {place}"
    unnamed = iter([name for name in names if name not in words])
    taken = {word if word is not None else next(unnamed): place for place, word in enumerate(keywords)}
    for place, one in enumerate(parameters):
        if one.required and one.name not in taken:
            return f"missing {place}"
    return [taken.get(name, "-") for name in names]


def case_of_binding(name, keywords):
    told = bound(ROWS[name].parameters, keywords)
    told = f": {told}" if isinstance(told, str) else " binds " + " ".join(str(one) for one in told)
    return {"bind": name, "keywords": keywords}, name + told


def some_case(maker, name):
    row = ROWS[name]
    args = maker.arguments(name)
    given = [one and maker.given(one) for one in args]
    if maker.chance(0.75):
        return case_of_call(name, given, args)
    given = [known and (known if maker.chance(0.3) else maker.other_given(one)) for one, known in zip(row.parameters, given)]
    return case_of_call(name, given, None)


def case_of_name(name):
    return {"name": name}, f"{name} is {'a' if name in ROWS else 'no'} function"


def case_of_parameters(name):
    told = [f"{one.name}{'' if one.required else '?'}: {'|'.join(one.tags)}" for one in ROWS[name].parameters]
    return {"parameters": name}, f"{name}({', '.join(told)})"


# ---- the rows' own examples, and the whole

def self_check():
    text, number, null = lambda held: ("string", held), lambda held: ("integer", held), ("null", None)
    moment = lambda seconds, nanos=0: ("timestamp", seconds * 10 ** 9 + nanos)
    rows = [
        ("is_array", [("array", ())], True), ("is_nullish", [text("-")], True), ("is_empty", [text("")], True), ("int", [number(3)], 3),
        ("to_string", [number(7)], "7"), ("to_int", [text("-7")], -7), ("to_bool", [text("Yes")], True), ("abs", [number(-3)], 3),
        ("mod", [number(-7), number(3)], -1), ("parse_int", [text("0x1f"), None], 31), ("format_int", [number(255), number(16)], "ff"),
        ("to_int", [text("q")], "to_int: not a whole number"), ("string", [number(3)], "string: value is integer"),
        ("bool", [null], "bool: value is null"), ("array", [("object", ())], "array: value is object"),
        ("object", [("regex", 0)], "object: value is regex"), ("timestamp", [("boolean", True)], "timestamp: value is boolean"),
        ("is_nullish", [text("\u3000\u0085")], True), ("is_nullish", [text("\u200b")], False), ("is_nullish", [text(" -")], False),
        ("is_nullish", [text("")], True), ("is_nullish", [("array", ())], False), ("is_nullish", [null], True),
        ("to_string", [null], ""), ("to_string", [("boolean", False)], "false"), ("to_string", [number(LEAST)], "-9223372036854775808"),
        ("to_string", [moment(1704164645, 500000000)], "2024-01-02T03:04:05.500Z"), ("to_string", [moment(-1, 1)], "1969-12-31T23:59:59.000000001Z"),
        ("to_string", [moment(FIRST_SECOND)], "0000-01-01T00:00:00Z"), ("to_string", [moment(LAST_SECOND, 120000)], "9999-12-29T23:59:59.000120Z"),
        ("to_string", [moment(-62162035201)], "0000-02-29T23:59:59Z"),
        ("to_int", [moment(-2, 999999999)], -2), ("to_int", [("boolean", True)], 1), ("to_int", [null], 0), ("to_int", [text("+9")], 9),
        ("to_int", [text("")], "to_int: not a whole number"), ("to_int", [text("9223372036854775808")], "to_int: not a whole number"),
        ("to_int", [text("-9223372036854775808")], LEAST), ("to_int", [text("0x1")], "to_int: not a whole number"), ("to_int", [text("\u0661")], "to_int: not a whole number"),
        ("to_bool", [text("T")], True), ("to_bool", [text("nO")], False), ("to_bool", [text("ye\u017f")], "to_bool: not a boolean word"),
        ("to_bool", [text(" t")], "to_bool: not a boolean word"), ("to_bool", [number(-5)], True), ("to_bool", [number(0)], False), ("to_bool", [null], False),
        ("abs", [number(LEAST)], LEAST), ("abs", [number(LEAST + 1)], GREATEST),
        ("mod", [number(LEAST), number(-1)], 0), ("mod", [number(7), number(-3)], 1), ("mod", [number(1), number(0)], "mod: modulus is 0"), ("mod", [number(GREATEST), number(LEAST)], GREATEST),
        ("parse_int", [text("08"), None], "parse_int: not a whole number"), ("parse_int", [text("0b"), None], "parse_int: not a whole number"),
        ("parse_int", [text("-0b11"), None], -3), ("parse_int", [text("+017"), None], 15), ("parse_int", [text("0"), None], 0), ("parse_int", [text("00"), None], 0),
        ("parse_int", [text("0x-1"), None], "parse_int: not a whole number"), ("parse_int", [text("0X1"), None], "parse_int: not a whole number"),
        ("parse_int", [text("0x1"), number(16)], "parse_int: not a whole number"), ("parse_int", [text("0b1"), number(16)], 177), ("parse_int", [text("-Zz"), number(36)], -1295),
        ("parse_int", [text("08"), number(10)], 8), ("parse_int", [text("x"), number(37)], "parse_int: bad base"), ("parse_int", [text("-0x8000000000000000"), None], LEAST),
        ("parse_int", [text("0x8000000000000000"), None], "parse_int: not a whole number"), ("parse_int", [text("-"), None], "parse_int: not a whole number"),
        ("format_int", [number(LEAST), number(2)], "-1" + "0" * 63), ("format_int", [number(-35), number(36)], "-z"), ("format_int", [number(0), None], "0"),
        ("format_int", [number(0), number(1)], "format_int: bad base"),
    ]
    for name, args, want in rows:
        word, got = answered(lambda: ROWS[name].apply(*args), name)
        assert (got if word == "failed" else got[1]) == want, (name, args, got, want)
    mixed = kinds.join(kinds.kind_of(("array", (number(1),))), STRING)
    told = [
        ("array", [Given(mixed)], "[integer]", True), ("array", [Given(kinds.kind_of(("array", ())))], "[]", False), ("string", [Given(mixed)], "string", True),
        ("int", [Given(mixed)], "never", True), ("int", [Given(NEVER)], "never", False), ("object", [Given(JSON)], "{..json}", True), ("bool", [Given(ANY)], "boolean", True),
        ("to_int", [Given(mixed)], "integer", True), ("to_int", [Given(scalars("null", "timestamp"))], "integer", False), ("to_bool", [Given(INTEGER)], "boolean", False),
        ("mod", [Given(INTEGER), Given(INTEGER)], "integer", True), ("mod", [Given(INTEGER), Given(INTEGER, number(0))], "integer", True),
        ("mod", [Given(INTEGER), Given(INTEGER, number(-1))], "integer", False), ("parse_int", [Given(STRING), None], "integer", True),
        ("format_int", [Given(INTEGER), None], "string", False), ("format_int", [Given(INTEGER), Given(INTEGER, number(36))], "string", False),
        ("format_int", [Given(INTEGER), Given(INTEGER, number(37))], "string", True), ("format_int", [Given(INTEGER), Given(INTEGER)], "string", True),
    ]
    bindings = [
        ("mod", [None, None], [0, 1]), ("mod", ["modulus", None], [1, 0]), ("mod", [None, "value"], [1, 0]), ("mod", [None], "missing 1"),
        ("mod", ["modulus"], "missing 0"), ("mod", [None, None, None], "number"), ("mod", ["value", "value"], "number"), ("mod", ["v", "w"], "unknown 0"),
        ("mod", ["value", "v"], "unknown 1"), ("parse_int", [None], [0, "-"]), ("parse_int", ["base", None], [1, 0]), ("parse_int", ["base"], "missing 0"),
        ("abs", [], "missing 0"), ("abs", ["Value"], "unknown 0"), ("abs", ["x", "x"], "number"), ("to_int", [None, "x"], "number"),
    ]
    for name, keywords, want in bindings:
        assert bound(ROWS[name].parameters, keywords) == want, (name, keywords, want)
    for name, given, kind, may_fail in told:
        got = kinds.print_kind(ROWS[name].kind(*given)), ROWS[name].may_fail(*given)
        assert got == (kind, may_fail), (name, got, kind, may_fail)
    return len(rows) + len(told) + len(bindings)


def write_out(folder, size, lines):
    os.makedirs(folder, exist_ok=True)
    for start in range(0, len(lines), size):
        name = os.path.join(folder, f"calls_{start // size:04}")
        part = [({"sources": SOURCES}, f"{len(SOURCES)} regexes")] + lines[start:start + size]
        with open(name, "w") as file:
            file.writelines(json.dumps(case) + "\n" for case, _ in part)
        with open(name + ".stdout", "w") as file:
            file.writelines(told + "\n" for _, told in part)


def main():
    words = argparse.ArgumentParser(description="single calls with arguments and kinds at random")
    words.add_argument("--seed", type=int, default=1)
    words.add_argument("--count", type=int, default=200)
    words.add_argument("--only")
    words.add_argument("--out")
    words.add_argument("--size", type=int, default=3000)
    words.add_argument("--show", type=int, default=10)
    given = words.parse_args()
    rows = self_check()
    maker = some_arguments.Maker(random.Random(given.seed))
    chosen = given.only.split(",") if given.only else list(ROWS)
    lines, met, differences = [], {}, 0
    for name in chosen:
        lines += [case_of_parameters(name), case_of_name(name)] + [case_of_name(maker.other_name()) for _ in range(5)]
        lines += [case_of_binding(name, maker.keywords(name)) for _ in range(20)]
        ends = {}
        for _ in range(given.count * (4 if name == "parse_int" else 1)):
            case, told, end, agreed = some_case(maker, name)
            lines.append((case, told))
            ends[end] = ends.get(end, 0) + 1
            differences += not agreed
            if not agreed and differences <= given.show:
                print("the two readings differ on", json.dumps(case), "here:", told)
        met[name] = ends
    if given.out:
        write_out(given.out, given.size, lines)
    for name, ends in met.items():
        print(f"{name}: " + ", ".join(f"{ends[end]} {end}" for end in ("value", "failed", "kind") if end in ends))
    print(f"calls: seed {given.seed}, {rows} rows, {len(chosen)} functions, {len(lines)} cases, the law holds, {differences} differences of the readings")
    return 1 if differences else 0


if __name__ == "__main__":
    sys.exit(main())
