"""Random trial of texts: tokens, brackets, and the grammar of scripts.

    python3 trials/grammar.py [--seed N] [--count N] [--program PATH] [--out FILE] [--show N]
    python3 trials/grammar.py --text FILE

The second form prints the one diagnostic of a script's text up to the grammar, as `203 1:5`, or `ok`. The first
makes texts at random from the productions, spoils many of them, and compares each with `PATH SCRIPTFILE`: where
one of the codes below is due it must be the first diagnostic on standard error, with its place; else none of
them may stand there. Without --program each text is read by two readers, a plain descent and a table of the
productions read by Earley's way, which must agree. As many texts in quotes, about templates, are divided in two ways. With --out the texts go to FILE, a JSON object a line: `hex`, the
text's bytes, and `want`, as above; where that is `ok` also `patterns`, the regex sources in order, `roots`, the roots
that are assigned or that a `del` names, by bytes, and `tree`, a list of items. A tree's node is `[FORM, START, END ..]`
with its span in bytes, and then

    literal TAG VALUE           array [NODE ..]         map [[NAME, NODE] ..]       read ROOT STEPS
    query NODE STEPS            group NODE              block [NODE ..]             not NODE
    if [[PREDICATE, BLOCK] ..] BLOCK-OR-NULL            binary SIGN LEFT RIGHT      abort NODE-OR-NULL
    assign TARGET NODE          merge TARGET NODE       both TARGET TARGET NODE     return NODE
    call NAME BANG [[NAME-OR-NULL, START, END, NODE] ..] CLOSURE-OR-NULL, with CLOSURE = [[NAME ..], START, END, [NODE ..]]

where VALUE is nanoseconds since 1970 for a timestamp and a regex's number for a regex, ROOT is `.`, `%` or a name, STEPS holds
texts and whole numbers, and TARGET is `[START, END, ROOT-OR-NULL, STEPS]`.

Codes: 203 unrecognized token, 1001 float, 1002 number out of range, 1003 operator left out, 1008 nested too deeply,
1009 too long or not UTF-8, 1012 index too large or path too long, 1014 malformed timestamp, 1016 malformed template or too
many regexes.
"""

import argparse
import contextlib
import json
import random
import re
import sys

sys.dont_write_bytecode = True

import programs
from reading.diagnostics import DIAGNOSTIC
from reading.earley import agree
from reading.grammar import Script, read
from reading.moments import read_moment
from reading.tokens import KEYWORDS, Fault, text_token
from reading.tree import written_roots
from some_texts import Maker, hard_texts, some_text

CODES = (203, 1001, 1002, 1003, 1008, 1009, 1012, 1014, 1016)


def tree_of(node, at):
    """The tree as lists; `at` gives the byte of each character."""
    span = lambda one: [at[one.start], at[one.end]]
    inner = lambda one: None if one is None else tree_of(one, at)
    every = lambda nodes: [tree_of(one, at) for one in nodes]
    target = lambda one: span(one) + [one.root, list(one.steps)]
    parts = {
        "literal": lambda: [node.tag, node.value], "array": lambda: [every(node.parts)],
        "map": lambda: [[[name, inner(one)] for name, one in node.pairs]], "read": lambda: [node.root, list(node.steps)],
        "query": lambda: [inner(node.value), list(node.steps)], "group": lambda: [inner(node.value)], "block": lambda: [every(node.items)],
        "if": lambda: [[every(arm) for arm in node.arms], inner(node.otherwise)], "not": lambda: [inner(node.value)],
        "binary": lambda: [node.op, inner(node.left), inner(node.right)], "assign": lambda: [target(node.target), inner(node.value)],
        "merge": lambda: [target(node.target), inner(node.value)], "both": lambda: [target(node.ok), target(node.err), inner(node.value)],
        "return": lambda: [inner(node.value)], "abort": lambda: [inner(node.message)],
        "call": lambda: [node.name, node.bang, [[one.name] + span(one) + [inner(one.value)] for one in node.arguments],
                         node.closure and [node.closure.names] + span(node.closure) + [every(node.closure.items)]],
    }
    return [node.form] + span(node) + parts[node.form]()


def case_line(data, got):
    one = {"hex": data.hex()}
    if isinstance(got, Script):
        at = [0]
        for c in got.text:
            at.append(at[-1] + len(c.encode()))
        one["want"] = "ok"
        one["patterns"] = [token.value for token in got.patterns]
        one["roots"] = sorted(written_roots(got.items), key=lambda root: root.encode())
        one["tree"] = [tree_of(item, at) for item in got.items]
    else:
        one["want"] = "%d %d:%d" % got
    return json.dumps(one) + "\n"


# ---- rows

NL = "\n"
ROWS = [
    (".x =", (203, 1, 5)), ('.x = "a', (203, 1, 6)), (".x = 1.5", (1001, 1, 6)),
    (".x = 1 / 2", (1003, 1, 8)),
    (".x = t'now'", (1014, 1, 6)), (".a[65536] = 1", (1012, 1, 1)), (".a[-1] = 1", "ok"), (".a[65535] = 1", "ok"),
    (".n = 9223372036854775808", (1002, 1, 6)), (".n = -9223372036854775808", "ok"), ("(" * 65, (1008, 1, 1)),
    (" " * 65537, (1009, 1, 1)),
    ("(" * 64 + "1" + ")" * 64, "ok"), (".x = 1 2", (203, 1, 8)), (".x = (1", (203, 1, 8)), ("if true 1", (203, 1, 9)),
    ("}", (203, 1, 1)),
    ("a, .b, c = 1", (203, 1, 6)), (".x = 1; .y = 2", "ok"), (".x = 1" + NL + "?? 2", "ok"), ("f(a)[0]", "ok"),
    (".x = (", (203, 1, 7)),
    ("f(a) -> |v| {" * 4 + "}" * 4, "ok"), ("f(a) -> |v| {" * 5 + "}" * 5, (1008, 1, 1)), ("(x" + NL + "-5)", (203, 2, 1)),
    ("x = 1.5x", (1001, 1, 5)), ("1e5x", (1001, 1, 1)), ("1_", (203, 1, 1)), ("1__0", (203, 1, 1)), ("12x", (203, 1, 1)),
    ("99999999999999999999x", (203, 1, 1)), ("x = s'a", (203, 1, 5)), ('.a."\\q" = 1', (203, 1, 1)), ('.a."q = 1', (203, 1, 4)),
    ("x[-0] = 1", "ok"), ("x[-1][65536] = 1", (1012, 1, 1)), ("del(a, v: .x[-1])", "ok"), ("_.a = 1", "ok"), ("", "ok"),
    ("1 < 2 < 3", "ok"), ("a, b = 1", "ok"), ("abort 1", "ok"), ("abort" + NL + ".x = q", "ok"), ("5 % 2", (203, 1, 3)),
    ("%", "ok"), ("%a.b[0] = %", "ok"), ("%[0] = 1", "ok"), ('%"a b"@ = 1', (203, 1, 7)), ('%"a b".c = 1', "ok"), ("%@a, % = 1", "ok"), ("5%2", (203, 1, 2)), ("x = 1 -% ", "ok"), ("% - 1", "ok"),
    ("%-1", "ok"), ("%.a", (203, 1, 2)), ("% a", (203, 1, 3)), ("%%", (203, 1, 2)), ("f()%a", (203, 1, 4)), ("[1]%", (203, 1, 4)), ("f() %a", (203, 1, 5)), ("x%", (203, 1, 2)),
    ('%"q = 1', (203, 1, 2)), ('%"\\q" = 1', (203, 1, 1)), ("%[9223372036854775808]", (1002, 1, 1)), ("%[-1] = 1", "ok"), ("del(%[65536])", (1012, 1, 5)), ("%" + ".a" * 3, (203, 1, 2)),
    ("if % == %a {}", "ok"), ("if %{}", "ok"), ("%|=%a", "ok"), ("del( % )", "ok"), ("f(%:1)", (203, 1, 4)), ("x %= 2", (203, 1, 3)), ("x /= 2", (1003, 1, 3)), ("f() -> |%| {}", (203, 1, 9)),
    ("%if = 1", "ok"), ("%true.null = 1", "ok"), ("_, % = 1", "ok"), ("% = _", "ok"), ("%_ = 1", "ok"), ("%1 = 1", "ok"), ("% 1 = 1", (203, 1, 3)), ("!%a", "ok"), ("x[%]", (203, 1, 2)),
    ("x = {\"a\":1}" + NL + "del(x.a)" + NL + ".r = x.a", "ok"), ("x={\"a\":!true,}", "ok"), ("for_each( . )->|k,v|{}", "ok"),
    ("n = 0" + NL + "for_each(.) -> |k, v| { n = n + 1 }" + NL + ".n = n", "ok"), ("if x" + NL + "{}", (203, 1, 5)),
    ("parsed, err = parse_json(.message)" + NL + ". = . | (object(parsed) ?? {})" + NL + "del(.message)", "ok"),
    (".a=1; .b = [ 1,2 ] # two" + NL + "if .a==1{abort}", "ok"), ("if exists(.k) { .v = 1 } else { .v = \"s\" }", "ok"),
    ("é = 1", (203, 1, 1)), ("\"é\" = 1", (203, 1, 5)),
    # Places from the end that are written or deleted.
    (".a[-65536] = 1", "ok"), (".a[-65537] = 1", (1012, 1, 1)), ("del(.a[-65536])", "ok"), ("del(.a[-65537])", (1012, 1, 5)), (".x = .a[-65537]", "ok"), ("exists(.a[-65537])", "ok"),
    ("a, .b[-65537] = 1", (1012, 1, 4)), (".a[-9223372036854775808] |= {}", (1012, 1, 1)), (".a[-9223372036854775809] = 1", (1002, 1, 1)), ("del(v: x[0][-65537].a)", (1012, 1, 8)),
    ("x[-1]" + "[-2]" * 127 + " = 1", "ok"), ("x[-1]" + "[-2]" * 128 + " = 1", (1012, 1, 1)), ("del(del(.a[-65537]))", (1012, 1, 9)),
    # Templates.
    ('.x = "{{ a }}"', "ok"), ('.x = "{{ 1 }}"', (1016, 1, 6)), ('.x = "a\\n\\"b{{ 1 }}"', (1016, 1, 6)), ('.x = "' + "{{ a }}" * 31 + '"', "ok"), ('.x = "' + "{{ a }}" * 32 + '"', (1008, 1, 1)),
    ('"' + "{{a}}" * 31 + '"', "ok"), ('"' + "{{a}}" * 32 + '"', (1008, 1, 1)), ('("' + "{{a}}" * 31 + '")', "ok"), ('(("' + "{{a}}" * 31 + '"))', (1008, 1, 1)),
    ('x = "' + "{{a}}" * 31 + '" + ""', (1008, 1, 1)), ('x = "' + "{{a}}" * 30 + '" + ""', "ok"), ('x = "' + "{{a}}" * 31 + '"; y = 1 + 1', "ok"),
    ("(" * 64 + '"a"' + ")" * 64, "ok"), ("(" * 62 + '"{{a}}"' + ")" * 62, (1008, 1, 1)), ("(" * 61 + '"{{a}}"' + ")" * 61, "ok"), ('"' + "{{a}}" * 31 + '"\n"' + "{{a}}" * 31 + '"', "ok"),
    ('"{{ if }}"', (1016, 1, 1)), ('"{{ null }}"', (1016, 1, 1)), ('"{{ nulls }}"', "ok"), ('"{{}}"', (1016, 1, 1)), ('"{{ a.b }}"', (1016, 1, 1)), ('"{{ .a }}"', (1016, 1, 1)), ('"{{ % }}"', (1016, 1, 1)),
    ('"{{ a[0] }}"', (1016, 1, 1)), ('"{{ a b }}"', (1016, 1, 1)), ('"{{ a"', (1016, 1, 1)), ('"{{ a }"', (1016, 1, 1)), ('"{{ a } }"', (1016, 1, 1)), ('"{{"', (1016, 1, 1)), ('"{{' + NL + 'a }}"', (1016, 1, 1)),
    ('"{{ a' + NL + '}}"', (1016, 1, 1)), ('"{{\t\r a \t\r}}"', "ok"), ('"{{ é }}"', (1016, 1, 1)), ('"{{ \u00a0a }}"', (1016, 1, 1)), ('"{{ _ }}{{ _1 }}{{ A9_ }}"', "ok"), ('"{{ 9a }}"', (1016, 1, 1)),
    ('"{{{ a }}"', (1016, 1, 1)), ('"{{ a }}}"', "ok"), ('"{{ a }} }} {"', "ok"), ('"{{ a }}{{"', (1016, 1, 1)), ('"{ { a }}"', "ok"), ('"\\{{ a }}"', "ok"), ('"\\{{ 1 }}"', "ok"), ('"{\\{ 1 }}"', "ok"),
    ('"\\{{{ a }}"', "ok"), ('"\\{{{ 1 }}"', (1016, 1, 1)), ('"\\\\{{ a }}"', "ok"), ('"\\\\{{ 1 }}"', (1016, 1, 1)), ('"\\}}"', (203, 1, 1)), ('"{{ a \\}}"', (203, 1, 1)), ('"{{ \\q }}"', (203, 1, 1)),
    ('"{{ 1 }}\\q"', (203, 1, 1)), ('"{{ \\n }}"', (1016, 1, 1)), ('"{{ \\" }}"', (1016, 1, 1)), ('x = "{{ 1', (203, 1, 5)), ('x = "{{ 1 }}\\', (203, 1, 5)), ("s'{{ 1 }}'", "ok"), ('"{{ a }}" "{{ b }}"', (203, 1, 11)),
    ('."\\{" = 1', "ok"), ('."{{" = 1', "ok"), ('."{{ 1 }}\\{" = 1', "ok"), ('."\\{\\q" = 1', (203, 1, 1)), ('f()."\\{{"', "ok"), ('x."\\}" = 1', (203, 1, 1)),
    ('{"{{ a }}": 1}', (203, 1, 2)), ('{"{{ a }}":', (203, 1, 2)), ('{"{{ a }}" + "": 1}', (203, 1, 16)), ('{"{{ a }}"}', "ok"), ('{"\\{{ a }}": 1}', "ok"), ('{"a": "{{ a }}", "{{ b }}": 1}', (203, 1, 18)), ('{"a": "{{ a }}"}', "ok"),
    ('"{{ a }}" -1', "ok"), ('"{{ a }}".b', (203, 1, 10)), ('"{{ a }}"[0]', (203, 1, 10)), ('f("{{ a }}")[0]', "ok"), ('("{{ a }}").b', "ok"), ('if "{{ a }}" {}', "ok"), ('"{{ a }}"{}', (203, 1, 10)), ('"{{ a }}" = 1', (203, 1, 11)),
    ('f("{{ a }}": 1)', (203, 1, 12)), ('f(a: "{{ a }}")', "ok"), ('del("{{ a }}")', "ok"), ('abort "{{ a }}"', "ok"), ('return "{{ a }}"', "ok"), ('x' + NL + '"{{ a }}"', "ok"), ('(x' + NL + '"{{ a }}")', (203, 2, 1)),
    ('"{{ a }}"' + NL + '?? "{{ b }}"', "ok"), ('f(1) -> |v| { "{{ v }}" }', "ok"),
]
# A text, and the tree of its only item.
TREES = [
    ('"a{{ n }}c"', ["group", 0, 11, ["binary", 0, 11, "+", ["binary", 0, 11, "+", ["literal", 0, 11, "string", "a"], ["read", 5, 6, "n", []]], ["literal", 0, 11, "string", "c"]]]),
    ('"{{n}}"', ["group", 0, 7, ["binary", 0, 7, "+", ["binary", 0, 7, "+", ["literal", 0, 7, "string", ""], ["read", 3, 4, "n", []]], ["literal", 0, 7, "string", ""]]]),
    ('"é\\{{{a}}{{ b_ }}"', ["group", 0, 19, ["binary", 0, 19, "+", ["binary", 0, 19, "+", ["binary", 0, 19, "+", ["binary", 0, 19, "+", ["literal", 0, 19, "string", "é{"],
                               ["read", 7, 8, "a", []]], ["literal", 0, 19, "string", ""]], ["read", 13, 15, "b_", []]], ["literal", 0, 19, "string", ""]]]),
    ('"\\{{ a }}"', ["literal", 0, 10, "string", "{{ a }}"]),
]


def self_check():
    for text, want in ROWS:
        got = read(text.encode())
        got = "ok" if isinstance(got, Script) else got
        assert got == want, (text[:80], got, want)
        assert agree(text.encode()), text
    moments = [("2024-01-02T03:04:05.5+01:00", 1704161045500000000), ("2023-02-29T00:00:00Z", None), ("1970-01-01T00:00:01.5Z", 1500000000),
               ("0000-01-01T00:00:00Z", -62167219200 * 10 ** 9), ("9999-12-29T23:59:59z", 253402127999 * 10 ** 9),
               ("9999-12-30T00:00:00Z", None), ("0000-01-01T00:00:00+00:01", None), ("2024-01-01T24:00:00Z", None)]
    for text, want in moments:
        assert read_moment(text) == want, (text, read_moment(text))
    for text, want in TREES:
        got = json.loads(case_line(text.encode(), read(text.encode())))["tree"]
        assert got == [want], (text, got)
    return len(ROWS) + len(moments) + len(TREES)


# What a text in quotes is made of; a brace that another one follows is a template's.
KEYWORD = "(?:" + "|".join(sorted(KEYWORDS)) + ")"
PIECES = re.compile(r"\\(?P<escape>[nrt\\\"'0{])|\{\{[ \t\r]*(?!%s[ \t\r]*\}\})(?P<name>[A-Za-z_][A-Za-z0-9_]*)[ \t\r]*\}\}|(?P<plain>\{(?!\{)|[^\"\\{])" % KEYWORD, re.S)


def divided(inside):
    """What stands between two quotes: its texts and names, or the code of what is wrong there."""
    if not re.fullmatch(r"(?:\\[nrt\\\"'0{]|[^\"\\])*", inside, re.S):
        return 203
    parts, at = [""], 0
    while at < len(inside):
        found = PIECES.match(inside, at)
        if not found:
            return 1016
        if found["name"]:
            parts += [found["name"], ""]
        else:
            parts[-1] += found["plain"] or "\n\r\t\\\"'\0{"["nrt\\\"'0{".index(found["escape"])]
        at = found.end()
    return parts


def agree_on_texts(rng, count):
    """Whether texts at random, half of them wrong, are divided so."""
    for _ in range(count):
        text = some_text(rng, ["a", "_b1", "nulls", "éa", "if", "a b"] if rng.random() < 0.2 else ["a", "_b1", "nulls"], 0.5)
        try:
            value = text_token(text, 0).value
            told = [value] if isinstance(value, str) else [part if isinstance(part, str) else part.value for part in value]
        except Fault as fault:
            told = fault.code
        assert told == divided(text[1:-1]), (text, told, divided(text[1:-1]))


def told_by(program, data):
    _, report, status = program.run(data)
    lines = report.decode("utf-8", "replace").split("\n")[:-1]
    found = [DIAGNOSTIC.match(line) for line in lines]
    told = [tuple(int(g) for g in one.groups()) for one in found if one]
    mine = [one for one in told if one[0] in CODES]
    if not mine:
        return "ok" if status in (0, 1) else f"status {status}"
    return mine[0] if len(lines) == 1 and status == 1 else lines[:3]


def main():
    words = argparse.ArgumentParser(description="random texts against a plain reading of the grammar")
    words.add_argument("--seed", type=int, default=1)
    words.add_argument("--count", type=int, default=5000)
    words.add_argument("--program")
    words.add_argument("--text")
    words.add_argument("--out")
    words.add_argument("--show", type=int, default=10)
    given = words.parse_args()
    if given.text:
        with open(given.text, "rb") as file:
            got = read(file.read())
        print("ok" if isinstance(got, Script) else "%d %d:%d" % got)
        return 0
    rows = self_check()
    rng = random.Random(given.seed)
    agree_on_texts(rng, given.count)
    texts = list(hard_texts()) + [Maker(rng).text() for _ in range(given.count)]
    out = open(given.out, "w") if given.out else None
    met, differences = {}, 0
    with programs.Program(given.program) if given.program else contextlib.nullcontext() as program:
        for data in texts:
            got = read(data)
            want = "ok" if isinstance(got, Script) else got
            what = want if want == "ok" else want[0]
            met[what] = met.get(what, 0) + 1
            if out:
                out.write(case_line(data, got))
            if given.program:
                told = told_by(program, data)
            else:
                told = want if agree(data) else "the other reader differs"
            if told != want:
                differences += 1
                if differences <= given.show:
                    print("difference: wanted", want, "got", told, "on", data[:300])
    if out:
        out.close()
    told = ", ".join(f"{met[what]} of {what}" for what in sorted(met, key=str))
    against = "the program" if given.program else "the second reader"
    print(f"grammar: seed {given.seed}, {rows} rows, {len(texts)} texts ({told}): {differences} differences from {against}")
    return 1 if differences else 0


if __name__ == "__main__":
    sys.exit(main())
