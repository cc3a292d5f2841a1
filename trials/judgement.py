"""Random trial of the judgement: kinds, states and codes of scripts.

    python3 trials/judgement.py [--seed N] [--count N] [--no-calls] [--hard] [--out FILE] [--program PATH [--words]] [--show N]
    python3 trials/judgement.py --text FILE [--kind FILE] [--envelope]

The second form prints the diagnostics of a script, or its warnings and then its kinds as `--check` prints them. The
first makes scripts at random. With --program each goes through `PATH SCRIPTFILE`, and the diagnostics on standard
error are compared. With --words, too, the program takes `--check`, `--kind FILE` and mostly `--envelope`, and the kinds that it prints are
compared. With --out the scripts go to FILE, a JSON object a line:

    script, kind (a kind file's value), diagnostics (their lines), result (the joined kind), end (lines `. KIND`, `% KIND`,
    `NAME KIND` of the joined state), ok, ret (such lines, or null where dead), empties (the tag of each error
    assignment's empty value, an outer one before those in it), loops (the state that each closure was judged in last)

where result and end are null for a refused script. Calls are judged by the rows of functions; --no-calls makes
scripts without them, --hard adds scripts about the limits of nodes and levels.
"""

import argparse
import contextlib
import json
import random
import sys

sys.dont_write_bytecode = True

import programs
import some_calls
import some_scripts
from reading.diagnostics import DIAGNOSTIC
from reading.functions import ROWS as FUNCTIONS
from reading.judgement import Verdict
from reading.kind_files import kind_file, start_of
from reading.kinds import EVENT
from reading.states import told_state

NL = "\n"
# A script, and its diagnostics as (code, line, column); a second list is what `--check` prints.
ROWS = [
    (".x = 1", []), (".x = y", [(701, 1, 6)]), (".y = .a + 1", [(103, 1, 1)]), (".y = .a + 1 ?? 0", []),
    (".a + 1", [(100, 1, 1)]),
    (".y = 1 ?? 2", [(651, 1, 6)]), (".y = z", [(701, 1, 6)]), ('.y = "a" + 1' + NL + ".z = q", [(103, 1, 1)]), (".y = .m", []),
    ('x = 1' + NL + '.r = ({ x = "s"; .a + 1 }) ?? 0' + NL + ".s = x + 1", [(103, 3, 1)]),
    ("if true { y = 1 }" + NL + ".z = y", [(701, 2, 6)]), ("abort" + NL + ".x = q", [], ["result never", ". never"]),
    (".x = 1" + NL + "return .x", [], ["result integer", '. {"x": integer, ..json}']),
    ('.x = "s"' + NL + "y = .a + 1 ?? 0", [], ["result integer", '. {"x": string, ..json}', "y integer"]),
    (". = 3", [(1006, 1, 1)]), ("_ = 1", [(640, 1, 1)]), ("1 < 2 < 3", [(650, 1, 1)]), ("a, b = 1", [(104, 1, 1)]),
    ("if 1 { }", [(102, 1, 4)]), ("!1", [(660, 1, 1)]), (". | 1", [(652, 1, 5)]), ("abort 1", [(1011, 1, 7)]),
    ('x = "s"' + NL + ".r = (.a + 1 + (x = 1)) ?? x" + NL + ".s = .r + 1", [(103, 3, 1)]),
    ('., e = "a" + 1', [(1006, 1, 1)]), ("(abort) ?? 1", [(651, 1, 1)]), ("x, e = abort", [(104, 1, 1)]),
    (". = [{\"a\":1},{\"a\":2}]", []),
    (". = []", []), (".n = 9223372036854775807 + 1", []),
    ("if .q == 0 { return 1 }" + NL + ".r = 2", [], ["result integer", ". {..json}"]),
    ("if .k == 1 { .v = 1 } else { .v = \"s\" }" + NL + ".w = .v + 1", [(103, 2, 1)]), ("_ |= q", [(640, 1, 1), (701, 1, 6)]),
    ("_ |= .a + 1", [(640, 1, 1)]), ("x |= {}", [(701, 1, 1)]), (".a |= {}", [(652, 1, 1)]), ("., . = .a + 1", [(1006, 1, 1)]),
    (".v, .e = .x - 1", [], ["result integer", '. {"e": string|null, "v": integer, ..json}']),
    ("_, _ = .a + 1", [(640, 1, 1)]), ("_ = .a + 1", [(103, 1, 1), (640, 1, 1)]), (". = .a + 1", [(103, 1, 1), (1006, 1, 1)]),
    ("if .a + 1 == 2 { }", [(1005, 1, 4)]), ("if !(.m == 1) { abort }" + NL + ".m = .m + 1", [(103, 2, 1)]),
    ("", [], ["result null", ". {..json}"]),
    ("x.a = 1", [], ["result integer", ". {..json}", 'x {"a": integer, ..any}']), (".x =", [(203, 1, 5)]),
    ("(1 < 2) == true", []), ("1 == 2 < 3", [(650, 1, 1)]), ("x = true && 1", [(103, 1, 1)]),
    ("null && q", [], ["result boolean", ". {..json}"]), ("true && q", [(701, 1, 9)]),
    ("1 || q", [], ["result integer", ". {..json}"]),
    ("null || 1", [], ["result integer", ". {..json}"]), ("{ x = 1 }" + NL + "x", [(701, 2, 1)]),
    # Calls.
    (".x = to_int(.x)", [(103, 1, 1)]), (".x, err = to_int(.x)" + NL + ".y = .x + 1", []),
    ('x = 1' + NL + '.r = ({ x = "s"; to_int(.a) }) ?? 0' + NL + ".s = x + 1", [(103, 3, 1)]),
    ('if exists(.k) { .v = 1 } else { .v = "s" }' + NL + ".w = .v + 1", [(103, 2, 1)]),
    ("if !is_string(.m) { abort }" + NL + ".m = upcase(.m)", [(103, 2, 1)]),
    ("if !is_string(.m) { abort }" + NL + ".m = upcase!(.m)", []),
    ('.m = upcase(.m) ?? "none"', []), ('upcase!("a")', [(620, 1, 1)]), ("upcase(1)", [(110, 1, 8)]),
    ("upcase(to_string(.a))", [(630, 1, 8)]),
    ("n = 0" + NL + "for_each(.) -> |k, v| { n = n + 1 }" + NL + ".n = n", [], ["result integer", '. {"n": integer, ..json}', "n integer"]),
    ("a = []" + NL + "for_each(.) -> |k, v| { a = push(a, k) }" + NL + ".keys = a", []),
    ('x = {"a":1}' + NL + "del(x.a)" + NL + ".r = x.a", []),
    ("x = null" + NL + "for_each(array!(.l)) -> |i, v| { x = {\"a\": x} }", []), ("x = to_int!(.a)", []),
    (". = parse_json!(.message)", []),
    ("parsed, err = parse_json(.message)" + NL + ". = . | (object(parsed) ?? {})" + NL + "del(.message)" + NL +
     '.level = downcase(.level) ?? "info"' + NL + '.at = parse_timestamp(.ts, format: "%+") ?? now()', []),
    ("if exists(.q) { return 1 }" + NL + ".r = 2", []), ("foo(1)", [(105, 1, 1)]), ("upcase()", [(107, 1, 1)]),
    ('upcase("a", "b")', [(106, 1, 1)]),
    ('upcase(v: "a")', [(108, 1, 8)]), ("to_int(.x)", [(100, 1, 1)]), ('.k = filter({"a":1,"b":2}) -> |k, v| { v > 1 }', []),
    (".k = map_values([1,2]) -> |v| { v * 2 }", []), ('.k = map_keys({"a":1}) -> |k| { upcase(k) }', []),
    ("filter([1]) -> |k, v| { 1 }", [(1015, 1, 23)]),
    ('upcase("a") -> |v| { v }', [(1010, 1, 1)]), ('.r = split("a,b", ",")[1]', []), (".a = upcase(to_int!(.b))", [(110, 1, 13)]),
    ("mod(1, 0)", [(100, 1, 1)]), ("mod(1, 2)", []), ("parse_int(1)", [(110, 1, 11)]), ("del(1)", [(1013, 1, 5)]),
    ("abs!(1)", [(620, 1, 1)]),
    ("abs(1) -> |v| { v }", [(1010, 1, 1)]), ("int(value: 1, value: 2)", [(106, 1, 1)]),
    ('x = push([1], "a")' + NL + '.r = x[1] + "b"', []),
    ('.r = merge({"a":1}, {"a":"s"}).a + "t"', []), ('.x = upcase(1) ?? "a"', [(110, 1, 13)]),
    ('x = ["s", 1]' + NL + "del(x[0])" + NL + ".r = x[0] + 1", []),
    ('x = "s"' + NL + ".r = (to_int(.a) + (x = 1)) ?? x" + NL + ".s = .r + 1", [(103, 3, 1)]),
    ("x = 1" + NL + 'for_each(.) -> |k, v| { .r = x + 1; x = "s" }', [(103, 2, 25)]),
    ("for_each({}) -> |k, v| { .x = q }", []), ("k = 5" + NL + "for_each([7]) -> |k, _| { .i = k }" + NL + ".k = k", []),
    ("for_each([1]) -> |i, v| { return 1 }", [(1004, 1, 27)]), ("upcase!((abort))", [(620, 1, 1)]),
    ("a = to_int!(.a)" + NL + "del(.b[0])", []),
    ("u, e = parse_url(.m)" + NL + ".s = upcase(u.scheme)", [(103, 2, 1)]), (".t = to_int(.x) + 1 ?? 2", []),
    ("exists(q)", [(701, 1, 8)]), ("del(.)", [], ["result {..json}", ". {}"]),
    ("x = 1" + NL + "del(x)", [], ["result integer", ". {..json}", "x null"]),
    # The metadata.
    ("% = 3", [(1017, 1, 1)]), ("% = []", [(1017, 1, 1)]), ("% = .", []), ("% = .a", []), ("% = %a", []), ("5 % 2", [(203, 1, 3)]), ("% = !1", [(660, 1, 5)]),
    ("abort" + NL + "% = 3", []), ("% = .a + 1", [(103, 1, 1), (1017, 1, 1)]), ("% |= 1", [(652, 1, 6)]), ("% |= {}", []), ("%a |= {}", [(652, 1, 1)]),
    ("%, e = .a + 1", [(1017, 1, 1)]), ("x, % = .a + 1", [(1017, 1, 1)]), ("%, % = .a + 1", [(1017, 1, 1)]), ("., % = .a + 1", [(1006, 1, 1), (1017, 1, 1)]),
    ("%, _ = 1", [(104, 1, 1), (1017, 1, 1)]), ("%, e = object(.a)", []), ("%, e = parse_json(.a)", []), ("%, e = abort", [(104, 1, 1)]), ("_, % = !1", [(1017, 1, 1), (660, 1, 8)]),
    ("%n = 1" + NL + ".k = %n + 1", []), ("%n = .a + 1", [(103, 1, 1)]),
    # Templates.
    ('n = "b"' + NL + '.x = "a{{ n }}c"', [], ["result string", '. {"x": string, ..json}', "n string"]), ("n = 1" + NL + '.x = "a{{ n }}c"', [(103, 2, 1)]), ('.x = "{{ a }}"', [(701, 1, 10)]), ('.x = "\\{{ a }}"', []),
    ('n = null' + NL + '.x = "{{ n }}"', [], ["result string", '. {"x": string, ..json}', "n null"]), ('n = if .a == 1 { "s" }' + NL + '.x = "{{ n }}"', []), ('n = if .a == 1 { "s" } else { 1 }' + NL + '.x = "{{ n }}"', [(103, 2, 1)]),
    ('n = .a' + NL + '.x = "a{{ n }}" ?? "b"', [], ["result string", '. {"x": string, ..json}', "n json"]), ('n = .a' + NL + '"a{{ n }}"', [(100, 2, 1)]), ('x = "{{ a }}{{ b }}"', [(701, 1, 9), (701, 1, 16)]),
    ('x = "{{ a }}{{ a }}"', [(701, 1, 9), (701, 1, 16)]), ('n = 1' + NL + '.x = upcase("é{{ n }}")', [(630, 2, 13)]), ('n = "s"' + NL + '.x = upcase("{{ n }}")', []), ('n = "s"' + NL + '.x = upcase!("{{ n }}")', [(620, 2, 6)]),
    ('n = "s"' + NL + '.x = "{{ n }}" ?? 1', [(651, 2, 6)]), ('n = 1' + NL + '.x, e = "{{ n }}"', [], ["result null", '. {"x": null, ..json}', "e string", "n integer"]), ('n = "s"' + NL + '.x, e = "{{ n }}"', [(104, 2, 1)]),
    ('n = .a' + NL + '.x, e = "{{ n }}"', [], ["result string", '. {"x": string, ..json}', "e string|null", "n json"]), ('n = "SHA-256"' + NL + '.x = sha2("a", variant: "{{ n }}")', [(1013, 2, 25)]), ('n = "a"' + NL + 'del("{{ n }}")', [(1013, 2, 5)]),
    ('n = "a"' + NL + '.x = sha2("a", variant: "SHA-\\{256")', [(1013, 2, 25)]), ('n = "a"' + NL + "exists(\"{{ n }}\")", [(1013, 2, 8)]), ('abort "{{ .a }}"', [(1016, 1, 7)]), ('n = "s"' + NL + 'abort "{{ n }}"', [], ["result never", ". never"]),
    ('n = 1' + NL + 'abort "{{ n }}"', [(1011, 2, 7)]), ('n = "s"' + NL + 'if "{{ n }}" { }', [(102, 2, 4)]), ('n = 1' + NL + 'if "{{ n }}" { }', [(1005, 2, 4)]), ('n = 1' + NL + 'if "{{ n }}" == "1" { }', [(1005, 2, 4)]), ('n = "s"' + NL + '!"{{ n }}"', [(660, 2, 1)]),
    ('n = "s"' + NL + '. = "{{ n }}"', [(1006, 2, 1)]), ('n = "s"' + NL + '. |= "{{ n }}"', [(652, 2, 6)]), ('.x = map_values(["a"]) -> |v| { "<{{ v }}>" }', [], ["result [string]", '. {"x": [string], ..json}']),
    ('for_each(.) -> |k, v| { %k = "{{ k }}={{ v }}" }', [(103, 1, 25)]), ('for_each(.) -> |k, v| { %k = "{{ k }}" }', []), ('for_each([1]) -> |k, v| { %k = "{{ k }}" }', [(103, 1, 27)]), ('{ n = "s" }' + NL + '.x = "{{ n }}"', [(701, 2, 10)]),
    ('if .a == 1 { n = "s" }' + NL + '.x = "{{ n }}"', [(701, 2, 10)]), ('abort' + NL + '.x = "{{ q }}"', []), ('n = r\'a\'' + NL + '.x = "{{ n }}"', [(103, 2, 1)]), ('n = now()' + NL + '.x = "{{ n }}"', [(103, 2, 1)]), ('_.a = 1' + NL + '.x = "{{ _ }}" ?? ""', []), ('.x = "{{ _ }}"', [(701, 1, 10)]),
    ('n = {}' + NL + 'x = "s"' + NL + '.x = "{{ x }}{{ n }}"', [(103, 3, 1)]), ('n = "s"' + NL + 'n = "{{ n }}{{ n }}"', [], ["result string", ". {..json}", "n string"]), ('n = "s"' + NL + '.x = {"a{{ n }}": 1}', [(203, 2, 7)]),
    # Places from the end that are written or deleted.
    ('x = [1,"s"]' + NL + "x[-1] = 2" + NL + ".r = x[1] + 1", [], ["result integer", '. {"r": integer, ..json}', "x [integer, integer]"]), ('x = [1,"s"]' + NL + "x[-3] = 2", [], ["result integer", ". {..json}", "x [..string|integer|null]"]),
    ('x = [1,"s"]' + NL + "x[-3] = 2" + NL + ".r = x[1] + 1", [(103, 3, 1)]), (".a[-1] = 1", [], ["result integer", '. {"a": [..json], ..json}']), ("x[-1] = 1", [], ["result integer", ". {..json}", "x [..any]"]), ("x = {}" + NL + "x.a[-2] = 1", [], ["result integer", ". {..json}", 'x {"a": [..integer|null]}']),
    ("x = []" + NL + "x[-1] = 1" + NL + ".r = x[0] + 1", [(103, 3, 1)]), ("x = if .a == 1 { [1] } else { [1, 2] }" + NL + "x[-1] = true", [], ["result boolean", ". {..json}", "x [..integer|boolean|null]"]),
    ("x = if .a == 1 { [1] } else { 2 }" + NL + "x[-1] = true", [], ["result boolean", ". {..json}", "x [..integer|boolean|null]"]), ("x = array(.a) ?? []" + NL + "x[-1] = t'2024-01-02T03:04:05Z'", [], ["result timestamp", ". {..json}", "x [..string|integer|boolean|null|timestamp|[..json]|{..json}]"]),
    ("x = [[1, 2], 3]" + NL + "x[-2][-1] = true", [], ["result boolean", ". {..json}", "x [[integer, boolean], integer]"]), ("x = [{\"a\": 1}]" + NL + "x[-1].b = true", [], ["result boolean", ". {..json}", 'x [{"a": integer, "b": boolean}]']),
    (".[-1] = 1", [], ["result integer", ". [..integer|null]"]), ("%[-1] = 1", []), ("x = [1]" + NL + "x[-1], e = .a + 1", [], ["result integer", ". {..json}", "e string|null", "x [integer]"]), ("x = [{}]" + NL + "x[-1] |= {\"a\": 1}", [(652, 2, 1)]),
    ("x = [1, true]" + NL + ".r = del(x[-1])", [], ["result integer|boolean|null", '. {"r": integer|boolean|null, ..json}', "x [integer]"]), ("x = [1, true]" + NL + "del(x[-3])", [], ["result integer|boolean|null", ". {..json}", "x [integer, boolean]"]),
    ("x = [\"s\", 1]" + NL + "del(x[-2])" + NL + ".r = x[0] + 1", []), ("x = [\"s\", 1]" + NL + "del(x[-1])" + NL + ".r = x[0] + 1", [(103, 3, 1)]), ("x = if .a == 1 { [1] } else { [1, true] }" + NL + "del(x[-1])", [], ["result integer|boolean|null", ". {..json}", "x [..integer|boolean]"]),
    ("x = if .a == 1 { [1] } else { 2 }" + NL + "del(x[-1])", [], ["result integer|null", ". {..json}", "x integer|[]"]), ("x = [[1, true]]" + NL + "del(x[-1][-2])", [], ["result integer|boolean|null", ". {..json}", "x [[boolean]]"]), ("del(.a[-1])", [], ["result json", ". {..json}"]), ("del(q[-1])", [(701, 1, 5)]),
    ("x = [{\"a\": 1}]" + NL + "del(x[-1].a)", [], ["result integer|null", ". {..json}", "x [{}]"]), ("x = [1]" + NL + "for_each([1]) -> |i, v| { x[-1] = \"s\" }", [], ["result null", ". {..json}", "x [..any]"]), ("x = [1]" + NL + "for_each([1]) -> |i, v| { x[-1] = 2 }", [], ["result null", ". {..json}", "x [integer]"]),
    ("x = [1]" + NL + "for_each([1]) -> |i, v| { x[-2] = 2 }", [], ["result null", ". {..json}", "x [..any]"]), (".a[-65537] = 1", [(1012, 1, 1)]), (".a[-65536] = 1", []),
]
# A script, and what `--check --envelope` prints.
METADATA_ROWS = [
    ("%n = 1", ["result integer", ". {..json}", '% {"n": integer, ..json}']), ("", ["result null", ". {..json}", "% {..json}"]),
    ("%a = 1" + NL + "del(%)" + NL + ".r = %a", ["result null", '. {"r": null, ..json}', "% {}"]), ("del(%)", ["result {..json}", ". {..json}", "% {}"]),
    ("del(%a)", ["result json", ". {..json}", '% {"a"?: never, ..json}']), ("{ %a = 1 }", ["result integer", ". {..json}", '% {"a": integer, ..json}']),
    ("%[0] = 1", ["result integer", ". {..json}", "% [integer]"]), ("x = exists(%)", ["result boolean", ". {..json}", "% {..json}", "x boolean"]), (". = [%]", ["result [{..json}]", ". [{..json}]", "% {..json}"]),
    ("for_each(%) -> |k, v| { %a = v }", ["result null", ". {..json}", "% {..json}"]), ("abort", ["result never", ". never"]),
    ("for_each([1]) -> |i, v| { %t = t'2024-01-02T03:04:05Z' }", ["result null", ". {..json}", "% {..any}"]),
    ("if .a == 1 { % = {} } else { %b = 1 }", ["result integer|{}", ". {..json}", '% {"b"?: integer, ..json}']),
    ("if .a == 1 { return % }" + NL + "% = {}", ["result {..json}", ". {..json}", "% {..json}"]),
]


def self_check():
    for row in ROWS:
        found = Verdict(row[0].encode())
        told = [DIAGNOSTIC.match(line).groups() for line in found.diagnostics]
        assert [tuple(int(n) for n in one) for one in told] == row[1], (row, found.diagnostics)
        if len(row) > 2:
            assert found.printed() == row[2], (row, found.printed())
    for script, printed in METADATA_ROWS:
        found = Verdict(script.encode())
        assert found.printed(True) == printed, (script, found.diagnostics, found.printed(True))
    known = kind_file(b'{"object":{"m":"string"},"rest":"nothing"}')
    assert Verdict(b'.m = upcase(.m) ?? "none"', known).diagnostics == ["warning[E651] 1:6 unnecessary error coalescing"]
    assert len(FUNCTIONS) == 85
    return len(ROWS) + len(METADATA_ROWS) + 2


def case_line(script, file, found):
    one = {"script": script, "kind": file, "diagnostics": found.diagnostics, "result": found.result, "end": found.end}
    one["ok"] = told_state(found.judged.ok) if found.judged else None
    one["ret"] = told_state(found.judged.ret) if found.judged else None
    one["empties"] = found.empties
    one["loops"] = [told_state(state) for state in found.loops]
    return json.dumps(one) + "\n"


def main():
    words = argparse.ArgumentParser(description="random scripts against a plain reading of the judgement")
    words.add_argument("--seed", type=int, default=1)
    words.add_argument("--count", type=int, default=5000)
    words.add_argument("--out")
    words.add_argument("--program")
    words.add_argument("--words", action="store_true")
    words.add_argument("--no-calls", action="store_true")
    words.add_argument("--hard", action="store_true")
    words.add_argument("--text")
    words.add_argument("--kind")
    words.add_argument("--envelope", action="store_true")
    words.add_argument("--show", type=int, default=10)
    given = words.parse_args()
    if given.text:
        start = EVENT
        if given.kind:
            with open(given.kind, "rb") as file:
                start = kind_file(file.read())
            if isinstance(start, str):
                print(start)
                return 6
        with open(given.text, "rb") as file:
            found = Verdict(file.read(), start)
        print("\n".join(found.diagnostics + found.printed(given.envelope)))
        return 0 if found.accepted else 1
    rows = self_check()
    rng = random.Random(given.seed)
    maker = some_scripts.Maker(rng, None if given.no_calls else some_calls)
    met, differences, accepted = {}, 0, 0
    out = open(given.out, "w") if given.out else None
    with programs.Program(given.program) if given.program else contextlib.nullcontext() as program:
        made, hard = 0, list(some_scripts.hard_scripts()) if given.hard else []
        while made < given.count or hard:
            script, file = (hard.pop(), None) if hard else (maker.script(), maker.kind_file())
            if given.program and not given.words:
                file = None
            found = Verdict(script.encode(), start_of(file))
            # Scripts that are refused come by themselves; those that are accepted are looked for.
            if not found.accepted and not hard and rng.random() < 0.6:
                continue
            made += 1
            accepted += found.accepted
            for _, _, code in (found.codes if found.judged else []):
                met[code] = met.get(code, 0) + 1
            if out:
                out.write(case_line(script, file, found))
            if given.program:
                envelope = rng.random() < 0.7
                printed = found.printed(envelope) if given.words else []
                wanted = programs.joined(printed), programs.joined(found.diagnostics), 0 if found.accepted else 1
                told = program.run(script.encode(), words=["--check", *program.words_of(file, envelope=envelope)] if given.words else ())
                if told != wanted:
                    differences += 1
                    if differences <= given.show:
                        print("difference on", repr(script), "kind", json.dumps(file), "\n  wanted", wanted, "\n  got", told)
    if out:
        out.close()
    codes = ", ".join(f"{met[code]} of {code}" for code in sorted(met))
    compared = f"{differences} differences" if given.program else "no program given"
    print(f"judgement: seed {given.seed}, {rows} rows, {made} scripts ({accepted} accepted; {codes}): {compared}")
    return 1 if differences else 0


if __name__ == "__main__":
    sys.exit(main())
