"""Random trial of the meaning: what accepted scripts do to lines.

    python3 trials/meaning.py [--seed N] [--count N] [--seconds N] [--no-calls] [--program PATH [--words] [--refused] [--jobs N]] [--show N]
    python3 trials/meaning.py --text FILE [--kind FILE] [--drop-on-error] [--keep-on-abort] [--envelope] < LINES
    python3 trials/meaning.py --text FILE --generate COUNT:SEED

The second form runs a script over the lines of standard input and prints what it writes, then its report; the third
runs it over made lines and prints the summary. The first
makes accepted scripts and lines at random. Each run is held against the judgement of its script: it must not end with
an error that nothing handles, its value must inhabit the script's kind, and its event, metadata and variables those of the
joined state. With --program the bytes and the status of `PATH SCRIPTFILE < LINES` are compared, of half of the scripts with `--envelope`. Then the script is made to write its value, the event and the variables
into the event, at its end and at each `return`, and what the program leaves so is held against the kinds that were judged
for the script. With --words, too, the program takes `--kind FILE` and the two other flags. With --refused the scripts that are
refused go through the program as well. With --jobs each run of the program has so many workers. It ends after --count accepted scripts, or --seconds. Where there is a program, `now` isn't called: `generate.py` does that.
"""

import argparse
import contextlib
import json
import random
import sys
import time

sys.dont_write_bytecode = True

import judgement
import programs
import some_calls
import some_scripts
from reading import grammar, json_lines, kinds, urls
from reading.functions import ROWS as FUNCTIONS
from reading.judgement import Verdict
from reading.kind_files import kind_file, start_of
from reading.meaning import EMPTY, Run
from reading.moments import moment_text, read_moment
from reading.runs import made_lines, run_lines, summary
from reading.values import plain
from some_lines import some_lines
from soundness import Unsound, try_what_is_left, watcher

NL = "\n"
# A script, the lines, what is written, what is reported, and options.
ROWS = [
    (".x = 1", "{}", ['{"x":1}'], []), (".b = -2", '{"c":1}', ['{"b":-2,"c":1}'], []),
    (".y = .a + 1 ?? 0", '{"a":2}', ['{"a":2,"y":3}'], []),
    (".y = .a + 1 ?? 0", '{"a":"q"}', ['{"a":"q","y":0}'], []), (".y = .m", "{}", ['{"y":null}'], []),
    (".y = 1 ?? 2", "{}", ['{"y":1}'], ["warning[E651] 1:6 unnecessary error coalescing"]),
    ('.b = "t"' + NL + ".b = -2", '{"c":1}', ['{"b":-2,"c":1}'], []),
    (".a[2] = 1", '{"a":"t"}', ['{"a":[null,null,1]}'], []), ('. = [{"a":1},{"a":2}]', "{}", ['{"a":1}', '{"a":2}'], []),
    (". = []", "{}", [], []),
    (".n = 9223372036854775807 + 1", "{}", ['{"n":-9223372036854775808}'], []),
    (".x = 1", '{"p":1.5}' + NL + "{" + NL + NL + '{"a":1}', ['{"a":1,"x":1}'], ["line 1: refused: not whole numbers", "line 2: refused: not JSON"]),
    ('.a = 1' + NL + 'abort "no"', '{"a":"q"}', [], ['line 1: aborted: "no"']),
    ('.a = 1' + NL + 'abort "no"', '{"a":"q"}', ['{"a":"q"}'], ['line 1: aborted: "no"'], {"keep": True}),
    ('.v, .e = .x - 1', '{"x":"q"}', ['{"e":"cannot apply - to string and integer","v":0,"x":"q"}'], []),
    ("", '{"b":1,"a":2}', ['{"a":2,"b":1}'], []), ("", '{"a":1,"a":2}', ['{"a":2}'], []),
    (".x = 1", "[1]" + NL + "{}", ['{"x":1}'],
     ["line 1: refused: not of the declared kind"]),
    (".t = t'2024-01-02T03:04:05.5+01:00'", "{}", ['{"t":"2024-01-02T02:04:05.500Z"}'], []),
    (".p = r'a+'", "{}", ['{"p":"a+"}'], []),
    ('x = 1' + NL + '.r = ({ x = "s"; .a + 1 }) ?? 0' + NL + ".s = x", '{"a":"q"}', ['{"a":"q","r":0,"s":"s"}'], []),
    (".n = .n + 1 ?? 0", '{"n":4}' + NL + "{}", ['{"n":5}', '{"n":0}'], []),
    ('if .level == "E" { abort }', '{"level":"E"}', [], ["line 1: aborted"]),
    (".x = 1", "a" * 1048577, [], ["line 1: refused: longer than 1048576 bytes"]),
    # Calls.
    ('.x, err = to_int(.x)' + NL + ".y = .x + 1", '{"x":"7"}' + NL + '{"x":"q"}', ['{"x":7,"y":8}', '{"x":0,"y":1}'], []),
    ("if !is_string(.m) { abort }" + NL + ".m = upcase!(.m)", '{"m":"a"}' + NL + '{"m":3}', ['{"m":"A"}'], ["line 2: aborted"]),
    ('.m = upcase(.m) ?? "none"', '{"m":3}', ['{"m":"none"}'], []),
    ("n = 0" + NL + "for_each(.) -> |k, v| { n = n + 1 }" + NL + ".n = n", '{"a":1,"b":2}', ['{"a":1,"b":2,"n":2}'], []),
    ("a = []" + NL + "for_each(.) -> |k, v| { a = push(a, k) }" + NL + ".keys = a", '{"a":1,"b":2}', ['{"a":1,"b":2,"keys":["a","b"]}'], []),
    ('x = {"a":1}' + NL + "del(x.a)" + NL + ".r = x.a", "{}", ['{"r":null}'], []),
    ("x = to_int!(.a)", '{"a":"q"}', ['{"a":"q"}'], ['line 1: error: "to_int: not a whole number"']),
    ("x = to_int!(.a)", '{"a":"q"}', [], ['line 1: error: "to_int: not a whole number"'], {"drop": True}),
    ('x = null' + NL + 'for_each(array!(.l)) -> |i, v| { x = {"a": x} }', '{"l":[' + ",".join("0" * 128) + "]}", ['{"l":[' + ",".join("0" * 128) + "]}"], []),
    ('x = null' + NL + 'for_each(array!(.l)) -> |i, v| { x = {"a": x} }', '{"l":[' + ",".join("0" * 129) + "]}", ['{"l":[' + ",".join("0" * 129) + "]}"],
     ["line 1: error: nested deeper than 128"]),
    ("parsed, err = parse_json(.message)" + NL + ". = . | (object(parsed) ?? {})" + NL + "del(.message)" + NL +
     '.level = downcase(.level) ?? "info"' + NL + '.at = parse_timestamp(.ts, format: "%+") ?? now()',
     '{"host":"a","message":"{\\"level\\":\\"WARN\\",\\"n\\":3,\\"ts\\":\\"2024-05-06T07:08:09Z\\"}"}' + NL + '{"host":"b","message":"plain"}',
     ['{"at":"2024-05-06T07:08:09Z","host":"a","level":"warn","n":3,"ts":"2024-05-06T07:08:09Z"}',
      '{"at":"2024-05-06T10:00:00Z","host":"b","level":"info"}'], [], {"moments": [1714989600 * 10 ** 9] * 2}),
    (". = parse_json!(.message)", '{"message":"{\\"a\\":1}"}' + NL + '{"message":"3"}', ['{"a":1}', "3"], []),
    (".v, .e = to_int(.x)", '{"x":"q"}', ['{"e":"to_int: not a whole number","v":0,"x":"q"}'], []),
    (".v, .e = upcase(.x)", '{"x":3}', ['{"e":"upcase: argument value is integer","v":"","x":3}'], []),
    ("if exists(.q) { return 1 }" + NL + ".r = 2", '{"q":0}' + NL + "{}", ['{"q":0}', '{"r":2}'], []),
    ('.k = filter({"a":1,"b":2}) -> |k, v| { v > 1 }', "{}", ['{"k":{"b":2}}'], []),
    (".k = map_values([1,2]) -> |v| { v * 2 }", "{}", ['{"k":[2,4]}'], []),
    ('.k = map_keys({"a":1}) -> |k| { upcase(k) }', "{}", ['{"k":{"A":1}}'], []),
    ('.r = split("a,b", ",")[1]', "{}", ['{"r":"b"}'], []),
    ('.r = slice!("abcd", 3, 2)', "{}", ["{}"], ['line 1: error: "slice: out of range"']),
    ('x = push([1], "a")' + NL + '.r = x[1] + "b"', "{}", ['{"r":"ab"}'], []),
    ('.r = merge({"a":1}, {"a":"s"}).a + "t"', "{}", ['{"r":"st"}'], []), (".x = to_int!(.a) ?? 0", '{"a":"q"}', ['{"a":"q"}'],
     ["warning[E651] 1:6 unnecessary error coalescing", 'line 1: error: "to_int: not a whole number"']),
    ('x = 1' + NL + '.r = ({ x = "s"; to_int(.a) }) ?? 0' + NL + ".s = x", '{"a":"q"}', ['{"a":"q","r":0,"s":"s"}'], []),
    ("k = 5" + NL + "for_each([7]) -> |k, _| { .i = k }" + NL + ".k = k", "{}", ['{"i":0,"k":5}'], []),
    ("for_each({}) -> |k, v| { .x = q }", "{}", ["{}"], []),
    ('.r = unflatten({"a.a.a": .d})', '{"d":' + "[" * 126 + "]" * 126 + "}", ['{"d":' + "[" * 126 + "]" * 126 + "}"], ["line 1: error: nested deeper than 128"]),
    (". = . | {\"b\": 2}", '{"a":1,"b":1}', ['{"a":1,"b":2}'], []), (".r = .a[-1]", '{"a":[1,2]}', ['{"a":[1,2],"r":2}'], []),
    # The metadata, and envelopes.
    (".m = %source", '{"event":{"a":1},"metadata":{"source":"s"}}', ['{"event":{"a":1,"m":"s"},"metadata":{"source":"s"}}'], [], {"envelope": True}),
    ("%n = 1" + NL + ".k = %n + 1", "{}", ['{"k":2}'], []), ("%a = 1" + NL + "del(%)" + NL + ".r = %a", "{}", ['{"r":null}'], []),
    (".x = 1", '{"event":{}}', [], ["line 1: refused: not an envelope"], {"envelope": True}),
    (".m = %", '{"metadata":{"b":1,"a":2},"event":{}}', ['{"event":{"m":{"a":2,"b":1}},"metadata":{"a":2,"b":1}}'], [], {"envelope": True}),
    (". = [1, {}]" + NL + "%k = .[0]", '{"event":{},"metadata":{}}', ['{"event":1,"metadata":{"k":1}}', '{"event":{},"metadata":{"k":1}}'], [], {"envelope": True}),
    (". = []", '{"event":{},"metadata":{}}', [], [], {"envelope": True}),
    ("%a = 1" + NL + ".b = 2" + NL + "int!(.n)", '{"event":{"n":"q"},"metadata":{"m":0}}', ['{"event":{"n":"q"},"metadata":{"m":0}}'],
     ['line 1: error: "int: value is string"'], {"envelope": True}),
    ("%a = 1" + NL + "abort", '{"event":{"n":"q"},"metadata":{"m":0}}', ['{"event":{"n":"q"},"metadata":{"m":0}}'], ["line 1: aborted"], {"envelope": True, "keep": True}),
    ("%a = 1" + NL + "if .n == 0 { return 7 }" + NL + "del(%)", '{"event":{"n":0},"metadata":{}}' + NL + '{"event":{"n":1},"metadata":{"m":0}}',
     ['{"event":{"n":0},"metadata":{"a":1}}', '{"event":{"n":1},"metadata":{}}'], [], {"envelope": True}),
    ("% = .a", '{"event":{"a":3},"metadata":{}}', ['{"event":{"a":3},"metadata":3}'], [], {"envelope": True}),
    ("%t = t'2024-01-02T03:04:05Z'" + NL + "%p = r'a+'", '{"event":{},"metadata":{}}', ['{"event":{},"metadata":{"p":"a+","t":"2024-01-02T03:04:05Z"}}'], [], {"envelope": True}),
    (".x = 1", NL.join(['{"event":3,"metadata":{}}', '{"event":{},"metadata":[]}', '{"event":{},"metadata":{},"a":1}', "[]", "{}", '{"event":{"a":1.5},"metadata":{}}', " ",
                        '{"event":[],"metadata":{}}', '{"event":{},"metadata":{},"metadata":{"a":1}}', '{"event":{},"metadata":1,"metadata":{}}', "3"]),
     ['{"event":{"x":1},"metadata":{"a":1}}', '{"event":{"x":1},"metadata":{}}'],
     ["line 1: refused: not of the declared kind"] + [f"line {number}: refused: not an envelope" for number in (2, 3, 4, 5)] +
     ["line 6: refused: not whole numbers", "line 8: refused: not of the declared kind", "line 11: refused: not an envelope"], {"envelope": True}),
    ("k = 1" + NL + "for_each(%) -> |k, v| { .k = k; % = {}; %x = v }" + NL + ".l = k", '{"event":{},"metadata":{"a":1,"b":2}}', ['{"event":{"k":"b","l":1},"metadata":{"x":2}}'], [], {"envelope": True}),
    ("x = {\"a\": %}" + NL + "%b = {\"a\": %}", '{"event":{},"metadata":{"d":' + "[" * 125 + "]" * 125 + "}}", ['{"event":{},"metadata":{"b":{"a":{"d":' + "[" * 125 + "]" * 125 + '}},"d":' + "[" * 125 + "]" * 125 + "}}"], [],
     {"envelope": True}),
    ("x = null" + NL + "for_each(array!(.l)) -> |i, v| { % = {\"a\": %} }", '{"event":{"l":[' + "0," * 127 + '0]},"metadata":{}}', ['{"event":{"l":[' + "0," * 127 + '0]},"metadata":{}}'],
     ["line 1: error: nested deeper than 128"], {"envelope": True}),
    # Templates.
    ('n = "b"' + NL + '.x = "a{{ n }}c"', "{}", ['{"x":"abc"}'], []), ('.x = "\\{{ a }}"', "{}", ['{"x":"{{ a }}"}'], []), ('n = null' + NL + '.x = "{{ n }}"', "{}", ['{"x":""}'], []), ('n = "é\\n"' + NL + '.x = "{{n}}\\t{{ n }}"', "{}", ['{"x":"é\\n\\té\\n"}'], []),
    ('n = .a' + NL + '.x, .e = "<{{ n }}>"', NL.join(['{"a":"s"}', '{"a":null}', "{}", '{"a":1}', '{"a":["s"]}']),
     ['{"a":"s","e":null,"x":"<s>"}', '{"a":null,"e":null,"x":"<>"}', '{"e":null,"x":"<>"}', '{"a":1,"e":"cannot apply + to string and integer","x":""}', '{"a":["s"],"e":"cannot apply + to string and array","x":""}'], []),
    ('a = "\\{\\{"; b = "\\{{ a }}"' + NL + '.x = "{{ a }}{{ b }}"', "{}", ['{"x":"{{{{ a }}"}'], []),
    ('.k = map_values(["a", "b"]) -> |v| { "<{{ v }}>" }', "{}", ['{"k":["<a>","<b>"]}'], []), ('.k = map_keys(.) -> |k| { "x_{{ k }}" }', '{"a":1,"b":2}', ['{"a":1,"b":2,"k":{"x_a":1,"x_b":2}}'], []),
    ('n = "no"' + NL + 'abort "{{ n }} host"', "{}", [], ['line 1: aborted: "no host"']), ('."\\{{" = 1' + NL + '.b = ."{{"', "{}", ['{"b":1,"{{":1}'], []), ('n = string!(.n)' + NL + '.x = "{{ n }}"', '{"n":1}', ['{"n":1}'], ['line 1: error: "string: value is integer"']),
    # Places from the end that are written or deleted.
    (".a = [1,2,3]" + NL + ".a[-2] = 9", "{}", ['{"a":[1,9,3]}'], []), (".a = [1]" + NL + ".a[-2] = 9", "{}", ['{"a":[9,1]}'], []), (".a = [1,2]" + NL + "del(.a[-1])", "{}", ['{"a":[1]}'], []),
    ('x = [1,"s"]' + NL + "x[-1] = 2" + NL + ".r = x[1] + 1", "{}", ['{"r":3}'], []), (".a[-1] = 1", '{"a":"t"}', ['{"a":[1]}'], []), (".a[-3] = 1", NL.join(["{}", '{"a":[7]}', '{"a":[7,8,9]}', '{"a":[6,7,8,9]}', '{"a":{"b":1}}']),
     ['{"a":[1,null,null]}', '{"a":[1,null,7]}', '{"a":[1,8,9]}', '{"a":[6,1,8,9]}', '{"a":[1,null,null]}'], []),
    (".r = del(.a[-2])", NL.join(["{}", '{"a":[7]}', '{"a":[7,8]}', '{"a":[6,7,8]}', '{"a":"t"}']), ['{"r":null}', '{"a":[7],"r":null}', '{"a":[8],"r":7}', '{"a":[6,8],"r":7}', '{"a":"t","r":null}'], []),
    (".a[-1].b[-2] = 1", NL.join(['{"a":[{"b":[5,6,7]},{"b":[8]}]}', '{"a":[[]]}', '{"a":[]}']), ['{"a":[{"b":[5,6,7]},{"b":[1,8]}]}', '{"a":[{"b":[1,null]}]}', '{"a":[{"b":[1,null]}]}'], []),
    ("del(.a[-1].b[-2])", NL.join(['{"a":[{"b":[5,6,7]},{"b":[8,9]}]}', '{"a":[{"b":[5]}]}', '{"a":[]}']), ['{"a":[{"b":[5,6,7]},{"b":[9]}]}', '{"a":[{"b":[5]}]}', '{"a":[]}'], []),
    (".[-1] = {\"a\": 1}", "{}", ['{"a":1}'], []), ("x = [[1, 2], [3]]" + NL + "x[-1][-1] = [4]" + NL + "x[-3] = 0" + NL + ".r = x", "{}", ['{"r":[0,[1,2],[[4]]]}'], []), ("%t[-2] = 1", '{"event":{},"metadata":{"t":[3]}}', ['{"event":{},"metadata":{"t":[1,3]}}'], [], {"envelope": True}),
    ("x = []" + NL + "for_each([1, 2, 3]) -> |i, v| { x[-1] = v; y = length(x); .n = y }" + NL + ".r = x", "{}", ['{"n":1,"r":[3]}'], []), ("q[-2] = 1" + NL + ".r = q", "{}", ['{"r":[1,null]}'], []), (".a[-1], .e = .b + 1", '{"a":[1,2],"b":"q"}', ['{"a":[1,0],"b":"q","e":"cannot apply + to string and integer"}'], []),
    (".a[-1] = (object(.a[-1]) ?? {}) | {\"b\": 1}", '{"a":[{"c":2}]}' + NL + '{"a":[]}', ['{"a":[{"b":1,"c":2}]}', '{"a":[{"b":1}]}'], []),
    (".a[-1] = .", '{"a":' + "[" * 125 + "]" * 125 + "}", ['{"a":[{"a":' + "[" * 125 + "]" * 125 + "}]}"], []),
    (".a[-1] = .", '{"a":' + "[" * 126 + "]" * 126 + "}", ['{"a":' + "[" * 126 + "]" * 126 + "}"], ["line 1: error: nested deeper than 128"]),
]


def self_check():
    for script, lines, output, report, *options in ROWS:
        found = Verdict(script.encode())
        assert found.accepted, (script, found.diagnostics)
        got = run_lines(found, kinds.EVENT, lines.encode(), watch=watcher(found, kinds.EVENT), **(options[0] if options else {}))
        assert got[:2] == (output, report), (script, got)
        assert got[2] == (7 if any("refused" in line for line in report) else 0)
    known = kind_file(b'{"object":{"m":"string"},"rest":"nothing"}')
    warning = "warning[E651] 1:6 unnecessary error coalescing"
    found = Verdict(b'.m = upcase(.m) ?? "none"', known)
    assert run_lines(found, known, b'{"m":"a"}') == (['{"m":"A"}'], [warning], 0)
    assert run_lines(found, known, b'{"m":3}') == ([], [warning, "line 1: refused: not of the declared kind"], 7)
    made = ['{"host":"h6","level":"ERROR","message":"request 1 took 543 ms","n":774}']
    assert list(made_lines(1, 1)) == made
    for script, told in ((".x = 1", ["lines 1", "written 1", "errors 0", "aborted 0", "refused 0", "bytes 78"]),
                         ('if .level == "ERROR" { abort }', ["lines 1", "written 0", "errors 0", "aborted 1", "refused 0", "bytes 0",
                          "sha256 e3b0c44298fc1c149afbf4c8996fb92427ae41e4649b934ca495991b7852b855"])):
        assert summary(Verdict(script.encode()), kinds.EVENT, 1, 1)[0][:len(told)] == told
    for call, want in some_calls.EXAMPLES:
        script = grammar.read(call.encode())
        word, held = Run(script, {}, EMPTY["object"]).end()
        got = json_lines.write(plain(held, [token.value for token in script.patterns])) if word == "value" else held
        assert got == want, (call, got)
        kind = Verdict(call.encode()).judged.kind
        assert kinds.inhabits(held, kind), (call, held, kinds.print_kind(kind))
    for one in ("2024-02-29T00:00:00Z", "0000-01-01T00:00:00Z", "9999-12-29T23:59:59.000001Z", "1969-12-31T23:59:59.999999999Z", "2000-12-31T12:00:00.120Z"):
        assert moment_text(read_moment(one)) == one
    return len(ROWS) + 10 + len(some_calls.EXAMPLES) + judgement.self_check()


def main():
    words = argparse.ArgumentParser(description="random runs against a plain reading of the meaning")
    words.add_argument("--seed", type=int, default=1)
    words.add_argument("--count", type=int, default=3000)
    words.add_argument("--seconds", type=float, default=float("inf"))
    words.add_argument("--program")
    words.add_argument("--words", action="store_true")
    words.add_argument("--no-calls", action="store_true")
    words.add_argument("--refused", action="store_true")
    words.add_argument("--jobs", type=int)
    words.add_argument("--text")
    words.add_argument("--kind")
    words.add_argument("--generate")
    words.add_argument("--drop-on-error", action="store_true")
    words.add_argument("--keep-on-abort", action="store_true")
    words.add_argument("--envelope", action="store_true")
    words.add_argument("--show", type=int, default=10)
    given = words.parse_args()
    given.refused = given.refused and given.program
    if given.text:
        start = kinds.EVENT
        if given.kind:
            with open(given.kind, "rb") as file:
                start = kind_file(file.read())
        with open(given.text, "rb") as file:
            found = Verdict(file.read(), start)
        if not found.accepted:
            print("\n".join(found.diagnostics))
            return 1
        if given.generate:
            lines, status = summary(found, start, *[int(one) for one in given.generate.split(":")])
            print("\n".join(lines + found.diagnostics))
            return status
        output, report, status = run_lines(found, start, sys.stdin.buffer.read(), given.drop_on_error, given.keep_on_abort, given.envelope)
        print("\n".join(output + report))
        return status
    rows = self_check()
    rng = random.Random(given.seed)
    maker = some_scripts.Maker(rng, None if given.no_calls else some_calls)
    met, differences, made, refused, lines, left = {}, 0, 0, 0, 0, 0
    always = [f"--jobs={given.jobs}"] if given.jobs else []
    with programs.Program(given.program, always) if given.program else contextlib.nullcontext() as program:
        if program:
            maker.names = [name for name in sorted(FUNCTIONS) if name != "now"]
        end = time.monotonic() + given.seconds
        while made < given.count and time.monotonic() < end:
            script, file = maker.script(), maker.kind_file()
            if given.program and not given.words:
                file = None
            start = start_of(file)
            found = Verdict(script.encode(), start)
            if not found.accepted:
                if given.refused:
                    refused += 1
                    told = program.run(script.encode(), words=program.words_of(file))
                    if told != (b"", programs.joined(found.diagnostics), 1):
                        differences += 1
                        if differences <= given.show:
                            print("difference on", repr(script), "\n  wanted", found.diagnostics, "\n  got", told)
                continue
            made += 1
            options = {"drop": rng.random() < 0.3, "keep": rng.random() < 0.3} if given.words or not given.program else {}
            options["envelope"] = rng.random() < 0.5
            data = some_lines(rng, start, options["envelope"])
            check = watcher(found, start)

            def watch(run, word, held):
                met[word] = met.get(word, 0) + 1
                check(run, word, held)
            try:
                wanted = run_lines(found, start, data, watch=watch, **options)
            except Unsound as one:
                differences += 1
                if differences <= given.show:
                    print("not sound:", one, "on", repr(script), "kind", json.dumps(file), "lines", data)
                continue
            except urls.Unknown:
                continue
            lines += len(data.split(b"\n"))
            if given.program:
                told = program.run(script.encode(), data, program.words_of(file, **options))
                if told != (programs.joined(wanted[0]), programs.joined(wanted[1]), wanted[2]):
                    differences += 1
                    if differences <= given.show:
                        print("difference on", repr(script), "kind", json.dumps(file), options, "lines", data, "\n  wanted", wanted, "\n  got", told)
                elif not given.words:
                    held, wrong = try_what_is_left(program, found, start, data, options["envelope"])
                    left += held
                    differences += wrong is not None
                    if wrong and differences <= given.show:
                        print("difference in what is left:", wrong)
    ends = ", ".join(f"{met[word]} {word}" for word in sorted(met))
    compared = f"{differences} differences, {left} ends held against their kinds, {refused} refused" if given.program else f"{differences} not sound"
    print(f"meaning: seed {given.seed}, {rows} rows, {made} scripts over {lines} lines (ends: {ends}): {compared}")
    return 1 if differences else 0


if __name__ == "__main__":
    sys.exit(main())
