"""Hostile uses of a built program: scripts, lines, kind files, words and devices at each limit and beyond it.

    python3 trials/hostile.py --program PATH [--only WORD] [--big]

What a script makes of its lines is told by the outside reading of the other trials; what else is wanted stands with the case. A use may take two
processor seconds, or as many as stand with it and its reason in `DEAR`; those that take more than one are told with them. The status is 1 at a difference. --big runs the cases of 200 MB too.
"""

import argparse
import os
import resource
import subprocess
import sys

sys.dont_write_bytecode = True

import programs
from reading.judgement import Verdict
from reading.kind_files import kind_file
from reading.kinds import EVENT
from reading.runs import run_lines

LONGEST = 65536
LINE = 1048576
BAD_KIND = b"kind file: bad kind at \n"
USAGE = b"usage: remap SCRIPT [--kind FILE] [--jobs N] [--drop-on-error] [--keep-on-abort] [--envelope] [--check] [--generate COUNT:SEED]\n"


def filled(piece, end=""):
    """As many pieces as a script holds, and the end."""
    return piece * ((LONGEST - len(end.encode())) // len(piece.encode())) + end


def scripts():
    """Titles, scripts and lines, for all of which the outside reading has the answer."""
    for size in (LONGEST, LONGEST + 1):
        yield f"a script of {size} bytes", ".a = 1" + " " * (size - 6), b"{}"
        yield f"a text in a script of {size} bytes", '.x = "' + "a" * (size - 7) + '"', b"{}"
    for title, script in (
            ("a comment", "#" + "c" * (LONGEST - 1)), ("newlines", "\n" * LONGEST), ("semicolons", ";" * LONGEST), ("opening braces", "{" * LONGEST),
            ("closing braces", "}" * LONGEST), ("opening parentheses", "(" * LONGEST), ("opening brackets", "[" * LONGEST), ("quotes", '"' * LONGEST),
            ("signs", "!" * LONGEST), ("minus signs", "-" * LONGEST), ("bars", "|" * LONGEST), ("commas", "," * LONGEST), ("dots", "." * LONGEST),
            ("percent signs", "%" * LONGEST), ("a field of the metadata", "%" + "x" * 65531 + " = 1"), ("writes of the metadata", filled("%a=1;")), ("removals of the metadata", filled("del(%);")),
            ("backslashes", "\\" * LONGEST), ("escapes", '.x = "' + "\\\\" * 32764 + '"'), ("escaped braces", '.x = "' + "\\{" * 32764 + '"'), ("braces in a text", '.x = "' + "{" * 65529 + '"'),
            ("templates in a text", 'x = "' + "{{x}}" * 13105 + '"'), ("a template that is all blanks", 'x = "{{' + " " * 65520 + '}}"'), ("a template with many blanks", 'x = ""; .x = "{{' + " " * 65500 + 'x}}"'),
            ("a template with a long name", 'x = "{{' + "x" * 65520 + '}}"'), ("a template that doesn't close", 'x = "{{ x' + " " * 65520), ("texts with templates", 't = "s";' + '.x="a{{t}}";' * 5400),
            ("texts with 31 templates", 't = "s";' + ('.x="' + "{{t}}" * 31 + '";') * 400), ("writes of the last place", filled(".a[-1]=1;")), ("removals of the last place", filled("del(.a[-1]);")),
            ("writes in front of an array", "".join(f".a[-{i}]=1;" for i in range(1, 5000))), ("writes in front of a variable", "x=[];" + "".join(f"x[-{i}]={i};" for i in range(1, 4000)) + ".x = x"), ("a raw text", ".x = s'" + "\\'" * 32764 + "'"),
            ("digits", ".x = " + "9" * 65531), ("zeros", ".x = " + "0" * 65530 + "7"), ("digits with low lines", ".x = " + "0_" * 32765 + "7"),
            ("a name", "x" * 65532 + " = 1"), ("a field", "." + "x" * 65531 + " = 1"), ("a name that isn't known", "x" * LONGEST),
            ("a read of 32,000 steps", ".x = " + ".a" * 32000), ("a read of 21,000 places", ".x = ." + "[0]" * 21000),
            ("a write of 32,000 steps", ".a" * 32000 + " = 1"), ("letters of three bytes", filled("\u6f22")), ("a text of letters of three bytes", '.x = "' + "\u6f22" * 21840 + '" + q'),
            ("items", filled(".a=1;")), ("variables", "".join(f"a{i}=1;" for i in range(7300))), ("error assignments", filled("a,b=.c+1;")),
            ("an array", ".x = [" + filled("1,", " " * 10 + "]")), ("an array of texts", ".x = [" + filled('"",', " " * 10 + "]")),
            ("an object", ".x = {" + "".join(f'"{i}":{i},' for i in range(5200)) + "}"), ("an object of one name", ".x = {" + filled('"a":1,', " " * 10 + "}")),
            ("arguments", "abs(" + filled("1,", " " * 10 + ")")), ("branches", "if .a==0{}" + filled("else if .a==1{.b=1}")),
            ("conditions", filled("if .a==1{.b=1};")), ("blocks", filled("{.a=1};")), ("chains of coalescing", filled(".b=.a+1??.a-1??0;")),
            ("timestamps", filled("t'2024-01-02T03:04:05Z';")), ("calls", filled("exists(.a);")), ("error codes", filled(".a+1;")), ("unknown names", filled("q;")),
            ("warnings", filled(".a??1;")), ("removals", filled("del(.a[0]);")), ("aborts", filled("abort;")), ("events", ". = [" + filled("{},", " " * 10 + "]"))):
        yield f"a script of {title}", script, b'{"a":2}\n{}'
    for many in (255, 256, 257):
        yield f"{many} regex literals", "\n".join(["r'a'"] * many), b"{}"
    for depth in (1, 31, 32, 33, 61, 62, 63, 64, 65, 66, 1000):
        for title, script in (
                ("parentheses", "(" * depth + "1" + ")" * depth), ("brackets", "[" * depth + "]" * depth), ("blocks", "{" * depth + "1" + "}" * depth),
                ("objects", '{"a":' * depth + "1" + "}" * depth), ("negations", "!" * depth + "true"), ("conditions", "if true {" * depth + "}" * depth),
                ("assignments", "x = " * depth + "1"), ("sums", " + ".join(["1"] * (depth + 1))), ("coalescing", ".a + 1" + " ?? .a + 1" * depth + " ?? 0"),
                ("aborts", "abort " * depth + '"m"'), ("returns", "return " * depth + "1"), ("calls", "abs(" * depth + "1" + ")" * depth),
                ("closures", "filter([1]) -> |a, b| { " * depth + "true" + " }" * depth), ("alternatives", "null || " * depth + "1"), ("merges", "{} | " * depth + "{}")):
            yield f"{depth} {title}", ".r = " + script if title not in ("aborts", "returns") else script, b"{}"
    for many in (1, 29, 30, 31, 32, 33, 1000):
        text = '"' + "{{t}}" * many + '"'
        for title, script in (("alone", text), ("assigned", ".r = " + text), ("in parentheses", ".r = (" + text + ")"), ("beside a sum", '.r = "" + ' + text), ("in a call", ".r = upcase(" + text + ")"), ("as a name", ".r = {" + text + ": 1}"),
                              ("in a closure", ".r = map_values([1]) -> |_| { " + text + " }")):
            yield f"a text with {many} templates, {title}", "t = string(.t) ?? \"s\"\n" + script, b'{}\n{"t":"\\u00e9{"}'
    for depth in (3, 4, 5):
        yield f"{depth} closures in one another", "for_each([1]) -> |_, a| { " * depth + ".r = a" + " }" * depth, b"{}"
    for place in (65535, 65536, 9223372036854775807, 9223372036854775808):
        yield f"a write at the place {place}", f".a[{place}] = 1", b"{}"
        yield f"a read of the place {place}", f".r = .a[{place}]", b"{}"
        yield f"a removal of the place {place}", f"del(.a[{place}])", b'{"a":[1]}'
    for place in (-1, -2, -3, -65535, -65536, -65537, -9223372036854775808, -9223372036854775809):
        yield f"a write at the place {place}", f".a[{place}] = 1", b'{}\n{"a":"t"}\n{"a":[]}\n{"a":[1]}\n{"a":[1,2]}\n{"a":[1,2,3]}\n{"a":{"b":1}}'
        yield f"a removal of the place {place}", f"del(.a[{place}])", b'{}\n{"a":"t"}\n{"a":[]}\n{"a":[1]}\n{"a":[1,2]}\n{"a":[1,2,3]}\n{"a":{"b":1}}'
        yield f"a read of the place {place}", f".r = .a[{place}]", b'{"a":[1,2]}'
    for steps in (127, 128, 129):
        yield f"a write of {steps} steps", ".a" * steps + " = 1", b"{}\n{"
        yield f"a write of an object at {steps} steps", ".a" * steps + " = {}", b'{"b":1}'
        yield f"a write of {steps} places from the end", "x" + "[-1]" * steps + " = 1\n.x = x", b"{}"
        yield f"a removal of {steps} steps", ".a" * (steps - 1) + " = {\"a\": 1}\ndel(" + ".a" * steps + ")", b"{}"
    for depth in (126, 127, 128, 129):
        data = b'{"a":' + b"[" * (depth - 1) + b"]" * (depth - 1) + b"}"
        for title, script in (("as it is", ""), ("written beside itself", ".b = .a"), ("in an array", ". = [.]"), ("in an object", ".b = ."), ("in a variable", "x = {\"e\": .}"),
                              ("twice in an array", ". = [[.]]"), ("by a call", "x = array!(.a)"), ("to its text", ".t = is_empty(.a) ?? true")):
            yield f"an event {depth} deep, {title}", script, data
    for size in (126, 127, 128, 129):
        yield f"a variable nested by {size} writes", "x = null\n" + "x = [x]\n" * size + ".done = true", b'{"b":1}'
        yield f"the event nested by {size} writes", 'e = {}\n' + '. = {"a": .}\n' * size, b'{"b":1}'
        yield f"the metadata nested by {size} writes", '% = {"a": %}\n' * size + ".done = true", b'{"b":1}'
    for size in (30, 31, 32, 33, 34):
        for wrap in ("[x]", '{"a": x}'):
            yield f"{size} levels of {wrap}", "x = 1\n" + f"x = {wrap}\n" * size + "y = x" + (".a" if "a" in wrap else "[0]") * size + " + 1", b"{}"
    for size in (998, 999, 1000, 1001):
        yield f"{size} fields of the event", "\n".join(f".k{i} = 1" for i in range(size)) + "\n.k7 = .k7 + 1", b"{}"
        yield f"{size} fields of the metadata", "\n".join(f"%k{i} = 1" for i in range(size)) + "\n.k7 = %k7 + 1", b"{}"
        yield f"{size} fields of a variable", "x = {}\n" + "\n".join(f"x.k{i} = 1" for i in range(size)) + "\ny = x.k7 + 1", b"{}"
        yield f"{size} fields of a literal", "x = {" + ",".join(f'"{i}":1' for i in range(size)) + '}\ny = x."7" + 1', b"{}"
    for number in (2 ** 63 - 1, 2 ** 63, -2 ** 63, -2 ** 63 - 1):
        yield f"the number {number}", f".n = {number}", b'{"a":%d}' % number
    for title, script in (("a byte 0", ".x = 1\0"), ("a byte order mark", "\ufeff.x = 1"), ("ends of lines with carriage returns", ".x = 1\r\n.y = 2\r\n"),
                          ("columns in characters", '.y = "\u00e9\u6f22\U0001f600" + q'), ("nothing", ""), ("no UTF-8", ".x = \"\udcff\""), ("no UTF-8 in a comment", "# \udcff")):
        yield f"a script with {title}", script, b'{"b":1,"a":2}'


def filled_line(item):
    """An event with as many of these items as a line holds."""
    return b'{"a":[' + b",".join([item] * ((LINE - 7) // (len(item) + 1))) + b"]}"


def lines():
    """Titles and lines for the script `.x = 1`."""
    for size in (LINE, LINE + 1):
        yield f"a line of {size} bytes", b'{"a":"' + b"z" * (size - 8) + b'"}'
        yield f"a line of {size} bytes and its newline", b'{"a":"' + b"z" * (size - 8) + b'"}\n{}'
        yield f"a blank line of {size} bytes", b" " * size + b"\n{}"
        yield f"{size} opening brackets", b"[" * size
        yield f"{size} closing brackets", b"]" * size
        yield f"{size} bytes that are no UTF-8", b"\xff" * size
    for depth in (126, 127, 128, 129):
        yield f"arrays {depth} deep", b'{"a":' + b"[" * (depth - 1) + b"]" * (depth - 1) + b"}\n{}"
        yield f"objects {depth} deep", b'{"a":' * depth + b"1" + b"}" * depth
    for depth in (127, 128):
        yield f"{depth} arrays in no object", b"[" * depth + b"]" * depth
        yield f"many arrays {depth} deep", filled_line(b"[" * (depth - 2) + b"]" * (depth - 2))
        yield f"many objects {depth} deep", filled_line(b'{"a":' * (depth - 2) + b"1" + b"}" * (depth - 2))
        yield f"arrays and objects {depth} deep", b'{"a":[' * (depth // 2) + b"]}" * (depth // 2) + b"\n{}"
    for title, item in (("empty arrays", b"[]"), ("empty objects", b"{}"), ("empty texts", b'""'), ("words", b"true"), ("nulls", b"null"), ("zeros", b"0"), ("small objects", b'{"a":1}'),
                        ("greatest numbers", b"9223372036854775807"), ("least numbers", b"-9223372036854775808"), ("numbers too great", b"9223372036854775808"),
                        ("fractions", b"0.5"), ("negative zeros", b"-0"), ("exponents", b"1e308"), ("exponents too great", b"1e309"), ("texts with escapes", b'"\\u0000\\n"'),
                        ("pairs of surrogates", b'"\\ud83d\\ude00"'), ("halves of surrogates", b'"\\ud83d"')):
        yield f"{LINE} bytes of {title}", filled_line(item)
        yield f"{LINE} bytes of {title}, and a bracket too many", filled_line(item)[:-1] + b"]"
    for title, inside in (("escapes of four digits", b"\\u0041"), ("backslashes", b"\\\\"), ("quotes", b'\\"'), ("newlines", b"\\n"), ("escapes that aren't", b"\\x"), ("pairs of surrogates", b"\\ud83d\\ude00"),
                          ("bytes 0", b"\\u0000"), ("letters of four bytes", "\U0001f600".encode()), ("tabs", b"\t")):
        yield f"a text of {title}", b'{"a":"' + inside * ((LINE - 8) // len(inside)) + b'"}'
        yield f"a name of {title}", b'{"' + inside * ((LINE - 6) // len(inside)) + b'":1}'
    for title, bad in (("a byte 255", b"\xff"), ("a byte that goes on", b"\x80"), ("a letter cut off", b"\xf0\x9f\x98"), ("a letter too long", b"\xc0\x80"), ("half of a surrogate", b"\xed\xa0\x80"), ("a letter too great", b"\xf4\x90\x80\x80")):
        for place, line in (("at the end of a text", b'{"a":"' + b"z" * (LINE - 20) + bad + b'"}'), ("at its start", bad + b'{"a":"' + b"z" * (LINE - 20) + b'"}'),
                            ("at its end", b'{"a":"' + b"z" * (LINE - 20) + b'"}' + bad), ("in a name", b'{"a' + bad + b'":"' + b"z" * (LINE - 20) + b'"}')):
            yield f"a line of 1 MB with {title} {place}", line + b"\n{}"
    yield "names with the same 1,000 bytes before", b"{" + b",".join(b'"' + b"n" * 1000 + b'%d":%d' % (i, i) for i in range(1000)) + b"}"
    yield "names in falling order", b"{" + b",".join(b'"%d":1' % i for i in range(99999, 19999, -1)) + b"}"
    yield "names that their escapes make equal", b"{" + b",".join([b'"a":1', b'"\\u0061":2'] * 55000) + b"}"
    yield "an object in an object's equal names", b"{" + b",".join([b'"a":{"a":1,"a":2}'] * 58000) + b"}"
    yield "blanks in an object", b"{" + b" \t\r" * 349000 + b"}"
    yield "a point behind 1 MB", b'{"a":[' + b"1," * 500000 + b"1.]}"
    yield "an object of 60,000 fields", b"{" + b",".join(b'"%d":%d' % (i, i) for i in range(60000)) + b"}"
    yield "an array of 500,000 items", b'{"a":[' + b",".join([b"1"] * 500000) + b"]}"
    yield "the same field 150,000 times", b"{" + b",".join([b'"a":1'] * 150000) + b"}"
    yield "numbers at the limits", b"\n".join(b'{"a":%s}' % one for one in (
        b"-0", b"0", b"9223372036854775807", b"9223372036854775808", b"-9223372036854775808", b"-9223372036854775809", b"1e2", b"1.0", b"1e400", b"01", b"1" * 100000))
    yield "texts that are no UTF-8", b'{"a":"\xff"}\n\xff\n{"a":"\xed\xa0\x80"}\n{}'
    yield "half of a surrogate pair", b'{"a":"\\ud800"}\n{"a":"\\ude00\\ud83d"}\n{"a":"\\ud83d\\ude00"}'
    yield "bytes 0", b'\0\n{"a":"\0"}\n{"a":"\\u0000"}'
    yield "a byte order mark", b"\xef\xbb\xbf{}"
    yield "ends of lines with carriage returns", b'{"a":1}\r\n\r\n{}\r\n'
    yield "1,000,000 empty lines", b"\n" * 1000000 + b"{"
    yield "200,000 refused lines", b"[\n" * 200000
    yield "a form feed", b"\x0c\n{}"
    yield "a blank behind the event", b"{} "
    yield "two values in a line", b"{} {}"
    yield "no line", b""
    yield "blanks alone", b" \t\r"


def envelopes():
    """Titles, scripts and lines for `--envelope`."""
    for size in (LINE, LINE + 1):
        text = b'{"a":"' + b"z" * (size - len('{"event":{"a":""},"metadata":{}}')) + b'"}'
        yield f"an envelope of {size} bytes", ".x = 1", b'{"event":' + text + b',"metadata":{}}'
        yield f"metadata in an envelope of {size} bytes", ".x = 1", b'{"event":{},"metadata":' + text + b"}"
    for depth in (124, 125, 126, 127):
        inner = b'{"a":' + b"[" * depth + b"]" * depth + b"}"
        for title, script in (("as they are", ""), ("in an array", ". = [., %]"), ("in each other", "x = .\n.b = %\n%b = x"), ("the metadata in itself", '% = {"a": {"a": {"a": %}}}'), ("as its text", ".t = encode_json(%)")):
            yield f"an event and metadata {depth + 1} deep, {title}", script, b'{"event":' + inner + b',"metadata":' + inner + b"}"
    many = b",".join(b'"%d":%d' % (i, i) for i in range(60000))
    yield "metadata of 60,000 fields", "%n = length(%)", b'{"event":{},"metadata":{' + many + b"}}"
    yield "metadata of 100 fields beside 1,000 events", ". = map_values(array!(.l)) -> |v| { {\"v\": v} }\n%k = 1", b'{"event":{"l":[' + b",".join([b"0"] * 1000) + b']},"metadata":{' + b",".join(many.split(b",")[:100]) + b"}}"
    yield "an envelope of equal names", ".x = 1", b'{"event":{},"metadata":{},' + b",".join([b'"metadata":{"a":1}'] * 50000) + b"}"
    yield "an envelope of 60,000 other names", ".x = 1", b'{"event":{},"metadata":{},' + many + b"}"
    yield "an envelope in envelopes", ". = .event", b'{"event":' * 60 + b"{}" + b',"metadata":{}}' * 60
    yield "200,000 lines that are no envelopes", ".x = 1", b"{}\n" * 200000
    yield "a removal of a metadata of 60,000 fields", "for_each(%) -> |k, v| { del(%) }", b'{"event":{},"metadata":{' + many + b"}}"


def described(pairs, rest="json"):
    """A description of objects with these fields, which are JSON as they stand."""
    return '{"object":{' + ",".join(f'"{name}":{one}' for name, one in pairs) + f'}},"rest":"{rest}"}}'


def texts(letter, count):
    """So many fields that are texts."""
    return [(f"{letter}{i:x}", '"string"') for i in range(count)]


def kind_files():
    """Titles, kind files, scripts and lines, for all of which the outside reading has the answer."""
    plain = '{"object":{"a":"integer"}}'
    for size in (LONGEST, LONGEST + 1):
        yield f"a kind file of {size} bytes", plain + " " * (size - len(plain)), ".b = .a + 1", b'{"a":1}'
        yield f"a name of a kind file of {size} bytes", '{"object":{"' + "n" * (size - 22) + '":"json"}}', ".b = 1", b"{}"
    for title, file in (("opening brackets", "[" * LONGEST), ("closing brackets", "]" * LONGEST), ("opening braces", "{" * LONGEST), ("quotes", '"' * LONGEST), ("digits", "9" * LONGEST), ("blanks", " " * LONGEST),
                        ("newlines", "\n" * LONGEST), ("bytes 0", "\0" * LONGEST), ("no UTF-8", "\udcff" * LONGEST), ("nothing", ""), ("a byte order mark", "\ufeff" + plain), ("two values", plain + plain),
                        ("words joined", '{"object":{"a":[' + '"string",' * 7000 + '"null"]}}'), ("kinds joined at the root", "[" + ",".join([plain] * 2000) + "]"),
                        ("objects with a field each", "[" + ",".join(described(texts(f"f{i}", 1), "nothing") for i in range(900)) + "]"),
                        ("objects with a field each, open", "[" + ",".join(described(texts(f"f{i}", 1)) for i in range(900)) + "]"),
                        ("equal names", '{"object":{' + ",".join(['"a":"integer"'] * 4000) + "}}"), ("equal names, one of them wrong", '{"object":{"a":1,' + ",".join(['"a":"integer"'] * 4000) + "}}"),
                        ("unknown words", '{"object":{' + ",".join(f'"{i}":"text"' for i in range(4000)) + "}}"), ("optional in optional", '{"object":{"a":' + '{"optional":' * 60 + '"null"' + "}" * 60 + "}}"),
                        ("a name of slashes", '{"object":{"' + "/~" * 15000 + '":1}}'), ("a number", '{"object":{"a":1}}'), ("a fraction", '{"object":{"a":1.5}}'), ("members that aren't known", '{"object":{},"rest":"json","a":1}'),
                        ("an array", '{"array":[]}'), ("a word", '"json"'), ("empty lists in one another", "[" * 100 + "]" * 100)):
        yield f"a kind file of {title}", file, ".b = .a + 1 ?? 0", b'{"a":1}\n{}'
    for size in (63, 64, 65):
        yield f"{size} places of a kind file", '{"object":{"a":{"array":[' + ",".join(['"integer"'] * size) + "]}}}", f".b = .a[{size - 1}] + 1 ?? 0", b'{"a":[' + b",".join([b"1"] * 65) + b"]}"
    for size in (998, 999, 1000):
        yield f"{size} fields of a kind file", described(texts("f", size), "nothing"), ".b = .f1 + \"\"", b"{" + b",".join(b'"f%x":""' % i for i in range(size)) + b"}\n{}"
    for depth in (31, 32, 33, 62, 63, 64, 200):
        for title, before, behind in (("objects", '{"object":{"a":', "}}"), ("rests", '{"object":{},"rest":', "}"), ("arrays", '{"object":{"a":{"array":[', "]}}}"), ("lists of one", "[", "]")):
            inside = '"string"' if title != "lists of one" else plain
            yield f"{depth} {title} of a kind file", before * depth + inside + behind * depth, ".b = 1", b'{"a":' * depth + b'""' + b"}" * depth + b"\n{}"
    for size in (10, 30, 31, 32):
        yield f"a join of a rest with {size} fields and {size} fields", joined_kinds(size, 2), ".b = 1", b"{}"
    yield "a join of two rests with 9 fields and 9 fields", joined_kinds(9, 3), ".b = 1", b"{}"


def joined_kinds(size, depth):
    """Kinds with so many fields each, every one below one rest more than the one before. Each of a field's is joined with all those of the next."""
    every = []
    for number in range(depth):
        one = described(texts("abcdefgh"[number], size), "nothing")
        for _ in range(number):
            one = '{"object":{},"rest":' + one + "}"
        every.append(one)
    return "[" + ",".join(every) + "]"


def large_joins():
    """Titles and kind files of more nodes than there may be, which a join of all their parts would have, with the report and the status wanted. A join whose nodes don't go into memory
    wants memory, before it is told that they are too many."""
    for size, depth, report, status in ((100, 2, BAD_KIND, 6), (1000, 2, BAD_KIND, 6), (2000, 2, BAD_KIND, 6), (100, 3, BAD_KIND, 6), (1200, 3, b"", 5), (500, 8, b"", 5)):
        yield f"a join of {depth} kinds of {size} fields below rests", joined_kinds(size, depth), report, status


# Titles, commands, and the status, output and report wanted, None where any will do. `$P` is the program, `one` a script `.x = 1`, `bad` one that is refused.
def devices():
    yield "no words", '"$P" </dev/null', 2, b"", USAGE
    yield "two scripts", '"$P" one one </dev/null', 2, b"", USAGE
    yield "an empty word", '"$P" "" </dev/null', 2, b"", USAGE
    yield "a dash", '"$P" - </dev/null', 2, b"", USAGE
    yield "an option", '"$P" --help </dev/null', 2, b"", USAGE
    yield "10,000 words", '"$P" $(yes one | head -10000) </dev/null', 2, b"", USAGE
    yield "a name that is no UTF-8", 'cp one $\'n\\xffm\'; "$P" $\'n\\xffm\' </dev/null', 2, b"", USAGE
    yield "a name with blanks", 'cp one "a name with blanks"; echo "{}" | "$P" "a name with blanks"', 0, b'{"x":1}\n', b""
    yield "a name with a newline", 'cp one $\'n\\n\\u00e4\'; echo "{}" | "$P" $\'n\\n\\u00e4\'', 0, b'{"x":1}\n', b""
    yield "a name of 5,000 bytes", 'echo "{}" | "$P" $(printf %05000d 0)', 3, b"", b""
    yield "a name that no file has", 'echo "{}" | "$P" nothere', 3, b"", b""
    yield "a file under a file", 'echo "{}" | "$P" one/x', 3, b"", b""
    yield "a folder as script", 'mkdir -p folder; echo "{}" | "$P" folder', 3, b"", b""
    yield "a link to itself", 'ln -sf loop loop; echo "{}" | "$P" loop', 3, b"", b""
    yield "/dev/null as script", 'echo "{}" | "$P" /dev/null', 0, b"{}\n", b""
    yield "/dev/zero as script", 'echo "{}" | "$P" /dev/zero', 1, b"", b"error[E1009] 1:1 script too long or not UTF-8\n"
    yield "a kind file that no file has", '"$P" one --kind nothere </dev/null', 3, b"", b""
    yield "a folder as kind file", 'mkdir -p folder; "$P" one --kind folder </dev/null', 3, b"", b""
    yield "/dev/zero as kind file", '"$P" one --kind /dev/zero </dev/null', 6, b"", b"kind file: too long\n"
    yield "/dev/null as kind file", '"$P" one --kind /dev/null </dev/null', 6, b"", b"kind file: not JSON\n"
    yield "a kind file that no file has, a script that is refused", '"$P" bad --kind nothere </dev/null', 3, b"", b""
    yield "a kind file that no file has, a script that is no text", 'printf "\\xff" >nokind; "$P" nokind --kind nothere </dev/null', 1, b"", b"error[E1009] 1:1 script too long or not UTF-8\n"
    yield "/dev/zero as input, cut off", 'head -c 100000000 /dev/zero | "$P" one', 7, b"", b"line 1: refused: longer than 1048576 bytes\n"
    yield "output behind the input, in a file of limited size", 'trap "" XFSZ; ulimit -f 64; yes "{}" | head -c 3000 >both; "$P" one <both >>both; echo "status $?"', 0, b"status 4\n", b""
    yield "output and report into one pipe", 'printf "{}\\n{\\n{}" | "$P" one 2>&1', 7, b'{"x":1}\n{"x":1}\nline 2: refused: not JSON\n', b""
    yield "a file of limited size, and its signal", 'ulimit -f 8; yes "{}" | head -c 300000 | { "$P" one >limited; echo "status $?"; }', 0, b"status 153\n", None
    yield "the script from standard input", 'printf ".x = 1" | "$P" /dev/stdin', 0, b"", b""
    yield "standard input closed", '"$P" one 0<&-', 3, b"", b""
    yield "standard input a folder", 'mkdir -p folder; "$P" one <folder', 3, b"", b""
    yield "standard input closed, a refused script", '"$P" bad 0<&-', 1, b"", b"error[E701] 1:1 undefined variable\n"
    yield "standard output closed", 'echo "{}" | "$P" one >&-', 4, b"", b""
    yield "standard output closed, nothing to write", '"$P" one >&- </dev/null', None, b"", b""
    yield "standard error closed, nothing to report", 'echo "{}" | "$P" one 2>&-', 0, b'{"x":1}\n', b""
    yield "standard error closed, a report", 'echo "{" | "$P" one 2>&-', 4, b"", b""
    yield "standard error closed, a refused script", '"$P" bad 2>&- </dev/null', 4, b"", b""
    yield "output onto a full disk", 'echo "{}" | "$P" one >/dev/full', 4, b"", b""
    yield "nothing to write onto a full disk", '"$P" one >/dev/full </dev/null', 0, b"", b""
    yield "report onto a full disk", 'echo "{" | "$P" one 2>/dev/full', 4, b"", b""
    yield "usage onto a full disk", '"$P" 2>/dev/full </dev/null', 4, b"", b""
    yield "a refusal onto a full disk", '"$P" bad 2>/dev/full </dev/null', 4, b"", b""
    yield "both onto a full disk", 'printf "{}\\n{" | "$P" one >/dev/full 2>/dev/full', 4, b"", b""
    yield "output closed at its first byte", 'yes "{}" | head -c 3000000 | { "$P" one; echo "status $?" >&2; } | head -c 1', 0, b"{", b"status 4\n"
    yield "output closed at once", 'yes "{}" | head -c 3000000 | { "$P" one; echo "status $?" >&2; } | true', 0, b"", b"status 4\n"
    yield "report closed at its first byte", 'yes "{" | head -c 3000000 | { "$P" one 2>&1 >/dev/null; echo "status $?" >&2; } | head -c 1', 0, b"l", b"status 4\n"
    yield "a file of limited size", 'trap "" XFSZ; ulimit -f 8; yes "{}" | head -c 300000 | "$P" one >limited; echo "status $?"; wc -c <limited', 0, None, b""
    yield "a slow input", '( printf "{\\"a\\""; sleep 1; printf ":1}\\n{" ; sleep 1; printf "}" ) | "$P" one', 0, b'{"a":1,"x":1}\n{"x":1}\n', b""
    yield "60 MB of memory, 20 MB of lines", 'ulimit -v 60000; yes "{\\"a\\":1}" | head -c 20000000 | "$P" one >mem; echo "status $?"; wc -c <mem', 0, None, b""
    yield "8 MB of memory", 'ulimit -v 8000; echo "{}" | "$P" one; echo "status $?"', 0, None, None
    yield "values that double 60 times, 1 GB of memory", 'ulimit -v 1000000; for i in $(seq 60); do echo ".a = [., .]"; done >double; echo "{}" | "$P" double; echo "status $?"', 0, b"status 5\n", b""
    yield "an event of 1 MB 13,000 times, 1 GB of memory", (
        'ulimit -v 1000000; { printf ". = ["; for i in $(seq 13000); do printf ".,"; done; printf "]"; } >many; '
        '{ printf "{\\"a\\":\\""; head -c 1000000 /dev/zero | tr "\\0" z; printf "\\"}"; } | "$P" many | wc -c; echo "status ${PIPESTATUS[1]}"'), 0, b"0\nstatus 5\n", b""
    yield "a stack of 2 MB, 64 parentheses", 'ulimit -s 2048; printf "%064d1%064d" 0 0 | sed "s/^0*/((((((((((((((((((((((((((((((((((((((((((((((((((((((((((((((((/; s/0*$/))))))))))))))))))))))))))))))))))))))))))))))))))))))))))))))))/" >n64; echo "{}" | "$P" n64', 0, b"{}\n", b""


def disks():
    """The same over a small disk of its own, where one may be mounted."""
    mounted = "mkdir -p disk; unshare -rm bash -c 'mount -t tmpfs -o size=64k none disk && "
    if subprocess.run(["bash", "-c", f"cd $(mktemp -d); {mounted} true'"], capture_output=True).returncode:
        print("no disk can be mounted: that one gets full isn't tried")
        return
    yield "a disk that gets full", ('yes "{}" | head -c 300000 >many; ' + mounted + '{ "$P" one <many >disk/out; echo "status $?"; '
                                    'cmp disk/out <(yes "{\\"x\\":1}" | head -c 65536) && echo front; }\''), 0, b"status 4\nfront\n", b""
    yield "a disk that gets full of reports", ('yes "{" | head -c 300000 >many; ' + mounted + '{ "$P" one <many 2>disk/out; echo "status $?"; head -c 26 disk/out; }\''), 0, b"status 4\nline 1: refused: not JSON\n", b""


def big():
    line = '{"host":"h6","level":"ERROR","message":"request 1 took 543 ms","n":774}'
    yield "200 MB of lines", f"yes '{line}' | head -c 199999944 >big; \"$P\" one <big >big.out; echo \"status $?\"; wc -l <big.out; wc -c <big.out", 0, b"status 0\n2777777\n216666606\n", b""
    yield "200 MB of refused lines", f"yes '[{line}' | head -c 200000027 >big; \"$P\" one <big 2>big.report; echo \"status $?\"; wc -l <big.report; rm -f big big.*", 0, None, b""


PRODUCT = "makes the product of the parts, until it wants memory"
LINES = "reads and writes some million lines"
# What may take longer than two processor seconds, with those that it may take and the reason.
DEAR = {
    "a join of 3 kinds of 1200 fields below rests": (20, PRODUCT),
    "a join of 8 kinds of 500 fields below rests": (20, PRODUCT),
    "60 MB of memory, 20 MB of lines": (10, LINES),
    "values that double 60 times, 1 GB of memory": (10, "fills a gigabyte with small values"),
    "200 MB of lines": (30, LINES),
    "200 MB of refused lines": (30, LINES),
}


def wanted_of(script, data, file, envelope=False):
    """Output, report and status by the outside reading."""
    start = EVENT if file is None else kind_file(file)
    if isinstance(start, str):
        return b"", programs.joined([start]), 6
    found = Verdict(script, start)
    if not found.accepted:
        return b"", programs.joined(found.diagnostics), 1
    output, report, status = run_lines(found, start, data, envelope=envelope)
    return programs.joined(output), programs.joined(report), status


def spent():
    """The processor seconds of all that was run so far."""
    used = resource.getrusage(resource.RUSAGE_CHILDREN)
    return used.ru_utime + used.ru_stime


def main():
    words = argparse.ArgumentParser(description="hostile uses of the program")
    words.add_argument("--program", required=True)
    words.add_argument("--only", default="")
    words.add_argument("--big", action="store_true")
    given = words.parse_args()
    uses = programs.Uses(DEAR)
    with programs.Program(given.program) as program:
        program.write("one", b".x = 1")
        program.write("bad", b"q")
        every = [(title, None, script, data, False, None) for title, script, data in scripts()]
        every += [(title, None, ".x = 1", data, False, None) for title, data in lines()]
        every += [(title, None, script, data, True, None) for title, script, data in envelopes()]
        every += [(title, file, script, data, False, None) for title, file, script, data in kind_files()]
        every += [(title, file, ".x = 1", b"", False, (b"", report, status)) for title, file, report, status in large_joins()]
        for title, file, script, data, envelope, wanted in every:
            if given.only not in title:
                continue
            script, more = script.encode("utf-8", "surrogateescape"), ["--envelope"] * envelope
            if file is not None:
                file = file.encode("utf-8", "surrogateescape")
                more += ["--kind", program.write("kind.json", file)]
            told = program.run(script, data, more, programs.LIMITS)
            uses.tell(title, program.seconds, told, wanted or wanted_of(script, data, file, envelope))
        for title, command, status, output, report in [*devices(), *disks(), *(big() if given.big else [])]:
            if given.only in title:
                before = spent()
                ran = subprocess.run(["bash", "-c", command], cwd=program.folder.name, capture_output=True, env={**os.environ, "P": program.path})
                uses.tell(title, spent() - before, (ran.stdout, ran.stderr, ran.returncode), (output, report, status))
    print(f"hostile: {uses.tried} uses, {uses.differences} differences")
    return 1 if uses.differences else 0


if __name__ == "__main__":
    sys.exit(main())
