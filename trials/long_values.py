"""Each function over values as long as a line holds them, and scripts that make long ones: what comes of them, and how long it takes.

    python3 trials/long_values.py --program PATH [--only WORD]

A use is an expression over a text `t`, a text `n`, an array `l` and an object `o`, which are fields of one event, and what it must come to, told by Python: a value, want of memory, or one of
both. It may take two processor seconds, or as many as stand with it and its reason in `DEAR`, and 4 GB of memory, or 1 GB where it must want more; those that take more than one second are told with them. The status is 1 at a difference.
"""

import argparse
import base64
import hashlib
import json
import sys

sys.dont_write_bytecode = True

import programs
from reading.json_lines import LONGEST

# A text of about so many bytes, and an array of about so many numbers, fill a line.
LONG = 1000000
MANY = 140000
BEGIN = 't = string(.t) ?? ""\nn = string(.n) ?? ""\nl = array(.l) ?? []\no = object(.o) ?? {}\n'
END = '\n. = {"r": .r}\n'
FAILED = "failed"
# What a use may come to: one of two statuses, with any output.
MEMORY, EITHER = object(), object()
A = "a" * LONG
HALF = "a" * (LONG // 2)
NUMBERS = list(range(MANY))
FIELDS = {f"k{i}": i for i in range(60000)}


def nested(depth, inside, name=None):
    for _ in range(depth):
        inside = [inside] if name is None else {name: inside}
    return inside


def texts():
    """Titles, expressions, events and what they come to: texts."""
    yield "length", "length(t)", {"t": A}, LONG
    yield "strlen", "strlen(t)", {"t": "\u00e9" * (LONG // 2)}, LONG // 2
    yield "upcase", "length(upcase(t))", {"t": A}, LONG
    yield "strip_whitespace", "strip_whitespace(t)", {"t": " " * LONG}, ""
    yield "is_nullish", "is_nullish(t)", {"t": " " * LONG}, True
    yield "truncate", "length(truncate(t, 999999, n))", {"t": A, "n": ".."}, LONG + 1
    yield "slice", "slice(t, -2) ?? 0", {"t": "\u00e9" * (LONG // 2)}, "\u00e9\u00e9"
    yield "starts_with", "starts_with(t, n, case_sensitive: false)", {"t": HALF, "n": HALF.upper()}, True
    yield "contains, a text that almost stands there", "contains(t, n)", {"t": HALF, "n": HALF[:LONG // 4] + "b"}, False
    yield "contains, a text that almost stands there, in any case", "contains(t, n, case_sensitive: false)", {"t": HALF, "n": HALF[:LONG // 4] + "b"}, False
    yield "contains, a text that almost stands there and then does, in any case", "contains(t, n, case_sensitive: false)", {"t": HALF + "B", "n": HALF[:LONG // 4].upper() + "b"}, True
    yield "find, a text that almost stands there", "find(t, n)", {"t": HALF, "n": HALF[:LONG // 4] + "b"}, None
    yield "find, a text that almost stands there, the other way round", "find(t, n)", {"t": HALF, "n": "b" + HALF[:LONG // 4]}, None
    yield "split, a text that almost stands there", "length(split(t, n))", {"t": HALF, "n": HALF[:LONG // 4] + "b"}, 1
    yield "replace, a text that almost stands there", "length(replace(t, n, \"\"))", {"t": HALF, "n": HALF[:LONG // 4] + "b"}, LONG // 2
    yield "split into letters", "length(split(t, \"a\"))", {"t": A}, LONG + 1
    yield "split by a regex", "length(split(t, r'a'))", {"t": A}, LONG + 1
    yield "split with a limit", "length(split(t, \"a\", limit: 9223372036854775807))", {"t": A}, LONG + 1
    yield "split by a regex that looks on to the end, 40 KB", r"length(split(t, r'a*\d|a'))", {"t": "a" * 40000}, 40001
    yield "chunks", "length(chunks(t, 1))", {"t": A}, LONG
    yield "chunks, greatest", "length(chunks(t, 9223372036854775807))", {"t": A}, 1
    yield "replace", "length(replace(t, \"a\", \"bb\"))", {"t": A}, 2 * LONG
    yield "replace by a regex", "length(replace(t, r'a', \"$0$0\"))", {"t": A}, 2 * LONG
    yield "replace by much", "length(replace(t, \"a\", t))", {"t": A}, MEMORY
    yield "replace by a regex by much", "length(replace(t, r'a', t))", {"t": A}, MEMORY
    yield "match", "match(t, r'(a+)+b')", {"t": A}, False
    yield "match, many ways", "match(t, r'(a|aa)+b|(a*)*b|(.*)(.*)(.*)(.*)(.*)x')", {"t": A}, False
    yield "match, letters in Unicode", r"match(t, r'^(\w|\d|\s|\pL)+$')", {"t": "\u00e9" * (LONG // 2)}, True
    yield "match_any", "match_any(t, [r'b', r'ab', r'(?i)B', r'.b'])", {"t": A}, False
    yield "parse_regex", "parse_regex(t, r'(?P<x>a+)(?P<y>b)?') ?? {}", {"t": A}, {"x": A, "y": None}
    yield "parse_regex_all", "length(parse_regex_all(t, r'(?P<x>a)'))", {"t": "a" * 200000}, 200000
    yield "find by a regex", "find(t, r'b')", {"t": A + "b"}, LONG
    yield "to_int, zeros", "to_int(t) ?? \"failed\"", {"t": "0" * LONG + "7"}, 7
    yield "to_int, nines", "to_int(t) ?? \"failed\"", {"t": "9" * LONG}, FAILED
    yield "parse_int, zeros", "parse_int(t, 36) ?? \"failed\"", {"t": "0" * LONG + "z"}, 35
    yield "parse_int, nines", "parse_int(t, 16) ?? \"failed\"", {"t": "f" * LONG}, FAILED
    yield "to_bool", "to_bool(t) ?? \"failed\"", {"t": "T" * LONG}, FAILED
    yield "parse_timestamp", "parse_timestamp(t, \"%+\") ?? \"failed\"", {"t": "2024-01-02T03:04:05." + "0" * LONG + "Z"}, FAILED
    yield "parse_timestamp by a format", "parse_timestamp(t, \"%Y %m %d %H %M %S %z\") ?? \"failed\"", {"t": "2024" + " " * LONG + "01 02 03 04 05 +0000"}, "2024-01-02T03:04:05Z"
    yield "format_timestamp by a long format", "length(format_timestamp(t'2024-01-02T03:04:05Z', \"" + "%Y" * 30000 + "\"))", {}, 120000
    yield "md5", "md5(t)", {"t": A}, hashlib.md5(A.encode()).hexdigest()
    yield "sha1", "sha1(t)", {"t": A}, hashlib.sha1(A.encode()).hexdigest()
    for bits in ("224", "256", "384", "512"):
        yield f"sha2, {bits}", f"sha2(t, variant: \"SHA-{bits}\")", {"t": A}, hashlib.new("sha" + bits, A.encode()).hexdigest()
    yield "encode_base64", "length(encode_base64(t))", {"t": A}, len(base64.b64encode(A.encode()))
    yield "decode_base64", "decode_base64(t) ?? \"failed\"", {"t": base64.b64encode(HALF.encode()).decode()}, HALF
    yield "decode_base64, no base64", "decode_base64(t) ?? \"failed\"", {"t": "=" * LONG}, FAILED
    yield "encode_base16", "length(encode_base16(t))", {"t": A}, 2 * LONG
    yield "decode_base16", "decode_base16(t) ?? \"failed\"", {"t": HALF.encode().hex()}, HALF
    yield "encode_percent", "length(encode_percent(t))", {"t": " " * LONG}, 3 * LONG
    yield "decode_percent", "length(decode_percent(t))", {"t": "%41" * (LONG // 3)}, LONG // 3
    yield "decode_percent, signs alone", "length(decode_percent(t))", {"t": "%" * LONG}, LONG
    yield "decode_percent, no UTF-8", "strlen(decode_percent(t))", {"t": "%ff" * (LONG // 3)}, LONG // 3
    yield "encode_json, quotes", "length(encode_json(t))", {"t": '"' * (LONG // 2)}, LONG + 2
    yield "parse_json, brackets", "parse_json(t) ?? \"failed\"", {"t": "[" * LONG}, FAILED
    yield "parse_json, numbers", "length(array!(parse_json!(t)))", {"t": "[" + "1," * 490000 + "1]"}, 490001
    yield "parse_json, equal names", "parse_json(t) ?? \"failed\"", {"t": '{' + '"a":1,' * 80000 + '"a":2}'}, {"a": 2}
    yield "parse_key_value, equal keys", "parse_key_value(t) ?? \"failed\"", {"t": "a=1 " * 240000}, {"a": "1"}
    yield "parse_key_value, many keys", "length(parse_key_value(t) ?? {})", {"t": " ".join(f"k{i}=" for i in range(100000))}, 100000
    yield "parse_key_value, delimiters", "parse_key_value(t) ?? \"failed\"", {"t": " " * LONG}, {}
    yield "parse_key_value, an open quote", "parse_key_value(t) ?? \"failed\"", {"t": 'a="' + "\\" * (LONG // 2)}, FAILED
    yield "parse_key_value, a delimiter that almost stands there", "length(parse_key_value(t, n) ?? {})", {"t": HALF, "n": HALF[:LONG // 4] + "b"}, 1
    yield "parse_key_value, many fields and a delimiter that almost stands there", "length(parse_key_value(t, n, \"b\") ?? {})", {"t": "aab" * 100000, "n": "a" * 100000 + "c"}, 1
    yield "parse_key_value, a delimiter that almost stands behind each of many fields", "length(parse_key_value(t, n) ?? {})", {"t": "a " * 200000, "n": " a" * 100000 + "b"}, 1
    yield "parse_key_value, fields parted by a delimiter that almost stands there", "length(parse_key_value(t, \"=\", n) ?? {})", {"t": "a=" + HALF, "n": HALF[:LONG // 4] + "b"}, 1
    yield "parse_csv, many fields", "length(parse_csv(t))", {"t": "," * LONG}, LONG + 1
    yield "parse_csv, quotes", "parse_csv(t)", {"t": '"' * (LONG // 2)}, ['"' * (LONG // 4 - 1)]
    yield "parse_csv, ends of lines", "parse_csv(t)", {"t": "\n" * (LONG // 2)}, []
    yield "parse_query_string, one name", "length(array!(parse_query_string(t).a))", {"t": "a&" * (LONG // 2)}, LONG // 2
    yield "parse_query_string, many names", "length(parse_query_string(t))", {"t": "&".join(f"k{i}" for i in range(100000))}, 100000
    yield "parse_query_string, signs", "length(parse_query_string(t))", {"t": "&" * LONG}, 0
    for title, url in (("a path", "http://h/" + "a" * LONG), ("dots", "http://h/" + "../" * (LONG // 3)), ("parts and dots", "http://h/" + "a/" * (LONG // 4) + "../" * (LONG // 6)), ("slashes", "http://h" + "/" * LONG),
                       ("signs of users", "http://" + "@" * LONG + "h"), ("colons", "http://" + ":" * LONG + "@h"), ("percent signs", "http://h/" + "%" * LONG), ("letters", "http://h/" + "\u00e9" * (LONG // 2)),
                       ("a query", "http://h/?" + "a=1&" * (LONG // 4)), ("a fragment", "http://h/#" + "#" * LONG), ("a scheme", "a" * LONG + ":"), ("blanks", " " * LONG + "http://h"),
                       ("newlines", "http://h/" + "\t" * (LONG // 2)), ("a host", "http://" + "a" * LONG), ("a host of points", "http://" + "." * LONG), ("a host of parts", "http://" + "a." * (LONG // 2)),
                       ("a host of digits", "http://" + "1" * LONG), ("a host of numbers", "http://" + "1." * (LONG // 2)), ("a host in brackets", "http://[" + "1:" * (LONG // 2) + "]"),
                       ("a host of other letters", "http://" + "\u00e9" * 300000), ("a host of many other letters", "http://" + "".join(chr(0x4e00 + i % 20000) for i in range(200000))),
                       ("a host of parts of other letters", "http://" + ".".join(["\u00e9" * 30] * 15000)), ("a host that is coded", "http://xn--" + "a" * LONG), ("a host that is coded in parts", "http://" + ".".join(["xn--ls8h"] * 100000)),
                       ("a port", "http://h:" + "0" * LONG), ("an escaped host", "http://" + "%41" * (LONG // 3))):
        yield f"parse_url, {title}", "length(parse_url(t) ?? {})", {"t": url}, EITHER


def parts():
    """The same: arrays and objects."""
    yield "unique, all of them", "length(unique(l))", {"l": NUMBERS}, MANY
    yield "unique, one of them", "unique(l)", {"l": [7] * MANY}, [7]
    yield "unique, texts with the same beginning", "length(unique(l))", {"l": ["a" * 1000 + str(i) for i in range(1000)]}, 1000
    yield "unique, arrays", "length(unique(l))", {"l": [[i, [i]] for i in range(60000)]}, 60000
    yield "unique, deep arrays", "length(unique(l))", {"l": [nested(100, i) for i in range(4000)]}, 4000
    yield "includes", "includes(l, -1)", {"l": NUMBERS}, False
    yield "includes, deep arrays", "includes(l, l[3999])", {"l": [nested(100, i) for i in range(4000)]}, True
    yield "push", "length(push(l, l))", {"l": NUMBERS}, MANY + 1
    yield "append", "length(append(l, l))", {"l": NUMBERS}, 2 * MANY
    yield "zip", "length(zip(l, l))", {"l": NUMBERS}, MANY
    yield "slice of an array", "slice(l, -1) ?? 0", {"l": NUMBERS}, [MANY - 1]
    yield "flatten", "length(flatten(l))", {"l": [nested(100, i) for i in range(4000)]}, 4000
    yield "flatten, empty arrays", "flatten(l)", {"l": [[]] * 300000}, []
    yield "compact", "compact(l)", {"l": [nested(100, "") for _ in range(4000)]}, []
    yield "compact, nothing to do", "length(compact(l))", {"l": NUMBERS}, MANY
    yield "join", "length(join(l, n) ?? \"\")", {"l": [""] * 300000, "n": "ab"}, 599998
    yield "join by much", "length(join(l, n) ?? \"\")", {"l": [""] * 200000, "n": "a" * 300000}, MEMORY
    yield "tally", "length(tally(l) ?? {})", {"l": [str(i) for i in range(100000)]}, 100000
    yield "tally, one of them", "tally(l) ?? {}", {"l": ["a"] * 200000}, {"a": 200000}
    yield "object_from_array", "length(object_from_array(l) ?? {})", {"l": [[str(i), i] for i in range(60000)]}, 60000
    yield "object_from_array, equal names", "object_from_array(l) ?? {}", {"l": [["a", i] for i in range(60000)]}, {"a": 59999}
    yield "keys", "length(keys(o))", {"o": FIELDS}, 60000
    yield "values", "length(values(o))", {"o": FIELDS}, 60000
    yield "merge", "length(merge(o, o))", {"o": FIELDS}, 60000
    yield "merge, deep", "length(merge(o, o, deep: true))", {"o": {f"k{i}": {"a": {"b": i}} for i in range(30000)}}, 30000
    yield "merge, deep objects", "length(merge(o, o, deep: true))", {"o": {f"k{i}": nested(100, i, "a") for i in range(1400)}}, 1400
    yield "flatten of an object", "length(flatten(o))", {"o": {f"k{i}": nested(100, i, "a") for i in range(1400)}}, 1400
    yield "flatten of an object by much", "length(flatten(o, n))", {"o": {f"k{i}": nested(100, i, "a") for i in range(1000)}, "n": "-" * 100000}, MEMORY
    yield "unflatten", "length(unflatten(o))", {"o": {f"k{i}" + ".a" * 63: i for i in range(6000)}}, 6000
    yield "unflatten, one beginning", "length(object!(unflatten(o).a))", {"o": {"a." * 63 + str(i): i for i in range(6000)}}, 1
    yield "unflatten, many points", "length(unflatten(o))", {"o": {"." * LONG: 1}}, 1
    yield "unflatten, a separator that almost stands there", "length(unflatten(o, n))", {"o": {HALF: 1}, "n": HALF[:LONG // 4] + "b"}, 1
    yield "get, a long path", "get(o, l) ?? \"failed\"", {"l": ["a"] * 200000, "o": {"a": {}}}, None
    yield "get, a long path of numbers", "get(l, l) ?? \"failed\"", {"l": NUMBERS}, None
    yield "set, a long path", "set(o, l, 1) ?? \"failed\"", {"l": ["a"] * 200000, "o": {}}, FAILED
    yield "set, 64 steps", "length(encode_json(set(o, l, 1) ?? {}))", {"l": ["a"] * 64, "o": {}}, 64 * 6 + 1
    yield "set, 65 steps", "set(o, l, 1) ?? \"failed\"", {"l": ["a"] * 65, "o": {}}, FAILED
    yield "set, the greatest place in 64 arrays", "set(l, l, 1) ?? \"failed\"", {"l": [65535] * 64}, EITHER
    yield "remove, a long path", "remove(o, l) ?? \"failed\"", {"l": ["a"] * 200000, "o": {"a": {}}}, {"a": {}}
    yield "remove, a long path of numbers", "length(remove(l, l) ?? [])", {"l": NUMBERS}, MANY
    yield "encode_json", "length(encode_json(o))", {"o": FIELDS}, len(json.dumps(FIELDS, separators=(",", ":")))
    yield "encode_key_value", "length(encode_key_value(o))", {"o": {f"k{i}": "" for i in range(60000)}}, sum(len(f"k{i}") + 4 for i in range(60000)) - 1
    yield "equal arrays", "l == .l", {"l": NUMBERS}, True
    yield "equal deep arrays", "l == .l", {"l": [nested(100, i) for i in range(4000)]}, True
    yield "merge by a sign", "length(o | o)", {"o": FIELDS}, 60000


def scripts():
    """Titles, scripts, events and what they come to: scripts that ask for much."""
    small = {"t": "a", "l": [1], "o": {"a": 1}}
    yield "a text that doubles", ".r = t\n" + ".r = string(.r) + string(.r)\n" * 60, small, MEMORY
    yield "a text that doubles by templates", "x = t\n" + 'x = "{{ x }}{{ x }}"\n' * 60 + ".r = x", small, MEMORY
    yield "a text of a megabyte in 29 templates", ".r = length(\"" + "{{ t }}" * 29 + "\")", {"t": "a" * 1000000}, 29000000
    yield "the last place of a long array, written 5,000 times", "l[-1]=1\n" * 5000 + ".r = length(l)", {"l": NUMBERS}, MANY
    yield "the last place of a long array, removed 4,000 times", "del(l[-1])\n" * 4000 + ".r = length(l)", {"l": NUMBERS}, MANY - 4000
    yield "an array that grows at its front 5,000 times", "x = []\n" + "".join(f"x[-{i}]=1\n" for i in range(1, 5001)) + ".r = length(x)", small, 5000
    yield "the farthest place from the end, written 3,000 times", ".a[-65536]=1\n" * 3000 + ".r = length(.a)", small, 65536
    yield "an array that doubles", "x = l\n" + "x = append(x, x)\n" * 60 + ".r = length(x)", small, MEMORY
    yield "an array of itself", "x = l\n" + "x = [x, x]\n" * 60 + ".r = length(x)", small, MEMORY
    yield "quotes in quotes", "x = \"\\\"\"\n" + "x = encode_json(x)\n" * 60 + ".r = length(x)", small, MEMORY
    yield "a text in hex", "x = t\n" + "x = encode_base16(x)\n" * 60 + ".r = length(x)", small, MEMORY
    yield "the greatest place, 3,000 times", "".join(f".f{i}[65535] = 1\n" for i in range(3000)) + ".r = 1", small, MEMORY
    yield "the greatest place in an array, 3,000 times", "".join(f"x{i} = []\nx{i}[65535] = {i}\n" for i in range(1500)) + ".r = 1", small, MEMORY
    yield "100 copies of an event of 1 MB", "x = .\n" * 100 + ".r = length(x)", {"l": NUMBERS}, 1
    yield "1,000 copies of an event of 1 MB", "x = .\n" * 1000 + ".r = length(x)", {"l": NUMBERS}, 1
    yield "1,000 comparisons of an event of 1 MB", ".r = 0\n" + "if . == {\"l\": l, \"r\": 0} { x = 1 }\n" * 1000, {"l": NUMBERS}, 0
    known = "{" + ", ".join(f'"f{i}": 0' for i in range(990)) + "}"
    yield "20 joins of kinds whose product is a million parts", f"x = unique([{known}])\ny = [" + "0," * 990 + "]\n" + "if .t == \"a\" { z = x } else { z = y }\n" * 20 + ".r = 1", small, 1
    yield "2,000 variables of a large kind, and 2,000 choices", f"x = {known}\n" + "".join(f"a{i}=x\n" for i in range(2000)) + "if .t==1{.d=1}\n" * 2000 + ".r = 1", small, 1
    yield "an event of a large kind, and 2,500 choices", f". = {known}\n" + "if .f1==1{.f2=1}\n" * 2500 + ".r = 1", small, 1
    yield "an event of a large kind, and 5,000 writes", f". = {known}\n" + ".f2=0\n" * 5000 + ".r = 1", small, 1
    yield "the greatest place, written 3,000 times", ".a[65535]=1\n" * 3000 + ".r = length(array(.a) ?? [])", small, 65536
    yield "the greatest place of a variable, written 1,000 times", "x = []\n" + "x[65535]=1\n" * 1000 + ".r = length(x)", small, 65536
    for title, source, many in (("letters, repeated", r"\pL{60}", 256), ("letters, repeated twice", r"(?:\pL{20}){20}", 256), ("any letter, repeated", "(?s:.){1000}", 256), ("letters in any case", "(?i)" + "abcdefghij" * 20, 256),
                                ("one that outgrows the budget", "a{1000}{1000}", 1), ("one that outgrows the budget by nested counts", "(((a{100}){100}){100}){100}", 1), ("many ways", "|".join(["ab", "cd", "ef"] * 7000), 1),
                                ("many classes", r"[\w&&[^a-z]--\d]" * 3500, 1), ("many words", r"\w+\b" * 10000, 1), ("many stars", ".*" * 30000, 1), ("groups in one another", "(" * 30000 + ")" * 30000, 1), ("many groups", "()" * 30000, 1),
                                ("names of groups", "".join(f"(?P<n{i}>a)" for i in range(4000)), 1), ("counts of nothing", "(?:){4294967295}" * 3000, 1), ("a count that is too great", "a{99999999999}", 1), ("an open class", "[" * 60000, 1)):
        yield f"{many} regexes: {title}", "\n".join([f"p = r'{source}'"] * (many - 1)) + f"\n.r = match(t, r'{source}')", small, None


def loops():
    """The same: loops."""
    small = {"t": "a", "l": [1], "o": {"a": 1}}
    counted = "n = 0\n" + "for_each(l) -> |_, _| { %s }\n.r = n"
    yield "a loop over an array", counted % "n = n + 1", {"l": NUMBERS}, MANY
    for depth, many in ((2, 900), (3, 90), (4, 30)):
        inside = "n = n + 1"
        for _ in range(depth - 1):
            inside = f"for_each(l) -> |_, _| {{ {inside} }}"
        yield f"{depth} loops in one another over {many} items", counted % inside, {"l": list(range(many))}, many ** depth
    yield "a loop over an object", "n = 0\nfor_each(o) -> |k, v| { n = n + length(k) }\n.r = n", {"o": FIELDS}, sum(len(name) for name in FIELDS)
    yield "filter", ".r = length(filter(l) -> |_, v| { v != 1 })", {"l": NUMBERS}, MANY - 1
    yield "map_values", ".r = length(map_values(l) -> |v| { [v, v] })", {"l": NUMBERS}, MANY
    yield "map_keys, all equal", ".r = map_keys(o) -> |k| { \"a\" }", {"o": FIELDS}, {"a": FIELDS[max(FIELDS)]}
    yield "a loop that copies the event 100 times", "x = 0\nfor_each(n) -> |_, _| { x = . }\n.r = length(object!(x))".replace("(n)", "([" + "0," * 100 + "])"), {"l": NUMBERS}, 1
    yield "a loop that doubles an array", "x = l\nfor_each([" + "0," * 60 + "]) -> |_, _| { x = append(x, x) }\n.r = length(x)", small, MEMORY
    yield "a loop that nests a value", "x = null\nfor_each(l) -> |_, _| { x = [x] }\n.r = 1", {"l": list(range(128))}, 1
    tries = "w = x; x = y; y = z; z = \"s\"; "
    body = tries + ".d = 1;" * 8000
    for _ in range(4):
        body = "for_each(l) -> |_, _| { " + tries + body + " }"
    yield "four loops in one another that are judged three times each, 56 KB", "w = 1\nx = 1\ny = 1\nz = 1\n" + body + "\n.r = 1", small, 1
    yield "1,500 loops, one after another", "for_each(l) -> |k, v| { .d = v }\n" * 1500 + ".r = 1", small, 1


# What may take longer than two processor seconds, with those that it may take and the reason.
FILLS = "fills a gigabyte with small values"
COMPARES = "compares, at each place of the text, nearly all of what is looked for"
WALKS = "reads, copies or compares some 500 million parts"
PLACES = "makes 65,536 places at each write"
BUILDS = "builds regexes that take megabytes"
DEAR = {
    **{title: (20, FILLS) for title in ("an array that doubles", "an array of itself", "quotes in quotes", "flatten of an object by much", "a loop that doubles an array")},
    "parse_key_value, a delimiter that almost stands there": (20, COMPARES),
    "the greatest place, 3,000 times": (40, FILLS),
    "the greatest place in an array, 3,000 times": (40, FILLS),
    "the greatest place, written 3,000 times": (40, PLACES),
    "the farthest place from the end, written 3,000 times": (40, PLACES),
    "the greatest place of a variable, written 1,000 times": (20, PLACES),
    "1,000 copies of an event of 1 MB": (20, WALKS),
    "1,000 comparisons of an event of 1 MB": (20, WALKS),
    "20 joins of kinds whose product is a million parts": (20, "joins kinds of a million parts"),
    "2,000 variables of a large kind, and 2,000 choices": (900, "holds 2,000 kinds of 990 parts each against what they were, behind each of 2,000 choices"),
    "256 regexes: letters, repeated twice": (30, BUILDS),
    "1 regexes: many stars": (10, BUILDS),
}


def limits_of(title, wanted):
    """What is set for a use: less memory where it wants more than there is, and as many seconds as it may take."""
    cpu, memory = programs.LIMITS
    return (cpu[0], max(cpu[1], DEAR.get(title, (0, ""))[0])), (memory[0], 1 << 30) if wanted[2] == 5 else memory


def case(title, body, event, wanted, whole=False):
    """A use's script and its line, and what is wanted of it."""
    script = (BEGIN + (body if whole else ".r = " + body) + END).encode()
    line = json.dumps(event, separators=(",", ":"), ensure_ascii=False).encode()
    assert len(line) <= LONGEST and len(script) <= 65536, (title, len(line), len(script))
    if wanted is MEMORY:
        return script, line, (b"", b"", 5)
    if wanted is EITHER:
        return script, line, (None, b"", (0, 5))
    return script, line, (json.dumps({"r": wanted}, separators=(",", ":"), ensure_ascii=False).encode() + b"\n", b"", 0)


def main():
    words = argparse.ArgumentParser(description="functions over long values, and scripts that make long ones")
    words.add_argument("--program", required=True)
    words.add_argument("--only", default="")
    given = words.parse_args()
    uses = programs.Uses(DEAR)
    every = [(*one, False) for one in [*texts(), *parts()]] + [(*one, True) for one in [*scripts(), *loops()]]
    with programs.Program(given.program) as program:
        for title, body, event, wanted, whole in every:
            if given.only in title:
                script, line, wanted = case(title, body, event, wanted, whole)
                if "regexes:" in title:
                    # What the crate takes is told by other trials; here it is refused, wants memory or runs.
                    wanted = None, None, (0, 1, 5)
                told = program.run(script, line, (), limits_of(title, wanted))
                uses.tell(title, program.seconds, told, wanted)
    print(f"long values: {uses.tried} uses, {uses.differences} differences")
    return 1 if uses.differences else 0


if __name__ == "__main__":
    sys.exit(main())
