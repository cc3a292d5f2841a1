"""Calls of functions for the other trials: at random, for scripts, and the rows' own examples. This file runs nothing by itself."""

from reading.functions import ROWS
from reading.kinds import TAGS
from some_texts import some_text

LITERALS = {
    "string": ['"s"', '""', '"a,b"', '"12"', '"a"', '"{\\"a\\": 1}"', '"k=v"', '"aGk="', '"2024-01-02T03:04:05Z"', '"-"', '"yes"', '"é b"', "s'0x1f'", '"http://u@h:81/p?q=1&q=2#f"',
               '"2024-01-02 03:04:05 +0100"', '"a=1&a=2&b"'],
    "integer": ["1", "0", "-1", "2", "16", "7"], "boolean": ["true", "false"], "null": ["null"],
    "timestamp": ["t'2024-01-02T03:04:05Z'", "t'1969-12-31T23:59:59.5Z'"], "regex": ["r'a'", r"r'(?P<k>\w)=(?P<v>\w)'", r"r'\d+'", "r'(?<c>[a-z])(x)?'"],
    "array": ["[]", "[1, 2]", '["a", "b"]', '[["a", 1]]', "[null, [1]]", "[1, \"s\"]", "[r'a']", '["a", 0]'],
    "object": ["{}", '{"a": 1}', '{"a": "s", "b": {"a": 2}}', '{"a.b": null}', ".", "%"],
}
CLOSED = ["for_each", "for_each", "filter", "map_values", "map_keys"]
VARIANTS = {"variant": ['"SHA-256"', '"SHA-1"'], "format": ['"%+"', '"%Y-%m-%d %H:%M:%S %z"', '"%Y-%m-%d"', '"%Y"', '"%j"', '"%"'], "unit": ['"seconds"', '"nanoseconds"', '"days"']}


def fitting(maker, parameter, depth):
    rng = maker.rng
    if parameter.name in VARIANTS and rng.random() < 0.9:
        return rng.choice(VARIANTS[parameter.name])
    pick = rng.random()
    if pick < 0.55 or (parameter.literal and pick < 0.9):
        return rng.choice(LITERALS[rng.choice(sorted(parameter.tags))])
    return rng.choice(maker.PLACES) if pick < 0.8 else maker.expression(depth - 1)


def call(maker, depth):
    rng = maker.rng
    every = maker.names or sorted(ROWS)
    name = maker.pick((rng.choice(every), 6), ("del", 1.5), ("exists", 1), (rng.choice(CLOSED), 3 if "for_each" in every else 0),
                      (rng.choice(["to_int", "to_string", "push" if "push" in every else "mod"]), 2))
    row = ROWS[name]
    arguments, named = [], False
    for one in row.parameters:
        if one.required or rng.random() < 0.4:
            value = maker.place() if row.path and rng.random() < 0.95 else fitting(maker, one, depth)
            named = named or rng.random() < 0.15
            arguments.append((one.name + ": " if named else "") + value)
        else:
            named = True
    noise = rng.random()
    if noise < 0.02:
        arguments = arguments[1:]
    elif noise < 0.04:
        arguments.append(rng.choice(["1", "value: 1", "v: 1"]))
    elif noise < 0.045 and arguments:
        arguments[-1] = "v: 1"
    elif noise < 0.05:
        name = "no_such"
    if named and rng.random() < 0.3:
        rng.shuffle(arguments)
    bang = 0.04 if row.path or (row.may_fail is False and all(p.tags == frozenset(TAGS) for p in row.parameters)) else 0.4
    text_ = name + ("!" if rng.random() < bang else "") + "(" + ", ".join(arguments) + ")"
    if (row.names is not None) != (rng.random() < 0.02):
        names = [rng.choice(["k", "v", "_", "x", "y"]) for _ in range((row.names or 1) if rng.random() < 0.97 else 3)]
        return text_ + " -> |" + ", ".join(names) + "| { " + closure_body(maker, name, names, depth) + " }"
    return text_ + (rng.choice([".a", "[0]", "[-1]"]) if rng.random() < 0.1 else "")


def loop(maker):
    """Lines with a closure that takes more than one try to be kept."""
    pick = maker.rng.choice
    value = lambda: pick(["1", '"s"', "true", "null", "{}", "[1]", ".a", "v", "k", '{"a": x}', "[y]", "x", "%", "%a"])
    steps = [pick(["y = x", "x = y", ".a = y", ".a = x", f"x = {value()}", f"y = {value()}", f".a = {value()}", "x.a = y", "del(x.a)", "del(.a)", f"x[-1] = {value()}", f"x[-2] = {value()}", "del(x[-1])", "del(x.a[-2])", "y[-1] = x", ".a[-1] = y", "x = \"{{ k }}\" ?? \"{{ y }}\"",
                   "y = x; x = " + value(), "x, y = to_int(.a)", "y = .a", "if v == 1 { x = y }", ".b = x + 1 ?? 0",
                   "%a = y", f"%a = {value()}", "%b.a = x", "x = %a", "del(%a)", "del(%)", "% = {}", f"% = {{\"a\": {value()}}}", "%a, y = to_int(.b)"]) for _ in range(pick([1, 2, 3]))]
    first = f"x = {pick(['1', 'true', '{}', '[1]', 'null'])}\ny = {pick(['1', 'true', '{}', '[1]', 'null'])}\n"
    over = pick([".", "array!(.a)", "{\"a\": 1}", "[1, 2]", "[]", "object!(.b)", "%", "object!(%a)"])
    name = pick(["for_each", "for_each", "filter"])
    last = "; true" if name == "filter" else ""
    return f"{first}{name}({over}) -> |k, v| {{ {'; '.join(steps)}{last} }}"


def closure_body(maker, name, names, depth):
    rng = maker.rng
    items = [maker.items(min(depth - 1, 1))] if rng.random() < 0.6 else []
    if rng.random() < 0.5:
        items.append(rng.choice(["x = x + 1 ?? 0", "x = push(array(x) ?? [], %s)", ".a = %s", "x.a = %s", "del(.b)", "x = {\"a\": x}", "y = x",
                                 "x = %s", "y = x; x = %s", "x = y; y = %s", "x = if x == 1 { \"s\" } else { x }", "x[-1] = %s", "x[-2] = %s", "x.a[-1] = %s", ".a[-1] = %s", "del(x[-1])", "del(x[-2])", "del(.a[-1])",
                                 "%a = %s", "%a = x", "del(%b)", "del(%)", "% = {\"a\": %s}", "x = %a"]).replace("%s", rng.choice(names + ["1", '"s"', "x"])))
    if rng.random() < 0.1:
        items.append(rng.choice([".a = %s", "x = %s", "%a = %s", "x = %s ?? \"s\"", "x, y = %s"]).replace("%s", some_text(rng, [one for one in names if one != "_"] + ["x", "y"], 0.02)))
    last = {"filter": ["true", "%s == 1", "is_string(%s)", "%s"],
            "map_keys": ['"k"', "upcase(%s)", "%s", "to_string(%s) ?? \"q\"", '"k_{{ %s }}"']}.get(name, ["%s", "1", "[%s]", '"<{{ %s }}>"'])
    if name != "for_each" or rng.random() < 0.3:
        items.append(rng.choice(last).replace("%s", rng.choice([n for n in names if n != "_"] or ["1"])))
    return "; ".join(one for one in items if one)


# ---- rows: calls, and the JSON of their values

EXAMPLES = [
    ("is_array([])", "true"), ('is_nullish("-")', "true"), ('is_empty("")', "true"), ("int(3)", "3"), ("to_string(7)", '"7"'),
    ('to_int("-7")', "-7"),
    ('to_bool("Yes")', "true"), ('upcase("aé")', '"Aé"'), ('downcase("AB")', '"ab"'), ('strip_whitespace(" a ")', '"a"'),
    ('starts_with("Abc", "aB", case_sensitive: false)', "true"), ('ends_with("ab", "b")', "true"),
    ('contains("abc", "b")', "true"),
    ('length("é")', "2"), ('strlen("é")', "1"), ('truncate("abcd", 2, "..")', '"ab.."'), ('slice("abcd", 1, -1)', '"bc"'),
    ('join(["a","b"], "-")', '"a-b"'),
    ('split("a,b,c", ",", limit: 2)', '["a","b,c"]'), ('replace("aaa", "a", "b", count: 2)', '"bba"'), ('find("abc", "c")', "2"),
    ("match(\"ab\", r'b$')", "true"), ("match_any(\"ab\", [r'x', r'b'])", "true"),
    ("parse_regex(\"k=v\", r'(?P<a>\\w)=(?P<b>\\w)')", '{"a":"k","b":"v"}'),
    ("parse_regex_all(\"ab\", r'(?P<c>.)')", '[{"c":"a"},{"c":"b"}]'), ('push([1], "a")', '[1,"a"]'),
    ("append([1], [2])", "[1,2]"),
    ("includes([1], 1)", "true"), ("unique([1,1,2])", "[1,2]"), ("flatten([1,[2,[3]]])", "[1,2,3]"),
    ('chunks("abcde", 2)', '["ab","cd","e"]'),
    ('zip([1,2], ["a"])', '[[1,"a"]]'), ('compact([null,1,[""]])', "[1]"), ('keys({"b":1,"a":2})', '["a","b"]'),
    ('values({"b":1,"a":2})', "[2,1]"),
    ('get({"a":[5]}, ["a",0])', "5"), ('set({}, ["a",1], 2)', '{"a":[null,2]}'), ('remove({"a":1,"b":2}, ["a"])', '{"b":2}'),
    ('merge({"a":{"x":1}}, {"a":{"y":2}}, deep: true)', '{"a":{"x":1,"y":2}}'), ('unflatten({"a.b":1})', '{"a":{"b":1}}'),
    ('object_from_array([["a",1]])', '{"a":1}'), ('tally(["a","b","a"])', '{"a":2,"b":1}'), ('encode_base64("hi")', '"aGk="'),
    ('decode_base64("aGk=")', '"hi"'),
    ('encode_base16("hi")', '"6869"'), ('decode_base16("6869")', '"hi"'), ('encode_percent("a b")', '"a%20b"'),
    ('decode_percent("a%20b")', '"a b"'),
    ('md5("")', '"d41d8cd98f00b204e9800998ecf8427e"'), ('sha1("abc")', '"a9993e364706816aba3e25717850c26c9cd0d89d"'),
    ('sha2("abc", variant: "SHA-256")', '"ba7816bf8f01cfea414140de5dae2223b00361a396177a9cb410ff61f20015ad"'),
    ('parse_json("[1]")', "[1]"),
    ('encode_json({"a":[1,null]})', '"{\\"a\\":[1,null]}"'),
    ('parse_key_value("a=1 b=\\"x y\\" c")', '{"a":"1","b":"x y","c":true}'),
    ('encode_key_value({"a":1,"b":"x y"})', '"a=1 b=\\"x y\\""'), ('parse_csv("a,\\"b,c\\"")', '["a","b,c"]'),
    ('parse_query_string("?a=1&a=2&b=3")', '{"a":["1","2"],"b":"3"}'),
    ('parse_url("http://h:81/p?q=1#f")', '{"fragment":"f","host":"h","password":"","path":"/p","port":81,"query":{"q":"1"},"scheme":"http","username":""}'),
    ('parse_timestamp("2024-01-02 03:04:05 +0100", "%Y-%m-%d %H:%M:%S %z")', '"2024-01-02T02:04:05Z"'), ('parse_timestamp("2024-01-02T03:04:05z", "%+")', '"2024-01-02T03:04:05Z"'),
    ("format_timestamp(t'2024-01-02T03:04:05Z', \"%Y/%m/%d\")", '"2024/01/02"'),
    ("to_unix_timestamp(t'1970-01-01T00:00:01.5Z', unit: \"milliseconds\")", "1500"),
    ("from_unix_timestamp(1)", '"1970-01-01T00:00:01Z"'),
    ("abs(-3)", "3"), ("mod(-7, 3)", "-1"), ('parse_int("0x1f")', "31"), ("format_int(255, 16)", '"ff"'),
    ('truncate("abcd", -1)', '""'),
    ('push([1], "a")[1]', '"a"'), ('find("aéa", "a", from: 2)', "null"), ("split(\"a1b2\", r'\\d')", '["a","b",""]'),
    ('parse_key_value("a=")', '{"a":""}'),
    ('parse_csv("", ";")', "[]"), ('parse_query_string("a&a=1").a', '["","1"]'), ('split("a,b", ",")[1]', '"b"'),
    ('merge({"a":1}, {"a":"s"}).a', '"s"'),
    ("mod(-9223372036854775808, -1)", "0"), ("abs(-9223372036854775808)", "-9223372036854775808"), ('parse_int("-0b11")', "-3"),
    ('parse_int("017")', "15"),
    ("filter({\"a\":1,\"b\":2}) -> |k, v| { v > 1 }", '{"b":2}'), ("map_values([1,2]) -> |v| { v * 2 }", "[2,4]"),
    ("map_keys({\"a\":1}) -> |k| { upcase(k) }", '{"A":1}'), ("abs(-9223372036854775807)", "9223372036854775807"),
]
