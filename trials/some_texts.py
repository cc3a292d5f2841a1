"""Texts at random for the other trials: from the productions, spoilt ones, and texts about the limits. This file runs nothing by itself."""

from reading.tokens import BINARY

FIELDS = ["a", "b", "x1", "_", "@t", "if", '"a b"', '"\\""', '"{{"', '"\\{{ a }}"', '""', "9"]
NAMES = ["x", "y", "k", "v", "_", "err", "value", "s", "r", "t"]
FUNCTIONS = ["del", "del!", "to_int", "upcase!", "foo", "for_each", "exists", "_"]
LITERALS = [
    "0", "1", "-1", "1_000", "9223372036854775807", "-9223372036854775808", '"a"', '""', '"\\n\\0"', '"a\nb"', "s'a'", "s'\\''",
    '"\\{{ 1 }}"', '"{{ x }}"', '"a{{y}}\\{{{ _\t}}"', "r'a+'", "r'\\d'", "t'2024-01-02T03:04:05Z'", "t'2024-02-29t00:00:00.5+01:00'", "true", "false", "null",
]
ODD = [
    "1.5", "1e5", "1E+5", "1_", "1__0", "12x", "9223372036854775808", "-9223372036854775809", "99999999999999999999x", '"{{ a }}"',
    '"{{ 1 }}"', '"{{ if }}"', '"{{}}"', '"{{{ a }}"', '"{{ a }}}"', '"{{ a }"', '"{{"', '"{{ a.b }}"', '"{{ a\n}}"', '"\\}"', '"\\{{{a}}"', '"\\\\{{ 1 }}"', '"{{ 1 }}\\q"', '"{{ \\" }}"', "s'{{ a }}'",
    ".a[-1]", ".a[-65536]", ".a[-65537]", '."\\{"',
    '"\\q"', '"\\q{{"', '"a', "s'a", "r'", "t'now'", "t'2023-02-29T00:00:00Z'", "/", "%", "??=", "?", "&", "@", "'", "é", "\\", "$",
    ".a[9223372036854775808]", 'a."\\q"', '."a', "x[-1]", ".a[65535]", ".a[65536]", ".a[-0]", ".[0]", ". a", "..a", "a.", "x[ 0]",
    "%a", "%[0]", "%.a", "%%", '%"q', '%"\\q"', "%[-1]", "% a", "5 % 2", "5%2", "%-1", "% -1", "%=", "x%y", "%if", "%@t[65536]",
    "-", "->", "=", "|=", "==", "!", "|", "||", "(", ")", "[", "]", "{", "}", ",", ":", ";", "\n", "if", "else", "abort",
    "return", "# c\n", "|v|", "-> |v| {", "- 1", "-1", "--1", "1-1", "f!(", "f!", "if(", "x!", "1.", ".5", "[0]", ".a",
]
BLANKS = [" ", " ", " ", " ", "  ", "\t", "\r", "\n", "\n ", " # c\n", ""]
BINARIES = sorted(BINARY)
# What stands beside templates, and what stands at the end of a text alone: in front of a template it would be a part of a wrong one.
BESIDE = ["", "", "", "a", " ", "-", "é", "}", "}}", "$1", "#", ";", "'", "\n", "\\n", "\\{", "\\{\\{", "\\{{ x }}", "\\\\", '\\"', "\\0"]
LAST = BESIDE + ["{", "{ {", "{ x }}"]
WRONG = ["{{ 1 }}", "{{}}", "{{ if }}", "{{ x.a }}", "{{ .a }}", "{{ % }}", "{{ x[0] }}", "{{ x", "{{ x }", "{{ x } }", "{{ x y }}", "{{\nx }}", "{{ x\n}}", "{{{ x }}", "{{ é }}", "{{ \\n }}", "{{ \\q }}", "\\}", "{{ s'x' }}"]


def some_moment(rng):
    """A timestamp literal, mostly one that has a reading."""
    pick = rng.choice
    parts = ["%04d-%02d-%02d" % (rng.randrange(10000), rng.randrange(1, 13), rng.randrange(1, 29)), pick("TTTt"),
             pick(["00:00:00", "23:59:59", "07:08:09"]), pick(["", "", ".5", ".120", ".1234", ".000001", ".123456789", ".0"]),
             pick(["Z", "Z", "z", "+00:00", "-00:00", "+01:00", "-23:59", "-00:01"])]
    edges = [["2024-02-29", "2023-02-29", "2000-02-29", "1900-02-29", "0000-01-01", "0000-02-29", "9999-12-29", "9999-12-30", "1969-12-31", "2024-04-31",
              "2024-13-01", "2024-00-10", "2024-1-02", "02024-01-02", "2024-12-31", "1600-02-29", "2024-01-32"], [" ", ""],
             ["24:00:00", "12:60:00", "12:00:60", "7:08:09", "07:08"], [".1234567890", "."], ["+24:00", "+01:60", "+0100", "", " Z"]]
    if rng.random() < 0.3:
        part = rng.randrange(5)
        parts[part] = pick(edges[part])
    return "t'" + "".join(parts) + "'"


def some_text(rng, names, wrong):
    """A text with 0 to 32 templates of these names; one of them, or an escape, is wrong at this rate."""
    blank = lambda: rng.choice(["", "", " ", " ", " ", "\t", "  ", "\r", " \t "])
    pieces = []
    for _ in range(rng.choice([0, 1, 1, 1, 1, 1, 2, 2, 2, 3, 5]) if rng.random() < 0.98 else rng.choice([10, 20, 29, 30, 31, 32])):
        pieces += [rng.choice(BESIDE), "{{" + blank() + rng.choice(names) + blank() + "}}"]
    pieces.append(rng.choice(LAST))
    if rng.random() < wrong:
        pieces.insert(rng.randrange(len(pieces)), rng.choice(WRONG))
    return '"' + "".join(pieces) + '"'


class Maker:
    """Texts from the productions, as lists of spellings."""

    def __init__(self, rng):
        self.rng = rng

    def script(self, depth):
        out = [self.sep()] if self.rng.random() < 0.1 else []
        for number in range(self.rng.randrange(4)):
            if number:
                out.append(self.sep())
            out += self.item(depth)
        return out + ([self.sep()] if self.rng.random() < 0.1 else [])

    def sep(self):
        return self.rng.choice(["\n", "\n", ";", "\n\n", "\n;"])

    def item(self, depth):
        if self.rng.random() < 0.1:
            return self.target() + [","] + self.target() + ["="] + self.single(depth)
        return self.single(depth)

    def single(self, depth):
        pick = self.rng.random()
        if pick < 0.25:
            return self.target() + ["="] + self.single(depth - 1)
        if pick < 0.3:
            return self.target() + ["|="] + self.single(depth - 1)
        if pick < 0.33:
            return ["return"] + self.single(depth - 1)
        if pick < 0.37:
            return ["abort"] + (self.single(depth - 1) if self.rng.random() < 0.5 else [])
        return self.operands(depth)

    def operands(self, depth):
        out = self.unary(depth)
        while self.rng.random() < 0.3:
            out += [self.rng.choice(BINARIES)] + self.unary(depth)
        return out

    def unary(self, depth):
        return (["!"] if self.rng.random() < 0.08 else []) + self.primary(depth)

    def primary(self, depth):
        pick = self.rng.random()
        if pick < 0.03:
            return [some_moment(self.rng)]
        if pick < 0.07:
            return [some_text(self.rng, NAMES, 0.15)]
        if depth <= 0 or pick < 0.3:
            return [self.rng.choice(LITERALS)] if self.rng.random() < 0.5 else self.target()
        if pick < 0.5:
            return self.call(depth - 1)
        if pick < 0.6:
            return self.suffixed(["["] + self.listed(lambda: self.single(depth - 1)) + ["]"])
        if pick < 0.7:
            return self.suffixed(["("] + self.item(depth - 1) + [")"])
        if pick < 0.8:
            pair = lambda: [self.rng.choice(['"a"', '"b"', '"a\\""', '"\\{{ a }}"'] + ['"{{ a }}"'] * (self.rng.random() < 0.1))] + [":"] + self.single(depth - 1)
            return ["{"] + self.listed(pair) + ["}"]
        if pick < 0.9:
            return self.block(depth - 1)
        out = ["if"] + self.operands(depth - 1) + self.block(depth - 1)
        while self.rng.random() < 0.3:
            out += ["else", "if"] + self.operands(depth - 1) + self.block(depth - 1)
        return out + (["else"] + self.block(depth - 1) if self.rng.random() < 0.4 else [])

    def listed(self, part):
        out = []
        for number in range(self.rng.randrange(3)):
            out += ([","] if number else []) + part()
        return out + ([","] if out and self.rng.random() < 0.2 else [])

    def suffixed(self, out):
        if self.rng.random() < 0.2:
            out[-1] += self.rng.choice(["[0]", "[-1]", ".a", '."a b"', ".a[1]"])
        return out

    def call(self, depth):
        def argument():
            return ([self.rng.choice(NAMES), ":"] if self.rng.random() < 0.2 else []) + self.single(depth)
        out = [self.rng.choice(FUNCTIONS) + "("] + self.listed(argument) + [")"]
        if self.rng.random() < 0.25:
            names = [self.rng.choice(NAMES)] + ([",", self.rng.choice(NAMES)] if self.rng.random() < 0.6 else [])
            return out + ["->", "|"] + names + ["|"] + self.block(depth)
        return self.suffixed(out)

    def block(self, depth):
        return ["{"] + self.script(depth) + ["}"]

    def target(self):
        out = self.rng.choice([".", ".", "%", "%"] + NAMES)
        first = out in ".%"
        for _ in range(self.rng.choice([0, 0, 1, 1, 2])):
            if self.rng.random() < 0.25:
                out += "[" + self.rng.choice(["0", "1", "-1", "-2", "-0", "65535", "65536", "-65536", "-65537", "9223372036854775807"]) + "]"
            else:
                out += ("" if first else ".") + self.rng.choice(FIELDS)
            first = False
        return [out]

    def spoil(self, pieces):
        pieces = list(pieces)
        for _ in range(self.rng.choice([1, 1, 1, 2])):
            at = self.rng.randrange(len(pieces) + 1)
            how = self.rng.randrange(5)
            if how == 0:
                del pieces[at:at + 1]
            elif how == 1:
                pieces[at:at] = pieces[at:at + 1]
            elif how == 2:
                pieces[at:at + 2] = pieces[at:at + 2][::-1]
            elif how == 3:
                pieces[at:at] = [self.rng.choice(ODD + LITERALS)]
            else:
                pieces[at:at + 1] = [self.rng.choice(ODD + LITERALS)]
        return pieces

    def joined(self, pieces):
        tight = self.rng.random() < 0.1
        out = ""
        for piece in pieces:
            blank = "" if tight else self.rng.choice(BLANKS[:6]) if self.rng.random() < 0.93 else self.rng.choice(BLANKS)
            out += piece if piece and piece[0] in "([.:,)" and self.rng.random() < 0.5 else blank + piece
        return out

    def spoil_characters(self, text):
        for _ in range(self.rng.choice([1, 1, 2])):
            at = self.rng.randrange(len(text) + 1)
            how = self.rng.randrange(4)
            one = self.rng.choice("\"'\\{}()[]|&?=!<>+-*/%.,:;#_@01ae \n\té")
            text = text[:at] + {0: "", 1: one, 2: text[at:at + 1] * 2, 3: one + text[at:at + 1]}[how] + text[at + 1:]
        return text

    def deep(self):
        """Nesting about the limit."""
        size = self.rng.choice([1, 2, 5, 20, 61, 62, 63, 64, 65, 66])
        core = self.rng.choice(["1", "x = 1", "!true", "", "1 + 1", "f(1)", "{}", "if x {}", "abort", '"{{ x }}"', '"{{ x }}{{ x }}"'])
        openings = self.rng.choice([["("], ["["], ["{"], ["!"], ["(", "[", "{", "!", "- ", "x = ", "return ", "1 + ", "if "], ["x = "],
                                    ["f("], ["1 + "], ["1 ?? ", "x || "], ["1,", "(1;"], ["{\"a\":"], ["(1)+"], ["(x|"], ['"{{ x }}" + ', "("]])
        picked = [self.rng.choice(openings) for _ in range(size)]
        closing = {"(": ")", "[": "]", "{": "}"}
        text = "".join(picked) + core
        if self.rng.random() < 0.9:
            for one in reversed(picked):
                text += "".join(closing[c] for c in reversed(one) if c in closing and not (one.startswith("(1)")))
        elif self.rng.random() < 0.5:
            text += " + 1" * self.rng.randrange(5)
        return text

    def bodies(self):
        size = self.rng.choice([1, 3, 4, 5, 6])
        text = "1"
        for _ in range(size):
            text = self.rng.choice(["f(x) -> |k, v| { %s }", "{ f() -> |v| { %s } }", "if x { f(1) -> |v| { %s } }"]) % text
        return text if self.rng.random() < 0.9 else text[:self.rng.randrange(len(text))]

    def text(self):
        pick = self.rng.random()
        if pick < 0.04:
            text = self.deep()
        elif pick < 0.06:
            text = self.bodies()
        else:
            pieces = self.script(3)
            if pick < 0.6:
                pieces = self.spoil(pieces)
            text = self.joined(pieces)
            if 0.6 <= pick < 0.7:
                text = self.spoil_characters(text)
        return text.encode("utf-8")


def hard_texts():
    for size in (65535, 65536, 65537):
        yield b".x = 1" + b" " * (size - 6)
        yield b"#" * size
        yield b'"' + b"a" * (size - 2) + b'"'
    yield b"\xff"
    yield b".x = \"\xc3\""
    yield b"\xef\xbb\xbf.x = 1"
    for size in (255, 256, 257):
        yield b"\n".join([b"r'a'"] * size)
    for size in (127, 128, 129, 200):
        yield b"x" + b".a" * size + b" = 1"
        yield b"del(x" + b"[0]" * size + b")"
        yield b"del(v: x" + b".a" * size + b")"
        yield b"y = x" + b".a" * size
        yield b"x" + b"[-1]" * size + b" = 1"
    for size in (1, 2, 29, 30, 31, 32, 33, 1000):
        for frame in (b"%s", b"x = %s", b"(%s)", b"x = %s + 1", b"f(%s, 1 + 1)", b"%s%s", b"%s; %s", b"[%s, %s]", b"{\"a\": %s}", b"{%s: 1}", b"f() -> |v| { %s }", b"if %s {}", b"!%s"):
            yield frame.replace(b"%s", b'"' + b"{{ x }}" * size + b'"')
    for odd in ODD + LITERALS + FIELDS:
        for frame in ("%s", ".x = %s", "x%s", "x %s 1", "(%s)", "[1]%s", "f(%s)", "f()%s", "{%s}", "%s = 1", "del(%s)", "x\n%s", "x%s\n",
                      "(x\n%s)", "1 %s", "if x %s {}", "f() -> |v|%s{}", "x, %s = 1", "%s%s", "-%s"):
            yield (frame.replace("%s", odd)).encode()
