"""Arguments of the functions over types and numbers at random, and what is known of them. This file runs nothing by itself."""

import some_kinds
from reading import functions, kinds
from reading.kinds import ANY, JSON, NEVER, SCALARS, TAGS, scalars
from second_rows import FIRST_SECOND, GREATEST, LAST_SECOND, LEAST, ROWS, WHITE, Given, numeral

SOURCES = ["a+", r"\d", "(?P<k>x)"]
# The tag that a function's name speaks of.
NAMED = {**{f"is_{tag}": tag for tag in TAGS}, "string": "string", "int": "integer", "bool": "boolean", "timestamp": "timestamp", "array": "array", "object": "object"}
NUMBERS = [0, 1, -1, 2, -2, 3, -3, 5, 7, 8, 9, 10, 35, 36, 37, 255, 256, 2 ** 31, 2 ** 32, GREATEST, GREATEST - 1, LEAST, LEAST + 1, LEAST // 2, GREATEST // 2 + 1]
BORDERS = [LEAST, LEAST, LEAST - 1, LEAST + 1, GREATEST, GREATEST, GREATEST + 1, 2 ** 64 - 1, 2 ** 64, -2 ** 64, 2 ** 65 + 3, 10 ** 30]
PREFIXES = ["", "0", "0b", "0o", "0x", "0B", "0O", "0X", "x", "0x0"]
BEHIND = ["", "", "0", "1", "7", "8", "9", "10", "a", "F", "g", "Z", "-1", "+1", "_1", "\u212a", "\uff11"]
JUNK = [" ", "_1", ".0", "e3", "\u0661", "\uff11", "\0", "\n", "l", "-", "+", "g", "z", "@", "/", ":", "`", "{", "\u212a", "\u017f"]
PAIRS = [(LEAST, -1), (LEAST, 1), (LEAST, LEAST), (GREATEST, LEAST), (LEAST, GREATEST), (-7, 3), (7, -3), (-7, -3), (0, -1), (-1, LEAST)]
BASES = [2, 8, 10, 16, 36, 3, 35, 1, 37, 0, -1, -2, -10, 64, LEAST, GREATEST, 2 ** 32 + 10, 2 ** 8 + 2]
SECONDS = [0, -1, 1, FIRST_SECOND, FIRST_SECOND + 1, LAST_SECOND, LAST_SECOND - 1, -62135596800, -62135596801, -62162035201, 951782399, 951782400, 951868800, -2208988801, 4107542400, 1700000000]
FRACTIONS = [0, 0, 1, 500000000, 120000000, 1000, 1000000, 999999999, 999999000, 123456000, 100, 10]
WORDS = ["true", "t", "yes", "y", "1", "false", "f", "no", "n", "0"]
NO_WORDS = ["on", "off", "", "tr", "yess", "tt", "10", "00", "-1", "+1", "ye\u017f", "fal\u017fe", "\uff54", "n\u03bf", "null", "2"]
NEARLY_WHITE = ["\x1c", "\x1f", "\0", "\u180e", "\u200b", "\u2060", "\ufeff", "\u2800", "-", "--", "_", "\u2010", "\u2212", "a"]
LETTERS = list("aAzZ09 _-+\"\\/.\n\t\0\x7f") + ["é", "ß", "\u0130", "\u212a", "\u0661", "\uff11", "\u2028", "\U0001f600", "\U0010ffff", "\ue000", "\u0301"]
NAMES = ["", "a", "b", "aa", "A", "a.b", "é", "\U0001f600", "x y", "\"", "0", "\uffff"]


class Maker:
    def __init__(self, rng):
        self.rng, self.shapes = rng, some_kinds.Maker(rng)

    def chance(self, part):
        return self.rng.random() < part

    def text_of_number(self, base=None):
        pick = self.rng.choice
        base = base if base and 2 <= base <= 36 else pick([2, 8, 10, 10, 10, 16, 16, 36, self.rng.randint(2, 36)])
        how = self.rng.random()
        if how < 0.1:
            return numeral(pick(BORDERS), base)
        if how < 0.4:
            return pick(["", "", "-", "+"]) + pick(PREFIXES) + pick(BEHIND)
        if how < 0.5:
            prefix, base = pick([("0b", 2), ("0o", 8), ("0x", 16), ("0", 8), ("", 10)])
            number = pick(BORDERS)
            return ("-" if number < 0 else pick(["", "+"])) + prefix + numeral(abs(number), base)
        number = abs(pick(NUMBERS)) if self.chance(0.4) else self.rng.getrandbits(pick([3, 3, 10, 40, 63, 63, 64]))
        digits = numeral(number, base)
        if self.chance(0.4):
            digits = "".join(one.upper() if self.chance(0.5) else one for one in digits)
        if self.chance(0.1):
            digits = "0" * pick([1, 2, 30, 70]) + digits
        sign = pick(["", "", "", "", "-", "-", "-", "+", "+"]) if self.chance(0.93) else pick(["--", "+-", "-+", "++", " ", "- ", "\u2212", "\uff0d"])
        return sign + digits + (pick(JUNK) if self.chance(0.12) else "")

    def word(self):
        told = "".join(one.upper() if self.chance(0.4) else one for one in self.rng.choice(WORDS))
        if self.chance(0.25):
            return self.rng.choice(NO_WORDS)
        return self.rng.choice([" ", ""]) + told + self.rng.choice([" ", "", "\n", "e"]) if self.chance(0.2) else told

    def blank(self):
        if self.chance(0.1):
            return self.rng.choice(["-", "--", "- ", " -", "null", "\n-\n"])
        told = [self.rng.choice(WHITE) for _ in range(self.rng.randrange(6))]
        if self.chance(0.35):
            told.insert(self.rng.randint(0, len(told)), self.rng.choice(NEARLY_WHITE))
        return "".join(told)

    def letters(self):
        return "".join(self.rng.choice(LETTERS) if self.chance(0.7) else chr(self.rng.choice([self.rng.randrange(0xd800), self.rng.randrange(0xe000, 0x110000)]))
                       for _ in range(self.rng.choice([0, 1, 1, 2, 3, 8, 40])))

    def text(self):
        return self.rng.choice([self.text_of_number, self.word, self.blank, self.letters])()

    def number(self):
        if self.chance(0.5):
            return self.rng.choice(NUMBERS)
        return max(LEAST, min(GREATEST, self.rng.getrandbits(self.rng.choice([3, 8, 20, 40, 63])) * self.rng.choice([1, -1]) + self.rng.choice([0, 0, 1, -1])))

    def moment(self):
        seconds = self.rng.choice(SECONDS) if self.chance(0.5) else self.rng.randint(FIRST_SECOND, LAST_SECOND)
        fraction = self.rng.choice(FRACTIONS) if self.chance(0.8) else self.rng.randrange(10 ** 9)
        return seconds * 10 ** 9 + fraction

    def value(self, tag, depth=3):
        if tag in ("array", "object"):
            size = self.rng.choice([0, 0, 1, 1, 2, 3, 5]) if depth else 0
            inner = [self.value(self.rng.choice(TAGS + ("array", "object")), depth - 1) for _ in range(size)]
            if self.chance(0.02):
                inner = [self.deep(self.rng.choice([8, 31, 33]))]
            if tag == "array":
                return tag, tuple(inner)
            return tag, tuple(sorted({self.rng.choice(NAMES): one for one in inner}.items(), key=lambda pair: pair[0].encode()))
        return tag, {"string": self.text, "integer": self.number, "boolean": lambda: self.chance(0.5), "null": lambda: None, "timestamp": self.moment,
                     "regex": lambda: self.rng.randrange(len(SOURCES))}[tag]()

    def deep(self, depth):
        value = ("integer", 1)
        for _ in range(depth):
            value = ("array", (value,)) if self.chance(0.5) else ("object", (("a", value),))
        return value

    def kind_about(self, value):
        """A kind that the value inhabits."""
        exact, how = kinds.kind_of(value), self.rng.random()
        if how < 0.3:
            return exact
        if how < 0.38:
            return ANY
        if how < 0.48:
            return kinds.join(exact, JSON)
        if how < 0.7:
            return kinds.join(exact, self.shapes.kind(2))
        if how < 0.85:
            return kinds.join(exact, kinds.kind_of(self.value(self.rng.choice(TAGS))))
        return kinds.join(exact, scalars(*self.rng.sample(SCALARS, self.rng.randrange(1, 6))))

    def kind(self):
        how = self.rng.random()
        if how < 0.15:
            return self.rng.choice([ANY, JSON, NEVER, NEVER, scalars(*SCALARS)])
        if how < 0.4:
            return scalars(*self.rng.sample(SCALARS, self.rng.randrange(1, 4)))
        return self.shapes.kind(3) if how < 0.7 else self.kind_about(self.value(self.rng.choice(TAGS)))

    def given(self, value):
        if value[0] not in ("array", "object") and self.chance(0.35):
            return Given(kinds.kind_of(value), value)
        return Given(self.kind_about(value))

    def other_given(self, parameter):
        """What may be known of an argument that isn't made: a kind, or a literal of a tag that the parameter allows."""
        tags = [tag for tag in parameter.tags if tag in SCALARS]
        if tags and self.chance(0.1):
            literal = self.value(self.rng.choice(tags))
            return Given(kinds.kind_of(literal), literal)
        return Given(self.kind())

    def arguments(self, name):
        """Arguments of the tags that the parameters allow, with texts and numbers that go together."""
        row = ROWS[name]
        args = [self.value(self.rng.choice(one.tags)) if one.required or self.chance(0.65) else None for one in row.parameters]
        if name in NAMED and self.chance(0.35):
            args[0] = self.value(NAMED[name])
        if name == "to_bool" and self.chance(0.5):
            args[0] = ("string", self.word())
        if name == "to_int" and self.chance(0.45) or name == "parse_int" and self.chance(0.8):
            args[0] = ("string", self.text_of_number(10 if name == "to_int" and self.chance(0.8) else None))
        if name == "is_nullish" and self.chance(0.5):
            args[0] = ("string", self.blank())
        if name in ("parse_int", "format_int") and args[1]:
            base = self.rng.choice(BASES) if self.chance(0.5) else self.rng.randint(2, 36)
            args[1] = ("integer", base)
            if name == "parse_int" and self.chance(0.7):
                args[0] = ("string", self.text_of_number(base))
        if name == "mod":
            modulus = 0 if self.chance(0.05) else args[1][1]
            value = max(LEAST, min(GREATEST, modulus * self.rng.randint(-3, 3) + self.rng.choice([0, 0, 1, -1]))) if self.chance(0.2) else args[0][1]
            pair = self.rng.choice(PAIRS) if self.chance(0.1) else (value, modulus)
            args = [("integer", one) for one in pair]
        return args

    def keywords(self, name):
        words = [one.name for one in ROWS[name].parameters] + ["base", "Value", ""]
        return [self.rng.choice(words[:3] if self.chance(0.8) else words) if self.chance(0.5) else None for _ in range(self.rng.choice([0, 1, 1, 2, 2, 3]))]

    def other_name(self):
        """A name that no function of the language has."""
        while True:
            name = self.rng.choice(list(ROWS) + list(functions.ROWS))
            place = self.rng.randint(0, len(name))
            told = self.rng.choice([name.upper(), name.title(), name + " ", " " + name, name + "!", name[:-1], name[1:], name + name, name.replace("_", "-"), name + "\u200b", "", "_",
                                    name[:place] + self.rng.choice("aest_0é") + name[place:], name[:place] + name[place + 1:], "is_" + name, "to_" + name])
            if told not in functions.ROWS and told not in ROWS:
                return told
