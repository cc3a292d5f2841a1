"""Arguments of functions at random, at the edges of each, for `run_calls.py`. This file runs nothing by itself.

`Arguments.draw` gives a value for each parameter asked for, chosen so that those of one call go together: cuts about the
length of a text, paths that a value has, digits of a base, delimiters that stand in a text.
"""

import base64

import some_json_lines
import some_patterns
import some_urls
from reading import dates, json_lines, urls
from reading.functions import ROWS
from reading.functions_of_codecs import SHA2
from reading.functions_of_numbers import DIGITS
from reading.functions_of_strings import WHITE
from reading.functions_of_time import UNITS
from reading.kinds import TAGS
from reading.moments import FIRST_SECOND, LAST_SECOND, moment_text
from reading.values import flag, objects, plain, text

LEAST, GREATEST = -2 ** 63, 2 ** 63 - 1
LETTERS = ["a", "b", "B", "c", "z", "Z", "@", "[", "`", "{", "0", "9", "-", "_", ".", " ", "=", ",", ";", "\"", "\\", "'", "\n", "\t", "\r", "\0", "\x7f", "é", "É", "ß", "İ", "ſ", "\u212a",
           "中", "\u2028", "\ufeff", "\uffff", "\U0001f600", "\U0010ffff", "%", "+", "&", "?", "/", "$"]
WORDS = ["", "a", "ab", "abc", "aXb,a", "a,b,c", "é", "aéa", "k=v", "hello world", "-", "null", "true", "1", "x" * 40]
BLANKS = list(WHITE) + ["\u200b", "\ufeff", "\x1c", "\x1f", "\u180e"]
SIZES = [0, 1, 2, 3, 55, 56, 57, 63, 64, 65, 111, 112, 113, 119, 120, 127, 128, 129, 135, 136, 200, 1000]
SECONDS = [FIRST_SECOND, FIRST_SECOND + 1, LAST_SECOND, LAST_SECOND - 1, 0, -1, 1, 59, 60, 86399, 86400, -86400, 951782399, 951782400, 1709164800, 4107542399,
           -2203891200, -2208988800, -9223372037, -9223372036, 9223372036, 9223372037, 1700000000]
FRACTIONS = [0, 0, 1, 10, 999, 1000, 120000, 999999, 1000000, 500000000, 123456789, 999999999, 999000000]
NUMBERS = [0, 1, -1, 2, -2, 3, 7, 8, 9, 10, 16, 36, 37, 63, 64, 255, 256, 65535, 65536, -65536, 2 ** 31 - 1, 2 ** 31, -2 ** 31, 2 ** 32, 2 ** 53, 2 ** 62, GREATEST, GREATEST - 1, LEAST, LEAST + 1]
FORMATS = ["%+", "%Y-%m-%d %H:%M:%S %z", "%Y-%m-%dT%H:%M:%S%z", "%d/%m/%Y:%H:%M:%S %z", "%z %S.%M.%H %d-%m-%Y", "%Y%m%d%H%M%S%z", "%%%Y %m %d %H %M %S %z%%", "é%Y\t%m\n%d %H:%M:%S %z",
           "%H%M%S%Y%m%d%z", "%Y  %m-%d%H:%M:%S%z "]
SHOWN = FORMATS + ["", "%Y", "%Y/%m/%d", "%%", "%d%d", "a%zb", "%S%S%%", "é%M", "%Y%Y%m%m"]
PATTERNS = ["", "", "a", "b", ",", "=", "é", "aa", "ab", ", ", ".", "\n", "\U0001f600"]
TEMPLATES = ["", "x", "[$1]", "$k-$v", "${k}", "$$", "$1x", "${1}x", "$", "a$", "$0", "${0}${0}", "$9", "${", "${}", "${k", "$$1", "$é", "$k1", "${n1}${k1}", "\\1", "$ 1", "$_", "${+1}", "$01"]
DELIMITERS = ["=", ":", " ", ",", "", "==", "=>", "é", "\"", "\\", "\n", "  "]


class Arguments:
    def __init__(self, rng, sources):
        """sources: the regexes that arguments may have, as many as a script may hold."""
        self.rng, self.sources = rng, sources
        self.urls, self.lines = some_urls.Maker(rng), some_json_lines.Maker(rng)

    # ---- values of each tag

    def chance(self, share):
        return self.rng.random() < share

    def string(self, most=8):
        how = self.rng.random()
        if how < 0.35:
            return self.rng.choice(WORDS)
        if how < 0.9:
            return "".join(self.rng.choice(LETTERS) for _ in range(self.rng.randrange(most + 1)))
        return "".join(self.rng.choice("abé中") for _ in range(self.rng.choice([16, 64, 65, 200])))

    def number(self):
        how = self.rng.random()
        if how < 0.5:
            return self.rng.choice(NUMBERS)
        return max(LEAST, min(GREATEST, self.rng.getrandbits(self.rng.choice([3, 8, 20, 40, 63])) * self.rng.choice([1, -1]) + self.rng.choice([0, 0, 1, -1])))

    def near(self, size):
        """A count about a length, or far from it."""
        if self.chance(0.15):
            return self.rng.choice([LEAST, LEAST + 1, -2 ** 32, -2 ** 31 - 1, 2 ** 31, 2 ** 32, 2 ** 32 + 1, GREATEST])
        return self.rng.choice([0, 0, 1, -1, size, size - 1, size + 1, -size, -size - 1, 1 - size, size // 2, -(size // 2), self.rng.randint(-size - 2, size + 2)])

    def moment(self):
        seconds = self.rng.choice(SECONDS) if self.chance(0.6) else self.rng.randint(FIRST_SECOND, LAST_SECOND)
        return seconds * 10 ** 9 + self.rng.choice(FRACTIONS)

    def value(self, tag, depth=2, json=False):
        """json: no timestamp and no regex in it."""
        if tag in ("array", "object"):
            size = self.rng.choice([0, 1, 1, 2, 3, 5]) if depth else 0
            inner = [self.any(depth - 1, json) for _ in range(size)]
            if tag == "array":
                return tag, tuple(inner)
            return objects({self.rng.choice(["a", "b", "c", "a.b", "", "é", "x y", "\U0001f600", "A"]): one for one in inner})
        return tag, {"string": self.string, "integer": self.number, "boolean": lambda: self.chance(0.5), "null": lambda: None, "timestamp": self.moment,
                     "regex": lambda: self.rng.randrange(len(self.sources))}[tag]()

    def any(self, depth=2, json=False):
        tags = [tag for tag in TAGS if not json or tag not in ("timestamp", "regex")]
        return self.value(self.rng.choice(tags + ["array", "object"]), depth, json)

    def few(self, depth=1):
        """One of a few values, so that equal ones come again; some differ in their tag alone."""
        pick = self.rng.choice
        scalars = [("integer", 0), ("integer", 1), text("1"), text(""), text("a"), flag(True), flag(False), ("null", None), text("true"), text("null")]
        if depth and self.chance(0.35):
            inner = tuple(self.few(depth - 1) for _ in range(self.rng.randrange(3)))
            return ("array", inner) if self.chance(0.5) else objects({pick("ab"): one for one in inner})
        return pick(scalars)

    def texts(self, most=5, other=0.06):
        """An array of texts, at times with something else among them."""
        return "array", tuple(text(self.string(4)) if not self.chance(other) else self.any(1) for _ in range(self.rng.randrange(most + 1)))

    # ---- the arguments of a call

    def draw(self, name, given):
        """Values for these parameters, of tags that they allow but for a few."""
        row = ROWS[name]
        make = getattr(self, "for_" + name, None)
        made = make(given) if make else {}
        for one in row.parameters:
            if one.name in given and one.name not in made:
                made[one.name] = self.value(self.rng.choice(sorted(one.tags)))
        for one in row.parameters:
            if one.name in given and not one.literal and len(one.tags) < len(TAGS) and self.chance(0.015):
                made[one.name] = self.any(1)
        return {one.name: made[one.name] for one in row.parameters if one.name in given}

    def for_is_nullish(self, given):
        if self.chance(0.3):
            return {}
        one = "".join(self.rng.choice(BLANKS) for _ in range(self.rng.randrange(4)))
        return {"value": text(self.rng.choice([one, one, "-", one + "-", "--", "", "a" + one]))}

    def for_strip_whitespace(self, given):
        blanks = lambda: "".join(self.rng.choice(BLANKS) for _ in range(self.rng.randrange(4)))
        return {"value": text(blanks() + self.rng.choice(["", self.string(3), "a" + blanks() + "b"]) + blanks())}

    def number_text(self, base=None):
        rng = self.rng
        if self.chance(0.12):
            return rng.choice(["", "+", "-", "0", "-0", "+0", "00", "0x", "0b", "0o", "0_1", " 1", "1 ", "1_0", "+-1", "--1", "٣", "1.5", "1e3", "0X1", "0B1", "0O7", "08", "09", "07", "0x-1", "-0x", "+0b2", "０"])
        number = rng.choice([0, 1, 7, 2 ** 31, 2 ** 63 - 1, 2 ** 63, 2 ** 63 + 1, 2 ** 64, 10 ** 19, 2 ** 62, rng.getrandbits(rng.choice([3, 10, 40, 63, 64]))])
        radix, prefix = base, ""
        if base is None:
            radix, prefix = rng.choice([(10, ""), (10, ""), (16, "0x"), (2, "0b"), (8, "0o"), (8, "0")])
        digits = ""
        while number or not digits:
            digits = DIGITS[number % radix] + digits
            number //= radix
        if self.chance(0.3):
            digits = digits.upper()
        if self.chance(0.2):
            digits = "0" * rng.randrange(4) + digits
        told = rng.choice(["", "", "-", "+"]) + prefix + digits
        if self.chance(0.1):
            place = rng.randrange(len(told) + 1)
            told = told[:place] + rng.choice(["_", " ", "g", "z", "9", "x", "-", "é", DIGITS[radix] if radix < 36 else "{"]) + told[place:]
        return told

    def for_to_int(self, given):
        return {"value": text(self.number_text(10 if self.chance(0.8) else None))} if self.chance(0.6) else {}

    def for_parse_int(self, given):
        if "base" not in given:
            return {"value": text(self.number_text())}
        base = self.rng.choice([2, 8, 10, 16, 36, 35, 3, self.rng.randint(2, 36)])
        told = self.number_text(base if self.chance(0.85) else None)
        return {"value": text(told), "base": ("integer", base if self.chance(0.9) else self.rng.choice([0, 1, 37, -10, LEAST, GREATEST, 2 ** 32 + 10, 2 ** 32 + 16]))}

    def for_format_int(self, given):
        return {"base": ("integer", self.rng.randint(2, 36) if self.chance(0.85) else self.rng.choice([0, 1, 37, -2, LEAST, GREATEST, 2 ** 32 + 2, 2 ** 32 + 10]))}

    def for_mod(self, given):
        modulus = self.rng.choice([0, -1, 1, LEAST, GREATEST, 2, -2, 3, -3, self.number()])
        value = self.rng.choice([LEAST, GREATEST, 0, self.number(), self.number(), max(LEAST, min(GREATEST, modulus * self.rng.randint(-3, 3) + self.rng.choice([0, 1, -1])))])
        return {"value": ("integer", value), "modulus": ("integer", modulus)}

    def for_to_bool(self, given):
        words = ["true", "t", "yes", "y", "1", "false", "f", "no", "n", "0", "tru", "yess", " t", "on", "off", "", "ye\u017f", "2", "10", "T ", "ｔ", "\u212a"]
        one = self.rng.choice(words)
        return {"value": text("".join(self.rng.choice([c, c.upper() if c.isascii() else c]) for c in one))} if self.chance(0.6) else {}

    def for_starts_with(self, given):
        change = lambda s: "".join(c.swapcase() if c.isascii() and self.chance(0.3) else c for c in s)
        value, at = self.string(8) * self.rng.choice([1, 1, 2]), self.rng.randrange(3)
        cut = self.rng.randrange(len(value) + 1)
        size = self.rng.randrange(1, 4)
        part = [value[:cut], value[cut:], value[cut:cut + size]][at]
        part = self.rng.choice([part, part, change(part), change(part), part + "a", self.string(3), "", value + value])
        return {"value": text(value), "substring": text(part)}

    for_ends_with = for_contains = for_starts_with

    def for_truncate(self, given):
        value = self.string(8)
        return {"value": text(value), "limit": ("integer", self.near(len(value))), "suffix": text(self.rng.choice(["", "..", "…", "é", self.string(3)]))}

    def for_slice(self, given):
        value = text(self.string(8)) if self.chance(0.5) else self.value("array", 2)
        size = len(value[1])
        return {"value": value, "start": ("integer", self.near(size)), "end": ("integer", self.near(size))}

    def for_join(self, given):
        return {"value": self.texts(), "separator": text(self.rng.choice(["", "-", ", ", "é", self.string(3)]))}

    def for_tally(self, given):
        return {"value": ("array", tuple(text(self.rng.choice(["a", "b", "", "é", "A", "ab"])) if not self.chance(0.04) else self.any(1) for _ in range(self.rng.randrange(9))))}

    def for_includes(self, given):
        every = tuple(self.few(2) for _ in range(self.rng.randrange(6)))
        return {"value": ("array", every), "item": self.rng.choice(every) if every and self.chance(0.5) else self.few(2)} if self.chance(0.8) else {}

    def for_unique(self, given):
        return {"value": ("array", tuple(self.few(2) for _ in range(self.rng.randrange(10))))} if self.chance(0.8) else {}

    def nested(self, depth):
        """Arrays and objects in one another, many of them empty."""
        how = self.rng.random()
        if depth <= 0 or how < 0.3:
            return self.few(0)
        size = self.rng.choice([0, 0, 1, 2, 3])
        inner = [self.nested(depth - 1) for _ in range(size)]
        if how < 0.65:
            return "array", tuple(inner)
        return objects({self.rng.choice(["a", "b", "a.b", "", "c", ".", "é"]): one for one in inner})

    def of_tag(self, make, *tags):
        """What is made, once it has one of these tags."""
        while True:
            one = make()
            if one[0] in tags:
                return one

    def for_flatten(self, given):
        return {"value": self.of_tag(lambda: self.nested(5), "array", "object"), "separator": text(self.rng.choice([".", "", "_", "a", "..", "é", "."]))}

    def for_compact(self, given):
        return {"value": self.of_tag(lambda: self.nested(5), "array", "object")}

    def for_chunks(self, given):
        value = self.string(12)
        return {"value": text(value), "chunk_size": ("integer", self.rng.choice([1, 2, 3, 3, 5, self.near(len(value))]))}

    def steps(self, value):
        """A path that walks along the value, or leaves it somewhere."""
        path = []
        for _ in range(self.rng.choice([0, 1, 1, 2, 2, 3, 4])):
            tag, held = value if value else ("null", None)
            if tag == "object" and held and self.chance(0.75):
                name, value = self.rng.choice(held)
                path.append(text(name))
            elif tag == "array" and held and self.chance(0.75):
                place = self.rng.randrange(len(held))
                value = held[place]
                path.append(("integer", place - (len(held) if self.chance(0.25) else 0)))
            else:
                value = None
                path.append(self.rng.choice([text("a"), text(""), text("é"), ("integer", 0), ("integer", 1), ("integer", 3), ("integer", -1), ("integer", -4)]))
        if self.chance(0.04) and path:
            path[self.rng.randrange(len(path))] = self.any(1)
        if self.chance(0.04):
            path.append(("integer", self.rng.choice([65535, 65536, -65536, 2 ** 32, 2 ** 32 + 1, LEAST, GREATEST])))
        if self.chance(0.03):
            path += [self.rng.choice([text("a"), ("integer", 0)])] * self.rng.choice([62, 63, 64, 65, 66, 127, 128, 129])
        return "array", tuple(path)

    def for_get(self, given):
        value = self.of_tag(lambda: self.value(self.rng.choice(["array", "object"]), 3), "array", "object")
        return {"value": value, "path": self.steps(value)}

    for_set = for_remove = for_get

    def for_merge(self, given):
        both = [self.of_tag(lambda: self.nested(4), "object") for _ in range(2)]
        return {"to": both[0], "from": both[1]}

    def for_unflatten(self, given):
        separator = self.rng.choice([".", ".", ".", "", "..", "_", "é", "a"])
        fields = {}
        for _ in range(self.rng.randrange(6)):
            size = self.rng.choice([1, 1, 2, 2, 3, 4]) if not self.chance(0.03) else self.rng.choice([63, 64, 65, 66])
            fields[separator.join(self.rng.choice(["a", "b", "", "c", "é"]) for _ in range(size)) if size < 60 else separator.join("a" for _ in range(size))] = self.nested(2)
        return {"value": objects(fields), "separator": text(separator)}

    def for_object_from_array(self, given):
        every = []
        for _ in range(self.rng.randrange(5)):
            one = ("array", (text(self.rng.choice(["a", "b", "é", ""])), self.few(1)))
            if self.chance(0.05):
                one = self.rng.choice([("array", ()), ("array", one[1][:1]), ("array", one[1] + one[1][:1]), ("array", one[1][::-1]), self.any(1), ("array", (("integer", 1), one[1][1]))])
            every.append(one)
        return {"values": ("array", tuple(every))}

    # ---- codecs

    def spoilt(self, told, letters):
        """A text, at times with one character more, less or other."""
        if self.chance(0.35):
            place = self.rng.randrange(len(told) + 1)
            told = told[:place] + self.rng.choice(letters + [""]) + told[place + self.rng.choice([0, 1]):]
        return told

    def data(self):
        if self.chance(0.6):
            return self.string(8).encode()
        return bytes(self.rng.choice([0, 1, 0x41, 0x7f, 0x80, 0xbf, 0xc0, 0xc3, 0xa9, 0xe2, 0x82, 0xac, 0xed, 0xa0, 0xf0, 0x9f, 0x98, 0x80, 0xf4, 0x90, 0xff, 0xfb, 0xef]) for _ in range(self.rng.randrange(6)))

    def for_decode_base64(self, given):
        told = base64.b64encode(self.data()).decode()
        return {"value": text(self.spoilt(told, ["=", "==", "-", "_", "+", "/", "A", "B", "\n", " ", "é", "*"]))}

    def for_decode_base16(self, given):
        told = "".join(self.rng.choice([c, c.upper()]) for c in self.data().hex())
        return {"value": text(self.spoilt(told, ["0", "f", "F", "g", "G", " ", "x", "é", ":", "@", "`"]))}

    def for_decode_percent(self, given):
        pieces = ["%41", "%C3%A9", "%c3%a9", "%ff", "%E2%82", "%F0%9F%98%80", "%", "%4", "%zz", "%%41", "a", "é", "+", "%2B", "%00", "%ED%A0%80", "%c3", " ", "%f4%90%80%80", "%4G", "%-1"]
        return {"value": text("".join(self.rng.choice(pieces) for _ in range(self.rng.randrange(6))))}

    def for_sha2(self, given):
        size = self.rng.choice(SIZES)
        return {"value": text(("a" * size) if self.chance(0.4) else self.string(12)), "variant": text(self.rng.choice(sorted(SHA2)))}

    for_md5 = for_sha1 = lambda self, given: {"value": self.for_sha2(given)["value"]}
    for_encode_base64 = for_encode_base16 = lambda self, given: {"value": text(self.string(12))}

    # ---- searching

    def for_split(self, given):
        if self.chance(0.5):
            pattern = self.rng.choice(PATTERNS) if self.chance(0.7) else self.string(3)
            value = pattern.join(self.rng.choice(["", "a", "b", "ab", "é", ","]) for _ in range(self.rng.randrange(5))) if self.chance(0.8) else self.string(8)
            made = {"pattern": text(pattern)}
        else:
            value, made = some_patterns.text_of(self.rng), {"pattern": ("regex", self.rng.randrange(len(self.sources)))}
        size = len(value.encode())
        return {**made, "value": text(value), "limit": ("integer", self.rng.choice([0, 1, 1, 2, 3, self.near(3)])), "with": text(self.rng.choice(TEMPLATES)),
                "count": ("integer", self.rng.choice([-1, 0, 1, 2, self.near(2)])), "from": ("integer", self.near(size) if self.chance(0.4) else self.rng.randint(0, size))}

    for_replace = for_find = for_split

    def for_match(self, given):
        return {"value": text(some_patterns.text_of(self.rng))}

    for_parse_regex = for_parse_regex_all = for_match

    def for_match_any(self, given):
        every = tuple(("regex", self.rng.randrange(len(self.sources))) if not self.chance(0.05) else self.any(1) for _ in range(self.rng.randrange(4)))
        return {"value": text(some_patterns.text_of(self.rng)), "patterns": ("array", every)}

    # ---- parsers

    def for_parse_json(self, given):
        data = self.lines.line() if self.chance(0.8) else json_lines.write(plain(self.any(3, True), self.sources)).encode()
        try:
            return {"value": text(data.decode())}
        except UnicodeDecodeError:
            return {"value": text(data.decode("utf-8", "replace"))}

    def for_parse_key_value(self, given):
        between = self.rng.choice(DELIMITERS) if "key_value_delimiter" in given else "="
        after = self.rng.choice(DELIMITERS) if "field_delimiter" in given else " "
        pieces = [between, between, between, after, after, after, "a", "b", "c", "é", '"', '"', '"', "\\", '\\"', "\\\\", '"x y"', '"a\\"b"', between + '"', '"' + after, "k" + between + "v", "\\n", "\n"]
        return {"value": text("".join(self.rng.choice(pieces) for _ in range(self.rng.randrange(10)))), "key_value_delimiter": text(between), "field_delimiter": text(after)}

    def for_encode_key_value(self, given):
        return {"value": objects({self.rng.choice(["a", "b", "c d", "e=f", "", "é", "\"", "g\n"]): self.rng.choice([self.any(2), text(self.string(5))]) for _ in range(self.rng.randrange(5))})}

    def for_parse_csv(self, given):
        delimiter = self.rng.choice([",", ",", ";", "\t", " ", "a", "|", "'", "\0", "\x7f", "", "ab", '"', "\n", "\r", "é"]) if "delimiter" in given else ","
        pieces = [delimiter, delimiter, delimiter, '"', '"', '""', "a", "b", " ", "\r\n", "\n", "\r", "é", '"a' + delimiter + '"', ",", "\\"]
        told = "".join(self.rng.choice(pieces) for _ in range(self.rng.randrange(10)))
        return {"value": text("\ufeff" + told if self.chance(0.03) else told), "delimiter": text(delimiter)}

    def for_parse_url(self, given):
        while True:
            one = self.urls.text()
            try:
                urls.parse(one)
            except urls.NotUrl:
                pass
            except urls.Unknown:
                continue
            return {"value": text(one)}

    def for_parse_query_string(self, given):
        pieces = ["a", "b", "=", "=", "&", "&", "?", "a=1", "a=2", "&a=3", "%41", "%C3%A9", "%ff", "%", "+", "é", "&&", ";", "#", "b=%26", "%3D"]
        return {"value": text(self.rng.choice(["", "", "?", "??"]) + "".join(self.rng.choice(pieces) for _ in range(self.rng.randrange(9))))}

    # ---- moments

    def for_parse_timestamp(self, given):
        format_ = self.rng.choice(FORMATS)
        moment = self.moment() // 10 ** 9 * 10 ** 9
        if format_ == "%+":
            told = moment_text(self.moment())
            told = self.spoilt(told.replace("Z", self.rng.choice(["Z", "z", "+00:00", "-00:00", "+01:00", "-23:59", "+24:00", "+0100"])), list("0129:.-+TtZz é"))
        else:
            shift = self.rng.choice([0, 0, 60, 3600, -3600, 93540, -93540, self.rng.randint(-86400, 86400) // 60 * 60])
            local = max(FIRST_SECOND, min(LAST_SECOND, moment // 10 ** 9 + shift))
            told = dates.show(format_, local * 10 ** 9)
            told = told.replace("+0000", "%s%02d%02d" % ("-" if shift < 0 else "+", abs(shift) // 3600, abs(shift) // 60 % 60))
            told = self.spoilt(told, list("0129:.-+ \té%") + ["60", "00", "31"])
        return {"value": text(told), "format": text(format_)}

    def for_format_timestamp(self, given):
        return {"format": text(self.rng.choice(SHOWN))}

    def for_to_unix_timestamp(self, given):
        return {"unit": text(self.rng.choice(sorted(UNITS)))}

    def for_from_unix_timestamp(self, given):
        unit = self.rng.choice(sorted(UNITS)) if "unit" in given else "seconds"
        scale = 10 ** 9 // UNITS[unit]
        edge = self.rng.choice([FIRST_SECOND, LAST_SECOND + 1, 0, 1, -1, self.rng.randint(FIRST_SECOND, LAST_SECOND)]) * scale + self.rng.choice([0, 1, -1, self.rng.randrange(scale)])
        return {"value": ("integer", max(LEAST, min(GREATEST, edge)) if self.chance(0.85) else self.number()), "unit": text(unit)}


# Literals that a parameter doesn't allow, as a script writes them.
REFUSED = {
    "variant": ['"SHA-1"', '"sha-256"', '""', "1", "null", "true", "x", '("SHA-256")', '"SHA-256" + ""', ".a", "r'a'", '"SHA-512/255"', '" SHA-256"'],
    "unit": ['"days"', '"second"', '"Seconds"', '""', "1", "null", ".a", '("seconds")', "x", '"seconds "', "t'1970-01-01T00:00:00Z'"],
    "format": ['"%j"', '"%"', '"%Y%"', '"%-d"', '"%5Y"', '"%+ "', '"%+%Y"', '"%T"', '"%F"', '"%s"', '"%:z"', "1", "null", ".a", '("%+")', "x", '"%Y-%m-%d %H:%M:%S"', '"%Y-%m-%d %H:%M:%S %z %Y"', '"%y"', '"%\\n"', '"%é"',
               '"%%Y"', '"%%%Y%%"'],
    "pattern": ['"a"', "x", ".a", "(r'a')", "1", "null", "[r'a']"],
    "numeric_groups": ["1", '"true"', "null", ".a", "(true)", "x", "!true", "true == true"],
}
