"""Lines of JSON for the other trials: at random, and a list of hard ones. This file runs nothing by itself."""

from reading.json_lines import LONGEST, SHORT

NAMES = ["a", "b", "x", "", "ab", "é", "\U0001f600", "\x7f", "\x00", "\x1f", '"', "\\", "/", "\n", "a b", "\uffff", "A", "\u2028"]
NUMBERS = [
    "0", "-0", "1", "-1", "7", "10", "-10", "9223372036854775807", "9223372036854775808", "-9223372036854775808",
    "-9223372036854775809", "18446744073709551615", "18446744073709551616", "0.0", "-0.0", "1.5", "1.0", "1e0", "1E5", "1e+5",
    "1e-5", "0e0", "-0e1", "1e308", "1e309", "-1e309", "1e400", "0e400", "0e99999999999", "1e99999999999", "1e-400",
    "1e-99999999999", "0.0001e310", "10e308", "1" + "0" * 308, "1" + "0" * 309, "1" + "0" * 400, "0." + "0" * 400 + "1e500",
    "01", "-01", "+1", "1.", ".5", "1e", "1e+", "-", "--1", "0x1", "1_0", "NaN", "Infinity", "-Infinity", "00", "1.e5", "1.5.5",
]
WHOLE = ["0", "1", "-1", "42", "9223372036854775807", "-9223372036854775808", "-7"]
WORDS = ["true", "false", "null", "True", "nul", "nulll", "tru", "undefined", "falsey"]
SPACES = ["", "", "", "", " ", "  ", "\t", "\r", " \t\r ", "\x0c", "\x0b", "\u00a0", "\ufeff"]
ESCAPES = [
    "\\n", "\\r", "\\t", "\\b", "\\f", "\\\"", "\\\\", "\\/", "\\u0041", "\\u00e9", "\\u00E9", "\\u0000", "\\u001f", "\\u007f",
    "\\ud83d\\ude00", "\\uD83D\\uDE00", "\\ud800", "\\udc00", "\\udfff\\ud800", "\\ud83d\\ud83d\\ude00", "\\ud83dx", "\\ud83d\\n",
    "\\ud83d\\u0041", "\\uffff", "\\u2028", "\\u12", "\\u 123", "\\u0x12", "\\x41", "\\'", "\\0", "\\U0041", "\\u+123",
]
CLEAN_ESCAPES = ESCAPES[:16] + ["\\uffff", "\\u2028"]


class Maker:
    def __init__(self, rng):
        self.rng = rng
        # How often something that is probably at fault is written.
        self.dirt = rng.choice([0, 0, 0.02, 0.1])

    def dirty(self):
        return self.rng.random() < self.dirt

    def space(self):
        return self.rng.choice(SPACES) if self.dirty() else self.rng.choice(SPACES[:9])

    def spell(self, string):
        """A spelling of this text, with some characters escaped."""
        out = []
        for c in string:
            if ord(c) < 32 or c in '"\\' or self.rng.random() < 0.15:
                units = c.encode("utf-16-be")
                halves = [units[i:i + 2].hex() for i in range(0, len(units), 2)]
                if self.rng.random() < 0.5:
                    halves = [h.upper() for h in halves]
                short = SHORT.get(c) if self.rng.random() < 0.5 else None
                out.append(short or "".join("\\u" + h for h in halves))
            else:
                out.append(c)
        return '"' + "".join(out) + '"'

    def string(self):
        parts = []
        for _ in range(self.rng.randrange(4)):
            if self.rng.random() < 0.5:
                parts.append(self.spell(self.rng.choice(NAMES))[1:-1])
            else:
                parts.append(self.rng.choice(ESCAPES if self.dirty() else CLEAN_ESCAPES))
        if self.dirty():
            parts.append(self.rng.choice(["\t", "\x00", "\x1f", "\x7f"]))
        return '"' + "".join(parts) + '"'

    def value(self, depth):
        pick = self.rng.random()
        if depth > 0 and pick < 0.2:
            return self.array(depth)
        if depth > 0 and pick < 0.45:
            return self.object(depth)
        if pick < 0.65:
            return self.rng.choice(NUMBERS if self.dirty() else WHOLE)
        if pick < 0.75:
            return self.rng.choice(WORDS if self.dirty() else WORDS[:3])
        return self.string()

    def listed(self, parts):
        text = ",".join(self.space() + p + self.space() for p in parts)
        if self.dirty():
            text += ","
        return text or self.space()

    def array(self, depth):
        return "[" + self.listed([self.value(depth - 1) for _ in range(self.rng.randrange(4))]) + "]"

    def object(self, depth):
        pairs = []
        for _ in range(self.rng.randrange(5)):
            name = self.spell(self.rng.choice(NAMES)) if self.rng.random() < 0.8 else self.string()
            pairs.append(name + self.space() + ":" + self.space() + self.value(depth - 1))
        return "{" + self.listed(pairs) + "}"

    def nested(self):
        """Nesting about the limit, in arrays, objects or both, in an object or bare."""
        depth = self.rng.choice([1, 2, 60, 125, 126, 127, 128, 129])
        inner = self.rng.choice(["1", "", '"q"', "-0", "1e999"])
        text, first = inner, True
        for _ in range(depth):
            if self.rng.random() < 0.5:
                text = "[" + text + "]"
            else:
                text = "{}" if first and not inner else '{"k":' + text + "}"
            first = False
        if self.rng.random() < 0.5:
            text = '{"d":' + text + "}"
        if self.rng.random() < 0.2:
            text = '{"d":' + text + ',"d":1}'
        return text

    def line(self):
        pick = self.rng.random()
        if pick < 0.08:
            text = self.nested()
        elif pick < 0.14:
            text = '{"n":' + self.rng.choice(NUMBERS) + self.rng.choice(["}", ',"n":1}', ',"\\u006e":2}', ',"m":0}'])
        elif pick < 0.2:
            text = self.value(3)
        else:
            text = self.object(4)
        text = self.space() + text + self.space()
        data = text.encode("utf-8", "surrogatepass")
        return self.spoil(data) if self.rng.random() < 0.25 else data

    def enclosed(self, line):
        """The line in an envelope, or in what is almost one, or as it is."""
        pick = self.rng.random()
        if pick < 0.1:
            return line
        names = [self.spell("event"), self.spell("metadata")]
        if pick < 0.15:
            names[self.rng.randrange(2)] = self.spell(self.rng.choice(["Event", "metadata ", "meta", "", "event", "metadata"]))
        inner = self.object(2) if self.rng.random() < 0.9 else self.value(2)
        members = [names[0].encode() + b":" + line, (names[1] + self.space() + ":" + self.space() + inner).encode("utf-8", "surrogatepass")]
        if pick < 0.25:
            more = self.spell(self.rng.choice(["event", "metadata", "x"])) + ":" + self.value(1)
            members.insert(self.rng.randrange(3), more.encode("utf-8", "surrogatepass"))
        elif pick < 0.3:
            del members[self.rng.randrange(2)]
        if self.rng.random() < 0.3:
            members.reverse()
        data = b"{" + b",".join(members) + b"}"
        return self.spoil(data) if self.rng.random() < 0.05 else data

    def spoil(self, data):
        for _ in range(self.rng.randrange(1, 3)):
            at = self.rng.randrange(len(data) + 1)
            how = self.rng.randrange(6)
            if how == 0:
                data = data[:at]
            elif how == 1:
                data = data[:at] + data[at + 1:]
            elif how == 2:
                data = data[:at] + data[at:at + 1] * 2 + data[at + 1:]
            elif how == 3:
                bad = [b"\xff", b"\xc3", b"\xa9", b"\xed\xa0\x80", b"\xc0\x80", b"\xf4\x90\x80\x80", b"\xe2\x82"]
                data = data[:at] + self.rng.choice(bad) + data[at:]
            elif how == 4:
                data = data[:at] + bytes([self.rng.choice(b'"\\{}[]:,0e.-+ \t\r\x00\x7f/')]) + data[at:]
            else:
                data = data[:at] + bytes([self.rng.randrange(256)]) + data[at + 1:]
        return data.replace(b"\n", b" ")


def hard_envelopes():
    """Envelopes that chance wouldn't meet."""
    pad = LONGEST - len('{"event":{"a":""},"metadata":{}}')
    for size in (pad, pad + 1):
        yield b'{"event":{"a":"' + b"q" * size + b'"},"metadata":{}}'
        yield b'{"event":{},"metadata":{"a":"' + b"q" * size + b'"}}'
    for depth in (124, 125, 126, 127, 128):
        for inner in (b"[" * depth + b"]" * depth, b'{"k":' * depth + b"1" + b"}" * depth):
            yield b'{"event":{"a":' + inner + b'},"metadata":{}}'
            yield b'{"event":{},"metadata":{"a":' + inner + b"}}"
            yield b'{"event":' + inner + b',"metadata":' + inner + b"}"
    for event in (b"{}", b"[]", b"[{}]", b"1", b"null", b'"{}"', b"true", b'{"x":null}', b'{"event":{},"metadata":{}}'):
        for metadata in (b"{}", b"[]", b"1", b"null", b'"{}"', b"false", b'{"a":1}', b'{"metadata":{}}', b"1.5", b'{"a":-0}', b"{"):
            yield b'{"event":' + event + b',"metadata":' + metadata + b"}"
            yield b'{"metadata":' + metadata + b',"event":' + event + b"}"
            yield b'{"event":' + event + b',"metadata":' + metadata + b',"metadata":{}}'
            yield b'{"event":{},"metadata":' + metadata + b',"event":' + event + b"}"
    for name in (b"", b"a", b"Event", b"event ", b"events", b"even", b"zz", b"metadata\\u0000", b"\\u006detadata", b"metadat\\u0061"):
        yield b'{"event":{},"metadata":{},"' + name + b'":{}}'
        yield b'{"event":{},"' + name + b'":{}}'
        yield b'{"metadata":{},"' + name + b'":{}}'
        yield b'{"' + name + b'":{}}'
    yield from (b"{}", b"[]", b"{", b"", b" ", b'{"event":{}}', b'{"metadata":{}}', b'[{"event":{},"metadata":{}}]', b'{"event":{},"metadata":{}} ', b'{"event":{},"metadata":{}}{}')


def hard_lines():
    """Cases that chance wouldn't meet."""
    pad = LONGEST - len('{"a":""}')
    yield b'{"a":"' + b"q" * pad + b'"}'
    yield b'{"a":"' + b"q" * (pad + 1) + b'"}'
    yield b"{}" + b" " * (LONGEST - 2)
    yield b"{}" + b" " * (LONGEST - 1)
    yield b" " * LONGEST + b"{}"
    yield b" " * (LONGEST + 5)
    yield b"\t\r" * (LONGEST // 2 + 1)
    yield b"a" * (LONGEST + 1)
    yield b"\xff" * (LONGEST + 1)
    yield b"[1.5," * 209716
    for depth in (126, 127, 128, 129, 500):
        yield b"[" * depth + b"]" * depth
        yield b'{"a":' * depth + b"1" + b"}" * depth
        yield b'{"a":' + b"[" * depth + b"]" * depth + b"}"
        yield b'{"a":' + b"[" * depth + b"]" * depth + b',"a":1}'
    for number in NUMBERS:
        for frame in ("%s", '{"n":%s}', '{"n":[%s]}', '{"n":%s,"n":1}', '{"n":1,"n":%s}', '{"n":%s,"\\u006e":1}', '{"x":%s}'):
            yield (frame % number).encode()
    for escape in ESCAPES:
        for frame in ('{"n":"%s"}', '{"%s":1}', '{"n":"a%sb"}', '{"n":"%s","n":1}', '"%s"'):
            yield (frame % escape).encode()
    for byte in range(256):
        if byte != 10:
            yield b'{"n":"' + bytes([byte]) + b'"}'
            yield b'{"n":"\\' + bytes([byte]) + b'"}'
            yield b'{"n":' + bytes([byte]) + b"1}"
            yield bytes([byte]) + b"{}"
            yield b"{}" + bytes([byte])
            yield bytes([byte])
    yield b"\xef\xbb\xbf{}"
