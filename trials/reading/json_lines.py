"""Lines of JSON by Python's own reader: what stands in one, how it is written, and what the script `.x = 1` makes of it, or of
the event in its envelope.

The rules:
- A line of spaces, tabs and carriage returns alone is counted and skipped, whatever its length.
- A line over 1,048,576 bytes is refused as too long.
- A line that isn't UTF-8 or isn't JSON, that nests deeper than 127, has half of a surrogate pair, or a number too
  great for a 64-bit float, is refused as not JSON.
- Of equal names the last wins. Where the value that is left holds a number with a point or an exponent, beyond 64
  signed bits, or `-0`, the line is refused as not whole.
- With envelopes a value that isn't an object with the members `event` and `metadata`, and no other, of which the latter is an
  object, is refused as not an envelope.
- An event that isn't an object is refused as not of the declared kind.
- Else the object gets `"x":1` and is written compactly, keys in the order of their bytes, with envelopes in one.
"""

import json
from fractions import Fraction

LONGEST = 1048576
DEEPEST = 127
# The least number that rounds to no finite float.
TOO_GREAT = (2 - Fraction(1, 2 ** 53)) * 2 ** 1023

TOO_LONG = "longer than 1048576 bytes"
NOT_JSON = "not JSON"
NOT_WHOLE = "not whole numbers"
NOT_ENVELOPE = "not an envelope"
NOT_KIND = "not of the declared kind"


class NotJson(Exception):
    pass


class NotWhole(Exception):
    pass


class Pairs(list):
    """An object as it is written: all its pairs in order."""


class Broken:
    """A number that isn't a 64-bit signed integer."""


BROKEN = Broken()


def whole(text):
    if text == "-0" or len(text) > 20:
        readable(text)
        return BROKEN
    number = int(text)
    return number if -2 ** 63 <= number < 2 ** 63 else BROKEN


def readable(text):
    """Faults a number that no float can hold."""
    digits, _, exponent = text.lower().partition("e")
    before, _, after = digits.lstrip("-").partition(".")
    significand = int((before + after).lstrip("0")[:2000] or "0")
    cut = max(0, len((before + after).lstrip("0")) - 2000)
    power = (int(exponent[:12]) if exponent else 0) - len(after) + cut
    if significand and power + len(str(significand)) > 400:
        raise NotJson
    if significand and power > -800 and significand * Fraction(10) ** power >= TOO_GREAT:
        raise NotJson
    return BROKEN


def constant(_):
    raise NotJson


def spelled(value, depth):
    """Tests everything that is written, also what a later equal name replaces."""
    if isinstance(value, str):
        if any(0xD800 <= ord(c) < 0xE000 for c in value):
            raise NotJson
    elif isinstance(value, (Pairs, list)):
        if depth == DEEPEST:
            raise NotJson
        for part in value:
            if isinstance(value, Pairs):
                spelled(part[0], depth + 1)
                part = part[1]
            spelled(part, depth + 1)


def kept(value):
    """The value that is left once the last of equal names has won."""
    if value is BROKEN:
        raise NotWhole
    if isinstance(value, Pairs):
        return {name: kept(part) for name, part in dict(value).items()}
    if isinstance(value, list):
        return [kept(part) for part in value]
    return value


def read(data):
    """The value of a text of bytes; objects are dicts."""
    try:
        text = data.decode("utf-8")
        if text.startswith("\ufeff"):
            raise NotJson
        written = json.loads(text, object_pairs_hook=Pairs, parse_int=whole, parse_float=readable, parse_constant=constant)
    except (ValueError, RecursionError):
        raise NotJson from None
    spelled(written, 0)
    return kept(written)


SHORT = {'"': '\\"', "\\": "\\\\", "\b": "\\b", "\f": "\\f", "\n": "\\n", "\r": "\\r", "\t": "\\t"}


def text_of(string):
    return '"' + "".join(SHORT.get(c) or (c if ord(c) >= 32 else "\\u%04x" % ord(c)) for c in string) + '"'


def write(value):
    if value is None:
        return "null"
    if isinstance(value, bool):
        return "true" if value else "false"
    if isinstance(value, int):
        return str(value)
    if isinstance(value, str):
        return text_of(value)
    if isinstance(value, list):
        return "[" + ",".join(write(part) for part in value) + "]"
    return "{" + ",".join(text_of(k) + ":" + write(value[k]) for k in sorted(value, key=lambda k: k.encode())) + "}"


def parts(line, envelope=False):
    """None for a blank line, else (True, its event and its metadata) or (False, refusal)."""
    if not line.strip(b" \t\r"):
        return None
    if len(line) > LONGEST:
        return False, TOO_LONG
    try:
        value = read(line)
    except NotJson:
        return False, NOT_JSON
    except NotWhole:
        return False, NOT_WHOLE
    if not envelope:
        return True, (value, {})
    if not isinstance(value, dict) or value.keys() != {"event", "metadata"} or not isinstance(value["metadata"], dict):
        return False, NOT_ENVELOPE
    return True, (value["event"], value["metadata"])


def answer(line, x=1, envelope=False):
    """None for a blank line, else (True, output line) or (False, refusal)."""
    found = parts(line, envelope)
    if found is None or not found[0]:
        return found
    event, metadata = found[1]
    if not isinstance(event, dict):
        return False, NOT_KIND
    if x is not None:
        event["x"] = x
    return True, write({"event": event, "metadata": metadata} if envelope else event).encode("utf-8")
