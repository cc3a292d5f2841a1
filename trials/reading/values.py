"""Values: pairs of a tag and what it holds.

Arrays hold a tuple of values, objects a tuple of pairs of name and value by the bytes of the name, timestamps
nanoseconds since 1970, regexes their number in the script.
"""

from reading.kinds import fit
from reading.moments import moment_text

NULL = ("null", None)
# The numbers of 64 signed bits.
SIXTY_FOUR = range(-2 ** 63, 2 ** 63)


class Failed(Exception):
    """An error; args[0] is its text."""


def text(held):
    return "string", held


def whole(number):
    return "integer", (number + 2 ** 63) % 2 ** 64 - 2 ** 63


def flag(held):
    return "boolean", bool(held)


def objects(fields):
    return "object", tuple(sorted(fields.items(), key=lambda pair: pair[0].encode()))


def depth(value):
    tag, held = value
    if tag not in ("array", "object"):
        return 0
    return 1 + max((depth(one[1] if tag == "object" else one) for one in held), default=0)


def part(value, step):
    """The part below one step, None where there is none."""
    tag, held = value
    if tag != fit(step):
        return None
    if tag == "object":
        return dict(held).get(step)
    place = step if step >= 0 else len(held) + step
    return held[place] if 0 <= place < len(held) else None


def get(value, steps):
    for step in steps:
        value = None if value is None else part(value, step)
    return value


def put(value, steps, new):
    if not steps:
        return new
    step, behind = steps[0], steps[1:]
    tag, held = value if value[0] == fit(step) else (fit(step), ())
    if tag == "object":
        inner = put(part((tag, held), step) or NULL, behind, new)
        return objects({**dict(held), step: inner})
    if step < 0:
        held = (NULL,) * (-step - len(held)) + held
        step += len(held)
    held = held + (NULL,) * (step + 1 - len(held))
    return "array", held[:step] + (put(held[step], behind, new),) + held[step + 1:]


def cut_out(value, steps):
    """The value without the part at these steps, if it has one."""
    inner = part(value, steps[0])
    if inner is None:
        return value
    tag, held = value
    step = steps[0]
    if len(steps) > 1:
        return put(value, steps[:1], cut_out(inner, steps[1:]))
    if tag == "object":
        return objects({name: one for name, one in held if name != step})
    step += len(held) if step < 0 else 0
    return tag, held[:step] + held[step + 1:]


def plain(value, sources):
    """The value as JSON holds it."""
    tag, held = value
    if tag == "array":
        return [plain(one, sources) for one in held]
    if tag == "object":
        return {name: plain(one, sources) for name, one in held}
    return moment_text(held) if tag == "timestamp" else sources[held] if tag == "regex" else held


def value_of(held):
    """The value of JSON as json_lines reads it."""
    if held is None:
        return NULL
    if isinstance(held, bool):
        return flag(held)
    if isinstance(held, int):
        return "integer", held
    if isinstance(held, str):
        return text(held)
    if isinstance(held, list):
        return "array", tuple(value_of(one) for one in held)
    return objects({name: value_of(one) for name, one in held.items()})
