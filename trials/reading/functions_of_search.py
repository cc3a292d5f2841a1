"""Rows of the functions that search texts, by texts and by patterns."""

from reading import patterns
from reading.function_rows import Given, Rows, array_of, held, object_of, parts_within, strings
from reading.kinds import BOOLEAN, STRING, make, scalars
from reading.values import NULL, Failed, flag, objects, text

ROWS = Rows()
row = ROWS.row


def found_in(pattern, run, string):
    """The matches from the left, each with its groups from the whole on, as pairs of places in characters or None."""
    tag, one = pattern
    if tag == "regex":
        return patterns.matches(run.sources[one], string)
    found, at = [], string.find(one) if one else -1
    while at >= 0:
        found.append(((at, at + len(one)),))
        at = string.find(one, at + len(one))
    return found


@row("split", "value:string pattern:string,regex limit:integer?", array_of(STRING))
def _(args, run):
    one, pieces, at = args["value"][1], [], 0
    limit = max(1, held(args, "limit", 2 ** 63))
    for (start, end), *_ in found_in(args["pattern"], run, one):
        if len(pieces) + 1 == limit:
            break
        pieces.append(one[at:start])
        at = end
    return strings(pieces + [one[at:]])


@row("replace", "value:string pattern:string,regex with:string count:integer?", STRING)
def _(args, run):
    one, out, at, count = args["value"][1], "", 0, held(args, "count", -1)
    tag, pattern = args["pattern"]
    names = patterns.group_names(run.sources[pattern]) if tag == "regex" else None
    for number, groups in enumerate(found_in(args["pattern"], run, one)):
        if 0 <= count <= number:
            break
        out += one[at:groups[0][0]] + (patterns.expanded(args["with"][1], names, groups, one) if names else args["with"][1])
        at = groups[0][1]
    return text(out + one[at:])


@row("find", "value:string pattern:string,regex from:integer?", scalars("integer", "null"))
def _(args, run):
    one, start = args["value"][1].encode(), held(args, "from", 0)
    if not 0 <= start <= len(one) or (one[start:start + 1] and one[start] & 0xC0 == 0x80):
        return NULL
    rest = one[start:].decode()
    if args["pattern"] == ("string", ""):
        return "integer", start
    found = found_in(args["pattern"], run, rest)
    return ("integer", start + len(rest[:found[0][0][0]].encode())) if found else NULL


@row("match", "value:string pattern:regex", BOOLEAN)
def _(args, run):
    return flag(found_in(args["pattern"], run, args["value"][1]))


@row("match_any", "value:string patterns:array", BOOLEAN, parts_within("patterns", "regex"))
def _(args, run):
    for number, one in enumerate(args["patterns"][1]):
        if one[0] != "regex":
            raise Failed(f"element {number} is {one[0]}")
    return flag(any(found_in(one, run, args["value"][1]) for one in args["patterns"][1]))


def groups_kind(given, sources):
    literal = given.get("numeric_groups", Given(BOOLEAN, flag(False))).literal
    if literal == flag(True):
        return object_of(scalars("string", "null"))
    names = {name for name in patterns.group_names(sources[given["pattern"].literal[1]]) if name}
    return make((), None, ({name: scalars("string", "null") for name in names}, "nothing"))


def groups_of(args, run, groups):
    """The object of a match: a field for each name, and for each group of the match where these are asked for."""
    told = lambda span: NULL if span is None else text(args["value"][1][slice(*span)])
    fields = {}
    for number, name in enumerate(patterns.group_names(run.sources[args["pattern"][1]])):
        if name:
            fields[name] = told(groups[number] if number < len(groups) else None)
    if held(args, "numeric_groups", False):
        fields.update({str(number): told(span) for number, span in enumerate(groups)})
    return objects(fields)


@row("parse_regex", "value:string pattern:regex! numeric_groups:boolean!?", groups_kind, True)
def _(args, run):
    found = found_in(args["pattern"], run, args["value"][1])
    if not found:
        raise Failed("no match")
    return groups_of(args, run, found[0])


@row("parse_regex_all", "value:string pattern:regex! numeric_groups:boolean!?", lambda given, sources: array_of(groups_kind(given, sources)))
def _(args, run):
    return "array", tuple(groups_of(args, run, one) for one in found_in(args["pattern"], run, args["value"][1]))
