"""Rows of the functions of arrays."""

from reading.function_rows import Rows, array_of, by_tags, held, object_of, strings
from reading.kinds import ABSENT, ANY, BOOLEAN, NEVER, STRING, join, known_length, make, own, parts, plus, rest_of, sure
from reading.values import Failed, flag, objects

ROWS = Rows()
row = ROWS.row


def lengthened(kind, more):
    places, rest = kind.array
    after = [join(one, plus(more, ABSENT)) for one in places[sure(kind):]]
    return make((), (list(places[:sure(kind)]) + after, rest_of(join(own(rest), more))))


def push_kind(given, _):
    kind, item = given["value"].kind, given["item"].kind
    if not kind.array:
        return NEVER
    return make((), (list(kind.array[0]) + [item], "nothing")) if known_length(kind) is not None else lengthened(kind, item)


def append_kind(given, _):
    kind, items = given["value"].kind, given["items"].kind
    if not (kind.array and items.array):
        return NEVER
    if known_length(kind) is not None and known_length(items) is not None:
        return make((), (list(kind.array[0]) + list(items.array[0]), "nothing"))
    return lengthened(kind, parts(items))


row("push", "value:array item:any", push_kind)(lambda args, run: ("array", args["value"][1] + (args["item"],)))
row("append", "value:array items:array", append_kind)(lambda args, run: ("array", args["value"][1] + args["items"][1]))
row("includes", "value:array item:any", BOOLEAN)(lambda args, run: flag(args["item"] in args["value"][1]))


@row("unique", "value:array", lambda given, _: array_of(parts(given["value"].kind)))
def _(args, run):
    found = []
    for one in args["value"][1]:
        found += [one] if one not in found else []
    return "array", tuple(found)


@row("flatten", "value:array,object separator:string?", by_tags(array_of(ANY), object_of(ANY)))
def _(args, run):
    separator, fields = held(args, "separator", "."), {}

    def opened(value):
        return [two for one in value for two in (opened(one[1]) if one[0] == "array" else [one])]

    def walked(prefix, pairs):
        for name, one in pairs:
            if one[0] == "object" and one[1]:
                walked(prefix + name + separator, one[1])
            else:
                fields[prefix + name] = one
    if args["value"][0] == "array":
        return "array", tuple(opened(args["value"][1]))
    walked("", args["value"][1])
    return objects(fields)


@row("chunks", "value:string chunk_size:integer", array_of(STRING),
     lambda given: not (given["chunk_size"].literal and given["chunk_size"].literal[1] >= 1))
def _(args, run):
    one, size = args["value"][1], args["chunk_size"][1]
    if size < 1:
        raise Failed("chunk_size below 1")
    return strings(one[at:at + size] for at in range(0, len(one), size))


@row("zip", "array_0:array array_1:array",
     lambda given, _: array_of(make((), ([parts(given["array_0"].kind), parts(given["array_1"].kind)], "nothing"))))
def _(args, run):
    return "array", tuple(("array", pair) for pair in zip(args["array_0"][1], args["array_1"][1]))


@row("compact", "value:array,object", by_tags(array_of(ANY), object_of(ANY)))
def _(args, run):
    def cleared(value):
        tag, one = value
        if tag == "array":
            return tag, tuple(two for two in map(cleared, one) if not gone(two))
        if tag == "object":
            return tag, tuple((name, two) for name, two in ((name, cleared(two)) for name, two in one) if not gone(two))
        return value

    def gone(value):
        return value[0] == "null" or (value[0] in ("string", "array", "object") and not value[1])
    return cleared(args["value"])
