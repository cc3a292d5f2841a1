"""Rows of the functions of objects and of paths in values."""

from reading.function_rows import Rows, array_of, by_tags, held, object_of, parts_within, strings, strings_of
from reading.kinds import ANY, INTEGER, NEVER, STRING, join, merge, parts
from reading.values import NULL, Failed, cut_out, flag, get, objects, put

ROWS = Rows()
row = ROWS.row


def steps_of(args):
    for number, one in enumerate(args["path"][1]):
        if one[0] not in ("string", "integer"):
            raise Failed(f"path element {number} is {one[0]}")
    return tuple(one[1] for one in args["path"][1])


row("keys", "value:object", array_of(STRING))(lambda args, run: strings(name for name, _ in args["value"][1]))
row("values", "value:object", lambda given, _: array_of(parts(given["value"].kind)))(
    lambda args, run: ("array", tuple(one for _, one in args["value"][1])))
row("get", "value:array,object path:array", ANY, parts_within("path", "string", "integer"))(
    lambda args, run: get(args["value"], steps_of(args)) or NULL)


@row("set", "value:array,object path:array data:any", join(array_of(ANY), object_of(ANY)), True)
def _(args, run):
    steps = steps_of(args)
    if not steps:
        raise Failed("empty path")
    if len(steps) > 64:
        raise Failed("path too long")
    if any(isinstance(step, int) and not 0 <= step <= 65535 for step in steps):
        raise Failed("index out of range")
    return put(args["value"], steps, args["data"])


@row("remove", "value:array,object path:array", by_tags(array_of(ANY), object_of(ANY)), True)
def _(args, run):
    steps = steps_of(args)
    if not steps:
        raise Failed("empty path")
    if any(isinstance(step, int) and step < 0 for step in steps):
        raise Failed("index out of range")
    return cut_out(args["value"], steps)


def merge_kind(given, _):
    if "deep" in given and given["deep"].literal != flag(False):
        return object_of(ANY)
    a, b = given["to"].kind, given["from"].kind
    return merge(a, b) if a.object and b.object else NEVER


@row("merge", "to:object from:object deep:boolean?", merge_kind)
def _(args, run):
    def merged(a, b, deep):
        fields = dict(a[1])
        for name, one in b[1]:
            both = deep and name in fields and fields[name][0] == one[0] == "object"
            fields[name] = merged(fields[name], one, deep) if both else one
        return objects(fields)
    return merged(args["to"], args["from"], held(args, "deep", False))


@row("unflatten", "value:object separator:string?", object_of(ANY))
def _(args, run):
    separator, made = held(args, "separator", "."), ("object", ())
    for name, one in args["value"][1]:
        pieces = name.split(separator) if separator else [name]
        made = put(made, tuple(pieces) if len(pieces) <= 64 else (name,), one)
    return made


@row("object_from_array", "values:array", object_of(ANY), True)
def _(args, run):
    fields = {}
    for number, one in enumerate(args["values"][1]):
        if one[0] != "array" or len(one[1]) != 2 or one[1][0][0] != "string":
            raise Failed(f"element {number}")
        fields[one[1][0][1]] = one[1][1]
    return objects(fields)


@row("tally", "value:array", object_of(INTEGER), parts_within("value", "string"))
def _(args, run):
    every = strings_of(args, "value")
    return objects({one: ("integer", every.count(one)) for one in every})
