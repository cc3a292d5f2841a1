"""Rows of the functions of texts."""

from reading.function_rows import Rows, array_of, has, held, parts_within, strings_of
from reading.kinds import BOOLEAN, INTEGER, NEVER, STRING, join, parts, scalars
from reading.values import Failed, flag, text

ROWS = Rows()
row = ROWS.row
WHITE = "\t\n\x0b\x0c\r \x85\xa0\u1680\u2000\u2001\u2002\u2003\u2004\u2005\u2006\u2007\u2008\u2009\u200a\u2028\u2029\u202f\u205f\u3000"


def lower(string):
    return "".join(c.lower() if "A" <= c <= "Z" else c for c in string)


def upper(string):
    return "".join(c.upper() if "a" <= c <= "z" else c for c in string)


row("upcase", "value:string", STRING)(lambda args, run: text(upper(args["value"][1])))
row("downcase", "value:string", STRING)(lambda args, run: text(lower(args["value"][1])))
row("strip_whitespace", "value:string", STRING)(lambda args, run: text(args["value"][1].strip(WHITE)))


def substring_rows():
    for name, test in (("starts_with", str.startswith), ("ends_with", str.endswith), ("contains", str.__contains__)):
        def apply(args, run, test=test):
            change = (lambda s: s) if held(args, "case_sensitive", True) else lower
            return flag(test(change(args["value"][1]), change(args["substring"][1])))
        row(name, "value:string substring:string case_sensitive:boolean?", BOOLEAN)(apply)


substring_rows()


@row("length", "value:string,array,object", INTEGER)
def _(args, run):
    tag, one = args["value"]
    return "integer", len(one.encode()) if tag == "string" else len(one)


row("strlen", "value:string", INTEGER)(lambda args, run: ("integer", len(args["value"][1])))


@row("truncate", "value:string limit:integer suffix:string?", STRING)
def _(args, run):
    one, limit = args["value"][1], max(0, args["limit"][1])
    return text(one if len(one) <= limit else one[:limit] + held(args, "suffix", ""))


def slice_kind(given, _):
    kind = scalars("string") if has(given, "value", "string") else NEVER
    return join(kind, array_of(parts(given["value"].kind))) if has(given, "value", "array") else kind


@row("slice", "value:string,array start:integer end:integer?", slice_kind, True)
def _(args, run):
    tag, one = args["value"]
    start, end = (at + len(one) if at < 0 else at for at in (args["start"][1], held(args, "end", len(one))))
    if not 0 <= start <= end <= len(one):
        raise Failed("out of range")
    return tag, one[start:end]


@row("join", "value:array separator:string?", STRING, parts_within("value", "string"))
def _(args, run):
    return text(held(args, "separator", "").join(strings_of(args, "value")))
