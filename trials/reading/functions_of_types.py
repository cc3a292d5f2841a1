"""Rows of the functions that test types and change them."""

import re

from reading.function_rows import Rows, cut_to, has
from reading.functions_of_strings import WHITE, lower
from reading.kinds import BOOLEAN, INTEGER, STRING, TAGS, root_tags
from reading.moments import moment_text
from reading.values import SIXTY_FOUR, Failed, flag, text

ROWS = Rows()
row = ROWS.row


def type_rows():
    for tag in TAGS:
        row("is_" + tag, "value:any", BOOLEAN)(lambda args, run, tag=tag: flag(args["value"][0] == tag))
    for name, tag in (("string", "string"), ("int", "integer"), ("bool", "boolean"), ("timestamp", "timestamp"), ("array", "array"), ("object", "object")):
        def apply(args, run, tag=tag):
            if args["value"][0] != tag:
                raise Failed("value is " + args["value"][0])
            return args["value"]
        row(name, "value:any", lambda given, _, tag=tag: cut_to(given["value"].kind, tag),
            lambda given, tag=tag: bool(root_tags(given["value"].kind) - {tag}))(apply)


type_rows()


def decimal(string):
    if not re.fullmatch(r"[+-]?[0-9]+", string) or len(string.lstrip("+-0")) > 30 or int(string) not in SIXTY_FOUR:
        raise Failed("not a whole number")
    return "integer", int(string)


@row("is_nullish", "value:any", BOOLEAN)
def _(args, run):
    tag, one = args["value"]
    return flag(tag == "null" or (tag == "string" and (one == "-" or not one.strip(WHITE))))


@row("is_empty", "value:string,array,object", BOOLEAN)
def _(args, run):
    return flag(len(args["value"][1]) == 0)


def string_of(value):
    tag, one = value
    return {"string": lambda: one, "integer": lambda: str(one), "boolean": lambda: "true" if one else "false", "null": lambda: "",
            "timestamp": lambda: moment_text(one)}[tag]()


@row("to_string", "value:string,integer,boolean,null,timestamp", STRING)
def _(args, run):
    return text(string_of(args["value"]))


@row("to_int", "value:string,integer,boolean,null,timestamp", INTEGER, lambda given: has(given, "value", "string"))
def _(args, run):
    tag, one = args["value"]
    if tag == "string":
        return decimal(one)
    return "integer", one // 10 ** 9 if tag == "timestamp" else int(one or 0)


@row("to_bool", "value:string,integer,boolean,null", BOOLEAN, lambda given: has(given, "value", "string"))
def _(args, run):
    tag, one = args["value"]
    if tag != "string":
        return flag(one)
    if lower(one) in ("true", "t", "yes", "y", "1", "false", "f", "no", "n", "0"):
        return flag(lower(one) in ("true", "t", "yes", "y", "1"))
    raise Failed("not a boolean word")
