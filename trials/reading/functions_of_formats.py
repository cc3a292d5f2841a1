"""Rows of the functions that read and write formats: JSON, keys with values, CSV, query strings and URLs."""

import re
import urllib.parse

from reading import json_lines, urls
from reading.function_rows import Rows, array_of, held, object_of, strings
from reading.functions_of_types import string_of
from reading.kinds import JSON, STRING, join, make, scalars
from reading.values import NULL, Failed, flag, objects, plain, text, value_of

ROWS = Rows()
row = ROWS.row


@row("parse_json", "value:string", JSON, True)
def _(args, run):
    try:
        return value_of(json_lines.read(args["value"][1].encode()))
    except json_lines.NotJson:
        raise Failed("not JSON") from None
    except json_lines.NotWhole:
        raise Failed("not whole numbers") from None


row("encode_json", "value:any", STRING)(lambda args, run: text(json_lines.write(plain(args["value"], run.sources))))


@row("parse_key_value", "value:string key_value_delimiter:string? field_delimiter:string?", object_of(scalars("string", "boolean")), True)
def _(args, run):
    one, between, after = args["value"][1], held(args, "key_value_delimiter", "="), held(args, "field_delimiter", " ")
    if not between or not after:
        raise Failed("empty delimiter")
    fields, at = {}, 0
    while True:
        while one.startswith(after, at):
            at += len(after)
        if at == len(one):
            return objects(fields)
        start = at
        while at < len(one) and not one.startswith(between, at) and not one.startswith(after, at):
            at += 1
        key = one[start:at]
        if not key:
            raise Failed("empty key")
        if not one.startswith(between, at):
            fields[key] = flag(True)
            continue
        at += len(between)
        if one.startswith('"', at):
            quoted = re.compile(r'"((?:\\["\\]|\\(?!["\\])|[^"\\])*)"', re.S).match(one, at)
            if not quoted or not (quoted.end() == len(one) or one.startswith(after, quoted.end())):
                raise Failed("bad quotes")
            fields[key] = text(re.sub(r'\\(["\\])', r"\1", quoted[1]))
            at = quoted.end()
        else:
            end = one.find(after, at)
            end = len(one) if end < 0 else end
            fields[key] = text(one[at:end])
            at = end


@row("encode_key_value", "value:object", STRING)
def _(args, run):
    def told(value):
        if value[0] == "null":
            return ""
        if value[0] in ("array", "object"):
            one = json_lines.write(plain(value, run.sources))
        else:
            one = run.sources[value[1]] if value[0] == "regex" else string_of(value)
        if one and not set(one) & set(' "=\\\n'):
            return one
        return '"' + one.replace("\\", "\\\\").replace('"', '\\"') + '"'
    return text(" ".join(f"{name}={told(one)}" for name, one in args["value"][1]))


def good_delimiter(one):
    return len(one) == 1 and ord(one) < 128 and one not in '"\r\n'


def first_row(string, delimiter):
    """The fields of the first row by the `csv` crate's default rules, None where there is no row. A quote that begins a field opens it, a doubled one inside
    stands for itself, and what follows the closing one belongs to the field; a row ends at CR, LF or both, and an empty one is passed over."""
    string = string.removeprefix("\ufeff").lstrip("\r\n")
    if not string:
        return None
    fields, at = [], 0
    while True:
        quoted = re.compile(r'"((?:[^"]|"")*)("|$)(?!")', re.S).match(string, at)
        inside = quoted[1].replace('""', '"') if quoted else ""
        plain = re.compile("[^%s\r\n]*" % re.escape(delimiter)).match(string, quoted.end() if quoted else at)
        fields.append(inside + plain[0])
        at = plain.end()
        if string[at:at + 1] != delimiter:
            return fields
        at += 1


@row("parse_csv", "value:string delimiter:string?", array_of(STRING),
     lambda given: "delimiter" in given and not (given["delimiter"].literal and good_delimiter(given["delimiter"].literal[1])))
def _(args, run):
    delimiter = held(args, "delimiter", ",")
    if not good_delimiter(delimiter):
        raise Failed("bad delimiter")
    return strings(first_row(args["value"][1], delimiter) or [])


@row("parse_query_string", "value:string", object_of(join(STRING, array_of(STRING))))
def _(args, run):
    one, fields = args["value"][1], {}
    for name, value in urllib.parse.parse_qsl(one[1:] if one.startswith("?") else one, keep_blank_values=True):
        fields.setdefault(name, []).append(value)
    return objects({name: text(every[0]) if len(every) == 1 else strings(every) for name, every in fields.items()})


WORDS_OF_URLS = {"scheme": STRING, "username": STRING, "password": STRING, "path": STRING, "host": scalars("string", "null"),
                 "fragment": scalars("string", "null"), "port": scalars("integer", "null"), "query": object_of(STRING)}


@row("parse_url", "value:string", make((), None, (WORDS_OF_URLS, "nothing")), True)
def _(args, run):
    try:
        one = urls.parse(args["value"][1])
    except urls.NotUrl:
        raise Failed("not a URL") from None
    fields = {name: text(getattr(one, name)) for name in ("scheme", "username", "password", "path")}
    fields.update({name: NULL if getattr(one, name) is None else text(getattr(one, name)) for name in ("host", "fragment")})
    fields["port"] = NULL if one.port is None else ("integer", one.port)
    return objects({**fields, "query": objects({name: text(value) for name, value in urls.pairs(one.query or "")})})
