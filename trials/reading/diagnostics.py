"""Diagnostics: their titles by code, their lines, and the places in them."""

import re

TITLES = {
    100: "unhandled error", 101: "malformed regex literal", 102: "non-boolean predicate", 103: "unhandled fallible assignment",
    104: "unnecessary error assignment", 105: "undefined function", 106: "wrong number of arguments", 107: "missing argument",
    108: "unknown argument name", 110: "invalid argument type", 203: "unrecognized token", 620: "aborting infallible function",
    630: "fallible argument", 640: "no-op assignment", 650: "chained comparison", 651: "unnecessary error coalescing",
    652: "merge of a non-object", 660: "negation of a non-boolean", 701: "undefined variable", 1001: "float literal",
    1002: "number out of range", 1003: "operator left out", 1004: "return in a closure", 1005: "fallible predicate",
    1006: "event assigned neither an object nor an array", 1008: "nested too deeply",
    1009: "script too long or not UTF-8", 1010: "closure missing, unexpected or of the wrong shape",
    1011: "abort message fallible or not a string", 1012: "written or deleted index too large or path too long",
    1013: "literal or path argument wanted", 1014: "malformed timestamp literal", 1015: "closure result of the wrong kind",
    1016: "malformed template or too many regex literals", 1017: "metadata assigned no object",
}
# The line of a diagnostic: its code, and the line and the column of its place.
DIAGNOSTIC = re.compile(r"(?:error|warning)\[E([0-9]+)\] ([0-9]+):([0-9]+) ")


def place_of(text, at):
    at = min(at, len(text))
    return text.count("\n", 0, at) + 1, at - (text.rfind("\n", 0, at) + 1) + 1


def line_of(code, line, column):
    word = "warning" if code == 651 else "error"
    return f"{word}[E{code}] {line}:{column} {TITLES[code]}"
