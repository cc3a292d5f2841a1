"""The rows of all functions, and what the arguments of a call are bound to."""

from reading import (functions_of_codecs, functions_of_formats, functions_of_lists, functions_of_numbers, functions_of_objects,
                     functions_of_search, functions_of_strings, functions_of_time, functions_of_types)
from reading.function_rows import Row

PARTS = (functions_of_types, functions_of_strings, functions_of_search, functions_of_lists, functions_of_objects, functions_of_codecs,
         functions_of_formats, functions_of_time, functions_of_numbers)
ROWS = {name: row for part in PARTS for name, row in part.ROWS.items()}
# Forms of the language, whose kinds and deeds stand where they are judged and run.
for name in ("del", "exists"):
    ROWS[name] = Row(name, "value:any", None, None, path=True)
for name, tags, names in (("for_each", "array,object", 2), ("filter", "array,object", 2), ("map_values", "array,object", 1), ("map_keys", "object", 1)):
    ROWS[name] = Row(name, "value:" + tags, None, None, names=names)


class Unbound(Exception):
    """args: the code and its span."""


def bind(row, node):
    """Which argument each parameter takes."""
    names = [one.name for one in node.arguments if one.name is not None]
    if len(node.arguments) > len(row.parameters) or len(set(names)) < len(names):
        raise Unbound(106, node.start, node.end)
    for one in node.arguments:
        if one.name is not None and one.name not in [p.name for p in row.parameters]:
            raise Unbound(108, one.start, one.end)
    free = [p.name for p in row.parameters if p.name not in names]
    bound = {}
    for number, one in enumerate(node.arguments):
        bound[free.pop(0) if one.name is None else one.name] = number
    if any(p.required and p.name not in bound for p in row.parameters):
        raise Unbound(107, node.start, node.end)
    return bound
