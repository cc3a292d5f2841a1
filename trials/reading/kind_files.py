"""Kind files: the kind that a file's bytes declare, or the line of its refusal."""

import json

from reading import json_lines
from reading.kinds import ABSENT, EVENT, JSON, NEVER, SCALARS, join, levels, make, nodes, plus, root_tags, scalars


class Bad(Exception):
    pass


NAMED = {**{tag: scalars(tag) for tag in SCALARS[:4]}, "json": JSON}


def under(pointer, step):
    return pointer + "/" + str(step).replace("~", "~0").replace("/", "~1")


def described(value, at):
    if isinstance(value, str) and value in NAMED:
        return NAMED[value]
    if isinstance(value, list) and value:
        joined = NEVER
        for number, one in enumerate(value):
            joined = join(joined, described(one, under(at, number)))
        return joined
    if not isinstance(value, dict) or set(value) - {"rest"} not in ({"object"}, {"array"}):
        raise Bad(at)
    rest = value.get("rest", "json")
    if "object" in value:
        if not isinstance(value["object"], dict):
            raise Bad(at + "/object")
        names = sorted(value["object"], key=lambda name: name.encode())
        fields = {name: described_part(value["object"][name], under(at + "/object", name)) for name in names}
        return make((), None, (fields, described_rest(rest, at + "/rest")))
    if not isinstance(value["array"], list) or len(value["array"]) > 64:
        raise Bad(at + "/array")
    places = [described_part(one, under(at + "/array", i)) for i, one in enumerate(value["array"])]
    return make((), (places, described_rest(rest, at + "/rest")))


def described_part(value, at):
    if isinstance(value, dict) and set(value) == {"optional"}:
        return plus(described(value["optional"], at + "/optional"), ABSENT)
    return described(value, at)


def described_rest(value, at):
    return value if value in ("nothing", "json") else described(value, at)


def kind_file(data):
    """The kind of a kind file's bytes, or the line of its refusal."""
    if len(data) > 65536:
        return "kind file: too long"
    try:
        value = json_lines.read(data)
    except (json_lines.NotJson, json_lines.NotWhole):
        return "kind file: not JSON"
    try:
        kind = described(value, "")
        if root_tags(kind) != {"object"} or nodes(kind) > 1000 or levels(kind) > 32:
            raise Bad("")
        return kind
    except Bad as bad:
        return "kind file: bad kind at " + bad.args[0]


def start_of(file):
    return EVENT if file is None else kind_file(json.dumps(file).encode())
