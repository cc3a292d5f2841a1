"""Kinds and values as files of cases hold them, for drivers of the product. This file runs nothing by itself.

A kind is `{"tags": [TAG ..], "array": {"places": [KIND ..], "rest": REST}, "object": {"fields": {NAME: KIND ..}, "rest": REST}}`; `tags`
holds the scalar tags and `absent`, the others are left out where the kind has no such part. REST is `"nothing"`, `"json"`, `"any"` or a kind.
A path is a list of texts and whole numbers. A value is an object with one member, its tag: `{"integer": 1}`, `{"timestamp": NANOSECONDS}`,
`{"regex": NUMBER}`, `{"array": [VALUE ..]}`, `{"object": {NAME: VALUE ..}}`.
"""

from reading.kinds import ABSENT, SCALARS


def description(kind):
    told = {"tags": [t for t in SCALARS + (ABSENT,) if t in kind.tags]}
    rest = lambda one: one if isinstance(one, str) else description(one)
    if kind.array:
        told["array"] = {"places": [description(one) for one in kind.array[0]], "rest": rest(kind.array[1])}
    if kind.object:
        told["object"] = {"fields": {name: description(one) for name, one in kind.object[0]}, "rest": rest(kind.object[1])}
    return told


def described_value(value):
    tag, held = value
    if tag == "array":
        held = [described_value(one) for one in held]
    elif tag == "object":
        held = {name: described_value(one) for name, one in held}
    return {tag: held}
