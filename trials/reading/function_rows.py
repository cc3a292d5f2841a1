"""Rows of functions, and what several of them share.

A row has the parameters, the result kind, when the function may fail though its arguments fit, which literals it
takes, and what it does. `given` maps each parameter that an argument binds to its kind, cut down to the tags that the
parameter allows, and to its literal, if it is one.
"""

from typing import NamedTuple

from reading.kinds import ABSENT, NEVER, TAGS, Kind, join, make, minus, parts, rest_of, root_tags
from reading.values import Failed, text


class Parameter(NamedTuple):
    name: str
    tags: frozenset
    required: bool
    literal: bool


class Given(NamedTuple):
    kind: Kind
    literal: object


class Row:
    """names: how many names a closure has, None without one; path: whether the argument is a path."""

    def __init__(self, name, parameters, kind, apply, may_fail=False, allowed=None, names=None, path=False):
        self.name, self.kind, self.apply, self.may_fail = name, kind, apply, may_fail
        self.allowed, self.names, self.path = allowed, names, path
        self.parameters = []
        for one in parameters.split():
            word, tags = one.rstrip("?!").split(":")
            tags = TAGS if tags == "any" else tags.split(",")
            self.parameters.append(Parameter(word, frozenset(tags), "?" not in one, "!" in one))

    def result(self, given, sources):
        return self.kind(given, sources) if callable(self.kind) and not isinstance(self.kind, Kind) else self.kind

    def fails(self, given):
        return self.may_fail(given) if callable(self.may_fail) else self.may_fail


class Rows(dict):
    """Rows by the names of their functions, in the order in which they are told."""

    def row(self, name, parameters, kind, may_fail=False, allowed=None):
        """Adds a row, whose function does what the function behind it does."""
        def add(apply):
            self[name] = Row(name, parameters, kind, apply, may_fail, allowed)
            return apply
        return add


def array_of(kind):
    return make((), ((), rest_of(kind)))


def object_of(kind):
    return make((), None, ({}, rest_of(kind)))


def cut_to(kind, *tags):
    return minus(kind, *(set(TAGS) - set(tags)), ABSENT)


def has(given, name, *tags):
    return bool(root_tags(given[name].kind) & set(tags))


def by_tags(array, object_):
    """The kind of a result that is an array where the value may be one, and an object where it may be one."""
    def kind(given, _):
        joined = NEVER
        for tag, one in (("array", array), ("object", object_)):
            if has(given, "value", tag):
                joined = join(joined, one)
        return joined
    return kind


def parts_within(name, *tags):
    """May fail where the parts aren't within these tags."""
    return lambda given: bool(root_tags(parts(given[name].kind)) - set(tags))


def strings_of(args, name):
    for number, one in enumerate(args[name][1]):
        if one[0] != "string":
            raise Failed(f"element {number} is {one[0]}")
    return [one[1] for one in args[name][1]]


def held(args, name, default=None):
    return args[name][1] if name in args else default


def strings(every):
    return "array", tuple(text(one) for one in every)
