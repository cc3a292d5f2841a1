"""Kinds, as trees of the one form, and the operations on them.

A kind has the scalar tags that it allows, absent among them, and for arrays and objects the kinds of the places or fields that it knows, with a
rest for all others: `nothing`, `json`, `any` or a kind.
"""

import functools
from typing import NamedTuple

from reading import json_lines

SCALARS = ("string", "integer", "boolean", "null", "timestamp", "regex")
ABSENT = "absent"
TAGS = SCALARS + ("array", "object")


# Kinds come again and again, so an answer is kept for a while.
kept = functools.lru_cache(maxsize=1 << 15)


class Kind(NamedTuple):
    tags: frozenset         # scalar tags and absent
    array: object = None    # (places, rest) or None
    object: object = None   # (pairs of name and kind by bytes, rest) or None


def scalars(*tags):
    return Kind(frozenset(tags))


NEVER = scalars()
ANY = Kind(frozenset(SCALARS), ((), "any"), ((), "any"))
JSON = Kind(frozenset(SCALARS[:4]), ((), "json"), ((), "json"))
GONE = scalars(ABSENT)
# The kind of an event that no kind file declares, and of the metadata.
EVENT = METADATA = Kind(frozenset(), None, ((), "json"))
STRING, INTEGER, BOOLEAN, TIME = (scalars(tag) for tag in ("string", "integer", "boolean", "timestamp"))


def root_tags(kind):
    return kind.tags | ({"array"} if kind.array else set()) | ({"object"} if kind.object else set())


def plus(kind, *tags):
    return kind if kind.tags.issuperset(tags) else Kind(kind.tags.union(tags), kind.array, kind.object)


def minus(kind, *tags):
    return Kind(kind.tags.difference(tags), None if "array" in tags else kind.array, None if "object" in tags else kind.object)


OWN = {"nothing": GONE, "json": plus(JSON, ABSENT), "any": plus(ANY, ABSENT)}


def own(rest):
    """The kind of every part that a rest stands for."""
    return OWN[rest] if isinstance(rest, str) else plus(rest, ABSENT)


def rest_of(kind):
    kind = minus(kind, ABSENT)
    return "nothing" if kind == NEVER else "json" if kind == JSON else "any" if kind == ANY else kind


def make(tags, array=None, object_=None):
    """The tree of the one form. array: (places, rest), object_: (a map of names, rest)."""
    if array is not None:
        places, rest = list(array[0]), rest_of(own(array[1]))
        while places and places[-1] == own(rest):
            places.pop()
        array = (tuple(places), rest)
    if object_ is not None:
        rest = rest_of(own(object_[1]))
        pairs = sorted(((k, v) for k, v in dict(object_[0]).items() if v != own(rest)), key=lambda pair: pair[0].encode())
        object_ = (tuple(pairs), rest)
    return Kind(frozenset(tags), array, object_)


def canonical(kind):
    for part, parts in ((kind.array, lambda p: list(p)), (kind.object, lambda p: [k for _, k in p])):
        if part is None:
            continue
        rest = part[1]
        if not isinstance(rest, str) and (ABSENT in rest.tags or rest in (ANY, JSON, NEVER) or not canonical(rest)):
            return False
        inner = parts(part[0])
        if not all(canonical(k) for k in inner):
            return False
        if inner and part is kind.array and inner[-1] == own(rest):
            return False
        if part is kind.object:
            names = [n.encode() for n, _ in part[0]]
            if names != sorted(set(names)) or own(rest) in inner:
                return False
    return True


def fit(step):
    return "object" if isinstance(step, str) else "array"


def part(kind, step):
    """What a kind allows below one step that isn't negative."""
    if isinstance(step, str):
        return dict(kind.object[0]).get(step, own(kind.object[1])) if kind.object else NEVER
    if not kind.array:
        return NEVER
    places, rest = kind.array
    return places[step] if step < len(places) else own(rest)


def tags_at(kind, path):
    for step in path:
        kind = part(kind, step)
    return root_tags(kind)


# ---- operations on trees

@kept
def join(a, b):
    if a == b:
        return a
    for one in (a, b):
        if minus(one, ABSENT) == ANY:
            return plus(one, *((a.tags | b.tags) & {ABSENT}))
    array, object_ = a.array or b.array, a.object or b.object
    if a.array and b.array:
        known = range(max(len(a.array[0]), len(b.array[0])))
        array = ([join(part(a, i), part(b, i)) for i in known], join_rests(a.array[1], b.array[1]))
    if a.object and b.object:
        known = [name for name, _ in a.object[0] + b.object[0]]
        object_ = ({name: join(part(a, name), part(b, name)) for name in known}, join_rests(a.object[1], b.object[1]))
    return make(a.tags | b.tags, array, object_)


def join_rests(a, b):
    return a if a == b else rest_of(join(own(a), own(b)))


def within(a, b):
    if a == b:
        return True
    if not root_tags(a) <= root_tags(b):
        return False
    if minus(b, ABSENT) == ANY:
        return True
    if a.array:
        known = range(max(len(a.array[0]), len(b.array[0])))
        if not all(within(part(a, i), part(b, i)) for i in known) or not within(own(a.array[1]), own(b.array[1])):
            return False
    if a.object:
        known = [name for name, _ in a.object[0] + b.object[0]]
        if not all(within(part(a, n), part(b, n)) for n in known) or not within(own(a.object[1]), own(b.object[1])):
            return False
    return True


def disjoint(a, b):
    return not root_tags(a) & root_tags(b)


def exactly(kind, tag):
    return root_tags(kind) == {tag}


def children(kind):
    found = []
    for one in (kind.array, kind.object):
        if one:
            found += [k[1] if one is kind.object else k for k in one[0]]
            found += [one[1]] if not isinstance(one[1], str) else []
    return found


def nodes(kind):
    return 1 + sum(nodes(one) for one in children(kind))


def levels(kind):
    return max((1 + levels(one) for one in children(kind)), default=0)


def flatten(kind):
    return Kind(kind.tags, ((), "any") if kind.array else None, ((), "any") if kind.object else None)


@kept
def cut(kind):
    return flatten(kind) if nodes(kind) > 1000 or levels(kind) > 32 else kind


@kept
def parts(kind):
    joined = NEVER
    for one in (kind.array, kind.object):
        if one:
            for inner in [k[1] if one is kind.object else k for k in one[0]] + [own(one[1])]:
                joined = join(joined, inner)
    return minus(joined, ABSENT)


def sure(kind):
    """How many places from the front are sure."""
    places = kind.array[0]
    return next((i for i, one in enumerate(places) if ABSENT in one.tags), len(places))


def known_length(kind):
    """The length of the arrays of a kind, None where it isn't known or the kind has none."""
    known = kind.array and kind.array[1] == "nothing" and sure(kind) == len(kind.array[0])
    return len(kind.array[0]) if known else None


def to_null(kind):
    return plus(minus(kind, ABSENT), "null") if ABSENT in kind.tags else kind


@kept
def read(kind, path):
    for step in path:
        if isinstance(step, int) and step < 0:
            joined = NEVER
            for inner in (list(kind.array[0]) + [own(kind.array[1])]) if kind.array else []:
                joined = join(joined, inner)
            kind = plus(minus(joined, ABSENT), "null")
        else:
            inner = to_null(part(kind, step))
            kind = plus(inner, "null") if root_tags(kind) - {fit(step)} else inner
    return kind


@kept
def write(kind, path, new):
    if not path:
        return new
    step, behind = path[0], path[1:]
    if isinstance(step, int) and step < 0:
        length = known_length(kind) if exactly(kind, "array") else None
        if length is None or length < -step:
            inner = plus(parts(kind._replace(object=None)), "null")
            return make((), ((), rest_of(join(inner, write(inner, behind, new)))))
        step += length
    other = root_tags(kind) - {fit(step)}
    seen = lambda inner: plus(inner, ABSENT) if other else inner
    if isinstance(step, str):
        fields, rest = kind.object or ((), "nothing")
        fields = {name: seen(inner) for name, inner in fields}
        fields[step] = write(fields.get(step, own(rest)), behind, new)
        return make((), None, (fields, rest))
    places, rest = kind.array or ((), "nothing")
    places = [seen(inner) for inner in places] + [own(rest)] * (step + 1 - len(places))
    places[step] = write(places[step], behind, new)
    return make((), ([to_null(inner) for inner in places[:step]] + places[step:], rest))


@kept
def remove(kind, path):
    if not path:
        return kind
    step, behind = path[0], path[1:]
    held = kind.object if isinstance(step, str) else kind.array
    if not held:
        return kind
    if isinstance(step, int) and step < 0:
        length = known_length(kind)
        if length is None:
            inner = parts(kind._replace(object=None))
            return make(kind.tags, ((), rest_of(join(inner, remove(inner, behind)))), kind.object)
        if length < -step:
            return kind
        step += length
    inner, rest = held
    if isinstance(step, str):
        fields = dict(inner)
        fields[step] = remove(part(kind, step), behind) if behind else GONE
        return make(kind.tags, kind.array, (fields, rest))
    places = list(inner) + [own(rest)] * (step + 1 - len(inner))
    if behind:
        places[step] = remove(places[step], behind)
    else:
        gone = places.pop(step)
        if ABSENT in gone.tags:
            places = places[:step] + [plus(one, ABSENT) for one in places[step:]]
    return make(kind.tags, (places, rest), kind.object)


def merge(a, b):
    """The kind of `a | b` of two objects."""
    def over(left, right):
        return join(minus(right, ABSENT), left) if ABSENT in right.tags else right
    names = [name for name, _ in a.object[0] + b.object[0]]
    fields = {name: over(part(a, name), part(b, name)) for name in names}
    return make((), None, (fields, rest_of(over(own(a.object[1]), own(b.object[1])))))


def may_be_absent(kind, path):
    if not path:
        return ABSENT in kind.tags
    return bool(root_tags(kind) - {fit(path[0])}) or may_be_absent(part(kind, path[0]), path[1:])


# ---- values

def kind_of(value):
    tag, held = value
    if tag == "array":
        return make((), ([kind_of(one) for one in held], "nothing"))
    if tag == "object":
        return make((), None, ({name: kind_of(one) for name, one in held}, "nothing"))
    return scalars(tag)


def inhabits(value, kind):
    tag, held = value
    if tag not in root_tags(kind):
        return False
    if tag == "array":
        missing = [one for one in kind.array[0][len(held):]]
        return all(inhabits(one, part(kind, i)) for i, one in enumerate(held)) and all(ABSENT in one.tags for one in missing)
    if tag == "object":
        names = {name for name, _ in held}
        missing = [one for name, one in kind.object[0] if name not in names]
        return all(inhabits(one, part(kind, name)) for name, one in held) and all(ABSENT in one.tags for one in missing)
    return True


def found_at(value, path):
    """The tag at a path, absent, or None where there is no place."""
    for number, step in enumerate(path):
        tag, held = value
        if tag != fit(step):
            return None
        inner = dict(held if tag == "object" else enumerate(held)).get(step)
        if inner is None:
            return ABSENT if number == len(path) - 1 else None
        value = inner
    return value[0]


# ---- text

def print_rest(rest, before):
    return "" if rest == "nothing" else (", " if before else "") + ".." + (rest if isinstance(rest, str) else print_kind(rest))


def print_kind(kind):
    if kind in (NEVER, ANY, JSON):
        return {NEVER: "never", ANY: "any", JSON: "json"}[kind]
    told = [tag for tag in SCALARS if tag in kind.tags]
    mark = lambda inner: "?" if ABSENT in inner.tags else ""
    bare = lambda inner: print_kind(minus(inner, ABSENT))
    if kind.array:
        places = ", ".join(mark(inner) + bare(inner) for inner in kind.array[0])
        told.append("[" + places + print_rest(kind.array[1], places) + "]")
    if kind.object:
        fields = ", ".join(json_lines.text_of(name) + mark(inner) + ": " + bare(inner) for name, inner in kind.object[0])
        told.append("{" + fields + print_rest(kind.object[1], fields) + "}")
    return "|".join(told)
