"""Lines at random for the other trials, mostly of a kind, in envelopes where these are wanted. This file runs nothing by itself."""

import json

from reading import kinds

SAMPLES = {"string": ["", "s", "q", "12", "é\n"], "integer": [0, 1, -1, 7, 2 ** 63 - 1, -2 ** 63], "boolean": [True, False], "null": [None]}


def sample(rng, kind, depth):
    """JSON that mostly inhabits the kind."""
    tags = sorted(kinds.root_tags(kind) - {"absent", "timestamp", "regex"}) or ["null"]
    tag = rng.choice(tags) if rng.random() < 0.97 else rng.choice(sorted(SAMPLES))
    if tag == "array":
        known = len(kind.array[0])
        return [sample(rng, kinds.part(kind, i), depth - 1) for i in range(rng.choice([known, known + 1, 2]) if depth > 0 else known)]
    if tag == "object":
        fields = {}
        for name in sorted({n for n, _ in kind.object[0]} | {"a", "b", "c"}):
            inner = kinds.part(kind, name)
            if kinds.root_tags(inner) - {"absent"} and ("absent" not in inner.tags or (depth > 0 and rng.random() < 0.6)):
                fields[name] = sample(rng, inner, depth - 1)
        return fields
    return rng.choice(SAMPLES[tag])


def deep_object(rng):
    """An object about the limit of depth, in a field that most kinds leave open."""
    depth_ = rng.choice([100, 123, 124, 125, 126])
    name = rng.choice("abc")
    return b'{"' + name.encode() + b'":' + rng.choice([b"[" * depth_ + b"]" * depth_, b'{"a":' * depth_ + b"1" + b"}" * depth_]) + b"}"


def some_line(rng, kind):
    if rng.random() < 0.04:
        return deep_object(rng)
    return rng.choice([b"", b" ", b"[1]", b"{", b'{"a":1.5}']) if rng.random() < 0.04 else json.dumps(sample(rng, kind, 3)).encode()


def enclosed(rng, event):
    """A line in an envelope, or in what is almost one."""
    members = [b'"event":' + event, b'"metadata":' + (some_line(rng, kinds.METADATA) if rng.random() < 0.97 else rng.choice([b"[]", b"null", b'"s"', b"3"]))]
    how = rng.random()
    if how < 0.04:
        members = rng.choice([members[:1], members[1:], [], members + [b'"a":1'], members + [b'"Event":{}'], [members[0], b'"Metadata":{}']])
    elif how < 0.1:
        members += rng.choice([[b'"metadata":{"a":2}'], [b'"event":{"b":1}'], [b'"\\u006detadata":{}'], [b'"metadata":1'], [b'"metadata":{"a":1.5}']])
    elif how < 0.13:
        return event
    if rng.random() < 0.3:
        members.reverse()
    return b"{" + b",".join(members) + b"}"


def some_lines(rng, start, envelope=False):
    lines = [some_line(rng, start) for _ in range(rng.randrange(1, 7))]
    if envelope:
        lines = [enclosed(rng, line) if line.strip() else line for line in lines]
    return b"\n".join(lines) + (b"\n" if rng.random() < 0.8 else b"")
