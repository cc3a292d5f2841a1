"""Kinds, values that mostly inhabit them, paths and kind files at random for the other trials. This file runs nothing by itself."""

import json

from reading.kinds import ABSENT, ANY, EVENT, GONE, JSON, NEVER, SCALARS, Kind, join, kind_of, make, minus, own, part, parts, plus, remove, rest_of, root_tags, scalars, write

FIELDS = ("a", "b", "é", "fresh")


class Maker:
    def __init__(self, rng):
        self.rng = rng

    def tags(self):
        size = self.rng.choice([0, 0, 1, 1, 1, 2, 3, 6])
        return self.rng.sample(SCALARS, size)

    def rest(self, depth):
        pick = self.rng.random()
        return "nothing" if pick < 0.35 else "json" if pick < 0.55 else "any" if pick < 0.65 else rest_of(self.kind(depth - 1))

    def part(self, depth):
        kind = GONE if self.rng.random() < 0.06 else self.kind(depth)
        return plus(kind, ABSENT) if self.rng.random() < 0.35 else kind

    def array(self, depth):
        return [self.part(depth - 1) for _ in range(self.rng.randrange(4))], self.rest(depth)

    def known_array(self, depth):
        """The arrays of one length."""
        return make((), ([self.kind(depth - 1) for _ in range(self.rng.randrange(4))], "nothing"))

    def object(self, depth):
        return {self.rng.choice(FIELDS[:3]): self.part(depth - 1) for _ in range(self.rng.randrange(4))}, self.rest(depth)

    def kind(self, depth):
        pick = self.rng.random()
        if pick < 0.14:
            return self.rng.choice([ANY, JSON, JSON, NEVER, EVENT])
        array = self.array(depth) if depth > 0 and self.rng.random() < 0.5 else None
        object_ = self.object(depth) if depth > 0 and self.rng.random() < 0.5 else None
        return make(self.tags(), array, object_)

    def near(self, kind, depth):
        """A kind that has much in common with this one."""
        pick = self.rng.random()
        if pick < 0.2:
            return self.kind(depth)
        if pick < 0.45:
            return self.tweaked(kind)
        if pick < 0.55:
            return join(kind, self.kind(depth))
        if pick < 0.7:
            return write(kind, self.path(2), self.kind(1))
        if pick < 0.85:
            return remove(kind, self.path(2))
        return kind_of(self.value(kind, depth)) if pick < 0.95 else kind

    def tweaked(self, kind):
        """The kind with one tag, one part or one rest changed somewhere."""
        array = (list(kind.array[0]), kind.array[1]) if kind.array else None
        object_ = (dict(kind.object[0]), kind.object[1]) if kind.object else None
        held = self.rng.choice([one for one in (array, object_) if one] or [None])
        if held is None or self.rng.random() < 0.2:
            return make(kind.tags ^ {self.rng.choice(SCALARS)}, array, object_)
        keys = list(held[0]) if isinstance(held[0], dict) else list(range(len(held[0])))
        if keys and self.rng.random() < 0.6:
            key = self.rng.choice(keys)
            held[0][key] = Kind(*held[0][key][:1]) if self.rng.random() < 0.1 else self.tweaked(held[0][key])
            if self.rng.random() < 0.3:
                held[0][key] = held[0][key]._replace(tags=held[0][key].tags ^ {ABSENT})
        else:
            rest = self.rng.choice(["nothing", "json", "any", rest_of(self.tweaked(minus(own(held[1]), ABSENT)))])
            array, object_ = ((held[0], rest), object_) if held is array else (array, (held[0], rest))
        return make(kind.tags, array, object_)

    def value(self, kind, depth):
        """A value that mostly inhabits the kind."""
        told = sorted(root_tags(kind) - {ABSENT})
        tag = self.rng.choice(told) if told and self.rng.random() < 0.93 else self.rng.choice(SCALARS)
        if tag == "array":
            held = []
            for i in range(self.rng.randrange(5) if depth > 0 else 0):
                held.append(self.value(part(kind, i), depth - 1))
            return tag, tuple(held)
        if tag == "object":
            names = [n for n in FIELDS if self.rng.random() < 0.5] if depth > 0 else []
            known = [n for n, k in kind.object[0] if ABSENT not in k.tags and self.rng.random() < 0.9]
            return tag, tuple((n, self.value(part(kind, n), depth - 1)) for n in sorted(set(names + known)))
        return tag, {"string": "q", "integer": 7, "boolean": True, "null": None, "timestamp": 10 ** 9, "regex": 0}[tag]

    def path(self, most, negative=False, kind=ANY):
        """Steps that mostly fit the kind."""
        steps = []
        for _ in range(self.rng.choice([0, 1, 1, 2, 2, 3][:2 * most])):
            place = self.rng.randrange(4)
            if negative and self.rng.random() < 0.3:
                place = self.rng.choice([-1, -1, -2, -2, -3, -4, -5, -65536])
            fitting = [tag for tag in ("array", "object") if tag in root_tags(kind)]
            tag = self.rng.choice(fitting if fitting and self.rng.random() < 0.8 else ["array", "object"])
            steps.append(self.rng.choice(FIELDS) if tag == "object" else place)
            kind = part(kind, steps[-1]) if tag == "object" or place >= 0 else parts(kind._replace(object=None))
        return tuple(steps)

    def big(self):
        """Kinds about the limits of nodes and levels."""
        if self.rng.random() < 0.5:
            size = self.rng.choice([998, 999, 1000, 1001])
            kind = scalars("integer")
            if self.rng.random() < 0.5:
                return make((), ([kind] * size, self.rng.choice(["nothing", "json"])))
            return make(("null",), None, ({f"k{i:04}": kind for i in range(size)}, "json"))
        kind = self.rng.choice([scalars("string"), make((), ((), "nothing")), JSON])
        for _ in range(self.rng.choice([30, 31, 32, 33, 34])):
            kind = self.rng.choice([make((), ([kind], "nothing")), make((), ((), rest_of(kind))), make((), None, ({"k": kind}, "nothing"))])
        return kind

    def file_part(self, depth):
        if self.rng.random() < 0.25:
            return {"optional": self.file(depth)}
        return self.file(depth)

    def file(self, depth):
        pick = self.rng.random()
        if pick < 0.04:
            return self.rng.choice(["text", "any", "nothing", 1, None, True, [], {}, {"optional": "json"}, {"object": []}, {"array": {}},
                                    {"object": {}, "array": []}, {"rest": "json"}, {"object": {}, "more": 1}, {"array": ["json"] * 65}])
        if depth == 0 or pick < 0.4:
            return self.rng.choice(["string", "integer", "boolean", "null", "json"])
        if pick < 0.5:
            return [self.file(depth - 1) for _ in range(self.rng.randrange(1, 4))]
        if pick < 0.8:
            names = ["a", "b", "a/b", "m~n", "~1", "", "é", "rest", "object", "optional"]
            one = {"object": {self.rng.choice(names): self.file_part(depth - 1) for _ in range(self.rng.randrange(4))}}
        else:
            one = {"array": [self.file_part(depth - 1) for _ in range(self.rng.choice([0, 1, 2, 3, 64 if depth == 1 else 1]))]}
        if self.rng.random() < 0.5:
            one["rest"] = self.rng.choice(["nothing", "json", self.file(depth - 1), self.file(depth - 1)])
        return one

    def file_bytes(self):
        pick = self.rng.random()
        if pick < 0.02:
            return self.rng.choice([b'{"object":{}}' + b" " * 65523, b'{"object":{}}' + b" " * 65524, b"{", b"", b"\xff", b'{"object":{"a":1.5}}',
                                    b'{"object":{"a":1}}', b'{"object":{"a":-0},"object":{}}', b'"json"', b'{"object":{"a":1.5,"a":"json"}}'])
        value = self.file(self.rng.choice([1, 2, 3])) if pick < 0.2 else {"object": {n: self.file_part(2) for n in "abc" if self.rng.random() < 0.7}}
        if pick < 0.06:
            size = self.rng.choice([331, 332, 333, 334])
            value = {"object": {f"k{i}": {"array": ["string", "integer"]} for i in range(size)}}
        elif pick < 0.1:
            value = "string"
            for _ in range(self.rng.choice([31, 32, 33])):
                value = {"object": {"k": value}}
        data = json.dumps(value, ensure_ascii=self.rng.random() < 0.5).encode()
        if self.rng.random() < 0.03:
            place = self.rng.randrange(len(data))
            data = data[:place] + data[place + 1:]
        return data
