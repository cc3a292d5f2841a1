"""Random trial of paths: what is read, set and removed in values, and in the kinds that they inhabit.

    python3 trials/paths.py [--seed N] [--count N] [--out FILE]

Each set and each removal is held against what look-up must find afterwards at every path to depth three over the fields
and places that occur; a place from the end stands for one from the start, of the value with the nulls that a write puts in
front of an array. Each is also held against kinds: where a value inhabits a kind, what is read, written and left
inhabits the kind of the read, the write and the removal, and a path that may not be absent is there. With --out the
cases go to FILE, a JSON object a line, values written as `cases.py` tells:

    get             value, path             want: a value, or null where there is none
    exists          value, path             want: true or false
    set             value, path, new        want: a value, or "too deep"
    put             value, path, new        want: a value
    remove          value, path             want: the value that was there, or null; left: the value that is left
"""

import argparse
import json
import random
import sys

sys.dont_write_bytecode = True

import some_kinds
from cases import described_value
from reading import kinds
from reading.values import NULL, cut_out, depth, get, objects, put

GONE, NOWHERE = "absent", "no place"
EMPTY = {"array": ("array", ()), "object": ("object", ())}
STEPS = ("a", "b", "c", "d", 0, 1, 2, 3, 4, 5)
PATHS = [()] + [(s,) for s in STEPS] + [(s, t) for s in STEPS for t in STEPS] + [(s, t, u) for s in STEPS for t in STEPS for u in STEPS]


def raw(value, path):
    """The sub-tree at a path without places from the end, absent, or no place."""
    for number, step in enumerate(path):
        tag, held = value
        if tag != kinds.fit(step):
            return NOWHERE
        found = dict(held if tag == "object" else enumerate(held)).get(step)
        if found is None:
            return GONE if number == len(path) - 1 else NOWHERE
        value = found
    return value


def tree(found):
    return found not in (GONE, NOWHERE)


def from_the_front(value, path):
    """The path with the places that those from the end stand for in a write, and the value with the nulls that are first put in front of arrays."""
    for at, step in enumerate(path):
        if isinstance(step, int) and step < 0:
            found = raw(value, path[:at])
            held = found[1] if tree(found) and found[0] == "array" else ()
            if len(held) + step < 0:
                held = (NULL,) * (-step - len(held)) + held
                value = put(value, path[:at], ("array", held))
            path = path[:at] + (len(held) + step,) + path[at + 1:]
    return value, path


def there(value, path):
    """The path with the places that those from the end stand for in a removal, None where there is none."""
    for at, step in enumerate(path):
        if isinstance(step, int) and step < 0:
            found = raw(value, path[:at])
            if not tree(found) or found[0] != "array" or len(found[1]) + step < 0:
                return None
            path = path[:at] + (len(found[1]) + step,) + path[at + 1:]
    return path


def after_set(value, path, new, q):
    """What is at q once `new` was set at the path; of a container above it the tag alone."""
    if q[:len(path)] == path:
        return raw(new, q[len(path):])
    at = next((i for i, (s, t) in enumerate(zip(q, path)) if s != t), None)
    if at is None:
        return kinds.fit(path[len(q)])
    mine, other, parent = q[at], path[at], raw(value, path[:at])
    if kinds.fit(mine) != kinds.fit(other):
        return NOWHERE
    if isinstance(mine, int) and mine < other:
        return raw(value, q) if tree(raw(value, q[:at + 1])) else raw(NULL, q[at + 1:])
    same = tree(parent) and parent[0] == kinds.fit(mine)
    return raw(value, q) if same else raw(EMPTY[kinds.fit(mine)], q[at:])


def after_removal(value, path, q):
    if not path or not tree(raw(value, path)):
        return raw(value, q)
    above, last = path[:-1], path[-1]
    if q[:len(path)] == path and isinstance(last, str):
        return GONE if q == path else NOWHERE
    if len(q) >= len(path) and q[:len(above)] == above and isinstance(last, int) and isinstance(q[len(above)], int) and q[len(above)] >= last:
        return raw(value, above + (q[len(above)] + 1,) + q[len(path):])
    return raw(value, q)


def agrees(value, told, above):
    """Whether look-up finds everywhere what is told; above are the paths at which only the tag is told."""
    for q in PATHS:
        found, wanted = raw(value, q), told(q)
        if q in above and tree(found):
            found = found[0]
            wanted = wanted[0] if isinstance(wanted, tuple) else wanted
        if found != wanted:
            return False
    return True


class Maker:
    def __init__(self, rng):
        self.rng, self.shapes = rng, some_kinds.Maker(rng)

    def value(self, depth_):
        how = self.rng.random()
        if depth_ and how < 0.35:
            return "array", tuple(self.value(depth_ - 1) for _ in range(self.rng.randrange(4)))
        if depth_ and how < 0.75:
            return objects({name: self.value(depth_ - 1) for name in "abc" if self.rng.random() < 0.5})
        return self.rng.choice([NULL, ("integer", 1), ("string", "s"), ("boolean", False), ("timestamp", 5), ("regex", 0)])

    def path(self, value, negative):
        steps = []
        for _ in range(self.rng.choice([0, 1, 1, 2, 2, 3])):
            step = self.rng.choice("abc") if self.rng.random() < 0.5 else self.rng.randrange(4)
            if value is not None and value[0] == "array" and self.rng.random() < 0.7:
                step = self.rng.randrange(4)
            elif value is not None and value[0] == "object" and self.rng.random() < 0.7:
                step = self.rng.choice("abc")
            if negative and isinstance(step, int) and self.rng.random() < 0.4:
                step = -1 - step
            steps.append(step)
            value = get(value, (step,)) if value is not None else None
        return tuple(steps)

    def deep(self, size):
        value = self.rng.choice([NULL, ("array", ()), ("integer", 1)])
        for _ in range(size - depth(value)):
            value = ("array", (value,)) if self.rng.random() < 0.5 else objects({"a": value})
        return value

    def case(self):
        call = self.rng.choice(["get", "exists", "set", "set", "put", "remove", "remove"])
        value = self.value(3)
        path = self.path(value, self.rng.random() < 0.5)
        new = self.value(1)
        if call in ("set", "put") and self.rng.random() < 0.05:
            new = self.deep(self.rng.choice([125, 126, 127, 128, 129]))
        one = {"call": call, "value": value, "path": path}
        if call == "get":
            one["want"] = get(value, path)
        elif call == "exists":
            one["want"] = get(value, path) is not None
        elif call in ("set", "put"):
            made = put(value, path, new)
            one["new"] = new
            one["want"] = "too deep" if call == "set" and depth(made) > 128 else made
            before, plain = from_the_front(value, path)
            above = {plain[:i] for i in range(len(path))}
            assert agrees(made, lambda q: after_set(before, plain, new, q), above), one
        else:
            one["want"] = get(value, path) if path else None
            one["left"] = cut_out(value, path) if path else value
            plain = there(value, path) or ()
            above = {plain[:i] for i in range(len(plain))}
            assert agrees(one["left"], lambda q: after_removal(value, plain, q), above), one
        return one

    def law(self):
        """One reading, one write and one removal of a value that inhabits a kind."""
        kind = self.shapes.kind(3)
        value, new_kind = self.shapes.value(kind, 3), self.shapes.kind(1)
        new = self.shapes.value(new_kind, 2)
        if not kinds.inhabits(value, kind):
            return 0
        path = self.path(value, True)
        assert kinds.inhabits(get(value, path) or NULL, kinds.read(kind, path)), (value, kinds.print_kind(kind), path)
        if not any(isinstance(step, int) and step < 0 for step in path):
            assert kinds.may_be_absent(kind, path) or get(value, path) is not None, (value, kinds.print_kind(kind), path)
        left = cut_out(value, path) if path else value
        assert kinds.inhabits(left, kinds.remove(kind, path)), (value, kinds.print_kind(kind), path)
        if kinds.inhabits(new, new_kind):
            assert kinds.inhabits(put(value, path, new), kinds.write(kind, path, new_kind)), (value, kinds.print_kind(kind), path, new)
        return 1


def line_of(one):
    told = {}
    for name, held in one.items():
        told[name] = described_value(held) if isinstance(held, tuple) and name != "path" else list(held) if name == "path" else held
    return json.dumps(told) + "\n"


def self_check():
    s, i = lambda held: ("string", held), lambda held: ("integer", held)
    array = lambda *every: ("array", every)
    at = lambda *held: objects({"a": array(*held)})
    rows = [
        (put(at(i(1), i(2), i(3)), ("a", -2), i(9)), at(i(1), i(9), i(3))), (put(at(i(1)), ("a", -2), i(9)), at(i(9), i(1))), (put(at(i(1)), ("a", -4), i(9)), at(i(9), NULL, NULL, i(1))),
        (put(at(i(1), i(2)), ("a", -2), i(9)), at(i(9), i(2))), (put(objects({"a": s("t")}), ("a", -1), i(1)), at(i(1))), (put(objects({}), ("a", -3), i(1)), at(i(1), NULL, NULL)), (put(NULL, (-1, -2), i(1)), array(array(i(1), NULL))),
        (put(objects({"a": objects({"b": NULL})}), ("a", -1), i(1)), at(i(1))), (put(at(objects({"b": i(1)})), ("a", -1, "c"), i(2)), at(objects({"b": i(1), "c": i(2)}))), (put(at(i(1)), ("a", -2, "c"), i(2)), at(objects({"c": i(2)}), i(1))),
        (put(array(array(i(1)), i(2)), (-2, -2), i(9)), array(array(i(9), i(1)), i(2))), (put(array(array(i(1)), i(2)), (-2, 1), i(9)), array(array(i(1), i(9)), i(2))),
        (cut_out(at(i(1), i(2)), ("a", -1)), at(i(1))), (cut_out(at(i(1), i(2)), ("a", -2)), at(i(2))), (cut_out(at(i(1), i(2)), ("a", -3)), at(i(1), i(2))), (cut_out(array(), (-1,)), array()), (cut_out(objects({"a": s("t")}), ("a", -1)), objects({"a": s("t")})),
        (cut_out(at(objects({"b": i(1)}), i(2)), ("a", -2, "b")), at(objects({}), i(2))), (cut_out(array(i(1), array(i(2), i(3))), (-1, -2)), array(i(1), array(i(3)))), (cut_out(at(i(1), i(2)), ("a", -1, "b")), at(i(1), i(2))),
        (put(objects({"a": s("t")}), ("a", 2), i(1)), objects({"a": ("array", (NULL, NULL, i(1)))})),
        (cut_out(objects({"a": ("array", (i(1), i(2)))}), ("a", 0)), objects({"a": ("array", (i(2),))})),
        (get(objects({"a": ("array", (i(1), i(2)))}), ("a", -1)), i(2)), (get(("array", ()), (-1,)), None),
        (get(objects({"a": NULL}), ("a",)), NULL), (get(objects({"a": NULL}), ("b",)), None), (cut_out(objects({"a": i(1)}), ("b", 0)), objects({"a": i(1)})),
    ]
    for got, want in rows:
        assert got == want, (got, want)
    deep = Maker(random.Random(0)).deep(128)
    assert depth(deep) == 128 and depth(put(EMPTY["object"], ("a",), deep)) == 129
    return len(rows) + 1


def main():
    words = argparse.ArgumentParser(description="paths in values and in kinds at random")
    words.add_argument("--seed", type=int, default=1)
    words.add_argument("--count", type=int, default=2000)
    words.add_argument("--out")
    given = words.parse_args()
    rows = self_check()
    maker = Maker(random.Random(given.seed))
    cases = [maker.case() for _ in range(given.count)]
    if given.out:
        with open(given.out, "w") as file:
            file.writelines(line_of(one) for one in cases)
    laws = sum(maker.law() for _ in range(10 * given.count))
    met = {}
    for one in cases:
        met[one["call"]] = met.get(one["call"], 0) + 1
    told = ", ".join(f"{met[call]} {call}" for call in sorted(met))
    print(f"paths: seed {given.seed}, {rows} rows, {len(cases)} cases ({told}), {laws} values held against kinds: all as look-up tells")
    return 0


if __name__ == "__main__":
    sys.exit(main())
