"""The definitions of the operations on kinds at every path: a kind is a function from a path to a set of tags, and so is what is made of it."""

from reading.kinds import ABSENT, ANY, children, fit, found_at, levels, own, tags_at

FRESH = "other"


def at(kind):
    return lambda path: tags_at(kind, path)


def below(f, step):
    return lambda q: f((step,) + q)


def join(f, g):
    return lambda q: f(q) | g(q)


def read(f, path, places):
    if not path:
        return f
    step = path[0]
    if isinstance(step, int) and step < 0:
        n = every(f, places, {"null"})
    else:
        def n(q):
            found = f((step,) + q)
            if not q and ABSENT in found:
                found = found - {ABSENT} | {"null"}
            return found | {"null"} if not q and f(()) - {fit(step)} else found
    return read(n, path[1:], places)


def length(f, places):
    """The length of the arrays, None where it isn't known; the last of the places stands for all that no kind knows."""
    known = next(i for i in places if i == places[-1] or ABSENT in f((i,)))
    return known if all(f((i,)) == {ABSENT} for i in places[known:]) else None


def every(f, places, more=()):
    """The join of all places without absent, and of scalar tags beside it."""
    def n(q):
        found = frozenset().union(*(f((i,) + q) for i in places))
        return found if q else found - {ABSENT} | set(more)
    return n


def list_of(f):
    """The arrays of any length whose items are told by f, apart from the other tags."""
    return lambda q: (f(q[1:]) | {ABSENT} if len(q) == 1 else f(q[1:])) if fit(q[0]) == "array" else set()


def write(f, path, new, places):
    if not path:
        return new
    step, behind = path[0], path[1:]
    if isinstance(step, int) and step < 0:
        known = length(f, places) if f(()) == {"array"} else None
        if known is None or known + step < 0:
            inner = every(f, places, {"null"})
            listed = list_of(join(inner, write(inner, behind, new, places)))
            return lambda q: listed(q) if q else {"array"}
        step += known
    held, other = fit(step) in f(()), f(()) - {fit(step)}

    def container(q):
        found = f(q) if held else ({ABSENT} if len(q) == 1 else set())
        return found | {ABSENT} if len(q) == 1 and other else found
    inner = write(below(container, step), behind, new, places)

    def result(q):
        if not q:
            return {fit(step)}
        if fit(q[0]) != fit(step):
            return set()
        if q[0] == step:
            return inner(q[1:])
        found = container(q)
        if fit(step) == "array" and q[0] < step and len(q) == 1 and ABSENT in found:
            found = found - {ABSENT} | {"null"}
        return found
    return result


def remove(f, path, places):
    if not path or fit(path[0]) not in f(()):
        return f
    step, behind = path[0], path[1:]
    if isinstance(step, int) and step < 0:
        known = length(f, places)
        if known is None:
            inner = every(f, places)
            listed = list_of(join(inner, remove(inner, behind, places)))
            return lambda q: listed(q) if q and fit(q[0]) == "array" else f(q)
        if known + step < 0:
            return f
        step += known

    def result(q):
        if not q or fit(q[0]) != fit(step):
            return f(q)
        if behind:
            return remove(below(f, step), behind, places)(q[1:]) if q[0] == step else f(q)
        if isinstance(step, str):
            return f(q) if q[0] != step else {ABSENT} if len(q) == 1 else set()
        if q[0] < step:
            return f(q)
        found = f((q[0] + 1,) + q[1:])
        return found | {ABSENT} if len(q) == 1 and ABSENT in f((step,)) else found
    return result


def absent(f, path):
    if not path:
        return ABSENT in f(())
    return bool(f(()) - {fit(path[0])}) or absent(below(f, path[0]), path[1:])


def flatten(f):
    return lambda q: f(()) if not q else tags_at(ANY, ("a",) + q[1:]) | {ABSENT} if len(q) == 1 and fit(q[0]) in f(()) else (
        tags_at(ANY, q) if fit(q[0]) in f(()) else set())


def parts(f, steps):
    def result(q):
        found = frozenset().union(*(f((s,) + q) for s in steps))
        return found if q else found - {ABSENT}
    return result


def without(f, tag):
    def result(q):
        if not q:
            return f(()) - {tag}
        return set() if fit(q[0]) == tag else f(q)
    return result


def made(tag, inner, rest):
    def result(q):
        if not q:
            return {tag}
        return tags_at(inner.get(q[0], own(rest)), q[1:]) if fit(q[0]) == tag else set()
    return result


def known(kind):
    """The fields and the places that a kind knows anywhere."""
    names = {name for name, _ in kind.object[0]} if kind.object else set()
    places = set(range(len(kind.array[0]))) if kind.array else set()
    return names.union(places, *(known(one) for one in children(kind)))


class Paths:
    """The paths of a case: the fields and places that occur in it, one fresh of each, and how far down sets may change."""

    def __init__(self, kinds, path=()):
        found = set(path).union(*(known(kind) for kind in kinds))
        self.places = list(range(max([-1] + [step for step in found if isinstance(step, int)]) + 2))
        self.steps = sorted(step for step in found if isinstance(step, str)) + [FRESH] + self.places
        self.depth = 1 + max(levels(kind) for kind in kinds)

    def same(self, f, g, path=()):
        """Whether two functions agree at every path that either has a container for."""
        found, wanted = f(path), g(path)
        if found != wanted:
            return False
        if len(path) == self.depth:
            return True
        if not all(f(path + (s,)) == g(path + (s,)) for s in (FRESH, self.places[-1]) if fit(s) not in found):
            return False
        return all(self.same(f, g, path + (s,)) for s in self.steps if fit(s) in found)

    def within(self, f, g, path=()):
        """Whether the first function's set is part of the second's at every path."""
        found = f(path)
        if not found <= g(path):
            return False
        return len(path) == self.depth or all(self.within(f, g, path + (s,)) for s in self.steps if fit(s) in found)

    def inhabits(self, value, f, path=()):
        """Whether what is found at each path, absent too, is in the function's set there."""
        found = found_at(value, path)
        return found in f(path) and all(self.inhabits(value, f, path + (s,)) for s in self.steps if found == fit(s))
