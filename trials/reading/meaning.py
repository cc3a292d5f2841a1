"""The meaning: what an accepted script does to an event, form by form, and calls by the rows of `functions.py`."""

from reading import functions
from reading.judgement import PAIRS
from reading.values import NULL, Failed, cut_out, depth, flag, get, objects, put, text, whole

DEEPEST = 128
EMPTY = {"string": ("string", ""), "integer": ("integer", 0), "boolean": ("boolean", False), "null": NULL, "timestamp": ("timestamp", 0),
         "array": ("array", ()), "object": ("object", ())}


class Ended(Exception):
    """The end of the program: args are its word (aborted, returned, banged, deep) and what it holds."""


def plus(a, b):
    if a[0] == b[0] == "integer":
        return whole(a[1] + b[1])
    return text((a[1] or "") + (b[1] or ""))


SIGNS = {
    "+": plus, "-": lambda a, b: whole(a[1] - b[1]), "*": lambda a, b: whole(a[1] * b[1]),
    "<": lambda a, b: flag(order(a) < order(b)), "<=": lambda a, b: flag(order(a) <= order(b)),
    ">": lambda a, b: flag(order(a) > order(b)), ">=": lambda a, b: flag(order(a) >= order(b)),
}


def order(value):
    return value[1].encode() if value[0] == "string" else value[1]


class Run:
    def __init__(self, script, empties, event, metadata=EMPTY["object"], moment=0):
        self.script, self.empties, self.moment = script, empties, moment
        self.sources = [token.value for token in script.patterns]
        self.store = {".": event, "%": metadata}

    def eval(self, node):
        return getattr(self, "eval_" + node.form)(node)

    def write(self, target, value):
        if target.root is None:
            return
        new = put(self.store.get(target.root, NULL), target.steps, value)
        if depth(new) > DEEPEST:
            raise Ended("deep", None)
        self.store[target.root] = new

    def read(self, root, steps):
        return get(self.store.get(root, NULL), steps) or NULL

    def eval_literal(self, node):
        return node.tag, node.value

    def eval_array(self, node):
        return "array", tuple([self.eval(one) for one in node.parts])

    def eval_map(self, node):
        return objects({name: value for name, value in [(name, self.eval(one)) for name, one in node.pairs]})

    def eval_read(self, node):
        return self.read(node.root, node.steps)

    def eval_query(self, node):
        return get(self.eval(node.value), node.steps) or NULL

    def eval_group(self, node):
        return self.eval(node.value)

    def eval_block(self, node):
        before = set(self.store)
        try:
            return self.items(node.items)
        finally:
            self.store = {root: held for root, held in self.store.items() if root in before}

    def items(self, items):
        value = NULL
        for one in items:
            value = self.eval(one)
        return value

    def eval_if(self, node):
        for predicate, block in node.arms:
            if self.eval(predicate) == flag(True):
                return self.eval(block)
        return self.eval(node.otherwise) if node.otherwise else NULL

    def eval_not(self, node):
        value = self.eval(node.value)
        if value[0] != "boolean":
            raise Failed("")
        return flag(not value[1])

    def eval_binary(self, node):
        if node.op == "??":
            try:
                return self.eval(node.left)
            except Failed:
                return self.eval(node.right)
        left = self.eval(node.left)
        if node.op == "||":
            return self.eval(node.right) if left in (NULL, flag(False)) else left
        if node.op == "&&":
            return self.both_true(left, node)
        return self.apply(node.op, left, self.eval(node.right))

    def both_true(self, left, node):
        if left in (NULL, flag(False)):
            return flag(False)
        right = self.eval(node.right) if left[0] == "boolean" else left
        if right[0] not in ("boolean", "null"):
            raise Failed(f"cannot apply && to {right[0]}")
        return flag(right == flag(True))

    def apply(self, op, left, right):
        if op in ("==", "!="):
            return flag((left == right) == (op == "=="))
        if op == "|" and left[0] == right[0] == "object":
            return objects({**dict(left[1]), **dict(right[1])})
        if (left[0], right[0]) not in PAIRS.get(op, {}):
            raise Failed(f"cannot apply {op} to {left[0]} and {right[0]}")
        return SIGNS[op](left, right)

    def eval_assign(self, node):
        value = self.eval(node.value)
        self.write(node.target, value)
        return value

    def eval_merge(self, node):
        left = self.read(node.target.root, node.target.steps)
        value = self.apply("|", left, self.eval(node.value))
        self.write(node.target, value)
        return value

    def eval_both(self, node):
        try:
            value, err = self.eval(node.value), NULL
        except Failed as failed:
            value, err = EMPTY[self.empties.get(node, "null")], text(failed.args[0])
        self.write(node.ok, value)
        self.write(node.err, err)
        return value

    def eval_return(self, node):
        raise Ended("returned", self.eval(node.value))

    def eval_abort(self, node):
        if node.message is None:
            raise Ended("aborted", None)
        message = self.eval(node.message)
        if message[0] != "string":
            raise Failed("")
        raise Ended("aborted", message[1])

    def eval_call(self, node):
        try:
            value = self.called(node)
        except Failed as failed:
            if node.bang:
                raise Ended("banged", failed.args[0]) from None
            raise
        if depth(value) > DEEPEST:
            raise Ended("deep", None)
        return value

    def called(self, node):
        values = [self.eval(one.value) for one in node.arguments]
        row = functions.ROWS.get(node.name)
        if row is None:
            raise Failed("")
        try:
            args = {name: values[number] for name, number in functions.bind(row, node).items()}
        except functions.Unbound:
            raise Failed("") from None
        for parameter in row.parameters:
            if parameter.name in args and args[parameter.name][0] not in parameter.tags:
                raise Failed(f"{node.name}: argument {parameter.name} is {args[parameter.name][0]}")
        if row.path:
            return getattr(self, "call_" + node.name)(node.arguments[0].value, values[0])
        if row.names is not None:
            return self.closed(node, args["value"])
        try:
            return row.apply(args, self)
        except Failed as failed:
            raise Failed(f"{node.name}: {failed.args[0]}") from None

    def call_exists(self, place, value):
        return flag(not place.steps or get(self.store.get(place.root, NULL), place.steps) is not None)

    def call_del(self, place, value):
        if place.steps:
            self.store[place.root] = cut_out(self.store.get(place.root, NULL), place.steps)
        else:
            self.store[place.root] = EMPTY["object"] if place.root in (".", "%") else NULL
        return value

    def closed(self, node, collection):
        tag, held = collection
        results = []
        for key, value in held if tag == "object" else enumerate(held):
            key = text(key) if tag == "object" else ("integer", key)
            bound = {"map_values": [value], "map_keys": [key]}.get(node.name, [key, value])
            results.append((key, value, self.body(node.closure, bound)))
        if node.name == "for_each":
            return NULL
        if node.name == "map_keys":
            if any(name[0] != "string" for _, _, name in results):
                raise Failed("")
            return objects({name[1]: value for _, value, name in results})
        if node.name == "filter":
            kept = [(key, value) for key, value, keep in results if keep == flag(True)]
        else:
            kept = [(key, made) for key, _, made in results]
        return objects({key[1]: value for key, value in kept}) if tag == "object" else ("array", tuple(value for _, value in kept))

    def body(self, closure, values):
        before = self.store
        bound = {name: value for name, value in zip(closure.names, values) if name != "_"}
        self.store = {**before, **bound}
        try:
            return self.items(closure.items)
        finally:
            self.store = {root: before[root] if root in bound else held for root, held in self.store.items() if root in before}

    def end(self):
        """The word of the end and what it holds: value, aborted, banged, deep or unhandled."""
        try:
            return "value", self.items(self.script.items)
        except Failed as failed:
            return "unhandled", failed.args[0]
        except Ended as ended:
            return ("value" if ended.args[0] == "returned" else ended.args[0]), ended.args[1]
