"""The judgement: kinds, states and codes of scripts, form by form, and calls by the rows of `functions.py`."""

from reading import diagnostics, functions, grammar, kinds
from reading.function_rows import Given, cut_to, object_of
from reading.kinds import ABSENT, ANY, EVENT, METADATA, NEVER, exactly, minus, plus, root_tags, scalars
from reading.states import assign, ended, join_kinds, join_states, state_within, told_state
from reading.tree import walk, written_roots

COMPARISONS = {"==", "!=", "<", "<=", ">", ">="}
PAIRS = {"+": {("integer", "integer"): "integer", ("string", "string"): "string", ("string", "null"): "string", ("null", "string"): "string"},
         "-": {("integer", "integer"): "integer"}, "*": {("integer", "integer"): "integer"}}
for sign in ("<", "<=", ">", ">="):
    PAIRS[sign] = {(tag, tag): "boolean" for tag in ("integer", "string", "timestamp")}
# The tags that the event and the metadata may have, and the code of a write that surely gives them another.
WHOLE = {".": (("object", "array"), 1006), "%": (("object",), 1017)}


class Judged:
    """What an expression gives: kind, ok, fail, ret, the kind of what is returned, codes as (start, end, code)."""

    def __init__(self, kind, ok, fail=None, ret=None, returned=NEVER, codes=frozenset()):
        self.codes = codes
        self.poisoned = any(code != 651 for _, _, code in codes)
        self.kind = ANY if self.poisoned else NEVER if ok is None else kinds.cut(kind)
        self.ok = ok
        self.fail = None if self.poisoned else fail
        self.ret, self.returned = ret, returned

    def fallible(self):
        return self.fail is not None

    def told(self):
        """Whether a code about this part's kind may be given."""
        return self.ok is not None and not self.poisoned


DEAD = Judged(NEVER, None)
EMPTY_VALUES = {"string": scalars("string"), "integer": scalars("integer"), "boolean": scalars("boolean"), "null": scalars("null"),
                "timestamp": scalars("timestamp"), "array": kinds.make((), ((), "nothing")), "object": kinds.make((), None, ({}, "nothing"))}


def may_be(kind, *tags):
    return bool(root_tags(kind) & set(tags))


def joined(parts, kind, ok, points=(), codes=(), ret=(), returned=()):
    """A form of these parts: fail, ret and codes are those of the parts and its own."""
    return Judged(
        kind, ok, join_states(*[p.fail for p in parts], *points), join_states(*[p.ret for p in parts], *ret),
        join_kinds(*[p.returned for p in parts], *returned), frozenset().union(codes, *[p.codes for p in parts]))


def unfit(node, target, kind):
    """The code of a write of this kind to the event or the metadata as a whole, if there is one."""
    if target.steps or target.root not in WHOLE:
        return set()
    tags, code = WHOLE[target.root]
    return set() if may_be(kind, *tags) else {(node.start, node.end, code)}


class Judge:
    def __init__(self, patterns=()):
        self.sources = [token.value for token in patterns]
        self.empties = {}       # the tag of each error assignment's empty value, by its node
        self.loops = {}         # the state of each closure, by its node
        self.bodies = 0         # how many closure bodies are open

    def judge(self, state, node):
        if state is None:
            for one in walk(node):
                self.empties.pop(one, None)
                self.loops.pop(one, None)
            return DEAD
        return getattr(self, "judge_" + node.form)(state, node)

    def each(self, state, nodes):
        """Parts in order, each in the ok state of the one before; and the state after them."""
        found = []
        for node in nodes:
            found.append(self.judge(state, node))
            state = found[-1].ok
        return found, state

    def judge_literal(self, state, node):
        return Judged(scalars(node.tag), state)

    def judge_array(self, state, node):
        parts, after = self.each(state, node.parts)
        return joined(parts, kinds.make((), ([p.kind for p in parts], "nothing")), after)

    def judge_map(self, state, node):
        parts, after = self.each(state, [value for _, value in node.pairs])
        fields = {name: part.kind for (name, _), part in zip(node.pairs, parts)}
        return joined(parts, kinds.make((), None, (fields, "nothing")), after)

    def read(self, state, node, root, steps):
        if root not in state:
            return Judged(ANY, state, codes=frozenset({(node.start, node.end, 701)}))
        return Judged(kinds.read(state[root], steps), state)

    def judge_read(self, state, node):
        return self.read(state, node, node.root, node.steps)

    def judge_query(self, state, node):
        value = self.judge(state, node.value)
        return joined([value], kinds.read(value.kind, node.steps), value.ok)

    def judge_group(self, state, node):
        value = self.judge(state, node.value)
        return joined([value], value.kind, value.ok)

    def judge_block(self, state, node):
        return self.items(state, node.items)

    def items(self, state, items):
        """The items of a block, whose own names end with it."""
        parts, after = self.each(state, items)
        one = joined(parts, parts[-1].kind if parts else scalars("null"), after)
        return Judged(one.kind, ended(one.ok, state), ended(one.fail, state), ended(one.ret, state), one.returned, one.codes)

    def judge_if(self, state, node):
        predicates, branches, codes, now = [], [], set(), state
        for predicate, block in node.arms:
            one = self.judge(now, predicate)
            if one.fallible():
                codes.add((predicate.start, predicate.end, 1005))
            elif one.told() and not exactly(one.kind, "boolean"):
                codes.add((predicate.start, predicate.end, 102))
            predicates.append(one)
            branches.append(self.judge(one.ok, block))
            now = one.ok
        last = self.judge(now, node.otherwise) if node.otherwise else Judged(scalars("null"), now)
        branches.append(last)
        return joined(predicates + branches, join_kinds(*[b.kind for b in branches]), join_states(*[b.ok for b in branches]), codes=codes)

    def judge_not(self, state, node):
        value = self.judge(state, node.value)
        bad = value.told() and not exactly(value.kind, "boolean")
        return joined([value], scalars("boolean"), value.ok, codes={(node.start, node.end, 660)} if bad else ())

    def judge_binary(self, state, node):
        if node.op in ("??", "||", "&&"):
            return {"??": self.coalesce, "||": self.either, "&&": self.both_true}[node.op](state, node)
        left = self.judge(state, node.left)
        right = self.judge(left.ok, node.right)
        if node.op == "|":
            return self.merged(left, node.left, right, node.right)
        codes = set()
        if node.op in COMPARISONS and any(one.form == "binary" and one.op in COMPARISONS for one in (node.left, node.right)):
            codes.add((node.start, node.end, 650))
        if node.op in ("==", "!="):
            return joined([left, right], scalars("boolean"), right.ok, codes=codes)
        met = {(a, b) for a in root_tags(left.kind) for b in root_tags(right.kind)}
        listed = PAIRS[node.op]
        kind = scalars(*[listed[pair] for pair in met if pair in listed])
        points = [right.ok] if met - set(listed) else []
        broken = codes or left.poisoned or right.poisoned
        ok = right.ok if broken or met & set(listed) else None
        return joined([left, right], kind, ok, points, codes)

    def merged(self, left, left_node, right, right_node):
        codes = set()
        for one, place in ((left, left_node), (right, right_node)):
            if one.told() and not exactly(one.kind, "object"):
                codes.add((place.start, place.end, 652))
        kind = kinds.merge(left.kind, right.kind) if left.kind.object and right.kind.object else NEVER
        return joined([left, right], kind, right.ok, codes=codes)

    def both_true(self, state, node):
        left = self.judge(state, node.left)
        right = self.judge(left.ok if may_be(left.kind, "boolean") else None, node.right)
        points = [one.ok for one in (left, right) if root_tags(one.kind) - {"boolean", "null"}]
        ok = join_states(*[one.ok for one in (left, right) if may_be(one.kind, "boolean", "null")])
        return joined([left, right], scalars("boolean"), ok, points)

    def either(self, state, node):
        left = self.judge(state, node.left)
        right = self.judge(left.ok if may_be(left.kind, "boolean", "null") else None, node.right)
        ok = right.ok if exactly(left.kind, "null") else join_states(left.ok, right.ok)
        return joined([left, right], join_kinds(minus(left.kind, "null"), right.kind), ok)

    def coalesce(self, state, node):
        left = self.judge(state, node.left)
        right = self.judge(left.fail, node.right)
        codes = set() if left.fallible() or left.poisoned else {(node.start, node.end, 651)}
        one = joined([left, right], join_kinds(left.kind, right.kind), join_states(left.ok, right.ok), codes=codes)
        one.fail = None if one.poisoned else right.fail
        return one

    def written(self, node, target, value):
        """`target = e` where e gives `value`."""
        codes = set()
        if value.fallible():
            codes.add((node.start, node.end, 103))
        if target.root is None:
            codes.add((node.start, node.end, 640))
        if value.told():
            codes |= unfit(node, target, value.kind)
        return joined([value], value.kind, assign(value.ok, target, value.kind), codes=codes)

    def judge_assign(self, state, node):
        return self.written(node, node.target, self.judge(state, node.value))

    def judge_merge(self, state, node):
        if node.target.root is None:
            value = self.judge(state, node.value)
            return joined([value], value.kind, value.ok, codes={(node.start, node.end, 640)})
        left = self.read(state, node.target, node.target.root, node.target.steps)
        right = self.judge(left.ok, node.value)
        return self.written(node, node.target, self.merged(left, node.target, right, node.value))

    def judge_both(self, state, node):
        value = self.judge(state, node.value)
        told = sorted(root_tags(value.kind))
        tag = told[0] if len(told) == 1 and told[0] in EMPTY_VALUES else "null"
        self.empties[node] = tag
        empty = EMPTY_VALUES[tag]
        codes = set()
        if not value.fallible() and not value.poisoned:
            codes.add((node.start, node.end, 104))
        if node.ok.root is None and node.err.root is None:
            codes.add((node.start, node.end, 640))
        both = join_kinds(value.kind, empty)
        if value.ok is not None or value.fail is not None:
            codes |= unfit(node, node.ok, both) | unfit(node, node.err, scalars("string", "null"))
        well = assign(assign(value.ok, node.ok, value.kind), node.err, scalars("null"))
        ill = assign(assign(value.fail, node.ok, empty), node.err, scalars("string"))
        one = joined([value], both, join_states(well, ill), codes=codes)
        one.fail = None
        return one

    def judge_return(self, state, node):
        value = self.judge(state, node.value)
        if self.bodies:
            return joined([value], value.kind, value.ok, codes={(node.start, node.end, 1004)})
        return joined([value], NEVER, None, ret=[value.ok], returned=[value.kind] if value.ok is not None else [])

    def judge_abort(self, state, node):
        if node.message is None:
            return Judged(NEVER, None)
        value = self.judge(state, node.message)
        bad = value.fallible() or (value.told() and not exactly(value.kind, "string"))
        return joined([value], NEVER, None, codes={(node.message.start, node.message.end, 1011)} if bad else ())

    def judge_call(self, state, node):
        arguments, after = self.each(state, [one.value for one in node.arguments])
        row = functions.ROWS.get(node.name)
        if row is None:
            return self.not_called(node, arguments, after, (node.name_span[0], node.name_span[1], 105))
        try:
            bound = functions.bind(row, node)
        except functions.Unbound as one:
            return self.not_called(node, arguments, after, (one.args[1], one.args[2], one.args[0]))
        codes, given, points = set(), {}, []
        for parameter in row.parameters:
            if parameter.name not in bound:
                continue
            number = bound[parameter.name]
            value, part = node.arguments[number].value, arguments[number]
            literal = (value.tag, value.value) if value.form == "literal" else None
            if part.fallible():
                codes.add((value.start, value.end, 630))
            elif part.told() and not may_be(part.kind, *parameter.tags):
                codes.add((value.start, value.end, 110))
            elif row.path and value.form != "read":
                codes.add((value.start, value.end, 1013))
            elif parameter.literal and (
                    literal is None or literal[0] not in parameter.tags or (row.allowed and not row.allowed(parameter.name, literal))):
                codes.add((value.start, value.end, 1013))
            given[parameter.name] = Given(cut_to(part.kind, *parameter.tags), literal)
            if root_tags(part.kind) - parameter.tags:
                points.append(after)
        names = node.closure.names if node.closure else None
        if (names is None) != (row.names is None):
            codes.add((node.start, node.end, 1010))
        elif names is not None:
            bare = [name for name in names if name != "_"]
            if len(names) != row.names or len(set(bare)) < len(bare):
                codes.add((node.start, node.end, 1010))
        if codes:
            return self.not_called(node, arguments, after, *codes)
        kind, ok, parts = NEVER, after, list(arguments)
        broken = any(part.poisoned for part in arguments)
        if names is not None:
            body, ok = self.closure(after, node.closure, given["value"].kind, node.name)
            parts.append(body)
            kind, bad = closed_kind(node.name, given["value"].kind, body)
            if bad:
                codes.add((node.closure.start, node.closure.end, 1015))
        elif row.path:
            value = node.arguments[0].value
            kind = scalars("boolean") if node.name == "exists" else arguments[0].kind
            if node.name == "del" and ok is not None and value.root in ok:
                left = kinds.remove(ok[value.root], value.steps) if value.steps else EMPTY_VALUES["object" if value.root in WHOLE else "null"]
                ok = {**ok, value.root: kinds.cut(left)}
        elif not broken:
            kind = row.result(given, self.sources)
            if row.fails(given):
                points.append(after)
        one = joined(parts, kind, ok, points, codes)
        if node.bang and not one.poisoned and not one.fallible():
            return joined(parts, kind, ok, points, codes | {(node.start, node.end, 620)})
        if node.bang:
            one.fail = None
        return one

    def not_called(self, node, arguments, after, *codes):
        """A call with a code that keeps its closure from being judged."""
        if node.closure:
            self.judge(None, node.closure)
        return joined(arguments, NEVER, after, codes=set(codes))

    def closure(self, state, node, collection, name):
        """The body as it was judged last, and the state that it keeps."""
        if state is None or kinds.parts(collection) == NEVER:
            body = self.judge(None, node)
            self.loops[node] = state
            return body, state
        written, now = written_roots(node.items), state
        for attempt in (1, 2, 3):
            body = self.body(now, node, collection, name)
            if state_within(body.ok, now):
                break
            assert attempt < 3, "the third try isn't stable"
            change = kinds.flatten if attempt == 1 else lambda kind: ANY
            now = join_states(now, body.ok) if attempt == 1 else now
            now = {root: change(kind) if root in written else kind for root, kind in now.items()}
        self.loops[node] = now
        return body, now

    def body(self, state, node, collection, name):
        keys = scalars(*[key for tag, key in (("object", "string"), ("array", "integer")) if may_be(collection, tag)])
        every = {"map_values": [kinds.parts(collection)], "map_keys": [keys]}.get(name, [keys, kinds.parts(collection)])
        bound = {name: kinds.cut(kind) for name, kind in zip(node.names, every) if name != "_"}
        self.bodies += 1
        parts, after = self.each({**state, **bound}, node.items)
        self.bodies -= 1
        one = joined(parts, parts[-1].kind if parts else scalars("null"), after)
        back = lambda known: None if known is None else {
            root: state[root] if root in bound else kind for root, kind in known.items() if root in state}
        return Judged(one.kind, back(one.ok), back(one.fail), back(one.ret), one.returned, one.codes)

    def script(self, state, items):
        parts, after = self.each(state, items)
        codes = {(node.start, node.end, 100) for node, part in zip(items, parts) if part.fallible()}
        return joined(parts, parts[-1].kind if parts else scalars("null"), after, codes=codes)


def closed_kind(name, collection, body):
    """The kind that a call with a closure gives, and whether its body has the wrong kind."""
    bad = body.told() and not exactly(body.kind, {"filter": "boolean", "map_keys": "string"}.get(name, ""))
    array, object_ = collection.array, collection.object
    if name == "for_each":
        return scalars("null"), False
    if name == "map_keys":
        return (object_of(kinds.parts(collection)) if object_ else NEVER), bad
    if name == "filter":
        if array:
            array = ((), kinds.rest_of(kinds.parts(collection._replace(object=None))))
        if object_:
            object_ = ({name: plus(kind, ABSENT) for name, kind in object_[0]}, object_[1])
        return kinds.make((), array, object_), bad
    over = lambda kind: kind if kind == kinds.GONE else plus(body.kind, *(kind.tags & {ABSENT}))
    rest = lambda one: one if one == "nothing" else kinds.rest_of(body.kind)
    if array:
        array = ([over(kind) for kind in array[0]], rest(array[1]))
    if object_:
        object_ = ({name: over(kind) for name, kind in object_[0]}, rest(object_[1]))
    return kinds.make((), array, object_), False


class Verdict:
    """diagnostics, accepted, the kind of the result and the state at the end as texts, the states there, empty values."""

    def __init__(self, data, start=EVENT):
        self.script = grammar.read(data)
        self.judged, self.empties, self.loops = None, [], []
        if not isinstance(self.script, grammar.Script):
            self.codes, lines = [self.script], [diagnostics.line_of(*self.script)]
        else:
            judge = self.judge = Judge(self.script.patterns)
            self.judged = judge.script({".": start, "%": METADATA}, self.script.items)
            self.codes = sorted(self.judged.codes)
            lines = []
            for at, _, code in self.codes:
                lines.append(diagnostics.line_of(code, *diagnostics.place_of(self.script.text, at)))
            for node in walk(self.script.items):
                if node.form == "both":
                    self.empties.append(judge.empties.get(node, "null"))
                elif node.form == "closure":
                    self.loops.append(judge.loops.get(node))
        self.diagnostics = lines
        self.accepted = self.judged is not None and not self.judged.poisoned

    @property
    def result(self):
        return kinds.print_kind(join_kinds(self.judged.kind, self.judged.returned)) if self.accepted else None

    @property
    def end(self):
        return (told_state(join_states(self.judged.ok, self.judged.ret)) or [". never"]) if self.accepted else None

    def printed(self, envelope=False):
        """The lines of `--check`, without those of the warnings: with envelopes the metadata is among them."""
        return ["result " + self.result] + [line for line in self.end if envelope or not line.startswith("% ")] if self.accepted else []
