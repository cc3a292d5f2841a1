"""The grammar of scripts, read by a plain descent: the tree of a text, or the one diagnostic up to the grammar with its place."""

from reading.brackets import arrange
from reading.diagnostics import place_of
from reading.tokens import Fault, tokens_of
from reading.tree import Node, Target, walk

LEVELS = [["??"], ["||"], ["&&"], ["==", "!="], ["<", "<=", ">", ">="], ["|"], ["+", "-"], ["*"]]
LEVEL_OF = {sign: number for number, signs in enumerate(LEVELS) for sign in signs}
VALUES = {"number": "integer", "text": "string", "raw": "string", "regex": "regex", "time": "timestamp"}


def read_of(token):
    """A path or a name where it is read."""
    return Node("read", token.start, token.end, root=token.value, steps=token.steps)


def sum_of(token):
    """A text with templates, as a group of sums: each but for the variables has the span of the whole text."""
    whole = lambda form, **parts: Node(form, token.start, token.end, **parts)
    value = whole("literal", tag="string", value=token.value[0])
    for part in token.value[1:]:
        right = whole("literal", tag="string", value=part) if isinstance(part, str) else read_of(part)
        value = whole("binary", op="+", left=value, right=right)
    return whole("group", value=value)


class Reader:
    """A plain descent. It takes a token only where some script goes on with it."""

    def __init__(self, words, size):
        self.words, self.size, self.at, self.patterns = words, size, 0, []

    def look(self, ahead=0):
        place = self.at + ahead
        return self.words[place][0] if place < len(self.words) else "end"

    def take(self, *wanted):
        if self.look() not in wanted:
            raise Fault(203, self.words[self.at][1].start if self.at < len(self.words) else self.size)
        self.at += 1
        return self.words[self.at - 1][1]

    def whole(self):
        items = self.script()
        if self.look() != "end":
            self.take("end")
        return items

    def script(self):
        items = []
        while True:
            while self.look() == "separator":
                self.take("separator")
            if self.look() in ("end", "}"):
                return items
            items.append(self.item())
            if self.look() != "separator":
                return items

    def item(self):
        if self.look() in ("path", "name") and self.look(1) == ",":
            ok = Target(self.take("path", "name"))
            self.take(",")
            err = Target(self.take("path", "name"))
            self.take("=")
            value = self.single()
            return Node("both", ok.start, value.end, ok=ok, err=err, value=value)
        return self.single()

    def single(self):
        if self.look() in ("path", "name") and self.look(1) in ("=", "|="):
            target = Target(self.take("path", "name"))
            form = "assign" if self.take("=", "|=").sort == "=" else "merge"
            value = self.single()
            return Node(form, target.start, value.end, target=target, value=value)
        if self.look() == "return":
            start = self.take("return").start
            value = self.single()
            return Node("return", start, value.end, value=value)
        if self.look() == "abort":
            token = self.take("abort")
            if self.look() in ("separator", ")", "]", "}", ",", "end"):
                return Node("abort", token.start, token.end, message=None)
            message = self.single()
            return Node("abort", token.start, message.end, message=message)
        return self.level(0)

    def level(self, number):
        """Operands joined by signs of this level and tighter ones, those of one level to the left."""
        left = self.unary()
        while LEVEL_OF.get(self.look(), -1) >= number:
            op = self.take(*LEVEL_OF).sort
            right = self.level(LEVEL_OF[op] + 1)
            left = Node("binary", left.start, right.end, op=op, left=left, right=right)
        return left

    def unary(self):
        if self.look() == "!":
            start = self.take("!").start
            value = self.unary()
            return Node("not", start, value.end, value=value)
        return self.primary()

    def primary(self):
        word = self.look()
        if word in VALUES:
            token = self.take(word)
            value = token.value
            if word == "regex":
                value = len(self.patterns)
                self.patterns.append(token)
            return Node("literal", token.start, token.end, tag=VALUES[word], value=value)
        if word in ("true", "false", "null"):
            token = self.take(word)
            tag = "null" if word == "null" else "boolean"
            return Node("literal", token.start, token.end, tag=tag, value={"true": True, "false": False, "null": None}[word])
        if word == "template":
            return sum_of(self.take(word))
        if word in ("path", "name"):
            return read_of(self.take(word))
        if word == "function":
            return self.call()
        if word == "[":
            start = self.take("[").start
            parts = self.listed(self.single, "]")
            return self.suffixed(Node("array", start, self.take("]").end, parts=parts))
        if word == "(":
            start = self.take("(").start
            value = self.item()
            return self.suffixed(Node("group", start, self.take(")").end, value=value))
        if word == "{object":
            start = self.take("{object").start
            pairs = self.listed(self.pair, "}")
            return Node("map", start, self.take("}").end, pairs=pairs)
        if word == "{block":
            return self.block()
        if word == "if":
            return self.condition()
        return self.take("a primary")

    def listed(self, part, closing):
        """Parts with commas between them, perhaps one at the end, perhaps none at all."""
        parts = []
        while self.look() != closing:
            parts.append(part())
            if self.look() != ",":
                break
            self.take(",")
        return parts

    def pair(self):
        name = self.take("text").value
        self.take(":")
        return name, self.single()

    def suffixed(self, node):
        if self.look() == "suffix":
            token = self.take("suffix")
            return Node("query", node.start, token.end, value=node, steps=token.steps)
        return node

    def argument(self):
        name, start = None, None
        if self.look() == "name" and self.look(1) == ":":
            token = self.take("name")
            name, start = token.value, token.start
            self.take(":")
        value = self.single()
        return Node("argument", value.start if start is None else start, value.end, name=name, value=value)

    def call(self):
        token = self.take("function")
        self.take("(")
        arguments = self.listed(self.argument, ")")
        end = self.take(")").end
        node = Node("call", token.start, end, name=token.value, bang=token.bang, arguments=arguments, closure=None)
        node.name_span = (token.start, token.end - token.bang)
        if self.look() != "->":
            return self.suffixed(node)
        self.take("->")
        self.take("bar")
        names = [self.take("name").value]
        while self.look() == ",":
            self.take(",")
            names.append(self.take("name").value)
        self.take("bar")
        block = self.block()
        node.closure = Node("closure", block.start, block.end, names=names, items=block.items)
        node.end = block.end
        return node

    def block(self):
        start = self.take("{block").start
        items = self.script()
        return Node("block", start, self.take("}").end, items=items)

    def condition(self):
        start = self.take("if").start
        arms = [(self.level(0), self.block())]
        otherwise = None
        while self.look() == "else" and otherwise is None:
            self.take("else")
            if self.look() == "if":
                self.take("if")
                arms.append((self.level(0), self.block()))
            else:
                otherwise = self.block()
        return Node("if", start, (otherwise or arms[-1][1]).end, arms=arms, otherwise=otherwise)


def path_faults(items):
    """1012, on assigned paths and on arguments of `del` that are paths."""
    paths = []
    for node in walk(items):
        if node.form in ("assign", "merge"):
            paths.append((node.target.start, node.target.steps))
        elif node.form == "both":
            paths += [(one.start, one.steps) for one in (node.ok, node.err)]
        elif node.form == "call" and node.name == "del":
            paths += [(a.value.start, a.value.steps) for a in node.arguments if a.value.form == "read"]
    for start, steps in sorted(paths):
        if any(isinstance(step, int) and not -65536 <= step <= 65535 for step in steps) or len(steps) > 128:
            raise Fault(1012, start)


class Script:
    def __init__(self, text, items, patterns):
        self.text, self.items, self.patterns = text, items, patterns


def read(data):
    """(code, line, column), or a Script."""
    try:
        text = data.decode("utf-8")
    except UnicodeDecodeError:
        return 1009, 1, 1
    if len(data) > 65536:
        return 1009, 1, 1
    try:
        words = arrange(tokens_of(text))
        reader = Reader(words, len(text))
        items = reader.whole()
        path_faults(items)
        return Script(text, items, reader.patterns)
    except Fault as fault:
        return (fault.code,) + place_of(text, fault.at)
