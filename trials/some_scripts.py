"""Scripts and kind files at random for the other trials: over the event, the metadata and the variables x and y, and scripts about the limits of kinds.
This file runs nothing by itself."""

from reading.moments import read_moment
from some_texts import some_moment, some_text


class Maker:
    """Scripts over the event, the metadata and the variables x and y."""

    PLACES = [".", ".a", ".b", ".a.b", ".a[0]", ".b[1]", "x", "y", "x.a", "x[0]", "y.a", ".a[-1]", "x.a.b", "%", "%a", "%b.a", "%a[0]"]
    TARGETS = [".", ".a", ".b", ".a.b", ".a[0]", ".b[1]", "x", "x", "y", "x.a", "x[0]", "y.a", "x.a[1]", "_", "_.a", "%", "%a", "%b", "%b.a", "%[0]"]
    # Places from the end that are written or deleted, and those about their limit, which make long arrays in variables alone.
    FROM_THE_END = [".a[-1]", ".a[-1]", ".a[-2]", ".b[-1]", ".c[-1]", ".a.b[-1]", ".[-1]", "x[-1]", "x[-1]", "x[-2]", "x[-2]", "x[-3]", "y[-1]", "y[-2]", "x.a[-1]", "x.a[-2]", "x[-1].a", "x[0][-1]", "x[-1][-1]", "x[-1][1]",
                    ".a[-1].b[-2]", ".a[-1][-2]", "%a[-1]", "%[-1]", "_[-1]"]
    FAR = [".a[-20]", "x[-100]", "x[-65535]", "x[-65536]", ".a[-65537]", "x[-1][-65537]"]
    LITERALS = ["1", '"s"', "true", "null", "t'2024-01-02T03:04:05Z'", "r'a'", "-2", '""', "false"]
    SIGNS = ["+", "+", "+", "-", "*", "==", "!=", "<", ">=", "|", "|", "&&", "&&", "||", "||", "??", "??", "??"]

    def __init__(self, rng, calls=None, names=None):
        """names: those that calls are made of, all where there are none."""
        self.rng, self.calls, self.names = rng, calls, names

    def pick(self, *weighted):
        return self.rng.choices([w[0] for w in weighted], [w[1] for w in weighted])[0]

    def from_the_end(self):
        return self.rng.choice(self.FAR if self.rng.random() < 0.03 else self.FROM_THE_END)

    def target(self):
        return self.from_the_end() if self.rng.random() < 0.15 else self.rng.choice(self.TARGETS)

    def place(self):
        """What a `del` or an `exists` may be given."""
        return self.from_the_end() if self.rng.random() < 0.2 else self.rng.choice(self.PLACES)

    def text(self):
        """A text, mostly with templates of the variables."""
        return some_text(self.rng, ["x", "y"] if self.rng.random() < 0.95 else ["x", "_", "q", "k"], 0.02)

    def atom(self):
        if self.rng.random() < 0.02:
            moment = some_moment(self.rng)
            return moment if read_moment(moment[2:-1]) is not None else "1"
        if self.rng.random() < 0.06:
            return self.text()
        return self.rng.choice(self.LITERALS) if self.rng.random() < 0.45 else self.rng.choice(self.PLACES)

    def expression(self, depth):
        if depth <= 0:
            return self.atom()
        how = self.pick(("atom", 4), ("binary", 6), ("group", 2), ("not", 1), ("array", 1), ("map", 2), ("block", 1.5), ("if", 1.5), ("query", 0.7),
                        ("call", 4 if self.calls else 0))
        inner = lambda: self.expression(depth - 1)
        if how == "atom":
            return self.atom()
        if how == "binary":
            return f"{self.tight(depth)} {self.rng.choice(self.SIGNS)} {self.tight(depth)}"
        if how == "group":
            return "(" + self.item(depth - 1) + ")"
        if how == "not":
            return "!" + self.tight(depth)
        if how == "array":
            return "[" + ", ".join(inner() for _ in range(self.rng.randrange(3))) + "]" + self.rng.choice(["", "", "", "[0]", "[-1]", ".a"])
        if how == "map":
            return "{" + ", ".join(f'"{self.rng.choice("ab")}": {inner()}' for _ in range(self.rng.randrange(3))) + "}"
        if how == "block":
            return "{ " + self.items(depth - 1) + " }"
        if how == "if":
            return self.condition(depth)
        if how == "call":
            return self.calls.call(self, depth)
        return "(" + self.item(depth - 1) + ")" + self.rng.choice([".a", "[0]", ".a.b", "[-1]"])

    def tight(self, depth):
        """An operand, in a group more often than not where it has signs."""
        text = self.expression(depth - 1)
        return f"({text})" if " " in text and self.rng.random() < 0.7 else text

    def condition(self, depth):
        test = lambda: self.pick((self.rng.choice(["true", ".a == 1", "x == .b", '.a != "s"', "!(.a == .b)", ".b == x.a", ".a < 1", "(x > 1 ?? true)",
                                                   "1 == .a == true", "%a == 1", "% == ."]), 3),
                                 (self.expression(depth - 1), 1), ("(" + self.item(depth - 1) + ")", 0.5))
        text = f"if {test()} {{ {self.items(depth - 1)} }}"
        if self.rng.random() < 0.25:
            text += f" else if {test()} {{ {self.items(depth - 1)} }}"
        return text + (f" else {{ {self.items(depth - 1)} }}" if self.rng.random() < 0.5 else "")

    def items(self, depth):
        return "; ".join(self.item(depth) for _ in range(self.pick((0, 1), (1, 6), (2, 3))))

    def item(self, depth):
        how = self.pick(("assign", 8), ("merge", 1), ("both", 2.5), ("return", 0.4), ("abort", 0.3), ("expression", 3), ("guarded", 2),
                        ("called", 4 if self.calls else 0))
        target = self.target
        if how == "assign":
            return f"{target()} = {self.single(depth - 1) if self.rng.random() < 0.08 else self.expression(depth)}"
        if how == "called":
            call = self.calls.call(self, depth)
            return self.pick((f"{target()} = {call}", 2), (f"{target()} = {call} ?? {self.atom()}", 2), (f"{target()}, {target()} = {call}", 2), (call, 2))
        if how == "guarded":
            return f"{target()} = {self.tight(depth)} ?? {self.atom()}"
        if how == "merge":
            return f"{target()} |= {self.expression(depth)}"
        if how == "both":
            return f"{target()}, {target()} = {self.expression(depth)}"
        if how == "return":
            return f"return {self.expression(depth)}"
        if how == "abort":
            return "abort" + self.pick(("", 1), (' "m"', 1), (" " + self.text(), 0.3), (" " + self.expression(depth - 1), 1))
        return self.expression(depth)

    def single(self, depth):
        """What stands to the right of a target and isn't an operand."""
        target = self.target()
        return self.pick((f"{target} = {self.expression(depth)}", 3), (f"{target} |= {self.expression(depth)}", 1),
                         (f"return {self.expression(depth)}", 1), ("abort", 1), (f"abort {self.expression(depth)}", 1))

    def array(self):
        """An array, or what holds one: of a known length, or of one of several."""
        called = [one for one in ("array(.a) ?? []", "array!(.b)", "push([1], .b)", 'split("a,b", ",")') if self.calls and (not self.names or one[:one.index("(")].strip("!") in self.names)]
        return self.rng.choice(["[]", "[null, {}]", '[[1], {"a": [2, "s"]}]', '{"a": [1, true]}', "[[1, 2], []]", 'if .c == null { [1] } else { [true, "s"] }', "if .c == null { [{}, 1] } else { 1 }", "if .c == null { [[1], 1] }",
                                '{"a": if .c == null { [] } else { ["s", 1] }}', "{ z = []; z[2] = 1; z }", "{ z = [1]; z[-3] = \"s\"; z }", *called])

    def script(self):
        lines = []
        if self.rng.random() < 0.7:
            lines.append("x = " + self.rng.choice(["1", '"s"', '"s"', "{}", '{"a": 1}', "[1]", '[1, "s"]', "null", ".a", "true", ".", "%", self.array(), self.array()]))
        if self.rng.random() < 0.5:
            lines.append("y = " + self.rng.choice(["1", '"s"', '"é"', "{}", '{"a": "s"}', "[]", "null", ".b", "x", "%a", self.array()]))
        if self.calls and self.rng.random() < 0.1:
            lines.append(self.calls.loop(self))
        if self.rng.random() < 0.08:
            lines.append(self.rng.choice(["x = {\"a\": [.]}", ".c.a.b = .", "x = [[.a]]", ".b[1].a = .a", ". = {\"a\": {\"a\": .}}", "y = [[[.c]]]",
                                          "% = {\"a\": {\"b\": %}}", "%c.a.b = .", "%c[1] = %c"]))
        lines += [self.item(self.rng.choice([1, 2, 3])) for _ in range(self.rng.randrange(1, 5))]
        return "\n".join(lines)

    def kind_file(self):
        """A kind file of two levels, None for an object with rest json."""
        if self.rng.random() < 0.5:
            return None
        word = lambda: self.rng.choice(["string", "integer", "boolean", "null", "json"])

        def inner(depth):
            how = self.rng.randrange(5)
            if depth == 0 or how < 2:
                return word()
            if how == 2:
                return [inner(depth - 1), word()]
            if how == 3:
                return {"object": {n: part(depth - 1) for n in "ab" if self.rng.random() < 0.6}, "rest": self.rng.choice(["nothing", "json", word()])}
            return {"array": [part(depth - 1) for _ in range(self.rng.randrange(3))], "rest": self.rng.choice(["nothing", "json", word()])}

        def part(depth):
            return {"optional": inner(depth)} if self.rng.random() < 0.3 else inner(depth)
        return {"object": {n: part(2) for n in "ab" if self.rng.random() < 0.8}, "rest": self.rng.choice(["nothing", "json", word()])}


def hard_scripts():
    """Kinds about the limits of levels and nodes."""
    for size in (30, 31, 32, 33, 34):
        for start in ("1", "[]", ".", "{}"):
            for wrap in ("[x]", '{"a": x}', '{"a": [x]}'):
                yield f"x = {start}\n" + f"x = {wrap}\n" * (size if wrap != '{"a": [x]}' else size // 2) + 'y = x[0] || x.a\n.x = x\ny.a'
    for size in (998, 999, 1000, 1001):
        yield "\n".join(f".k{i} = 1" for i in range(size)) + "\n.k7 + 1"
    yield "x = {}\n" + "\n".join(f"x.k{i} = 1" for i in range(999)) + "\nx.k7 + 1\ny = [x]\ny[0].k7 + 1"
