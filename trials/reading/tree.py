"""The tree of a script: its nodes and targets, in spans of characters, and walks over it."""


class Node:
    """form: literal array map read query group block if not binary assign merge both call return abort"""

    def __init__(self, form, start, end, **parts):
        self.form, self.start, self.end = form, start, end
        self.__dict__.update(parts)

    def __repr__(self):
        parts = {k: v for k, v in self.__dict__.items() if k not in ("form", "start", "end")}
        return f"{self.form}{parts}"


class Target:
    """root None is the empty target, "." the event, "%" the metadata, else a variable's name."""

    def __init__(self, token):
        self.start, self.end, self.steps = token.start, token.end, token.steps
        self.root = None if token.sort == "name" and token.value == "_" else token.value


def walk(node):
    """All nodes of a tree as written, an outer one before those in it."""
    waiting = [node]
    while waiting:
        one = waiting.pop()
        if isinstance(one, Node):
            yield one
            waiting += [part for part in one.__dict__.values() if isinstance(part, (Node, list, tuple))][::-1]
        elif isinstance(one, (list, tuple)):
            waiting += one[::-1]


def written_roots(items):
    """The roots assigned in these items, and those that a `del` in them names, closures inside too."""
    found = set()
    for node in walk(items):
        if node.form in ("assign", "merge"):
            found.add(node.target.root)
        elif node.form == "both":
            found |= {node.ok.root, node.err.root}
        elif node.form == "call" and node.name == "del":
            found |= {one.value.root for one in node.arguments if one.value.form == "read"}
    return found - {None}
