"""Tokens as the grammar takes them: newlines that separate told from others, braces and bars told by their uses, and the limits of nesting."""

from reading.tokens import BINARY, ENDS_OPERAND, Fault

COUNTED = BINARY | {"=", "|=", "!", "->", "if", "return", "abort"}
CARRIES_ON = BINARY | {"=", "|=", ",", "->"}
CARRIED_ON = {"??", "||", "&&", "|", "else"}
CLOSING = {")", "]", "}"}


class Stretch:
    """Tokens at one bracket level; outer is the stretch that holds the bracket."""

    def __init__(self, outer):
        self.outer, self.count = outer, 0


def arrange(tokens):
    """Tokens for the grammar, as (word, token): separators told from other newlines, which go; `{` told as
    `{block` or `{object`; bars as `bar`. Faults nesting."""
    words, open_, stretches = [], [], [Stretch(None)]
    now = stretches[0]
    deep = False
    ahead = [None] * (len(tokens) + 1)
    for i in range(len(tokens) - 1, -1, -1):
        ahead[i] = i if tokens[i].sort != "newline" else ahead[i + 1]

    def sort_at(place):
        return None if place is None else tokens[place].sort

    before_any = None       # the word before, all newlines passed over
    kinds_open = {"bars": 0, "body": 0}
    for i, token in enumerate(tokens):
        sort = token.sort
        before = words[-1][0] if words else None    # newlines that aren't separators are no words
        follows = sort_at(ahead[i + 1])
        inner = open_[-1][0] if open_ else None
        word = sort
        if sort == "newline":
            if inner in ("(", "[", "object", "bars") or before_any in CARRIES_ON or follows in CARRIED_ON:
                continue
            word = "separator"
        elif sort == ";":
            word = "separator"
        elif sort == "{":
            if before in ENDS_OPERAND or before == "else":
                word = "{block"
            elif before == "closing bar":
                word = "{body"
            elif follows == "}" or (follows in ("text", "template") and sort_at(ahead[ahead[i + 1] + 1]) == ":"):
                word = "{object"
            else:
                word = "{block"
        elif sort == "|":
            if before == "->":
                word = "opening bar"
            elif kinds_open["bars"]:
                word = "closing bar"
        words.append((word, token))
        if sort != "newline":
            before_any = word
        if word in COUNTED:
            now.count += 1
        if word == "template":
            # As brackets in which two signs stand for each template.
            stretches.append(Stretch(now))
            stretches[-1].count = len(token.value) - 1
        if word in ("separator", ",", "else"):
            now = Stretch(now.outer)
            stretches.append(now)
        elif word in ("(", "[", "{block", "{body", "{object", "opening bar"):
            kind = {"opening bar": "bars", "{object": "object", "{block": "block", "{body": "body"}.get(word, word)
            open_.append((kind, now))
            kinds_open[kind] = kinds_open.get(kind, 0) + 1
            now = Stretch(now)
            stretches.append(now)
        elif (word in CLOSING or word == "closing bar") and open_:
            kind, now = open_.pop()
            kinds_open[kind] -= 1
        deep = deep or kinds_open["body"] > 4
    # The stretches stand in an order in which outer ones come first.
    depth = {}
    for one in stretches:
        depth[one] = one.count + (1 + depth[one.outer] if one.outer else 0)
    if deep or max(depth.values()) > 64:
        raise Fault(1008, 0)
    return [("{block" if word == "{body" else "bar" if word.endswith(" bar") else word, token) for word, token in words]
