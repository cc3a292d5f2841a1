"""The tokens of a script's text: the longest spelling is taken, and the first fault by place is told."""

import re

from reading.moments import read_moment


class Fault(Exception):
    def __init__(self, code, at):
        super().__init__(code, at)
        self.code = code
        self.at = at


class Token:
    """sort: text template raw regex time number name path suffix function, a keyword, a sign, or newline. A template is a text with
    templates; its value is a list of texts with names between them, as name tokens. The value of a name, and of a path, is the
    root's: `.` for the event, `%` for the metadata, else the name."""

    def __init__(self, sort, start, end, value=None, steps=(), bang=False):
        self.sort, self.start, self.end, self.value, self.steps, self.bang = sort, start, end, value, steps, bang

    def __repr__(self):
        return f"{self.sort}@{self.start}"


KEYWORDS = {"if", "else", "abort", "return", "true", "false", "null"}
ENDS_OPERAND = {"number", "text", "template", "raw", "regex", "time", "name", "true", "false", "null", "path", "suffix", ")", "]", "}"}
BINARY = {"??", "||", "&&", "==", "!=", "<", "<=", ">", ">=", "|", "+", "-", "*"}
QUOTED = r'"(?:\\.|[^"\\])*"'
FIELD = r'(?:[A-Za-z0-9_@]+|' + QUOTED + ")"
INDEX = r"\[-?[0-9]+\]"
SEGMENT = r"(?:\." + FIELD + "|" + INDEX + ")"
RE = {name: re.compile(spelling, re.S) for name, spelling in {
    "quoted": QUOTED,
    "raw": r"[srt]'(?:\\.|[^'\\])*'",
    "digits": r"[0-9]+(?:_[0-9]+)*",
    "float": r"\.[0-9]|[eE][+-]?[0-9]",
    "letter": r"[A-Za-z_]",
    "name": r"[A-Za-z_][A-Za-z0-9_]*",
    # A name between double braces, with blanks about it.
    "template": r"\{\{[ \t\r]*(?P<name>[A-Za-z_][A-Za-z0-9_]*)[ \t\r]*\}\}",
    "segments": SEGMENT + "+",
    # The event or the metadata: the first segment behind the sign drops its own dot.
    "root": r"[.%](?:(?:" + FIELD + "|" + INDEX + ")" + SEGMENT + "*)?",
    "step": r"\.?(?:(?P<field>[A-Za-z0-9_@]+)|(?P<quoted>" + QUOTED + r")|\[(?P<index>-?[0-9]+)\])",
    "sign": r"\?\?=|->|==|!=|<=|>=|\|=|\|\||&&|\?\?|[=<>+\-*|!()\[\]{},:;/\n]",
}.items()}
ESCAPES = {"n": "\n", "r": "\r", "t": "\t", "\\": "\\", '"': '"', "'": "'", "0": "\0", "{": "{"}


def unescape(inside):
    """The text of what stands between two quotes, None at a bad escape."""
    out, i = [], 0
    while i < len(inside):
        if inside[i] == "\\":
            if inside[i + 1] not in ESCAPES:
                return None
            out.append(ESCAPES[inside[i + 1]])
            i += 2
        else:
            out.append(inside[i])
            i += 1
    return "".join(out)


def text_token(text, start):
    """A text from its opening quote on, without templates or with them. A bad escape comes before a bad template."""
    found = RE["quoted"].match(text, start)
    if not found or unescape(found[0][1:-1]) is None:
        raise Fault(203, start)
    end = found.end() - 1
    parts, at, since = [], start + 1, start + 1
    while at < end:
        if text[at] == "\\":
            at += 2
        elif text.startswith("{{", at):
            template = RE["template"].match(text, at, end)
            if not template or template["name"] in KEYWORDS:
                raise Fault(1016, start)
            parts += [unescape(text[since:at]), Token("name", *template.span("name"), template["name"])]
            at = since = template.end()
        else:
            at += 1
    parts.append(unescape(text[since:end]))
    return Token("text", start, end + 1, parts[0]) if len(parts) == 1 else Token("template", start, end + 1, parts)


def small(number):
    return -2 ** 63 <= number < 2 ** 63


def steps_of(spelling, start):
    """The steps of segments as they are spelt, the first perhaps without its dot: texts and whole numbers."""
    steps, at, codes = [], 0, []
    while at < len(spelling):
        found = RE["step"].match(spelling, at)
        at = found.end()
        if found["field"] is not None:
            steps.append(found["field"])
        elif found["quoted"] is not None:
            steps.append(unescape(found["quoted"][1:-1]))
            if steps[-1] is None:
                codes.append(203)
        else:
            steps.append(int(found["index"]) if len(found["index"]) < 100 else 2 ** 64)
            if not small(steps[-1]):
                codes.append(1002)
    if codes:
        raise Fault(min(codes), start)
    return tuple(steps)


def raw_text(inside):
    return re.sub(r"\\(.)", lambda pair: "'" if pair[1] == "'" else pair[0], inside, flags=re.S)


def number_token(text, start):
    digits = RE["digits"].match(text, start + (text[start] == "-"))
    end = digits.end()
    if RE["float"].match(text, end):
        raise Fault(1001, start)
    if RE["letter"].match(text, end):
        raise Fault(203, start)
    bare = digits[0].replace("_", "").lstrip("0") or "0"
    value = int(bare) if len(bare) < 100 else 2 ** 64
    value = -value if text[start] == "-" else value
    if not small(value):
        raise Fault(1002, start)
    return Token("number", start, end, value)


def next_token(text, at, before, regexes):
    """The token that starts here; `before` is the token before it, a newline too."""
    here, after = text[at], text[at + 1:at + 2]
    if before and before.sort in (")", "]") and before.end == at:
        found = RE["segments"].match(text, at)
        if found:
            return Token("suffix", at, found.end(), None, steps_of(found[0], at))
    if here == '"':
        return text_token(text, at)
    if here in "srt" and after == "'":
        found = RE["raw"].match(text, at)
        if not found:
            raise Fault(203, at)
        value = raw_text(found[0][2:-1])
        if here == "t":
            value = read_moment(value)
            if value is None:
                raise Fault(1014, at)
        if here == "r" and regexes == 256:
            raise Fault(1016, at)
        return Token({"s": "raw", "r": "regex", "t": "time"}[here], at, found.end(), value)
    ends_operand = before is not None and before.sort in ENDS_OPERAND
    if here in "0123456789" or (here == "-" and after and after in "0123456789" and not ends_operand):
        return number_token(text, at)
    if here in ".%":
        found = RE["root"].match(text, at)
        return Token("path", at, found.end(), here, steps_of(found[0][1:], at))
    found = RE["name"].match(text, at)
    if found:
        name, end = found[0], found.end()
        if name in KEYWORDS:
            return Token(name, at, end)
        if text[end:end + 1] == "(":
            return Token("function", at, end, name)
        if text[end:end + 2] == "!(":
            return Token("function", at, end + 1, name, (), True)
        found = RE["segments"].match(text, end)
        if found:
            return Token("path", at, found.end(), name, steps_of(found[0], at))
        return Token("name", at, end, name)
    found = RE["sign"].match(text, at)
    if not found:
        raise Fault(203, at)
    if found[0] in ("/", "??="):
        raise Fault(1003, at)
    return Token("newline" if here == "\n" else found[0], at, found.end())


def tokens_of(text):
    tokens, at, regexes = [], 0, 0
    while at < len(text):
        if text[at] in " \t\r":
            at += 1
        elif text[at] == "#":
            at = text.find("\n", at) if "\n" in text[at:] else len(text)
        else:
            tokens.append(next_token(text, at, tokens[-1] if tokens else None, regexes))
            regexes += tokens[-1].sort == "regex"
            at = tokens[-1].end
    return tokens
