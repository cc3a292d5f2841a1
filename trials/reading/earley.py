"""The grammar of scripts once more, as a table of productions that is read by Earley's way, to hold the plain descent against."""

from reading.brackets import arrange
from reading.grammar import LEVELS, Reader
from reading.tokens import Fault, tokens_of


def productions():
    rules = {
        "script": ["items", ""],
        "items": ["seps? item seps?", "seps? item more seps?", "seps"],
        "more": ["seps item", "more seps item"],
        "seps?": ["", "seps"],
        "seps": ["separator", "seps separator"],
        "item": ["target , target = single", "single"],
        "single": ["target = single", "target |= single", "return single", "abort", "abort single", "level0"],
        "level8": ["! level8", "primary"],
        "primary": ["literal", "template", "path", "name", "call", "plain suffix", "plain", "( item )", "( item ) suffix", "array",
                    "array suffix", "object", "block", "if1"],
        "literal": ["number", "text", "raw", "regex", "time", "true", "false", "null"],
        "plain": ["function ( )", "function ( args )", "function ( args , )"],
        "call": ["plain -> bar names bar block"],
        "names": ["name", "names , name"],
        "args": ["arg", "args , arg"],
        "arg": ["single", "name : single"],
        "array": ["[ ]", "[ parts ]", "[ parts , ]"],
        "parts": ["single", "parts , single"],
        "object": ["{object }", "{object pairs }", "{object pairs , }"],
        "pairs": ["text : single", "pairs , text : single"],
        "block": ["{block script }"],
        "if1": ["arms", "arms else block"],
        "arms": ["if level0 block", "arms else if level0 block"],
        "target": ["path", "name"],
    }
    for number, signs in enumerate(LEVELS):
        level, next_level = f"level{number}", f"level{number + 1}"
        rules[level] = [next_level] + [f"{level} {sign} {next_level}" for sign in signs]
    return {head: [tuple(body.split()) for body in bodies] for head, bodies in rules.items()}


RULES = productions()


def first_bad(words):
    """The number of the first word that no script begins with, of the words' number at the end, or None."""
    sets = []
    todo = [("start", ("script",), 0, 0)]    # head, body, dot, the place where it began
    for at in range(len(words) + 1):
        seen, waiting, done_here = set(), {}, set()
        stack = list(todo)
        todo = []
        word = words[at][0] if at < len(words) else None
        while stack:
            item = stack.pop()
            if item in seen:
                continue
            seen.add(item)
            head, body, dot, since = item
            if dot < len(body):
                wanted = body[dot]
                if wanted in RULES:
                    waiting.setdefault(wanted, []).append(item)
                    stack += [(wanted, one, 0, at) for one in RULES[wanted]]
                    if (wanted, at) in done_here:
                        stack.append((head, body, dot + 1, since))
                elif wanted == word:
                    todo.append((head, body, dot + 1, since))
            else:
                done_here.add((head, since))
                source = waiting if since == at else sets[since]
                stack += [(h, b, d + 1, s) for h, b, d, s in source.get(head, [])]
        sets.append(waiting)
        if at == len(words):
            return None if ("start", ("script",), 1, 0) in seen else at
        if not todo:
            return at
    return None


def agree(data):
    """Whether both readers answer the same on this text."""
    try:
        text = data.decode("utf-8")
        words = arrange(tokens_of(text))
    except (Fault, UnicodeDecodeError):
        return True
    bad = first_bad(words)
    try:
        Reader(words, len(text)).whole()
        return bad is None
    except Fault as fault:
        return bad is not None and fault.at == (words[bad][1].start if bad < len(words) else len(text))
