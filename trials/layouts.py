"""Random trial of layouts: texts with comments, separators and blanks everywhere, and texts at the limits.

    python3 trials/layouts.py (--program PATH | --self) [--seed N] [--count N] [--seconds N] [--processes N] [--no-limits] [--show N]
    python3 trials/layouts.py --text FILE [FILE ..]

The second form writes the layout of scripts, one after another, or what is reported of them; its status is the greatest of theirs.

The first makes texts at random and compares each with `PATH SCRIPTFILE`: the same bytes on standard output and standard error, and
the same status. With --program the laws are tried on what the program writes, with --self on the outside reading's own layout:

  - the layout reads to a tree that is equal to the text's but for spans, with the same regexes in order;
  - its comments are the text's in order, without the blanks at their ends, each with as many tokens other than newlines and
    `;` before it;
  - the layout of the layout is the same text;
  - the layout ends with a newline, no line of it ends with a blank that no token or comment holds, and none holds a `;` but as
    the only item of a block.

It runs in several processes, over jobs of some texts, each of which has a seed of its own. After --seconds no more of them are awaited.
"""

import argparse
import collections
import contextlib
import multiprocessing
import random
import sys
import time

sys.dont_write_bytecode = True

import programs
import some_calls
import some_scripts
from reading.brackets import CARRIED_ON, CARRIES_ON, arrange
from reading.grammar import Script, read
from reading.layout import LIMIT, comments_with_counts, formatted, layout, pieces_of
from reading.tokens import Fault, tokens_of
from reading.tree import Node, Target
from some_texts import Maker, hard_texts

NL = "\n"
BLANKS = ["", "", "", " ", " ", " ", "  ", "\t", "\r", " \t "]
COMMENTS = ["#", "# c", "#c ", "# ;", "# {", "# }\t", "## |v| \r", "# é\u00a0", "#\r", '# "', "# a\rb", "#  \t# d", "# s'"]
# Texts, each with its layout or with its report and status.
ROWS = [
    (".a=1; .b = [ 1,2 ] # two\nif .a==1{abort}", ".a = 1\n.b = [1, 2] # two\nif .a == 1 {\n  abort\n}\n"),
    (".x = (", ("error[E203] 1:7 unrecognized token\n", 1)), ('x={"a":!true,}', 'x = {"a": !true,}\n'),
    ("for_each( . )->|k,v|{}", "for_each(.) -> |k, v| {}\n"), ("", ""), (" \n\t\r\n", ""), (";;\n;", ""), ("#", "#\n"),
    ("x={;}", "x = {\n  ;\n}\n"), ("if x{;;}", "if x {\n  ;\n}\n"), ("if x{\n\n}", "if x {}\n"), ("{;#c \n}", "{\n  ; #c\n}\n"),
    ("a; # c", "a\n# c\n"), ("a # c\n\n\n?? b", "a # c\n\n?? b\n"), ("(1)#c", "(1) # c\n".replace("# c", "#c")),
    ("f(\n# c\n1,# d\n\n2)", "f(\n# c\n1, # d\n\n2)\n"), ("a\n;\nb", "a\nb\n"), ("a\n \t\r\nb", "a\n\nb\n"), ("a;\n\n;b", "a\n\nb\n"),
    (" " * 65537, ("error[E1009] 1:1 script too long or not UTF-8\n", 1)),
    ("x-1", "x - 1\n"), ("x- -1", "x - -1\n"), ("x\n-1", "x\n-1\n"), ("!f!(x)", "!f!(x)\n"),
]


def bare(part):
    """A tree without its spans."""
    if isinstance(part, (list, tuple)):
        return [bare(one) for one in part]
    if isinstance(part, Target):
        return ["target", part.root, list(part.steps)]
    if isinstance(part, Node):
        return [part.form] + [[key, bare(value)] for key, value in part.__dict__.items() if key not in ("form", "start", "end", "name_span")]
    return [type(part).__name__, part]


def laws_broken(script, laid):
    """Which laws the layout of a script breaks; `script` is read already, and `laid` is bytes."""
    other = read(laid)
    if not isinstance(other, Script):
        return [f"the layout is refused, {other}"]
    broken = []
    if bare(script.items) != bare(other.items) or [one.value for one in script.patterns] != [one.value for one in other.patterns]:
        broken.append("the tree differs")
    if comments_with_counts(script.text) != comments_with_counts(other.text):
        broken.append("the comments differ")
    if formatted(laid) != (laid, b"", 0):
        broken.append("the layout of the layout differs")
    return broken + shape_broken(other.text)


def shape_broken(text):
    """What a layout must not have."""
    broken = []
    if text and (not text.endswith("\n") or text.endswith("\n\n") or text.startswith("\n")):
        broken.append("the edges of the layout")
    pieces, separators = pieces_of(text)
    ends = [piece.end for piece in pieces]
    starts = [piece.start for piece in pieces][1:] + [len(text)]
    if any(text[end:start].split("\n")[0].rstrip(" ") != text[end:start].split("\n")[0] and "\n" in text[end:start] for end, start in zip(ends, starts)):
        broken.append("a blank at the end of a line")
    if any(text[end:start].count("\n") > 2 for end, start in zip(ends, starts)):
        broken.append("two lines of blanks")
    if any(text[place] == ";" for place in separators):
        broken.append("a `;` between items")
    return broken


class Noisy:
    """Puts comments, separators and blanks between the tokens of a text, mostly where they change nothing of the tree."""

    def __init__(self, rng):
        self.rng = rng

    def blank(self):
        return self.rng.choice(BLANKS)

    def lines(self, semicolons):
        """Blanks with newlines, comments and, where they may be, semicolons."""
        out = self.blank()
        for _ in range(self.rng.choice([1, 1, 1, 2, 2, 3, 5])):
            pick = self.rng.random()
            if pick < 0.35:
                out += self.rng.choice(COMMENTS) + self.blank() + NL
            elif pick < 0.6 and semicolons:
                out += ";"
            else:
                out += self.rng.choice([NL, NL, "\r\n"])
            out += self.blank()
        return out

    def separated(self):
        while True:
            out = self.lines(True)
            if ";" in out.split("#")[0] or "\n" in out:
                return out

    def text(self, base):
        """A text of the tokens of `base`, which the grammar takes."""
        rng = self.rng
        words = arrange(tokens_of(base))
        loud = rng.choice([0.02, 0.1, 0.3, 0.8])
        out = self.lines(True) if rng.random() < loud else ""
        open_, at = ["script"], 0
        for number, (word, token) in enumerate(words):
            follows = words[number + 1][0] if number + 1 < len(words) else "end"
            if word == "separator":
                out += self.separated() if follows not in ("separator", "}", "end") or rng.random() < 0.5 else ""
                continue
            out += base[token.start:token.end]
            if word in ("(", "[", "{block", "{object") or word == "bar" and words[number - 1][0] == "->":
                open_.append(word)
            elif word in (")", "]", "}") or word == "bar":
                open_.pop()
            if word == "function" or follows == "suffix" or follows == "separator":
                continue
            gap = base[token.end:words[number + 1][1].start] if follows != "end" else ""
            wanted = bool(gap) and not (rng.random() < 0.4 and self.is_loose(word, follows))
            more = self.blank() if rng.random() < loud else ""
            in_block = word == "{block" or follows in ("}", "end") and open_[-1] in ("{block", "script")
            if rng.random() < loud * 0.6:
                if in_block:
                    more += self.lines(True)
                elif open_[-1] not in ("{block", "script") or word in CARRIES_ON or follows in CARRIED_ON:
                    more += self.lines(False)
            out += more if more or not wanted else rng.choice([" ", " ", "  ", "\t"])
        if rng.random() < loud:
            out += self.lines(True) if rng.random() < 0.7 else " " + rng.choice(COMMENTS) + self.blank()
        return out

    @staticmethod
    def is_loose(word, follows):
        """Whether one of the two neighbours is a sign, so that no blank has to stand between them."""
        signs = "()[]{}|,:;=!<>+-*&?"
        return word[0] in signs or follows[0] in signs


def near_limit(rng, noisy, texts):
    """A text whose layout, or which itself, is about as long as it may be."""
    how = rng.randrange(5)
    if how == 0:
        # Many short items in nested blocks.
        depth = rng.randrange(1, 60)
        room = LIMIT - sum(4 * level + 4 for level in range(depth))
        count = max(1, room // (2 * depth + 2) + rng.choice([-1, 0, 0, 1]))
        text = "{" * depth + ";".join(["1"] * count) + "}" * depth
        return text if len(text) <= LIMIT else text[:LIMIT]
    if how == 1:
        item = rng.choice(["1,", "a,", '"",', "f(),", "-1,", "[],"])
        size = len(item) + 1
        return "[" + item * ((LIMIT - 3) // size + rng.choice([-1, 0, 1])) + "]"
    body = ""
    if how == 2:
        item = rng.choice(["a=1;", "{};", "!x;", "a=[];", "if x{1};", "x-1;", "f()->|v|{};"])
        body = item * (rng.choice([LIMIT, LIMIT // 2]) // (len(item) * 2))
    else:
        while len(body) < 2000:
            one = texts.joined(texts.script(3))
            if isinstance(read(one.encode()), Script):
                body += noisy.text(one) + "\n"
        body = body * rng.choice([1, 5, 20])
    if not isinstance(read(body.encode()), Script):
        return body
    room = LIMIT - len(layout(body).encode()) - 2 + rng.choice([-1, 0, 0, 1, 1])
    return body + NL + "#" + "c" * room if room > 0 else body


def some(rng, makers):
    """A text at random, as bytes."""
    texts, scripts, noisy = makers
    pick = rng.random()
    if pick < 0.1:
        return texts.text()
    if pick < 0.1015:
        return near_limit(rng, noisy, texts).encode()
    base = scripts.script() if pick < 0.4 else texts.joined(texts.script(rng.choice([2, 3, 4])))
    if isinstance(read(base.encode()), Script):
        text = noisy.text(base)
        if rng.random() < 0.05:
            text = texts.spoil_characters(text)
        if rng.random() < 0.05:
            text = text.replace("\n", "\r\n")
        return text.encode()
    return base.encode()


def tried(job):
    """Tries so many texts in one process: what was met, and the differences."""
    path, seed, count, texts = job
    rng = random.Random(seed)
    makers = Maker(rng), some_scripts.Maker(rng, some_calls), Noisy(rng)
    met, differences = collections.Counter(), []
    with programs.Program(path) if path else contextlib.nullcontext() as program:
        for number in range(count + len(texts)):
            data = texts[number] if number < len(texts) else some(rng, makers)
            wanted = formatted(data)
            told = program.run(data) if program else wanted
            broken = [] if told == wanted else [f"wanted {short(wanted)}, got {short(told)}"]
            if told[2] == 0:
                script = read(data)
                broken += laws_broken(script, told[0]) if isinstance(script, Script) else ["taken, and the outside reading refuses it"]
                if program:
                    again = program.run(told[0])
                    broken += [] if again == told else [f"of its layout the program writes {short(again)}"]
                met["taken"] += 1
                met["with comments"] += b"#" in data and bool(comments_with_counts(data.decode()))
                met["that is the layout already"] += told[0] == data
                met["with a `;` kept"] += any(piece.what == ";" for piece in pieces_of(told[0].decode())[0])
                met["within 10 bytes of the limit"] += len(told[0]) > LIMIT - 10
            else:
                met["too long" if told[2] == 6 else "refused"] += 1
            if broken:
                differences.append((data, broken))
    return met, differences


def short(told):
    return tuple(programs.short(one) if isinstance(one, bytes) else one for one in told)


def self_check():
    for text, want in ROWS:
        got = formatted(text.encode())
        want = (want.encode(), b"", 0) if isinstance(want, str) else (b"", want[0].encode(), want[1])
        assert got == want, (text[:80], short(got), short(want))
    return len(ROWS)


def hard():
    """Texts about the limits, and those of the rows."""
    for text, _ in ROWS:
        yield text.encode()
    yield from hard_texts()
    for size in (LIMIT - 1, LIMIT, LIMIT + 1):
        # A text whose layout has a byte more, one that has as many, and one whose layout is of this size.
        yield b"#" + b"c" * (size - 1)
        yield b"#" + b"c" * (size - 2) + b"\n"
        yield b"a=1#" + b"c" * (size - 8)
        yield b";" * size
        yield b"{" + b";" * (size - 2) + b"}"
        yield b"#" + b"\t" * (size - 1)
    yield from (b"1;" * 32768, b"a=1;" * 10922, b"a=1;" * 10923)
    for inside in ("", ";", "\n", ";;", "\n;\n", "#c\n", "#c\n;", ";#c\n", ";\n#c\n", "#c\n\n;\n\n#d\n", ";\n\n;", "1", "1;", ";1", "\n\n1\n\n#c\n\n"):
        for frame in ("{%s}", "x = {%s}", "if x {%s}", "if x {%s} else {%s}", "f() -> |v| {%s}", "[{%s}]", "f({%s})", "{{%s}}", "{%s;}", "x = {%s}\n\ny", "if {%s} {}"):
            yield frame.replace("%s", inside).encode()


def shown(files):
    """Writes the layouts of scripts, or what is reported of them."""
    status = 0
    for file in files:
        with open(file, "rb") as script:
            out, report, ends = formatted(script.read())
        sys.stdout.buffer.write(out)
        sys.stderr.buffer.write(report)
        status = max(status, ends)
    return status


def main():
    words = argparse.ArgumentParser(description="random texts against a plain reading of the layout")
    words.add_argument("--seed", type=int, default=1)
    words.add_argument("--count", type=int, default=5000)
    words.add_argument("--program")
    words.add_argument("--self", action="store_true")
    words.add_argument("--text", nargs="+")
    words.add_argument("--no-limits", action="store_true")
    words.add_argument("--seconds", type=float, default=1e9)
    words.add_argument("--processes", type=int, default=4)
    words.add_argument("--show", type=int, default=10)
    given = words.parse_args()
    if given.text:
        return shown(given.text)
    if not given.program and not given.self:
        words.error("--program or --self")
    rows = self_check()
    started = time.monotonic()
    every = [] if given.no_limits else list(hard())
    size = max(1, min(50, given.count // given.processes))
    jobs = [(given.program, given.seed + 1000003 * (number + 1), 0, every[number::given.processes]) for number in range(given.processes)]
    jobs += [(given.program, given.seed * 1000 + number, min(size, given.count - start), []) for number, start in enumerate(range(0, given.count, size))]
    met, differences = collections.Counter(), 0
    with multiprocessing.Pool(given.processes) as pool:
        for more, wrong in pool.imap_unordered(tried, jobs):
            met += more
            for data, broken in wrong:
                differences += 1
                if differences <= given.show:
                    print("difference:", "; ".join(broken), "on", data if len(data) < 2000 else programs.short(data), flush=True)
            if time.monotonic() - started > given.seconds:
                break
    seconds = time.monotonic() - started
    told = ", ".join(f"{met[what]} {what}" for what in ("taken", "with comments", "that is the layout already", "with a `;` kept", "within 10 bytes of the limit", "too long", "refused"))
    total = sum(met[what] for what in ("taken", "too long", "refused"))
    against = "the program" if given.program else "the laws"
    print(f"layouts: seed {given.seed}, {rows} rows, {total} texts ({told}), {total / seconds:.0f} a second: {differences} differences from {against}")
    return 1 if differences else 0


if __name__ == "__main__":
    sys.exit(main())
