"""Random scripts, lines and kind files of full size, of every shape: what each must come to.

    python3 trials/shapes.py --program PATH [--seed N] [--count N] [--seconds N] [--only scripts|lines|kinds] [--keep FOLDER] [--show N]

Scripts of about 65,536 bytes: bytes, letters, tokens and tokens that come again and again; nested ones; the productions of the grammar; items of accepted scripts, one after
another, and these with one byte changed. Lines of about 1,048,576 bytes and kind files of about 65,536 in the same ways. What each comes to is told by the outside readings of the other trials, or, where these take longer than
half a minute, must end with a status of the program's own. It must come within two processor seconds and 4 GB. It ends after --count of each, or --seconds. With --keep the inputs of a difference are left in the folder.
"""

import argparse
import json
import os
import random
import signal
import sys
import time

sys.dont_write_bytecode = True

import hostile
import programs
import some_calls
import some_json_lines
import some_scripts
import some_texts
from reading.functions import ROWS
from reading.judgement import Verdict

SCRIPT, LINE, KIND = 65536, 1048576, 65536
# The seconds that the outside reading may take.
READING = 30
TOKENS = some_texts.BINARIES + some_texts.LITERALS + some_texts.NAMES + some_texts.FIELDS + some_texts.ODD + [
    "=", "|=", "(", ")", "[", "]", "{", "}", ",", ":", ";", "\n", "!", "->", "|", "if", "else", "abort", "return", ".", ".a", "del(", "exists(", "to_int(", "upcase!(", "{}", "[]", "??"]
BRACKETS = [("(", ")"), ("[", "]"), ("{", "}"), ('{"a":', "}"), ("if true {", "}"), ("!(", ")"), ("abs(", ")"), ("x = (", ")"), ("1 + (", ")"), (".a ?? (", ")"), ("[1, ", "]"), ("return (", ")")]
SIGNS = ["{", "}", "[", "]", ",", ":", '"a"', '"b"', '""', '"\\u0061"', "0", "-1", "1.5", "9223372036854775807", "9223372036854775808", "1e9", "true", "false", "null", " ", "\t", '"\\n\\\\"', "-", '"', "\\", "é", "\U0001f600"]
WORDS = ['"object"', '"array"', '"rest"', '"optional"', '"string"', '"integer"', '"boolean"', '"null"', '"json"', '"nothing"', '"a"', '"b"', "{", "}", "[", "]", ",", ":", "1", "true", " "]
# What is done with a line.
USES = [".x = 1", ".x = 1", ".t = encode_json(.)", ". = [., {\"a\": .}]", ".k = keys(.)\n.n = length(.)", ". = compact(.)", "x = .\n.same = x == .", ".a[-1] = 1\ndel(.a[-2])\ndel(.b[-1])", "t = string(.a) ?? \"\"\n.t = \"{{ t }}-{{ t }}\""]


def about(rng, size):
    """A size at a limit or about it, or any that is smaller."""
    return rng.choice([size, size, size, size - 1, size + 1, rng.randrange(size)])


def filled(rng, size, piece):
    """Pieces, as many as have no more than so many bytes."""
    out, length = [], 0
    while True:
        one = piece().encode("utf-8", "surrogatepass")
        length += len(one)
        if length > size:
            return b"".join(out)
        out.append(one)


def changed(rng, data):
    """The data with one byte changed, taken away, put in or made two, or with a part of it moved."""
    at = rng.randrange(len(data) + 1)
    byte = bytes([rng.choice([rng.randrange(256), rng.choice(b'"\'\\{}[]()|,:;=!?&+-*/.#%0aex \n\t\r\0\x7f')])])
    to = rng.randrange(len(data) + 1)
    return rng.choice([data[:at] + byte + data[at + 1:], data[:at] + byte + data[at + 1:], data[:at] + data[at + 1:], data[:at] + byte + data[at:], data[:at] + data[at:at + 1] * 2 + data[at + 1:],
                       data[:at] + data[to:], data[at:] + data[:at]])


def plain(rng, size, tokens):
    """Bytes, letters or tokens."""
    how = rng.randrange(6)
    if how == 0:
        return rng.randbytes(size)
    if how == 1:
        return bytes(rng.choice(b" \n\t!\"#$%&'()*+,-./0123456789:;<=>?@ABCXYZ[\\]^_`abcxyz{|}~") for _ in range(size))
    if how == 2:
        return filled(rng, size, lambda: chr(rng.choice([rng.randrange(128), rng.randrange(0xd800), rng.randrange(0xe000, 0x110000)])))
    blank = rng.choice(["", " "])
    few = tokens if how == 3 else rng.sample(tokens, rng.choice([2, 3, 5]))
    if how == 4:
        again = [rng.choice(tokens) for _ in range(rng.choice([1, 2, 3, 5, 8, 20]))]
        return filled(rng, size, lambda: blank.join(again) + blank)
    return filled(rng, size, lambda: rng.choice(few) + blank)


def nested(rng, size, brackets, core, depth):
    """Brackets in one another, closed but for some, again and again."""
    picked = [rng.choice(brackets) for _ in range(depth)]
    left = rng.choice([0, 0, 0, 1])
    one = "".join(before for before, _ in picked) + core + "".join(behind for _, behind in reversed(picked[left:]))
    between = rng.choice(["\n", ";", ",", " "])
    return filled(rng, size, lambda: one + between)


class Scripts:
    """Scripts of full size."""

    def __init__(self, rng, names):
        self.rng = rng
        self.texts = some_texts.Maker(rng)
        self.items = some_scripts.Maker(rng, some_calls, names)

    def accepted(self, size):
        """Accepted scripts in blocks, each of which begins with an event of which nothing is known."""
        out = b""
        while True:
            script = self.items.script().encode()
            found = Verdict(script)
            if not found.accepted or found.judged.ok is None:
                continue
            more = b". = object!(.z)\n{\n" + script + b"\n}\n"
            if len(out) + len(more) > size:
                return out + b" " * (size - len(out))
            out += more

    def make(self):
        """A title and a script."""
        size, how = about(self.rng, SCRIPT), self.rng.randrange(8)
        if how < 2:
            return "a script of tokens", plain(self.rng, size, TOKENS)
        if how == 2:
            return "a nested script", nested(self.rng, size, self.rng.choice([BRACKETS, BRACKETS[:3]]), self.rng.choice(["1", "x = 1", ".a", "", ".a + 1 ?? 0"]), self.rng.choice([1, 5, 20, 30, 31, 61, 62, 63, 64]))
        if how == 3:
            return "a script of productions", filled(self.rng, size, lambda: self.texts.joined(self.texts.script(3)) + "\n")
        if how == 4:
            one = self.texts.text()
            return "a script of one text again", one * max(1, size // max(1, len(one) + 1))
        script = self.accepted(size)
        return ("an accepted script", script) if how == 5 else ("an accepted script, changed", changed(self.rng, script))


class Lines:
    """Lines of full size."""

    def __init__(self, rng):
        self.rng = rng
        self.values = some_json_lines.Maker(rng)

    def event(self, size):
        """An object of values, or of one list of them."""
        self.values.dirt = self.rng.choice([0, 0, 0, 0.0001])
        depth = self.rng.choice([0, 1, 3])
        if self.rng.random() < 0.5:
            names = iter(range(10 ** 9))
            inside = filled(self.rng, size - 12, lambda: f'"{next(names)}":{self.values.value(depth)},')
            return b"{" + inside + b'"z":0}'
        return b'{"a":[' + filled(self.rng, size - 9, lambda: self.values.value(depth) + ",") + b"0]}"

    def make(self):
        size, how = about(self.rng, LINE), self.rng.randrange(7)
        if how < 2:
            data = plain(self.rng, size, SIGNS)
        elif how == 2:
            data = b'{"a":[' + nested(self.rng, size - 8, self.rng.choice([[("[", "]")], [('{"a":', "}")], [("[", "]"), ('{"a":', "}"), ("[1,", "]")]]), self.rng.choice(["1", '""', "-0", "1e400"]), self.rng.choice([1, 10, 100, 124, 125, 126])) + b"0]}"
        else:
            data = self.event(size)
            if how > 4:
                data = changed(self.rng, data)
        return "a line", data.replace(b"\n", b" ") + self.rng.choice([b"", b"\n", b"\n{}"])


class Kinds:
    """Kind files of full size."""

    def __init__(self, rng):
        self.rng = rng

    def rest(self, depth):
        return self.rng.choice(["nothing", "json"]) if self.rng.random() < 0.7 else self.description(depth)

    def part(self, depth):
        return {"optional": self.description(depth)} if self.rng.random() < 0.3 else self.description(depth)

    def description(self, depth):
        how = self.rng.random()
        if depth <= 0 or how < 0.5:
            return self.rng.choice(["string", "integer", "boolean", "null", "json"])
        if how < 0.65:
            return [self.description(depth - 1) for _ in range(self.rng.randrange(1, 4))]
        if how < 0.85:
            return {"object": {self.rng.choice("abcdef") + str(self.rng.randrange(3)): self.part(depth - 1) for _ in range(self.rng.randrange(4))}, "rest": self.rest(depth - 1)}
        return {"array": [self.part(depth - 1) for _ in range(self.rng.randrange(4))], "rest": self.rest(depth - 1)}

    def file(self, size):
        """A description of an object with as many fields as there is room for, whose names fill the rest."""
        most, width = self.rng.choice([10, 100, 500, 2000]), self.rng.choice([1, 20, 60, 600])
        fields, length = {}, 30
        while len(fields) < most:
            name = f"{len(fields)}".rjust(width, self.rng.choice("ab/~é"))
            one = self.part(self.rng.choice([0, 0, 1, 3]))
            length += len(json.dumps({name: one}, ensure_ascii=False).encode())
            if length > size:
                break
            fields[name] = one
        file = json.dumps({"object": fields, "rest": self.rest(2)}, ensure_ascii=False).encode()
        return file + b" " * (size - len(file))

    def make(self):
        size, how = about(self.rng, KIND), self.rng.randrange(6)
        if how < 2:
            return "a kind file of tokens", plain(self.rng, size, WORDS)
        if how == 2:
            depth = self.rng.choice([1, 10, 31, 32, 33, 63, 64])
            return "a nested kind file", b'{"object":{"a":' + nested(self.rng, size - 17, [('{"object":{"a":', "}}"), ('{"array":[', "]}"), ("[", "]"), ('{"object":{},"rest":', "}")], self.rng.choice(['"string"', '"text"', "[]"]), depth) + b"}}"
        file = self.file(size)
        return ("a kind file", file) if how < 4 else ("a kind file, changed", changed(self.rng, file))


def event_of(rng):
    """A line that a script of full size runs over."""
    line = b"{}"
    for _ in range(rng.choice([0, 1, 100, 125])):
        line = b'{"a":%d,"z":' % rng.randrange(3) + line + b"}"
    return line


class Late(Exception):
    """The outside reading takes too long."""


def late(*_):
    raise Late


def read_in_time(script, file, data):
    """What the outside reading wants, None where it takes too long."""
    signal.signal(signal.SIGALRM, late)
    signal.setitimer(signal.ITIMER_REAL, READING)
    try:
        return hostile.wanted_of(script, data, file)
    except Late:
        return None
    finally:
        signal.setitimer(signal.ITIMER_REAL, 0)


def case(rng, which, makers):
    """A title, a script, a kind file or None, and lines."""
    title, made = makers[which].make()
    if which == "scripts":
        return title, made, None, event_of(rng)
    if which == "lines":
        return title, rng.choice(USES).encode(), None, made
    return title, b".x = .a\n.y = .a0 + 1 ?? 0", made, b'{"a":1}\n{}'


def main():
    words = argparse.ArgumentParser(description="random inputs of full size")
    words.add_argument("--program", required=True)
    words.add_argument("--seed", type=int, default=1)
    words.add_argument("--count", type=int, default=100)
    words.add_argument("--seconds", type=float, default=float("inf"))
    words.add_argument("--only", choices=["scripts", "lines", "kinds"])
    words.add_argument("--keep")
    given = words.parse_args()
    rng = random.Random(given.seed)
    uses, unread, met, most = programs.Uses(), 0, {}, 0
    end = time.monotonic() + given.seconds
    with programs.Program(given.program) as program:
        makers = {"scripts": Scripts(rng, [name for name in sorted(ROWS) if name != "now"]), "lines": Lines(rng), "kinds": Kinds(rng)}
        for number in range(given.count):
            for which in [given.only] if given.only else makers:
                if time.monotonic() > end:
                    break
                title, script, file, data = case(rng, which, makers)
                more = [] if file is None else ["--kind", program.write("kind.json", file)]
                told = program.run(script, data, more, programs.LIMITS)
                wanted = read_in_time(script, file, data)
                if wanted is None:
                    unread += 1
                    wanted = None, None, (0, 1, 5, 6, 7)
                before, most = uses.differences, max(most, program.seconds)
                uses.tell(f"{title}, number {number}", program.seconds, told, wanted)
                met[title, told[2]] = met.get((title, told[2]), 0) + 1
                if given.keep and uses.differences > before:
                    for name, held in (("script.vrl", script), ("in", data), ("kind.json", file)):
                        if held is not None:
                            with open(os.path.join(given.keep, f"{given.seed}-{number}-{name}"), "wb") as kept:
                                kept.write(held)
    for (title, status), count in sorted(met.items()):
        print(f"{title}: {count} ended with {status}")
    print(f"shapes: seed {given.seed}, {uses.tried} inputs, {most:.2f} seconds at most: {uses.differences} differences, {unread} not read outside")
    return 1 if uses.differences else 0


if __name__ == "__main__":
    sys.exit(main())
