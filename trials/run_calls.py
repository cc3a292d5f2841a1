"""Random trial of calls through the program: each function, its answers, its kind, when it may fail, what it refuses.

    python3 trials/run_calls.py --program PATH [--seed N] [--count N] [--only NAME,NAME ..] [--outside PATH] [--show N]

For each function that the program has, scripts of some calls each run over some lines each, until `count` calls were made.
An argument is a literal, an expression over values, or a field of the event; the event's kind is declared by a kind file in
half of the scripts, at most as wide as needed or wider. What the program writes is held against the meaning, and the kinds
that it prints for the script (`--check`) against the judgement. Then come `count / 20` calls whose literals aren't allowed,
of functions that take literals, and calls whose values are nested about the limit.

With --outside the program of `trials/outside` tells the matches of patterns, which are then wild ones too. A difference is
shown as one call over one line, where that shows it.
"""

import argparse
import contextlib
import json
import random
import re
import sys
import time

sys.dont_write_bytecode = True

import arguments
import programs
import some_patterns
from reading import kinds, patterns
from reading.functions import ROWS
from reading.json_lines import write
from reading.judgement import Verdict
from reading.kind_files import kind_file
from reading.moments import moment_text
from reading.runs import run_lines, summary
from reading.values import objects, plain

CALLS = [6, 16]            # calls a script
LINES = [1, 4, 12]          # lines a run
# Functions whose values may hold what they are given, which may be nested about the limit.
DEEP = ["push", "append", "zip", "unique", "compact", "flatten", "values", "get", "set", "remove", "merge", "unflatten", "object_from_array", "slice", "array", "object", "length", "is_array",
        "is_empty", "includes", "keys", "encode_json", "encode_key_value"]


def expression(value, sources):
    """A value as a script writes it."""
    tag, held = value
    if tag == "array":
        return "[" + ", ".join(expression(one, sources) for one in held) + "]"
    if tag == "object":
        return "{" + ", ".join(expression(("string", name), sources) + ": " + expression(one, sources) for name, one in held) + "}"
    if tag == "string":
        spelt = "".join({'"': '\\"', "\\": "\\\\", "\n": "\\n", "\t": "\\t", "\r": "\\r", "\0": "\\0"}.get(c, c) for c in held)
        return '"' + re.sub(r"\{(?=\{)", r"\\{", spelt) + '"'
    if tag == "regex":
        return "r'" + sources[held] + "'"
    return {"integer": lambda: str(held), "boolean": lambda: "true" if held else "false", "null": lambda: "null", "timestamp": lambda: f"t'{moment_text(held)}'"}[tag]()


def is_json(value):
    tag, held = value
    if tag == "array":
        return all(is_json(one) for one in held)
    if tag == "object":
        return all(is_json(one) for _, one in held)
    return tag not in ("timestamp", "regex")


def file_of(kind):
    """A kind file's description of a kind, None where it has none."""
    part = lambda one: {"optional": file_of(kinds.minus(one, kinds.ABSENT))} if kinds.ABSENT in one.tags else file_of(one)
    rest = lambda one: one if isinstance(one, str) else file_of(one)
    told = [tag for tag in kinds.SCALARS[:4] if tag in kind.tags]
    if kind.array:
        told.append({"array": [part(one) for one in kind.array[0]], "rest": rest(kind.array[1])})
    if kind.object:
        told.append({"object": {name: part(one) for name, one in kind.object[0]}, "rest": rest(kind.object[1])})
    return told[0] if len(told) == 1 else told


class Site:
    """One call of a script: the spelling of each argument, None for one that is read from the event."""

    def __init__(self, name, number, spelt):
        self.name, self.number, self.spelt = name, number, spelt

    def call(self):
        words, positional = [], True
        for parameter in ROWS[self.name].parameters:
            if parameter.name not in self.spelt:
                positional = False
                continue
            one = self.spelt[parameter.name]
            read = f".c{self.number}.{parameter.name}"
            told = read if one is None else one.replace("FIELD", read)
            words.append(told if positional else f"{parameter.name}: {told}")
        return f"{self.name}({', '.join(words)})"

    def fields(self):
        return [name for name, one in self.spelt.items() if one is None or "FIELD" in one]


class Trial:
    def __init__(self, program, rng, show, wild):
        self.program, self.rng, self.show = program, rng, show
        self.wild = wild
        self.differences, self.told = 0, {}

    def count(self, name, what, number=1):
        mine = self.told.setdefault(name, {})
        mine[what] = mine.get(what, 0) + number

    def differ(self, *words):
        self.differences += 1
        if self.differences <= self.show:
            print(*words, flush=True)

    def sources(self):
        """Regexes for a script."""
        made, safe, wild = [], some_patterns.Maker(self.rng), some_patterns.Maker(self.rng, True)
        while len(made) < 8:
            one = (wild if self.wild and self.rng.random() < 0.4 else safe).pattern()
            if "'" in one or (patterns.OUTSIDE and patterns.OUTSIDE.ask("matches", one, "")[0] != "ok"):
                continue
            made.append(one)
        return made

    # ---- the calls of a script

    def site(self, name, number, maker, deep=False):
        """A call at random, and how its fields are drawn for a line."""
        rng = self.rng
        row = ROWS[name]
        given = [one.name for one in row.parameters if one.required or rng.random() < 0.6]
        fixed = maker.draw(name, given)
        spelt = {}
        for parameter in row.parameters:
            if parameter.name not in given:
                continue
            value = fixed[parameter.name]
            told = expression(value, maker.sources)
            how = rng.random()
            if parameter.literal or (how < 0.45 and len(told) < 700):
                spelt[parameter.name] = told
            elif deep and how < 0.9:
                spelt[parameter.name] = self.wrapped(value)
            elif is_json(value) or parameter.tags & {"string", "integer", "boolean", "null"}:
                spelt[parameter.name] = None
            else:
                spelt[parameter.name] = told
        return Site(name, number, spelt), fixed

    def wrapped(self, value):
        """A field inside some arrays or objects."""
        told = "FIELD"
        for _ in range(self.rng.randrange(1, 7)):
            told = "[" + told + "]" if value[0] == "array" or (value[0] != "object" and self.rng.random() < 0.5) else '{"a": ' + told + "}"
        return told

    def draw_fields(self, site, fixed, maker):
        """Values for the fields that a call reads; what is spelt stays."""
        for _ in range(50):
            drawn = maker.draw(site.name, list(site.spelt))
            if all(is_json(drawn[name]) for name in site.fields()):
                return {name: drawn[name] for name in site.fields()}
        return {name: fixed[name] if is_json(fixed[name]) else ("null", None) for name in site.fields()}

    def start_kind(self, sites, lines):
        """A kind for the event that the lines inhabit, with its kind file; else the usual one."""
        if self.rng.random() < 0.5:
            return kinds.EVENT, None
        fields, most = {}, 800 // (1 + sum(2 + len(site.fields()) for site in sites))
        for site in sites:
            held = {}
            for name in site.fields():
                kind = kinds.NEVER
                for line in lines:
                    kind = kinds.join(kind, kinds.kind_of(line[site.number][name]))
                how = self.rng.random()
                if how < 0.12:
                    kind = kinds.join(kind, kinds.JSON)
                elif how < 0.25:
                    kind = kinds.join(kind, kinds.scalars(*self.rng.sample(kinds.SCALARS[:4], self.rng.randrange(1, 3))))
                elif how < 0.35:
                    kind = kinds.flatten(kind) if kinds.within(kinds.flatten(kind), kinds.JSON) else kind
                if kinds.nodes(kind) > max(most, 1) or kinds.levels(kind) > 20:
                    kind = kinds.JSON
                held[name] = kind
            fields[f"c{site.number}"] = kinds.make((), None, (held, "nothing"))
        kind = kinds.make((), None, (fields, "nothing"))
        try:
            data = json.dumps(file_of(kind)).encode()
        except RecursionError:
            return kinds.EVENT, None
        read = kind_file(data)
        return (read, data) if isinstance(read, kinds.Kind) else (kinds.EVENT, None)

    def script(self, sites, start, deep=False):
        """The script of these calls, without those that aren't accepted; and what is judged of it."""
        kept, lines = [], []
        for site in sites:
            line = f"r{site.number}, e{site.number} = {site.call()}"
            found = Verdict(line.encode(), start)
            if not found.accepted and {code for _, _, code in found.codes} == {104}:
                line = f"r{site.number} = {site.call()}"
                found = Verdict(line.encode(), start)
            if found.accepted:
                kept.append(site)
                lines.append(line)
            else:
                self.count(site.name, "refused")
        if deep:
            lines.append(". = {" + ", ".join(f'"r{site.number}": [is_array(r{site.number}), is_object(r{site.number})]' for site in kept) + "}")
        else:
            ends = [f'"r{site.number}": [r{site.number}, is_timestamp(r{site.number}), {f"e{site.number}" if line.startswith(f"r{site.number}, ") else "0"}]' for site, line in zip(kept, lines)]
            lines.append(". = {" + ", ".join(ends) + "}")
        return kept, "\n".join(lines)

    def lines_of(self, lines, sources):
        told = [write({f"c{number}": {name: plain(one, sources) for name, one in held.items()} for number, held in line.items()}) for line in lines]
        return "".join(one + "\n" for one in told).encode()

    def run(self, script, start, file, data):
        """What is wanted and what is told for a script over lines: output, report, status; None where the script isn't accepted."""
        found = Verdict(script.encode(), start)
        if not found.accepted:
            return None
        words = ["--kind", self.program.write("kind.json", file)] if file is not None else []
        output, report, status = run_lines(found, start, data)
        wanted = programs.joined(output), programs.joined(report), status
        printed = programs.joined(found.printed()), programs.joined(found.diagnostics), 0
        return wanted, self.program.run(script.encode(), data, words), printed, self.program.run(script.encode(), words=["--check"] + words)

    def some_calls(self, name, deep=False):
        """A script of calls of one function over some lines."""
        maker = arguments.Arguments(self.rng, self.sources())
        sites, fixed = [], {}
        for number in range(1 if deep else self.rng.choice(CALLS)):
            site, held = self.site(name, number, maker, deep)
            sites.append(site)
            fixed[number] = held
        lines = [{site.number: self.draw_fields(site, fixed[site.number], maker) for site in sites} for _ in range(self.rng.choice(LINES))]
        if deep:
            lines = [{number: {key: self.deepened(one) for key, one in held.items()} for number, held in line.items()} for line in lines]
        start, file = (kinds.EVENT, None) if deep else self.start_kind(sites, lines)
        sites, script = self.script(sites, start, deep)
        if not sites or len(script.encode()) > 65000:
            return
        data = self.lines_of(lines, maker.sources)
        told = self.run(script, start, file, data)
        if told is None:
            self.differ("not accepted as a whole:", repr(script), "kind", file)
            return
        wanted, got, printed, checked = told
        self.count(name, "calls", len(sites) * len(lines))
        self.count(name, "failed", wanted[0].count(b'"' + name.encode() + b": ") + wanted[1].count(name.encode()))
        self.count(name, "kinds", len(sites))
        self.count(name, "deep", wanted[1].count(b"nested deeper"))
        if printed != checked:
            self.differ_in(name, sites, start, file, data, told, 2)
        if wanted != got:
            self.differ_in(name, sites, start, file, data, told, 0)

    def deepened(self, value):
        """The value with one of its parts nested about the limit of lines."""
        tag, held = value
        inner = ("integer", 1)
        for _ in range(self.rng.choice([115, 118, 119, 120, 121, 122, 123, 124])):
            inner = ("array", (inner,)) if self.rng.random() < 0.5 else ("object", (("a", inner),))
        if tag == "array":
            return tag, held[1:] + (inner,)
        return objects({**dict(held), "a": inner}) if tag == "object" else value

    def differ_in(self, name, sites, start, file, data, told, place):
        """Tells a difference by one call, over one line, where that shows it."""
        lines, tried = data.splitlines(keepends=True), 0
        for site, line in self.suspects(sites, lines, told[place], told[place + 1]):
            tried += 1
            _, small = self.script([site], start)
            again = self.run(small, start, file, line)
            if again and again[place] != again[place + 1]:
                self.differ("difference in", name, "\n  script", repr(small), "\n  kind", file, "\n  line", line, "\n  wanted", again[place], "\n  got   ", again[place + 1])
                return
            if tried > 200:
                break
        self.differ("difference in", name, "that no single call shows\n  script", repr(self.script(sites, start)[1]), "\n  kind", file, "\n  lines", data, "\n  wanted", told[place],
                    "\n  got   ", told[place + 1])

    def suspects(self, sites, lines, wanted, got):
        """The calls and lines at which two outputs differ first, then all."""
        every, pairs = {f"r{site.number}": site for site in sites}, list(zip(wanted[0].splitlines(), got[0].splitlines()))
        for number, (one, other) in enumerate(pairs):
            if one != other and len(pairs) == len(lines):
                with contextlib.suppress(ValueError):
                    one, other = json.loads(one), json.loads(other)
                    yield from ((site, lines[number]) for key, site in every.items() if one.get(key) != other.get(key))
            elif one != other and one.split(b" ")[0].decode() in every:
                yield every[one.split(b" ")[0].decode()], lines[0]
        yield from ((site, line) for site in sites for line in lines)

    # ---- literals that aren't allowed

    def refused_literals(self, name):
        maker = arguments.Arguments(self.rng, self.sources())
        row = ROWS[name]
        lines = []
        for number in range(20):
            site, _ = self.site(name, number, maker)
            literal = self.rng.choice([one.name for one in row.parameters if one.literal])
            site.spelt = {one.name: self.rng.choice(arguments.REFUSED[literal]) if one.name == literal else site.spelt.get(one.name) for one in row.parameters
                          if one.name in site.spelt or one.name == literal}
            lines.append(f"_, e = {site.call()}")
        script = "\n".join(["x = \"%+\""] + lines)
        found = Verdict(script.encode())
        told = self.program.run(script.encode())
        self.count(name, "literals", 20)
        self.count(name, "1013", sum(code == 1013 for _, _, code in found.codes))
        if told != (b"", programs.joined(found.diagnostics), 0 if found.accepted else 1):
            self.differ("difference in literals of", name, "\n  script", repr(script), "\n  wanted", found.diagnostics, "\n  got", told)

    # ---- the moment

    def moments(self, count):
        """`now` over made lines, whose moments are told."""
        for _ in range(max(1, count // 400)):
            script = b'.t = now()\n.u = [now() == now(), is_timestamp(now()), now() > t\'2023-11-14T22:13:25Z\']'
            found = Verdict(script)
            seed = self.rng.randrange(2 ** 32)
            lines, status = summary(found, kinds.EVENT, 100, seed)
            told = self.program.run(script, words=["--generate", f"100:{seed}"])
            self.count("now", "calls", 400)
            if told != (programs.joined(lines), b"", status):
                self.differ("difference in now, seed", seed, "\n  wanted", lines, "\n  got", told)


def main():
    words = argparse.ArgumentParser(description="calls of each function through the program")
    words.add_argument("--seed", type=int, default=1)
    words.add_argument("--count", type=int, default=5000)
    words.add_argument("--only")
    words.add_argument("--outside")
    words.add_argument("--program", required=True)
    words.add_argument("--show", type=int, default=10)
    given = words.parse_args()
    if given.outside:
        patterns.ask(given.outside)
    began = time.monotonic()
    with programs.Program(given.program) as program:
        names = given.only.split(",") if given.only else [name for name in sorted(ROWS) if ROWS[name].apply]
        trial = None
        differences = 0
        every = {}
        for name in names:
            trial = Trial(program, random.Random(f"{given.seed} {name}"), given.show, bool(given.outside))
            if name == "now":
                trial.moments(given.count)
            while name != "now" and trial.told.get(name, {}).get("calls", 0) < given.count:
                trial.some_calls(name)
            row = ROWS[name]
            if any(one.literal for one in row.parameters):
                for _ in range(max(1, given.count // 400)):
                    trial.refused_literals(name)
            if name in DEEP:
                for _ in range(max(1, given.count // 100)):
                    trial.some_calls(name, deep=True)
            told = trial.told[name]
            differences += trial.differences
            print(f"{name}: " + ", ".join(f"{told[what]} {what}" for what in told) + (f", {trial.differences} differences" if trial.differences else ""), flush=True)
            for what, number in told.items():
                every[what] = every.get(what, 0) + number
    print(f"run_calls: seed {given.seed}, {len(names)} functions, " + ", ".join(f"{number} {what}" for what, number in every.items())
          + f", {differences} differences, {time.monotonic() - began:.0f} s")
    return 1 if differences else 0


if __name__ == "__main__":
    sys.exit(main())
