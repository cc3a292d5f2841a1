"""Random trial of the outside reading of patterns, against Rust's `regex` crate.

    python3 trials/patterns.py --outside PATH [--seed N] [--count N] [--program PATH] [--show N]

Matches that Python's `re` tells, and what is made of them (pieces, replacements), are held against the crate's own, on patterns
where the two agree. With --program, patterns that may be malformed are the literals of scripts: those that the program calls malformed
are those that the crate doesn't read. Spellings that only later editions of the crate read are passed over.
"""

import argparse
import random
import re
import sys

sys.dont_write_bytecode = True

import programs
from reading.patterns import Outside, expanded, group_names, matches
from some_patterns import Maker, text_of

WANT_OF_MEMORY = 5
NOISE = list("()[]{}*+?|\\^$.-,:<>!=&~#PpdDwWsSbBAzxuUtnrQk0123456789 aimsé") + ["(?", "(?:", "(?P<", "[^", "[[:", ":]]", "&&", "--", "~~", "\\p{", "\\x{", "\\u{", "(?i", "(?#", "(?=", "\\b", "{2,1}", "{1001}", "{,2}"]
# What only later editions read: names beyond ASCII, half word boundaries, the flag R, {,n} as a count, all signs and controls after a backslash, and classes without a character.
LATER = re.compile(r"\\b\{|\\[\x00-\x20!\"%',/:;<=>@_`\x7f]|\(\?[a-zA-Z-]*R|\{\s*,|\(\?P?<[^>]*[^\x00-\x7f]|&&|--|~~|\[\^\\[a-zA-Z]")


def spoilt(rng, maker):
    """A pattern with some characters put in, taken out or changed."""
    source = maker.pattern() if rng.random() < 0.8 else ""
    for _ in range(rng.choice([0, 1, 1, 2, 3, 6])):
        place = rng.randrange(len(source) + 1)
        source = source[:place] + rng.choice(NOISE + [""]) + source[place + rng.choice([0, 0, 1]):]
    if rng.random() < 0.01:
        deep = rng.choice([20, 100, 248, 249, 250, 251, 252, 260])
        source = rng.choice(["(", "(?:", "(?i:"]) * deep + "a" + ")" * deep
    return source


def malformed(program, sources):
    """The numbers of the literals that the program calls malformed, from 1, and of those that want more memory than a pattern may."""
    output, report, status = program.run("".join(f"x = r'{one}'\n" for one in sources).encode())
    if status != WANT_OF_MEMORY:
        return {int(line.split(":")[0].rsplit(" ", 1)[1]) for line in report.decode().splitlines() if line.startswith("error[E101]")}, set()
    if len(sources) == 1:
        return {1}, {1}
    half = len(sources) // 2
    parts = malformed(program, sources[:half]), malformed(program, sources[half:])
    return tuple(one | {number + half for number in other} for one, other in zip(*parts))


def literals(program, outside, rng, count, show):
    """Scripts of literals that may be malformed: how many were tried, were malformed, want too much memory, were passed over, differed."""
    tried, bad, large, spared, differences = 0, 0, 0, 0, 0
    maker = Maker(rng, True)
    while tried < count:
        sources = []
        while len(sources) < 200:
            one = spoilt(rng, maker)
            # A quote would end the literal, and a backslash at its end would escape that.
            if "'" not in one and "\n" not in one and (len(one) - len(one.rstrip("\\"))) % 2 == 0:
                sources.append(one)
        if sum(len(one.encode()) + 8 for one in sources) > 65536:
            continue
        told, too_large = malformed(program, sources)
        for number, one in enumerate(sources, 1):
            tried += 1
            if LATER.search(one):
                spared += 1
                continue
            answer = outside.ask("matches", re.sub(r"(\\.)|\(\?<(?![=!])", lambda m: m[1] or "(?P<", one, flags=re.S), "")[0]
            # (what a pattern takes hangs on the edition)
            if answer == "large" or number in too_large:
                large += 1
                continue
            wanted = answer == "bad"
            bad += wanted
            if wanted != (number in told):
                differences += 1
                if differences <= show:
                    print("difference on", repr(one), "malformed there:", wanted, "by the program:", number in told)
    return tried, bad, large, spared, differences


def texts(words):
    return [None if one == "-" else bytes.fromhex(one[1:]).decode() for one in words]


def main():
    words = argparse.ArgumentParser(description="matches told by Python and by the crate")
    words.add_argument("--seed", type=int, default=1)
    words.add_argument("--count", type=int, default=20000)
    words.add_argument("--outside", required=True)
    words.add_argument("--program")
    words.add_argument("--show", type=int, default=10)
    given = words.parse_args()
    rng = random.Random(given.seed)
    outside, maker = Outside(given.outside), Maker(rng)
    if given.program:
        with programs.Program(given.program) as program:
            tried, bad, large, spared, differences = literals(program, outside, rng, given.count, given.show)
        print(f"patterns: seed {given.seed}, {tried} literals, {bad} of them malformed, {large} over a budget, {spared} passed over, {differences} differences")
        return 1 if differences else 0
    differences, found = 0, 0
    for _ in range(given.count):
        source, text = maker.pattern(), text_of(rng)
        asked = source.replace("(?<", "(?P<")
        told = outside.ask("matches", asked, text)
        here, wanted = matches(source, text), []
        places = [len(text[:n].encode()) for n in range(len(text) + 1)]
        for one in here:
            wanted += ["|"] + ["-" if span is None else f"{places[span[0]]}:{places[span[1]]}" for span in one]
        limit, count, with_ = rng.randrange(1, 5), rng.choice([-1, 0, 1, 2]), rng.choice(["", "x", "[$1]", "$n1-", "${k1}", "$$", "$1x", "${1}x", "$", "$0$0", "$2"])
        pieces, at, told_pieces, replaced, told_replaced = [], 0, texts(outside.ask("split", asked, text, limit)[1:]), "", texts(outside.ask("replace", asked, text, with_, count)[1:])
        names = group_names(source)
        for one in here[:limit - 1]:
            pieces.append(text[at:one[0][0]])
            at = one[0][1]
        pieces.append(text[at:])
        at = 0
        for one in here if count < 0 else here[:count]:
            replaced += text[at:one[0][0]] + expanded(with_, names, one, text)
            at = one[0][1]
        replaced += text[at:]
        found += bool(here)
        if told != ["ok"] + wanted or pieces != told_pieces or [replaced] != told_replaced or texts(outside.ask("names", asked, "")[1:]) != names:
            differences += 1
            if differences <= given.show:
                print("difference on", repr(source), "in", repr(text), with_, "\n  here", wanted, pieces, replaced, names, "\n  there", told, told_pieces, told_replaced)
    print(f"patterns: seed {given.seed}, {given.count} patterns, {found} of them found, {differences} differences")
    return 1 if differences else 0


if __name__ == "__main__":
    sys.exit(main())
