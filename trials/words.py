"""Trial of command lines: what each list of words must mean, or that it is refused.

    python3 trials/words.py [--driver PATH] [--program PATH] [--most N] [--count N] [--seed N] [--out FILE] [--show N]

Tried is every list of up to N words (--most, 6 unless said) over each of the small alphabets below, and --count lists at random, of which half are words of a
large alphabet, and half command lines with a fault or none. Each is read by the rule below alone. With --driver the lists go through a program that calls the
reader of words: it reads a list a line, a comma before each word, and answers each by a line, `refused`, or script, kind file, workers, the three flags and the
mode, with commas between; the kind file is `none`, or stands behind `=`, and the mode is `lines`, `check` or `generate COUNT SEED`. With --program the lists
at random are given to the built program in an empty folder: it must end with 2 and the usage line where the words are refused, and with 3 where they are read,
since there is no script. With --out the lists are written into FILE and the answers wanted into FILE.stdout. Without any of these only the rows run.

The rule:
- The words behind the program's name are `SCRIPT [--kind FILE] [--jobs N] [--drop-on-error] [--keep-on-abort] [--envelope] [--check] [--generate COUNT:SEED]`,
  with the options in any order before or after SCRIPT, and a value in the next word or behind `=`.
- Before the first `--` a word that begins with `-` must be an option spelt so; behind it every word is a SCRIPT.
- Refused are: an unknown option; an option twice; a missing value, or one in the next word that begins with `-`; a flag with a value; no SCRIPT, or two; an
  empty name; the word `-` before `--`; N other than one or two digits of 1 to 32; COUNT other than one to seven digits of 1 to 1,000,000; SEED other than one
  to ten digits of up to 4,294,967,295; `--check` or `--envelope` with `--generate`.
- Without `--jobs` there is one worker.
"""

import argparse
import itertools
import os
import random
import re
import subprocess
import sys
import tempfile

VALUED = ("--kind", "--jobs", "--generate")
FLAGS = ("--drop-on-error", "--keep-on-abort", "--envelope", "--check")
USAGE = b"usage: remap SCRIPT [--kind FILE] [--jobs N] [--drop-on-error] [--keep-on-abort] [--envelope] [--check] [--generate COUNT:SEED]\n"

# Each has an option with a value, options with theirs behind `=`, flags, values, names, `--`, `-` and the empty word between them.
ALPHABETS = (
    ("s", "", "-", "--", "--kind", "--kind=", "--kind=-k", "--check"),
    ("s", "--", "--jobs", "--jobs=8", "8", "032", "--check=1", "--drop-on-error"),
    ("s", "--", "--generate", "--generate=1:1", "1:2", "--check", "-", "--jobs="),
    ("s", "t", "", "--", "-k", "--keep-on-abort", "--kind", "--kind=k=l"),
    ("s", "--", "--envelope", "--envelope=", "--generate=1:1", "--check", "--generate", "1:2"),
)

LARGE = (
    "s", "t", "", "-", "--", "---", "-s", "-k=1", "--=", "--=k", "=", "a=b", "\u00e9", "-\u00e9", "--\u00e9", "s ", " s", "--kind ", " --kind",
    "--kind", "--kind=", "--kind=k", "--kind=-", "--kind=--", "--kind=-k", "--kind=a=b", "--kind==", "--kind=\u00e9", "--Kind", "--kinds", "--kin", "-kind", "--k",
    "--jobs", "--jobs=", "--jobs=0", "--jobs=1", "--jobs=01", "--jobs=9", "--jobs=10", "--jobs=32", "--jobs=33", "--jobs=99", "--jobs=032", "--jobs=+1", "--jobs=-1",
    "--jobs=1 ", "--jobs=\u0661", "--jobs=1a", "--jobs=0x1", "--jobs=18446744073709551617", "--job=1", "0", "1", "08", "32", "33", "+1", "-1", "1 ", "00",
    "--drop-on-error", "--drop-on-error=", "--drop-on-error=true", "--drop-on-errors", "--drop", "--keep-on-abort", "--keep-on-abort=1", "--keep",
    "--envelope", "--envelope=", "--envelope=1", "--envelopes", "--Envelope", "-envelope", "envelope",
    "--check", "--check=", "--check=false", "--checks", "--generate", "--generate=", "--generate=:", "--generate=1", "--generate=1:", "--generate=:1",
    "--generate=1:1", "--generate=0:1", "--generate=1:0", "--generate=01:01", "--generate=1000000:1", "--generate=1000001:1", "--generate=0000001:0000000001",
    "--generate=00000001:1", "--generate=1:00000000001", "--generate=1:4294967295", "--generate=1:4294967296", "--generate=1:9999999999", "--generate=1:1:1",
    "--generate=1: 1", "--generate=1:+1", "--generate=-1:1", "--generate=1:-1", "--generate=1.1", "1:1", "0:1", "1000000:4294967295", "1:1:", ":", "1:x",
    "--help", "-h", "--version", "-V", "--help=", "help", "-sk", "--no-check", "@s",
)


def number(text, most, low, high):
    """The number of one to `most` digits, where it is from low to high."""
    if not re.fullmatch("[0-9]{1,%d}" % most, text):
        return None
    value = int(text)
    return value if low <= value <= high else None


def parts(words):
    """The names, and the options with their values; None where a word is none of them."""
    names, given, at = [], [], 0
    while at < len(words):
        word = words[at]
        at += 1
        if word == "--":
            return names + list(words[at:]), given
        if not word.startswith("-"):
            names.append(word)
            continue
        option, equals, value = word.partition("=")
        if option in FLAGS and not equals:
            given.append((option, None))
        elif option in VALUED and equals:
            given.append((option, value))
        elif option in VALUED and at < len(words) and not words[at].startswith("-"):
            given.append((option, words[at]))
            at += 1
        else:
            return None
    return names, given


def meaning(words):
    """What the words mean, as the driver prints it."""
    read = parts(words)
    if read is None:
        return "refused"
    names, given = read
    options = dict(given)
    if len(options) < len(given) or len(names) != 1 or names[0] == "" or options.get("--kind") == "":
        return "refused"
    jobs = number(options.get("--jobs", "1"), 2, 1, 32)
    if jobs is None:
        return "refused"
    mode = "lines"
    if "--generate" in options:
        count, colon, seed = options["--generate"].partition(":")
        count, seed = number(count, 7, 1, 1000000), number(seed, 10, 0, 4294967295)
        if not colon or count is None or seed is None or "--check" in options or "--envelope" in options:
            return "refused"
        mode = f"generate {count} {seed}"
    elif "--check" in options:
        mode = "check"
    kind = "=" + options["--kind"] if "--kind" in options else "none"
    flags = [str(flag in options).lower() for flag in FLAGS[:3]]
    return ",".join([names[0], kind, str(jobs), *flags, mode])


ROWS = (
    ("s", "s,none,1,false,false,false,lines"),
    ("--jobs=8 s --jobs 8", "refused"),
    ("s --kind", "refused"),
    ("s --check=1", "refused"),
    ("s --generate 0:1", "refused"),
    ("s t", "refused"),
    ("-", "refused"),
    ("--drop-on-error -- -s", "-s,none,1,true,false,false,lines"),
    ("s --jobs 0", "refused"),
    ("s --jobs=08", "s,none,8,false,false,false,lines"),
    ("s --jobs 032", "refused"),
    ("s --kind=-x", "s,=-x,1,false,false,false,lines"),
    ("s --kind=", "refused"),
    ("s --kind --", "refused"),
    ("s --check --generate 1:1", "refused"),
    ("--generate=1:1 s --keep-on-abort", "s,none,1,false,true,false,generate 1 1"),
    ("s --check --envelope --kind=k", "s,=k,1,false,false,true,check"),
    ("--envelope s", "s,none,1,false,false,true,lines"),
    ("s --envelope=1", "refused"),
    ("s --envelope --envelope", "refused"),
    ("s --envelope --generate 1:1", "refused"),
    ("", "refused"),
)


def lists(most, count, seed):
    """The lists of words that are tried."""
    for alphabet in ALPHABETS:
        for size in range(most + 1):
            yield from itertools.product(alphabet, repeat=size)
    yield from chosen(count, seed)


VALUES = {
    "--kind": ("k", "-k", "--", "a=b", "\u00e9", "k "),
    "--jobs": ("1", "8", "08", "32", "10", "33", "0"),
    "--generate": ("1:1", "1000000:4294967295", "0000007:0000000000", "20:0", "1000001:1", "1:4294967296"),
}


def made(choice):
    """A command line in some order, with a fault in one of two."""
    units = [(flag,) for flag in FLAGS if choice.random() < 0.4]
    for option, values in VALUES.items():
        if choice.random() < 0.4:
            value = choice.choice(values)
            units.append((option, value) if choice.random() < 0.5 else (f"{option}={value}",))
    name = choice.choice(("s", "t", "a b", "\u00e9", "=", "-s"))
    choice.shuffle(units)
    if name.startswith("-") or choice.random() < 0.2:
        units.append(("--", name))
    else:
        units.insert(choice.randrange(len(units) + 1), (name,))
    words = [word for unit in units for word in unit]
    at = choice.randrange(len(words))
    fault = choice.randrange(8)
    if fault == 0:
        del words[at]
    elif fault == 1:
        words.insert(at, choice.choice(words))
    elif fault == 2:
        words.insert(at, choice.choice(LARGE))
    elif fault == 3:
        words[at] = choice.choice(LARGE)
    return tuple(words)


def chosen(count, seed):
    """Lists at random: words of the large alphabet, and command lines with a fault or none, in turn."""
    choice = random.Random(seed)
    for turn in range(count):
        yield made(choice) if turn % 2 else tuple(choice.choice(LARGE) for _ in range(choice.randrange(7)))


def through_driver(driver, cases):
    text = "".join("".join("," + word for word in words) + "\n" for words in cases)
    run = subprocess.run([driver], input=text.encode(), stdout=subprocess.PIPE, check=True)
    return run.stdout.decode().split("\n")[:-1]


def compare(cases, answers, show):
    """How many were read, and how many differ."""
    read = differ = 0
    if len(answers) != len(cases):
        print(f"{len(cases)} lists, and {len(answers)} answers")
        return 0, 1
    for words, answer in zip(cases, answers):
        wanted = meaning(words)
        read += wanted != "refused"
        if answer != wanted:
            differ += 1
            if differ <= show:
                print(f"{words}: {answer}, and {wanted} was due")
    return read, differ


def through_program(program, cases, show):
    read = differ = 0
    with tempfile.TemporaryDirectory() as folder:
        for words in cases:
            run = subprocess.run([program, *words], cwd=folder, stdin=subprocess.DEVNULL, stdout=subprocess.PIPE, stderr=subprocess.PIPE, check=False)
            refused = meaning(words) == "refused"
            read += not refused
            wanted = (2, b"", USAGE) if refused else (3, b"", b"")
            if (run.returncode, run.stdout, run.stderr) != wanted:
                differ += 1
                if differ <= show:
                    print(f"{words}: {run.returncode}, {run.stdout!r}, {run.stderr!r}, and {wanted} was due")
    return read, differ


def main():
    arguments = argparse.ArgumentParser()
    arguments.add_argument("--driver")
    arguments.add_argument("--program")
    arguments.add_argument("--out")
    arguments.add_argument("--most", type=int, default=6)
    arguments.add_argument("--count", type=int, default=2000)
    arguments.add_argument("--seed", type=int, default=1)
    arguments.add_argument("--show", type=int, default=20)
    asked = arguments.parse_args()
    differ = 0
    for line, wanted in ROWS:
        if meaning(tuple(line.split())) != wanted:
            differ += 1
            print(f"the reading itself: {line}: {meaning(tuple(line.split()))}, and {wanted} was due")
    print(f"rows {len(ROWS)}, different {differ}")
    if asked.out:
        cases = list(lists(asked.most, asked.count, asked.seed))
        with open(asked.out, "w", encoding="utf-8") as file:
            file.writelines("".join("," + word for word in words) + "\n" for words in cases)
        with open(asked.out + ".stdout", "w", encoding="utf-8") as file:
            file.writelines(meaning(words) + "\n" for words in cases)
        print(f"written {len(cases)}")
    if asked.driver:
        cases = list(lists(asked.most, asked.count, asked.seed))
        read, different = compare(cases, through_driver(os.path.abspath(asked.driver), cases), asked.show)
        print(f"seed {asked.seed}: lists {len(cases)}, of them read {read}, different {different}")
        differ += different
    if asked.program:
        cases = list(chosen(asked.count, asked.seed))
        read, different = through_program(os.path.abspath(asked.program), cases, asked.show)
        print(f"seed {asked.seed}: runs {len(cases)}, of them read {read}, different {different}")
        differ += different
    return 1 if differ else 0


if __name__ == "__main__":
    sys.exit(main())
