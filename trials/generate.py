"""Trial of the lines that are made from a seed, and of the summary of a run over them.

    python3 trials/generate.py [--count N] [--program PATH] [--show COUNT:SEED]

The lines and the summaries are worked out here by the rule alone. The first lines are held against rows that were
worked out by hand. With --program, N lines (1,000 where nothing is said) of each of three seeds are compared with those
of the program: a script that ends after it left one line's event as it was, and drops all others, gives that line's bytes
as its summary; and over all lines at once the summary of `.`, which leaves every event as it is, tells the size and
the digest of the lines. Then runs are compared in which events are changed, dropped, kept, made several, refused, or told their moment; nothing is
reported of a line. --show prints the lines that are made, and runs nothing.
"""

import argparse
import hashlib
import json
import sys

sys.dont_write_bytecode = True

import programs

SEEDS = [1, 7, 4294967295]
LEVELS = ["INFO", "WARN", "ERROR"]

# Of seed 1: the state and the number of the first line, and the line.
FIRST_STATE = 7806831264735756412
FIRST_NUMBER = 908834774
FIRST_LINE = '{"host":"h6","level":"ERROR","message":"request 1 took 543 ms","n":774}'


def states(seed):
    """The states behind a seed, without end."""
    state = seed
    while True:
        state = (state * 6364136223846793005 + 1442695040888963407) % 2 ** 64
        yield state


def lines(count, seed):
    """So many made lines."""
    for number, state in zip(range(1, count + 1), states(seed)):
        drawn = state // 2 ** 33
        host, level = drawn % 16, LEVELS[drawn // 16 % 3]
        took, n = drawn // 64 % 1000, drawn % 1000
        yield f'{{"host":"h{host}","level":"{level}","message":"request {number} took {took} ms","n":{n}}}'


def seconds(number):
    """The moment of the line of this number, in seconds since 1970."""
    return 1700000000 + number


def summary(results):
    """The seven lines over results, each a word (`fine`, `error`, `aborted`, `refused`) and the events that are kept, as texts."""
    count = {"fine": 0, "error": 0, "aborted": 0, "refused": 0}
    digest, size, kept = hashlib.sha256(), 0, 0
    for word, events in results:
        count[word] += 1
        kept += len(events)
        written = "".join(event + "\n" for event in events).encode()
        size += len(written)
        digest.update(written)
    told = [("lines", sum(count.values())), ("written", kept), ("errors", count["error"]), ("aborted", count["aborted"]), ("refused", count["refused"]),
            ("bytes", size), ("sha256", digest.hexdigest())]
    return "".join(f"{name} {value}\n" for name, value in told).encode()


def compact(event):
    return json.dumps(event, sort_keys=True, separators=(",", ":"))


# ---- scripts, each with what it makes of a line: of its event, its text and its number

def with_x(event, line, number):
    return "fine", [compact({**event, "x": 1})]


def with_more(event, line, number):
    return "fine", [compact({**event, "n": event["n"] + 1})]


def unless_error(event, line, number):
    return ("aborted", []) if event["level"] == "ERROR" else ("fine", [line])


def unless_error_kept(event, line, number):
    return ("aborted", [line]) if event["level"] == "ERROR" else ("fine", [line])


def as_it_is(event, line, number):
    return "fine", [line]


def as_two(event, line, number):
    return "fine", [compact(event["host"]), compact(event["n"])]


def as_none(event, line, number):
    return "fine", []


def at_its_moment(event, line, number):
    return "fine", [compact({"at": seconds(number)})]


def refused(event, line, number):
    return "refused", []


def banged(event, line, number):
    return "error", [line]


def banged_dropped(event, line, number):
    return "error", []


NONE_DECLARED = b'{"object":{"host":"integer"}}'

# Script, words, the kind file if any, what it makes of a line.
SCRIPTS = [
    (".", [], None, as_it_is),
    (".x = 1", [], None, with_x),
    (".n = .n + 1 ?? 0", [], None, with_more),
    ('if .level == "ERROR" { abort }', [], None, unless_error),
    ('if .level == "ERROR" { .n = 0\n abort }', ["--keep-on-abort"], None, unless_error_kept),
    (". = [.host, .n]", [], None, as_two),
    (". = []", [], None, as_none),
    (".n = 0\nint!(.host)", [], None, banged),
    ("int!(.host)", ["--drop-on-error"], None, banged_dropped),
    (".", [], NONE_DECLARED, refused),
    (". = {\"at\": to_unix_timestamp(now())}", [], None, at_its_moment),
]
RUNS = [(1, 1), (1, 7), (2, 1), (17, 3), (1000, 1), (1000, 7), (1000, 4294967295), (1, 0), (100000, 7)]


def expected(makes, count, seed):
    """The output and the status wanted."""
    results = [makes(json.loads(line), line, number) for number, line in enumerate(lines(count, seed), 1)]
    return summary(results), 7 if any(word == "refused" for word, _ in results) else 0


# ---- rows

def check_rows():
    """The rows that were worked out by hand. Returns how many."""
    state = next(states(1))
    assert (state, state // 2 ** 33) == (FIRST_STATE, FIRST_NUMBER), state
    assert list(lines(1, 1)) == [FIRST_LINE]
    told, _ = expected(with_x, 1, 1)
    assert told.startswith(b"lines 1\nwritten 1\nerrors 0\naborted 0\nrefused 0\nbytes 78\nsha256 "), told
    empty = "e3b0c44298fc1c149afbf4c8996fb92427ae41e4649b934ca495991b7852b855"
    told, _ = expected(unless_error, 1, 1)
    assert told == f"lines 1\nwritten 0\nerrors 0\naborted 1\nrefused 0\nbytes 0\nsha256 {empty}\n".encode(), told
    for seed in SEEDS:
        for line in lines(1000, seed):
            assert compact(json.loads(line)) == line, line
    return 4


# ---- the program

class Compared:
    def __init__(self):
        self.passed, self.failed = 0, 0

    def compare(self, name, got, want):
        output, report, status = got
        if (output, report, status) == (want[0], b"", want[1]):
            self.passed += 1
        else:
            self.failed += 1
            print(f"{name}\n  status {status}, wanted {want[1]}\n  {output!r}\n  wanted {want[0]!r}\n  {report!r}")


def each_line(program, compared, count, seed):
    """Compares each of the lines apart: all but the one of its message are dropped."""
    for number, line in enumerate(lines(count, seed), 1):
        message = json.loads(line)["message"]
        script = f'if .message != "{message}" {{ abort }}'
        results = [("fine", [line]) if other == number else ("aborted", []) for other in range(1, number + 1)]
        got = program.run(script.encode(), words=["--generate", f"{number}:{seed}"])
        compared.compare(f"line {number} of seed {seed}", got, (summary(results), 0))


def main():
    words = argparse.ArgumentParser()
    words.add_argument("--count", type=int, default=1000)
    words.add_argument("--program")
    words.add_argument("--show")
    given = words.parse_args()
    if given.show:
        for line in lines(*[int(one) for one in given.show.split(":")]):
            print(line)
        return 0
    rows = check_rows()
    if not given.program:
        print(f"generate: {rows} rows")
        return 0
    compared = Compared()
    with programs.Program(given.program) as program:
        for seed in SEEDS:
            each_line(program, compared, given.count, seed)
        for script, options, kind, makes in SCRIPTS:
            for count, seed in RUNS:
                taken = list(options) + (["--kind", program.write("kind.json", kind)] if kind else [])
                got = program.run(script.encode(), words=[*taken, "--generate", f"{count}:{seed}"])
                compared.compare(f"{script!r} {taken} {count}:{seed}", got, expected(makes, count, seed))
    print(f"generate: {rows} rows, {compared.passed} runs as wanted, {compared.failed} others")
    return 1 if compared.failed else 0


if __name__ == "__main__":
    sys.exit(main())
