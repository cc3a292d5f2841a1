"""Random trial of batches and workers: the same bytes for every number of them, however the input comes.

    python3 trials/workers.py --program PATH [--seed N] [--count N] [--inputs N] [--seconds N] [--show N]

Makes accepted scripts, and lines at random, of half of the inputs in envelopes: a few, or some hundreds, so that there are several batches. What the program
writes, reports and ends with over a file of them, with one worker, must come again with 1, 2, 3, 4, 8 and 32 workers over a pipe into which the lines go in
pieces of random lengths. Few lines are held against the outside reading of the meaning, too. In some cases the pipe of the output is closed after a few bytes, of
so many lines that not all of them can be there already: the program must end with 4. In some the input ends in the middle of a line. It ends after --count scripts, each
over --inputs inputs (one where none is given), or --seconds.
"""

import argparse
import contextlib
import os
import random
import subprocess
import sys
import threading
import time

sys.dont_write_bytecode = True

import programs
import some_calls
import some_scripts
from reading import urls
from reading.functions import ROWS as FUNCTIONS
from reading.judgement import Verdict
from reading.kind_files import start_of
from reading.runs import run_lines
from some_lines import some_lines

JOBS = (1, 2, 3, 4, 8, 32)
SECONDS = 120


def pieces(rng, data):
    """The data cut at random: into bytes, into short pieces or into long ones."""
    most = rng.choice([1, 7, 300, 5000, 70000])
    if most < 7 and len(data) > 3000:
        most = 300
    at = 0
    while at < len(data):
        size = rng.randint(1, most)
        yield data[at:at + size]
        at += size


def over_pipe(program, words, data, rng, closed_after=None):
    """Output, report and status of the program with these words, where the data comes in pieces. The output is closed after so many bytes, if any."""
    started = subprocess.Popen([program.path, program.files["script.vrl"], *words], stdin=subprocess.PIPE, stdout=subprocess.PIPE, stderr=subprocess.PIPE)
    parts = list(pieces(rng, data))

    def give():
        with contextlib.suppress(BrokenPipeError):
            for part in parts:
                os.write(started.stdin.fileno(), part)
        with contextlib.suppress(BrokenPipeError):
            started.stdin.close()

    told = {}

    def take(name, pipe, most):
        told[name] = pipe.read() if most is None else pipe.read(most)
        pipe.close()

    threads = [threading.Thread(target=give), threading.Thread(target=take, args=("report", started.stderr, None)),
               threading.Thread(target=take, args=("output", started.stdout, closed_after))]
    for thread in threads:
        thread.start()
    for thread in threads:
        thread.join(SECONDS)
    return told["output"], told["report"], started.wait(SECONDS)


def many_lines(rng, start, envelope):
    """Lines: a few, or some hundreds made of a few kinds of them."""
    few = some_lines(rng, start, envelope)
    if rng.random() < 0.5:
        return few, True
    lines = few.split(b"\n")
    for _ in range(3):
        lines += some_lines(rng, start, envelope).split(b"\n")
    return b"\n".join(rng.choice(lines) for _ in range(rng.choice([255, 256, 257, 300, 513, 800]))) + rng.choice([b"", b"\n"]), False


def main():
    words = argparse.ArgumentParser(description="the same bytes for every number of workers")
    words.add_argument("--program", required=True)
    words.add_argument("--seed", type=int, default=1)
    words.add_argument("--count", type=int, default=1000)
    words.add_argument("--inputs", type=int, default=1)
    words.add_argument("--seconds", type=float, default=float("inf"))
    words.add_argument("--show", type=int, default=10)
    given = words.parse_args()
    rng = random.Random(given.seed)
    maker = some_scripts.Maker(rng, some_calls)
    made = inputs = several = closed = lines = differences = 0
    end = time.monotonic() + given.seconds
    with programs.Program(given.program) as program:
        maker.names = [name for name in sorted(FUNCTIONS) if name != "now"]
        while made < given.count and time.monotonic() < end:
            script, file = maker.script(), maker.kind_file()
            start = start_of(file)
            found = Verdict(script.encode(), start)
            if not found.accepted:
                continue
            made += 1
            wrong = []
            for _ in range(given.inputs):
                options = {"drop": rng.random() < 0.3, "keep": rng.random() < 0.3, "envelope": rng.random() < 0.5}
                data, is_few = many_lines(rng, start, options["envelope"])
                lines += len(data.split(b"\n"))
                inputs += 1
                several += not is_few
                more = program.words_of(file, **options)
                wanted = program.run(script.encode(), data, more)
                differ = []
                with contextlib.suppress(urls.Unknown):
                    if is_few:
                        read = run_lines(found, start, data, watch=lambda *_: None, **options)
                        if wanted != (programs.joined(read[0]), programs.joined(read[1]), read[2]):
                            differ.append(("the outside reading", read))
                for jobs in JOBS:
                    told = over_pipe(program, ["--jobs", str(jobs), *more], data, rng)
                    if told != wanted:
                        differ.append((f"{jobs} workers", told))
                wrong += [(f"{who} on {script!r} kind {file} options {options} lines {data[:600]}", wanted, told) for who, told in differ]
            if made % 20 == 0:
                # A line is at least 100 bytes, and a pipe holds 64 KiB.
                closed += 1
                program.write("script.vrl", b".x = 1")
                long = b'{"a":"' + b"z" * 100 + b'"}\n'
                told = over_pipe(program, ["--jobs", "8"], long * 5000, rng, 1)
                if told != (b"{", b"", 4):
                    wrong.append(("a closed output", (b"{", b"", 4), told))
            for what, wanted, told in wrong:
                differences += 1
                if differences <= given.show:
                    print("difference at", what, "\n  wanted", wanted, "\n  got", told, flush=True)
    print(f"workers: seed {given.seed}, {made} scripts over {inputs} inputs of {lines} lines, {several} of several batches or about one, each with {len(JOBS)} numbers of workers over a pipe, {closed} closed outputs: {differences} differences")
    return 1 if differences else 0


if __name__ == "__main__":
    sys.exit(main())
