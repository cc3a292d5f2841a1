"""Runs of accepted scripts over lines: what is written and reported, and the summary of a run over made lines."""

import hashlib

from reading import json_lines
from reading.kinds import inhabits
from reading.meaning import Run
from reading.values import objects, plain, value_of


def run_lines(found, start, data, drop=False, keep=False, envelope=False, moments=None, watch=None):
    """What an accepted script writes and reports over these bytes, and the status."""
    output, report, marked = [], list(found.diagnostics), False
    lines = data.split(b"\n")
    for number, line in enumerate(lines[:-1] if lines[-1] == b"" else lines, 1):
        parts = json_lines.parts(line, envelope)
        if parts is None:
            continue
        moment = moments.pop(0) if moments else 0
        refusal = None if parts[0] else parts[1]
        if not refusal:
            event, metadata = [value_of(one) for one in parts[1]]
            refusal = None if inhabits(event, start) else json_lines.NOT_KIND
        if refusal:
            report.append(f"line {number}: refused: {refusal}")
            marked = True
            continue
        run = Run(found.script, found.judge.empties, event, metadata, moment)
        word, held = run.end()
        if watch:
            watch(run, word, held)
        kept = [event]
        if word == "value":
            after, metadata = run.store["."], run.store["%"]
            kept = list(after[1]) if after[0] == "array" else [after]
        elif word == "aborted":
            kept = kept if keep else []
            report.append(f"line {number}: aborted" + ("" if held is None else ": " + json_lines.text_of(held)))
        else:
            kept = [] if drop else kept
            report.append(f"line {number}: error: " + ("nested deeper than 128" if word == "deep" else json_lines.text_of(held)))
        if envelope:
            kept = [objects({"event": one, "metadata": metadata}) for one in kept]
        output += [json_lines.write(plain(one, run.sources)) for one in kept]
    return output, report, 7 if marked else 0


def made_lines(count, seed):
    """The lines of the generator, and their moments."""
    for number in range(1, count + 1):
        seed = (seed * 6364136223846793005 + 1442695040888963407) % 2 ** 64
        r = seed >> 33
        level = ("INFO", "WARN", "ERROR")[r // 16 % 3]
        yield '{"host":"h%d","level":"%s","message":"request %d took %d ms","n":%d}' % (r % 16, level, number, r // 64 % 1000, r % 1000)


def summary(found, start, count, seed):
    """The lines that a run over made lines writes."""
    data = "\n".join(made_lines(count, seed)).encode()
    ends = []
    moments = [(1700000000 + number) * 10 ** 9 for number in range(1, count + 1)]
    output, report, status = run_lines(found, start, data, moments=moments, watch=lambda run, word, held: ends.append(word))
    written = "".join(line + "\n" for line in output).encode()
    told = [("lines", count), ("written", len(output)), ("errors", ends.count("banged") + ends.count("deep")), ("aborted", ends.count("aborted")),
            ("refused", sum(": refused: " in line for line in report)), ("bytes", len(written)), ("sha256", hashlib.sha256(written).hexdigest())]
    return [f"{name} {one}" for name, one in told], status
