"""Runs held against the judgement of their scripts: those of the outside reading, and what a program leaves. This file runs nothing by itself."""

import json

import programs
from reading import kinds
from reading.judgement import Verdict
from reading.moments import moment_text, read_moment
from reading.runs import run_lines
from reading.states import join_kinds, join_states
from reading.tree import walk
from reading.values import value_of

# The tags that JSON has one sort of text for.
TOLD = ("string", "timestamp", "regex")


class Unsound(Exception):
    pass


def watcher(found, start):
    """Holds each run against the judgement of its script."""
    one = found.judged
    end = join_states(one.ok, one.ret)
    kind = join_kinds(one.kind, one.returned)

    def watch(run, word, held):
        if word == "unhandled":
            raise Unsound("an error that nothing handles: " + held)
        if word == "value":
            if not kinds.inhabits(held, kind):
                raise Unsound(f"{held} isn't of {kinds.print_kind(kind)}")
            for root, known in end.items():
                if root not in run.store or not kinds.inhabits(run.store[root], known):
                    raise Unsound(f"{root} is {run.store.get(root)}, which isn't of {kinds.print_kind(known)}")
    return watch


# ---- what a program leaves

def probed(found):
    """The script, made to write what it leaves into the event: at its end under `value`, at a `return` under `returned`, each
    with the event and the variables that are known there, the metadata among them. None where no way ends so."""
    one, pieces = found.judged, []
    for node in walk(found.script.items):
        if node.form == "return" and one.ret is not None:
            pieces += [(node.value.start, node.start, '(. = {"returned": '), (node.value.end, -node.start, left_in(one.ret) + ")")]
    if one.ok is not None and found.script.items:
        last = found.script.items[-1]
        pieces += [(last.start, -1, "zz = ("), (last.end, 1, ")")]
        pieces.append((len(found.script.text), 2, f'\n. = {{"value": zz, "told": {told_of("zz")}{left_in(one.ok)}'))
    if not pieces:
        return None
    text_, at = "", 0
    for place, _, piece in sorted(pieces):
        text_, at = text_ + found.script.text[at:place] + piece, place
    return text_ + found.script.text[at:]


def told_of(name):
    """What tells the three tags apart that JSON has one sort of text for."""
    return "[" + ", ".join(f"is_{tag}({name})" for tag in TOLD) + "]"


def left_in(state):
    names = sorted(root for root in state if root != ".")
    every = [f'"{name}": {{"value": {name}, "told": {told_of(name)}}}' for name in names]
    return ', "event": ., "variables": {' + ", ".join(every) + "}}"


def inhabits_as_json(held, kind, sources):
    """Whether JSON may stand for a value of the kind: a timestamp and a regex stand in it as their texts."""
    tag, _ = value = value_of(held)
    if tag == "array":
        missing = kind.array and kind.array[0][len(held):]
        return bool(kind.array) and all(inhabits_as_json(one, kinds.part(kind, i), sources) for i, one in enumerate(held)) and all(
            kinds.ABSENT in one.tags for one in missing)
    if tag == "object":
        missing = kind.object and [one for name, one in kind.object[0] if name not in held]
        return bool(kind.object) and all(inhabits_as_json(one, kinds.part(kind, name), sources) for name, one in held.items()) and all(
            kinds.ABSENT in one.tags for one in missing)
    if tag == "string" and "string" not in kind.tags:
        read = read_moment(held)
        return ("timestamp" in kind.tags and read is not None and moment_text(read) == held) or ("regex" in kind.tags and held in sources)
    return kinds.inhabits(value, kind)


def left_by_program(found, ends, output, envelope):
    """What isn't of the kinds judged in lines that the probe of a script wrote, as a text, or None. `ends` has the word of each run."""
    one, sources = found.judged, [token.value for token in found.script.patterns]
    lines = output.decode().split("\n")
    for word in ends:
        if word == "aborted":
            continue
        line = lines.pop(0)
        if word != "value":
            continue
        left = json.loads(line)["event"] if envelope else json.loads(line)
        if "returned" in left:
            state, every = one.ret, [(left["returned"], one.returned, [])]
        else:
            state, every = one.ok, [(left["value"], one.kind, left["told"])]
        every += [(left["event"], state["."], [])] + [(held["value"], state[name], held["told"]) for name, held in left["variables"].items()]
        for held, kind, told in every:
            tags = {tag for tag, is_so in zip(TOLD, told) if is_so}
            if not inhabits_as_json(held, kind, sources) or not tags <= kind.tags:
                return line
    return None


def try_what_is_left(program, found, start, data, envelope):
    """Runs the probe of an accepted script: the number of lines that were held against the kinds judged, and what differs, if anything does."""
    script = probed(found)
    probe = Verdict(script.encode(), start) if script else None
    if not probe or not probe.accepted:
        return 0, None
    ends = []
    output, report, status = run_lines(probe, start, data, envelope=envelope, watch=lambda run, word, held: ends.append(word))
    told = program.run(script.encode(), data, program.words_of(None, envelope=envelope))
    if told != (programs.joined(output), programs.joined(report), status):
        return 0, f"{script!r} over {data}\n  wanted {output} {report} {status}\n  got {told}"
    wrong = left_by_program(found, ends, told[0], envelope)
    return ends.count("value"), wrong and f"{script!r} over {data} left {wrong}, which isn't as judged"
