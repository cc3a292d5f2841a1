"""Random trial of lines: what each line of JSON must give.

    python3 trials/json_lines.py [--seed N] [--count N] [--envelope] [--program PATH [--calls]] [--show N]

Lines are made at random and by a list of hard cases. For each, Python's own JSON reader and the rules of `reading/json_lines.py`
say what the script `.x = 1` must write for it, or why the line is refused. With --envelope the lines are put into envelopes, most of
them, and the program takes `--envelope`. With --program the lines go through
`PATH SCRIPTFILE`, and output, report lines and status are compared. Without it only the program's own rows run. With
--calls each line that is UTF-8 is a text in an event in its place, which `parse_json` reads and `encode_json` writes.
"""

import argparse
import json
import json.decoder
import json.scanner
import os
import random
import subprocess
import sys
import tempfile

sys.dont_write_bytecode = True

import programs
from reading.json_lines import LONGEST, NOT_ENVELOPE, NOT_JSON, NOT_KIND, NOT_WHOLE, TOO_LONG, NotJson, NotWhole, answer, read, write
from some_json_lines import Maker, hard_envelopes, hard_lines


def self_check():
    # The slower reader in Python takes a few malformed escapes.
    assert json.scanner.c_make_scanner and json.decoder.c_scanstring
    rows = [
        (b'{"p":1.5}', (False, NOT_WHOLE)), (b"{", (False, NOT_JSON)), (b"", None), (b'{"a":1}', (True, b'{"a":1,"x":1}')),
        (b"{}", (True, b'{"x":1}')), (b"a" * 1048577, (False, TOO_LONG)), (b"[1]", (False, NOT_KIND)),
        (b"[" * 127 + b"]" * 127, (False, NOT_KIND)), (b"[" * 128 + b"]" * 128, (False, NOT_JSON)),
        (b'{"a":"\xff"}', (False, NOT_JSON)), (b'{"c":1,"b":"t"}', (True, b'{"b":"t","c":1,"x":1}')),
        (b'{"n":-0}', (False, NOT_WHOLE)), (b'{"n":9223372036854775807}', (True, b'{"n":9223372036854775807,"x":1}')),
        (b'{"n":9223372036854775808}', (False, NOT_WHOLE)), (b'{"n":1.5,"n":2}', (True, b'{"n":2,"x":1}')),
        (b'{"n":1e400,"n":2}', (False, NOT_JSON)), (b'{"n":"\\ud800"}', (False, NOT_JSON)),
        (b'{"n":"\\ud83d\\ude00\\u0001/"}', (True, '{"n":"\U0001f600\\u0001/","x":1}'.encode())),
    ]
    for line, want in rows:
        assert answer(line) == want, (line[:60], answer(line), want)
    for line, want in [(b'{"b":1,"a":2}', b'{"a":2,"b":1}'), (b'{"a":1,"a":2}', b'{"a":2}')]:
        assert answer(line, None) == (True, want), line
    deep = lambda depth, inner: b'{"event":{"a":' + b"[" * depth + b"]" * depth + b'},"metadata":' + inner + b"}"
    envelopes = [
        (b'{"event":{},"metadata":{}}', (True, b'{"event":{"x":1},"metadata":{}}')), (b'{"metadata":{"b":1,"a":2},"event":{}}', (True, b'{"event":{"x":1},"metadata":{"a":2,"b":1}}')),
        (b"{}", (False, NOT_ENVELOPE)), (b"[1]", (False, NOT_ENVELOPE)), (b"3", (False, NOT_ENVELOPE)), (b'{"event":{}}', (False, NOT_ENVELOPE)), (b'{"metadata":{}}', (False, NOT_ENVELOPE)),
        (b'{"event":{},"metadata":[]}', (False, NOT_ENVELOPE)), (b'{"event":{},"metadata":{},"x":1}', (False, NOT_ENVELOPE)), (b'{"event":1,"metadata":{}}', (False, NOT_KIND)),
        (b'{"event":[],"metadata":{}}', (False, NOT_KIND)), (b'{"event":{},"metadata":{"a":1.5}}', (False, NOT_WHOLE)), (b'{"event":{}', (False, NOT_JSON)), (b" ", None),
        (b'{"\\u0065vent":{},"metadata":1,"metadata":{}}', (True, b'{"event":{"x":1},"metadata":{}}')), (b'{"event":{},"metadata":1.5,"metadata":{}}', (True, b'{"event":{"x":1},"metadata":{}}')),
        (deep(125, b"{}"), (True, deep(125, b"{}").replace(b'},"m', b',"x":1},"m'))), (deep(126, b"{}"), (False, NOT_JSON)), (deep(126, b"[]"), (False, NOT_JSON)),
    ]
    for line, want in envelopes:
        assert answer(line, envelope=True) == want, (line[:60], answer(line, envelope=True), want)
    return len(rows) + 2 + len(envelopes)


def compare(program, lines, show, envelope):
    with tempfile.TemporaryDirectory() as place:
        script = os.path.join(place, "set_x.vrl")
        with open(script, "w") as file:
            file.write(".x = 1")
        ran = subprocess.run([program, script] + ["--envelope"] * envelope, input=b"\n".join(lines), capture_output=True)
    wanted = [answer(line, envelope=envelope) for line in lines]
    outputs = ran.stdout.split(b"\n")[:-1]
    reports = {}
    strange = []
    for report in ran.stderr.decode("utf-8", "replace").split("\n")[:-1]:
        number, colon, reason = report.partition(": refused: ")
        if number.startswith("line ") and colon and number[5:].isdigit():
            reports[int(number[5:])] = reason
        else:
            strange.append(report)
    differences = [("report", None, None, one) for one in strange]
    place = 0
    for number, (line, want) in enumerate(zip(lines, wanted), 1):
        got = None
        if number in reports:
            got = (False, reports.pop(number))
        elif want and want[0]:
            got = (True, outputs[place] if place < len(outputs) else b"(no line)")
            place += 1
        if got != want:
            differences.append((number, line, want, got))
    differences += [("left report", None, None, one) for one in reports.items()]
    if place != len(outputs):
        differences.append(("outputs", None, place, len(outputs)))
    status = 7 if any(want and not want[0] for want in wanted) else 0
    if ran.returncode != status:
        differences.append(("status", None, status, ran.returncode))
    for number, line, want, got in differences[:show]:
        print("difference at", number, line and line[:200], "wanted", want and repr(want)[:200], "got", repr(got)[:200])
    return len(differences)


CALLS = b"x, e = parse_json(string!(.t))\n. = {\"e\": e}\nif e == null { .w = encode_json(x) }\n"


def answer_of_calls(text):
    try:
        return {"e": None, "w": write(read(text.encode()))}
    except NotJson:
        return {"e": "parse_json: not JSON"}
    except NotWhole:
        return {"e": "parse_json: not whole numbers"}


def compare_calls(program, lines, show):
    texts = []
    for line in lines:
        try:
            texts.append(line.decode())
        except UnicodeDecodeError:
            continue
    # (an event of a longer text may be too long for a line)
    texts = [one for one in texts if len(one) < LONGEST // 8]
    with programs.Program(program) as ran:
        output, report, status = ran.run(CALLS, programs.joined(json.dumps({"t": one}) for one in texts))
    told, differences = output.decode().split("\n")[:-1], 0
    if (report, status, len(told)) != (b"", 0, len(texts)):
        print("difference: status", status, report[:300], len(told), "events of", len(texts))
        return len(texts), 1
    for text, got in zip(texts, told):
        want = answer_of_calls(text)
        if json.loads(got) != want:
            differences += 1
            if differences <= show:
                print("difference on", repr(text)[:200], "wanted", repr(want)[:200], "got", got[:200])
    return len(texts), differences


def main():
    words = argparse.ArgumentParser(description="random lines of JSON against an outside reader")
    words.add_argument("--seed", type=int, default=1)
    words.add_argument("--count", type=int, default=6000)
    words.add_argument("--program")
    words.add_argument("--envelope", action="store_true")
    words.add_argument("--calls", action="store_true")
    words.add_argument("--show", type=int, default=10)
    given = words.parse_args()
    rows = self_check()
    rng = random.Random(given.seed)
    lines = list(hard_lines()) + [Maker(rng).line() for _ in range(given.count)]
    if given.envelope:
        lines = list(hard_envelopes()) + [Maker(rng).enclosed(line) for line in lines]
    rng.shuffle(lines)
    if given.calls:
        count, differences = compare_calls(given.program, lines, given.show)
        print(f"json_lines: seed {given.seed}, {rows} rows, {count} texts by calls: {differences} differences")
        return 1 if differences else 0
    met = {}
    for line in lines:
        want = answer(line, envelope=given.envelope)
        what = "blank" if want is None else "written" if want[0] else want[1]
        met[what] = met.get(what, 0) + 1
    told = ", ".join(f"{met[what]} {what}" for what in sorted(met))
    differences = compare(given.program, lines, given.show, given.envelope) if given.program else 0
    compared = f"{differences} differences" if given.program else "no program given"
    print(f"json_lines: seed {given.seed}, {rows} rows, {len(lines)} lines ({told}): {compared}")
    return 1 if differences else 0


if __name__ == "__main__":
    sys.exit(main())
