#!/usr/bin/env python3
"""Runs the gate from nothing, at the top of this repository, and prints the rows of docs/GATE.md: for each crate its lines, its edits,
and the processor seconds of its proof, of the proof of its tests and of its edits. A toolchain whose `rt ci` keeps what has passed is
told to take nothing of it (`--anew`), and there names of crates, as `docs/measure-gate.py vrl_kind`, measure these and those below
them alone. What rt says goes to standard error.

The seconds are those of the processes that rt starts, read from /proc five times a second, so a process counts some hundredths of a
second less than it took. The edits have with them the proof of the crate that they begin with. Behind the rows stands how much of the
processors' time the machine's host took away for others: where it is much, the same work takes more seconds too."""
import glob, os, subprocess, sys, time

TOP = os.path.dirname(os.path.dirname(os.path.realpath(__file__)))
TICKS = os.sysconf("SC_CLK_TCK")


def processes():
    """The processes that there are: for each its parent, and the processor seconds of it and of its children that ended."""
    found = {}
    for file in glob.glob("/proc/[0-9]*/stat"):
        try:
            with open(file) as it:
                text = it.read()
        except OSError:
            continue
        words = text[text.rindex(")") + 2 :].split()
        found[int(text.split(" ", 1)[0])] = int(words[1]), sum(map(int, words[11:15])) / TICKS
    return found


def taken():
    """The seconds of all processors since the machine began, and those that its host took away."""
    with open("/proc/stat") as it:
        spent = [int(word) / TICKS for word in it.readline().split()[1:9]]
    return sum(spent), spent[7]


def chain(found, pid, top):
    """A process that stands below another one, and those between them, lowest first."""
    above = []
    while pid in found and pid != top:
        above.append(pid)
        pid = found[pid][0]
    return above if pid == top else []


def check_of(pid):
    """The crate that a process checks, and whether as `proof`, `tests` or `edits`; None where it checks none."""
    try:
        with open(f"/proc/{pid}/cmdline") as it:
            words = it.read().split("\0")
        folder = os.readlink(f"/proc/{pid}/cwd")
    except OSError:
        return None
    if "--crate-name" not in words:
        return None
    kind = "edits" if "/rt-edit-" in folder else "tests" if "--test" in words else "proof"
    return words[words.index("--crate-name") + 1], kind


def measure(names):
    """The seconds of each crate by what they were spent on, and whether the gate passed."""
    keeps = "--anew" in subprocess.run(["rt", "help"], capture_output=True, text=True).stderr
    ran = subprocess.Popen(["rt", "ci", *(["--anew"] if keeps else []), *names], cwd=TOP, stdout=sys.stderr)
    checks, seconds = {}, {}
    while ran.poll() is None:
        found, sums = processes(), {}
        below = {it: chain(found, it, ran.pid) for it in found}
        for pid in (it for it in found if below[it] and not checks.get(it)):
            checks[pid] = check_of(pid)
        for pid, above in below.items():
            # (a check may start copies of itself: all is counted with the first)
            for at in [it for it in above if checks[it]][-1:]:
                sums[at] = sums.get(at, 0) + found[pid][1]
        for pid, spent in sums.items():
            seconds[pid] = max(seconds.get(pid, 0), spent)
        time.sleep(0.2)
    told = {}
    for pid, spent in seconds.items():
        crate, kind = checks[pid]
        told.setdefault(crate, dict.fromkeys(("proof", "tests", "edits"), 0))[kind] += spent
    return told, ran.returncode == 0


def lines_of(crate):
    """A crate's lines of code, of tests, of specs and of proofs, and its edits. A file with a `#[test]` is one of tests."""
    sums = dict.fromkeys(("code", "tests", "specs", "proofs"), 0)
    for part in ("src", "specs", "proofs"):
        for file in glob.glob(f"{TOP}/crates/{crate}/{part}/**", recursive=True):
            if file.endswith((".rt", ".antt")):
                with open(file) as it:
                    text = it.read()
                kind = part if part != "src" else "tests" if "#[test]" in text else "code"
                sums[kind] += text.count("\n")
    return [*sums.values(), len(glob.glob(f"{TOP}/crates/{crate}/must-fail/*.edit"))]


def row(name, lines, seconds):
    minutes = f"{sum(seconds) / 60 / (lines[0] / 1000):.1f}" if lines[0] > 100 else ""
    print(f"| {name} | {' | '.join(f'{it:,}' for it in [*lines, *map(round, seconds)])} | {minutes} |")


def main():
    before = taken()
    told, passed = measure(sys.argv[1:])
    whole, lost = (now - then for now, then in zip(taken(), before))
    print("| Crate | Lines of code | of tests | of specs | of proofs | Edits | Seconds of proof | of tests | of edits | Minutes per 1,000 lines |")
    print("|" + "---|" * 10)
    rows = [(crate, lines_of(crate), list(told[crate].values())) for crate in told]
    for it in rows:
        row(*it)
    row("sum", [sum(it) for it in zip(*(it[1] for it in rows))], [sum(it) for it in zip(*(it[2] for it in rows))])
    print(f"\nOf the processors' time the machine's host took {100 * lost / whole:.1f} in 100 meanwhile.")
    return 0 if passed else 1


if __name__ == "__main__":
    sys.exit(main())
