"""The program under trial, for the other trials: one process for each script, over files. This file runs nothing by itself."""

import contextlib
import json
import os
import resource
import tempfile

# The processor seconds that a hostile use may take, where no reason is given for more.
SECONDS = 2
# What is set for a hostile use, that it ends in any case: processor seconds, and bytes of memory.
LIMITS = ((resource.RLIMIT_CPU, 120), (resource.RLIMIT_AS, 4 << 30))


class Program:
    """A program, as a context with a folder of its own, in memory where there is such a folder. `always` has words of every run."""

    def __init__(self, path, always=()):
        self.path = os.path.abspath(path)
        self.always = always
        # The processor seconds of the last run.
        self.seconds = 0.0

    def __enter__(self):
        self.folder = tempfile.TemporaryDirectory(dir="/dev/shm" if os.path.isdir("/dev/shm") else None)
        self.files = {name: os.path.join(self.folder.name, name) for name in ("script.vrl", "in", "out", "report")}
        return self

    def __exit__(self, *_):
        self.folder.cleanup()

    def write(self, name, data):
        """Writes a file of the folder, and gives its path."""
        path = os.path.join(self.folder.name, name)
        with open(path, "wb") as file:
            file.write(data)
        return path

    def words_of(self, file, drop=False, keep=False, envelope=False):
        """The words for a kind file of this value, none for None, and for the three flags."""
        more = ["--kind", self.write("kind.json", json.dumps(file).encode())] if file is not None else []
        return more + [word for word, on in (("--drop-on-error", drop), ("--keep-on-abort", keep), ("--envelope", envelope)) if on]

    def run(self, script, data=b"", words=(), limits=()):
        """The bytes of output and report, and the status, of `PATH SCRIPTFILE ALWAYS WORDS < DATA` within these limits; for a signal its negative number."""
        self.write("script.vrl", script)
        self.write("in", data)
        made = os.O_WRONLY | os.O_CREAT | os.O_TRUNC
        actions = [(os.POSIX_SPAWN_OPEN, 0, self.files["in"], os.O_RDONLY, 0)]
        actions += [(os.POSIX_SPAWN_OPEN, number, self.files[name], made, 0o600) for number, name in ((1, "out"), (2, "report"))]
        started = os.posix_spawn(self.path, [self.path, self.files["script.vrl"], *self.always, *words], os.environ, file_actions=actions)
        for which, most in limits:
            with contextlib.suppress(ProcessLookupError):
                resource.prlimit(started, which, (most, most))
        _, status, used = os.wait4(started, 0)
        self.seconds = used.ru_utime + used.ru_stime
        told = []
        for name in ("out", "report"):
            with open(self.files[name], "rb") as file:
                told.append(file.read())
        return told[0], told[1], os.waitstatus_to_exitcode(status)


def short(data):
    return repr(data) if len(data) <= 120 else f"{len(data)} bytes, from {data[:50]!r} to {data[-40:]!r}"


class Uses:
    """Counts uses of a program, and tells those that end otherwise than is wanted, or take longer than they may. `dear` has the titles of those that may take longer,
    each with its processor seconds and the reason."""

    def __init__(self, dear=()):
        self.dear = dict(dear)
        self.tried = self.differences = 0

    def tell(self, title, seconds, told, wanted):
        """A use, with what it told and what is wanted: output, report and status, None where any will do, and of statuses also several."""
        self.tried += 1
        most, why = self.dear.get(title, (SECONDS, ""))
        same = all(want is None or one == want or isinstance(want, tuple) and one in want for one, want in zip(told, wanted))
        self.differences += not same or seconds > most
        if not same or seconds > SECONDS / 2 or None in wanted:
            word = "DIFFERENCE" if not same else "TOO LONG" if seconds > most else "as wanted"
            print(f"{word}: {title}: status {told[2]}, {seconds:.2f} s, output {short(told[0])}, report {short(told[1])}{', ' + why if why else ''}", flush=True)
        if not same:
            print("    wanted", *("any" if want is None else short(want) if isinstance(want, bytes) else want for want in wanted), flush=True)


def joined(lines):
    """Texts as the bytes of lines."""
    return "".join(line + "\n" for line in lines).encode()
