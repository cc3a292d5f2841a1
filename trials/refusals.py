"""Refuses a built program one thing after the other: an allocation, a read, a write, a thread.

    python3 trials/refusals.py --program PATH [--only WORD] [--jobs N ..]
    python3 trials/refusals.py --tests PATH .. [--only WORD] [--most N]

Each row is a script with its lines, and perhaps a kind file and words. It is run once as it is, and then once for each allocation that this run made, which is refused: the program must end with
the status of want of memory, and leave a front of the output and of the report that it left before, or give the whole answer all the same, as where a search by a regex
goes another way. In the same way each read fails, and each write: then the status is that of a fault of reading or of writing. Where a thread can't be started the
answer must be whole. All this is done with one worker and with four, where --jobs gives no other numbers. The status is 1 at a difference.

With --tests each test of a crate of tests, as `rt test` builds it, is run so, where it makes at most N allocations (5,000 where none is
given): it must go well, tell want of memory, or stop at an assertion. Which assertions these were is told; that a call with memory succeeds, and no other
answer, is what they ask.

The refusals are those of a small library, made with `cc` and put before the C library (`LD_PRELOAD`), which counts the calls of each of the
program's threads. So this runs where `cc` is found and where the program is linked to a C library that is shared.
"""

import argparse
import mmap
import os
import signal
import struct
import subprocess
import sys
import tempfile
from typing import NamedTuple, Optional

sys.dont_write_bytecode = True

EXAMPLES = os.path.join(os.path.dirname(os.path.abspath(__file__)), "..", "examples")
READ_FAULT, WRITE_FAULT, WANT_OF_MEMORY = 3, 4, 5

LIBRARY = r"""
#define _GNU_SOURCE
#include <dlfcn.h>
#include <errno.h>
#include <pthread.h>
#include <stdlib.h>
#include <sys/mman.h>
#include <sys/syscall.h>
#include <time.h>
#include <unistd.h>

extern void *__libc_malloc(size_t);
extern void *__libc_calloc(size_t, size_t);
extern void *__libc_realloc(void *, size_t);
extern void *__libc_memalign(size_t, size_t);

/* What the caller sees: whether a call was refused, how many threads there were, and of each its name and its calls. A thread's name tells which of
   its starter's threads it is, so it is the same in each run. */
struct counted { unsigned long name, calls; };
static struct { unsigned long refused, threads; struct counted counted[]; } *table;
static unsigned long most_threads;

/* The kind of the calls that are counted, and the thread and the number of the one that is refused. */
static char refused_kind;
static unsigned long refused_thread, refused_call;

/* The thread that runs, and how many it has started. */
static __thread struct counted *mine;
static __thread unsigned long started;

static int (*create)(pthread_t *, const pthread_attr_t *, void *(*)(void *), void *);

static void is_named(unsigned long name) {
    unsigned long place = __atomic_fetch_add(&table->threads, 1, __ATOMIC_SEQ_CST);
    if (place < most_threads) {
        mine = &table->counted[place];
        mine->name = name;
    }
}

__attribute__((constructor)) static void start(void) {
    const char *kind = getenv("REFUSED_KIND"), *thread = getenv("REFUSED_THREAD"), *call = getenv("REFUSED_CALL"), *where = getenv("REFUSED_TABLE"), *size = getenv("REFUSED_SIZE");
    create = dlsym(RTLD_NEXT, "pthread_create");
    if (!kind || !thread || !call || !where || !size) return;
    void *made = mmap(NULL, atol(size), PROT_READ | PROT_WRITE, MAP_SHARED, atoi(where), 0);
    if (made == MAP_FAILED) return;
    most_threads = (atol(size) - 2 * sizeof(unsigned long)) / sizeof(struct counted);
    refused_thread = strtoul(thread, NULL, 10);
    refused_call = strtoul(call, NULL, 10);
    table = made;
    is_named(1);
    refused_kind = kind[0];
}

static int is_refused(char kind, int fault) {
    if (kind != refused_kind || !mine || ++mine->calls != refused_call || mine->name != refused_thread) return 0;
    table->refused = 1;
    errno = fault;
    return 1;
}

void *malloc(size_t size) { return is_refused('a', ENOMEM) ? NULL : __libc_malloc(size); }
void *calloc(size_t count, size_t size) { return is_refused('a', ENOMEM) ? NULL : __libc_calloc(count, size); }
void *realloc(void *old, size_t size) { return is_refused('a', ENOMEM) ? NULL : __libc_realloc(old, size); }
void *memalign(size_t align, size_t size) { return is_refused('a', ENOMEM) ? NULL : __libc_memalign(align, size); }
void *aligned_alloc(size_t align, size_t size) { return is_refused('a', ENOMEM) ? NULL : __libc_memalign(align, size); }
int posix_memalign(void **to, size_t align, size_t size) {
    void *it = is_refused('a', ENOMEM) ? NULL : __libc_memalign(align, size);
    if (!it) return ENOMEM;
    *to = it;
    return 0;
}

ssize_t read(int from, void *to, size_t size) { return is_refused('r', EIO) ? -1 : syscall(SYS_read, from, to, size); }
ssize_t __read(int from, void *to, size_t size) { return read(from, to, size); }
ssize_t write(int to, const void *from, size_t size) { return is_refused('w', EIO) ? -1 : syscall(SYS_write, to, from, size); }
ssize_t __write(int to, const void *from, size_t size) { return write(to, from, size); }

/* The clock stands at 2024-05-06T10:00:00Z. */
int clock_gettime(clockid_t which, struct timespec *at) {
    if (!table || which != CLOCK_REALTIME) return syscall(SYS_clock_gettime, which, at);
    *at = (struct timespec){1714989600, 0};
    return 0;
}

/* A thread that is to begin: its name, and what it runs. */
struct begun { unsigned long name; void *(*run)(void *); void *given; };

static void *begin(void *it) {
    struct begun begun = *(struct begun *)it;
    free(it);
    is_named(begun.name);
    return begun.run(begun.given);
}

int pthread_create(pthread_t *to, const pthread_attr_t *how, void *(*run)(void *), void *given) {
    if (!table || !mine) return create(to, how, run, given);
    if (is_refused('t', EAGAIN)) return EAGAIN;
    struct begun *begun = __libc_malloc(sizeof *begun);
    if (!begun) return EAGAIN;
    *begun = (struct begun){mine->name * 1000003 + started + 1, run, given};
    int fault = create(to, how, begin, begun);
    if (fault) free(begun);
    else started++;
    return fault;
}
"""

# How many bytes the table of the threads has.
TABLE = 1 << 16


class Row(NamedTuple):
    """A script with its lines, and perhaps a kind file and words."""
    name: str
    script: bytes
    lines: bytes
    kind: Optional[bytes] = None
    words: tuple = ()


MESSAGE = b'{"host":"a","message":"{\\"level\\":\\"WARN\\",\\"n\\":3,\\"ts\\":\\"2024-05-06T07:08:09Z\\"}"}\n{"host":"b","message":"plain"}\n'
OVERLAID = (b'parsed, err = parse_json(.message)\n. = . | (object(parsed) ?? {})\ndel(.message)\n.level = downcase(.level) ?? "info"\n'
            b'.at = parse_timestamp(.ts, format: "%+") ?? now()\n')
UPCASE = b'.m = upcase(.m) ?? "none"'
UPCASE_KIND = b'{"object":{"m":"string"},"rest":"nothing"}'

# Rows beside the examples.
ROWS = [
    ("one write", b".x = 1", b'{"a":1}\n[2]\n\n{"c":"' + b"z" * 200 + b'"}\n'),
    ("a script that is refused", b".x = y\n.a + 1\nz", b"{}\n"),
    ("warnings and reports", b'x, e = to_int(.a)\n.n = x ?? 1\nif .b == true { abort "no" }\n.m = mod!(.c, 7)\n. = [{"n": .n}, .a]',
     b'{"a":"12","b":true}\n{"a":[1,{"k":"v"}],"c":5}\n{"c":"q"}\nno\n{"a":{}}\n'),
    ("patterns", b't = string(.t) ?? ""\n.m = match(t, r\'(a+)+$\')\n.a = match_any(t, [r\'x\', r\'[b-d]\'])\n.p, e = parse_regex(t, r\'(?P<k>[a-z])=(?P<v>[0-9])\')\n.e = e\n'
     b".l = parse_regex_all(t, r'(?P<c>[=0])')\n.s = split(t, r'[0-9]')\n.r = replace(t, r'([a-z])=', \"[$1]\")\n.f = find(t, \"b\")\n.c = replace(t, \"a\", \"\")\n",
     b'{"t":"a=1 b=20"}\n{"t":"aaa"}\n{"t":7}\n'),
    ("parsers", b'v, e = parse_json(.t)\n.v = v\n.e = e\n.w = encode_json(v)\n.k = parse_key_value(string(.t) ?? "") ?? {}\n.x = encode_key_value({"a": 1, "b": "x y"}) ?? ""\n'
     b'.c = parse_csv(string(.t) ?? "") ?? []\n.q = parse_query_string(string(.t) ?? "")\n.u, e = parse_url(string(.l) ?? "")\n',
     b'{"t":"{\\"a\\":[1,null]}","l":"http://u:p@h:81/p?q=1&q=2#f"}\n{"t":"a=1 b=\\"x y\\" c,d","l":"h"}\n{"t":"[1.5]"}\n'),
    ("moments and codes", b'm, e = parse_timestamp(string(.t) ?? "", "%Y-%m-%d %H:%M:%S %z")\n.m = m\n.e = e\n.f = format_timestamp(m, "%d.%m.%Y")\n.n = to_unix_timestamp(m)\n.o = from_unix_timestamp(1) ?? m\n'
     b'.b = decode_base64(encode_base64(string(.t) ?? "")) ?? ""\n.h = decode_base16(encode_base16(string(.t) ?? "")) ?? ""\n.p = decode_percent(encode_percent(string(.t) ?? ""))\n'
     b'.d = [md5(""), sha1(""), sha2("")]\n', b'{"t":"2024-01-02 03:04:05 +0100"}\n{"t":"a b"}\n'),
    ("texts, lists and objects", b'a = array(.a) ?? []\n.u = unique(a)\n.f = flatten(a)\n.c = compact(a)\n.z = zip(a, [1])\n.p = append(push(a, 1), a)\n.i = includes(a, 1)\n.t = tally(["a", "b", "a"])\n.j = join(["a", "b"], "-") ?? ""\n'
     b'o = object(.o) ?? {}\n.k = keys(o)\n.v = values(o)\n.m = merge(o, {"b": {"c": 1}}, deep: true)\n.n = unflatten({"x.y": o})\n.g = get(o, ["b"]) ?? 0\n.s = set(o, ["b", "d"], 1) ?? {}\n.r = remove(o, ["b"]) ?? {}\n'
     b'.x = object_from_array([["k", a]]) ?? {}\n.y = slice("abcd", 1, -1) ?? ""\n.w = [upcase("a"), truncate("abc", 2, ".."), strip_whitespace(" a "), replace("aaa", "a", "b")]\n.q = chunks("abcde", 2) ?? []\n',
     b'{"a":[1,[2,null],1],"o":{"a":"t","b":{"e":2}}}\n{}\n'),
    ("many lines", b".k = {}\n.k.l = [.a, .a]\ndel(.a)", b'{"a":{"b":[1,2,"three"]},"m":"text"}\n' * 60),
    ("a warning and a default", UPCASE, b'{"m":3}\n'),
    ("a kind file", UPCASE, b'{"m":"a"}\n{"m":3}\n', UPCASE_KIND),
    ("a kind file, many lines", UPCASE, b'{"m":"a"}\n{"m":3}\n' * 8, UPCASE_KIND),
    ("a kind file that is refused", UPCASE, b"", b'{"object":{"m":"text"}}'),
    ("messages laid over their events", OVERLAID, MESSAGE),
    ("many messages", OVERLAID, MESSAGE * 8),
    ("metadata without envelopes", b'%n = 1\n.m = %\n%k = {"e": .}\nx = %\ndel(%n)\nfor_each(%) -> |k, v| { %l = [k, v] }\n.x = x\ndel(%)', b'{"a":1}\n{"b":{"c":[2]}}\n'),
    ("envelopes", b'.m = %\n%k = {"e": .}\nif exists(%stop) { return . }\n. = [., %s, {"l": %k}]\n%n = length(%)',
     b'{"event":{"a":1},"metadata":{"s":"text"}}\n{"metadata":{"stop":[{}]},"event":{"b":{}}}\n{"event":{}}\n{"event":[],"metadata":{}}\n', None, ("--envelope",)),
    ("envelopes that are written as they were read", b'%n = [.]\n.b = %\nif .a == 1 { abort "no" }\nint!(.a)', b'{"event":{"a":1},"metadata":{"s":"text"}}\n{"event":{"a":"q"},"metadata":{"k":{"l":[]}}}\n', None,
     ("--envelope", "--keep-on-abort")),
    ("a made line", b".x = 1", b"", None, ("--generate", "1:1")),
    ("made lines", b".x = 1", b"", None, ("--generate", "32:1")),
    ("the kinds of a script", OVERLAID, b"", None, ("--check",)),
    ("the kinds of a script, the metadata's too", b'%n = 1\nx = {"m": %}\n. = [%]\ndel(%n)', b"", None, ("--check", "--envelope")),
    ("words that are refused", b"", b"", None, ("--generate", "0:1")),
]

# How a run ends where a call of a kind is refused; None: as it ends else.
KINDS = {"allocation": WANT_OF_MEMORY, "read": READ_FAULT, "write": WRITE_FAULT, "thread": None}

# What a test says that ends for want of memory, by the error that it hands on.
WANT = ("Memory", "AllocError", "AllocFailed", "OutOfMemory")


def rows():
    """The examples, and the rows beside them."""
    for name in sorted(it[:-4] for it in os.listdir(EXAMPLES) if it.endswith(".vrl")):
        parts = []
        for ending in ("vrl", "jsonl", "kind", "words"):
            place = os.path.join(EXAMPLES, f"{name}.{ending}")
            parts.append(None)
            if os.path.exists(place):
                with open(place, "rb") as file:
                    parts[-1] = file.read()
        words = tuple((parts.pop() or b"").decode().split("\n")[:-1])
        yield Row(f"the example {name}", *parts, words)
    for row in ROWS:
        yield Row(*row)


class Refuser:
    """A program over a library that refuses a thread of it the call of a kind and a number."""

    def __init__(self, program, folder):
        self.program, self.folder = os.path.abspath(program), folder
        self.places = {name: os.path.join(folder, name) for name in ("script.vrl", "kind.json", "in", "out", "report")}
        self.library = os.path.join(folder, "refuser.so")
        with open(self.library + ".c", "w") as file:
            file.write(LIBRARY)
        subprocess.run(["cc", "-O1", "-shared", "-fPIC", "-ftls-model=initial-exec", "-o", self.library, self.library + ".c", "-ldl"], check=True)
        self.shared = os.memfd_create("refused")
        os.ftruncate(self.shared, TABLE)
        self.table = mmap.mmap(self.shared, TABLE)

    def run(self, words, kind="none", thread=0, call=0):
        """What a run with these words writes and reports, its status, and whether the call was refused."""
        self.table[:] = bytes(TABLE)
        given = {**os.environ, "LD_PRELOAD": self.library, "REFUSED_KIND": kind, "REFUSED_THREAD": str(thread), "REFUSED_CALL": str(call),
                 "REFUSED_TABLE": str(self.shared), "REFUSED_SIZE": str(TABLE)}
        with open(self.places["in"], "rb") as source, open(self.places["out"], "wb") as output, open(self.places["report"], "wb") as report:
            status = subprocess.run([self.program, *words], cwd=self.folder, env=given, pass_fds=[self.shared], stdin=source, stdout=output, stderr=report, timeout=60).returncode
        return *(self.read(name) for name in ("out", "report")), status, bool(struct.unpack_from("L", self.table)[0])

    def read(self, name):
        with open(self.places[name], "rb") as file:
            return file.read()

    def write(self, name, data):
        with open(self.places[name], "wb") as file:
            file.write(data)

    def calls(self, words, kind):
        """The calls of a kind that a run with these words makes, each as its thread and its number there, from 1."""
        self.run(words, kind)
        _, threads = struct.unpack_from("2L", self.table)
        counted = [struct.unpack_from("2L", self.table, 16 + 16 * place) for place in range(threads)]
        return [(name, call) for name, count in counted for call in range(1, count + 1)]


def try_row(refuser, row, jobs, met):
    """Runs a row with each call refused in turn, and gives the number of differences."""
    refuser.write("script.vrl", row.script)
    refuser.write("in", row.lines)
    words = ["script.vrl", "--jobs", str(jobs), *row.words]
    if row.kind is not None:
        refuser.write("kind.json", row.kind)
        words += ["--kind", "kind.json"]
    whole = refuser.run(words)[:3]
    failed, counts = 0, []
    for kind, wanted in KINDS.items():
        calls = refuser.calls(words, kind)
        counts.append(f"{len(calls)} {kind}s of {len({thread for thread, _ in calls})} threads")
        for thread, call in calls:
            *told, refused = refuser.run(words, kind, thread, call)
            end = (kind, told[2]) if refused else (kind, "not refused")
            met[end] = met.get(end, 0) + 1
            is_front = all(one.startswith(other) for one, other in zip(whole, told[:2]))
            is_whole = tuple(told) == whole
            right = is_whole if not refused or wanted is None else told[2] == wanted and is_front or kind == "allocation" and is_whole
            if not right:
                failed += 1
                print(f"{row.name}, {jobs} workers: {kind} {call} of thread {thread} {'' if refused else 'not '}refused: status {told[2]}\n  wrote    {told[0]!r:.200}\n  reported {told[1]!r:.200}")
    print(f"{row.name}, {jobs} workers: {', '.join(counts)}", flush=True)
    return failed


def try_rows(refuser, only, numbers):
    """Runs the rows, and gives the number of differences."""
    met = {}
    failed = sum(try_row(refuser, row, jobs, met) for row in rows() if only in row.name for jobs in numbers)
    for (kind, ended), count in sorted(met.items(), key=str):
        print(f"{count} of kind {kind} refused ended with status {ended}" if ended != "not refused" else f"{count} of kind {kind} did not come again")
    return failed


def try_tests(refuser, only, most):
    """Runs the tests with each allocation refused in turn, and gives the number of those that ended in no way that is wanted."""
    listed = subprocess.run([refuser.program, "--list"], capture_output=True, text=True).stdout
    failed, sums = 0, {}
    refuser.write("in", b"")
    for name in (line[: -len(": test")] for line in listed.splitlines() if line.endswith(": test")):
        calls = refuser.calls([name], "allocation") if only in name else []
        if len(calls) > most:
            print(f"{name}: {len(calls)} allocations, not tried")
            continue
        stopped = set()
        for thread, call in calls:
            output, report, status, _ = refuser.run([name], "allocation", thread, call)
            lines = (report or output).decode(errors="replace").splitlines() or [""]
            end = "went well" if status == 0 else "told" if any(word in lines[0] for word in WANT) else "stopped" if status == -signal.SIGABRT else "else"
            sums[end] = sums.get(end, 0) + 1
            if end == "stopped":
                stopped.add(lines[-1])
            if end == "else":
                failed += 1
                print(f"{name}: allocation {call} of thread {thread} refused: status {status}, {lines}")
        if only in name:
            print(f"{name}: {len(calls)} allocations", *sorted(stopped), sep="\n  ")
    print(*(f"{count} {end}" for end, count in sorted(sums.items())), sep=", ")
    return failed


def main():
    words = argparse.ArgumentParser(description=__doc__, formatter_class=argparse.RawDescriptionHelpFormatter)
    words.add_argument("--program")
    words.add_argument("--tests", nargs="+", default=[])
    words.add_argument("--only", default="")
    words.add_argument("--jobs", type=int, nargs="+", default=[1, 4])
    words.add_argument("--most", type=int, default=5000)
    words = words.parse_args()
    failed = 0
    with tempfile.TemporaryDirectory(dir="/dev/shm" if os.path.isdir("/dev/shm") else None) as folder:
        if words.program:
            failed += try_rows(Refuser(words.program, folder), words.only, words.jobs)
        for program in words.tests:
            failed += try_tests(Refuser(program, folder), words.only, words.most)
    print(f"{failed} differences")
    return 1 if failed else 0


if __name__ == "__main__":
    sys.exit(main())
