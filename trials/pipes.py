"""Live pipes: how long a line's event is waited for, ends that are killed, odd devices, signals, and inputs of gigabytes.

    python3 trials/pipes.py --program PATH [--seed N] [--count N] [--rate N] [--seconds N] [--gigabytes N]

First lines come over a pipe at so many a second for some seconds, with one worker and with eight: of each event the time is taken from when its line was given to when
it was read. A batch waits for its 256th line, so an event may wait as long as 256 lines take to come, and for its batch to be mapped; one that waits for more than
half a second beyond that is a difference. Then --count runs with eight workers over random lines: the writer is gone at a random byte, whose event must be that of the
bytes it gave; the reader is gone after some bytes, and the status is 4, or the answer where all of it was in the pipe; the program is killed or stopped by a signal, and what it wrote is
a front of the answer. Then ends that are no plain pipes (a socket that breaks, pipes that don't wait, terminals), a reader that is slow, each signal, signals that are ignored, stops and continuations, and a limit of
processor time: each with its own answer. With --gigabytes so much goes through a pipe with one worker and with eight, and what is told of it is the number of its events, their bytes and the most memory
that the program had.
"""

import argparse
import contextlib
import fcntl
import os
import pty
import random
import resource
import signal
import socket
import struct
import subprocess
import sys
import termios
import threading
import time
import tty

sys.dont_write_bytecode = True

import programs

BATCH = 256
SCRIPT = b'.x = (int(.n) ?? 0) + 1\nif .x == 13 { abort "unlucky" }\n'
LINE = b'{"host":"h6","level":"ERROR","message":"request 1 took 543 ms","n":774}\n'
MEMORY = 32 << 20


def start(program, jobs, script=SCRIPT):
    """The program over pipes, with so many workers."""
    path = program.write("script.vrl", script)
    return subprocess.Popen([program.path, path, "--jobs", str(jobs)], stdin=subprocess.PIPE, stdout=subprocess.PIPE, stderr=subprocess.PIPE)


def given(pipe, data):
    """Gives all of the data, or what is taken of it."""
    with contextlib.suppress(BrokenPipeError):
        at = 0
        while at < len(data):
            at += os.write(pipe.fileno(), data[at:at + 65536])


def closed(pipe):
    with contextlib.suppress(BrokenPipeError):
        pipe.close()


def waits(program, jobs, rate, seconds):
    """For each event the seconds from its line to it, where lines come at a rate."""
    started = start(program, jobs, b".x = 1\n")
    lines = int(rate * seconds)
    came, seen = [0.0] * lines, [0.0] * lines

    def give():
        begun, made = time.perf_counter(), 0
        while made < lines:
            due = min(lines, int((time.perf_counter() - begun) * rate) + 1)
            now = time.perf_counter()
            for number in range(made, due):
                came[number] = now
            given(started.stdin, b"".join(b'{"n":%d}\n' % number for number in range(made, due)))
            made = due
            time.sleep(0.0005)
        closed(started.stdin)

    def take():
        number, rest = 0, b""
        while True:
            taken = os.read(started.stdout.fileno(), 1 << 20)
            now = time.perf_counter()
            if not taken:
                return
            rest += taken
            whole = rest.count(b"\n")
            rest = rest[rest.rindex(b"\n") + 1:] if whole else rest
            for at in range(number, number + whole):
                seen[at] = now
            number += whole

    threads = [threading.Thread(target=give), threading.Thread(target=take)]
    for thread in threads:
        thread.start()
    for thread in threads:
        thread.join()
    started.wait()
    return [there - here for here, there in zip(came, seen)]


def random_lines(rng):
    lines = []
    for _ in range(rng.choice([3, 255, 257, 600, 3000])):
        lines.append(rng.choice([b'{"n":%d}' % rng.randrange(20), b'{"n":"%d"}' % rng.randrange(99), b"{", b"", b'{"n":1.5}', b"{}"]))
    return b"\n".join(lines) + rng.choice([b"", b"\n"])


def run_killed(program, rng, tell):
    """One run of which an end is gone early."""
    data = random_lines(rng)
    how = rng.choice(["writer", "reader", "program", "stopped"])
    cut = rng.randrange(len(data) + 1) if how == "writer" else len(data)
    output, report, status = program.run(SCRIPT, data[:cut], ("--jobs", "1"))
    started = start(program, 8)
    most = rng.randrange(len(output) + 1) if how == "reader" else None
    told = {}

    def take(name, pipe, most=None):
        told[name] = pipe.read() if most is None else pipe.read(most)
        pipe.close()

    # (a program that is killed gets no end of its input before)
    threads = [threading.Thread(target=take, args=("output", started.stdout, most)), threading.Thread(target=take, args=("report", started.stderr))]
    for thread in threads:
        thread.start()
    if how in ("program", "stopped"):
        given(started.stdin, data[:rng.randrange(len(data) + 1)])
        time.sleep(rng.choice([0, 0.001, 0.01]))
        started.send_signal(signal.SIGKILL if how == "program" else signal.SIGTERM)
    else:
        given(started.stdin, data[:cut])
    closed(started.stdin)
    for thread in threads:
        thread.join()
    ended = started.wait()
    fronts = output.startswith(told["output"]) and report.startswith(told["report"])
    if how == "writer":
        right = (told["output"], told["report"], ended) == (output, report, status)
    elif how == "reader":
        right = fronts and len(told["output"]) == most and ended in (4, status) and (ended == 4 or told["report"] == report)
    else:
        right = fronts and ended in (-signal.SIGKILL, -signal.SIGTERM, status)
    tell(f"{how} gone, {len(data)} bytes, {most}", right, (ended, status, len(told["output"]), len(output)))


# Lines of several batches, and what comes of them.
FEW = b"".join(b'{"n":%d}\n' % number for number in range(700))
EVENTS = b"".join(b'{"n":%d,"x":%d}\n' % (number, number + 1) for number in range(700) if number != 12)
ABORTED = b'line 13: aborted: "unlucky"\n'


def events(batches):
    """The events of so many batches of those lines."""
    return b"".join(EVENTS.splitlines(True)[:BATCH * batches - 1])


def run_over(program, stdin=subprocess.PIPE, stdout=subprocess.PIPE, act=None, read=None, before=None, jobs=1):
    """What the program writes and reports over those lines, and its status. What is given as an end stands for a pipe; `act` is done to the program when half of the lines were given, `read` takes its output,
    and `before` is done in its process before it starts."""
    path = program.write("script.vrl", SCRIPT)
    started = subprocess.Popen([program.path, path, "--jobs", str(jobs)], stdin=stdin, stdout=stdout, stderr=subprocess.PIPE, preexec_fn=before)
    told = {"output": b""}

    def take(name, pipe, read):
        told[name] = read(pipe)
        pipe.close()

    threads = [threading.Thread(target=take, args=("report", started.stderr, lambda pipe: pipe.read()))]
    if started.stdout:
        threads.append(threading.Thread(target=take, args=("output", started.stdout, read or (lambda pipe: pipe.read()))))
    for thread in threads:
        thread.start()
    if started.stdin:
        given(started.stdin, FEW[:len(FEW) // 2])
        if act:
            time.sleep(0.05)
            act(started)
        given(started.stdin, FEW[len(FEW) // 2:])
        closed(started.stdin)
    elif act:
        act(started)
    for thread in threads:
        thread.join()
    return told["output"], told["report"], started.wait()


def socket_that_breaks():
    """An end of a connection over which the lines come, and what breaks it once they were read."""
    with socket.create_server(("127.0.0.1", 0)) as server:
        ours = socket.create_connection(server.getsockname())
        theirs, _ = server.accept()

    def breaks(_):
        ours.sendall(FEW)
        time.sleep(0.3)
        ours.setsockopt(socket.SOL_SOCKET, socket.SO_LINGER, struct.pack("ii", 1, 0))
        ours.close()
    return theirs, breaks


def unwaiting(end):
    """A pipe's end that doesn't wait."""
    fcntl.fcntl(end, fcntl.F_SETFL, fcntl.fcntl(end, fcntl.F_GETFL) | os.O_NONBLOCK)
    return end


def terminal():
    """The two ends of a terminal that changes no byte but for the sign of the end."""
    ours, theirs = pty.openpty()
    tty.setraw(theirs)
    how = termios.tcgetattr(theirs)
    how[3] |= termios.ICANON
    termios.tcsetattr(theirs, termios.TCSANOW, how)
    return ours, theirs


def read_slowly(pipe):
    taken = b""
    for _ in range(300):
        taken += os.read(pipe.fileno(), 1)
        time.sleep(0.001)
    return taken + pipe.read()


def without_core():
    resource.setrlimit(resource.RLIMIT_CORE, (0, 0))


def ignoring(*signals):
    """What has a process ignore these signals."""
    def before():
        without_core()
        for one in signals:
            signal.signal(one, signal.SIG_IGN)
    return before


def storm(*signals, times=300):
    """What sends these signals again and again."""
    def act(started):
        for _ in range(times):
            for one in signals:
                started.send_signal(one)
            time.sleep(0.0005)
    return act


def odd_ends(program, tell):
    """Ends that are no plain pipes, and signals."""
    whole = EVENTS, ABORTED, 0
    front = events(2), ABORTED, 3

    def same(title, told, wanted):
        tell(title, told == wanted, [told[2], wanted[2], len(told[0]), len(wanted[0]), told[1][:80]])

    theirs, breaks = socket_that_breaks()
    same("a connection that breaks", run_over(program, stdin=theirs, act=breaks), front)
    theirs.close()
    ours, theirs = socket.socketpair()
    same("a connection as both ends", run_over(program, stdin=theirs, stdout=theirs, act=lambda started: (theirs.close(), ours.sendall(FEW), ours.shutdown(socket.SHUT_WR))), (b"", ABORTED, 0))
    tell("a connection as both ends, what comes back", ours.makefile("rb").read() == EVENTS, None)
    ours.close()
    here, there = os.pipe()
    same("an input that doesn't wait, with nothing in it", run_over(program, stdin=unwaiting(here)), (b"", b"", 3))
    os.write(there, FEW)
    same("an input that doesn't wait, with all lines in it", run_over(program, stdin=here), front)
    os.write(there, FEW)
    os.close(there)
    same("an input that doesn't wait, with all lines in it and at its end", run_over(program, stdin=here), whole)
    os.close(here)
    here, there = os.pipe()
    fcntl.fcntl(there, fcntl.F_SETPIPE_SZ, 4096)
    told = run_over(program, stdout=unwaiting(there))
    os.close(there)
    with os.fdopen(here, "rb") as pipe:
        left = pipe.read()
    tell("an output that doesn't wait, and isn't read", told[2] == 4 and EVENTS.startswith(left) and len(left) > 0, [told[2], len(left)])
    ours, theirs = terminal()
    same("a terminal", run_over(program, stdin=theirs, act=lambda _: [os.write(ours, line) for line in [*FEW.splitlines(True), b"\4"]]), whole)
    same("a terminal that is gone", run_over(program, stdin=theirs, act=lambda _: (os.write(ours, b"{}\n"), time.sleep(0.2), os.close(ours))), (b"", b"", 3))
    os.close(theirs)
    ours, theirs = terminal()
    os.close(ours)
    told = run_over(program, stdout=theirs)
    os.close(theirs)
    tell("a terminal that is gone, as output", told[2] == 4, told)
    same("a slow reader", run_over(program, read=read_slowly, jobs=8), whole)
    for jobs in (1, 8):
        same(f"stopped and continued, {jobs} workers", run_over(program, act=storm(signal.SIGSTOP, signal.SIGCONT), jobs=jobs), whole)
        same(f"signals that do nothing, {jobs} workers", run_over(program, act=storm(signal.SIGCHLD, signal.SIGURG, signal.SIGWINCH, signal.SIGCONT), jobs=jobs), whole)
    every = sorted(signal.valid_signals() - {signal.SIGKILL, signal.SIGSTOP, signal.SIGCHLD, signal.SIGURG, signal.SIGWINCH, signal.SIGCONT, signal.SIGTSTP, signal.SIGTTIN, signal.SIGTTOU})
    for one in every:
        output, report, status = run_over(program, act=lambda started: started.send_signal(one), before=without_core)
        tell(f"the signal {one}", EVENTS.startswith(output) and ABORTED.startswith(report) and status == -one or one == signal.SIGPIPE and (output, report, status) == whole, [status, len(output)])
        same(f"the signal {one}, ignored", run_over(program, act=storm(one, times=3), before=ignoring(one)), whole)


def run_out_of_time(program, tell):
    """Lines without an end, and a second of processor time."""
    started = start(program, 1, b".x = 1\n")
    resource.prlimit(started.pid, resource.RLIMIT_CPU, (1, 2))
    event = LINE[:-2] + b',"x":1}\n'
    block, expected = LINE * 4096, event * (2 + (1 << 20) // len(event))

    def give():
        with contextlib.suppress(BrokenPipeError):
            while True:
                os.write(started.stdin.fileno(), block)

    thread = threading.Thread(target=give)
    thread.start()
    taken, right = 0, True
    while read := os.read(started.stdout.fileno(), 1 << 20):
        at = taken % len(event)
        right = right and expected[at:at + len(read)] == read
        taken += len(read)
    status = started.wait()
    thread.join()
    closed(started.stdin)
    tell("a limit of processor time", right and status == -signal.SIGXCPU and taken > 0, [status, taken])


def most_memory(pid):
    """The most memory that a process had so far; what the system tells at its end has that of this program in it."""
    with open(f"/proc/{pid}/status") as file:
        return next((int(line.split()[1]) << 10 for line in file if line.startswith("VmHWM")), 0)


def run_long(program, gigabytes, jobs, tell):
    """So many gigabytes of one line through the program."""
    lines = (gigabytes * 1_000_000_000) // len(LINE)
    started = start(program, jobs, b".x = 1\n")
    block = LINE * 4096

    def give():
        left = lines
        while left > 0:
            given(started.stdin, block if left >= 4096 else LINE * left)
            left -= 4096
        closed(started.stdin)

    thread = threading.Thread(target=give)
    begun = time.perf_counter()
    thread.start()
    events = taken = reads = kept = 0
    while True:
        read = os.read(started.stdout.fileno(), 1 << 20)
        if not read:
            break
        events += read.count(b"\n")
        taken += len(read)
        if reads % 256 == 0:
            kept = max(kept, most_memory(started.pid))
        reads += 1
    thread.join()
    status = started.wait()
    right = status == 0 and events == lines and taken == lines * (len(LINE) + 6) and kept <= MEMORY * (1 if jobs == 1 else 2)
    tell(f"{gigabytes} GB with {jobs} workers: {events} events, {taken} bytes, {kept >> 20} MB of memory, {time.perf_counter() - begun:.0f} s", right, status)


def main():
    words = argparse.ArgumentParser()
    words.add_argument("--program", required=True)
    words.add_argument("--seed", type=int, default=1)
    words.add_argument("--count", type=int, default=400)
    words.add_argument("--rate", type=int, default=10000)
    words.add_argument("--seconds", type=float, default=5)
    words.add_argument("--gigabytes", type=int, default=0)
    told = words.parse_args()
    rng = random.Random(told.seed)
    tried = others = 0

    def tell(title, right, what):
        nonlocal tried, others
        tried += 1
        if not right:
            others += 1
            print(f"DIFFERENCE {title}: {what}", flush=True)

    with programs.Program(told.program) as program:
        for jobs in (1, 8):
            taken = sorted(waits(program, jobs, told.rate, told.seconds))
            tell("waits", taken[0] > 0 and taken[-1] < BATCH / told.rate + 0.5, taken[-1])
            print(f"{told.rate} lines a second, {jobs} workers: an event waits {taken[len(taken) // 2] * 1000:.1f} ms (median), "
                  f"{taken[len(taken) * 99 // 100] * 1000:.1f} (99 of 100), {taken[-1] * 1000:.1f} (most)", flush=True)
        for _ in range(told.count):
            run_killed(program, rng, tell)
        odd_ends(program, tell)
        run_out_of_time(program, tell)
        if told.gigabytes:
            for jobs in (1, 8):
                run_long(program, told.gigabytes, jobs, lambda title, right, what: (print(title, flush=True), tell(title, right, what)))
    print(f"pipes: {tried} runs, {others} others, seed {told.seed}")
    return 1 if others else 0


if __name__ == "__main__":
    sys.exit(main())
