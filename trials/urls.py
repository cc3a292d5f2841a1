"""Random trial of the outside reading of URLs, against another reader.

    python3 trials/urls.py [--seed N] [--count N] [--node PATH] [--outside PATH] [--show N]

Texts at random are read here and by another reader: by node's `URL`, or by the program of `trials/outside`. Texts on which
the readers are known to follow other editions of the Standard are counted and passed over: `^` in a path, spaces before `?`
or `#` in an opaque path, labels that begin with `xn--`. Those whose domain the outside reading doesn't tell are counted, too.
"""

import argparse
import json
import random
import re
import subprocess
import sys

sys.dont_write_bytecode = True

from reading.urls import NotUrl, Unknown, pairs, parse
from some_urls import Maker


def here(text):
    try:
        one = parse(text)
    except NotUrl:
        return None
    return one[:6] + (pairs(one.query or ""), one.fragment)


# ---- other readers

NODE = """
const lines = require('readline').createInterface({input: process.stdin});
lines.on('line', line => {
  let told = null;
  try {
    const u = new URL(JSON.parse(line));
    told = [u.protocol.slice(0, -1), u.username, u.password, u.hostname || null, u.port === '' ? null : Number(u.port), u.pathname,
            [...u.searchParams], u.href.includes('#') ? u.hash.slice(1) : null];
  } catch (error) {}
  console.log(JSON.stringify(told));
});
"""


def told_by_node(path, texts):
    told = subprocess.run([path, "-e", NODE], input="".join(json.dumps(one) + "\n" for one in texts).encode(), stdout=subprocess.PIPE, check=True).stdout
    for line in told.decode().splitlines():
        one = json.loads(line)
        yield one and tuple(one[:6]) + ([tuple(pair) for pair in one[6]], one[7])


def told_by_outside(path, texts):
    asked = "".join(f"url x{one.encode().hex()}\n" for one in texts)
    told = subprocess.run([path], input=asked.encode(), stdout=subprocess.PIPE, check=True).stdout
    unhex = lambda word: None if word == "-" else bytes.fromhex(word[1:]).decode()
    for line in told.decode().splitlines():
        word, *fields = line.split(" ")
        if word == "bad":
            yield None
            continue
        parts = [unhex(one) for one in fields[:4]] + [None if fields[4] == "-" else int(fields[4]), unhex(fields[5])]
        every = [unhex(one) for one in fields[7:]]
        yield tuple(parts) + (list(zip(every[::2], every[1::2])), unhex(fields[6]))


def of_other_edition(text, node):
    """Whether another reader may follow another edition of the Standard, or isn't asked for the Standard at all."""
    spared = "^" in text or re.search(r" [\t\n\r]*[?#]", text) or "xn--" in text.lower()
    if node:
        # Node 20 leaves no slash of a path whose last step is above its root, and keeps a file's first step that begins like a drive.
        return spared or (".." in text.lower().replace("%2e", ".") and re.match("[\\s\\x00]*(?!http|ws|ftp)", text, re.I))
    # The crate has its own ways with files, drives, backslashes that begin a path and an empty host behind `@`.
    return (spared or re.match("[\\s\\x00-\\x1f]*f\\s*i\\s*l\\s*e", text, re.I) or "\\" in text or "///" in text or re.search("@[^a-z0-9]", text)
            or re.search(r"/[a-z][:|]([/?#]|$)", text, re.I))


ROWS = [
    ("http://h:81/p?q=1#f", ("http", "", "", "h", 81, "/p", [("q", "1")], "f")), ("http://h:80", ("http", "", "", "h", None, "/", [], None)),
    ("https://u:p@H/a/../b", ("https", "u", "p", "h", None, "/b", [], None)), ("http://[0:0::1]/", ("http", "", "", "[::1]", None, "/", [], None)),
    ("mailto:a@b.c", ("mailto", "", "", None, None, "a@b.c", [], None)), ("foo://h/a b", ("foo", "", "", "h", None, "/a%20b", [], None)),
    ("file:///c|/x", ("file", "", "", None, None, "/c:/x", [], None)), ("http://é.com", ("http", "", "", "xn--9ca.com", None, "/", [], None)),
    ("http://0x7f.1/%2e", ("http", "", "", "127.0.0.1", None, "/", [], None)), ("h", None), ("http://", None), ("http://h:65536", None), ("http://a b", None), ("foo://", ("foo", "", "", None, None, "", [], None)),
    ("http://1.2.3.4.5", None), ("http://[::1", None), ("foo:a ?b", ("foo", "", "", None, None, "a%20", [("b", "")], None)), ("http://h/^", ("http", "", "", "h", None, "/%5E", [], None)),
]


def self_check():
    for text, want in ROWS:
        assert here(text) == want, (text, here(text), want)
    return len(ROWS)


def main():
    words = argparse.ArgumentParser(description="URLs at random against another reader")
    words.add_argument("--seed", type=int, default=1)
    words.add_argument("--count", type=int, default=20000)
    words.add_argument("--node")
    words.add_argument("--outside")
    words.add_argument("--show", type=int, default=10)
    given = words.parse_args()
    rows = self_check()
    maker = Maker(random.Random(given.seed))
    texts = [maker.text() for _ in range(given.count)]
    told = told_by_node(given.node, texts) if given.node else told_by_outside(given.outside, texts) if given.outside else iter(())
    differences, unknown, spared, compared, read = 0, 0, 0, 0, 0
    for text in texts:
        other = next(told, None) if given.node or given.outside else None
        try:
            wanted = here(text)
        except Unknown:
            unknown += 1
            continue
        read += wanted is not None
        if not (given.node or given.outside):
            continue
        if of_other_edition(text, given.node):
            spared += 1
            continue
        compared += 1
        if wanted != other:
            differences += 1
            if differences <= given.show:
                print("difference on", repr(text), "\n  here", wanted, "\n  there", other)
    print(f"urls: seed {given.seed}, {rows} rows, {len(texts)} texts, {read} of them URLs, {unknown} not told, {spared} passed over, {compared} compared, {differences} differences")
    return 1 if differences else 0


if __name__ == "__main__":
    sys.exit(main())
