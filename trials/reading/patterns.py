"""Matches of patterns, and what is made of them.

Matches are told by Python's `re`, on patterns where it agrees with Rust's `regex`. Once `ask` was given the program of `trials/outside`,
matches are told by the `regex` crate, on any pattern that it takes.
"""

import functools
import re
import subprocess


class Outside:
    """The program of `trials/outside`: a line for each question, its fields in hex."""

    def __init__(self, path):
        self.process = subprocess.Popen([path], stdin=subprocess.PIPE, stdout=subprocess.PIPE)

    def ask(self, *fields):
        told = " ".join("x" + one.encode().hex() if isinstance(one, str) and place else str(one) for place, one in enumerate(fields))
        self.process.stdin.write(told.encode() + b"\n")
        self.process.stdin.flush()
        return self.process.stdout.readline().decode().split()


OUTSIDE = None


def ask(path):
    global OUTSIDE
    OUTSIDE = Outside(path)
    matches.cache_clear()


@functools.lru_cache(maxsize=4096)
def compiled(source):
    """The pattern for Python: group names have a `P`, and `$` stands at the end alone."""
    return re.compile(re.sub(r"\\.|\[\^?\]?(?:\\.|[^\]])*\]|\(\?<(?![=!])|\$", lambda m: {"(?<": "(?P<", "$": r"\Z", r"\z": r"\Z"}.get(m[0], m[0]), source, flags=re.S))


@functools.lru_cache(maxsize=65536)
def matches(source, text):
    """The matches from the left, each with its groups from the whole on, as pairs of places in characters or None."""
    if OUTSIDE:
        return matches_outside(source, text)
    found, at, last = [], 0, None
    while at <= len(text):
        one = compiled(source).search(text, at)
        if not one:
            break
        if one.start() == one.end() == last:
            at = one.end() + 1
            one = compiled(source).search(text, at) if at <= len(text) else None
            if not one:
                break
        found.append(tuple(None if one.start(n) < 0 else one.span(n) for n in range(one.re.groups + 1)))
        at = last = one.end()
    return tuple(found)


def matches_outside(source, text):
    told = OUTSIDE.ask("matches", source, text)
    assert told[0] == "ok", (source, told)
    places, at = {}, 0
    for number, c in enumerate(text):
        places[at] = number
        at += len(c.encode())
    places[at] = len(text)
    found = []
    for one in told[1:]:
        if one == "|":
            found.append([])
        else:
            found[-1].append(None if one == "-" else tuple(places[int(place)] for place in one.split(":")))
    return tuple(tuple(one) for one in found)


def group_names(source):
    """One entry for each capturing group from the whole match on, None for a group without a name."""
    found, at, classes = [None], 0, 0
    while at < len(source):
        if source[at] == "\\":
            at += 1
        elif source[at] == "[":
            classes += 1
            at += source[at + 1:at + 2] == "^"
            at += source[at + 1:at + 2] == "]"
        elif source[at] == "]" and classes:
            classes -= 1
        elif source[at] == "(" and not classes:
            named = re.compile(r"\(\?P?<([^>=!][^>]*|)(?:>|$)").match(source, at)
            if source[at + 1:at + 2] != "?":
                found.append(None)
            elif named:
                found.append(named[1] or None)
                at = named.end() - 1
        at += 1
    return found


def group_of(name, names, groups, text):
    """The text that a template's group stands for."""
    plain = re.fullmatch(r"\+?([0-9]+)", name, re.A)
    number = int(plain[1].lstrip("0")[:30] or 0) if plain else names.index(name) if name in names else len(groups)
    return text[slice(*groups[number])] if number < len(groups) and groups[number] else ""


def expanded(template, names, groups, text):
    return re.sub(r"\$(?:(\$)|([0-9A-Za-z_]+)|\{([^}]*)\})", lambda m: "$" if m[1] else group_of(m[2] or m[3] or "", names, groups, text), template, flags=re.A)
