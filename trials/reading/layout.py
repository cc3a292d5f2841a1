"""The layout of a script's text: its pieces, and what stands between two neighbours.

A piece is a token other than a newline or `;`, as it is spelt, or a comment without the blanks at its end. In a block that
holds no other token than newlines and `;`, the first `;` is a piece too."""

from bisect import bisect_left

from reading.brackets import arrange
from reading.diagnostics import line_of
from reading.grammar import Reader, Script, path_faults, read
from reading.tokens import Fault, tokens_of

LIMIT = 65536
BLANKS = " \t\r"
NOTHING_AFTER = {"function", "(", "[", "!", "object {", "opening bar"}
NOTHING_BEFORE = {")", "]", ",", ":", "suffix", "object }", "closing bar"}


class Piece:
    """What a piece is: `comment`, `block {`, `block }`, `object {`, `object }`, `opening bar`, `closing bar`, or the sort of
    its token."""

    def __init__(self, what, start, end):
        self.what, self.start, self.end = what, start, end

    def __repr__(self):
        return f"{self.what}@{self.start}"


def comments_of(text, tokens):
    """The comments between the tokens, each as a piece. A newline is a token, so none holds more than one."""
    found, at = [], 0
    for start, end in [(token.start, token.end) for token in tokens] + [(len(text), len(text))]:
        place = text.find("#", at, start)
        if place >= 0:
            found.append(Piece("comment", place, place + len(text[place:start].rstrip(BLANKS))))
        at = end
    return found


def named(words):
    """The tokens as pieces, braces and bars told apart, and those that separate, as they are."""
    pieces, open_, before = [], [], None
    for word, token in words:
        what = word
        if word in ("{block", "{object"):
            what = word[1:] + " {"
            open_.append(word[1:])
        elif word == "}":
            what = open_.pop() + " }"
        elif word == "bar":
            what = "opening bar" if before == "->" else "closing bar"
        pieces.append(Piece(what, token.start, token.end))
        before = word
    return pieces


def kept_semicolons(text, pieces):
    """The first `;` of each block that holds nothing but separators, as pieces."""
    kept = []
    for number, piece in enumerate(pieces):
        if piece.what == "block {":
            after = number + 1
            while pieces[after].what == "separator":
                after += 1
            if pieces[after].what == "block }":
                kept += [one for one in pieces[number + 1:after] if text[one.start] == ";"][:1]
    return [Piece(";", one.start, one.end) for one in kept]


def pieces_of(text):
    """The pieces of a text that the grammar takes, in order, and where the separators between them start. Faults else."""
    tokens = tokens_of(text)
    words = arrange(tokens)
    items = Reader(words, len(text)).whole()
    path_faults(items)
    every = named(words)
    kept = kept_semicolons(text, every)
    places = {piece.start for piece in kept}
    separators = [one.start for one in every if one.what == "separator" and one.start not in places]
    pieces = [one for one in every if one.what != "separator"] + kept + comments_of(text, tokens)
    return sorted(pieces, key=lambda piece: piece.start), separators


def between(text, separators, left, right):
    """What stands between two neighbouring pieces: nothing, a space, one newline or two."""
    gap = text[left.end:right.start]
    if left.what == "block {" and right.what == "block }":
        return ""
    if (left.what == "block {" or right.what == "block }" or left.what == "comment"
            or bisect_left(separators, left.end) < bisect_left(separators, right.start)
            or right.what == "comment" and "\n" in gap):
        edge = left.what == "block {" or right.what == "block }"
        whole_lines = gap.split("\n")[1:-1]
        return "\n\n" if not edge and any(not line.strip(BLANKS) for line in whole_lines) else "\n"
    if right.what == "comment":
        return " "
    return "" if left.what in NOTHING_AFTER or right.what in NOTHING_BEFORE else " "


def layout(text):
    """The layout of a text that the grammar takes. Faults else."""
    pieces, separators = pieces_of(text)
    out, depth = [], 0
    for number, piece in enumerate(pieces):
        depth -= piece.what == "block }"
        if number:
            gap = between(text, separators, pieces[number - 1], piece)
            out.append(gap + "  " * depth if "\n" in gap else gap)
        out.append(text[piece.start:piece.end])
        depth += piece.what == "block {"
    return "".join(out) + "\n" if pieces else ""


def comments_with_counts(text):
    """Each comment of a text without the blanks at its end, with the number of tokens other than newlines and `;` before it."""
    tokens = tokens_of(text)
    counted = [token.start for token in tokens if token.sort not in ("newline", ";")]
    return [(text[one.start:one.end], bisect_left(counted, one.start)) for one in comments_of(text, tokens)]


def formatted(data):
    """What a formatter writes of a script's bytes, what it reports, and its status."""
    got = read(data)
    if not isinstance(got, Script):
        return b"", (line_of(*got) + "\n").encode(), 1
    laid = layout(got.text).encode()
    return (laid, b"", 0) if len(laid) <= LIMIT else (b"", b"too long\n", 6)
