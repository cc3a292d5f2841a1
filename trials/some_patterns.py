"""Patterns at random for the other trials, and texts that they may match: patterns on which Python's `re` agrees with Rust's `regex`, and
wild ones. This file runs nothing by itself."""

TEXTS = ["", "a", "b", "ab", "ba", "aab", "abc", "a,b,c", "é", "aéa", "éé", " a b ", "k=v", "a1b22", "x\ny", "a\r\nb", "\U0001f600a", "中a文", "aaaa", "abab", "A", "aB", "_a-", "٣3"]


def text_of(rng):
    return "".join(rng.choice(["a", "b", "c", "é", "1", "=", ",", " ", "\n", "A", "中", "\U0001f600"]) for _ in range(rng.randrange(8))) if rng.random() < 0.5 else rng.choice(TEXTS)


class Maker:
    """Patterns that mean the same to Python and to the crate, and wild ones that only the crate reads. A part comes with whether it may match no text."""

    def __init__(self, rng, wild=False):
        self.rng, self.wild, self.names = rng, wild, 0

    def pattern(self):
        self.names = 0
        return self.choice(3)[0]

    def choice(self, depth):
        every = [self.sequence(depth) for _ in range(self.rng.choice([1, 1, 1, 2, 3] if depth else [1]))]
        return "|".join(one for one, _ in every), any(empty for _, empty in every)

    def sequence(self, depth):
        every = [self.repeated(depth) for _ in range(self.rng.choice([0, 1, 1, 2, 2, 3]))]
        return "".join(one for one, _ in every), all(empty for _, empty in every)

    def repeated(self, depth):
        one, empty = self.atom(depth)
        if self.rng.random() < 0.6 or one in ("^", "$", r"\b", r"\A", r"\z", r"\B") or (empty and not self.wild):
            return one, empty
        # Editions of the crate differ in the groups of what is repeated no times, and where what may match no text is repeated without end.
        signs = ["?", "{2}", "{1,2}", "{0,3}"] if empty else ["*", "+", "?", "{2}", "{1,2}", "{0,3}", "{2,}"]
        sign = self.rng.choice(signs + ["{0}"] * ("(" not in one))
        return one + sign + self.rng.choice(["", "", "?"]), empty or sign in ("*", "?", "{0,3}", "{0}")

    def atom(self, depth):
        pick = self.rng.choice
        how = self.rng.random()
        if depth and how < 0.3:
            inner, empty = self.choice(depth - 1)
            self.names += 1
            return pick(["(", "(", "(?:", f"(?P<n{self.names}>", f"(?<k{self.names}>"]) + inner + ")", empty
        if how < 0.4:
            return pick(["^", "$", r"\b", r"\A", r"\z"]), True
        if how < 0.6:
            return pick(["[ab]", "[^a]", "[a-c]", "[^,=]", "[é,]", "[0-9]", "[]a]", r"[\]a]", "[^]a]", r"[a\-c]"]), False
        if how < 0.7:
            return pick([".", r"\d", r"\w", r"\s", r"\W", r"\D", r"\S"]), False
        if self.wild and how < 0.8:
            one = pick([r"\pL", r"\p{Greek}", r"[[:alpha:]]", "(?i:a)", "(?i:É)", "(?s:.)", r"[a-z&&[^b]]", "[a[bc]]", r"\x61", r"\u{e9}", r"(?x: a b # c" + "\n)", "(?U:a+)", r"\B",
                        "(?-u:a)", r"[\d--1]", "(?m:^)", "(?m:$)", r"\t", "[^\x00-\x7f]", r"\PN"])
            return one, one in (r"\B", "(?m:^)", "(?m:$)")
        return pick(["a", "a", "b", "c", "é", ",", "=", "1", r"\.", "中", " "]), False
