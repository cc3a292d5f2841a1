"""Texts at random that may be URLs, for the other trials. This file runs nothing by itself."""

SCHEMES = ["http", "http", "https", "HTTP", "ftp", "ws", "wss", "file", "file", "foo", "mailto", "a+b.c-1", "data"]
HOSTS = ["h", "example.com", "EXAMPLE.com", "a.b.", "127.0.0.1", "0x7f.1", "017.1", "256", "1.2.3", "1.2.3.4.5", "1.2.3.256", "4294967295", "4294967296", "0x", "1.0x", "a.1",
         "[::1]", "[1:2:3:4:5:6:7:8]", "[1:0:0:2:0:0:0:3]", "[::ffff:1.2.3.4]", "[::1.2.3.04]", "[::1%25eth]", "[1::2::3]", "[::", "[1:2:3:4:5:6:7::]", "[::1:2:3:4:5:6:7:8]",
         "[0:0:0:0:0:0:0:0]", "[fFfF::]", "[12345::]", "[:1]", "[1:]", "é.com", "中文", "ä。b", "É", "a%20b", "a%41", "%C3%A9", "%ff", "a b", "a_b", "a-", "-a", "*", "a,b",
         "a^b", "a|b", "a<b", "a%2Fb", "localhost", "LOCALHOST", "c:", "C|", "c|", "", "1e3", "a..b", ".", "..", "%", "%4", "a'b", "!$&()*+;=", "1.", "1..", "0", "00", "08.1", "0.0x"]
PATHS = ["", "/", "/a", "/a/b", "/a/../b", "/./a", "/a/.", "/..", "/%2e%2E/b", "/a b", "/é", "/%zz", "/a\\b", "//a", "/a//b", "/c|/d", "/C:/..", "/c:/../d", "/{}", "/`", "/a;b=c",
         "/'\"<>", "/a/%2e", "/../../c", "a", "a/b", "/a|b", "/\x7f", "/\u20ac", "/..//x", "/.//p", "/c:", "/c|x"]
QUERIES = ["", "?", "?q=1", "?a=1&a=2", "?a+b=c%20d", "?é=ü", "?%ff=%C3", "?&&", "?=x", "?a", "?'\"<>", "?a#b", "?a=b=c", "?%", "?a%26b=1", "? x "]
FRAGMENTS = ["", "", "#", "#f", "#é", "# a", "#`<>\"", "#a#b", "#%zz", "#'{}"]


class Maker:
    def __init__(self, rng):
        self.rng = rng

    def text(self):
        rng = self.rng
        pick = rng.choice
        if rng.random() < 0.04:
            return pick(["", " ", "http", "http:", "http:a", "//h/p", "a b:c", "1a:b", ":a", "foo:", "foo: b", "foo:a b ?q", "foo:a #f", "data:text/plain,x y", "javascript:'a'",
                         "mailto:a@b.c", "foo:/", "foo:/a/../..", "foo:/..//b", "foo:\\a", "http:\\\\h\\p", "http:///h", "http:////h//p", "file:", "file:/", "file://", "file:///",
                         "file:c:/x", "file:c|/x", "file:/c:/..", "file://c:/x", "file://h/c:/..", "file:///c|/../d", "file:a/b", "file:\\\\h\\s", "file:////x", "file:?q", "file:#f",
                         "file://localhost/x", "file://h:80/x", "file://u@h/x", "http://@h", "http://@", "http://u@", "http://:@h", "http://a:b:c@h", "http://a@b@c", "foo://@h/p",
                         "foo://", "foo:///p", "foo://:80", "foo://u@/p", "foo://h:/p", "http://:80", "foo://h^", "foo://h%41", "foo://a b", "foo://[::1]:9", "foo://[x]"])
        user = pick(["", "", "", "u@", "u:p@", "u:@", ":p@", "é:ü@", "a%41:b/@", "a b@", "a:b:c@", "a@b@", "[x]@", "{^}|@", "@"])
        port = pick(["", "", "", ":80", ":443", ":21", ":0", ":65535", ":65536", ":00080", ":", ":8a", ":-1", ":8080", ": 80", ":99999999999999999999"])
        slashes = pick(["//", "//", "//", "//", "//", "/", "", "///", "\\\\", "/\\"])
        text = pick(SCHEMES) + ":" + slashes + user + pick(HOSTS) + port + pick(PATHS) + pick(QUERIES) + pick(FRAGMENTS)
        if rng.random() < 0.15:
            place = rng.randrange(len(text) + 1)
            text = text[:place] + pick(list(" \t\n\r/\\?#@:%[]<>^|{}`'\"é€\x00\x1f\x7f\U0001f600.;=&+") + ["%41", "%00", ".."]) + text[place:]
        return text
