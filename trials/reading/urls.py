"""URLs, read by the URL Standard without a base. A domain that isn't ASCII is read where it is of a few letters alone; another raises Unknown."""

import re
import unicodedata
from typing import NamedTuple

PORTS = {"ftp": 21, "file": None, "http": 80, "https": 443, "ws": 80, "wss": 443}
FRAGMENT = set(' "<>`')
QUERY = set(' "#<>')
PATH = QUERY | set("?^`{}")
USERINFO = PATH | set("/:;=@[\\]|")
FORBIDDEN_HOST = set("\0\t\n\r #/:<>?@[\\]^|")
FORBIDDEN_DOMAIN = FORBIDDEN_HOST | {chr(i) for i in range(32)} | {"%", "\x7f"}
# Letters beyond ASCII whose lower case, normalized, is what IDNA maps them to, and that IDNA allows everywhere.
PLAIN_LETTERS = set("äöüéèñçåабвгдежя中文日本語あいう")


class NotUrl(Exception):
    pass


class Unknown(Exception):
    """This reading doesn't tell."""


class Url(NamedTuple):
    scheme: str
    username: str
    password: str
    host: object        # a text, or None where there is none or it is empty
    port: object
    path: str
    query: object
    fragment: object


def escaped(text, those):
    return "".join("".join("%%%02X" % b for b in c.encode()) if c in those or not " " <= c <= "~" else c for c in text)


def unescaped(text):
    """The bytes of a text, its percent signs with two digits read."""
    return re.sub(rb"%([0-9A-Fa-f]{2})", lambda m: bytes([int(m[1], 16)]), text.encode())


# ---- hosts

def number_of(part):
    """A part of an IPv4 address as a number, None where it isn't one."""
    if part[:2].lower() == "0x":
        digits, radix = part[2:], 16
    elif len(part) > 1 and part[0] == "0":
        digits, radix = part[1:], 8
    else:
        digits, radix = part, 10
        if not part:
            return None
    if any(c not in "0123456789abcdef"[:radix] for c in digits.lower()):
        return None
    return int(digits, radix) if digits else 0


def ends_in_number(domain):
    parts = domain.split(".")
    if parts[-1] == "":
        if len(parts) == 1:
            return False
        parts.pop()
    last = parts[-1]
    return bool(re.fullmatch("[0-9]+", last)) or number_of(last) is not None


def ipv4(domain):
    parts = domain.split(".")
    if parts[-1] == "" and len(parts) > 1:
        parts.pop()
    numbers = [number_of(part) for part in parts]
    if len(parts) > 4 or None in numbers or any(n > 255 for n in numbers[:-1]) or numbers[-1] >= 256 ** (5 - len(numbers)):
        raise NotUrl
    whole = numbers[-1] + sum(n * 256 ** (3 - place) for place, n in enumerate(numbers[:-1]))
    return ".".join(str(whole >> shift & 255) for shift in (24, 16, 8, 0))


def groups_of(text, last):
    """The numbers of colon-separated groups of an IPv6 address; the last may be an IPv4 address."""
    groups = []
    pieces = text.split(":") if text else []
    for place, piece in enumerate(pieces):
        if last and place == len(pieces) - 1 and "." in piece:
            octets = piece.split(".")
            if len(octets) != 4 or any(not re.fullmatch("0|[1-9][0-9]{0,2}", one) or int(one) > 255 for one in octets):
                raise NotUrl
            a, b, c, d = map(int, octets)
            groups += [a * 256 + b, c * 256 + d]
        elif re.fullmatch("[0-9A-Fa-f]{1,4}", piece):
            groups.append(int(piece, 16))
        else:
            raise NotUrl
    return groups


def ipv6(text):
    if text.count("::") > 1 or ":::" in text:
        raise NotUrl
    if "::" in text:
        front, back = text.split("::")
        front, back = groups_of(front, False), groups_of(back, True)
        if len(front) + len(back) > 7:
            raise NotUrl
        groups = front + [0] * (8 - len(front) - len(back)) + back
    else:
        groups = groups_of(text, True)
        if len(groups) != 8:
            raise NotUrl
    runs, at = [], 0
    while at < 8:
        size = next((n for n in range(8 - at) if groups[at + n]), 8 - at)
        runs.append((size, at))
        at += size or 1
    size, start = max(runs, key=lambda run: (run[0], -run[1]))
    told = lambda some: ":".join("%x" % one for one in some)
    return f"[{told(groups)}]" if size < 2 else f"[{told(groups[:start])}::{told(groups[start + size:])}]"


def ascii_domain(domain):
    if domain.isascii():
        return domain.lower()
    mapped = unicodedata.normalize("NFKC", domain.lower()).replace("\u3002", ".")
    if "\ufffd" in mapped:
        raise NotUrl
    if any(not c.isascii() and c not in PLAIN_LETTERS for c in mapped) or "xn--" in mapped:
        raise Unknown
    return ".".join(label if label.isascii() else "xn--" + label.encode("punycode").decode() for label in mapped.split("."))


def host_of(text, special):
    if text.startswith("["):
        if not text.endswith("]"):
            raise NotUrl
        return ipv6(text[1:-1])
    if not special:
        if set(text) & FORBIDDEN_HOST:
            raise NotUrl
        return escaped(text, ())
    domain = ascii_domain(unescaped(text).decode("utf-8", "replace"))
    if not domain or set(domain) & FORBIDDEN_DOMAIN:
        raise NotUrl
    return ipv4(domain) if ends_in_number(domain) else domain


# ---- the whole

def is_drive(text):
    return bool(re.fullmatch("[A-Za-z][:|]", text))


def path_of(text, scheme, special):
    """The path that a text without `?` and `#` gives, from its first character on."""
    segments = []
    pieces = re.split(r"[/\\]" if special else "/", text)
    for place, piece in enumerate(pieces):
        last = place == len(pieces) - 1
        piece = escaped(piece, PATH)
        dots = piece.lower().replace("%2e", ".")
        if dots == "..":
            if segments and not (scheme == "file" and len(segments) == 1 and re.fullmatch("[A-Za-z]:", segments[0])):
                segments.pop()
            segments += [""] if last else []
        elif dots == ".":
            segments += [""] if last else []
        else:
            if scheme == "file" and not segments and is_drive(piece):
                piece = piece[0] + ":"
            segments.append(piece)
    return "".join("/" + one for one in segments)


def parse(text):
    """The URL that a text is, or NotUrl."""
    text = re.sub("[\t\n\r]", "", text.strip("".join(map(chr, range(33)))))
    found = re.match("([A-Za-z][A-Za-z0-9+.-]*):", text)
    if not found:
        raise NotUrl
    scheme, text = found[1].lower(), text[found.end():]
    special = scheme in PORTS
    text, hash_sign, fragment = text.partition("#")
    text, mark, query = text.partition("?")
    fragment = escaped(fragment, FRAGMENT) if hash_sign else None
    query = escaped(query, QUERY | {"'"} if special else QUERY) if mark else None
    made = lambda path, username="", password="", host=None, port=None: Url(scheme, username, password, host or None, port, path, query, fragment)
    if scheme == "file":
        return made(*file_parts(text))
    if special:
        text = text.lstrip("/\\")
    elif text.startswith("//"):
        text = text[2:]
    elif text.startswith("/"):
        return made(path_of(text[1:], scheme, False))
    else:
        if text.endswith(" ") and (mark or hash_sign):
            text = text[:-1] + "%20"
        return made(escaped(text, ()))
    authority = re.match(r"[^/\\]*" if special else "[^/]*", text)[0]
    text = text[len(authority):]
    credentials, at, host = authority.rpartition("@")
    username, _, password = credentials.partition(":")
    if at and not host:
        raise NotUrl
    host, port = host_and_port(host, special)
    if port == PORTS.get(scheme):
        port = None
    path = path_of(text[1:], scheme, special) if text or special else ""
    return made(path, escaped(username, USERINFO), escaped(password, USERINFO), host, port)


def host_and_port(text, special):
    inside = False
    for place, c in enumerate(text):
        inside = c == "[" or (inside and c != "]")
        if c == ":" and not inside:
            host, port = text[:place], text[place + 1:]
            break
    else:
        host, port = text, ""
        place = None
    if not host and (special or place is not None):
        raise NotUrl
    host = host_of(host, special) if host else ""
    if not re.fullmatch("[0-9]*", port) or (port and int(port) > 65535):
        raise NotUrl
    return host, int(port) if port else None


def file_parts(text):
    """The path and the rest of a file's URL."""
    slash = lambda at: text[at:at + 1] in ("/", "\\")
    if not (slash(0) and slash(1)):
        return path_of(text[1:] if slash(0) else text, "file", True), "", ""
    host = re.match(r"[^/\\]*", text[2:])[0]
    if is_drive(host):
        return path_of(text[2:], "file", True), "", ""
    if host:
        rest = text[2 + len(host):]
        host = host_of(host, True)
        return path_of(rest[1:], "file", True), "", "", "" if host == "localhost" else host
    return path_of(text[3:], "file", True), "", ""


def pairs(query):
    """The names and values of a query, in order."""
    found = []
    for piece in query.split("&"):
        if piece:
            name, _, value = piece.replace("+", " ").partition("=")
            found.append((unescaped(name).decode("utf-8", "replace"), unescaped(value).decode("utf-8", "replace")))
    return found
