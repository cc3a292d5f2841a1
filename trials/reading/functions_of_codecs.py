"""Rows of the functions of codes and digests."""

import base64
import hashlib
import re
import urllib.parse

from reading.function_rows import Rows, held
from reading.kinds import STRING
from reading.values import Failed, text

ROWS = Rows()
row = ROWS.row


def utf8(data):
    try:
        return text(data.decode())
    except UnicodeDecodeError:
        raise Failed("not UTF-8") from None


@row("encode_base64", "value:string", STRING)
def _(args, run):
    return text(base64.b64encode(args["value"][1].encode()).decode())


@row("decode_base64", "value:string", STRING, True)
def _(args, run):
    try:
        data = base64.b64decode(args["value"][1], validate=True)
    except ValueError:
        raise Failed("not base64") from None
    if base64.b64encode(data).decode() != args["value"][1]:
        raise Failed("not base64")
    return utf8(data)


row("encode_base16", "value:string", STRING)(lambda args, run: text(args["value"][1].encode().hex()))


@row("decode_base16", "value:string", STRING, True)
def _(args, run):
    if not re.fullmatch(r"(?:[0-9a-fA-F]{2})*", args["value"][1]):
        raise Failed("not base16")
    return utf8(bytes.fromhex(args["value"][1]))


@row("encode_percent", "value:string", STRING)
def _(args, run):
    return text("".join(chr(b) if chr(b).isalnum() and b < 128 else "%%%02X" % b for b in args["value"][1].encode()))


@row("decode_percent", "value:string", STRING)
def _(args, run):
    return text(urllib.parse.unquote_to_bytes(args["value"][1]).decode("utf-8", "replace"))


row("md5", "value:string", STRING)(lambda args, run: text(hashlib.md5(args["value"][1].encode()).hexdigest()))
row("sha1", "value:string", STRING)(lambda args, run: text(hashlib.sha1(args["value"][1].encode()).hexdigest()))
SHA2 = {"SHA-224": "sha224", "SHA-256": "sha256", "SHA-384": "sha384", "SHA-512": "sha512", "SHA-512/224": "sha512_224",
        "SHA-512/256": "sha512_256"}


@row("sha2", "value:string variant:string!?", STRING, False, lambda name, literal: literal[1] in SHA2)
def _(args, run):
    return text(hashlib.new(SHA2[held(args, "variant", "SHA-512/256")], args["value"][1].encode()).hexdigest())
