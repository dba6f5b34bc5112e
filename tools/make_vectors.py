#!/usr/bin/env python3
"""Turns the published test vectors into the data of the program `vectors`.

Usage, at the root of the project: tools/make_vectors.py FOLDER. The folder holds rfc-1321.txt, SHA1ShortMsg.rsp, SHA1LongMsg.rsp,
SHA1Monte.rsp and rfc-6229-{40,56,64,80,128}.txt as Debian's python3-cryptography-vectors 38.0.4 ships them. Nothing is computed here: each
expected value is copied from its file. A message is cut to its Len, which counts bits, so the message of Len = 0 is empty.

What is written to crates/vectors/data/, with numbers of four bytes, the lower first:
  rfc1321, sha1_short, sha1_long   for each vector: the message's length, the message, the digest
  sha1_monte                       the seed, then the 100 checkpoints
  rfc6229_5, _7, _8, _10, _16      for each line: the key's length, the key, the offset, 16 bytes of keystream
"""
import pathlib
import re
import struct
import sys

SOURCE = pathlib.Path(sys.argv[1])
TARGET = pathlib.Path("crates/vectors/data")


def fields(name):
    """The `KEY = value` lines of a file, in order."""
    return re.findall(r"(?m)^(\w+) = (\w+)", (SOURCE / name).read_text(encoding="ascii"))


def number(n):
    return struct.pack("<I", n)


def digests(source, target):
    out, length, message = b"", 0, b""
    for key, value in fields(source):
        if key == "Len":
            length = int(value)
        elif key == "Msg":
            message = bytes.fromhex(value)[: length // 8]
        elif key == "MD":
            out += number(len(message)) + message + bytes.fromhex(value)
    (TARGET / target).write_bytes(out)


def keystreams(source, target):
    out, key_bytes, offset = b"", b"", 0
    for key, value in fields(source):
        if key == "KEY":
            key_bytes = bytes.fromhex(value)
        elif key == "OFFSET":
            offset = int(value)
        elif key == "PLAINTEXT":
            assert not any(bytes.fromhex(value))
        elif key == "CIPHERTEXT":
            out += number(len(key_bytes)) + key_bytes + number(offset) + bytes.fromhex(value)
    (TARGET / target).write_bytes(out)


TARGET.mkdir(parents=True, exist_ok=True)
digests("rfc-1321.txt", "rfc1321")
digests("SHA1ShortMsg.rsp", "sha1_short")
digests("SHA1LongMsg.rsp", "sha1_long")
(TARGET / "sha1_monte").write_bytes(b"".join(bytes.fromhex(v) for k, v in fields("SHA1Monte.rsp") if k in ("Seed", "MD")))
for bits in (40, 56, 64, 80, 128):
    keystreams(f"rfc-6229-{bits}.txt", f"rfc6229_{bits // 8}")
