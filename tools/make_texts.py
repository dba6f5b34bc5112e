#!/usr/bin/env python3
"""Writes crates/vectors/data/texts: byte strings, each with what CPython's own codecs make of it (utf-8, strict, to utf-16-le).

Usage, at the root of the project: tools/make_texts.py. For each: the length, the bytes, the length in UTF-16LE or FFFFFFFF where the bytes are not
well-formed UTF-8, and the UTF-16LE bytes; numbers are of four bytes, the lower first. The strings are every first byte from BF to FF, and some
below, with each of the next three at the edges of the ranges of RFC 3629, section 4; those cut short; and some longer texts.
"""
import itertools
import pathlib
import struct

EDGES = (0x7F, 0x80, 0x8F, 0x90, 0x9F, 0xA0, 0xBF, 0xC0)
FIRST = (0x00, 0x41, 0x7F, *range(0xBF, 0x100))
texts = [b""]
for a in FIRST:
    texts.append(bytes([a]))
    for b in EDGES:
        texts.append(bytes([a, b]))
        for c in (0x7F, 0x80, 0xBF, 0xC0):
            texts.append(bytes([a, b, c]))
            texts += [bytes([a, b, c, d]) for d in (0x7F, 0x80, 0xBF, 0xC0)]
sample = "A\u0000\u00e9\u07ff\u0800\ud7ff\ue000\uffff\U00010000\U0010ffff"
texts += ["".join(t).encode() for t in itertools.product(sample, repeat=3)]
texts += [("".join(t) * 3).encode() for t in itertools.product(sample, repeat=2)]

out = b""
for text in texts:
    try:
        want = text.decode("utf-8").encode("utf-16-le")
        out += struct.pack("<I", len(text)) + text + struct.pack("<I", len(want)) + want
    except UnicodeDecodeError:
        out += struct.pack("<I", len(text)) + text + b"\xff\xff\xff\xff"
pathlib.Path("crates/vectors/data/texts").write_bytes(out)
print(len(texts), "texts,", len(out), "bytes")
