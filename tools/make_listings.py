#!/usr/bin/env python3
"""Writes the data of the program `listings`, crates/listings/data/streams, and what it is to print, crates/listings/stdout.

Usage, at the root of the project: tools/make_listings.py. What is expected is computed here, from document 01's words on the walk and its listing, and
document 02's on padding (T-05), by code that shares nothing with the crates. In the data each stream comes after its length of four bytes, the lower first.
"""
import itertools
import pathlib
import struct

SEVEN = (0x0809, 0x002F, 0x00E1, 0x0138, 0x0194, 0x0195, 0x0196)
BOUND_SHEET = 0x0085


def record(number, body=b""):
    return struct.pack("<HH", number, len(body)) + body


def listing(stream):
    if len(stream) > 32768:
        return "too long\n"
    text, at = "at\tid\tlength\tclear\n", 0
    while at < len(stream):
        if len(stream) - at < 4:
            return text + f"unreadable\t{at}\n" if any(stream[at:]) else text
        number, length = struct.unpack_from("<HH", stream, at)
        if at + 4 + length > len(stream):
            return text + f"unreadable\t{at}\n"
        clear = length if number in SEVEN else min(4, length) if number == BOUND_SHEET else 0
        text += f"{at}\t{number:04x}\t{length}\t{clear}\n"
        at += 4 + length
    return text


streams = [
    b"",
    record(0x0809)[:1],
    record(0x0809)[:2],
    record(0x0809)[:3],
    record(0x0809, bytes(16)) + record(0x0042, b"\x12")[:1],
    record(0x0809, bytes(16)) + record(0x0042, b"\x12")[:3],
    record(0x0809, bytes(5))[:8],
    record(0x0809) + struct.pack("<HH", 0x00FC, 0xFFFF),
    record(0x0809) + record(0x00FC, bytes(32756)) + record(0x000A),
    record(0x0809) + record(0x00FC, bytes(32757)) + record(0x000A),
    record(0x0809) + record(0x00FC, bytes(32756)) + record(0x000A) + bytes(1),
    record(0x0809) + record(0x00FC, bytes(32752)) + record(0x000A, b"\x01") + bytes(3),
    b"".join(record(number, bytes(k + 1)) for k, number in enumerate(SEVEN)),
    b"".join(record(BOUND_SHEET, bytes(k)) for k in range(7)),
    record(0xFFFF, bytes(9)) + record(0xABCD, bytes(10)) + record(0x0000, bytes(100)) + record(0x0085, bytes(1000)) + record(0x0809, bytes(10000)),
]
assert [len(s) for s in streams[8:12]] == [32768, 32769, 32769, 32768]
# every remainder of one to three bytes, of zeros and others: after nothing, after records, and where it is not a remainder but part of a record
for rest in (bytes(r) for length in (1, 2, 3) for r in itertools.product(*((0, other) for other in (0x2F, 0x01, 0x80)[:length]))):
    streams += [rest, record(0x0809) + rest, record(0x0809, bytes(16)) + record(0x0042, b"\xb0\x04") + rest]
    streams += [record(0x0809) + struct.pack("<HH", 0x0042, len(rest) + 1) + rest, record(0x0809) + record(0x0042, rest)]
# four zeros are a record
streams += [start + bytes(zeros) for zeros in range(4, 13) for start in (b"", record(0x0809), record(0x0809, bytes(16)) + record(0x000A))]
data = b"".join(struct.pack("<I", len(s)) + s for s in streams)
assert len(data) <= 196608, "more than the program's buffer holds"
pathlib.Path("crates/listings/data").mkdir(parents=True, exist_ok=True)
pathlib.Path("crates/listings/data/streams").write_bytes(data)
pathlib.Path("crates/listings/stdout").write_text("".join(f"stream {n + 1}: {len(s)} bytes\n" + listing(s) for n, s in enumerate(streams)), encoding="ascii")
print(len(streams), "streams,", len(data), "bytes")
