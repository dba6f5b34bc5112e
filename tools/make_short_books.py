#!/usr/bin/env python3
"""Writes the data of the program `short_books`, crates/short_books/data/cases, and what it is to print, crates/short_books/stdout.

Usage, at the root of the project: tools/make_short_books.py. Needs OpenSSL's libcrypto. The locked streams are made from plain ones by books.py, so an
opened stream's bytes are those it was made from, and the counts that Open reports are those of sealing it (how many keys books.py derived, how many bytes
it enciphered); padding is added after both streams once they are made, and is counted by document 02's words (T-05); each refusal is stated here with its
case, from document 01's list of questions, with the scratch that document 02 asks for (T-06); what is left of the scratch is by document 02's words too: the
first 64 bytes zero from question 6 on, all others as they were lent. The verdict of Look is computed here, from document 01's words and document 02's (T-03),
and so is whether a stream and that of the case before have the same lock (T-08). The forecast of a stream that is refused by 4 or 6 to 26 is that refusal; else
it is computed here from the layout of the stream, by document 02's words (T-04, T-05).

In the data a case is five parts, each after its length of four bytes, the lower first: its name, the password, the stream, and, as parts of no bytes
whose length alone counts, the scratch and the output. The program lends bytes (offset mod 251) + 1, which are never zero.
"""
import itertools
import pathlib
import struct

from books import BOF, BOUND_SHEET, EOF, FILEPASS, LONGEST, SEVEN, CryptoApi, Office97, Xor, book, characters, clear_of, record, reported, some

B = record(BOF)
XOR = Xor()
NONE = (0, 0, 0, 0, 0)
SCRATCH = 64  # the least that is enough, and how much of it ends zero
CAP = 1048576  # Look and Same lock read no more of a stream
cases, lines, before = [], [], None
firsts = {}  # for each number that Open returns, the first case: stream, facts and password


def look(stream):
    """The verdict's number, its facts (XOR mark, version there, major, minor, key size), and what is there of the FILEPASS body that it is about."""
    stream, at = stream[:CAP], 0
    if stream[:2] != B[:2]:
        return 0, NONE, None
    while True:
        if len(stream) - at < 4:
            return 0, NONE, None
        number, length = struct.unpack_from("<HH", stream, at)
        body = stream[at + 4:at + 4 + length]
        if number == FILEPASS:
            return 2, facts_of(body), body
        if number not in SEVEN:
            return 1, NONE, None
        if len(body) < length:
            return 0, NONE, None
        at += 4 + length


def facts_of(body):
    """The facts of a lock, from what is there of its FILEPASS body."""
    if len(body) < 2:
        return NONE
    if body[:2] == b"\0\0":
        return 1, 0, 0, 0, 0
    if len(body) < 6:
        return NONE
    major, minor = struct.unpack_from("<HH", body, 2)
    if len(body) < 34 or not 2 <= major <= 4 or minor != 2:
        return 0, 1, major, minor, 0
    size = struct.unpack_from("<I", body, 30)[0] or 40
    return 0, 1, major, minor, size if size <= 4096 else 0


def counts(stream):
    """Output bytes, records, enciphered body bytes and block keys of a stream that is in order. One to three bytes after the last record are padding."""
    at = records = enciphered = 0
    kind = None
    while len(stream) - at >= 4:
        number, length = struct.unpack_from("<HH", stream, at)
        if number == FILEPASS and kind is None:
            kind = struct.unpack_from("<H", stream, at + 4)[0]
        records += 1
        enciphered += length - clear_of(number, length)
        at += 4 + length
    return len(stream), records, enciphered, 0 if kind == 0 else 1 + len(range(0, len(stream), 1024))


def case(name, stream, password, number, facts=(), plain=None, scratch=SCRATCH + 6, more=3, output=None, foretold=None):
    """One case: `number` and `facts` are what Open returns; `plain` the stream it leaves, where None means that the output is untouched. `foretold` is the
    forecast's number and facts, where it is refused and Open does not get that far."""
    global before
    password = password if isinstance(password, bytes) else password.encode()
    output = len(stream) + more if output is None else output
    cases.append(b"".join(struct.pack("<I", len(part)) + part for part in (name.encode(), password, stream)) + struct.pack("<II", scratch, output))
    firsts.setdefault(number, (stream, facts, password))
    zeros = SCRATCH if number == 0 or number >= 6 else 0
    # the facts agree, and the FILEPASS bodies are equal, whatever lengths are stated
    seen = verdict, told, _ = look(stream)
    same, before = verdict == 2 and seen == before, seen
    if foretold is None:
        foretold = (0, counts(stream)) if number in (0, 1, 2, 3, 5, 27) else (number, facts)
    words = [name, f"look {verdict}:", *map(str, told), f"same {same:d}", f"forecast {foretold[0]}:", *map(str, (*foretold[1], 0, 0, 0, 0)[:4])]
    words += [f"open {number}:", *map(str, (*facts, 0, 0, 0, 0, 0, 0, 0)[:7]), f"scratch {zeros} zero, {scratch - zeros} as lent,"]
    if plain is None:
        words.append(f"output 0 written, {output} as lent")
    else:
        # the bytes that differ from what was lent end where the plain stream ends, or before where it happens to end in the lent bytes
        written = len(plain)
        while written and plain[written - 1] == (written - 1) % 251 + 1:
            written -= 1
        words.append(f"output {written} written, {output - written} as lent{': ' + plain[:written].hex() if written else ''}")
    lines.append(" ".join(words))


def opened(name, lock, password, records, padding=0, **rest):
    """A book that opens, with its report, and as many zeros after both streams."""
    stream, plain, told = reported(lock, password, records, padding)
    case(name, stream, password, 0, told, plain, **rest)


SMALL = [(BOF, bytes(4)), (FILEPASS, b""), (0x0042, b"\xb0\x04"), (EOF, b"")]


def small(lock, password):
    return book(lock, password, SMALL)[0]


def refused(name, stream, number, facts=(), password="A", **rest):
    case(name, stream, password, number, facts, **rest)


# "Short books", those marked P and the last line
refused("empty", b"", 7)
refused("BOF alone", B, 8)
refused("a header cut short", B[:3], 6)
refused("FILEPASS first", record(FILEPASS), 7)
refused("a FILEPASS body cut short", B + record(FILEPASS, bytes(6))[:6], 6, (4,))
refused("another id before FILEPASS", B + record(0x0042) + record(FILEPASS), 9, (0x0042,))
refused("FILEPASS of no body", B + record(FILEPASS), 10, (0, 2))
refused("FILEPASS of three bytes", B + record(FILEPASS, b"\0\0\x15"), 10, (1, 4))
refused("type 2", B + record(FILEPASS, b"\2\0"), 11, (2,))
refused("two bytes of version", B + record(FILEPASS, b"\1\0\1\0"), 12, (2, 4))
refused("version 1.2", B + record(FILEPASS, b"\1\0\1\0\2\0"), 13, (1, 2))
XOR_BOOK = B + record(FILEPASS, bytes.fromhex("000015b9c8ce")) + record(0x0042, b"\0\0")
case("the XOR book", XOR_BOOK, "A", 0, (3, 0, 0, 0, 20, 2, 0), B + record(0, bytes(6)) + record(0x0042, b"\xbe\x19"))
refused("the XOR book, B", XOR_BOOK, 27, password="B")
refused("the XOR book, no characters", XOR_BOOK, 27, password="")
for bits in range(0, 137):
    if bits % 8 == 0 and 40 <= bits <= 128:
        opened(f"key size {bits}", CryptoApi(bits), "calibre", SMALL)
    elif bits == 0:
        opened("key size 0", CryptoApi(40, stated=0), "calibre", SMALL)
    elif bits in (32, 39, 41, 44, 47, 127, 129, 136):
        refused(f"key size {bits}", small(CryptoApi(40, stated=bits), "calibre"), 23, (bits,))
refused("key size 2^31 + 40", small(CryptoApi(40, stated=2 ** 31 + 40), "calibre"), 23, (2 ** 31 + 40,))

# Look's key size, each compared with the one before: 0 and 40 are different locks, though Look reports 40 for both
TYPES = {kind: struct.pack("<H", kind) for kind in (2, 256, 65535)}
for major in 2, 3, 4:
    opened(f"version {major}.2, key size 0", CryptoApi(40, stated=0, major=major), "calibre", SMALL)
    opened(f"version {major}.2, key size 40", CryptoApi(40, major=major), "calibre", SMALL)
for stated in 1, 4095, 4096, 4097, 2 ** 16, 2 ** 24 + 40, 2 ** 32 - 1:
    refused(f"key size {stated}", small(CryptoApi(40, stated=stated), "calibre"), 23, (stated,))
    opened(f"key size 0 behind {stated}", CryptoApi(40, stated=0), "calibre", SMALL)
ZERO, FORTY = (CryptoApi(40, stated=stated, name=b"").filepass("A") for stated in (0, 40))
for kind, first in TYPES.items():
    refused(f"type {kind}, key size 0", B + record(FILEPASS, first + ZERO[2:]), 11, (kind,))
    opened(f"key size 40 behind type {kind}", CryptoApi(40), "calibre", SMALL)
refused("type 0, key size 0", B + record(FILEPASS, b"\0\0" + ZERO[2:]), 27)
for length in range(29, 37):
    refused(f"key size 0, a FILEPASS body of {length}", B + record(FILEPASS, ZERO[:length]), 17, (32, length - 2))
    refused(f"key size 40, a FILEPASS body of {length}", B + record(FILEPASS, FORTY[:length]), 17, (32, length - 2))
    refused(f"key size 0, a FILEPASS of {length} bytes up to the end", B + record(FILEPASS, ZERO)[:4 + length], 6, (4,))
for major in range(6):
    for minor in range(4):
        if (minor != 2 or not 2 <= major <= 4) and (major, minor) != (1, 1):
            refused(f"version {major}.{minor}, key size 0", B + record(FILEPASS, struct.pack("<HHH", 1, major, minor) + ZERO[6:]), 13, (major, minor))
# Same lock, each compared with the one before: one byte of the body changed, the first, one in the middle and the last, and back again
RIGHT = XOR.passwords(8)[0]
LOCKS = ("XOR", XOR), ("1.1", Office97()), ("CryptoAPI", CryptoApi(name=b""))
for name, lock in LOCKS:
    body = lock.filepass(RIGHT)
    refused(f"lock of {name}", B + record(FILEPASS, body), 27)
    for place, at in ("first", 0), ("middle", len(body) // 2), ("last", len(body) - 1):
        other = body[:at] + bytes([body[at] ^ 0x80]) + body[at + 1:]
        refused(f"lock of {name}, its {place} byte changed", B + record(FILEPASS, other), *((27, ()) if at else (11, (other[0],))))
        refused(f"lock of {name}, its {place} byte as before", B + record(FILEPASS, body), 27)
    # the same body elsewhere, with other records after it
    refused(f"lock of {name}, behind another record", B + record(0x00E1, b"\7\7\7") + record(FILEPASS, body), 27)
    refused(f"lock of {name}, before another record", record(BOF, b"\7") + record(FILEPASS, body) + record(0x0042, b"\7"), 27)
    # what is there of the body, with other lengths stated: all of it, all but its last byte, and all again
    for there, again in (len(body), ""), (len(body) - 1, ""), (len(body), " again"):
        for stated in there + 1, there + 2, 65535:
            stream = B + struct.pack("<HH", FILEPASS, stated) + body[:there]
            refused(f"lock of {name}, {there} bytes of {stated}{again}", stream, 6, (4,))
    refused(f"lock of {name}, all of its bytes", B + record(FILEPASS, body), 27)
# a salt or a verifier of its own is another lock
for name, make in ("1.1", Office97), ("CryptoAPI", lambda **own: CryptoApi(name=b"", **own)):
    for other, own in ("salt", {"salt": some(16, 5)}), ("verifier", {"verifier": some(16, 5)}):
        opened(f"lock of {name}, before another {other}", make(), RIGHT, SMALL[:2])
        opened(f"lock of {name}, another {other}", make(**own), RIGHT, SMALL[:2])
# empty bodies, and bodies of one byte
refused("lock of 0 bytes", B + record(FILEPASS), 10, (0, 2))
refused("lock of 0 bytes, before another record", B + record(FILEPASS) + record(0x0042, b"\7"), 10, (0, 2))
for stated in 1, 6, 65535:
    refused(f"lock of 0 bytes of {stated}", B + struct.pack("<HH", FILEPASS, stated), 6, (4,))
refused("lock of 1 byte", B + record(FILEPASS, b"\0"), 10, (1, 2))
refused("lock of 1 byte of 2", B + record(FILEPASS, b"\0\0")[:5], 6, (4,))
refused("lock of 1 byte of 2, another", B + record(FILEPASS, b"\1\0")[:5], 6, (4,))
refused("lock of 0 bytes again", B + record(FILEPASS), 10, (0, 2))

OLD = Office97().filepass("A")
refused("1.1, bytes 30 to 33 zero", B + record(FILEPASS, OLD[:30] + bytes(4) + OLD[34:]), 27)


def changed(password):
    """The same except for the last character, which has as many bytes."""
    return password[:-1] + chr(ord(password[-1]) ^ 1)


# 1: the password's length, under each lock. In UTF-16LE the longest have up to 2,048 bytes, which a scratch of 64 can't hold at once
assert [len(longest.encode("utf-16-le")) for longest in LONGEST] == [2048, 1024, 684, 1024]
assert all(len(longest.encode()) == len(changed(longest).encode()) == 1024 for longest in LONGEST)
SCRATCHES = 64, 65, 2064, 2070
for name, lock in ("1.1", Office97()), ("CryptoAPI", CryptoApi(name=b"")):
    for longest in LONGEST:
        for scratch in SCRATCHES:
            opened(f"{name}, 1024 bytes in {len(longest)} characters, a scratch of {scratch}", lock, longest, SMALL, scratch=scratch)
        refused(f"{name}, 1024 bytes, the last of {len(longest)} characters changed", small(lock, longest), 27, password=changed(longest), scratch=64)
    refused(f"{name}, a password of 1025 bytes", small(lock, "p" * 1025), 1, password="p" * 1025)
# with 40 bits the text's digest is the same, and under XOR no such text passes: there each text has one scratch
FORTY_BITS = CryptoApi(40, name=b"")
for longest, scratch in zip(LONGEST, SCRATCHES):
    opened(f"CryptoAPI 40, 1024 bytes in {len(longest)} characters, a scratch of {scratch}", FORTY_BITS, longest, SMALL, scratch=scratch)
refused("CryptoAPI 40, 1024 bytes, the last letter changed", small(FORTY_BITS, LONGEST[0]), 27, password=changed(LONGEST[0]), scratch=64)
for longest, scratch in zip(LONGEST, (64, 2064, 64, 2064)):
    refused(f"XOR, 1024 bytes in {len(longest)} characters, a scratch of {scratch}", XOR_BOOK, 27, password=longest, scratch=scratch)
refused("a password of 1025 bytes that is no UTF-8, no scratch, no output", XOR_BOOK, 1, password=b"\xff" * 1025, scratch=0, output=0)

# 2: what is well-formed, RFC 3629 section 4
WELL = ("7f", "c280", "dfbf", "e0a080", "ed9fbf", "ee8080", "efbfbf", "f0908080", "f48fbfbf")
ILL = ("80", "c1bf", "c2", "e09fbf", "eda080", "efbf", "f08fbfbf", "f4908080", "f8888080", "c3c3", "ff")
for text in WELL:
    opened(f"a password of bytes {text}", CryptoApi(), bytes.fromhex(text).decode(), SMALL)
for text in ILL:
    refused(f"a password of bytes {text}", XOR_BOOK, 2, password=bytes.fromhex(text))
refused("no UTF-8, no scratch, no output", XOR_BOOK, 2, password=b"A\xff", scratch=0, output=0)

# texts that end at, before and after the end of a block of 64 bytes, and where the hash's own end no longer fits into the last one. CryptoAPI hashes the
# salt of 16 bytes and the text, 1.1 the text alone. Then a surrogate pair that lies across the end of the first block, and before and after it
for name, lock, salted, no_room in ("1.1", Office97(), 0, (27, 28)), ("CryptoAPI", CryptoApi(name=b""), 16, (19, 20)):
    for count in *no_room, 23, 24, 25, 31, 32, 33, 55, 56, 57, 63, 64, 65:
        opened(f"{name}, a password of {count} letters", lock, characters(count), SMALL, scratch=64)
    across = (64 - salted) // 2 - 1
    for count in across - 1, across, across + 1:
        opened(f"{name}, a password of {count} letters and a pair", lock, characters(count) + "\U0001d11e", SMALL, scratch=64)

# 3: the scratch. After the first 64 bytes it is as it was lent, however long
for name, lock in ("XOR", XOR), ("1.1", Office97()), ("CryptoAPI", CryptoApi()):
    password = XOR.passwords(8)[0]
    for scratch in 64, 65, 2063, 2064, 2065, 2070:
        opened(f"{name}, a scratch of {scratch}", lock, password, SMALL, scratch=scratch)
    for scratch in 0, 1, 32, 63:
        refused(f"{name}, a scratch of {scratch}", small(lock, password), 3, password=password, scratch=scratch)
    for scratch, number in (63, 3), (64, 27), (2064, 27):
        refused(f"{name}, another password, a scratch of {scratch}", small(lock, password), number, password=password[:-1], scratch=scratch)
refused("no scratch, no output", XOR_BOOK, 3, scratch=0, output=0)

# 5: the output
for name, lock in ("XOR", XOR), ("1.1", Office97()), ("CryptoAPI", CryptoApi()):
    password = XOR.passwords(8)[0]
    opened(f"{name}, an output as long as the stream", lock, password, SMALL, more=0)
    opened(f"{name}, an output of one byte more", lock, password, SMALL, more=1)
    refused(f"{name}, an output one byte short", small(lock, password), 5, password=password, more=-1)
refused("an output short for a stream that does not walk", B[:3], 5, output=2, foretold=(6, ()))

# 6: every cut of a book
for length in range(len(XOR_BOOK)):
    ends = {0: 7, 4: 8, 14: 27}
    start = max(at for at in (0, 4, 14) if at <= length)
    if length in ends:
        refused(f"the XOR book cut at {length}", XOR_BOOK[:length], ends[length], password="B")
    else:
        refused(f"the XOR book cut at {length}", XOR_BOOK[:length], 6, (start,), password="B")
refused("a body one byte past the end", XOR_BOOK + b"\x42\0\1\0", 6, (20,))
opened("a body up to the end", CryptoApi(), "calibre", SMALL + [(0x0042, b"\1")])

# 7 and 8
for number in 0x0808, 0x080A, 0x0909, 0x0009, 0x0908:
    refused(f"first id {number:04x}", record(number) + XOR_BOOK[4:], 7)
refused("no FILEPASS, six of the seven", b"".join(record(n, bytes(2)) for n in SEVEN if n != FILEPASS), 8)
refused("no FILEPASS, other ids", B + record(0x0042, bytes(2)) + record(EOF), 8)

# 9: what may come before FILEPASS
opened("six of the seven before FILEPASS", CryptoApi(), "calibre", [(n, b"\7\7") for n in SEVEN if n != FILEPASS] + SMALL[1:])
for number in 0x0000, 0x0042, 0x0085, 0x00E0, 0x00E2, 0x0137, 0x0139, 0x0193, 0x0197, 0x0808, 0x080A, 0xFFFF:
    refused(f"id {number:04x} before FILEPASS", B + record(0x00E1) + record(number) + record(0x0043) + XOR_BOOK[4:], 9, (number,))

# 10, 12, 14, 15, 17 and 24: every cut of a FILEPASS body, and a byte too many
LONE = CryptoApi(name=b"")
for name, lock, whole in ("XOR", XOR, 6), ("1.1", Office97(), 54), ("CryptoAPI", CryptoApi(), 122), ("CryptoAPI, no provider", LONE, 106):
    password = XOR.passwords(15)[0]
    body = lock.filepass(password)
    assert len(body) == whole
    header = whole - 74
    for length in range(whole):
        if length < 2:
            told = 10, (length, 2)
        elif name == "XOR":
            told = 10, (length - 2, 4)
        elif length < 6:
            told = 12, (length - 2, 4)
        elif name == "1.1":
            told = 14, (length - 2, 52)
        elif length < 14:
            told = 15, (length - 2, 12)
        elif length < 14 + header:
            told = 17, (header, length - 2)
        else:
            told = 24, (length - 14 - header, 60)
        refused(f"{name}, a FILEPASS body of {length}", B + record(FILEPASS, body[:length]), *told, password=password)
    case(f"{name}, a FILEPASS body of {whole + 1}", B + record(FILEPASS, body + b"\7"), password, 0,
         (2, lock.number, lock.bits, lock.sealed, whole + 9, 0, 2 if lock.number else 0), B + record(0, bytes(whole + 1)))

# 11 and 13
for kind in 2, 3, 256, 257, 65535:
    refused(f"type {kind}", B + record(FILEPASS, struct.pack("<H", kind) + LONE.filepass("A")[2:]), 11, (kind,))
for major in range(6):
    for minor in range(4):
        if minor == 2 and 2 <= major <= 4:
            opened(f"version {major}.{minor}", CryptoApi(major=major), "calibre", SMALL)
        elif (major, minor) != (1, 1):
            refused(f"version {major}.{minor}", B + record(FILEPASS, struct.pack("<HHH", 1, major, minor) + LONE.filepass("A")[6:]), 13, (major, minor))
refused("version 258.2", B + record(FILEPASS, struct.pack("<HHH", 1, 258, 2) + LONE.filepass("A")[6:]), 13, (258, 2))
refused("version 2.258", B + record(FILEPASS, struct.pack("<HHH", 1, 2, 258) + LONE.filepass("A")[6:]), 13, (2, 258))

# 16: the header size
for size in 0, 31, 1025, 2 ** 32 - 1:
    refused(f"header size {size}", B + record(FILEPASS, CryptoApi(size=size).filepass("A")), 16, (size,))
opened("header size 32", LONE, "calibre", SMALL)
opened("header size 1024", CryptoApi(name=bytes(992)), "calibre", SMALL)
refused("header size 109 of 108", B + record(FILEPASS, LONE.body(bytes(36))[:10] + struct.pack("<I", 109) + bytes(108)), 17, (109, 120))

# 18 to 20: the flags
for flags in 0x04, 0x0C, 0x05, 0xFFFFFFCF, 0x80000004:
    opened(f"flags {flags:x}", CryptoApi(flags=flags), "calibre", SMALL)
for flags, number in ((0x14, 18), (0x34, 18), (0x10, 18), (0x24, 19), (0x20, 19), (0x2C, 19), (0x00, 20), (0x08, 20), (0xFFFFFFCB, 20), (0xFFFFFFFF, 18)):
    refused(f"flags {flags:x}", small(CryptoApi(flags=flags), "calibre"), number, (flags,))

# 21 and 22: the algorithms
for value in 0, 0x6801:
    opened(f"AlgID {value:x}", CryptoApi(algorithm=value), "calibre", SMALL)
for value in 1, 0x6800, 0x6802, 0x660E, 0x16801:
    refused(f"AlgID {value:x}", small(CryptoApi(algorithm=value), "calibre"), 21, (value,))
for value in 0, 0x8004:
    opened(f"AlgIDHash {value:x}", CryptoApi(hashing=value), "calibre", SMALL)
for value in 1, 0x8003, 0x8005, 0x18004:
    refused(f"AlgIDHash {value:x}", small(CryptoApi(hashing=value), "calibre"), 22, (value,))

# 25 and 26: the sizes of salt and hash
for at, number, sizes in (46, 25, (0, 15, 17, 2 ** 16 + 16)), (82, 26, (0, 19, 21, 2 ** 31 + 20)):
    for size in sizes:
        body = LONE.filepass("A")
        refused(f"question {number}, size {size}", B + record(FILEPASS, body[:at] + struct.pack("<I", size) + body[at + 4:]), number, (size,))

# two questions at once: the earlier one is the refusal
refused("AlgID and AlgIDHash", small(CryptoApi(algorithm=1, hashing=1), "calibre"), 21, (1,))
refused("AlgID and key size", small(CryptoApi(algorithm=1, stated=39), "calibre"), 21, (1,))
refused("AlgIDHash and key size", small(CryptoApi(hashing=1, stated=39), "calibre"), 22, (1,))
refused("flags and AlgID", small(CryptoApi(flags=0, algorithm=1), "calibre"), 20, (0,))
refused("key size and verifier", B + record(FILEPASS, CryptoApi(40, stated=39, name=b"").filepass("A")[:100]), 23, (39,))

refused("another first id and a header cut short", record(0x0808) + b"\x42", 6, (4,))
refused("a FILEPASS body that is cut short and a header too", B + record(FILEPASS, b"\0") + b"\x42", 6, (9,))
refused("no FILEPASS and a body cut short", B + record(0x0042, bytes(2))[:5], 6, (4,))
refused("another id before a FILEPASS of type 2", B + record(0x0042) + record(FILEPASS, b"\2\0"), 9, (0x0042,))
refused("two other ids before FILEPASS", B + record(0x0042) + record(0x0043) + XOR_BOOK[4:], 9, (0x0042,))
refused("a FILEPASS of type 2 before one that is XOR", B + record(FILEPASS, b"\2\0") + XOR_BOOK[4:], 11, (2,))
refused("a password of 1025 bytes, and another id before FILEPASS", B + record(0x0042) + XOR_BOOK[4:], 1, password="p" * 1025, foretold=(9, (0x0042,)))
refused("no UTF-8, and no FILEPASS", B, 2, password=b"\xff", foretold=(8, ()))
refused("a password of 1025 bytes, and a scratch of 63", XOR_BOOK, 1, password="p" * 1025, scratch=63)
refused("no UTF-8, and a scratch of 63", XOR_BOOK, 2, password=b"A\xff", scratch=63)
refused("a scratch of 63, and an output one byte short", XOR_BOOK, 3, scratch=63, more=-1)
refused("a scratch of 63, and a header cut short", B[:3], 3, scratch=63, foretold=(6, ()))
refused("no scratch, and a type of 2", B + record(FILEPASS, b"\2\0"), 3, scratch=0, foretold=(11, (2,)))
refused("no output, and key size 39", small(CryptoApi(40, stated=39), "calibre"), 5, output=0, foretold=(23, (39,)))

# 27: wrong passwords
for name, lock in ("XOR", XOR), ("1.1", Office97()), ("CryptoAPI", CryptoApi()):
    password = XOR.passwords(8)[0]
    for wrong in "", password[:-1], password + " ", password.swapcase(), password[1:] + password[:1], "é":
        if wrong != password:
            refused(f"{name}, another password of {len(wrong)}", small(lock, password), 27, password=wrong)
# one bit of the verifier's hash, the first and the last byte
for name, lock, whole in ("1.1", Office97(), 54), ("CryptoAPI", LONE, 106):
    for at in whole - (16 if whole == 54 else 20), whole - 1:
        body = bytearray(lock.filepass("calibre"))
        body[at] ^= 0x80
        refused(f"{name}, a bit of byte {at} turned", B + record(FILEPASS, bytes(body)), 27, password="calibre")
for at in range(2, 6):
    body = bytearray(XOR.filepass(XOR.passwords(8)[0]))
    body[at] ^= 1
    refused(f"XOR, a bit of byte {at} turned", B + record(FILEPASS, bytes(body)), 27, password=XOR.passwords(8)[0])
refused("XOR, sixteen characters", XOR_BOOK, 27, password="A" * 16)
refused("XOR, a character above U+00FF", XOR_BOOK, 27, password="Ā")


# more than three blocks: bodies and headers over block ends, BoundSheet8 of every clear length, a second FILEPASS, all seven ids before and after the lock
LARGE = [(n, some(k, k)) for k, n in enumerate(SEVEN) if n != FILEPASS] + [(FILEPASS, b"")]
LARGE += [(BOUND_SHEET, some(k, 7 * k)) for k in (0, 1, 3, 4, 5, 30)] + [(0x00FC, some(700, 5)), (0x0085, some(20, 9)), (FILEPASS, some(40, 3))]
LARGE += [(n, some(20 + k, k)) for k, n in enumerate(SEVEN)] + [(0x0203, some(14, k)) for k in range(60)] + [(0x00FD, some(1500, 1)), (EOF, b"")]
for name, lock, password in ("XOR", XOR, XOR.passwords(15)[0]), ("XOR, one character", XOR, XOR.passwords(1)[0]), ("1.1", Office97(), "Unruh 50°"), \
        ("CryptoAPI 40", CryptoApi(40), "Unruh 50°"), ("CryptoAPI 56", CryptoApi(56), ""), ("CryptoAPI 128", CryptoApi(), "\U0001d11e und €"):
    gap = 0
    while True:
        # a gap in front, so that a record's header lies across the end of a block
        records = LARGE[:-2] + [(0x0204, some(gap, 2))] + LARGE[-2:]
        stream, plain = book(lock, password, records)
        starts, at = [], 0
        while at < len(stream):
            starts.append(at)
            at += 4 + struct.unpack_from("<H", stream, at + 2)[0]
        if any(start // 1024 != (start + 3) // 1024 for start in starts):
            break
        gap += 1
    assert 3 * 1024 < len(stream) < 8192
    opened(f"{name}, four blocks", lock, password, records)
    refused(f"{name}, four blocks, another password", stream, 27, password=password + "x" if len(password) < 15 else password[:-1])

# what opening takes: the stream's length near a block's end, clear parts of every length, no enciphered byte at all, one, and a second FILEPASS
for name, lock in ("XOR", XOR), ("1.1", Office97()), ("CryptoAPI", CryptoApi()):
    password = XOR.passwords(8)[0]
    for length in 1023, 1024, 1025, 2047, 2048, 2049:
        rest = length - len(book(lock, password, SMALL + [(0x00FD, b"")])[0])
        opened(f"{name}, a stream of {length}", lock, password, SMALL + [(0x00FD, some(rest, length))])
        refused(f"{name}, a stream of {length}, another password", book(lock, password, SMALL + [(0x00FD, some(rest, length))])[0], 27, password=password[:-1])
    for length in range(7):
        opened(f"{name}, a BoundSheet8 of {length}", lock, password, SMALL[:2] + [(BOUND_SHEET, some(length, 3)), (EOF, b"")])
    opened(f"{name}, BOF and FILEPASS alone", lock, password, SMALL[:2])
    opened(f"{name}, clear records alone", lock, password, SMALL[:2] + [(n, some(9, n)) for n in SEVEN] + [(BOUND_SHEET, some(4, 1)), (EOF, b"")])
    opened(f"{name}, one enciphered byte", lock, password, SMALL[:2] + [(0x0042, b"\1")])
    opened(f"{name}, a second FILEPASS", lock, password, SMALL[:2] + [(FILEPASS, lock.filepass(password)), (0x0042, b"\1\2"), (FILEPASS, b"")])

# the remaining key sizes, on two blocks side by side and part of a third
for bits in 48, *range(64, 128, 8):
    opened(f"CryptoAPI {bits}, three blocks", CryptoApi(bits), "Unruh 50°", SMALL[:-1] + [(0x00FD, some(2000, bits)), (EOF, b"")])

# padding: every remainder of one to three bytes, of zeros and others, after nothing, after records, and where it is not a remainder but part of a record
REMAINDERS = [bytes(r) for length in (1, 2, 3) for r in itertools.product(*((0, other) for other in (0x2F, 0x01, 0x80)[:length]))]
for rest in REMAINDERS:
    padding, name = not any(rest), rest.hex()
    refused(f"{name} behind nothing", rest, *((7, ()) if padding else (6, (0,))))
    refused(f"{name} behind BOF", B + rest, *((8, ()) if padding else (6, (4,))))
    refused(f"{name} in place of a body", B + struct.pack("<HH", 0x0042, len(rest) + 1) + rest, 6, (4,))
    for lock_name, lock in LOCKS:
        book_ = small(lock, RIGHT)
        if padding:
            opened(f"{lock_name}, {name} behind", lock, RIGHT, SMALL, padding=len(rest))
            refused(f"{lock_name}, {name} behind, another password", book_ + rest, 27, password=RIGHT[:-1])
        else:
            refused(f"{lock_name}, {name} behind", book_ + rest, 6, (len(book_),), password=RIGHT)

# four zeros are a record
for zeros in range(4, 9):
    refused(f"{zeros} zeros alone", bytes(zeros), 7)
    refused(f"{zeros} zeros behind BOF", B + bytes(zeros), 8)
    for name, lock in LOCKS:
        opened(f"{name}, {zeros} zeros behind", lock, RIGHT, SMALL + [(0x0000, b"")] * (zeros // 4), padding=zeros % 4)

# padding and other questions: as without it
SIZE_39 = small(CryptoApi(40, stated=39, name=b""), "A")
for padding in 1, 2, 3:
    more = bytes(padding)
    refused(f"{padding} of padding, FILEPASS first", record(FILEPASS) + more, 7)
    refused(f"{padding} of padding, no FILEPASS", B + record(0x0042, bytes(2)) + record(EOF) + more, 8)
    refused(f"{padding} of padding, another id before FILEPASS", B + record(0x0042) + XOR_BOOK[4:] + more, 9, (0x0042,))
    refused(f"{padding} of padding, FILEPASS of three bytes", B + record(FILEPASS, b"\0\0\x15") + more, 10, (1, 4))
    refused(f"{padding} of padding, a FILEPASS body cut short", B + record(FILEPASS, bytes(6))[:5] + more, 6, (4,))
    refused(f"{padding} of padding, type 2", B + record(FILEPASS, b"\2\0") + more, 11, (2,))
    refused(f"{padding} of padding, key size 39", SIZE_39 + more, 23, (39,))
    refused(f"{padding} of padding, no UTF-8", XOR_BOOK + more, 2, password=b"\xff")
    refused(f"{padding} of padding, a scratch of 63", XOR_BOOK + more, 3, scratch=63)
    opened(f"{padding} of padding, an output as long as the stream", LOCKS[1][1], RIGHT, SMALL, padding=padding, more=0)
    refused(f"{padding} of padding, an output one byte short", XOR_BOOK + more, 5, more=-1)
    refused(f"{padding} of padding, an output as long as the records", XOR_BOOK + more, 5, more=-padding)
    opened(f"{padding} of padding behind BOF and FILEPASS", LOCKS[1][1], RIGHT, SMALL[:2], padding=padding)

# padding near a block's end
for total, padding, (name, lock) in itertools.product(range(1023, 1027), (1, 2, 3), LOCKS):
    rest = total - padding - len(book(lock, RIGHT, SMALL + [(0x00FD, b"")])[0])
    records = SMALL + [(0x00FD, some(rest, total))]
    opened(f"{name}, {total} with {padding} of padding", lock, RIGHT, records, padding=padding)
    refused(f"{name}, {total} with {padding} of padding, another password", book(lock, RIGHT, records)[0] + bytes(padding), 27, password=RIGHT[:-1])

# the refusals of the stream once more, each by the first case above that has its number, at the least scratch and at a longer one
for number, scratch in itertools.product(range(6, 27), (64, 2064)):
    stream, facts, password = firsts[number]
    refused(f"refusal {number}, a scratch of {scratch}", stream, number, facts, password=password, scratch=scratch)

data = b"".join(cases)
assert len(data) <= 393216, "more than the program's buffer holds"
pathlib.Path("crates/short_books/data").mkdir(parents=True, exist_ok=True)
pathlib.Path("crates/short_books/data/cases").write_bytes(data)
pathlib.Path("crates/short_books/stdout").write_text("\n".join(lines) + f"\n{len(lines)} cases\n", encoding="utf-8")
print(len(cases), "cases,", len(data), "bytes")
