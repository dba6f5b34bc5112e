#!/usr/bin/env python3
"""Writes the data of the program `directories`, crates/directories/data/cases, and what it is to print, crates/directories/stdout.

Usage, at the root of the project: tools/make_directories.py. Needs OpenSSL's libcrypto. What is expected is computed here, from the words of requests
T-01 and T-05, by code that shares nothing with the crates. Beside each stream made by hand stands what it must come to, the starts of the sheets or a refusal with
its detail, and the script ends where the two differ. The locked streams are made from plain ones by books.py; the random ones come from a fixed seed.
A stream too long for question 4 has no room here.

In the data each stream is three parts, each behind its length of four bytes, the lower first: a name, the stream, and the places asked for, of eight
bytes each, the lower first. Each place is a case, for which the program prints a line.
"""
import collections
import itertools
import pathlib
import random
import re
import struct

from books import BOF, BOUND_SHEET, EOF, FILEPASS, CryptoApi, Office97, Xor, book, record, some

B, E = record(BOF), record(EOF)
OTHER = record(0x0042, b"\xb0\x04")
FAR = (2 ** 32 - 1, 2 ** 32, 2 ** 63, 2 ** 64 - 1)
parts, lines, tally = [], [], collections.Counter()


def walk(stream):
    """The records, each as its offset, id and body, up to the end or to one that can't be walked, and the offset of that one, or None. One to three bytes
    after the last record, all zero, are the end."""
    records, at = [], 0
    while at < len(stream):
        header = stream[at:at + 4]
        if len(header) < 4:
            return records, at if any(header) else None
        number, length = struct.unpack("<HH", header)
        body = stream[at + 4:at + 4 + length]
        if len(body) < length:
            return records, at
        records.append((at, number, body))
        at += 4 + length
    return records, None


def directory(stream):
    """The starts of the sheets, as a list, or a refusal's number and its detail, as a pair."""
    records, fault = walk(stream)
    if fault is not None:
        return 6, fault
    if not records or records[0][1] != BOF:
        return 7, 0
    headers = {at for at, number, _ in records if number == BOF}
    starts = []
    for at, number, body in records:
        if number == BOUND_SHEET:
            start = int.from_bytes(body[:4], "little")
            if len(body) < 4 or start not in headers:
                return 28, at
            starts.append(start)
    opened = []
    for at, number, _ in records:
        if number == BOF:
            opened.append(at)
        elif number == EOF:
            if not opened:
                return 29, at
            opened.pop()
    if opened:
        return 29, len(stream)
    return starts


def case(name, stream, expected, places=None):
    """A case for each place: `expected` as `directory` gives it. Where no places are given: all up to one past the count, and far ones."""
    told = directory(stream)
    assert told == expected, (name, told, expected)
    refused = isinstance(told, tuple)
    if places is None:
        places = (0, 2 ** 64 - 1) if refused else (*range(len(told) + 2), *FAR)
    for place in places:
        if refused:
            number, facts = told[0], told[1:]
        elif place < len(told):
            number, facts = 0, (len(told), 1, told[place])
        else:
            number, facts = 0, (len(told),)
        tally[number] += 1
        lines.append(f"{name}, place {place} directory {number}: " + " ".join(map(str, (*facts, *[0] * 8)[:8])))
    asked = b"".join(struct.pack("<Q", place) for place in places)
    parts.extend((name.encode("ascii"), stream, asked))


def sheet(start, rest=b""):
    return record(BOUND_SHEET, struct.pack("<I", start) + rest)


# 6: what can't be walked; zeros after the last record can
for length in 1, 2, 3:
    case(f"a header of {length}", B[:length], (6, 0))
    case(f"a header of {length} behind BOF", B + E[:length], (6, 4))
    case(f"a header of {length} behind BOF and EOF", B + E + B[:length], (6, 8))
    case(f"a pair of brackets and zero bytes, {length}", B + E + bytes(length), [])
case("the first body one byte short", record(BOF, bytes(16))[:-1], (6, 0))
case("the last body one byte short", B + E + OTHER[:-1], (6, 8))
case("the last body as long as the stream", B + E + OTHER, [])
case("a body that is not there, of 65535", B + E + struct.pack("<HH", 0x0042, 0xFFFF), (6, 8))
case("an EOF that is cut", B + record(EOF, bytes(2))[:-1], (6, 4))
case("a BoundSheet8 that is cut", B + E + sheet(0)[:-1], (6, 8))
case("a BoundSheet8 that is cut behind four bytes", B + E + sheet(0, b"\0")[:-1], (6, 8))

# 7: what comes first
case("empty", b"", (7, 0), (0, 1, *FAR))
for number in 0x0000, EOF, FILEPASS, BOUND_SHEET, 0x0009, 0x0209, 0x0409, 0x0808, 0x080A, 0x0908, 0x0909:
    case(f"first id {number:04x}", record(number, bytes(4)) + B + E, (7, 0))

# how many there are, and which
case("BOF alone", B, (29, 4), (0, 1, *FAR))
case("BOF and EOF", B + E, [])
case("no sheets", record(BOF, bytes(16)) + OTHER + E + B + OTHER + E, [])
case("one sheet", B + sheet(16) + E + B + E, [16])
for order in itertools.permutations((32, 40, 48)):
    case(f"three sheets, {' '.join(map(str, order))}", B + b"".join(map(sheet, order)) + E + (B + E) * 3, list(order))
case("three BoundSheet8, two of the same start", B + sheet(32) + sheet(40) + sheet(32) + E + (B + E) * 2, [32, 40, 32])
case("three BoundSheet8 of the same start", B + sheet(32) * 3 + E + B + E, [32, 32, 32])
MANY = [2408 + 8 * k for k in range(300)]
SOME = (0, 1, 127, 128, 255, 256, 257, 298, 299, 300, 301, 555, 556, 65536, *FAR)
case("300 sheets, rising", B + b"".join(map(sheet, MANY)) + E + (B + E) * 300, MANY, SOME)
case("300 sheets, falling", B + b"".join(map(sheet, MANY[::-1])) + E + (B + E) * 300, MANY[::-1], SOME)
case("300 sheets, no BOF for the last", B + b"".join(map(sheet, MANY)) + E + (B + E) * 299 + record(0x0808) + record(0x000B), (28, 2396), SOME)
case("a start of 0", B + sheet(0) + E, [0])
case("a start of 0 and another", B + sheet(0) + sheet(24) + E + B + E, [0, 24])
case("the start of a chart", B + sheet(20) + E + B + B + E + E, [20])
case("the starts of a sheet and its chart", B + sheet(24) + sheet(28) + E + B + B + E + E, [24, 28])
case("a start right behind", B + sheet(12) + B + E + E, [12])
case("a BoundSheet8 in a sheet", B + E + B + sheet(8) + E, [8])
case("a BoundSheet8 in a chart", B + E + B + B + sheet(12) + E + E, [12])
case("a BoundSheet8 between two sheets", B + E + sheet(16) + B + E, [16])
case("a BoundSheet8 behind the last EOF", B + E + sheet(0), [0])
case("three BoundSheet8 behind the last EOF", B + E + sheet(0) * 3, [0, 0, 0])
case("BoundSheet8 everywhere", B + sheet(24) + E + sheet(0) + B + sheet(36) + B + sheet(24) + E + E + sheet(36), [24, 0, 36, 24, 36])
NAMED = record(BOF, bytes(16)) + OTHER + sheet(72, b"\0\0\5\0Sheet") + sheet(96, b"\0\2\5\0Chart") + record(0x00FC, bytes(4)) + E
case("sheets with names", NAMED + record(BOF, bytes(8)) + OTHER + record(EOF, b"\7\7") + record(BOF, b"\7" * 16) + E, [72, 96])
case("a start past 65535", B + sheet(65555) + record(0x00FC, bytes(65535)) + E + B + E, [65555])

# the length of a BoundSheet8's body
for length in range(6):
    good, body = length >= 4, record(BOUND_SHEET, bytes(length))
    case(f"a BoundSheet8 of {length}", B + body + E, [0] if good else (28, 4))
    case(f"a BoundSheet8 of {length}, zeros behind it", B + body + record(0, bytes(4)) + E, [0] if good else (28, 4))
    case(f"a BoundSheet8 of {length} at the end", B + E + body, [0] if good else (28, 8))
    case(f"a BoundSheet8 of {length} behind a good one", B + sheet(0) + E + body, [0, 0] if good else (28, 16))
    # the four bytes from the body's start on name the BOF at 22, whatever the body's length
    start = struct.pack("<I", 22) + b"\xff"
    stream = B + record(BOUND_SHEET, start[:length]) + record(0 if length else 22) + record(0x0042, bytes(6 - length)) + B + E + E
    assert stream[8:12] == start[:4]
    case(f"a BoundSheet8 of {length} where four bytes name a BOF", stream, [22] if good else (28, 4))

# every start up to past the end, and high ones. BOF are at 0 and 38, the BoundSheet8 itself at 20, other records at 28 and 58, EOF at 34 and 70, and
# from 62 on a body looks like BOF and EOF
HEAD, TAIL = record(BOF, bytes(16)), OTHER + E + record(BOF, bytes(16)) + record(0x0204, B + E) + E
assert len(HEAD) + 8 + len(TAIL) == 74
HIGH = [start for k in (8, 16, 24, 31) for start in (2 ** k, 2 ** k + 38)] + [38 << 8, 38 << 16, 38 << 24, 2 ** 31 - 1, 2 ** 32 - 38, 2 ** 32 - 1]
for start in *range(77), *HIGH:
    case(f"start {start}", HEAD + sheet(start) + TAIL, [start] if start in (0, 38) else (28, 20), (0,))

# 28 is asked of every BoundSheet8, whatever the place: of three, each choice of bad ones, of which the first is at 4, 12 or 20
for bad in itertools.product((False, True), repeat=3):
    for kind, wrong in ("start", sheet(1)), ("body", record(BOUND_SHEET, bytes(3))):
        stream = B + b"".join(wrong if fault else sheet(0) for fault in bad) + E
        if any(bad):
            words = " and ".join(str(k) for k in range(3) if bad[k])
            case(f"a bad {kind} in BoundSheet8 {words}", stream, (28, 4 + 8 * bad.index(True)), (0, 1, 2, 3, 2 ** 64 - 1))
case("a bad start, then a short body", B + sheet(1) + record(BOUND_SHEET) + E, (28, 4))
case("a short body, then a bad start", B + record(BOUND_SHEET) + sheet(1) + E, (28, 4))
case("a bad one in a sheet", B + sheet(16) + E + B + sheet(17) + E, (28, 20))
case("a bad one in a chart", B + sheet(16) + E + B + B + sheet(17) + E + E, (28, 24))
case("a bad one behind the last EOF", B + sheet(0) + E + sheet(4), (28, 16))

# brackets
for length in range(1, 8):
    for rest in itertools.product("BE", repeat=length - 1):
        word = "B" + "".join(rest)
        # what pairs up is struck out, the innermost first
        left = word
        while (fewer := re.sub("B(-*)E", r"-\1-", left)) != left:
            left = fewer
        told = (29, 4 * left.index("E")) if "E" in left else (29, 4 * length) if "B" in left else []
        case(f"brackets {word}", b"".join(B if letter == "B" else E for letter in word), told, (0,))
for one, two in itertools.product((0, 4, 16), (0, 1, 4, 300)):
    long, last = record(BOF, bytes(one)), record(EOF, bytes(two))
    name = f"BOF of {one}, EOF of {two}"
    case(f"{name}, a sheet", long + sheet(len(long + last) + 8) + last + long + last, [len(long + last) + 8], (0, 1))
    case(f"{name}, a chart in it", long + last + long + long + last + last, [], (0,))
    case(f"{name}, an EOF too many", long + last + last + long, (29, len(long + last)), (0,))
    case(f"{name}, a BOF left open", long + last + long + OTHER, (29, len(long + last + long + OTHER)), (0,))
case("charts in sheets", B + E + B + B + E + OTHER + B + E + E + B + B + B + E + E + OTHER + E, [])
case("records outside of all", B + OTHER + E + OTHER + B + E + OTHER, [])
case("an EOF too many, records around it", B + OTHER + E + OTHER + E + OTHER + B + E, (29, 20))
case("an EOF too many at the end", B + E + B + B + E + E + OTHER + E, (29, 30))
case("a BOF left open, a record behind it", B + E + B + OTHER, (29, 18))
case("two EOF too many, a BOF left open", B + E + E + OTHER + E + B, (29, 8))
case("sheets, an EOF too many", B + sheet(16) + E + B + E + E, (29, 24))
case("sheets, the last left open", B + sheet(16) + E + B, (29, 20))
case("300 deep", B * 300 + sheet(1196) + E * 300, [1196])
case("300 deep, one left open", B * 300 + E * 299, (29, 2396))
case("300 deep, an EOF too many", B * 300 + E * 301 + B, (29, 2400))
case("257 deep, all but one left open", B * 257 + E, (29, 1032))

# ids near the three mean nothing: no such record is a bracket, or a sheet with a short body, or named by a start
for number in (0x0000, 0x0009, 0x000B, 0x0084, 0x0086, 0x010A, 0x0185, 0x0209, 0x0409, 0x0808, 0x080A, 0x0908, 0x0909, 0x0A00, 0x800A, 0x8085, 0x8500,
               0x8809, 0xFFFF):
    case(f"id {number:04x}", B + record(number, b"\1") + E + record(number), [], (0,))
    case(f"id {number:04x} of a bad start", B + record(number, b"\1\0\0\0") + E, [], (0,))
    case(f"id {number:04x} with a start on it", B + record(number) + sheet(4) + E, (28, 8), (0,))


def broken(faults, stray, cut):
    """A stream that breaks the given ones of 6, 7, 28 and 29, and the detail of each."""
    stream, details = record(0x0808) if 7 in faults else B + E, {7: 0}
    if 29 in faults and stray == "EOF before":
        details[29] = len(stream)
        stream += E
    details[28] = len(stream)
    stream += sheet(1 if 28 in faults else len(stream) + 8) + B + E
    if 29 in faults and stray == "EOF behind":
        details[29] = len(stream)
        stream += E
    if 29 in faults and stray == "BOF left":
        stream += B
        details[29] = len(stream)
    if 6 in faults:
        details[6] = len(stream)
        stream += E[:2] if cut == "header" else record(0x00FC, bytes(9))[:-1]
    return stream, details


# every one of 6, 7, 28 and 29, and every two, three and all of them in one stream: the earlier one is the refusal
for count in 1, 2, 3, 4:
    for faults in itertools.combinations((6, 7, 28, 29), count):
        strays = ("EOF before", "EOF behind", "BOF left") if 29 in faults else ("",)
        for stray, cut in itertools.product(strays, ("header", "body") if 6 in faults else ("",)):
            stream, details = broken(faults, stray, cut)
            words = ", ".join(filter(None, (" and ".join(map(str, faults)), stray, cut)))
            case(f"breaks {words}", stream, (faults[0], details[faults[0]]), (0, 1, 2 ** 64 - 1))


def offsets(records):
    """The records with their starts written, and where each is, and the end. A start is given as the place in the list of the record it names."""
    records = [(r[0], bytes(4) + r[2], r[1]) if len(r) == 3 else (*r, None) for r in records]
    at = [0, *itertools.accumulate(4 + len(body) for _, body, _ in records)]
    return [(number, body if named is None else struct.pack("<I", at[named]) + body[4:]) for number, body, named in records], at


def both(name, lock, password, records, expected, rest=b""):
    """A locked book and its plain form, which have the same answer: `expected` computes it from where the records are. `rest` comes after both."""
    records, at = offsets([(FILEPASS, lock.filepass(password)) if r == (FILEPASS, b"") else r for r in records])
    locked, plain = book(lock, password, records)
    case(f"{name}, locked", locked + rest, expected(at))
    case(f"{name}, plain", plain + rest, expected(at))


# locked books: a sheet with a chart in it and a second sheet, named out of order, the second twice
BOOK = [
    (BOF, some(16, 1)), (FILEPASS, b""), (0x0042, b"\xb0\x04"),
    (BOUND_SHEET, 8, b"\0\0\5\0Sheet"), (BOUND_SHEET, 14, b"\0\0\4\0Late"), (BOUND_SHEET, 10, b""), (0x00FC, some(90, 2)), (EOF, b""),
    (BOF, some(16, 3)), (0x0203, some(14, 4)), (BOF, some(16, 5)), (0x1002, some(16, 6)), (EOF, b""), (EOF, b""),
    (BOF, some(16, 7)), (BOUND_SHEET, 14, b"\0"), (EOF, b"\7\7"),
]
LOCKS = ("XOR", Xor(), Xor().passwords(8)[0]), ("1.1", Office97(), "calibre"), ("CryptoAPI", CryptoApi(), "calibre")
for name, lock, password in LOCKS:
    both(f"{name}, four sheets", lock, password, BOOK, lambda at: [at[8], at[14], at[10], at[14]])
    both(f"{name}, three blocks", lock, password, BOOK[:6] + [(0x00FC, some(2100, 8))] + BOOK[7:], lambda at: [at[8], at[14], at[10], at[14]])
    both(f"{name}, no sheets", lock, password, BOOK[:3] + BOOK[7:9] + BOOK[16:], lambda at: [])
    both(f"{name}, a short body", lock, password, BOOK[:4] + [(BOUND_SHEET, bytes(3))] + BOOK[5:], lambda at: (28, at[4]))
    both(f"{name}, a start on the lock", lock, password, BOOK[:5] + [(BOUND_SHEET, 1, b"")] + BOOK[6:], lambda at: (28, at[5]))
    both(f"{name}, a start on an EOF", lock, password, BOOK[:15] + [(BOUND_SHEET, 13, b"")] + BOOK[16:], lambda at: (28, at[15]))
    both(f"{name}, an EOF too many in the midst", lock, password, BOOK[:11] + [(EOF, b"\7")] + BOOK[12:], lambda at: (29, at[13]))
    both(f"{name}, an EOF too many at the end", lock, password, BOOK + [(EOF, b"\7\7")], lambda at: (29, at[17]))
    both(f"{name}, the last left open", lock, password, BOOK[:16], lambda at: (29, at[16]))
    both(f"{name}, a bad start and a BOF left open", lock, password, BOOK[:5] + [(BOUND_SHEET, 7, b"")] + BOOK[6:16], lambda at: (28, at[5]))


# padding: every remainder of one to three bytes, of zeros and others. Zeros leave the answer as it is, except that a BOF left open has the full length
REMAINDERS = [bytes(r) for length in (1, 2, 3) for r in itertools.product(*((0, other) for other in (0x2F, 0x01, 0x80)[:length]))]
for rest in REMAINDERS:
    for name, stream, told in (
        ("nothing", b"", (7, 0)),
        ("another first id", record(0x0808) + B + E, (7, 0)),
        ("BOF and EOF", B + E, []),
        ("two sheets", B + sheet(24) + sheet(32) + E + (B + E) * 2, [24, 32]),
        ("a bad start", B + sheet(24) + sheet(25) + E + B + E, (28, 12)),
        ("a start on the remainder", B + sheet(16) + E, (28, 4)),
        ("an EOF too many", B + E + E + B, (29, 8)),
        ("a BOF left open", B + E + B, (29, 12)),
    ):
        if any(rest):
            told = 6, len(stream)
        elif name == "a BOF left open":
            told = 29, len(stream) + len(rest)
        case(f"{rest.hex()} behind {name}", stream + rest, told)
    case(f"{rest.hex()} in place of a body", B + E + struct.pack("<HH", 0x0042, len(rest) + 1) + rest, (6, 8))
    case(f"{rest.hex()} in place of a BoundSheet8's body", B + E + struct.pack("<HH", BOUND_SHEET, 4) + rest, (6, 8))

# four zeros are a record
for zeros in range(4, 9):
    case(f"{zeros} zeros alone", bytes(zeros), (7, 0))
    case(f"{zeros} zeros behind BOF and EOF", B + E + bytes(zeros), [])
    case(f"{zeros} zeros behind a BOF left open", B + bytes(zeros), (29, 4 + zeros))
    case(f"{zeros} zeros behind a start on the first", B + sheet(16) + E + bytes(zeros), (28, 4))

# locked books and their plain forms, padded
for name, lock, password in LOCKS:
    for padding in 1, 2, 3:
        both(f"{name}, {padding} of padding", lock, password, BOOK, lambda at: [at[8], at[14], at[10], at[14]], bytes(padding))
    both(f"{name}, padding, a short body", lock, password, BOOK[:4] + [(BOUND_SHEET, bytes(3))] + BOOK[5:], lambda at: (28, at[4]), bytes(2))
    both(f"{name}, padding, the last left open", lock, password, BOOK[:16], lambda at: (29, at[16] + 3), bytes(3))
    both(f"{name}, a remainder that is no padding", lock, password, BOOK, lambda at: (6, at[17]), b"\0\0\1")


# random streams
dice, chance = random.Random(1), collections.Counter()


def toss(share):
    return dice.random() < share


def loose():
    """A small stream of brackets, BoundSheet8 and others, in which now and then something is wrong."""
    ids, depth = [BOF if toss(0.92) else dice.choice((0x0808, EOF, BOUND_SHEET, 0x0042))], 1
    for _ in range(dice.randrange(14)):
        number = dice.choice((BOF, BOF, EOF, EOF, BOUND_SHEET, BOUND_SHEET, BOUND_SHEET, 0x0042, 0x0808, 0x0000))
        if number != EOF or depth > 0 or toss(0.3):
            ids.append(number)
            depth += (number == BOF) - (number == EOF)
    if toss(0.85):
        ids += [EOF] * depth
    lengths = [dice.choice((4, 4, 5, 6)) if number == BOUND_SHEET and toss(0.97) else dice.choice((0, 0, 1, 2, 3)) for number in ids]
    at = [0, *itertools.accumulate(4 + length for length in lengths)]
    headers = [at[k] for k, number in enumerate(ids) if number == BOF] or [0]
    stream = b""
    for number, length in zip(ids, lengths):
        start = dice.choice(headers) if toss(0.93) else dice.choice((dice.choice(headers) + 1, dice.choice(at), dice.randrange(at[-1] + 2)))
        stream += record(number, (struct.pack("<I", start) + b"\7\7")[:length] if number == BOUND_SHEET else B[:length])
    return stream if toss(0.9) else stream[:dice.randrange(len(stream))]


for k in range(500):
    stream = loose()
    told = directory(stream)
    chance[told[0] if isinstance(told, tuple) else 0] += 1
    case(f"random {k}", stream, told, sorted({0, dice.randrange(1, 6), dice.choice(FAR)}))
assert all(chance[number] >= 40 for number in (0, 6, 7, 28, 29)), chance

data = b"".join(struct.pack("<I", len(part)) + part for part in parts)
assert len(data) <= 262144, "more than the program's buffer holds"
pathlib.Path("crates/directories/data").mkdir(parents=True, exist_ok=True)
pathlib.Path("crates/directories/data/cases").write_bytes(data)
pathlib.Path("crates/directories/stdout").write_text("\n".join(lines) + f"\n{len(lines)} cases\n", encoding="ascii")
print(len(lines), "cases,", len(parts) // 3, "streams,", len(data), "bytes")
print("cases by answer:", dict(sorted(tally.items())))
print("random streams by answer:", dict(sorted(chance.items())))
