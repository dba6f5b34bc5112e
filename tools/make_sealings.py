#!/usr/bin/env python3
"""Writes the data of the program `sealings`, crates/sealings/data/cases_1 to cases_3, and what it is to print, crates/sealings/stdout.

Usage, at the root of the project: tools/make_sealings.py. Needs OpenSSL's libcrypto. A sealed stream is not made from a plain one: books.py makes both from
their records, with CPython's MD5 and SHA-1, OpenSSL's RC4 (libcrypto's RC4_set_key and RC4, by ctypes) and Apache POI's key, verifier and array (rotated back by three bits, as XorVectors.java has it) of an XOR
password, and the report is what locking took. Above U+007F POI's values are not MS-OFFCRYPTO's (docs/DIFFERENCES.md); those of the passwords in LATIN are
the Rust source's, as `differ xor` of oracle/ prints them. Each refusal is stated here with its case, from document 02's list of checks (T-07). Salt and
verifier of a case are MD5 digests of words with its name, so that they are fixed and differ from case to case.

In the data a case comes after its length; all numbers have four bytes, the lower first. First come the lock (0 XOR, 1 1.1, 2 CryptoAPI), the major version,
the key size, the lengths of scratch and output, the number of the answer and its seven facts, then salt and verifier of 16 bytes each; then five parts, each
after its length: the name, the password, another password, the plain stream and the sealed one, of which the third and the last have no bytes where sealing is
refused. The program lends bytes (offset mod 251) + 1, which are never zero.
"""
import collections
import hashlib
import itertools
import pathlib
import random
import struct

from books import BOF, BOUND_SHEET, EOF, FILEPASS, LONGEST, SEVEN, CryptoApi, Office97, Xor, characters, record, reported, some

XOR = Xor()
LOCKS = {"XOR": (0, 6), "1.1": (1, 54), "CryptoAPI": (2, 106)}  # the number of each, and the shortest body that it needs
B, CELL, E = record(BOF), record(0x0042, b"\xb0\x04"), record(EOF)
RIGHT = XOR.passwords(8)[0]
LATIN = {  # key, verifier and array
    "\u0080": (0xE1F0, 0xCF4A, "382d870f250f872c38f02777782ffff0"),
    "\u009f": (0x022E, 0xCF74, "d8dce8fe4afee8dd5701488617de9001"),
    "\u00e9": (0x1C7F, 0xCF98, "4bd340f1e2f140d2ff0ee089bfd1380e"),
    "\u00ff": (0x6E88, 0xCFB4, "bbeabbc819c8bbeb04371bb044e8c337"),
    "Kalibr\u00e9": (0x2358, 0xAEEE, "89211a251da8d84cd36e716ed34d6c91"),
    "Unruh 50\u00b0 \u00e4\u00f6\u00fc\u00df": (0x487B, 0x8454, "1713849e8934273ce534cf5fc3cb60db"),
    "\u00ff" * 15: (0xD464, 0xCE44, "cd95cd95cd95cd95cd95cd95cd95cdb7"),
}
cases, names, tally = [], set(), collections.Counter()


def fresh(name):
    """The salt and the verifier of a case."""
    return tuple(hashlib.md5(word + name.encode()).digest() for word in (b"salt of ", b"verifier of "))


def behind_length(data):
    return struct.pack("<I", len(data)) + data


def zero(length):
    return record(0, bytes(length))


def case(name, lock, plain, password, number, facts, other="", sealed=b"", major=2, bits=128, scratch=70, more=3):
    """One case: `number` and `facts` are what sealing returns, and `sealed` the stream that it leaves, where None means that the output is untouched."""
    assert name not in names and name.isascii(), name
    names.add(name)
    password, other = (text if isinstance(text, bytes) else text.encode() for text in (password, other))
    output = len(plain) + more
    assert 0 <= output <= 8192 and scratch <= 8192
    terms = LOCKS[lock][0], major, bits, scratch, output, number, *(*facts, *[0] * 7)[:7]
    parts = b"".join(map(behind_length, (name.encode(), password, other, plain, sealed)))
    cases.append(behind_length(struct.pack("<13I", *terms) + b"".join(fresh(name)) + parts))
    tally[number] += 1
    if number == 0:
        tally[lock] += 1


def another(lock, password):
    """Another password: under XOR one of POI's with another key and verifier, else one that differs in its last character."""
    if lock == "XOR":
        key, verifier, _ = XOR.known[password]
        return next(p for p in XOR.passwords(len(password)) if XOR.known[p][0] != key and XOR.known[p][1] != verifier)
    return password[:-1] + chr(ord(password[-1]) ^ 1) if password else "A"


def seals(name, lock, password, records, padding=0, length=None, major=2, bits=128, other=None, **rest):
    """A stream that seals: the records have a FILEPASS of no body where the zero record is to be, whose body has `length` bytes."""
    salt, verifier = fresh(name)
    if lock == "XOR":
        made = XOR
    elif lock == "1.1":
        made = Office97(salt=salt, verifier=verifier)
    else:
        made = CryptoApi(bits, major=major, name=bytes((length or 106) - 106), salt=salt, verifier=verifier)
    sealed, plain, told = reported(made, password, records, padding)
    case(name, lock, plain, password, 0, told, another(lock, password) if other is None else other, sealed, major, bits, **rest)


def refused(name, lock, plain, number, facts=(), password=RIGHT, **rest):
    case(name, lock, plain, password, number, facts, **rest)


def at_lock(lock, behind=CELL + E, length=None):
    """A plain stream with a zero record that suits the lock, or one of another length."""
    return B + zero(LOCKS[lock][1] if length is None else length) + behind


START = [(BOF, some(16, 1)), (FILEPASS, b"")]
SMALL = START + [(0x0042, b"\xb0\x04"), (BOUND_SHEET, some(9, 5)), (0x00E1, b"\xb0\x04"), (EOF, b"")]
LONG = SMALL[:-1] + [(0x00FC, some(900, 3)), (BOUND_SHEET, some(12, 4)), (0x00FD, some(1500, 6)), (EOF, b"")]

# each lock, with up to three bytes of padding and then with the record that four zeros are
for lock, padding in itertools.product(LOCKS, range(8)):
    seals(f"{lock}, {padding} zeros behind", lock, RIGHT, SMALL + [(0, b"")] * (padding // 4), padding % 4)
for lock, rest in itertools.product(LOCKS, (b"\1", b"\0\1", b"\1\0", b"\0\0\1", b"\1\0\0", b"\x2f\0\0")):
    refused(f"{lock}, {rest.hex()} behind", lock, at_lock(lock) + rest, 6, (len(at_lock(lock)),))

# CryptoAPI: 13 and 23, all that is admitted, and three blocks under each key size
for major, bits in itertools.product((2, 3, 4), range(40, 129, 8)):
    seals(f"version {major}.2, key size {bits}", "CryptoAPI", "calibre", SMALL, major=major, bits=bits)
for major in 0, 1, 5, 6, 255, 258, 513, 0x0300, 65535:
    refused(f"version {major}.2", "CryptoAPI", at_lock("CryptoAPI"), 13, (major, 2), major=major)
for bits in (0, 1, 5, 8, 16, 24, 32, 39, 41, 44, 47, 52, 68, 100, 127, 129, 132, 136, 144, 160, 256, 296, 384, 4096, 2 ** 16 + 40, 2 ** 24 + 128, 2 ** 31 + 40,
             2 ** 32 - 88, 2 ** 32 - 1):
    refused(f"key size {bits}", "CryptoAPI", at_lock("CryptoAPI"), 23, (bits,), bits=bits)
for bits in range(40, 129, 8):
    seals(f"three blocks, key size {bits}", "CryptoAPI", "Unruh 50°", LONG, major=2 + bits // 8 % 3, bits=bits)
for lock in "XOR", "1.1":
    seals(f"{lock}, three blocks", lock, XOR.passwords(15)[1], LONG)
    # neither is asked for these
    seals(f"{lock}, version 9.2, key size 9", lock, RIGHT, SMALL, major=9, bits=9)
    seals(f"{lock}, version 0.2, key size 0", lock, RIGHT, SMALL, major=0, bits=0)

# 31: the length of the zero record's body
for length in 106, 107, 108, 122, 255, 256, 257, 361, 362, 511, 512, 1023, 1024, 1097, 1098:
    seals(f"CryptoAPI, a body of {length}", "CryptoAPI", "calibre", SMALL, length=length)
LENGTHS = 0, 1, 2, 4, 5, 6, 7, 14, 52, 53, 54, 55, 74, 105, 106, 107, 262, 310, 1098, 1099, 1100, 2000
for lock, length in itertools.product(LOCKS, LENGTHS):
    fits = {"XOR": length == 6, "1.1": length == 54, "CryptoAPI": 106 <= length <= 1098}[lock]
    if not fits:
        refused(f"{lock}, a body of {length}", lock, at_lock(lock, length=length), 31, (length,))
for lock in LOCKS:
    refused(f"{lock}, four zeros behind BOF", lock, B + bytes(4), 31, (0,))
    refused(f"{lock}, seven zeros behind BOF", lock, B + bytes(7), 31, (0,))
    refused(f"{lock}, an unfit zero record before one that fits", lock, B + zero(LOCKS[lock][1] - 1) + at_lock(lock)[4:], 31, (LOCKS[lock][1] - 1,))

# 1, 2 and 32: the password
for length in range(1, 16):
    for password in XOR.passwords(length)[:1] + XOR.passwords(length)[-1:]:
        seals(f"XOR, password {password.encode().hex()} of {length}", "XOR", password, SMALL)
for password, (key, verifier, array) in LATIN.items():
    XOR.known[password] = key, verifier, bytes.fromhex(array)
    seals(f"XOR, password {password.encode().hex()} of {len(password)}", "XOR", password, SMALL)
for lock in "1.1", "CryptoAPI":
    for password in "", "A", "\0", characters(15), characters(16), "\u00ff", "\u0100", "\u20ac", "\U0001d11e", *LONGEST:
        text = password.encode()
        seals(f"{lock}, a password of {len(text)} bytes, {text[:8].hex()}", lock, password, SMALL)
for password in "", characters(16), "\u0100", "A" * 14 + "\u0100", "\u0100" * 15, "\u20ac", "\U0001d11e", "\u00ff" * 16, *LONGEST:
    text = password.encode()
    refused(f"XOR, a password of {len(text)} bytes, {text[:4].hex()} to {text[-2:].hex()}", "XOR", at_lock("XOR"), 32, password=password)
for lock in LOCKS:
    refused(f"{lock}, a password of 1025 bytes", lock, at_lock(lock), 1, password="p" * 1025)
    for text in "80", "c1bf", "c2", "e09fbf", "eda080", "efbf", "f08fbfbf", "f4908080", "ff", "41ff", "c3":
        refused(f"{lock}, a password of bytes {text}", lock, at_lock(lock), 2, password=bytes.fromhex(text))
    # other passwords that opening refuses: of no characters, too long for XOR, above U+00FF, one character less and one more
    for other in "", "A" * 16, "\u0100", RIGHT[:-1], RIGHT + " ", RIGHT[1:] + RIGHT[:1]:
        seals(f"{lock}, opened with bytes {other.encode().hex()}", lock, RIGHT, SMALL, other=other)

# 3 and 5: the scratch and the output
for lock in LOCKS:
    for scratch in 64, 65, 128, 2064, 2070:
        seals(f"{lock}, a scratch of {scratch}", lock, RIGHT, SMALL, scratch=scratch)
    for scratch in 0, 1, 32, 63:
        refused(f"{lock}, a scratch of {scratch}", lock, at_lock(lock), 3, scratch=scratch)
    for more in 0, 1, 2, 100:
        seals(f"{lock}, an output of {more} more", lock, RIGHT, SMALL, more=more)
        seals(f"{lock}, padding, an output of {more} more", lock, RIGHT, SMALL, 2, more=more)
    plain = at_lock(lock)
    for more in -1, -2, -len(plain):
        refused(f"{lock}, an output {-more} bytes short", lock, plain, 5, more=more)
        refused(f"{lock}, padding, an output {-more} bytes short", lock, plain + bytes(3), 5, more=more)

# 6 and 7
for lock in LOCKS:
    plain = at_lock(lock)
    for name, end in ("a header of 1 byte", E[:1]), ("a header of 3 bytes", E[:3]), ("a body cut short", CELL[:5]):
        refused(f"{lock}, {name}", lock, plain + end, 6, (len(plain),))
    refused(f"{lock}, a zero record cut short", lock, B + zero(LOCKS[lock][1])[:-1], 6, (4,))
    refused(f"{lock}, a BOF cut short", lock, B[:3], 6, (0,))
    for padding in range(4):
        refused(f"{lock}, {padding} zeros alone", lock, bytes(padding), 7)
        refused(f"{lock}, no BOF, {padding} of padding", lock, plain[4:] + bytes(padding), 7)
    for number in 0x0000, 0x0009, 0x00E1, 0x0808, 0x080A, 0x0908, 0x0909, FILEPASS:
        refused(f"{lock}, first id {number:04x}", lock, record(number) + plain[4:], 7)

# 30: the zero record
for lock, (_, length) in LOCKS.items():
    whole, behind = zero(length), CELL + E
    bare = [(name, stream + bytes(padding)) for padding in range(4) for name, stream in (
        (f"BOF alone, {padding} of padding", B), (f"no zero record, {padding} of padding", B + CELL + E))]
    six = b"".join(record(n, b"\7\7") for n in SEVEN if n != FILEPASS)
    bare += [("no zero record behind six of the seven", six), ("an EOF behind BOF", B + E)]
    for name, stream in bare:
        refused(f"{lock}, {name}", lock, stream, 30)
    for at in 0, 1, length // 2, length - 2, length - 1:
        for byte in 1, 0x80:
            body = bytearray(length)
            body[at] = byte
            refused(f"{lock}, byte {at} of the body is {byte:02x}", lock, B + record(0, bytes(body)) + behind, 30)
    refused(f"{lock}, a body of {length} ones", lock, B + record(0, b"\1" * length) + behind, 30)
    # the length of a record that is not a zero record does not matter
    for unfit in 1, length - 1, length + 1:
        refused(f"{lock}, a body of {unfit}, the last byte 01", lock, B + record(0, bytes(unfit - 1) + b"\1") + behind, 30)
        refused(f"{lock}, id 0042 with a zero body of {unfit}", lock, B + record(0x0042, bytes(unfit)) + behind, 30)
    refused(f"{lock}, a last byte of 01, and a zero record behind it", lock, B + record(0, bytes(length - 1) + b"\1") + whole + behind, 30)
    for number in 0x0001, 0x0080, 0x0100, 0x8000, 0x002E, 0x0030, 0x012F, 0x2F00, 0x0042, BOUND_SHEET, EOF, 0x0808, 0x00E0, 0x0137, 0x0193, 0x0197, 0xFFFF:
        refused(f"{lock}, id {number:04x} with a zero body", lock, B + record(number, bytes(length)) + behind, 30)
        refused(f"{lock}, id {number:04x} with a zero body before the zero record", lock, B + record(number, bytes(2)) + whole + behind, 30)
        refused(f"{lock}, id {number:04x} with no body before the zero record", lock, B + record(0x00E1, bytes(2)) + record(number) + whole + behind, 30)
    for name, body in ("no", b""), ("a zero", bytes(length)), ("an XOR", XOR.filepass(RIGHT)):
        refused(f"{lock}, a FILEPASS of {name} body before the zero record", lock, B + record(FILEPASS, body) + whole + behind, 30)
        refused(f"{lock}, a FILEPASS of {name} body after another of the seven", lock, six + record(FILEPASS, body) + whole + behind, 30)
        refused(f"{lock}, a FILEPASS of {name} body and no zero record", lock, B + record(FILEPASS, body) + behind, 30)
        seals(f"{lock}, a FILEPASS of {name} body behind the zero record", lock, RIGHT, START + [(FILEPASS, body), (0x0042, b"\1\2"), (FILEPASS, body)])
    seals(f"{lock}, a second zero record", lock, RIGHT, SMALL[:2] + [(0, bytes(length)), (0x0042, b"\1"), (0, bytes(3))])
    seals(f"{lock}, an id 0000 with other bytes behind", lock, RIGHT, SMALL[:2] + [(0, some(length, 9)), (0, b"")])

# layouts: what is clear, and where blocks end
SIX = [(n, some(k, k)) for k, n in enumerate(SEVEN) if n != FILEPASS]
AFTER = [(BOUND_SHEET, some(k, 7 * k)) for k in (0, 1, 2, 3, 4, 5, 30)] + [(FILEPASS, some(40, 3))] + [(n, some(20 + k, k)) for k, n in enumerate(SEVEN)]
for lock, (_, length) in LOCKS.items():
    seals(f"{lock}, BOF and the zero record alone", lock, RIGHT, START)
    seals(f"{lock}, BOF of no body and the zero record alone", lock, RIGHT, [(BOF, b""), START[1]], 1)
    seals(f"{lock}, all seven ids with bodies", lock, RIGHT, SIX + [START[1]] + AFTER + [(EOF, b"")])
    seals(f"{lock}, one enciphered byte", lock, RIGHT, START + [(0x0042, b"\1")])
    for k in range(7):
        seals(f"{lock}, a BoundSheet8 of {k}", lock, RIGHT, START + [(BOUND_SHEET, some(k, 3)), (EOF, b"")], k % 4)
    for k in range(1, 34):
        if lock == "XOR" or k % 8 == 0:
            seals(f"{lock}, bodies of {k} and {k + 1}", lock, RIGHT, START + [(0x0203, some(k, k)), (BOUND_SHEET, some(k + 1, k))])
    # the stream's length about a block's end, with padding
    for total, padding in itertools.product((1023, 1024, 1025, 1026, 2047, 2048, 2049), range(4)):
        if total < 2000 or padding == total % 4:
            rest = total - padding - sum(4 + len(body) for _, body in SMALL) - length - 4
            seals(f"{lock}, a stream of {total}, {padding} of padding", lock, RIGHT, SMALL + [(0x00FD, some(rest, total))], padding)
    # the zero record across the end of the first block, by its header and by its body, and after it
    for at in 1024 - length // 2 - 4, 1018, 1020, 1021, 1022, 1023, 1024, 1030:
        seals(f"{lock}, the zero record at {at}", lock, RIGHT, [(BOF, some(at - 4, at))] + START[1:] + [(0x0042, some(5, 5)), (BOUND_SHEET, some(7, 7))])
    # a header across the end of a block, and of the second too
    for at in range(1020, 1026):
        gap = at - sum(4 + len(body) for _, body in SMALL) - length - 4
        seals(f"{lock}, a header at {at} and at {at + 1024}", lock, RIGHT, SMALL + [(0x00FD, some(gap, at)), (BOUND_SHEET, some(1020, 2)), (0x0204, some(9, 1))])


def broken(lock, faults):
    """What breaks the given checks and no others: the plain stream, what differs otherwise, and the details of each."""
    first = record(0x00E1) if 7 in faults else B
    length = LOCKS[lock][1] + (1 if lock == "XOR" else -1) * (31 in faults)
    body = bytes(length - 1) + bytes([30 in faults])
    plain = first + record(0, body) + CELL
    details = {6: (len(plain),), 13: (5, 2), 23: (41,), 31: (length,)}
    rest = {"major": 5 if 13 in faults else 2, "bits": 41 if 23 in faults else 128, "scratch": 63 if 3 in faults else 64, "more": -1 if 5 in faults else 0}
    password = ("p" * 1025 if 1 in faults else "p" * 16 if 32 in faults else RIGHT).encode()
    if 2 in faults:
        password = b"\xff" + password[1:]
    return plain + (E[:2] if 6 in faults else b""), {"password": password, **rest}, details


# every check, and every two and as many as can be at once: the first one is the refusal. 31 is asked only of a zero record, and 30 means there is none; 32 is for XOR,
# 13 and 23 are for CryptoAPI: so no case breaks two of these. Under XOR a password that is refused by 1 or 2 is one that 32 would refuse too
ORDER = 1, 2, 3, 5, 6, 7, 13, 23, 30, 31, 32
for lock in LOCKS:
    own = [k for k in ORDER if lock == {13: "CryptoAPI", 23: "CryptoAPI", 32: "XOR"}.get(k, lock)]
    pairs = [pair for pair in itertools.combinations(own, 2) if pair != (30, 31)]
    for faults in [[k] for k in own] + pairs + [[k for k in own if k != 30], [k for k in own if k != 31]]:
        plain, rest, details = broken(lock, faults)
        refused(f"{lock}, breaks {' and '.join(map(str, faults))}", lock, plain, faults[0], details.get(faults[0], ()), **rest)
    plain, rest, _ = broken(lock, ())
    assert plain == at_lock(lock, CELL)

# random streams
dice = random.Random(7)
for k in range(120):
    lock = dice.choice(list(LOCKS))
    password = dice.choice(list(XOR.known)) if lock == "XOR" else "".join(dice.choice("aB9 \u00e4\u20ac\U0001d11e") for _ in range(dice.randrange(40)))
    before = [(dice.choice([n for n in SEVEN if n != FILEPASS]), dice.randbytes(dice.randrange(12))) for _ in range(dice.randrange(4))]
    records = [(BOF, dice.randbytes(dice.choice((0, 4, 16, 16))))] + before + [START[1]]
    for _ in range(dice.randrange(12)):
        number = dice.choice((*SEVEN, BOUND_SHEET, BOUND_SHEET, BOUND_SHEET, EOF, 0, 0x0042, 0x00FC, 0x0203, dice.randrange(65536)))
        records.append((number, dice.randbytes(dice.choice((0, 1, 3, 4, 5, 9, 14, 40, dice.randrange(700) if k % 3 == 0 else 20)))))
    length = dice.choice((106, 107, 120, dice.randrange(106, 1099) if k % 5 == 0 else 110))
    seals(f"random {k}", lock, password, records, dice.randrange(4), length, dice.choice((2, 3, 4)), dice.randrange(40, 129, 8),
          scratch=dice.choice((64, 65, 2070)), more=dice.randrange(3))

# files that fit into the program's memory
files = [b""]
for one in cases:
    if len(files[-1]) + len(one) > 262144:
        files.append(b"")
    files[-1] += one
assert len(files) == 3, "the program reads three files"
pathlib.Path("crates/sealings/data").mkdir(parents=True, exist_ok=True)
for place, data in enumerate(files, 1):
    pathlib.Path(f"crates/sealings/data/cases_{place}").write_bytes(data)
assert all(tally[kind] for kind in (*LOCKS, *ORDER))
lines = [f"sealed under {lock}\t{tally[lock]}" for lock in LOCKS] + [f"opened again\t{tally[0]}", f"refused with another password\t{tally[0]}"]
lines += [f"refused by {number}\t{tally[number]}" for number in ORDER] + [f"{len(cases)} cases, 0 differ"]
pathlib.Path("crates/sealings/stdout").write_text("\n".join(lines) + "\n", encoding="ascii")
print(len(cases), "cases,", sum(map(len, files)), "bytes")
