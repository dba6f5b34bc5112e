"""Books that the archive seals, and what other programs do with them: the Rust, msoffcrypto-tool, LibreOffice and Apache POI. Part of oracle/real_books.

A locked book is opened and sealed again as 1.1 with another password. A book without a lock gets a zero record behind its BOF, and is sealed under every choice.
Salt and verifier are MD5 digests of words with the book's name, so that a run repeats. Each check gives lines: a name, whether all is as it should be, and words.
What a program does not open is in docs/DIFFERENCES.md; a book that it opens against that is a difference too.
"""
import collections
import dataclasses
import hashlib
import itertools
import os
import pathlib
import struct
import subprocess

from archive import WORK
from books import BOUND_SHEET, FILEPASS, Office97, record

LOCKS = "XOR", "1.1", "CryptoAPI"  # by their numbers in a report
PADDINGS = 1, 2, 3
OLD_PASSWORDS = "A", "password1", "fifteen letters", "Unruh 50°é"
PASSWORDS = "password1", "A", "Unruh 50°", "Пароль", "\U0001d11e€", "fifteen letters"
LONG_PASSWORDS = "", "\U0001d11e" * 7 + "A", "\U0001d11e" * 8, "sixteen letters.", "p" * 255, "q" * 256, "r" * 1024
LENGTHS = 106, 107, 108, 109, 110, 200, 1098
DRIVER = WORK / "target/release/differ"
JARS = [pathlib.Path("/usr/share/java", jar) for jar in ("poi.jar", "commons-collections4.jar", "commons-codec.jar")]


@dataclasses.dataclass(frozen=True)
class Sealed:
    """A book that was sealed: how, the result, and the book that it was made from, with its password or None."""
    name: str
    source: tuple
    lock: str
    plain: bytes
    password: str
    another: str
    length: int = 54
    major: int = 2
    bits: int = 128
    number: int = None
    facts: list = None
    sealed: bytes = None

    @property
    def how(self):
        return f"sealed {'again ' if self.source[1] else ''}under {self.lock}"

    @property
    def units(self):
        """How many UTF-16 units the password has."""
        return len(self.password.encode("utf-16-le")) // 2

    def made(self, archive, padding=0):
        """The same, sealed, with that many zeros after it."""
        plain, salt, verifier = self.plain + bytes(padding), *self.fresh()
        number, facts, out = archive.sealed(self.lock, plain, self.password.encode(), salt, verifier, self.major, self.bits)
        return dataclasses.replace(self, plain=plain, number=number, facts=facts, sealed=out)

    def fresh(self):
        return tuple(hashlib.md5(f"{word} of {self.name}".encode()).digest() for word in ("salt", "verifier"))


def records(stream):
    at = 0
    while len(stream) - at >= 4:
        number, length = struct.unpack_from("<HH", stream, at)
        yield at, number, stream[at + 4:at + 4 + length]
        at += 4 + length


def zeroed(stream, length):
    """A stream with a zero record after its BOF; the starts of the sheets are moved by its size."""
    (_, *bof), *rest = records(stream)
    moved = [(n, struct.pack("<I", struct.unpack_from("<I", b)[0] + 4 + length) + b[4:]) if n == BOUND_SHEET else (n, b) for _, n, b in rest]
    return record(*bof) + record(0, bytes(length)) + b"".join(record(*r) for r in moved)


def next_to(password, passwords):
    """Another password: the next one of a list."""
    return passwords[(passwords.index(password) + 1) % len(passwords)] if password in passwords else passwords[0]


def sealed_again(archive, name, stream, password):
    """A locked book, opened and sealed with another password."""
    _, _, plain = archive.opened(stream, password.encode())
    return Sealed(f"{name}, sealed again", (stream, password), "1.1", plain, next_to(password, PASSWORDS), password).made(archive)


def under_every_choice(archive, name, stream):
    """A book without a lock, sealed under every lock, with passwords of several kinds, and under CryptoAPI with every version and key size, and with zero records
    of several lengths."""
    choices = [("XOR", password, OLD_PASSWORDS, 6, 2, 128) for password in OLD_PASSWORDS]
    choices += [("1.1", password, PASSWORDS, 54, 2, 128) for password in PASSWORDS]
    turns = itertools.cycle(PASSWORDS)
    choices += [("CryptoAPI", next(turns), PASSWORDS, length, major, 128) for length in LENGTHS for major in (2, 3, 4)]
    choices += [("CryptoAPI", next(turns), PASSWORDS, length, 2 + bits // 8 % 3, bits) for length in (106, 108) for bits in range(40, 121, 8)]
    choices += [(lock, password, LONG_PASSWORDS, length, 4, 128) for lock, length in (("1.1", 54), ("CryptoAPI", 108)) for password in LONG_PASSWORDS]
    for n, (lock, password, passwords, length, major, bits) in enumerate(choices):
        told = f"{name}, choice {n}, {lock}" + (f" {major}.2, {bits} bits, a body of {length}" if lock == "CryptoAPI" else "") + f", a password of {len(password)}"
        yield Sealed(told, (stream, None), lock, zeroed(stream, length), password, next_to(password, passwords), length, major, bits).made(archive)


def as_it_was(archive, stream, password):
    """Whether a book under 1.1 that another program locked is sealed as it was, to the byte, with its own password, salt and verifier."""
    body = next(body for _, number, body in records(stream) if number == FILEPASS)
    salt, verifier = body[6:22], Office97(salt=body[6:22]).keyed(password, 0, body[22:38])
    number, facts, plain = archive.opened(stream, password.encode())
    return number == 0 and archive.sealed("1.1", plain, password.encode(), salt, verifier, 2, 128) == (0, facts, stream)


def told(program, outcomes):
    """Lines for a program. outcomes: for each book the result, the expected result and the reason."""
    groups = collections.defaultdict(list)
    for book, outcome, (expected, why) in outcomes:
        groups[book.how, why, outcome, expected].append(book.name)
    for (how, why, outcome, expected), names in groups.items():
        same = outcome == expected
        yield f"{program}, {how}{why and ', '}{why}", same, f"{len(names)}: {outcome}" + ("" if same else f"; expected: {expected}; the first is {names[0]}")


def told_wrong(program, outcomes):
    """The line for another password. outcomes: for each book that the program opens, whether it refuses that one."""
    yield f"{program}, another password", all(outcomes) and len(outcomes) > 0, f"refused for {sum(outcomes)} of the {len(outcomes)} that it opens"


def by_archive(archive, books):
    """Each opens again, with the report that sealing gave, and not with another password; padded, it is sealed as without, with the zeros after it."""
    outcomes = []
    for book in books:
        number, facts, plain = archive.opened(book.sealed, book.password.encode())
        padded = [book.made(archive, count) for count in PADDINGS]
        faults = {
            f"sealing answers {book.number}": book.number != 0,
            "another lock": book.facts[1:3] != [LOCKS.index(book.lock), {"XOR": 0, "1.1": 40}.get(book.lock, book.bits)],
            f"opening answers {number}": number != 0,
            "another report": facts != book.facts,
            "other bytes": plain != book.plain,
            "it opens with another password": archive.opened(book.sealed, book.another.encode())[0] != 27,
            "padded, other bytes": any(p.number != 0 or p.sealed != book.sealed + bytes(count) for count, p in zip(PADDINGS, padded)),
        }
        outcomes.append((book, next((fault for fault, there in faults.items() if there), "opened again, and padded too"), ("opened again, and padded too", "")))
    yield from told("here", outcomes)
    print(f"these are {len(books)} books with {sum(book.facts[0] for book in books)} records and {sum(book.facts[5] for book in books)} enciphered bytes")


def by_rust(archive, books):
    """`differ sealed` over the books and a padded copy of each, in the layout of tools/make_sealings.py."""
    cases = books + [book.made(archive, 1 + n % 3) for n, book in enumerate(books)]
    data = b""
    for case in cases:
        terms = LOCKS.index(case.lock), case.major, case.bits, 64, len(case.plain), case.number, *case.facts[:7]
        parts = case.name.encode(), case.password.encode(), case.another.encode(), case.plain, case.sealed
        whole = struct.pack("<13I", *terms) + b"".join(case.fresh()) + b"".join(struct.pack("<I", len(part)) + part for part in parts)
        data += struct.pack("<I", len(whole)) + whole
    path = WORK / "sealed_books"
    path.write_bytes(data)
    run = subprocess.run([DRIVER, "sealed", path], capture_output=True, text=True)
    counts = f"opened\t{len(cases)}:", f"T-05 {len(books)}\n", f"another password\t{len(cases)}\n", "differences\t0\n"
    yield "the Rust", run.returncode == 0 and all(count in run.stdout for count in counts), (run.stdout + run.stderr).strip().replace("\t", " ").replace("\n", "; ")


def expected_of_msoffcrypto(book):
    """It has no XOR, reads the provider's name as UTF-16, and its library has RC4 keys of five sizes."""
    if book.lock == "XOR":
        return "msoffcrypto.exceptions.DecryptionError", ""
    if book.lock == "CryptoAPI" and book.length % 2:
        return "builtins.UnicodeDecodeError", "a body of odd length"
    if book.lock == "CryptoAPI" and book.bits not in (40, 56, 64, 80, 128):
        return "builtins.ValueError", "bits that are not 40, 56, 64, 80 or 128"
    return "the plain stream", ""


def by_msoffcrypto(other, container, books):
    """msoffcrypto-tool gives the plain stream, byte for byte."""
    right, wrong = [], []
    for book in books:
        file, expected = container(book.sealed), expected_of_msoffcrypto(book)
        out = other(file, book.password)
        right.append((book, out if isinstance(out, str) else "the plain stream" if out == book.plain else "other bytes", expected))
        if expected[0] == "the plain stream":
            wrong.append(other(file, book.another) == "msoffcrypto.exceptions.InvalidKeyError")
    yield from told("msoffcrypto-tool", right)
    yield from told_wrong("msoffcrypto-tool", wrong)


def expected_of_libreoffice(book):
    """It accepts passwords of 1 to 15 units; under CryptoAPI it knows versions 3.2 and 4.2, and treats every key as one of 128 bits."""
    if not 1 <= book.units <= 15:
        return "does not open it", "a password of no or more than 15 UTF-16 units"
    if book.lock == "CryptoAPI" and book.major == 2:
        return "does not open it", "version 2.2"
    if book.lock == "CryptoAPI" and book.bits != 128:
        return "does not open it", "fewer than 128 bits"
    return "the same cells, and padded too", ""


def by_libreoffice(load, container, books):
    """LibreOffice shows what it shows of the book that was sealed, with padding and without."""
    right, wrong, shown = [], [], {}
    for n, book in enumerate(books):
        if book.source not in shown:
            stream, password = book.source
            shown[book.source] = load(container(stream), password)
        cells, expected = shown[book.source], expected_of_libreoffice(book)
        ours, padded = (load(container(book.sealed + bytes(count)), book.password) for count in (0, 1 + n % 3))
        same = cells is not None and ours == padded == cells
        right.append((book, "does not open it" if ours is None and padded is None else "the same cells, and padded too" if same else "other cells", expected))
        if expected[0] != "does not open it":
            wrong.append(load(container(book.sealed), book.another) is None)
    yield from told("LibreOffice", right)
    yield from told_wrong("LibreOffice", wrong)
    filled = sum(cell != "" for cells in shown.values() for _, rows, _ in cells or () for row in rows for cell in row)
    yield "  before sealing", filled > 0, f"{len(shown)} books with {filled} filled cells"


def poi(streams):
    """What Apache POI does with streams, each with a password: records as hexadecimal digits, or one line that says why there are none."""
    folder, arguments = WORK / "poi", []
    folder.mkdir(parents=True, exist_ok=True)
    for n, (stream, password) in enumerate(streams):
        (folder / f"{n}.bin").write_bytes(stream)
        arguments += [folder / f"{n}.bin", password]
    command = ["java", "-cp", ":".join(map(str, JARS)), "oracle/PoiRecords.java", *arguments]
    out = subprocess.run(command, capture_output=True, text=True, env=dict(os.environ, LC_ALL="C.UTF-8")).stdout
    return [part.split("\n") for part in out.split("\n\n")[:-1]]


def expected_of_poi(book):
    """It cuts passwords at 255 units, has an XOR verifier of its own above U+007F, and uses the end of the provider's name and not the header's size."""
    if book.units > 255:
        return "refused", "a password of more than 255 UTF-16 units"
    if book.lock == "XOR" and not book.password.isascii():
        return "refused", "a character above U+007F"
    if book.lock == "CryptoAPI" and book.length != 108:
        return "other records or none", "a body of another length than 108"
    return "the plain records", ""


def by_poi(books):
    """Apache POI reads the records that it reads of the plain stream, except for FILEPASS in place of the zero record."""
    lines = poi([pair for book in books for pair in ((book.plain, ""), (book.sealed, book.password), (book.sealed, book.another))])
    if len(lines) != 3 * len(books):
        yield "Apache POI", False, f"reads {len(lines)} of {3 * len(books)} streams"
        return
    right, wrong = [], []
    for book, plain, ours, other in zip(books, lines[::3], lines[1::3], lines[2::3]):
        same, expected = len(plain) > 2 and plain[:1] + plain[2:] == ours[:1] + ours[2:], expected_of_poi(book)
        right.append((book, "refused" if ours == ["refused"] else "the plain records" if same else "other records or none", expected))
        if expected[0] == "the plain records":
            wrong.append(other == ["refused"])
    yield from told("Apache POI", right)
    yield from told_wrong("Apache POI", wrong)
