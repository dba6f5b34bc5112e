#!/usr/bin/env python3
"""Writes the data of the program `late_calibre`, crates/late_calibre/data/sheets, and what it is to print, crates/late_calibre/stdout; and the CryptoAPI
sheet alone with its password, host/examples/calibres.bin and calibres.password.

Usage, at the root of the project: tools/make_late_calibre.py. A sheet is a table of calibres, a Label record (MS-XLS 2.4.148) with the name and an RK
record (2.4.220) with the lift angle for each. All have 52 degrees but the last, which has 50 and stands past the first kilobyte; books.py locks the
sheet, and counts the keys and the bytes that this takes. In the data a sheet is a heading, a password and the locked stream, each behind its length of four bytes, the
lower first.
"""
import pathlib
import struct

from books import BOF, BOUND_SHEET, EOF, FILEPASS, CryptoApi, Office97, Xor, book

LABEL, RK = 0x0204, 0x027E
CALIBRES = 90
xor = Xor()


def row(number, name, degrees):
    yield LABEL, struct.pack("<HHHHB", number, 0, 15, len(name), 0) + name.encode("ascii")
    yield RK, struct.pack("<HHHI", number, 1, 15, degrees << 2 | 2)


table = [cell for n in range(CALIBRES) for cell in row(n, f"cal. {11 + n}.{n * 7 % 10}", 52 if n < CALIBRES - 1 else 50)]
sheet = [(BOF, struct.pack("<8H", 0x0600, 0x10, 0, 0, 0, 0, 0, 0))] + table + [(EOF, b"")]


def globals_(lock_len):
    """The records before the sheet. Its entry (BoundSheet8) names the offset of its BOF, which the length of the lock decides."""
    records = [(BOF, struct.pack("<8H", 0x0600, 5, 0, 0, 0, 0, 0, 0)), (FILEPASS, b""), (BOUND_SHEET, bytes(4) + b"\0\0\x08\0calibres"), (EOF, b"")]
    start = lock_len + sum(4 + len(body) for _, body in records)
    records[2] = BOUND_SHEET, struct.pack("<I", start) + records[2][1][4:]
    return records


sheets, text = b"", ""
for name, lock, password in ("XOR", xor, xor.passwords(12)[0]), ("RC4 1.1", Office97(), "Hebungswinkel 50°"), ("RC4 CryptoAPI", CryptoApi(), "Hebungswinkel 50°"):
    records = globals_(len(lock.filepass(password))) + sheet
    derived, enciphered = lock.derived, lock.enciphered
    stream, plain = book(lock, password, records)
    took = f"{len(stream)} bytes, {len(records)} records, {lock.enciphered - enciphered} bytes enciphered, {lock.derived - derived} block keys"
    assert plain.rindex(struct.pack("<H", RK)) > 1024
    for heading, tried, line in (name, password, f"50; {took}"), (f"{name}, another password", password[:-1], "refused, 27"):
        for part in heading.encode(), tried.encode(), stream:
            sheets += struct.pack("<I", len(part)) + part
        text += f"{heading}: {line}\n"
pathlib.Path("host/examples").mkdir(parents=True, exist_ok=True)
pathlib.Path("host/examples/calibres.bin").write_bytes(stream)
pathlib.Path("host/examples/calibres.password").write_text(password + "\n", encoding="utf-8")
pathlib.Path("crates/late_calibre/data").mkdir(parents=True, exist_ok=True)
pathlib.Path("crates/late_calibre/data/sheets").write_bytes(sheets)
pathlib.Path("crates/late_calibre/stdout").write_text(text, encoding="utf-8")
