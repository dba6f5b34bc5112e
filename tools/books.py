"""Protected workbook streams made from plain ones, for the scripts in this folder.

Written from document 01, MS-XLS 2.2.10 and MS-OFFCRYPTO 2.3.5 to 2.3.7, by code that shares nothing with the crates: MD5 and SHA-1 are CPython's,
RC4 is OpenSSL's (libcrypto by ctypes), and the key, verifier and array of an XOR password are Apache POI's, from crates/vectors/data/xor.
"""
import ctypes
import ctypes.util
import hashlib
import pathlib
import struct

BOF, FILEPASS, BOUND_SHEET, EOF = 0x0809, 0x002F, 0x0085, 0x000A
SEVEN = (BOF, FILEPASS, 0x00E1, 0x0138, 0x0194, 0x0195, 0x0196)
SALT = bytes(range(0x30, 0x40))
VERIFIER = bytes(range(0xC0, 0xD0))
CRYPTO = ctypes.CDLL(ctypes.util.find_library("crypto"))


def rc4(key, data):
    state, out = ctypes.create_string_buffer(2048), ctypes.create_string_buffer(len(data))
    CRYPTO.RC4_set_key(state, len(key), key)
    CRYPTO.RC4(state, ctypes.c_size_t(len(data)), data, out)
    return out.raw


def record(number, body=b""):
    return struct.pack("<HH", number, len(body)) + body


def clear_of(number, length):
    return length if number in SEVEN else min(4, length) if number == BOUND_SHEET else 0


def some(length, seed):
    """That many bytes, each different from its neighbours."""
    return bytes((seed + 37 * k + (k >> 5)) % 256 for k in range(length))


def characters(count, first=0x21, room=94):
    """That many characters, all from `first` on and below `first + room`: of one byte each where none is named. In UTF-16LE no two of its blocks are equal."""
    made = "".join(chr(first + 1009 * k % room) for k in range(count))
    data = made.encode("utf-16-le")
    for start in 0, 48:
        blocks = [data[at:at + 64] for at in range(start, len(data), 64)]
        assert len(set(blocks)) == len(blocks)
    return made


# passwords of 1,024 bytes, of characters of one byte, of two, of three, and of four
LONGEST = characters(1024), characters(512, 0x80, 0x780), characters(341, 0x800, 0xD000) + "p", characters(256, 0x10000, 0x100000)


class Rc4:
    """An RC4 lock: how it hashes, the key of a block, and the FILEPASS body. `derived` is how many block keys were derived so far, and `enciphered` how many
    bytes of bodies were."""
    derived = enciphered = 0

    def __init__(self, salt=SALT, verifier=VERIFIER):
        self.salt, self.verifier = salt, verifier

    def keyed(self, password, block, data):
        self.derived += 1
        return rc4(self.key(password, block), data)

    def filepass(self, password):
        return self.body(self.keyed(password, 0, self.verifier + self.digest(self.verifier).digest()))

    def seal(self, stream, password):
        return b"".join(self.keyed(password, at // 1024, stream[at:at + 1024]) for at in range(0, len(stream), 1024))


class Office97(Rc4):
    number, bits, sealed, digest = 1, 40, 0, hashlib.md5

    def key(self, password, block):
        first = hashlib.md5(password.encode("utf-16-le")).digest()[:5]
        second = hashlib.md5((first + self.salt) * 16).digest()[:5]
        return hashlib.md5(second + struct.pack("<I", block)).digest()

    def body(self, check):
        return struct.pack("<HHH", 1, 1, 1) + self.salt + check


class CryptoApi(Rc4):
    number, digest = 2, hashlib.sha1

    def __init__(self, bits=128, stated=None, major=2, flags=0x0C, algorithm=0x6801, hashing=0x8004, name="Provider".encode("utf-16-le"), size=None, **own):
        super().__init__(**own)
        self.bits, self.stated, self.major, self.flags = bits, bits if stated is None else stated, major, flags
        self.algorithm, self.hashing, self.name, self.size = algorithm, hashing, name, size
        self.sealed = 0 if flags & 8 else 1

    def key(self, password, block):
        h0 = hashlib.sha1(self.salt + password.encode("utf-16-le")).digest()
        key = hashlib.sha1(h0 + struct.pack("<I", block)).digest()[:self.bits // 8]
        return key + bytes(11) if self.bits == 40 else key

    def body(self, check):
        header = struct.pack("<8I", self.flags, 0, self.algorithm, self.hashing, self.stated, 1, 0, 0) + self.name
        size = len(header) if self.size is None else self.size
        verifier = struct.pack("<I", 16) + self.salt + check[:16] + struct.pack("<I", 20) + check[16:]
        return struct.pack("<HHHII", 1, self.major, 2, self.flags, size) + header + verifier


class Xor:
    number = bits = sealed = derived = enciphered = 0
    known = {}

    def __init__(self):
        data, at = pathlib.Path("crates/vectors/data/xor").read_bytes(), 0
        while at < len(data):
            length = struct.unpack_from("<I", data, at)[0]
            key, verifier = struct.unpack_from("<II", data, at + 4 + length)
            self.known[data[at + 4:at + 4 + length].decode()] = key, verifier, data[at + 12 + length:at + 28 + length]
            at += 28 + length

    def passwords(self, length):
        """POI's passwords of a length, in its order, those of printable characters first."""
        return sorted((p for p in self.known if len(p) == length), key=lambda p: not p.isprintable())

    def filepass(self, password):
        return struct.pack("<HHH", 0, *self.known[password][:2])

    def seal_body(self, body, clear, end, password):
        array = self.known[password][2]
        turned = ((b << 5 | b >> 3) & 255 for b in body[clear:])
        return body[:clear] + bytes(b ^ array[(end + clear + k) % 16] for k, b in enumerate(turned))


def book(lock, password, records):
    """A locked stream and its plain one. records: pairs of id and body, of which the first FILEPASS has no body: the lock gives it."""
    records, first = list(records), [number for number, _ in records].index(FILEPASS)
    records[first] = FILEPASS, lock.filepass(password)
    joined = b"".join(record(*r) for r in records)
    under = lock.seal(joined, password) if isinstance(lock, Rc4) else joined
    locked, plain, at = b"", b"", 0
    for k, (number, body) in enumerate(records):
        start, end, clear = at + 4, at + 4 + len(body), clear_of(number, len(body))
        part = under[start + clear:end] if isinstance(lock, Rc4) else lock.seal_body(body, clear, end, password)[clear:]
        lock.enciphered += len(part)
        locked += joined[at:start + clear] + part
        plain += record(0, bytes(len(body))) if k == first else joined[at:end]
        at = end
    return locked, plain


def reported(lock, password, records, padding=0):
    """A locked stream and its plain one, as many zeros after both, and what Open reports of it: the counts are those of locking it. A block of padding
    alone has a key too, under RC4."""
    derived, enciphered = lock.derived, lock.enciphered
    locked, plain = book(lock, password, records)
    length, keys = len(locked) + padding, lock.derived - derived
    if keys:
        keys += sum(at % 1024 == 0 for at in range(len(locked), length))
    told = len(records), lock.number, lock.bits, lock.sealed, length, lock.enciphered - enciphered, keys
    return locked + bytes(padding), plain + bytes(padding), told
