"""libsheet.a for the scripts in this folder: opening and sealing, as in include/sheet.h."""
import ctypes
import pathlib
import subprocess

ARCHIVE = "target/staticlib/libsheet.a"
WORK = pathlib.Path("target/oracle")


class Archive:
    """The archive as a shared library, proved and built first where it is not there."""

    def __init__(self):
        if not pathlib.Path(ARCHIVE).exists():
            subprocess.run(["tools/archive", "sheet"], check=True, stdout=subprocess.DEVNULL)
        WORK.mkdir(parents=True, exist_ok=True)
        shared = (WORK / "libsheet.so").resolve()
        subprocess.run(["gcc", "-shared", "-o", shared, "-Wl,--whole-archive", ARCHIVE, "-Wl,--no-whole-archive"], check=True)
        self.library = ctypes.CDLL(str(shared))

    def called(self, name, stream, password, *choices):
        """The number, the facts and the output of a function that is lent a stream, a password, a scratch and an output."""
        function, size = getattr(self.library, name), ctypes.c_size_t
        function.restype = ctypes.c_uint32
        scratch, out, facts = ctypes.create_string_buffer(64), ctypes.create_string_buffer(len(stream) + 1), (ctypes.c_uint64 * 8)()
        number = function(stream, size(len(stream)), password, size(len(password)), *choices, scratch, size(64), out, size(len(stream)), facts)
        return number, list(facts), out.raw[:len(stream)]

    def opened(self, stream, password):
        return self.called("sheet_open", stream, password)

    def sealed(self, lock, plain, password, salt, verifier, major, bits):
        """Seals under a lock: XOR, 1.1 or CryptoAPI. Salt and verifier are not used under XOR, major and key size only under CryptoAPI."""
        if lock == "XOR":
            return self.called("sheet_seal_xor", plain, password)
        if lock == "1.1":
            return self.called("sheet_seal_office97", plain, password, salt, verifier)
        return self.called("sheet_seal_cryptoapi", plain, password, salt, verifier, ctypes.c_uint16(major), ctypes.c_uint32(bits))
