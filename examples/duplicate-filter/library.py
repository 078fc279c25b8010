"""The library's entries (include/lanternlean.h) from Python: an archive linked as a shared library, every buffer of exactly its size."""
import ctypes
import os
import subprocess
import tempfile

AREA = 16384


class Library:
    def __init__(self, archive):
        with tempfile.TemporaryDirectory() as folder:
            shared = os.path.join(folder, "lanternlean.so")
            words = ["-Wl,--whole-archive", archive, "-Wl,--no-whole-archive"]
            subprocess.run(["cc", "-shared", "-o", shared, *words], check=True)
            self.entries = ctypes.CDLL(shared)
        self.areas = [(ctypes.c_uint32 * AREA)() for _ in range(2)]

    def call(self, name, *words):
        """An entry's length; a refusal is an error here. Byte buffers are lent with their lengths."""
        entry = getattr(self.entries, name)
        entry.restype = ctypes.c_uint64
        lent = []
        for word in [*words, *self.areas]:
            lent.append(ctypes.c_uint32(word) if isinstance(word, int) else word)
            if not isinstance(word, int):
                lent.append(ctypes.c_size_t(len(word)))
        answer = entry(*lent)
        if answer % 2**32:
            raise SystemExit("%s refused with %d" % (name, answer % 2**32))
        return answer >> 32

    def pass_(self, name, image, *limit):
        out = (ctypes.c_uint8 * 16384)()
        length = self.call(name, image, *limit, out)
        return bytes(out[:length])

    def cycle(self, image, inputs, state, outputs):
        """One cycle: the outputs; the state, a bytearray's byte for each node, is brought up to date."""
        held = (ctypes.c_uint8 * len(state)).from_buffer(state)
        out = (ctypes.c_uint8 * outputs)()
        self.call("ll_evaluate", image, bytes(inputs), held, out)
        return list(out)
