"""Questions to the library: their lines, as "The fixed list" of reference/README.md has them, and the archive's answers."""

import ctypes
import os
import struct
import subprocess
import tempfile

HERE = os.path.dirname(os.path.abspath(__file__))
FINEST = (1e-9, 8192, 16)
SPHERE, BOX, CYLINDER = 2, 3, 4


def digits(x):
    return struct.pack(">d", x).hex()


def whole(n):
    return "%016x" % n


def flat(points):
    return [float(x) for point in points for x in point]


def listed(points):
    return "%04x " % (2 * len(points)) + " ".join(map(digits, flat(points)))


class Question:
    """letters: the kind; lists of points; numbers; settings (tolerance, boxes, intervals) of a cylinder or a move; of a move also
    kind, clearance, start, end, steps."""

    def __init__(self, letters, lists, numbers=(), settings=None, moved=None):
        self.letters, self.lists, self.settings, self.moved = letters, lists, settings, moved
        self.numbers = [float(x) for x in numbers]

    def line(self):
        words = ["m w" if self.moved else self.letters] + [listed(points) for points in self.lists]
        padded = self.numbers + [0.0] * (7 - len(self.numbers)) if self.moved else self.numbers
        words += map(digits, padded)
        if self.letters == "S":
            words.append("%04x" % (2 * len(self.lists[0]) + 4))
        if self.settings:
            words += [digits(self.settings[0]), whole(self.settings[1]), whole(self.settings[2])]
        if self.moved:
            kind, clearance, start, end, steps = self.moved
            words += [whole(kind), digits(clearance), *map(digits, (*start, *end)), whole(steps)]
        return " ".join(words)


def library():
    """The archive as a shared object, made by cc in a directory of its own."""
    place = os.environ.get("JORGHIPA_LIB", os.path.join(HERE, "..", "..", "target", "staticlib"))
    archive = os.path.join(place, "libcapi.a")
    if not os.path.exists(archive):
        raise SystemExit(archive + " is missing: run tools/archives capi at the top of the repository")
    with tempfile.TemporaryDirectory() as directory:
        shared = os.path.join(directory, "jorghipa.so")
        subprocess.run(["cc", "-shared", "-o", shared, "-Wl,--whole-archive", archive, "-Wl,--no-whole-archive"], check=True)
        return ctypes.CDLL(shared)


CALLS = {"p": "point", "s": "sphere", "b": "box", "c": "convex", "w": "cylinder", "vs": "verdict_sphere", "vb": "verdict_box",
         "vy": "verdict_cylinder", "vc": "verdict_convex", "S": "build_section", "m": "move"}


def lent(points):
    numbers = flat(points)
    return [(ctypes.c_double * len(numbers))(*numbers), ctypes.c_size_t(len(numbers))]


def settings_of(settings):
    return [ctypes.c_double(settings[0]), ctypes.c_uint32(settings[1]), ctypes.c_uint32(settings[2])]


def places(letters):
    """The places that a call writes to, a float's marked by True."""
    shape = {"v": [False], "w": [True] * 3 + [False] * 4, "m": [True] + [False] * 4}
    kinds = shape.get(letters[0], [True] * 3 + [False])
    return [(ctypes.c_double if is_float else ctypes.c_uint32)(1) for is_float in kinds]


def given(question, letters):
    """The arguments of the call, before its places."""
    if letters == "m":
        kind, clearance, start, end, steps = question.moved
        numbers = (ctypes.c_double * 7)(*question.numbers)
        offsets = [ctypes.c_double(x) for x in (clearance, *start, *end)]
        return [*lent(question.lists[0]), ctypes.c_uint32(kind), numbers, ctypes.c_size_t(7), *offsets, ctypes.c_uint32(steps),
                *settings_of(question.settings)]
    words = [word for points in question.lists for word in lent(points)] + [ctypes.c_double(x) for x in question.numbers]
    return words + (settings_of(question.settings or FINEST) if letters == "w" else [])


def built(port, points):
    space = (ctypes.c_double * (2 * len(points) + 4))()
    kept = ctypes.c_size_t()
    assert port.jorghipa_build_section(*lent(points), space, ctypes.c_size_t(len(space)), ctypes.byref(kept)) == 0
    return "%d " % kept.value + " ".join(digits(x + 0.0) for x in space[:kept.value])


def answer(port, question):
    """The answer's line: floats by their bits, a zero as +0, the rest in decimal."""
    if question.letters == "S":
        return built(port, question.lists[0])
    letters = "m" if question.moved else {"y": "w"}.get(question.letters, question.letters)
    call = getattr(port, "jorghipa_" + CALLS[letters])
    call.restype = ctypes.c_uint32
    out = places(letters)
    number = call(*given(question, letters), *map(ctypes.byref, out))
    if number:
        return "refused %d" % number
    return " ".join(digits(x.value + 0.0) if isinstance(x, ctypes.c_double) else str(x.value) for x in out)


def distance(line):
    return struct.unpack(">d", bytes.fromhex(line.split()[0]))[0]
