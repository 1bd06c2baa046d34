"""The rows of docs/LIMITS.md: what is asked, and what is true of it, in fractions."""

import struct
from fractions import Fraction
from functools import cache

from asking import BOX, CYLINDER, FINEST, SPHERE, Question
from exact import Bar, Box, Solid, root, truth

S = [(0, 10), (20, 10), (20, 0), (0, 0)]
RING = [(0, 5), (20, 5), (20, 10), (0, 10)]
DRILL = (0, 0, 10, 25, 0, 10, 2)


class Row:
    """what: the row's name. asked: the questions, the first one named as the example. true: gives bounds. digits: how many are
    shown. added: a word behind the true value."""

    def __init__(self, what, asked, true, digits=4, added=""):
        self.what, self.asked, self.true, self.digits, self.added = what, asked, true, digits, added


def bits(text):
    """Pairs of f64, from the hexadecimal digits of their bits."""
    numbers = [struct.unpack(">d", bytes.fromhex(word))[0] for word in text.split()]
    return list(zip(numbers[::2], numbers[1::2]))


def ask(letters, section, numbers, clearance=None):
    """A query, and where a clearance is given the verdict beside it."""
    asked = [Question(letters, [section], numbers)]
    if clearance is not None:
        asked.append(Question("v" + letters, [section], [*numbers, clearance]))
    return asked


def walk(section, numbers, tolerance, intervals=16):
    return [Question("w", [section], numbers, (tolerance, 8192, intervals))]


def convex(body, section):
    return [Question("c", [body, section]), Question("vc", [body, section], [0])]


def move(section, kind, numbers, start, end, steps, tolerance=1e-9):
    return [Question("m", [section], numbers, (tolerance, *FINEST[1:]), (kind, 0.0, start, end, steps))]


def bar(numbers):
    return Bar(numbers[:3], numbers[3:6], numbers[6])


def true(polygons, *bodies, width=Fraction(1, 10 ** 6)):
    return lambda: truth(Solid(*polygons), bodies, width)


def leaning_disc():
    """The rim of the lower cap is lowest: there z is az - R sin, and the end face z = 20 the nearest surface, as the rim is
    nowhere further out than 500.1. No point of the disc lies lower."""
    ax, ay, az, bx, by, bz, radius = map(Fraction, DISC)
    assert ax == bx == ay == 0 and by > 0 and bz > az
    low, high = root(by ** 2 + (bz - az) ** 2)
    depths = [20 - (az - radius * by / length) for length in (high, low)]
    assert 0 < depths[0] and depths[1] < min(600 - radius - by, 10)
    return -depths[1], -depths[0]


def leaning_bar():
    """No x of the bar is below ax - R cos, so that no radius is; the rim at a has it, at a z between 0 and 20."""
    ax, ay, az, bx, by, bz, radius = map(Fraction, LEANING)
    assert ay == by == az == 0 and bx > ax
    low, high = root((bx - ax) ** 2 + bz ** 2)
    assert 0 <= radius * (bx - ax) / low <= 20
    return ax - radius * bz / low - 10, ax - radius * bz / high - 10


DISC_SECTION = [(0, 600), (20, 600), (20, 0), (0, 0)]
DISC = (0, 0, 20.01, 0, 0.00028, 22.01, 500)
LEANING = (15, 0, 0, 15.14, 0, 1000, 2)
COARSE = (-5, 16, 10, 5, 16, 10, 5)
HOLLOW = [(0, 20), (20, 20), (20, 60), (0, 60)]
SMALL = [(5, 15), (6, 15), (6, 16), (5, 16)]
L = [(0, 10), (20, 10), (20, 14), (10, 14), (10, 30), (0, 30)]
LOW = 1e-3
NEXT = struct.unpack(">d", struct.pack(">Q", struct.unpack(">Q", struct.pack(">d", LOW))[0] + 1))[0]
NECK = [(0, 10), (20, 10), (20, NEXT), (25, LOW), (25, 0), (0, 0)]
CROWN = [(0, 10), (487.8, 10.000006), (994.2, 10), (994.2, 0), (0, 0)]
NEEDLE = [(0, 10), (20, 10), (20, 1e-9), (100, 1e-9), (100, 0), (0, 0)]
METRE = bits("408f0e02e303b842 408f400000000000 408f24f719f69671 408f400000000000 c081252db14161d2 408f3ffff224c28c")
METRE_BOX = (bits("c08b08aea5e89685 408f400000000000 4071f451967fabc9 407a6fd548df51e9"))
LIMIT = bits("411db403a479ca0f 4114d8808bf2b42a 40b003ffff000000 4127ec226829b30c 412b62a8742d2de9 4114d8808fef019a"
             " c12f6e5b1c4120a8 4114d880703c3942")
LIMIT_BOX = bits("c12fa57d87bc6af5 4128cbb4d344686d 4091216d4349ada7 40f055ed419686ca")
TOUCH = bits("c0806f165e46f638 402c535135b9fab6 4081120613cb4b7e 402c52e2e470ad19 c02f04d011978526 4072c00000000000")
TOUCH_BOX = bits("4081112fead3ff79 4081120613cb5a51 4020462724b32af4 402c52e2e481db26")
TIP = [(35.00000294773464, 7.0000038146916435), (31.208500458583128, 2.497901593005932), (30.829350209667975, 9.587598029649536)]
TIP_BAR = (-0.2, 7, 37, 0.2, 7, 37, 2)


def box_row(what, section, pairs, clearance=None, digits=13, width=Fraction(1, 10 ** 6)):
    numbers = [x for pair in pairs for x in pair]
    return Row(what, ask("b", section, numbers, clearance), true([section], Box(*numbers), width=width), digits)


CLEAR = [
    Row("coarse tolerance, overlap", walk(RING, DRILL, 0.001), true([RING], bar(DRILL))),
    Row("coarse tolerance, apart", walk(S, COARSE, 1, 1), true([S], bar(COARSE))),
    Row("convex with its corners on the outline", convex(S, S), true([S], Box(0, 20, 0, 10))),
    Row("the same, a block in the wall", convex([(5, 5), (15, 5), (15, 10), (5, 10)], RING), true([RING], Box(5, 15, 5, 10))),
    Row("outline listed twice", ask("p", S + S, (5, 0, 10)), true([S], Box(10, 10, 5, 5))),
    Row("box below the axis, bored section", ask("b", RING, (5, 15, -9, -6), 0), true([RING], Box(5, 15, 6, 9)),
        added=" mirrored"),
    Row("move that takes a box below the axis", move(HOLLOW, BOX, (5, 15, 5, 10), (0, 0, 0), (-40, 0, 0), 40),
        true([HOLLOW], Box(5, 15, 0, 35)), added=" on the way"),
    Row("not convex, given as convex", convex(L, SMALL), true([SMALL], Box(0, 20, 10, 14), Box(0, 10, 10, 30))),
    Row("radii below 1/128 that hardly differ", ask("p", NECK, (LOW, 0, 10)), true([NECK], Box(10, 10, LOW, LOW))),
    Row("between the steps of a move", move(S, SPHERE, (0, 0, 0, 1), (0, 0, -20), (0, 0, 40), 1), true([S], Box(-21, 41, 0, 1)),
        added=" on the way"),
    Row("leaning disc", ask("y", DISC_SECTION, DISC, 0), leaning_disc),
    Row("leaning bar: the distance, not the verdict", ask("y", S, LEANING, 3.05), leaning_bar),
    Row("body of no thickness", ask("y", RING, (0, 0, 10, 25, 0, 10, 0), 0), true([RING], Box(10, 10, 0, 25))),
    Row("clearance below 0", ask("b", S, (-5, 25, 5, 15), -0.001), true([S], Box(-5, 25, 5, 15))),
    Row("nearly flat crown", ask("b", CROWN, (-70, 1028.2, 15, 25)), true([CROWN], Box(-70, 1028.2, 15, 25)), 7),
    Row("needle along the axis", ask("p", NEEDLE, (5, 0, 60)), true([NEEDLE], Box(60, 60, 5, 5))),
    box_row("long edge nearly level, within a metre", METRE, METRE_BOX),
    box_row("the same at the limits", LIMIT, LIMIT_BOX, digits=12),
    box_row("corner 2e-9 in the solid", TOUCH, TOUCH_BOX, 0, 2, Fraction(1, 10 ** 11)),
    Row("bar on a tip, finest settings, uncut", ask("y", TIP, TIP_BAR, 0),
        true([TIP], bar(TIP_BAR), width=Fraction(1, 10 ** 9)), 3),
]

CUT = (-5, 14, 24, 5, 14, 24, 5)
TAPER = [(0, 10), (40, 50), (40, 0), (0, 0)]
TAPER_BAR = (-5, 40, 15, 5, 40, 15, 10)
LEFT, RIGHT = [(0, 10), (20, 10), (20, 0), (0, 0)], [(80, 10), (100, 10), (100, 0), (80, 0)]
JOINED = [(0, 10), (20, 10), (20, 0), (80, 0), (80, 10), (100, 10), (100, 0), (0, 0)]
SLEEVE = [(0, 10), (20, 10), (20, 5), (0, 5)]
SLEEVE_BUILT = SLEEVE + [(0, 0)]
SLIT = [(0, 10), (10, 10), (10, 1), (10, 10), (20, 10), (20, 0), (0, 0)]
CONE = [(0, 10), (20, 0), (0, 0)]
CONE_Z = 19.999999998
COARSER = Fraction(1, 5 * 10 ** 4)
TAPER_TRUE = cache(true([TAPER], bar(TAPER_BAR), width=COARSER))

ALARM = [
    Row("cut walk", ask("y", S, CUT, 0), true([S], bar(CUT), width=COARSER), 3),
    Row("cut walk on a taper", ask("y", TAPER, TAPER_BAR, 0), TAPER_TRUE),
    Row("the same at 0.001", walk(TAPER, TAPER_BAR, 0.001), TAPER_TRUE),
    Row("two parts joined along the axis", ask("p", JOINED, (0, 0, 50)), true([LEFT, RIGHT], Box(50, 50, 0, 0))),
    Row("the same, drill on the axis", ask("y", JOINED, (0, 0, 40, 0, 0, 60, 4), 0), true([LEFT, RIGHT], Box(40, 60, 0, 4))),
    Row("bored sleeve from the section builder", ask("y", SLEEVE_BUILT, (0, 0, -10, 0, 0, 10, 2), 0) + [Question("S", [SLEEVE])],
        true([SLEEVE], Box(-10, 10, 0, 2))),
    Row("box below the axis, solid section", ask("b", S, (5, 15, -30, -26), 0), true([S], Box(5, 15, 26, 30)), added=" mirrored"),
    Row("flat or tiny convex", convex([(30, 10), (40, 10), (35, 10)], S), true([S], Box(30, 40, 10, 10))),
    Row("slit of no width", ask("p", SLIT, (5, 0, 10.5)), true([S], Box(10.5, 10.5, 5, 5))),
    # The box holds the sphere, and its deepest point is the sphere's centre.
    Row("sphere with its centre inside", ask("s", S, (0, 0, 10, 4), 0), true([S], Box(6, 14, 0, 4))),
    Row("tip of a cone", ask("p", CONE, (1e-8, 0, CONE_Z)), true([CONE], Box(CONE_Z, CONE_Z, 1e-8, 1e-8)), 3),
]

TOLERANCES = (1e-9, 1e-4, 0.001, 0.01, 0.1)
DRILLED = [walk(RING, DRILL, tolerance) + move(RING, CYLINDER, DRILL, (0, 0, -10), (0, 0, 10), 20, tolerance)
           for tolerance in TOLERANCES]
RIM = [(34, 21.86), (83.93, 21.86), (83.93, 0), (34, 0)]
RIM_BAR = (-40, 22, 100, 40, 22, 100, 16)
RIM_ROWS = [Row("", walk(RIM, RIM_BAR, tolerance), true([RIM], bar(RIM_BAR))) for tolerance in (0.001, 0.01)]
