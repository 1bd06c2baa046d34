"""True distances in fractions: solid and body exactly as given, every root between two bounds. Nothing of the library is used."""

import heapq
from fractions import Fraction
from math import isqrt

BITS = 80  # a root is bounded to 2^-BITS


def root(x):
    """Two fractions between which the root of x lies."""
    whole = (x.numerator << 2 * BITS) // x.denominator
    low = isqrt(whole)
    exact = low * low * x.denominator == x.numerator << 2 * BITS
    return Fraction(low, 1 << BITS), Fraction(low if exact else low + 1, 1 << BITS)


def hypot_low(a, b):
    return root(a * a + b * b)[0]


def hypot_high(a, b):
    return root(a * a + b * b)[1]


def to_segment(p, edge):
    """The square of a point's distance from a segment."""
    (az, ar), (bz, br) = edge
    z, r, ez, er = p[0] - az, p[1] - ar, bz - az, br - ar
    square = ez * ez + er * er
    along = z * ez + r * er
    if along <= 0 or square == 0:
        return z * z + r * r
    if along >= square:
        return (p[0] - bz) ** 2 + (p[1] - br) ** 2
    across = z * er - r * ez
    return across * across / square


class Solid:
    """Simple polygons in (z, radius) that do not overlap. An edge on the axis is no surface: inside, it does not count."""

    def __init__(self, *polygons):
        self.edges = []
        for polygon in polygons:
            points = [(Fraction(z), Fraction(r)) for z, r in polygon]
            self.edges += list(zip(points, points[1:] + points[:1]))
        self.surface = [(a, b) for a, b in self.edges if a[1] != 0 or b[1] != 0]
        z, r = zip(*(a for a, _ in self.edges))
        self.bounds = (min(z), max(z), min(r), max(r))

    def holds(self, p):
        """The even-odd rule, exact."""
        odd = False
        for (az, ar), (bz, br) in self.edges:
            if (ar > p[1]) != (br > p[1]) and az + (p[1] - ar) * (bz - az) / (br - ar) > p[0]:
                odd = not odd
        return odd

    def depth(self, p):
        """Bounds of how deep a point lies; below 0 outside."""
        if self.holds(p):
            return root(min(to_segment(p, edge) for edge in self.surface))
        low, high = root(min(to_segment(p, edge) for edge in self.edges))
        return -high, -low

    def cell(self, cell):
        """An upper bound of the depth over a cell, and its corners and centre; 0 and none if all of it lies outside. The distance
        from a segment is convex, so that over a cell it is largest at a corner; no depth changes faster than the point moves."""
        z0, z1, r0, r1 = cell
        corners = [(z0, r0), (z1, r0), (z1, r1), (z0, r1)]
        centre = ((z0 + z1) / 2, (r0 + r1) / 2)
        if not self.holds(centre) and not any(clipped(edge, cell) for edge in self.edges):
            return Fraction(0), []
        convex = root(min(max(to_segment(p, edge) for p in corners) for edge in self.surface))[1]
        moved = self.depth(centre)[1] + hypot_high((z1 - z0) / 2, (r1 - r0) / 2)
        return min(convex, moved), corners + [centre]

    def gap(self, box):
        """The square of the distance between the solid and a box; 0 where they meet."""
        if self.holds((box[0], box[2])):
            return Fraction(0)
        return min(segment_to_box(edge, box) for edge in self.edges)


def clipped(edge, box):
    """Whether a segment meets a box."""
    (az, ar), (bz, br) = edge
    enter, leave = Fraction(0), Fraction(1)
    for start, step, low, high in ((az, bz - az, box[0], box[1]), (ar, br - ar, box[2], box[3])):
        if step == 0:
            if not low <= start <= high:
                return False
            continue
        ends = sorted(((low - start) / step, (high - start) / step))
        enter, leave = max(enter, ends[0]), min(leave, ends[1])
    return enter <= leave


def segment_to_box(edge, box):
    """The square of their distance."""
    if clipped(edge, box):
        return Fraction(0)
    z0, z1, r0, r1 = box
    outside = [max(z0 - z, 0, z - z1) ** 2 + max(r0 - r, 0, r - r1) ** 2 for z, r in edge]
    return min(outside + [to_segment(p, edge) for p in ((z0, r0), (z1, r0), (z1, r1), (z0, r1))])


class Box:
    """z0..z1, r0..r1; a point, a line and a straight cylinder along the spindle are boxes too."""

    def __init__(self, z0, z1, r0, r1):
        self.cell = tuple(Fraction(x) for x in (z0, z1, r0, r1))

    def may_meet(self, cell):
        return True

    def has(self, p):
        return True

    def apart(self, solid, width):
        return root(solid.gap(self.cell))


class Bar:
    """A straight cylinder across the spindle, by the radii that it has at each z."""

    def __init__(self, a, b, radius):
        assert a[1:] == b[1:]
        self.x = sorted((Fraction(a[0]), Fraction(b[0])))
        self.y, self.z, self.radius = Fraction(a[1]), Fraction(a[2]), Fraction(radius)
        far = hypot_high(max(map(abs, self.x)), abs(self.y) + self.radius)
        self.cell = (self.z - self.radius, self.z + self.radius, Fraction(0), far)

    def half(self, z):
        """Bounds of the half width at z."""
        return root(max(self.radius ** 2 - (z - self.z) ** 2, Fraction(0)))

    def span(self, half):
        """Lower bound of the least, upper bound of the greatest radius at a half width, and these two from the other side."""
        x0, x1 = self.x
        near_x, far_x = max(x0, -x1, Fraction(0)), max(abs(x0), abs(x1))
        near_y, far_y = max(abs(self.y) - half, Fraction(0)), abs(self.y) + half
        near, far = root(near_x ** 2 + near_y ** 2), root(far_x ** 2 + far_y ** 2)
        return near[0], far[1], near[1], far[0]

    def around(self, z0, z1):
        """A box that holds all of the bar from z0 to z1, both within its width."""
        widest = min(max(self.z, z0), z1)
        low, high, _, _ = self.span(self.half(widest)[1])
        return z0, z1, low, high

    def may_meet(self, cell):
        z0, z1 = max(cell[0], self.cell[0]), min(cell[1], self.cell[1])
        if z0 > z1:
            return False
        _, _, low, high = self.around(z0, z1)
        return low <= cell[3] and cell[2] <= high

    def has(self, p):
        if not self.cell[0] <= p[0] <= self.cell[1]:
            return False
        _, _, low, high = self.span(self.half(p[0])[0])
        return low <= p[1] <= high

    def apart(self, solid, width):
        """Bounds of the gap, no further apart than the width: the piece with the lowest bound is halved until that is so."""
        least = None
        heap = [(Fraction(0), self.cell[0], self.cell[1])]
        while True:
            low, z0, z1 = heapq.heappop(heap)
            if least is not None and least - low <= width:
                return low, least
            middle = (z0 + z1) / 2
            _, _, near, far = self.span(self.half(middle)[0])
            here = root(solid.gap((middle, middle, near, far)))[1]
            least = here if least is None else min(least, here)
            for a, b in ((z0, middle), (middle, z1)):
                heapq.heappush(heap, (root(solid.gap(self.around(a, b)))[0], a, b))


def common(a, b):
    """The cell that two cells share, if they do."""
    cell = (max(a[0], b[0]), min(a[1], b[1]), max(a[2], b[2]), min(a[3], b[3]))
    return cell if cell[0] <= cell[1] and cell[2] <= cell[3] else None


def halves(cell, along):
    low, high = cell[2 * along], cell[2 * along + 1]
    middle = (low + high) / 2
    return [cell[:2 * along] + part + cell[2 * along + 2:] for part in ((low, middle), (middle, high))]


def split(solid, body, cell, bound):
    """The halves of a cell that may meet the body, each with its bound and points: along the side that lowers their bounds more,
    along the longer one where neither does."""
    choices = []
    for along in (0, 1):
        length = cell[2 * along + 1] - cell[2 * along]
        if length > 0:
            parts = [(part, *solid.cell(part)) for part in halves(cell, along) if body.may_meet(part)]
            lowered = sum(bound - part[1] for part in parts) + 2 * bound * (2 - len(parts))
            choices.append((lowered, length, parts))
    return max(choices, key=lambda choice: choice[:2], default=(0, 0, []))[2]


def deepest(solid, body, width):
    """Bounds of the depth of the body's deepest point, no further apart than the width; None where no point was found inside."""
    start = common(body.cell, solid.bounds)
    if not start:
        return None
    bound, points = solid.cell(start)
    best = max([Fraction(0)] + [solid.depth(p)[0] for p in points if body.has(p)])
    heap, count = [(-bound, 0, start)], 0
    while heap:
        negated, _, cell = heapq.heappop(heap)
        if -negated - best <= width:
            return (best, max(best, -negated)) if best > 0 else None
        for part, bound, points in split(solid, body, cell, -negated):
            best = max([best] + [solid.depth(p)[0] for p in points if body.has(p)])
            count += 1
            if bound > best:
                heapq.heappush(heap, (-bound, count, part))
    return (best, best) if best > 0 else None


def truth(solid, bodies, width=Fraction(1, 10 ** 6)):
    """Bounds of the least signed distance over all points of the bodies: a gap, or minus the depth of the deepest point."""
    gaps = [body.apart(solid, width) for body in bodies]
    if all(low > 0 for low, _ in gaps):
        return min(low for low, _ in gaps), min(high for _, high in gaps)
    depths = [depth for depth in (deepest(solid, body, width) for body in bodies) if depth]
    assert depths, "neither a gap nor an overlap was found"
    return -max(high for _, high in depths), -max(low for low, _ in depths)
