#!/usr/bin/env python3
"""usage: hard_roots.py LIST ANSWERS
Writes hard cases for sqrt and hypot and their answers, by whole numbers only (math.isqrt and comparing squares)."""
# A finite f64 is a whole multiple of 2^-1074; "units" below are those multiples.
import math
import sys

NAN, INF = 0x7FF8000000000000, 0x7FF0000000000000
SIGN = 1 << 63
MAX = INF - 1                    # largest finite
MIN_NORMAL = 1 << 52
ONE = 0x3FF0000000000000


def is_nan(bits):
    return bits & ~SIGN > INF


def is_inf(bits):
    return bits & ~SIGN == INF


def units(bits):
    """Magnitude of a finite f64, in multiples of 2^-1074."""
    exponent, fraction = (bits >> 52) & 0x7FF, bits & ((1 << 52) - 1)
    return fraction if exponent == 0 else (fraction | 1 << 52) << (exponent - 1)


def bits_of(whole):
    """The f64 of a whole number of units that one can hold; +infinity at 2^1024 and past it."""
    if whole < 1 << 53:
        return whole             # subnormal, or the lowest normal binade: the bits count the units
    shift = whole.bit_length() - 53
    if shift > 2045:
        return INF
    assert whole >> shift << shift == whole
    return (shift << 52) + (whole >> shift)


def f64(whole, exponent):
    """The f64 of whole * 2^exponent, which must be one."""
    shift = exponent + 1074
    if shift < 0:
        assert whole % (1 << -shift) == 0
        return bits_of(whole >> -shift)
    return bits_of(whole << shift)


def holds(whole, exponent):
    """Whether whole * 2^exponent is a finite f64 above 0."""
    if whole <= 0:
        return False
    odd = whole // (whole & -whole)
    low = exponent + (whole & -whole).bit_length() - 1
    return odd.bit_length() <= 53 and low >= -1074 and whole.bit_length() + exponent <= 1024


def nearest_root(square):
    """The f64 nearest the root of `square` (units squared), ties to even."""
    root = math.isqrt(square)
    shift = max(root.bit_length() - 53, 0)
    low = root >> shift << shift
    step = 1 << shift
    twice = (2 * low + step) ** 2 - 4 * square     # (2 * middle)^2 against 4 * square
    if twice < 0 or (twice == 0 and (low >> shift) & 1):
        low += step
    return bits_of(low)


def sqrt(x):
    if is_nan(x):
        return NAN
    if x & ~SIGN == 0:
        return 0                 # zeros of both signs count as one
    if x & SIGN:
        return NAN
    if is_inf(x):
        return INF
    return nearest_root(units(x) << 1074)


def hypot(a, b):
    if is_inf(a) or is_inf(b):
        return INF
    if is_nan(a) or is_nan(b):
        return NAN
    return nearest_root(units(a) ** 2 + units(b) ** 2)


class Random:
    """xorshift64, so that every run gives the same list."""

    def __init__(self, seed):
        self.state = seed

    def next(self):
        s = self.state
        s ^= (s << 13) & (1 << 64) - 1
        s ^= s >> 7
        s ^= (s << 17) & (1 << 64) - 1
        self.state = s
        return s

    def below(self, n):
        return self.next() % n

    def between(self, low, high):
        return low + self.below(high - low + 1)

    def wide(self, bits):
        """A whole number of exactly `bits` bits."""
        return 1 << (bits - 1) | self.next() & (1 << (bits - 1)) - 1

    def sign(self, bits):
        return bits | (self.next() & SIGN)


def square_roots(d, k):
    """All y below 2^k with y^2 = d modulo 2^k; d is 1 modulo 8, k at least 3."""
    y = 1
    for j in range(3, k):
        if (y * y - d) >> j & 1:
            y += 1 << (j - 1)
    half, whole = 1 << (k - 1), 1 << k
    return sorted({y % whole, -y % whole, (y + half) % whole, (half - y) % whole})


def sqrt_cases(rnd):
    cases = [0, SIGN, ONE, ONE | SIGN, INF, INF | SIGN, NAN, 1, 1 | SIGN, 2, 3, 4, MAX, MAX | SIGN, MIN_NORMAL,
             MIN_NORMAL - 1, MIN_NORMAL + 1, MAX - 1, ONE - 1, ONE + 1, ONE + 2, ONE - 2, SIGN | MIN_NORMAL]
    cases += [e << 52 for e in range(1, 2047, 31)] + [1 << e for e in range(52)]
    # squares, and their neighbours
    for n in list(range(2, 66)) + [rnd.wide(rnd.between(8, 26)) for _ in range(60)]:
        x = f64(n * n, 2 * rnd.between(-530, 480))
        cases += [x - 1, x, x + 1]
    # roots that lie next to a middle: y^2 - d, y odd of 54 bits, d small
    for d in [1, 9, 17, 25, 33, 41, 49, 57, -7, -15, -23, -31, -39, -47, -55, -63]:
        for k in (54, 55):
            for root in square_roots(d, k):
                for y in range(root, 1 << 54, 1 << k):
                    if y >= 1 << 53 and holds(y * y - d, 0):
                        x = f64(y * y - d, 2 * rnd.between(-500, 450))
                        cases += [x - 1, x, x + 1]
    # the f64 next to the square of a middle, below and above
    for _ in range(60):
        y = rnd.wide(54) | 1
        shift = (y * y).bit_length() - 53
        x = f64((y * y) >> shift, shift)
        cases += [x, x + 1]
    cases += [rnd.wide(rnd.between(1, 52)) for _ in range(100)]                      # subnormal
    cases += [rnd.next() & ~SIGN for _ in range(200)]                                # any
    cases += [(rnd.between(1000, 1050) << 52) + rnd.below(1 << 52) for _ in range(150)]
    return cases


def triple(m, n):
    return abs(m * m - n * n), 2 * m * n, m * m + n * n


def tie_pairs(rnd):
    """Pairs whose hypot is a whole number of 54 bits, odd: half way between two f64."""
    pairs = []
    v = 1 << 26
    for i in range(12):
        w = v + i * 1234567
        pairs.append((2 * w * (w + 1), 2 * w + 1))
    while len(pairs) < 90:                   # primitive triples: 1 modulo 4, the even one is below
        m = rnd.between(1 << 26, 3 << 25)
        n = rnd.between(1 << 24, m) & ~1 | (~m & 1)
        a, b, c = triple(m, n)
        if c.bit_length() == 54 and c & 1 and holds(a, 0) and holds(b, 0):
            pairs.append((a, b))
    while len(pairs) < 180:                  # threefold, sevenfold..: 3 modulo 4, the even one is above
        d = 4 * rnd.below(200) + 3
        m = rnd.between(1 << 20, 1 << 26)
        n = rnd.between(1 << 18, m) & ~1 | (~m & 1)
        a, b, c = (d * side for side in triple(m, n))
        if c.bit_length() == 54 and c & 1 and holds(a, 0) and holds(b, 0):
            pairs.append((a, b))
    return pairs


def overflow_ties():
    """Pairs half way between the largest f64 and 2^1024: triples with hypotenuse 2^54 - 1."""
    pairs, c = [], (1 << 54) - 1
    for factor in (73, 262657, 73 * 262657):
        for m in range(1, math.isqrt(factor) + 1):
            n = math.isqrt(factor - m * m)
            if n * n + m * m == factor and n < m:
                a, b, _ = triple(m, n)
                if holds(a * (c // factor), 970) and holds(b * (c // factor), 970):
                    pairs.append((f64(a * (c // factor), 970), f64(b * (c // factor), 970)))
    return pairs


def near_tie_pairs():
    """(a, B / 2^26) with a whole and B^2 / 2^52 = a + 1/4 + d / 2^52: the middle a + 1/2 is missed by a hair."""
    pairs = []
    for d in [1, 9, 17, 25, 33, 41, -7, -15, -23, -31, -39, -47]:
        for root in square_roots(d + (1 << 50), 52):
            for big in (root + (1 << 52), root):
                a = (big * big - d - (1 << 50)) >> 52
                if a.bit_length() == 53 and big.bit_length() <= 53:
                    pairs.append((a, big))
    return pairs


def hypot_cases(rnd):
    special = [NAN, INF, INF | SIGN, 0, SIGN, 1, MIN_NORMAL, MAX, ONE, ONE | SIGN]
    cases = [(a, b) for a in special for b in special]
    cases += [(x, y) for x in (1 | SIGN, MIN_NORMAL | SIGN, MAX | SIGN, MIN_NORMAL - 1, MAX - 1) for y in special]
    cases.append((0x3FE0000000000000, 0x3FD3333333333333))                           # hypot(0.5, 0.3)
    # Pythagorean triples, at every size
    small = [(m, n) for m in range(2, 16) for n in range(1, m) if math.gcd(m, n) == 1 and (m - n) & 1]
    for m, n in small + [(rnd.between(1 << 10, 1 << 25), rnd.between(1, 1 << 25)) for _ in range(80)]:
        a, b, _ = triple(m, n)
        e = rnd.between(-1074, 960)
        if holds(a, 0) and holds(b, 0):
            cases += [(f64(a, 0), f64(b, 0)), (rnd.sign(f64(b, e)), rnd.sign(f64(a, e)))]
    # ties, and their neighbours
    for a, b in tie_pairs(rnd):
        e = rnd.between(-1074, 960)
        x, y = f64(a, e), f64(b, e)
        cases += [(f64(a, 0), f64(b, 0)), (y, x), (x + 1, y), (x, y - 1), (x, y + 1)]
    # the overflow edge
    edge = f64(1, 997)
    cases += [(MAX, y) for y in range(edge - 3, edge + 4)]
    half = nearest_root(units(MAX) ** 2 // 2)
    cases += [(half + i, half + j) for i in range(-2, 3) for j in range(-2, 3)]
    cases += [(MAX, edge + (1 << 51) + i) for i in range(-2, 3)] + [(MAX, edge + (1 << 52)), (edge, MAX | SIGN)]
    for a, b in overflow_ties():
        cases += [(a, b), (b, a), (a, b - 1), (a - 1, b), (a, b + 1), (a + 1, b)]
    # near ties
    for a, big in near_tie_pairs():
        e = rnd.between(-1040, 960)
        x, y = f64(a, e), f64(big, e - 26)
        cases += [(x, y), (y, x), (x, y - 1), (x, y + 1)]
    for _ in range(120):
        a = rnd.wide(53)
        e = rnd.between(-1000, 950)
        y = nearest_root(units(f64(a, 0)) * units(ONE))                              # b near the root of a: half an ulp
        y = f64(units(y), e - 1074)
        cases += [(f64(a, e), y), (rnd.sign(f64(a, e)), y + 1), (y - 1, f64(a, e))]
    # exponents 24 to 29 apart
    for gap in range(24, 30):
        for _ in range(40):
            e = rnd.between(64, 2040)
            big, low = (e << 52) + rnd.below(1 << 52), (e - gap << 52) + rnd.below(1 << 52)
            cases.append((big, low) if rnd.next() & 1 else (low, rnd.sign(big)))
        e = rnd.between(64, 2040)
        cases += [(e << 52, e - gap << 52), ((e << 52) + 1, e - gap << 52), ((e + 1 << 52) - 1, (e - gap + 1 << 52) - 1)]
    # subnormal operands and results
    for _ in range(150):
        cases.append((rnd.sign(rnd.wide(rnd.between(1, 52))), rnd.wide(rnd.between(1, 52))))
        cases.append((rnd.wide(rnd.between(48, 54)), rnd.wide(rnd.between(1, 54))))
    cases += [(i, j) for i in range(1, 9) for j in range(1, 9)]
    top = nearest_root((1 << 52) ** 2 // 2)
    cases += [(top + i, top + j) for i in range(-2, 3) for j in range(-2, 3)]        # across the least normal
    # any, and ordinary sizes
    cases += [(rnd.next() & ~(1 << 62), rnd.next()) for _ in range(100)]
    for _ in range(300):
        e = rnd.between(1000, 1044)
        cases.append(((e << 52) + rnd.below(1 << 52), rnd.sign((e - rnd.below(6) << 52) + rnd.below(1 << 52))))
    return cases


def canonical(bits):
    return NAN if is_nan(bits) else bits


def main(list_path, answers_path):
    rnd = Random(0x6A6F726768697061)
    roots = sorted({canonical(x) for x in sqrt_cases(rnd)})
    pairs = sorted({(canonical(a), canonical(b)) for a, b in hypot_cases(rnd)})
    with open(list_path, "w") as listing, open(answers_path, "w") as answers:
        for a, b in pairs:
            listing.write(f"h {a:016x} {b:016x}\n")
            answers.write(f"{hypot(a, b):016x}\n")
        for x in roots:
            listing.write(f"r {x:016x}\n")
            answers.write(f"{sqrt(x):016x}\n")
    print(f"{len(pairs)} hypot, {len(roots)} sqrt")


if __name__ == "__main__":
    words = sys.argv[1:]
    if "--help" in words:
        print(__doc__)
    elif len(words) == 2 and not any(word.startswith("-") for word in words):
        main(*words)
    else:
        print(__doc__, file=sys.stderr)
        sys.exit(2)
