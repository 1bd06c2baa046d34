"""Checks docs/LIMITS.md: the library's answers bit for bit, the true values in fractions, and every table of the page."""

import os
import sys
from fractions import Fraction

from asking import FINEST, HERE, answer, digits, distance, flat, library
from exact import root
from rows import ALARM, CLEAR, DRILL, DRILLED, RIM_BAR, RIM_ROWS, RING, S, TOLERANCES

USAGE = """usage: limits.py [--write]
Asks the archive all questions of the page and compares with limits/answers, which the Rust gave; works out the true values;
compares the tables of docs/LIMITS.md. --write writes limits/questions and the tables anew, and compares nothing with them."""
PAGE = os.path.join(HERE, "..", "..", "docs", "LIMITS.md")
NAMES = {repr(S): "S", repr(RING): "ring"}


def number(x, figures=17):
    """As short as it can be, an exponent without zeros."""
    text = repr(float(x)) if figures == 17 else "%.*g" % (figures, x)
    text = text[:-2] if text.endswith(".0") else text
    return text.replace("e-0", "e-")


def signed(x, figures):
    return ("+" if x > 0 else "") + number(x, figures)


def between(bounds, figures):
    """The figures on which both bounds agree."""
    low, high = (signed(float(x), figures) for x in bounds)
    assert low == high, "%s and %s: the bounds are too wide" % (low, high)
    return low


def points(polygon):
    known = NAMES.get(repr(polygon))
    return known or " ".join("(%s, %s)" % (number(z), number(r)) for z, r in polygon)


def place(numbers):
    return "(%s)" % ", ".join(map(number, numbers))


def body(letters, n):
    if letters in ("p", "s"):
        return "point " + place(n) if letters == "p" else "sphere %s R %s" % (place(n[:3]), number(n[3]))
    if letters == "b":
        return "box z %s..%s, r %s..%s" % tuple(map(number, n))
    return "cylinder %s-%s R %s" % (place(n[:3]), place(n[3:6]), number(n[6]))


def example(question):
    """The question in words."""
    if question.letters == "c":
        return "%s; convex %s" % (points(question.lists[1]), points(question.lists[0]))
    letters = {4: "w", 3: "b", 2: "s"}[question.moved[0]] if question.moved else question.letters
    text = "%s; %s" % (points(question.lists[0]), body(letters, question.numbers))
    if question.moved:
        _, _, start, end, steps = question.moved
        text += ", moved from %s to %s, steps: %d" % (place(start), place(end), steps)
    elif question.settings:
        text += ", tolerance %s, intervals %d" % (number(question.settings[0]), question.settings[2])
    return text


def reported(row, answers):
    """Distance, mark, verdict."""
    first, line = row.asked[0], answers[0]
    text = signed(distance(line), row.digits)
    if first.moved:
        text += ", collides" if line.split()[2] == "1" else ", none collides"
    if first.letters in ("w", "y") and line.split()[-1] == "1":
        text += ", cut"
    for question, verdict in zip(row.asked[1:], answers[1:]):
        if question.letters[0] == "v":
            said = "collision" if verdict == "1" else "clear"
            text += "; %s at clearance %s" % (said, number(question.numbers[-1]))
    return text


def margin(tolerance, radius):
    """V = min(R, max(t, root of 2 R t)), the upper bound."""
    t, r = Fraction(tolerance), Fraction(radius)
    return min(r, max(t, root(2 * r * t)[1]))


def rounded_up(x):
    """To three figures, and never down by more than the last bits of the given f64."""
    text = "%.2e" % x
    if float(text) < x * (1 - 1e-12):
        mantissa, exponent = text.split("e")
        text = "%.2fe%s" % (float(mantissa) + 0.01, exponent)
    return number(float(text), 3)


def keeps_rule(question, line, bounds):
    """What the page says of a bar across the spindle, on this row."""
    low, high = bounds
    radius, d = Fraction(question.numbers[6]), Fraction(distance(line))
    slack, cut = Fraction(1, 10 ** 5), line.split()[-1] == "1"
    above = 0 if cut else margin((question.settings or FINEST)[0], radius)
    below = radius * Fraction(4143, 10000) if cut else 0
    assert low - below - slack <= d <= max(high, 0) + above + slack, question.line()


def across(question):
    n = question.numbers
    return not question.moved and question.letters in ("w", "y") and n[2] == n[5] and n[6] > 0


class Asked:
    """The archive's answers, all of them compared with the Rust's unless they are being written."""

    def __init__(self, expected):
        self.port, self.expected, self.lines = library(), expected, []

    def of(self, questions):
        answers = []
        for question in questions:
            line, answered = question.line(), answer(self.port, question)
            self.lines.append(line)
            if self.expected is not None:
                self.compare(len(self.lines) - 1, line, answered)
            answers.append(answered)
        return answers

    def compare(self, i, line, answered):
        """By its place in the list: some questions come twice, and each has its own line."""
        expected = self.expected[i] if i < len(self.expected) else ("nothing more", "")
        if expected != (line, answered):
            raise SystemExit("question %d\nasked    %s: %s\nexpected %s: %s" % (i + 1, line, answered, *expected))


def built_line(polygon):
    return "%d " % (2 * len(polygon)) + " ".join(map(digits, flat(polygon)))


def row_table(rows, asked, letter):
    lines = ["| no. | what | section and body | reported | true |", "|---|---|---|---|---|"]
    for i, row in enumerate(rows, 1):
        answers, bounds = asked.of(row.asked), row.true()
        if across(row.asked[0]):
            keeps_rule(row.asked[0], answers[0], bounds)
        for question, line in zip(row.asked, answers):
            assert question.letters != "S" or line == built_line(row.asked[0].lists[0]), "the row shows what the builder builds"
        told = (reported(row, answers), between(bounds, row.digits) + row.added)
        lines.append("| %s%d | %s | %s | %s | %s |" % (letter, i, row.what, example(row.asked[0]), *told))
    return lines


def drill_table(asked):
    lines, bounds = ["| tolerance | reported | V | the move |", "|---|---|---|---|"], CLEAR[0].true()
    assert between(bounds, 4) == "-2.5", "the page's words on the drill"
    for tolerance, questions in zip(TOLERANCES, DRILLED):
        walked, moved = asked.of(questions)
        keeps_rule(questions[0], walked, bounds)
        mark = ", cut" if walked.split()[-1] == "1" else ", uncut"
        collides = "collides" if moved.split()[2] == "1" else "none collides"
        cells = (number(tolerance), signed(distance(walked), 4) + mark, rounded_up(float(margin(tolerance, DRILL[6]))), collides)
        lines.append("| %s | %s | %s | %s |" % cells)
    return lines


def rim_table(asked):
    lines = ["| tolerance | reported | true | too much | V |", "|---|---|---|---|---|"]
    for row in RIM_ROWS:
        (line,), bounds, question = asked.of(row.asked), row.true(), row.asked[0]
        keeps_rule(question, line, bounds)
        assert line.split()[-1] == "0", "uncut"
        over = [Fraction(distance(line)) - bound for bound in reversed(bounds)]
        v = rounded_up(float(margin(question.settings[0], RIM_BAR[6])))
        cells = (number(question.settings[0]), signed(distance(line), 4), between(bounds, 3), between(over, 3)[1:], v)
        lines.append("| %s | %s | %s | %s | %s |" % cells)
    return lines


def tables(asked):
    return {"false clear": row_table(CLEAR, asked, "C"), "drill": drill_table(asked), "rim": rim_table(asked),
            "false alarm": row_table(ALARM, asked, "A")}


def replaced(page, name, lines):
    """The page with these lines between the two marks of a table."""
    start, end = "<!-- table: %s -->\n" % name, "<!-- end -->"
    assert page.count(start) == 1, "no table " + name
    head, rest = page.split(start)
    return head + start + "\n" + "\n".join(lines) + "\n\n" + rest[rest.index(end):]


def read(path):
    with open(path, encoding="utf-8") as file:
        return file.read()


def write(path, text):
    with open(path, "w", encoding="utf-8") as file:
        file.write(text)


def main(words):
    if words not in ([], ["--write"]):
        print(USAGE)
        return 0 if words == ["--help"] else 2
    questions, answers = (os.path.join(HERE, name) for name in ("questions", "answers"))
    expected = None if words else list(zip(read(questions).splitlines(), read(answers).splitlines(), strict=True))
    asked = Asked(expected)
    page = wanted = read(PAGE)
    for name, lines in tables(asked).items():
        wanted = replaced(wanted, name, lines)
    if words:
        write(questions, "\n".join(asked.lines) + "\n")
        write(PAGE, wanted)
    elif len(expected) != len(asked.lines):
        raise SystemExit("limits/questions has more than was asked")
    elif wanted != page:
        differ = [pair for pair in zip(wanted.splitlines(), page.splitlines()) if pair[0] != pair[1]]
        raise SystemExit("docs/LIMITS.md has\n%s\nand should have\n%s" % differ[0][::-1] if differ else "docs/LIMITS.md differs")
    print("%d answers and %d tables are as they should be" % (len(asked.lines), 4))
    return 0


if __name__ == "__main__":
    sys.exit(main(sys.argv[1:]))
