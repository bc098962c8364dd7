"""Tests of bounds.py: python3 python/test_bounds.py, once tools/archive has made the shared library."""
import _ctypes
import doctest
import math
import sys
import threading
import unittest
from array import array
from fractions import Fraction
from pathlib import Path

sys.path.insert(0, str(Path(__file__).resolve().parent))
import bounds  # noqa: E402

DATA = Path(__file__).resolve().parent.parent / "reference" / "tests" / "data"
MODEL_A = [0x11002001, 0x2000000A, 0x30000000, 0x41801000, 0x50001002, 0x60400001, 0xF0000000]
HEAD = [0x11005001, 0x2000000A, 0x30000000, 0x41801000]
TRANSITIONS = [0x50001002, 0x60400001, 0x50001003, 0x60400001, 0x50002004, 0x60400001, 0x50002005, 0x60400001, 0xF0000000]


def words_of(library, digits):
    """The words of a line of a file: eight hexadecimal digits each, `-` at the end for left-over bytes, `.` for no words."""
    whole = bytes.fromhex(digits.strip(".-"))
    model = b"".join(whole[at : at + 4][::-1] for at in range(0, len(whole), 4))
    return library.words_of(model + (b"abc" if digits.endswith("-") else b""))


def answered(library, words, budget):
    try:
        return str(library.assess(words, budget))
    except bounds.Refused as refused:
        return f"refused {refused.number} at {refused.place}\n"


def combined(call):
    try:
        pair = call()
        return f"lower {pair.lower}\nupper {pair.upper}"
    except bounds.Refused as refused:
        return f"refused {refused.number} at {refused.place}"


class Calls(unittest.TestCase):
    library = bounds.Library()

    def test_expected_answers(self):
        """A line is a name, a budget, words and the answer."""
        seen = 0
        for name in ("models.txt", "papers.txt"):
            for line in (DATA / name).read_text().splitlines():
                name, budget, digits, expected = line.split(" ")
                words = words_of(self.library, digits)
                expected = expected.replace("|", "\n").replace("=", " ") + "\n"
                self.assertEqual(answered(self.library, words, int(budget)), expected, name)
                self.assertEqual(self.library.text(words, int(budget)), expected, name)
                seen += 1
        self.assertEqual(seen, 1164)

    def test_expected_rows(self):
        """A line is a name, a budget, the number of rows lent, words and the answer, which ends in the rows that are filled."""
        lines = (DATA / "rows.txt").read_text().splitlines()
        for line in lines:
            name, budget, lent, digits, expected = line.split(" ")
            try:
                report, rows = self.library.assess_rows(words_of(self.library, digits), int(budget), int(lent))
                found = str(report) + "".join(f"row {row.state} {row.lower} {row.upper}\n" for row in rows)
            except bounds.Refused as refused:
                found = f"refused {refused.number} at {refused.place}\n"
                # no rows are handed back with a refusal
                expected = expected.split("|")[0]
            self.assertEqual(found, expected.replace("|", "\n").replace("=", " ") + "\n", name)
        self.assertEqual(len(lines), 119)

    def test_rows(self):
        report, rows = self.library.assess_rows(MODEL_A)
        self.assertEqual(report, self.library.assess(MODEL_A))
        self.assertEqual(rows, [bounds.Row(2, report.lower, report.upper)])
        self.assertEqual(self.library.assess_rows(MODEL_A, 1, 1), (report, rows))
        self.assertEqual(self.library.assess_rows(MODEL_A, 1, 5000), (report, rows))
        with self.assertRaises(bounds.Refused) as raised:
            self.library.assess_rows(MODEL_A, lent=0)
        self.assertEqual(str(raised.exception), "refused 14 at 1: Fewer rows were lent than the 1 that the model needs.")
        for lent in (-1, 2**64, 1.5, "1", None):
            with self.assertRaises(ValueError):
                self.library.assess_rows(MODEL_A, lent=lent)

    def test_named_states(self):
        """Case 03-000-named of the answers of other hands, and further ones with other words that name the generator's states."""
        report, rows = self.library.assess_rows([*HEAD, 0xC0000003, 0xC0000005, *TRANSITIONS])
        self.assertEqual((str(report.lower), str(report.upper), str(report.cut)), ("4.99333333E-7", "1.00100000E-3", "1.00050000E-3"))
        self.assertEqual((report.deaths, report.cuts, report.steps), (1, 2, 4))
        self.assertEqual(rows, [bounds.Row(4, report.lower, bounds.Figure.parse("5E-7"))])
        for named, expected in (
            ([0xC0000003, 0xC0000002], "refused 15 at 5: The state named by word 5 is not greater than the one named before it."),
            ([0xC0000003, 0xC0000003], "refused 15 at 5: The state named by word 5 is not greater than the one named before it."),
            ([0xC0000002, 0xC0000003], "refused 16 at 2: State 2 is named as the generator's and has exits."),
            ([0xC8000003, 0xC0000005], "refused 4 at 4: Word 4 has a bit set that must be zero."),
            ([0xC0000003, 0xC0000006], "refused 6 at 5: Word 5 has an edition, state or limit out of range."),
        ):
            with self.assertRaises(bounds.Refused) as raised:
                self.library.assess([*HEAD, *named, *TRANSITIONS])
            self.assertEqual(str(raised.exception), expected)

    def test_numbers(self):
        """Only 0 is a report, and a number that is not known is an error of its own."""
        numbers = [5, 999500000, 100000000, 0, 1, 0, 1, 1, 1]
        known = {*range(1, 12), *range(13, 19)}
        for number in [*range(1, 65), 2**64 - 1]:
            with self.assertRaises(bounds.Refused if number in known else bounds.UnknownRefusal) as raised:
                bounds._report(number, numbers, [-12, -11, 0])
            self.assertEqual((raised.exception.number, raised.exception.place), (number, 5))

    def test_marks(self):
        """Each mark stands in its own place, and only 0 and 1 are marks."""
        numbers = [0, 999500000, 100000000, 0, 1, 0, 1]
        for lower in (0, 1):
            for upper in (0, 1):
                report = bounds._report(0, [*numbers, lower, upper], [-12, -11, 0])
                self.assertEqual((report.lower_exact, report.upper_exact), (lower == 1, upper == 1))
                self.assertTrue(str(report).endswith(f"steps 1\nexact {lower}{upper}\n"))
        for marks in ((0, 2), (2, 0), (1, 256), (2**32 + 1, 1), (2**64 - 1, 0)):
            with self.assertRaises(bounds.Error):
                bounds._report(0, [*numbers, *marks], [-12, -11, 0])

    def test_refusals(self):
        with self.assertRaises(bounds.Refused) as raised:
            self.library.assess(MODEL_A[:6])
        self.assertEqual(str(raised.exception), "refused 3 at 6: Word 6 is missing, or is not of the kind that belongs there.")
        self.assertEqual(answered(self.library, [0] * bounds.MOST_WORDS, 1), "refused 3 at 0\n")
        self.assertEqual(answered(self.library, [0] * (bounds.MOST_WORDS + 1), 0), "refused 1 at 0\n")
        self.assertEqual(answered(self.library, [], 1), "refused 3 at 0\n")

    def test_what_is_no_word_and_no_budget(self):
        for word in (-1, 2**32, 1.5, "1", None):
            with self.assertRaises((OverflowError, TypeError)):
                self.library.assess([word])
        for budget in (-1, 2**64, 1.5, "1", None):
            with self.assertRaises(ValueError):
                self.library.assess(MODEL_A, budget)

    def test_bytes(self):
        self.assertEqual(self.library.words_of(b""), [])
        self.assertEqual(self.library.words_of(b"\1\2\3\4\5"), [0x04030201, 0])
        self.assertEqual(len(self.library.words_of(bytes(4 * bounds.MOST_WORDS))), bounds.MOST_WORDS)
        self.assertEqual(len(self.library.words_of(bytes(8 * bounds.MOST_WORDS))), bounds.WORDS_SIZE)
        # the bytes of a buffer count, not its items
        self.assertEqual(self.library.words_of(array("I", MODEL_A)), MODEL_A)
        with self.assertRaises(TypeError):
            self.library.words_of(5)

    def test_budget_of_any_whole_number(self):
        class Whole:
            def __index__(self):
                return 1

        self.assertEqual(self.library.assess(MODEL_A, Whole()), self.library.assess(MODEL_A, 1))

    def test_another_library(self):
        with self.assertRaises(bounds.Error):
            bounds.Library(_ctypes.__file__)
        with self.assertRaises(OSError):
            bounds.Library("no-such-library.so")

    def test_threads(self):
        expected, found = str(self.library.assess(MODEL_A)), []
        work = [threading.Thread(target=lambda: found.append(str(self.library.assess(MODEL_A)))) for _ in range(8)]
        for thread in work:
            thread.start()
        for thread in work:
            thread.join()
        self.assertEqual(found, [expected] * 8)

    def test_expected_pairs(self):
        """A line is a name, the pairs (`.` for none), each LOWER:UPPER of digits, e and a power, and the answer."""
        lines = (DATA / "or.txt").read_text().splitlines()
        for line in lines:
            name, spelled, expected = line.split(" ")
            pairs = [[tuple(map(int, one.split("e"))) for one in pair.split(":")] for pair in spelled.strip(".").split(",") if pair]
            expected = expected.replace("|", "\n").replace("=", " ")
            self.assertEqual(combined(lambda: self.library._combined(pairs)), expected, name)
            try:
                figures = [tuple(bounds.Figure(*one) for one in pair) for pair in pairs]
            except ValueError:
                # what is no figure does not get so far
                self.assertRegex(expected, "^refused 1[78] at ", name)
            else:
                self.assertEqual(combined(lambda: self.library.probabilistic_or(figures)), expected, name)
        self.assertGreaterEqual(len(lines), 55)

    def test_pairs(self):
        half, one = bounds.Figure.parse("0.5"), bounds.Figure.parse("1")
        pair = self.library.probabilistic_or((lower, upper) for lower, upper in [(half, one), (half, half)])
        self.assertEqual(pair, bounds.Pair(bounds.Figure.parse("0.75"), one))
        self.assertEqual((pair.lower, pair.upper), tuple(pair))
        self.assertEqual(self.library.probabilistic_or([pair]), pair)
        for count in (0, 17, 18, 255, 256, 272, 65552):
            for given in ((half, one), (one, half)):
                with self.assertRaises(bounds.Refused) as raised:
                    self.library.probabilistic_or([given] * count)
                self.assertEqual(str(raised.exception), "refused 17 at 0: There must be from 1 to 16 pairs of figures.")
        for place in range(16):
            with self.assertRaises(bounds.Refused) as raised:
                self.library.probabilistic_or([(half, one)] * place + [(one, half)] * (16 - place))
            self.assertEqual((raised.exception.number, raised.exception.place), (18, place))
        self.assertTrue(str(raised.exception).startswith("refused 18 at 15: Pair 15 holds what is no figure, "))

    def test_what_is_no_pair(self):
        half = bounds.Figure.parse("0.5")
        for pairs in (5, half, [half], [(half, 0.5)], [("0.5", half)], [(half, None)]):
            with self.assertRaises(TypeError, msg=pairs):
                self.library.probabilistic_or(pairs)
        for pairs in ([(half,)], [(half, half, half)]):
            with self.assertRaises(ValueError, msg=pairs):
                self.library.probabilistic_or(pairs)

    def test_numbers_of_pairs(self):
        """Only 0 has figures, only 17 and 18 are refusals, each with a place that it can have."""
        self.assertEqual(str(bounds._pair(0, [0, 500000000, 100000000], [-9, -8], 2).lower), "5.00000000E-1")
        for number in [*range(1, 65), 2**64 - 1]:
            with self.assertRaises(bounds.Refused if number in (17, 18) else bounds.UnknownRefusal) as raised:
                bounds._pair(number, [0, 500000000, 100000000], [-9, -8], 2)
            self.assertEqual((raised.exception.number, raised.exception.place), (number, 0))
        for number, place, count in ((17, 1, 2), (17, 2**64 - 1, 0), (18, 2, 2), (18, 0, 0), (18, 16, 16), (18, 2**64 - 1, 17)):
            with self.assertRaises(bounds.Error) as raised:
                bounds._pair(number, [place, 0, 0], [0, 0], count)
            self.assertIs(type(raised.exception), bounds.Error)

    def test_what_is_no_answer(self):
        """Digits that are no figure, a lower above its upper, an upper above 1, a place, or figures for a number of pairs that is refused."""
        for values, powers, count in (
            ([0, 7, 100000000], [-9, -8], 2),
            ([0, 500000000, 0], [-9, 1], 2),
            ([0, 500000000, 1000000000], [-9, -9], 2),
            ([0, 500000001, 500000000], [-9, -9], 2),
            ([0, 500000000, 100000001], [-9, -8], 2),
            ([1, 500000000, 100000000], [-9, -8], 2),
            ([0, 500000000, 100000000], [-9, -8], 0),
            ([0, 500000000, 100000000], [-9, -8], 17),
            ([2**64 - 1] * 3, [0, 0], 2),
        ):
            with self.assertRaises(bounds.Error) as raised:
                bounds._pair(0, values, powers, count)
            self.assertIs(type(raised.exception), bounds.Error)

    def test_order(self):
        rising = [bounds.Figure(0, 0)]
        rising += [bounds.Figure(digits, power) for power in (-2000, -20, -17, -1, 0, 2000) for digits in (100000000, 100000001, 999999999)]
        for i, a in enumerate(rising):
            for j, b in enumerate(rising):
                self.assertEqual(self.library.at_or_below(a, b), i <= j)
                self.assertEqual((a <= b, a < b, a == b), (i <= j, i < j, i == j))


class Figures(unittest.TestCase):
    def test_what_is_none(self):
        for digits, power in ((0, 1), (1, 0), (99999999, 0), (1000000000, 0), (100000000, 2**31), (-100000000, 0)):
            with self.assertRaises(ValueError):
                bounds.Figure(digits, power)
        for digits, power in ((100000000.5, 0), (100000000, 1.5), ("100000000", 0), (True, 0)):
            with self.assertRaises(TypeError):
                bounds.Figure(digits, power)

    def test_spellings(self):
        for spelled in ("1.00000000E-9", "1E-9", "1e-09", "1E-00000000000009", "0.000000001", "10E-10"):
            self.assertEqual(bounds.Figure.parse(spelled), bounds.Figure(100000000, -17))
        for digits, power in ((123456789, -2000), (999999999, 2**31 - 1), (100000000, -(2**31)), (0, 0)):
            figure = bounds.Figure(digits, power)
            self.assertEqual(bounds.Figure.parse(str(figure)), figure)
        for spelled in ("", "0.0", "00", "-1", "+1", ".5", "5.", "1E", " 1", "1\n", "1.000000000", "1234567890", "1E99999999999", "nan", "٣"):
            with self.assertRaises(ValueError, msg=spelled):
                bounds.Figure.parse(spelled)

    def test_floats(self):
        for digits in (100000000, 123456789, 500000000, 999999999):
            for power in (-2000, -345, -332, -331, -323, -100, -17, -9, -8, 0, 1, 100, 299, 300, 301, 309, 310, 2000):
                figure = bounds.Figure(digits, power)
                above, below = figure.above(), figure.below()
                if abs(power) < 1000:
                    exact = digits * Fraction(10) ** power
                    self.assertLessEqual(Fraction(below), exact)
                    self.assertTrue(above == math.inf or Fraction(above) >= exact)
                    self.assertEqual(above == below, Fraction(below) == exact)
                self.assertIn(above, (below, math.nextafter(below, math.inf)))
        self.assertEqual(bounds.Figure(0, 0).above(), 0.0)
        self.assertEqual(bounds.Figure(100000000, -9).above(), 0.1)


def load_tests(loader, tests, pattern):
    tests.addTests(doctest.DocTestSuite(bounds))
    return tests


if __name__ == "__main__":
    unittest.main()
