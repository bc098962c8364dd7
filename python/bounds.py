"""Bounds on the probability that a system fails, from a model's words: the proved library for Python.

    >>> import bounds
    >>> library = bounds.Library()
    >>> report = library.assess([0x11002001, 0x2000000A, 0x30000000, 0x41801000, 0x50001002, 0x60400001, 0xF0000000])
    >>> print(report.lower, report.upper)
    9.99500000E-4 1.00000000E-3
    >>> library.at_or_below(report.upper, bounds.Figure.parse("1E-3"))
    True
    >>> report.lower_exact, report.upper_exact  # no rounding lost anything; False would claim nothing
    (True, True)
    >>> report, rows = library.assess_rows([0x11002001, 0x2000000A, 0x30000000, 0x41801000, 0x50001002, 0x60400001, 0xF0000000])
    >>> [(row.state, str(row.upper)) for row in rows]
    [(2, '1.00000000E-3')]
    >>> lower, upper = library.probabilistic_or([(report.lower, report.upper)] * 2)  # two subsystems that fail independently, as the caller knows
    >>> print(lower, upper)
    1.99800099E-3 1.99900000E-3

The library is loaded from libbounds.so, which `tools/archive` makes: from the folder that BOUNDS_LIBRARY names, else from the repository's
target/lib. What it answers is proved; this module is not, and its tests compare it with the proved text. It fails closed: only 0 from the library is
a report or a pair of figures, whatever the module does not know is an exception, and a library of another version is not asked at all.
"""
import ctypes
import functools
import math
import operator
import os
import re
from array import array
from dataclasses import dataclass
from fractions import Fraction
from pathlib import Path
from typing import NamedTuple

VERSION = 1005001  # major * 1,000,000 + minor * 1,000 + patch, as BOUNDS_VERSION in include/bounds.h
MOST_WORDS = 16105
MOST_BUDGET = 1000000
MOST_ROWS = 1000
MOST_PAIRS = 16
WORDS_SIZE = MOST_WORDS + 1  # what bounds_words writes at most
TEXT_SIZE = 256

# The sentences of docs/REPORT.md; where one says PLACE, the place belongs.
SENTENCES = {
    1: "The model has more than 16,105 words.",
    2: "The budget must be from 1 to 1,000,000 steps.",
    3: "Word PLACE is missing, or is not of the kind that belongs there.",
    4: "Word PLACE has a bit set that must be zero.",
    5: "The quantity in word PLACE is out of range.",
    6: "Word PLACE has an edition, state or limit out of range.",
    7: "The transition at word PLACE leads from a state to itself.",
    8: "The transition at word PLACE repeats an earlier one between the same two states.",
    9: "Word PLACE is the 17th exit of its state, the 4,001st transition or the 101st word that names a generator's state.",
    10: "The probabilities of the fast exits of state PLACE do not add up to exactly 1.",
    11: "The start state PLACE has no exits.",
    13: "The model has more steps than the budget allows.",
    14: "Fewer rows were lent than the PLACE that the model needs.",
    15: "The state named by word PLACE is not greater than the one named before it.",
    16: "State PLACE is named as the generator's and has exits.",
    17: "There must be from 1 to 16 pairs of figures.",
    18: "Pair PLACE holds what is no figure, a power of ten outside -2,000 to 2,000, or a lower above 1 or above its upper.",
}


class Error(Exception):
    """Why there is no report, or why figures are not combined."""


class Refused(Error):
    """The library turned the model, or the pairs of figures, away. A place is that of a word, counted from 0, or a state (10, 11, 16), or the number of
    rows needed (14), or a pair, counted from 0 (18)."""

    def __init__(self, number, place):
        self.number, self.place = number, place
        self.sentence = SENTENCES[number].replace("PLACE", str(place))
        super().__init__(f"refused {number} at {place}: {self.sentence}")


class UnknownRefusal(Error):
    """The library turned them away by a number that this module does not know, or does not know of this call."""

    def __init__(self, number, place):
        self.number, self.place = number, place
        super().__init__(f"refused {number} at {place}, a number that bounds {_spelled(VERSION)} does not know")


class OtherVersion(Error):
    """The library is of another version than this module, and was not asked."""

    def __init__(self, version):
        self.version = version
        super().__init__(f"bounds.py is of version {_spelled(VERSION)}, the library of {_spelled(version)}: load the one that came with it")


def _spelled(version):
    return f"{version // 1000000}.{version // 1000 % 1000}.{version % 1000}"


@functools.total_ordering
@dataclass(frozen=True)
class Figure:
    """digits * 10 ** power: zero (held with power 0), or nine digits from 100,000,000 to 999,999,999."""

    digits: int
    power: int

    def __post_init__(self):
        if type(self.digits) is not int or type(self.power) is not int:
            raise TypeError("the digits and the power of a figure are whole numbers")
        nine = 100000000 <= self.digits <= 999999999 and -(2**31) <= self.power < 2**31
        if not nine and (self.digits, self.power) != (0, 0):
            raise ValueError(f"{self.digits} and {self.power} are no figure")

    @classmethod
    def parse(cls, spelled):
        """The figure of a decimal number that is one exactly, such as 1.00000000E-9, 1E-9, 0.001 or 0. Refuses (ValueError) signs before the number,
        spaces, other spellings of zero, and more than nine digits from the first that is not 0. Nothing is rounded."""
        if spelled == "0":
            return cls(0, 0)
        match = re.fullmatch(r"([0-9]+)(?:\.([0-9]+))?(?:[eE]([+-]?0*[0-9]{1,11}))?", spelled)
        whole, part, exponent = match.groups() if match else ("", "", "")
        digits = ((whole or "") + (part or "")).lstrip("0")
        if not 1 <= len(digits) <= 9:
            raise ValueError(f"{spelled!r} is no figure such as 1.00000000E-9, 1E-9, 0.001 or 0, of at most nine digits")
        power = int(exponent or 0) - len(part or "")
        return cls(int(digits.ljust(9, "0")), power - (9 - len(digits)))

    def __str__(self):
        if self.digits == 0:
            return "0"
        return f"{self.digits // 10**8}.{self.digits % 10**8:08}E{self.power + 8}"

    def __lt__(self, other):
        if not isinstance(other, Figure):
            return NotImplemented
        if 0 in (self.digits, other.digits):
            return self.digits < other.digits
        return (self.power, self.digits) < (other.power, other.digits)

    def above(self):
        """The least float that is not below the figure: for upper figures and for the cut part."""
        return self._float(True)

    def below(self):
        """The greatest float that is not above the figure: for lower figures."""
        return self._float(False)

    def _float(self, above):
        if self.digits == 0:
            return 0.0
        # Beyond these powers the figure is above every float, or below every one that is not 0.
        if self.power > 309:
            return math.inf if above else math.nextafter(math.inf, 0.0)
        exact = self.digits * Fraction(10) ** max(self.power, -400)
        try:
            near = exact.numerator / exact.denominator
        except OverflowError:
            near = math.inf
        if near == math.inf or Fraction(near) > exact:
            return near if above else math.nextafter(near, 0.0)
        return math.nextafter(near, math.inf) if above and Fraction(near) < exact else near


@dataclass(frozen=True)
class Report:
    """What is reported on a model that was not refused; str is the report program's seven lines. Where lower_exact is True, no rounding that lower
    rests on lost anything: it equals its exact sum. False claims nothing: the two may still be equal. upper_exact likewise."""

    lower: Figure
    upper: Figure
    cut: Figure
    deaths: int
    cuts: int
    steps: int
    lower_exact: bool
    upper_exact: bool

    def __str__(self):
        lines = "".join(f"{name} {getattr(self, name)}\n" for name in ("lower", "upper", "cut", "deaths", "cuts", "steps"))
        return f"{lines}exact {self.lower_exact:d}{self.upper_exact:d}\n"


class Row(NamedTuple):
    """The bounds on one way to fail: on the paths that end in one state without exits."""

    state: int
    lower: Figure
    upper: Figure


class Pair(NamedTuple):
    """The bounds on one subsystem's failure, or on the failure of at least one of several."""

    lower: Figure
    upper: Figure


class _LentFigure(ctypes.Structure):
    _fields_ = [("digits", ctypes.c_uint64), ("power", ctypes.c_int32)]


class _LentRow(ctypes.Structure):
    """bounds_row of the header. Its state is 0 before a call, so that a row that was filled is told from one that was not."""

    _fields_ = [("state", ctypes.c_uint64), ("lower", _LentFigure), ("upper", _LentFigure)]


class Library:
    """The shared library. It keeps no state: any number of threads may call at once."""

    _VALUES, _POWERS = 9, 3
    _OR_VALUES, _OR_POWERS = 3, 2
    _CALLS = {
        "bounds_version": (ctypes.c_uint64, []),
        "bounds_assess": (ctypes.c_uint64, [ctypes.c_void_p, ctypes.c_size_t, ctypes.c_uint64, ctypes.c_void_p, ctypes.c_void_p]),
        "bounds_assess_rows": (
            ctypes.c_uint64,
            [ctypes.c_void_p, ctypes.c_size_t, ctypes.c_uint64, ctypes.c_void_p, ctypes.c_size_t, ctypes.c_void_p, ctypes.c_void_p],
        ),
        "bounds_text": (ctypes.c_size_t, [ctypes.c_void_p, ctypes.c_size_t, ctypes.c_uint64, ctypes.c_void_p]),
        "bounds_words": (ctypes.c_size_t, [ctypes.c_void_p, ctypes.c_size_t, ctypes.c_void_p]),
        "bounds_at_or_below": (ctypes.c_uint64, [ctypes.c_uint64, ctypes.c_int32, ctypes.c_uint64, ctypes.c_int32]),
        "bounds_or": (ctypes.c_uint64, [ctypes.c_void_p, ctypes.c_void_p, ctypes.c_size_t, ctypes.c_void_p, ctypes.c_void_p]),
    }

    def __init__(self, path=None):
        folder = os.environ.get("BOUNDS_LIBRARY") or Path(__file__).resolve().parent.parent / "target" / "lib"
        self._library = ctypes.CDLL(os.path.abspath(path or Path(folder) / "libbounds.so"))
        version = self._call("bounds_version")()
        if version != VERSION:
            raise OtherVersion(version)
        for name in self._CALLS:
            self._call(name)

    def _call(self, name):
        """A function of the library with its types. A library that does not have it is no library of this version."""
        try:
            function = getattr(self._library, name)
        except AttributeError:
            raise Error(f"{self._library._name} has no {name}: it is no library of bounds {_spelled(VERSION)}") from None
        function.restype, function.argtypes = self._CALLS[name]
        return function

    def assess(self, words, budget=MOST_BUDGET):
        """The report on a model's words. Raises Refused, or another Error."""
        values, powers = (ctypes.c_uint64 * self._VALUES)(), (ctypes.c_int32 * self._POWERS)()
        lent, count = _lent(words)
        number = self._library.bounds_assess(lent, count, _budget(budget), values, powers)
        return _report(number, values, powers)

    def assess_rows(self, words, budget=MOST_BUDGET, lent=MOST_ROWS):
        """The report on a model's words, and a Row for each state without exits that is the target of a transition and that the words do not name as the
        generator's, in order of state number. Lends so many rows; the default is enough for every model. Raises Refused (14 where they are too few), or
        another Error, and then hands no rows back."""
        values, powers = (ctypes.c_uint64 * self._VALUES)(), (ctypes.c_int32 * self._POWERS)()
        count_of_rows = _whole(lent, "the number of rows")
        rows = (_LentRow * max(1, count_of_rows))()
        table, count = _lent(words)
        number = self._library.bounds_assess_rows(table, count, _budget(budget), rows, count_of_rows, values, powers)
        filled = _filled(number, rows)
        return _report(number, values, powers), filled

    def text(self, words, budget=MOST_BUDGET):
        """What the report program prints."""
        text = (ctypes.c_uint8 * TEXT_SIZE)()
        lent, count = _lent(words)
        length = self._library.bounds_text(lent, count, _budget(budget), text)
        return bytes(text[:length]).decode("ascii")

    def words_of(self, model):
        """The words of a model that is held as bytes, four bytes a word, least significant first; left-over bytes are one more word, of no kind."""
        if isinstance(model, int):
            raise TypeError("a model's bytes are expected, not a number")
        words, model = (ctypes.c_uint32 * WORDS_SIZE)(), bytes(model)
        lent = (ctypes.c_uint8 * max(1, len(model))).from_buffer_copy(model or b"\0")
        return list(words[: self._library.bounds_words(lent, len(model), words)])

    def at_or_below(self, figure, limit):
        """Whether the figure is at or below the limit, as the library proves it; `<=` says the same."""
        answer = self._library.bounds_at_or_below(figure.digits, figure.power, limit.digits, limit.power)
        if answer not in (0, 1):
            raise Error(f"the library answered {answer}, which is no order of two figures")
        return answer == 1

    def probabilistic_or(self, pairs):
        """The Pair of bounds on the failure of at least one of several subsystems, from (lower, upper), two figures, of each: 1 minus the product of
        (1 - p), over the lowers rounded down and over the uppers rounded up; an upper above 1 is taken as 1. That the subsystems fail independently, the
        caller knows; the library cannot tell. Raises Refused: 17 for no pair or more than 16, 18 for a pair that is out of range."""
        return self._combined([_numbers(pair) for pair in pairs])

    def _combined(self, numbers):
        """The same of two (digits, power) for each, whether they are figures or not. None of them is read where there are too many."""
        count, read = len(numbers), numbers if len(numbers) <= MOST_PAIRS else []
        digits, powers = (ctypes.c_uint64 * (2 * MOST_PAIRS))(), (ctypes.c_int32 * (2 * MOST_PAIRS))()
        for at, figure in enumerate(figure for pair in read for figure in pair):
            digits[at], powers[at] = figure
        values, or_powers = (ctypes.c_uint64 * self._OR_VALUES)(), (ctypes.c_int32 * self._OR_POWERS)()
        # nothing that the library writes, so that a buffer that it left alone is no answer
        ctypes.memset(values, 0xFF, ctypes.sizeof(values))
        number = self._library.bounds_or(digits, powers, count, values, or_powers)
        return _pair(number, values, or_powers, count)


def _report(number, values, powers):
    """What the library's numbers say. Only 0 is a report."""
    place, lower, upper, cut, deaths, cuts, steps, *marks = values
    if number in SENTENCES:
        raise Refused(number, place)
    if number != 0:
        raise UnknownRefusal(number, place)
    figures = [Figure(digits, power) for digits, power in zip((lower, upper, cut), powers)]
    if any(mark not in (0, 1) for mark in marks):
        raise Error(f"the library answered with a mark that is neither 0 nor 1: {marks}")
    return Report(*figures, deaths, cuts, steps, *(mark == 1 for mark in marks))


def _numbers(pair):
    """A pair's digits and powers."""
    lower, upper = pair
    if not isinstance(lower, Figure) or not isinstance(upper, Figure):
        raise TypeError(f"a pair of figures is expected, not {pair!r}")
    return (lower.digits, lower.power), (upper.digits, upper.power)


def _pair(number, values, powers, count):
    """What the library's numbers say of so many pairs. Only 0 has figures, and only of as many pairs as it takes."""
    place, *digits = values
    if number in (17, 18):
        if place >= (count if number == 18 else 1):
            raise Error(f"the library answered with refusal {number} at {place}, a place of no pair")
        raise Refused(number, place)
    if number != 0:
        raise UnknownRefusal(number, place)
    try:
        pair = Pair(*(Figure(*figure) for figure in zip(digits, powers)))
    except ValueError as error:
        raise Error(f"the library answered with a pair that is none: {error}") from None
    if not 1 <= count <= MOST_PAIRS or place != 0 or not pair.lower <= pair.upper <= Figure(100000000, -8):
        raise Error(f"the library answered with {pair.lower} and {pair.upper} at {place}, which is no answer to {count} pairs")
    return pair


def _filled(number, rows):
    """The rows that the library filled beside a number: figures in a report, zeros where the budget was not enough (13), else none."""
    filled = []
    for row in rows:
        if row.state == 0:
            break
        try:
            figures = [Figure(figure.digits, figure.power) for figure in (row.lower, row.upper)]
        except ValueError as error:
            raise Error(f"the library answered with a row of state {row.state} that is none: {error}") from None
        if not (filled[-1].state if filled else 0) < row.state <= MOST_ROWS:
            raise Error(f"the library answered with a row of state {row.state}, which does not come next")
        filled.append(Row(row.state, *figures))
    if any(bytes(rows)[ctypes.sizeof(_LentRow) * len(filled) :]):
        raise Error("the library answered with a row behind those that it fills")
    zeros = all(row.lower.digits == row.upper.digits == 0 for row in filled)
    if number != 0 and filled and not (number == 13 and zeros):
        raise Error(f"the library answered with a row that does not belong to refusal {number}")
    return filled


def _lent(words):
    """A buffer that holds the words, and their number. What is no number of 32 bits is an OverflowError or a TypeError."""
    numbers = array("I", words)
    room = (ctypes.c_uint32 * max(1, len(numbers)))(*numbers)
    return room, len(numbers)


def _budget(budget):
    return _whole(budget, "the budget")


def _whole(given, name):
    """ctypes would cut a number to 64 bits."""
    number = operator.index(given) if hasattr(given, "__index__") else -1
    if not 0 <= number < 2**64:
        raise ValueError(f"{name} {given!r} is no whole number of 64 bits")
    return number
