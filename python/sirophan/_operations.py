"""The operations on bytes: check, match, select, explain, spell, report, and those by a search string."""

from __future__ import annotations

import ctypes
import enum
import re
from typing import Any, List, NamedTuple

from ._blocks import PARAMETERS, RUN, TESTS
from ._library import Answer, Bytes, Tallied, Text, as_bytes, library
from ._refused import Refused


def _value(answer: Answer, text: bytes) -> int:
    if answer.refusal:
        raise Refused(answer.refusal, answer.value, text)
    return answer.value


def _inputs(*inputs: Bytes) -> List[Any]:
    """Each input as the library takes it: its bytes, and their number."""
    return [part for given in map(bytes, inputs) for part in (given, len(given))]


def check(sheet: Bytes, filter: Text) -> int:
    """How many tests the filter has. Every test has a meaning on every card that fits the sheet, or `Refused` is raised."""
    text = as_bytes(filter)
    return _value(library.sirophan_check(*_inputs(sheet, text)), text)


def check_search(sheet: Bytes, text: Text) -> int:
    """How many alternatives the search string has."""
    text = as_bytes(text)
    return _value(library.sirophan_check_search(*_inputs(sheet, text)), text)


def matches(sheet: Bytes, filter: Text, card: Bytes) -> bool:
    """Whether the card matches the filter."""
    text = as_bytes(filter)
    return _value(library.sirophan_match(*_inputs(sheet, text, card)), text) == 1


def matches_search(sheet: Bytes, text: Text, card: Bytes) -> bool:
    """Whether the card matches the search string."""
    text = as_bytes(text)
    return _value(library.sirophan_match_search(*_inputs(sheet, text, card)), text) == 1


def _selected(function: Any, sheet: Bytes, text: bytes, cards: Bytes) -> List[int]:
    cells = (ctypes.c_uint32 * RUN)()
    return list(cells[: _value(function(*_inputs(sheet, text, cards), cells, RUN), text)])


def select(sheet: Bytes, filter: Text, cards: Bytes) -> List[int]:
    """The record numbers of the matching cards of a run of 0 to 128 cards, in card order. `Archive` takes any number."""
    return _selected(library.sirophan_select, sheet, as_bytes(filter), cards)


def search(sheet: Bytes, text: Text, cards: Bytes) -> List[int]:
    """The same by a search string such as `birthdate=ge1974&title=ward`."""
    return _selected(library.sirophan_select_search, sheet, as_bytes(text), cards)


def plain(filter: Text) -> bytes:
    """The plain spelling of a filter: the same for two filters exactly when they ask the same tests, joined and grouped the same."""
    text = as_bytes(filter)
    # it is never longer than the filter
    buffer = (ctypes.c_uint8 * len(text))()
    return bytes(buffer[: _value(library.sirophan_spell(text, len(text), buffer, len(text), 0), text)])


class Tally(NamedTuple):
    """For one parameter: the cards that have it, and the values under it, of which a bundle has none."""

    cards: int
    values: int


class Report(NamedTuple):
    """How many cards of a run match and how many do not, and a tally for each parameter of the sheet, of all cards of the run."""

    yes: int
    no: int
    tallies: List[Tally]


def report(sheet: Bytes, filter: Text, cards: Bytes) -> Report:
    """Counts a run of 0 to 128 cards."""
    text = as_bytes(filter)
    rows = (Tallied * PARAMETERS)()
    counts = library.sirophan_report(*_inputs(sheet, text, cards), rows, PARAMETERS)
    if counts.refusal:
        raise Refused(counts.refusal, counts.place, text)
    # byte 1 of a sheet is the number of its parameters
    return Report(counts.yes, counts.no, [Tally(row.cards, row.values) for row in rows[: sheet[1]]])


class Mark(enum.IntEnum):
    """What a test does for the answer: nothing, or it decides by its yes or by its no."""

    SPARED = 0
    YES = 1
    NO = 2


class Explained(NamedTuple):
    """A test of the filter, a condition in square brackets being part of it: where it stands, its bytes, and its mark."""

    place: int
    test: bytes
    mark: Mark


class Explanation(NamedTuple):
    """Whether the card matches, and the tests in the order of the filter.

    With the verdicts of the tests that decide alone the answer stands, no matter what the others say, and none of them can be spared.
    """

    matches: bool
    tests: List[Explained]


def explain(sheet: Bytes, filter: Text, card: Bytes) -> Explanation:
    """Why the filter says yes or no of the card."""
    text = as_bytes(filter)
    cells = (ctypes.c_uint8 * TESTS)()
    yes = _value(library.sirophan_explain(*_inputs(sheet, text, card), cells, TESTS), text) == 1
    tests = [Explained(place, test, Mark(cell)) for (place, test), cell in zip(_tests(text), cells)]
    return Explanation(yes, tests)


# A test that is in no square brackets, for texts that the library has taken for filters: a path, an operator and a value. A
# condition in square brackets is left out of the path by `_tests`, since it may hold brackets of its own.
_NAME = rb"[A-Za-z_][A-Za-z0-9_-]*"
_VALUE = rb'"(?:[^"\\]|\\.)*"|[^ )\]]+'
_BETWEEN = re.compile(rb"(?: |\(|\)|not *(?=\()|(?:and|or)(?= ))*", re.DOTALL)
_PATH = re.compile(_NAME)
_REST = re.compile(rb" +" + _NAME + rb" +(?:" + _VALUE + rb")", re.DOTALL)


def _tests(text: bytes) -> List[Any]:
    """Where the tests of a filter stand that are in no square brackets, and their bytes."""
    found = []
    at = _BETWEEN.match(text).end()
    while at < len(text):
        end = _test_end(text, at)
        found.append((at, text[at:end]))
        at = _BETWEEN.match(text, end).end()
    return found


def _test_end(text: bytes, at: int) -> int:
    end = _PATH.match(text, at).end()
    if text[end : end + 1] == b"[":
        end = _BETWEEN.match(text, end + 1).end()
        while text[end : end + 1] != b"]":
            end = _BETWEEN.match(text, _test_end(text, end)).end()
        end = _PATH.match(text, end + 2).end()
    return _REST.match(text, end).end()
