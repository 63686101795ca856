"""A query as it arrives in an address: filters behind `_filter`, and the pairs of a search string beside them, all to be met."""

from __future__ import annotations

import re
from typing import List, NamedTuple, Optional, Tuple

from ._blocks import BLOCK, Sheet, record
from ._library import Bytes, Text, as_bytes
from ._operations import check, check_search, matches, matches_search, search, select
from ._refused import Refused

FILTER = b"_filter"
"""The parameter of FHIR that carries a filter."""

_COUNT = (b"_summary", b"count")
_JSON = (b"_format", b"json")
# What is understood about the answer, each by one value. The count is always exact.
_UNDERSTOOD = (_COUNT, (b"_total", b"accurate"), _JSON)


class Part(NamedTuple):
    """A part of a query: a filter, decoded, or all pairs that are none, as a search string. `name` is `_filter`, `_filter 2` or `the pairs`."""

    name: str
    is_filter: bool
    text: bytes
    starts: Tuple[int, ...]
    """Where the filter, or each of the pairs, begins in the query."""

    def check(self, sheet: bytes) -> int:
        return (check if self.is_filter else check_search)(sheet, self.text)

    def matches(self, sheet: bytes, card: Bytes) -> bool:
        return (matches if self.is_filter else matches_search)(sheet, self.text, card)

    def indexes(self, sheet: bytes, run: bytes) -> List[int]:
        """The indexes of the cards of a run that match. Where a later card has the same record number, the library is asked which of them does."""
        records = (select if self.is_filter else search)(sheet, self.text, run)
        return located(records, run, lambda card: self.matches(sheet, card)) if records else []

    def place_of(self, refused: Refused) -> int:
        """Where in the query a refusal stands. One of all pairs together, for their size or number, stands with the first."""
        return self.starts[0 if self.is_filter else self.text[: refused.place].count(b"&")]


class Query:
    """A query on a sheet, taken apart. Nothing that it asks is left out: what is neither a filter nor understood about the answer stands among
    the pairs, and the library refuses what it does not know there. A name that is on the sheet is the sheet's, `_filter` too.

    >>> from sirophan import Query, Refused, Sheet
    >>> sheet = Sheet([("title", "string"), ("ward", "token")])
    >>> cards = b"".join(sheet.card(number, {"title": "Ward book", "ward": ward}) for number, ward in [(7, "A"), (19, "B")])
    >>> Query(sheet.block, "_filter=title%20co%20book&ward=A").select(cards)
    [7]
    >>> try:
    ...     Query(sheet.block, "ward=A&_filter=ward+gt+5&_count=10").check()
    ... except Refused as refused:
    ...     print(refused)
    _filter: refused 16 at 0: The operator has no meaning for a parameter of this kind.
    """

    def __init__(self, sheet: Bytes, text: Text) -> None:
        self.sheet = bytes(sheet)
        filters: List[Tuple[bytes, int]] = []
        pairs: List[Tuple[bytes, int]] = []
        about = set()
        names = _names(self.sheet)
        start = 0
        for written in as_bytes(text).split(b"&"):
            name, value = _named(written)
            if name == FILTER and name not in names and value is not None:
                filters.append((value, start))
            elif (name, value) in _UNDERSTOOD and name not in names:
                about.add((name, value))
            else:
                pairs.append((written, start))
            start += len(written) + 1
        self.is_for_count = _COUNT in about
        """Whether only the count of the matching cards is asked for."""
        self.is_for_json = _JSON in about
        """Whether the answer is asked for as JSON."""
        self.parts = _parts(filters, pairs)
        """The filters and the pairs, in the order of the query; the pairs stand where the first of them does."""

    def check(self) -> int:
        """How many tests and alternatives the query has, or the refusal of the part whose fault stands first in it, with its name as `part`."""
        count = 0
        faults = []
        for part in self.parts:
            try:
                count += part.check(self.sheet)
            except Refused as refused:
                faults.append((part.place_of(refused), part.name, refused))
        if faults:
            _, name, refused = min(faults, key=lambda fault: fault[0])
            raise refused if refused.number < 10 else refused.of_part(name)
        return count

    def matches(self, card: Bytes) -> bool:
        """Whether the card matches all parts."""
        self.check()
        return all([part.matches(self.sheet, card) for part in self.parts])

    def select(self, cards: Bytes) -> List[int]:
        """The record numbers of the cards of a run of 0 to 128 that match all parts, in card order."""
        self.check()
        run = bytes(cards)
        return [record(run[index * BLOCK : (index + 1) * BLOCK]) for index in self.indexes(run)]

    def indexes(self, run: bytes) -> List[int]:
        """The indexes of those cards. Each part is asked only of the cards that match those before it: whether cards are at fault does not
        depend on what is asked."""
        found = self.parts[0].indexes(self.sheet, run)
        for part in self.parts[1:]:
            if found:
                left = b"".join(run[index * BLOCK : (index + 1) * BLOCK] for index in found)
                found = [found[index] for index in part.indexes(self.sheet, left)]
        return found


def located(records: List[int], run: bytes, matched) -> List[int]:
    """The indexes of the cards whose record numbers these are; where a later card has the same number, `matched` says which it is."""
    cards = [run[at : at + BLOCK] for at in range(0, len(run), BLOCK)]
    numbers = [record(card) for card in cards]
    last = {number: index for index, number in enumerate(numbers)}
    left = list(reversed(records))
    found = []
    for index, number in enumerate(numbers):
        if left and left[-1] == number and (last[number] == index or matched(cards[index])):
            left.pop()
            found.append(index)
    return found


def _names(sheet: bytes) -> set:
    """The names of a sheet, as far as it can be read."""
    try:
        return {parameter.path.rpartition(".")[2].encode() for parameter in Sheet.read(sheet).parameters}
    except ValueError:
        return set()


def _parts(filters: List[Tuple[bytes, int]], pairs: List[Tuple[bytes, int]]) -> List[Part]:
    numbers = range(1, len(filters) + 1)
    name = FILTER.decode()
    parts = [Part(name if len(filters) == 1 else f"{name} {number}", True, text, (start,)) for (text, start), number in zip(filters, numbers)]
    # where nothing is asked, that is asked: the library refuses an empty search string
    asked = pairs if pairs or filters else [(b"", 0)]
    if asked:
        parts.append(Part("the pairs", False, b"&".join(text for text, _ in asked), tuple(start for _, start in asked)))
    return sorted(parts, key=lambda part: part.starts[0])


def _named(pair: bytes) -> Tuple[Optional[bytes], Optional[bytes]]:
    """What the name and the value of a pair stand for; nothing of what is no pair."""
    name, cut, value = pair.partition(b"=")
    decoded = (_decoded(name), _decoded(value))
    return decoded if cut and None not in decoded else (None, None)


def _decoded(written: bytes) -> Optional[bytes]:
    if re.search(rb"%(?![0-9A-Fa-f]{2})", written):
        return None
    return re.sub(rb"%(..)", lambda found: bytes.fromhex(found[1].decode()), written.replace(b"+", b" "), flags=re.DOTALL)
