"""Refusals: why there is no answer, and where."""

from __future__ import annotations

import enum
from typing import Optional

from ._library import library

# How many characters of the text a rendering shows before and behind the place.
_BEFORE = 30
_BEHIND = 46


class Reason(enum.IntEnum):
    """The numbers of refusal by name."""

    SHEET_SIZE = 1
    SHEET_SUM = 2
    SHEET_LAYOUT = 3
    FILTER_SIZE = 10
    NO_FILTER = 11
    TOO_DEEP = 12
    TOO_MANY = 13
    UNKNOWN_NAME = 14
    UNSUPPORTED = 15
    NO_MEANING = 16
    UNREADABLE = 17
    BARE_BUNDLE = 18
    CARD_SIZE = 20
    CARD_SUM = 21
    CARD_LAYOUT = 22
    CARD_MISFIT = 23
    SHORT_LIST = 30
    SHORT_ROWS = 31
    SHORT_BUFFER = 32
    SHORT_MARKS = 33
    SHORT_CELLS = 34
    BAD_ROWS = 40
    NO_PAIR = 50
    MANY_ALTERNATIVES = 51


# Whose place is an index of a card, and whose is a byte of the text.
OF_CARDS = (Reason.CARD_SUM, Reason.CARD_LAYOUT, Reason.CARD_MISFIT)
OF_TEXT = range(Reason.NO_FILTER, Reason.BARE_BUNDLE + 1)


def sentence(number: int) -> str:
    """What a number of refusal means."""
    return library.sirophan_reason(number).decode()


class Refused(Exception):
    """There is no answer: `number` says why, and `place` where. For a card the place is its index, in an archive over the whole file.
    Of a query `part` says which part is refused, in whose text the place counts."""

    def __init__(self, number: int, place: int, text: Optional[bytes] = None, part: Optional[str] = None) -> None:
        super().__init__(number, place)
        self.number = number
        self.place = place
        self.text = text
        self.part = part

    @property
    def reason(self) -> Optional[Reason]:
        """The number by name; none where this version knows no refusal of the number."""
        return Reason(self.number) if self.number in Reason._value2member_map_ else None

    @property
    def sentence(self) -> str:
        return sentence(self.number)

    def __str__(self) -> str:
        part = "" if self.part is None else f"{self.part}: "
        return f"{part}refused {self.number} at {self.place}: {self.sentence}"

    def of_part(self, name: str) -> Refused:
        """The refusal of a text as one of a query's part."""
        return Refused(self.number, self.place, self.text, name)

    def over_file(self, cards_before: int) -> Refused:
        """The refusal of a run as one of its file, of which so many cards stand before the run."""
        if self.number in OF_CARDS:
            return Refused(self.number, self.place + cards_before, self.text)
        return self

    def render(self) -> str:
        """With the filter or the search string, and a caret under the place, where the place is one of its bytes."""
        if self.text is None or not (self.number in OF_TEXT or self.number == Reason.NO_PAIR):
            return str(self)
        before, behind = _shown(self.text[: self.place]), _shown(self.text[self.place :])
        start = "..." if len(before) > _BEFORE else ""
        rest = "..." if len(behind) > _BEHIND else ""
        line = start + before[-_BEFORE:] + behind[:_BEHIND] + rest
        return f"{line}\n{' ' * (len(start) + len(before[-_BEFORE:]))}^\n{self}"


def _shown(text: bytes) -> str:
    """With a mark for each character that is not UTF-8 or would not print."""
    return "".join(c if c.isprintable() else "\ufffd" for c in text.decode(errors="replace"))
