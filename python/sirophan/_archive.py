"""A file of cards of any size, asked run by run."""

from __future__ import annotations

import os
from pathlib import Path
from typing import Iterator, NamedTuple, Union

from ._blocks import BLOCK, RUN, Sheet, record
from ._library import Bytes, Text, as_bytes
from ._operations import check, check_search
from ._query import Part, Query
from ._refused import Refused


class Match(NamedTuple):
    """A card that matches: its index in the file, counted from 0, and its record number."""

    index: int
    record: int


class Archive:
    """A folder with `sheet.bin` and `cards.bin`, as `sirophan pack` writes it, or a file of cards with `sheet.bin` beside it. The
    sheet may be given by another path, or by its bytes.

    for index, record in Archive("ward").select("birthdate eq 1974"): ..
    """

    def __init__(self, path: Union[str, os.PathLike], sheet: Union[str, os.PathLike, Bytes, None] = None) -> None:
        self.cards = Path(path, "cards.bin") if Path(path).is_dir() else Path(path)
        self.cards.stat()  # a file that is missing is told at once
        if isinstance(sheet, (bytes, bytearray, memoryview)):
            self.sheet = bytes(sheet)
        else:
            self.sheet = (self.cards.with_name("sheet.bin") if sheet is None else Path(sheet)).read_bytes()
        self.cards_read = 0
        """How many cards the last question has read so far."""

    def parameters(self) -> Sheet:
        """The sheet, taken apart."""
        return Sheet.read(self.sheet)

    def select(self, filter: Text) -> Iterator[Match]:
        """The cards that match a filter, in the order of the file.

        A filter that has no meaning is refused at once. Only an iteration to the end is an answer: a card that is refused refuses
        the whole file, behind the matches that were found before its run.
        """
        text = as_bytes(filter)
        check(self.sheet, text)
        return self._found(Part("", True, text, (0,)))

    def search(self, text: Text) -> Iterator[Match]:
        """The same by a search string."""
        text = as_bytes(text)
        check_search(self.sheet, text)
        return self._found(Part("", False, text, (0,)))

    def query(self, text: Text) -> Iterator[Match]:
        """The same by a query such as `_filter=title%20co%20book&ward=A`."""
        query = Query(self.sheet, text)
        query.check()
        return self._found(query)

    def _found(self, asked: Union[Part, Query]) -> Iterator[Match]:
        self.cards_read = 0
        with open(self.cards, "rb") as file:
            while True:
                run = file.read(RUN * BLOCK)
                try:
                    indexes = asked.indexes(run) if isinstance(asked, Query) else asked.indexes(self.sheet, run)
                except Refused as refused:
                    raise refused.over_file(self.cards_read) from None
                before = self.cards_read
                self.cards_read += len(run) // BLOCK
                if not run:
                    return
                for index in indexes:
                    yield Match(before + index, record(run[index * BLOCK : (index + 1) * BLOCK]))
