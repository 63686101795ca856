"""Which catalogue cards of an archive match a FHIR R4 `_filter`.

The library that answers is proved; this package calls it, and is plain Python. A *sheet* says which parameters the cards have and of
which kind each is; a *card* holds a record number and texts; both are blocks of 512 bytes. None of them is trusted: each function
checks what it is given, and answers or raises `Refused`, with a number that says why and a place that says where.

    >>> from sirophan import Sheet, select, Refused
    >>> sheet = Sheet([("title", "string"), ("code", "token")])
    >>> cards = sheet.card(7, {"title": "Ward book 4"}) + sheet.card(19, {"title": "Admissions, men"})
    >>> select(sheet.block, "title co book", cards)
    [7]
    >>> try:
    ...     select(sheet.block, "title pr true or code gt 5", cards)
    ... except Refused as refused:
    ...     print(refused.render())
    title pr true or code gt 5
                     ^
    refused 16 at 17: The operator has no meaning for a parameter of this kind.

`Archive` goes through a file of any size, and `Query` takes what a registry sends, such as `_filter=title%20co%20book&ward=A`.
"""

from ._archive import Archive, Match
from ._blocks import BLOCK, KINDS, RUN, Entry, Parameter, Sheet, record, seal
from ._library import library as _library
from ._operations import (
    Explained,
    Explanation,
    Mark,
    Report,
    Tally,
    check,
    check_search,
    explain,
    matches,
    matches_search,
    plain,
    report,
    search,
    select,
)
from ._query import Query
from ._refused import Reason, Refused, sentence

__version__ = _library.sirophan_version().decode()
"""The version of the library that is loaded."""

__all__ = [
    "Archive",
    "BLOCK",
    "Entry",
    "Explained",
    "Explanation",
    "KINDS",
    "Mark",
    "Match",
    "Parameter",
    "Query",
    "RUN",
    "Reason",
    "Refused",
    "Report",
    "Sheet",
    "Tally",
    "check",
    "check_search",
    "explain",
    "matches",
    "matches_search",
    "plain",
    "record",
    "report",
    "seal",
    "search",
    "select",
    "sentence",
]
