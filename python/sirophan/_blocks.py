"""Sheets and cards, built and read. Whether a block is sound is for the library to say."""

from __future__ import annotations

import ctypes
from typing import Iterable, Iterator, List, Mapping, NamedTuple, Tuple, Union

from ._library import Bytes, Text, as_bytes, library
from ._refused import Refused

BLOCK = 512
RUN = 128
TESTS = 32
PARAMETERS = 32
_SUMMED = 508
_SHEET, _BUNDLE_SHEET, _CARD, _BUNDLE_CARD = 0x50, 0x51, 0x43, 0x44

KINDS = ("string", "number", "date", "token", "reference", "period", "bundle")
"""The kinds by their words; on a sheet the first has the number 1."""


def seal(block: Bytes) -> bytes:
    """The block with its check sum in the last four bytes. Refused with 20 where it is not 512 bytes."""
    block = bytes(block)
    buffer = (ctypes.c_uint8 * len(block))(*block)
    answer = library.sirophan_seal(buffer, len(block))
    if answer.refusal:
        raise Refused(answer.refusal, answer.value)
    return bytes(buffer)


def record(card: Bytes) -> int:
    """The record number of a card, whatever else is in it. Refused with 20 where it is not 512 bytes."""
    card = bytes(card)
    answer = library.sirophan_record(card, len(card))
    if answer.refusal:
        raise Refused(answer.refusal, answer.value)
    return answer.value


class Parameter(NamedTuple):
    """A parameter of a sheet: its path, which for a member begins with its bundle's name and a dot, and the word of its kind."""

    path: str
    kind: str


class Entry(NamedTuple):
    """A text of a card: its parameter's path, with a bundle's occurrence as in `related#1.type`, and the text."""

    path: str
    text: bytes


Texts = Union[Mapping[str, Union[Text, Iterable[Text]]], Iterable[Tuple[str, Text]]]


class Sheet:
    """The parameters of an archive: `Sheet([("title", "string"), ("related", "bundle"), ("related.type", "token")])`.

    `block` has its bytes. What is no sheet by the rules is refused by the operations, with 3.
    """

    def __init__(self, parameters: Iterable[Tuple[str, str]]) -> None:
        self.parameters: List[Parameter] = [Parameter(*parameter) for parameter in parameters]
        self.block = self._written()

    @classmethod
    def read(cls, block: Bytes) -> Sheet:
        """A sheet from its bytes. ValueError where they are none that can be taken apart."""
        block = bytes(block)
        if len(block) != BLOCK or block[0] not in (_SHEET, _BUNDLE_SHEET):
            raise ValueError("no sheet: it is not 512 bytes, or begins with the byte of none")
        items = list(_items(block, 2, block[1], block[0] == _BUNDLE_SHEET))
        names = [name.decode(errors="replace") for _, _, name in items]
        sheet = cls.__new__(cls)
        sheet.block = block
        sheet.parameters = []
        for (kind, bundle, _), name in zip(items, names):
            if not 1 <= kind <= len(KINDS) or bundle > len(names):
                raise ValueError(f"no sheet: {name} has a kind or a bundle that there is none of")
            sheet.parameters.append(Parameter(f"{names[bundle - 1]}.{name}" if bundle else name, KINDS[kind - 1]))
        return sheet

    def _place(self, path: str) -> int:
        for place, parameter in enumerate(self.parameters):
            if parameter.path == path:
                return place
        raise KeyError(f"{path} is not on the sheet")

    def _written(self) -> bytes:
        items = []
        for path, kind in self.parameters:
            if kind not in KINDS:
                raise ValueError(f"{kind} is no kind. The kinds are {', '.join(KINDS)}.")
            bundle, dot, name = path.rpartition(".")
            items.append((KINDS.index(kind) + 1, self._place(bundle) + 1 if dot else 0, name.encode()))
        marked = any(kind == "bundle" or "." in path for path, kind in self.parameters)
        return _block(bytes([_BUNDLE_SHEET if marked else _SHEET]), items, marked)

    def card(self, number: int, texts: Texts) -> bytes:
        """A card with a record number and texts by the paths of their parameters.

        Several texts under one path are a list, or pairs. A text that cannot be read as its kind is refused by the operations,
        with 23.
        """
        pairs = texts.items() if isinstance(texts, Mapping) else texts
        items = []
        for path, under in pairs:
            place, occurrence = self._entry(path)
            several = [under] if isinstance(under, (str, bytes, bytearray, memoryview)) else under
            items.extend((place, occurrence, as_bytes(text)) for text in several)
        marked = any(occurrence for _, occurrence, _ in items)
        head = bytes([_BUNDLE_CARD if marked else _CARD]) + number.to_bytes(4, "little")
        return _block(head, items, marked)

    def _entry(self, path: str) -> Tuple[int, int]:
        """The place and the occurrence of a path such as `related#1.type`."""
        if "#" not in path:
            return self._place(path), 0
        bundle, _, rest = path.partition("#")
        occurrence, _, name = rest.partition(".")
        return self._place(f"{bundle}.{name}"), int(occurrence)

    def entries(self, card: Bytes) -> List[Entry]:
        """What stands on a card, as far as it can be taken apart."""
        card = bytes(card)
        record(card)
        found = []
        for place, occurrence, text in _items(card, 6, card[5], card[0] == _BUNDLE_CARD):
            path = self.parameters[place].path if place < len(self.parameters) else f"place {place}"
            if occurrence:
                bundle, _, name = path.rpartition(".")
                path = f"{bundle}#{occurrence}.{name}"
            found.append(Entry(path, text))
        return found


def _block(head: bytes, items: List[Tuple[int, int, bytes]], marked: bool) -> bytes:
    """A block of a head without its count, and items; ValueError where they have no room."""
    written = bytearray(head)
    try:
        written.append(len(items))
        for first, mark, text in items:
            written.append(first)
            if marked:
                written.append(mark)
            written.append(len(text))
            written += text
    except ValueError:
        raise ValueError("more items, or a longer text, than a byte can count") from None
    if len(written) > _SUMMED:
        raise ValueError(f"a block has room for {_SUMMED} bytes before its check sum, and this takes {len(written)}")
    return seal(written.ljust(BLOCK, b"\0"))


def _items(block: bytes, start: int, count: int, marked: bool) -> Iterator[Tuple[int, int, bytes]]:
    """The items of a block, as far as they lie inside it: a first byte, a mark and a text."""
    for _ in range(count):
        text = start + (3 if marked else 2)
        if text > _SUMMED or text + block[text - 1] > _SUMMED:
            return
        end = text + block[text - 1]
        yield block[start], block[start + 1] if marked else 0, block[text:end]
        start = end
