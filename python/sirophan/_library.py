"""The shared library: where it is found, and its functions as include/sirophan.h declares them."""

from __future__ import annotations

import ctypes
import os
from ctypes import POINTER, c_char_p, c_size_t, c_uint8, c_uint32
from pathlib import Path
from typing import Union

SONAME = "libsirophan.so.0"

# Text is encoded as UTF-8. Blocks and cards are bytes.
Text = Union[str, bytes, bytearray, memoryview]
Bytes = Union[bytes, bytearray, memoryview]


def as_bytes(text: Text) -> bytes:
    return text.encode() if isinstance(text, str) else bytes(text)


class Answer(ctypes.Structure):
    """sirophan_answer"""

    _fields_ = [("refusal", c_uint32), ("value", c_size_t)]


class Tallied(ctypes.Structure):
    """sirophan_tally"""

    _fields_ = [("cards", c_uint32), ("values", c_uint32)]


class Counts(ctypes.Structure):
    """sirophan_counts"""

    _fields_ = [("refusal", c_uint32), ("place", c_size_t), ("yes", c_size_t), ("no", c_size_t)]


def _found() -> ctypes.CDLL:
    """The library that the environment names, that came with the package, that stands in the tree, or that the loader finds."""
    package = Path(__file__).resolve().parent
    root = package.parent.parent
    named = os.environ.get("SIROPHAN_LIBRARY")
    if named:
        return ctypes.CDLL(named)
    for path in (package / SONAME, root / "lib" / SONAME, root / "target" / "lib" / SONAME):
        if path.is_file():
            return ctypes.CDLL(str(path))
    try:
        return ctypes.CDLL(SONAME)
    except OSError as error:
        raise ImportError(
            f"{SONAME} is not found. Install a release of Sirophan and the package from it, or set SIROPHAN_LIBRARY to the file; "
            "in a checkout with the prover, tools/library makes it."
        ) from error


library = _found()

# An input is its bytes and their number; an output is a pointer to its cells and their number.
_READ = [c_char_p, c_size_t]


def _write(cell: type) -> list:
    return [POINTER(cell), c_size_t]


_ARGUMENTS = {
    "sirophan_check": _READ * 2,
    "sirophan_match": _READ * 3,
    "sirophan_select": _READ * 3 + _write(c_uint32),
    "sirophan_check_search": _READ * 2,
    "sirophan_match_search": _READ * 3,
    "sirophan_select_search": _READ * 3 + _write(c_uint32),
    "sirophan_explain": _READ * 3 + _write(c_uint8),
    "sirophan_spell": _READ + _write(c_uint8) + [c_size_t],
    "sirophan_report": _READ * 3 + _write(Tallied),
    "sirophan_record": _READ,
    "sirophan_seal": _write(c_uint8),
    "sirophan_version": [],
    "sirophan_reason": [c_uint32],
}

for _name, _types in _ARGUMENTS.items():
    _function = getattr(library, _name)
    _function.argtypes = _types
    _function.restype = Answer

library.sirophan_report.restype = Counts
library.sirophan_version.restype = c_char_p
library.sirophan_reason.restype = c_char_p
