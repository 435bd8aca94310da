"""The shared library: the structs and functions of kolbrees.h, and where the library is found."""

from __future__ import annotations

import ctypes
import os
from ctypes import POINTER, c_bool, c_char, c_char_p, c_size_t, c_uint32, c_uint64
from pathlib import Path
from typing import Any

VERSION = 1
NAME = f"libkolbrees.so.{VERSION}"

MOST_TABLES = 16
MOST_COLUMNS = 8
MOST_LINES = 8
MOST_VIEWS = 32
MOST_PARTITIONS = 32
MOST_POLICY_BYTES = 16384
MOST_QUERY_BYTES = 4096
MOST_APART_CELLS = 360
ROW_CELLS = 9

# The words of replies that this package tells apart.
REFUSED, YES, SETTLED, NONE = 0, 2, 5, 8


class ReplyValue(ctypes.Structure):
    """A word, what it counts, and a refusal's number and line."""

    word: int
    count: int
    number: int
    line: int
    _fields_ = [("word", c_uint64), ("count", c_uint64), ("number", c_uint64), ("line", c_uint64)]


class TermValue(ctypes.Structure):
    """A mark (1 a constant, 2 shown, 3 hidden) and a number; an unused term is all 0."""

    _fields_ = [("mark", c_uint64), ("number", c_uint64)]


class LineValue(ctypes.Structure):
    """A table and its terms."""

    _fields_ = [("table", c_uint64), ("terms", TermValue * MOST_COLUMNS)]


class TablesValue(ctypes.Structure):
    """The columns of each table."""

    count: int
    columns: ctypes.Array[c_uint64]
    _fields_ = [("count", c_uint64), ("columns", c_uint64 * MOST_TABLES)]


class PolicyValue(ctypes.Structure):
    """The tables, the views, and for each view the partitions that grant it."""

    tables: TablesValue
    view_count: int
    partition_count: int
    _fields_ = [
        ("tables", TablesValue),
        ("view_count", c_uint64),
        ("views", LineValue * MOST_VIEWS),
        ("partition_count", c_uint64),
        ("grants", c_uint64 * MOST_VIEWS),
    ]


class SessionValue(ctypes.Structure):
    """The partitions still open, partition n at bit n - 1."""

    mask: int
    _fields_ = [("mask", c_uint64)]


class LoadingValue(ctypes.Structure):
    """What loading gives."""

    _fields_ = [("reply", ReplyValue), ("policy", PolicyValue)]


class OpeningValue(ctypes.Structure):
    """What opening gives."""

    _fields_ = [("reply", ReplyValue), ("session", SessionValue)]


class DecisionValue(ctypes.Structure):
    """What deciding gives."""

    _fields_ = [("reply", ReplyValue), ("session", SessionValue)]


# What a library must say of itself, in the order in which it does.
FACTS = {
    "version": VERSION,
    "policy_size": ctypes.sizeof(PolicyValue),
    "session_size": ctypes.sizeof(SessionValue),
    "reply_size": ctypes.sizeof(ReplyValue),
    "loading_size": ctypes.sizeof(LoadingValue),
    "opening_size": ctypes.sizeof(OpeningValue),
    "decision_size": ctypes.sizeof(DecisionValue),
    "most_tables": MOST_TABLES,
    "most_columns": MOST_COLUMNS,
    "most_lines": MOST_LINES,
    "most_views": MOST_VIEWS,
    "most_partitions": MOST_PARTITIONS,
    "most_policy_bytes": MOST_POLICY_BYTES,
    "most_apart_cells": MOST_APART_CELLS,
}


class FactsValue(ctypes.Structure):
    """What a library of this version says of itself."""

    _fields_ = [(name, c_uint64) for name in FACTS]


_TEXT = [c_char_p, c_size_t]
_WORDS = [POINTER(c_uint64), c_size_t]
_HALF_WORDS = [POINTER(c_uint32), c_size_t]

# What each function gives, and what it takes.
_FUNCTIONS: dict[str, tuple[type, list[Any]]] = {
    "kolbrees_version": (c_uint64, []),
    "kolbrees_about": (FactsValue, []),
    "kolbrees_load": (LoadingValue, _TEXT),
    "kolbrees_open": (OpeningValue, [PolicyValue]),
    "kolbrees_decide": (DecisionValue, [PolicyValue, SessionValue, *_TEXT]),
    "kolbrees_labels": (ReplyValue, [PolicyValue, *_TEXT, *_WORDS]),
    "kolbrees_explain": (ReplyValue, [PolicyValue, c_uint64, *_TEXT, *_HALF_WORDS]),
    "kolbrees_compare": (c_bool, [c_uint64, c_uint64]),
    "kolbrees_apart": (ReplyValue, [PolicyValue, c_uint64, *_TEXT, *_WORDS]),
    "kolbrees_grant": (ReplyValue, [PolicyValue, c_uint64, *_TEXT, *_HALF_WORDS]),
    "kolbrees_import": (ReplyValue, [PolicyValue, *_TEXT, POINTER(c_char), c_size_t, c_size_t]),
}


def _place() -> str:
    """Where the library is: as the environment says, or beside this package, or for the loader."""
    named = os.environ.get("KOLBREES_LIBRARY")
    if named:
        return named
    here = Path(__file__).resolve().parent
    for folder in (here, here.parent):
        if (folder / NAME).is_file():
            return str(folder / NAME)
    return NAME


def _declare(opened: ctypes.CDLL) -> None:
    for name, (result, arguments) in _FUNCTIONS.items():
        function = getattr(opened, name)
        function.restype = result
        function.argtypes = arguments


def _open(place: str) -> ctypes.CDLL:
    try:
        opened = ctypes.CDLL(place)
        _declare(opened)
    except (OSError, AttributeError) as error:
        raise ImportError(f"the library {place} cannot be used: {error}") from error
    _compare(place, "version", opened.kolbrees_version(), VERSION)
    said = opened.kolbrees_about()
    for name, wanted in FACTS.items():
        _compare(place, name, getattr(said, name), wanted)
    return opened


def _compare(place: str, name: str, got: int, wanted: int) -> None:
    if got != wanted:
        raise ImportError(f"the library {place} is another one: {name} {got}, not {wanted}")


library = _open(_place())
