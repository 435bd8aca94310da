"""What the operations give: labels, explanations, rows, and refusals."""

from __future__ import annotations

from dataclasses import dataclass
from typing import NamedTuple

# What turns a call back, in the manual's words.
_WORDS = {
    1: "a line that lacks its end, or is not the names line that must stand there, or whose fields "
    "are not those of a line of its block; or a rule that is not such a line",
    2: "a number outside its limits",
    3: "a table, view or partition not numbered 1, 2, 3 in turn, or a partition's views that do "
    "not ascend",
    4: "a table or a view that the policy does not have",
    5: "fewer or more terms than the table has columns",
    6: "a variable number with both marks ! and ?",
    7: "a ninth line of values, or a ninth atom",
    8: "a policy value to which no text loads",
    9: "a session with no partition open, or with one that the policy does not have",
    10: "a buffer shorter than the list, or without room for the text of a rule",
    11: "a variable of the head that the body does not have",
    12: "a variable that the head names twice",
}

# The same where no line is at fault.
_WORDS_AT_NO_LINE = {4: "no such partition", 7: "a text that is too long"}


class Refused(Exception):
    """A call is turned back: the refusal's number, and the line of the text at fault, or 0.

    >>> refused = Refused(5, 2)
    >>> refused.number, refused.line
    (5, 2)
    >>> print(refused)
    refused by 5 at line 2: fewer or more terms than the table has columns
    >>> print(Refused(4, 0))
    refused by 4: no such partition
    """

    def __init__(self, number: int, line: int) -> None:
        super().__init__(number, line)
        self.number = number
        self.line = line

    @property
    def words(self) -> str:
        """What the manual says of the number."""
        if self.line == 0 and self.number in _WORDS_AT_NO_LINE:
            return _WORDS_AT_NO_LINE[self.number]
        return _WORDS[self.number]

    def __str__(self) -> str:
        place = f" at line {self.line}" if self.line else ""
        return f"refused by {self.number}{place}: {self.words}"


def bits(word: int) -> frozenset[int]:
    """The numbers of the bits that are set, the lowest bit 1.

    >>> sorted(bits(0b1101))
    [1, 3, 4]
    """
    return frozenset(n for n in range(1, word.bit_length() + 1) if word >> (n - 1) & 1)


@dataclass(frozen=True)
class Label:
    """The label of a line of the reduced query.

    >>> label = Label(12884901889)
    >>> label.table, sorted(label.views)
    (1, [1, 2])
    """

    word: int

    @property
    def table(self) -> int:
        """The table of the line."""
        return self.word & 0xFFFFFFFF

    @property
    def views(self) -> frozenset[int]:
        """The views that cover the line."""
        return bits(self.word >> 32)


@dataclass(frozen=True)
class Explanation:
    """Why a partition settles a query, or does not.

    If settled: for each label its views that the partition grants. If not: the views of each label
    without a granted view, any of which would do; an empty set says that no view would do.
    """

    settled: bool
    views: list[frozenset[int]]


class Row(NamedTuple):
    """A row of an archive: its table, and a value for each column."""

    table: int
    values: tuple[int, ...]
