"""The operations of documents 01 and 02, by policies and sessions."""

from __future__ import annotations

import ctypes

from kolbrees._library import (
    MOST_APART_CELLS,
    MOST_LINES,
    MOST_QUERY_BYTES,
    NONE,
    REFUSED,
    ROW_CELLS,
    SETTLED,
    YES,
    PolicyValue,
    ReplyValue,
    SessionValue,
    library,
)
from kolbrees._replies import Explanation, Label, Refused, Row, bits


def _accepted(reply: ReplyValue) -> ReplyValue:
    """The reply, unless the call is turned back."""
    if reply.word == REFUSED:
        raise Refused(reply.number, reply.line)
    return reply


def _lent(text: bytes) -> tuple[bytes, int]:
    """A text as the library takes it: bytes alone, since a number would do for an address.

    >>> _lent(b"table terms")
    (b'table terms', 11)
    >>> _lent(4096)
    Traceback (most recent call last):
    TypeError: a text is bytes, not int
    """
    if not isinstance(text, bytes):
        raise TypeError(f"a text is bytes, not {type(text).__name__}")
    return text, len(text)


def _word(number: int) -> int:
    """A number of 64 bits: of a larger one the library would see the low bits.

    >>> _word((1 << 64) + 1)
    Traceback (most recent call last):
    OverflowError: 18446744073709551617 is not a number of 64 bits
    """
    if not 0 <= number < 1 << 64:
        raise OverflowError(f"{number} is not a number of 64 bits")
    return number


class Policy:
    r"""A loaded policy.

    >>> from kolbrees.example import POLICY
    >>> policy = Policy.load(POLICY)
    >>> policy
    <Policy: columns (3, 2), 4 views, 2 partitions>
    >>> Policy.load(b"table columns\n1 9\n")
    Traceback (most recent call last):
    kolbrees._replies.Refused: refused by 2 at line 2: a number outside its limits
    """

    __slots__ = ("_value",)

    def __init__(self, value: PolicyValue) -> None:
        """Made by `Policy.load`."""
        self._value = value

    @classmethod
    def load(cls, text: bytes) -> Policy:
        """The policy of a text."""
        loading = library.kolbrees_load(*_lent(text))
        _accepted(loading.reply)
        return cls(loading.policy)

    @property
    def columns(self) -> tuple[int, ...]:
        """How many columns each table has."""
        tables = self._value.tables
        return tuple(tables.columns[: tables.count])

    @property
    def view_count(self) -> int:
        """How many views there are."""
        return self._value.view_count

    @property
    def partition_count(self) -> int:
        """How many partitions there are."""
        return self._value.partition_count

    def __repr__(self) -> str:
        return (
            f"<Policy: columns {self.columns}, {self.view_count} views, "
            f"{self.partition_count} partitions>"
        )

    def open(self) -> Session:
        """A session with every partition open."""
        opening = library.kolbrees_open(self._value)
        _accepted(opening.reply)
        return Session(self, opening.session.mask)

    def session(self, mask: int) -> Session:
        """A session restored from the mask that it was saved by.

        A mask with no partition, or with one that the policy does not have, is refused by 9 when
        a query is decided.

        >>> from kolbrees.example import POLICY, QUERIES
        >>> policy = Policy.load(POLICY)
        >>> session = policy.open()
        >>> session.decide(QUERIES[2])
        True
        >>> session.mask
        1
        >>> policy.session(1).decide(QUERIES[3])
        False
        """
        return Session(self, mask)

    def labels(self, text: bytes) -> list[Label]:
        r"""The labels of a query text, ascending by their words, equal ones repeated.

        >>> from kolbrees.example import POLICY
        >>> policy = Policy.load(POLICY)
        >>> for label in policy.labels(b"table terms\n1 !1 #4 ?2\n2 !1 #7\n"):
        ...     print(label.word, label.table, sorted(label.views))
        12884901889 1 [1, 2]
        51539607554 2 [3, 4]
        """
        words = (ctypes.c_uint64 * MOST_LINES)()
        reply = library.kolbrees_labels(self._value, *_lent(text), words, len(words))
        return [Label(word) for word in words[: _accepted(reply).count]]

    def explain(self, partition: int, text: bytes) -> Explanation:
        r"""Why a partition settles a query text, or does not.

        >>> from kolbrees.example import POLICY
        >>> policy = Policy.load(POLICY)
        >>> policy.explain(1, b"table terms\n1 !1 #4 ?2\n2 !1 #7\n")
        Explanation(settled=True, views=[frozenset({2}), frozenset({3})])
        >>> policy.explain(2, b"table terms\n2 !1 ?2\n")
        Explanation(settled=False, views=[frozenset({3})])
        """
        words = (ctypes.c_uint32 * MOST_LINES)()
        reply = library.kolbrees_explain(
            self._value, _word(partition), *_lent(text), words, len(words)
        )
        views = [bits(word) for word in words[: _accepted(reply).count]]
        return Explanation(reply.word == SETTLED, views)

    def apart(self, partition: int, text: bytes) -> list[Row]:
        r"""Two archives behind a no; the empty list where the partition settles the query text.

        The first archive has all rows, the second all but the first row. Both agree on every view
        of the partition, and the query's answers differ. The values are the desk's choice.

        >>> from kolbrees.example import POLICY
        >>> policy = Policy.load(POLICY)
        >>> [row.table for row in policy.apart(1, b"table terms\n1 !1 !2 !3\n")]
        [1, 1]
        >>> [odd] = policy.apart(2, b"table terms\n2 !1 ?2\n")
        >>> odd.table, len(odd.values)
        (2, 2)
        >>> policy.apart(1, b"table terms\n1 !1 #4 ?2\n")
        []
        """
        cells = (ctypes.c_uint64 * MOST_APART_CELLS)()
        reply = library.kolbrees_apart(
            self._value, _word(partition), *_lent(text), cells, len(cells)
        )
        starts = range(0, _accepted(reply).count * ROW_CELLS, ROW_CELLS)
        return [self._row(cells[start : start + ROW_CELLS]) for start in starts]

    def _row(self, cells: list[int]) -> Row:
        table = cells[0]
        return Row(table, tuple(cells[1 : 1 + self.columns[table - 1]]))

    def grant(self, partition: int, text: bytes) -> list[int] | None:
        r"""The fewest views whose addition makes the partition settle a query text.

        The empty list where it does already, and None where no views of the policy will do.

        >>> from kolbrees.example import POLICY
        >>> policy = Policy.load(POLICY.replace(b"2 2\nview", b"2 2\n3 1\nview"))
        >>> policy.grant(1, b"table terms\n1 !1 !2 !3\n")
        [1]
        >>> policy.grant(1, b"table terms\n1 !1 #4 ?2\n")
        []
        >>> print(policy.grant(1, b"table terms\n3 !1\n"))
        None
        """
        views = (ctypes.c_uint32 * MOST_LINES)()
        reply = library.kolbrees_grant(
            self._value, _word(partition), *_lent(text), views, len(views)
        )
        given = list(views[: _accepted(reply).count])
        return None if reply.word == NONE else given

    def import_rule(self, rule: bytes) -> bytes:
        r"""The query text of a rule, one line as the papers print it.

        >>> from kolbrees.example import POLICY
        >>> policy = Policy.load(POLICY)
        >>> policy.import_rule(b"Q1(x, y) :- T1(x, y, z), T2(x, 7)\n")
        b'table terms\n1 !0 !1 ?2\n2 !0 #7\n'
        """
        out = ctypes.create_string_buffer(MOST_QUERY_BYTES)
        reply = library.kolbrees_import(self._value, *_lent(rule), out, len(out), 0)
        return out.raw[: _accepted(reply).count]


class Session:
    """The partitions of a policy that are still open. One thread at a time may decide in it."""

    __slots__ = ("_policy", "_mask")

    def __init__(self, policy: Policy, mask: int) -> None:
        """Made by `Policy.open` and `Policy.session`."""
        self._policy = policy
        self._mask = _word(mask)

    @property
    def policy(self) -> Policy:
        """The policy that it was opened under."""
        return self._policy

    @property
    def mask(self) -> int:
        """The partitions still open as a number to save: partition n at bit n - 1."""
        return self._mask

    @property
    def partitions(self) -> frozenset[int]:
        """The partitions still open."""
        return bits(self._mask)

    def __repr__(self) -> str:
        return f"<Session: partitions {sorted(self.partitions)} open>"

    def decide(self, text: bytes) -> bool:
        r"""Whether a query text gets a yes.

        A yes keeps open only the partitions that settle the query. A no and a refusal close none.

        >>> from kolbrees.example import POLICY
        >>> session = Policy.load(POLICY).open()
        >>> session.decide(b"table terms\n2 !1 ?2\n")
        True
        >>> session
        <Session: partitions [1] open>
        >>> session.decide(b"table terms\n1 !1 !2\n")  # doctest: +ELLIPSIS
        Traceback (most recent call last):
        kolbrees._replies.Refused: refused by 5 at line 2: fewer or more terms than the table ...
        """
        decision = library.kolbrees_decide(
            self._policy._value, SessionValue(self._mask), *_lent(text)
        )
        reply = _accepted(decision.reply)
        self._mask = decision.session.mask
        return reply.word == YES


def compare(x: int, y: int) -> bool:
    """Whether label x is at or below label y, of any two words.

    >>> compare(12884901889, 4294967297), compare(4294967297, 12884901889)
    (True, False)
    >>> compare(12884901889, 3)
    True
    """
    return library.kolbrees_compare(_word(x), _word(y))
