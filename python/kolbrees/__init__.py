r"""The query desk of the meter archive, through its shared library.

A policy says which views of the tables a reader may learn, in partitions. A session decides query
texts, one after another, and keeps open the partitions that settle all it said yes to. Texts are
bytes, as the desk's manual lays them down. Document 01's example:

>>> from kolbrees import Policy, Refused
>>> from kolbrees.example import POLICY, QUERIES
>>> session = Policy.load(POLICY).open()
>>> for number, query in enumerate(QUERIES, 1):
...     try:
...         answer = "yes" if session.decide(query) else "no"
...     except Refused as refused:
...         answer = f"refused by {refused.number} at line {refused.line}"
...     print(number, answer, sorted(session.partitions))
1 yes [1, 2]
2 yes [1, 2]
3 yes [1]
4 no [1]
5 refused by 5 at line 2 [1]
6 yes [1]

The library is libkolbrees.so.1. It is looked for where the environment's KOLBREES_LIBRARY says, or
beside this package, or on the loader's path. One that does not match this package is not taken: the
import fails.
"""

from kolbrees._desk import Policy, Session, compare
from kolbrees._replies import Explanation, Label, Refused, Row

__all__ = ["Explanation", "Label", "Policy", "Refused", "Row", "Session", "compare"]
