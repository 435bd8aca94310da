"""Document 01's program through the library.

`decide.py FOLDER` decides the queries of FOLDER/queries.txt under FOLDER/policy.txt and prints a
line for each.
"""

from __future__ import annotations

import io
import sys
from pathlib import Path
from typing import Iterator

from kolbrees import Policy, Refused, Session

MOST_INPUT_BYTES = 65536
# One byte past the limit, so that a longer policy is refused as too long.
MOST_POLICY_BYTES = 16385


def read_file(path: Path, most: int) -> bytes:
    """The first bytes of a file; of one that cannot be opened none."""
    try:
        with path.open("rb") as file:
            return file.read(most)
    except OSError:
        return b""


def cut(text: bytes) -> Iterator[bytes]:
    """The queries: one starts at each complete line `table terms`, and one at the first byte."""
    query = b""
    # lines of a stream end at byte 10 alone; those of splitlines() at byte 13 too
    for line in io.BytesIO(text):
        if line == b"table terms\n" and query:
            yield query
            query = b""
        query += line
    if query:
        yield query


def answer_of(session: Session, query: bytes) -> tuple[str, int, int]:
    """What the desk says, and a refusal's number and line."""
    try:
        return ("yes" if session.decide(query) else "no"), 0, 0
    except Refused as refused:
        return "refused", refused.number, refused.line


def main(folder: Path) -> None:
    """Prints the lines of a folder."""
    print("query answer open refusal line")
    try:
        policy = Policy.load(read_file(folder / "policy.txt", MOST_POLICY_BYTES))
    except Refused as refused:
        print(0, "refused", 0, refused.number, refused.line)
        return
    session = policy.open()
    for number, query in enumerate(cut(read_file(folder / "queries.txt", MOST_INPUT_BYTES)), 1):
        answer, refusal, line = answer_of(session, query)
        print(number, answer, len(session.partitions), refusal, line)


if __name__ == "__main__":
    if len(sys.argv) != 2:
        sys.exit("usage: decide.py FOLDER")
    main(Path(sys.argv[1]))
