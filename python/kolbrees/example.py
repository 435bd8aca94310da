"""Document 01's example: the policy, and the texts of its six queries."""

POLICY = b"""\
table columns
1 3
2 2
view table terms
1 1 !1 !2 !3
2 1 !1 !2 ?3
3 2 !1 !2
4 2 !1 #7
partition views
1 2 3
2 1 4
"""

QUERIES = (
    b"table terms\n1 !1 #4 ?2\n",
    b"table terms\n1 !1 #4 ?2\n2 !1 #7\n",
    b"table terms\n2 !1 ?2\n",
    b"table terms\n1 !1 !2 !3\n",
    b"table terms\n1 !1 !2\n",
    b"table terms\n1 !1 !2 ?3\n1 ?4 !2 ?3\n",
)
