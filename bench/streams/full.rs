// Files as long as a run reads, much of them names lines.

use super::{File, Stream, MOST_QUERIES};

const POLICY: &str = "table columns\n1 1\nview table terms\n1 1 !1\npartition views\n1 1\n";

// One query text again and again; the last is as much longer as fills the file.
fn full(name: &'static str, text: &str, last: &str) -> Stream {
    let before = (MOST_QUERIES - last.len()) / text.len();
    let queries = text.repeat(before) + last;
    assert!(queries.len() == MOST_QUERIES, "{name} do not fill a file");
    Stream {
        name,
        partitions: 1,
        queries: before + 1,
        files: vec![File {
            policy: POLICY.into(),
            queries: queries.into_bytes(),
        }],
    }
}

// Queries of one short line, and names lines alone, each of them a query without a line.
pub fn full_files() -> [Stream; 2] {
    [
        full(
            "short queries",
            "table terms\n1 !1\n",
            "table terms\n1 !10\n",
        ),
        full("names lines", "table terms\n", "table terms\n1 1\n"),
    ]
}
