// The program's whole work: from the bytes of a policy and of queries to the bytes written.

use super::faults::{cut, refusal};
use super::labelling::settling;
use super::loading::load;
use super::query::Query;
use super::reducing::lines_left;
use super::scanning::query_at;
use super::writing::Output;

// Writes the output to the front of a buffer that has room for it, and tells its length.
pub fn run(policy: &[u8], queries: &[u8], out: &mut [u8]) -> usize {
    let mut out = Output::to(out);
    out.put(b"query answer open refusal line\n");
    let p = match load(policy) {
        Err(refusal) => {
            out.put_refusal(0, 0, refusal);
            return out.at;
        }
        Ok(p) => p,
    };
    let mut q = Query::new();
    let mut open = u32::MAX >> (32 - p.partition_count);
    let (mut number, mut at) = (1, 0);
    while at < queries.len() {
        if let Some(end) = query_at(&p, queries, at, &mut q) {
            let left = settling(&p, &q, lines_left(&q), open);
            if left != 0 {
                open = left;
            }
            out.put_answer(number, left != 0, open.count_ones());
            at = end;
        } else {
            let end = at + cut(&queries[at..]);
            let why = refusal(&p, &queries[at..end]);
            out.put_refusal(number, open.count_ones(), why);
            at = end;
        }
        number += 1;
    }
    out.at
}
