// What turns a query text back that the pass over its bytes gave up.

use super::fields::{Fields, Row};
use super::loading::Refusal;
use super::policy::Policy;
use super::scanning::NAMES;

// The length of the first query text of an input: the next complete names line behind its first line starts another.
pub fn cut(input: &[u8]) -> usize {
    let mut at = 0;
    while let Some(n) = input[at..].iter().position(|&b| b == b'\n') {
        if at != 0 && input[at..=at + n] == *NAMES {
            return at;
        }
        at += n + 1;
    }
    input.len()
}

// The number that turns a line back, or 0: so many lines went before it, with these variables.
fn line_fault(p: &Policy, count: usize, shown: u64, hidden: u64, row: &Row) -> u32 {
    if count == 8 {
        7
    } else if row.outside {
        2
    } else if p.table_count < row.table {
        4
    } else if p.tables[row.table].columns != row.count {
        5
    } else if (shown | row.shown) & (hidden | row.hidden) != 0 {
        6
    } else {
        0
    }
}

// The refusal that is due. A text without a fault is one that ends too early.
#[cold]
#[inline(never)]
pub fn refusal(p: &Policy, text: &[u8]) -> Refusal {
    if 4096 < text.len() {
        return (7, 0);
    }
    if !text.starts_with(NAMES) {
        return (1, 1);
    }
    let (mut shown, mut hidden, mut count) = (0, 0, 0);
    for line in text[NAMES.len()..].split_inclusive(|&b| b == b'\n') {
        let row = line.strip_suffix(b"\n").and_then(|l| Fields::of(l).row());
        let fault = row.map_or(1, |r| line_fault(p, count, shown, hidden, &r));
        if fault != 0 {
            return (fault, count as u32 + 2);
        }
        shown |= row.map_or(0, |r| r.shown);
        hidden |= row.map_or(0, |r| r.hidden);
        count += 1;
    }
    (1, count as u32 + 2)
}
