// Reading a query text: the query, or what turns it back.

use super::numerals::{fields, read_row, split_line, Row};
use super::values::{Policy, Query, Refusal};

// The number that turns a well-formed line back, if any: so many lines went before it, with these variables.
fn fault(p: &Policy, count: usize, shown: u64, hidden: u64, r: &Row) -> Option<u64> {
    if count == 8 {
        return Some(7);
    }
    if r.outside {
        return Some(2);
    }
    if p.table_count < r.line.table {
        return Some(4);
    }
    if p.columns[r.line.table - 1] != r.count {
        return Some(5);
    }
    if (shown | r.shown) & (hidden | r.hidden) != 0 {
        return Some(6);
    }
    None
}

fn read_lines(p: &Policy, text: &[u8]) -> Result<Query, Refusal> {
    let mut q = Query::default();
    let (mut shown, mut hidden, mut line, mut rest) = (0, 0, 2, text);
    while q.count == 0 || !rest.is_empty() {
        let (front, behind) = split_line(rest).ok_or((1, line))?;
        let r = read_row(fields(front)).ok_or((1, line))?;
        if let Some(number) = fault(p, q.count, shown, hidden, &r) {
            return Err((number, line));
        }
        q.lines[q.count] = r.line;
        q.count += 1;
        shown |= r.shown;
        hidden |= r.hidden;
        line += 1;
        rest = behind;
    }
    Ok(q)
}

pub fn read_query(p: &Policy, text: &[u8]) -> Result<Query, Refusal> {
    if 4096 < text.len() {
        return Err((7, 0));
    }
    match split_line(text) {
        Some((b"table terms", rest)) => read_lines(p, rest),
        _ => Err((1, 1)),
    }
}
