// Loading a policy text.

use super::fields::{Fields, Row};
use super::policy::Policy;

// The number that turns a text back, and the line.
pub type Refusal = (u32, u32);

// The lines from the present one on, each without its end; None is a line that does not end.
struct Lines<'a> {
    line: Option<&'a [u8]>,
    rest: &'a [u8],
    number: u32,
}

impl<'a> Lines<'a> {
    fn of(text: &'a [u8]) -> Lines<'a> {
        let mut lines = Lines {
            line: None,
            rest: text,
            number: 0,
        };
        lines.next();
        lines
    }

    fn next(&mut self) {
        let end = self.rest.iter().position(|&b| b == b'\n');
        self.line = end.map(|n| &self.rest[..n]);
        self.rest = end.map_or(self.rest, |n| &self.rest[n + 1..]);
        self.number += 1;
    }

    fn at_end(&self) -> bool {
        self.line.is_none() && self.rest.is_empty()
    }

    // Whether the block ends here, which is never before its first line.
    fn names(&mut self, count: usize, names: &[u8]) -> bool {
        let here = count != 0 && self.line == Some(names);
        if here {
            self.next();
        }
        here
    }
}

// A line of a block, entered in the policy; else the number that turns it back.
type Enter = fn(&mut Policy, &mut Fields, &mut Vec<Row>) -> Option<u32>;

fn enter_table(p: &mut Policy, fields: &mut Fields, _: &mut Vec<Row>) -> Option<u32> {
    let number = fields.numeral()?;
    fields.space()?;
    let columns = fields.numeral()?;
    if !fields.at_end() {
        return None;
    }
    if !(1..=16).contains(&number) || !(1..=8).contains(&columns) {
        return Some(2);
    }
    if number as usize != p.table_count + 1 {
        return Some(3);
    }
    p.table_count += 1;
    p.tables[p.table_count].columns = columns as usize;
    Some(0)
}

fn enter_view(p: &mut Policy, fields: &mut Fields, rows: &mut Vec<Row>) -> Option<u32> {
    let number = fields.numeral()?;
    fields.space()?;
    let row = fields.row()?;
    if !(1..=32).contains(&number) || row.outside {
        return Some(2);
    }
    if number as usize != p.view_count + 1 {
        return Some(3);
    }
    if p.table_count < row.table {
        return Some(4);
    }
    if p.tables[row.table].columns != row.count {
        return Some(5);
    }
    if row.shown & row.hidden != 0 {
        return Some(6);
    }
    p.add_view(&row);
    rows.push(row);
    Some(0)
}

fn enter_partition(p: &mut Policy, fields: &mut Fields, _: &mut Vec<Row>) -> Option<u32> {
    let number = fields.numeral()?;
    let (mut views, mut last, mut outside, mut ascending) = (0u32, 0, false, true);
    while !fields.at_end() {
        fields.space()?;
        let view = fields.numeral()?;
        outside |= !(1..=32).contains(&view);
        ascending &= last < view;
        last = view;
        views |= 1 << (view.wrapping_sub(1) & 31);
    }
    if outside || !(1..=32).contains(&number) {
        return Some(2);
    }
    if number as usize != p.partition_count + 1 || !ascending {
        return Some(3);
    }
    if p.view_count < last as usize {
        return Some(4);
    }
    while views != 0 {
        p.holders[views.trailing_zeros() as usize] |= 1 << p.partition_count;
        views &= views - 1;
    }
    p.partition_count += 1;
    Some(0)
}

fn enter(p: &mut Policy, lines: &mut Lines, rows: &mut Vec<Row>, by: Enter) -> Result<(), Refusal> {
    let fault = match lines.line {
        Some(line) => by(p, &mut Fields::of(line), rows).unwrap_or(1),
        None => 1,
    };
    if fault != 0 {
        return Err((fault, lines.number));
    }
    lines.next();
    Ok(())
}

pub fn load(text: &[u8]) -> Result<Policy, Refusal> {
    if 16_384 < text.len() {
        return Err((7, 0));
    }
    let mut p = Policy::new();
    let mut rows = Vec::with_capacity(32);
    let mut lines = Lines::of(text);
    if !lines.names(1, b"table columns") {
        return Err((1, 1));
    }
    while !lines.names(p.table_count, b"view table terms") {
        enter(&mut p, &mut lines, &mut rows, enter_table)?;
    }
    while !lines.names(p.view_count, b"partition views") {
        enter(&mut p, &mut lines, &mut rows, enter_view)?;
    }
    while p.partition_count == 0 || !lines.at_end() {
        enter(&mut p, &mut lines, &mut rows, enter_partition)?;
    }
    p.sort_constants(&rows);
    Ok(p)
}
