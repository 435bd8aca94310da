// The pass over the bytes of a query: it is cut from the input, read and laid in words at once. Whatever a well-formed text would not
// have ends the pass: which refusal is due is found elsewhere.

use super::policy::Policy;
use super::query::{Query, CONSTANT, HIDDEN};

pub const NAMES: &[u8; 12] = b"table terms\n";

// The line that is being read.
#[derive(Default)]
struct Line {
    word: u64,
    shown: u64,
    hidden: u64,
    hidden_columns: u8,
    constants: u64,
    repeat: u64,
}

#[inline(always)]
fn digit(byte: u8) -> u8 {
    byte.wrapping_sub(b'0')
}

// A table's number, which has one digit or two, and the place behind it.
#[inline(always)]
fn table_at(text: &[u8], at: usize) -> Option<(usize, usize)> {
    let &[a, b] = text.get(at..)?.first_chunk()?;
    let (a, b) = (digit(a), digit(b));
    if a == 0 || 9 < a {
        return None;
    }
    if 9 < b {
        return Some((a as usize, at + 1));
    }
    Some((a as usize * 10 + b as usize, at + 2))
}

// A constant from its first digit on, and the place behind it. Nineteen digits fit 64 bits, and the twentieth may not.
#[inline(always)]
fn constant_at(text: &[u8], at: usize) -> Option<(u64, usize)> {
    let first = digit(text[at]);
    let (mut value, mut end) = (u64::from(first), at + 1);
    while end < text.len() && digit(text[end]) <= 9 && end < at + 19 {
        value = value * 10 + u64::from(digit(text[end]));
        end += 1;
    }
    if end == at + 19 && end < text.len() && digit(text[end]) <= 9 {
        let last = u64::from(digit(text[end]));
        value = value.checked_mul(10)?.checked_add(last)?;
        end += 1;
    }
    if first == 0 && at + 1 < end {
        return None;
    }
    Some((value, end))
}

impl Line {
    // The term at a place, with the space before it, entered in column c; the place behind it.
    #[inline(always)]
    fn enter(&mut self, text: &[u8], at: usize, c: usize, q: &mut Query) -> Option<usize> {
        let &[space, mark, a, b] = text.get(at..)?.first_chunk()?;
        let (a, b) = (digit(a), digit(b));
        if space != b' ' || 9 < a {
            return None;
        }
        if mark == b'#' {
            let (value, end) = constant_at(text, at + 2)?;
            let place = q.place(value);
            self.repeat |= self.constants >> place & 1;
            self.constants |= 1 << place;
            self.word |= (CONSTANT | place) << (8 * c);
            return Some(end);
        }
        let two = b <= 9;
        let number = if two { a * 10 + b } else { a };
        if 63 < number || (two && a == 0) {
            return None;
        }
        let bit = 1 << number;
        if mark == b'?' {
            self.repeat |= self.hidden & bit;
            self.hidden |= bit;
            self.hidden_columns |= 1 << c;
            self.word |= (HIDDEN | u64::from(number)) << (8 * c);
        } else if mark == b'!' {
            self.repeat |= self.shown & bit;
            self.shown |= bit;
            self.word |= u64::from(number) << (8 * c);
        } else {
            return None;
        }
        Some(at + 3 + usize::from(two))
    }
}

// The line at a place, entered in the query; the place behind it, and its shown variables.
#[inline(always)]
fn line_at(p: &Policy, text: &[u8], at: usize, q: &mut Query) -> Option<(usize, u64)> {
    let (table, mut at) = table_at(text, at)?;
    if p.table_count < table || q.count == 8 {
        return None;
    }
    let columns = p.tables[table & 31].columns;
    let mut line = Line::default();
    for c in 0..columns {
        at = line.enter(text, at, c, q)?;
    }
    if text.get(at) != Some(&b'\n') {
        return None;
    }
    let i = q.count & 7;
    q.words[i] = line.word;
    q.tables[i] = table as u8;
    q.hidden[i] = line.hidden;
    q.hidden_columns[i] = line.hidden_columns;
    q.repeats |= u8::from(line.repeat != 0) << i;
    q.count += 1;
    Some((at + 1, line.shown))
}

// The query text at a place of the input, read; the place behind it.
pub fn query_at(p: &Policy, input: &[u8], at: usize, q: &mut Query) -> Option<usize> {
    if input.get(at..)?.first_chunk() != Some(NAMES) {
        return None;
    }
    q.count = 0;
    q.repeats = 0;
    q.constant_count = 0;
    let mut at = at + NAMES.len();
    let (mut shown, mut hidden) = (0, 0);
    while at < input.len() && (q.count == 0 || input[at..].first_chunk() != Some(NAMES)) {
        let (end, here) = line_at(p, input, at, q)?;
        shown |= here;
        hidden |= q.hidden[(q.count - 1) & 7];
        at = end;
    }
    if q.count == 0 || shown & hidden != 0 {
        return None;
    }
    Some(at)
}
