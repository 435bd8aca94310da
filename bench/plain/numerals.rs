// Lines, fields, numerals and terms: the parts that the texts of policies and of queries have in common.

use super::values::{Line, Mark, Term};

// The line at the front of a text, without its end, and the text behind it; None where no line ends.
pub fn split_line(text: &[u8]) -> Option<(&[u8], &[u8])> {
    let n = text.iter().position(|&b| b == b'\n')?;
    Some((&text[..n], &text[n + 1..]))
}

pub fn fields(line: &[u8]) -> impl Iterator<Item = &[u8]> {
    line.split(|&b| b == b' ')
}

// None where the field is malformed. Twenty digits may stand for more than 64 bits hold.
pub fn read_numeral(field: &[u8]) -> Option<u128> {
    if field.is_empty() || 20 < field.len() || (1 < field.len() && field[0] == b'0') {
        return None;
    }
    let mut value = 0;
    for b in field {
        if !b.is_ascii_digit() {
            return None;
        }
        value = value * 10 + u128::from(b - b'0');
    }
    Some(value)
}

// The term, and whether its number is within the limit of its mark.
fn read_term(field: &[u8]) -> Option<(Term, bool)> {
    let mark = match field.first()? {
        b'#' => Mark::Constant,
        b'!' => Mark::Shown,
        b'?' => Mark::Hidden,
        _ => return None,
    };
    let limit = if mark == Mark::Constant { u64::MAX } else { 63 };
    let value = read_numeral(&field[1..])?;
    let number = value as u64;
    Some((Term { mark, number }, value <= u128::from(limit)))
}

// The terms of a line, of which more than eight are counted but not kept.
#[derive(Default)]
pub struct Row {
    pub line: Line,
    pub count: usize,
    pub outside: bool,
    pub shown: u64,
    pub hidden: u64,
}

fn add_term(r: &mut Row, t: Term, within: bool) {
    if r.count < 8 {
        r.line.terms[r.count] = t;
    }
    r.count += 1;
    if !within {
        r.outside = true;
    } else if t.mark == Mark::Shown {
        r.shown |= 1 << t.number;
    } else if t.mark == Mark::Hidden {
        r.hidden |= 1 << t.number;
    }
}

// The table and the terms of a line; None where one of them is malformed or there is no term.
pub fn read_row<'a>(mut fields: impl Iterator<Item = &'a [u8]>) -> Option<Row> {
    let mut r = Row::default();
    let table = read_numeral(fields.next()?)?;
    r.line.table = table as usize;
    r.outside = table < 1 || 16 < table;
    for field in fields {
        let (term, within) = read_term(field)?;
        add_term(&mut r, term, within);
    }
    if r.count == 0 {
        return None;
    }
    Some(r)
}
