// Which lines of a query may go, and which hidden variables the lines left share. Bit 8 i + j of a word stands for the pair of
// lines i and j: line i sent to line j.

use super::values::{Line, Mark, Query, Term};

pub fn least(m: u64) -> usize {
    m.trailing_zeros() as usize
}

pub fn drop_least(m: u64) -> u64 {
    m & (m - 1)
}

fn low_bits(n: usize) -> u64 {
    (1 << n) - 1
}

// A map keeps constants and shown variables, and an unused place stays one.
fn keeps_term(t: Term, u: Term) -> bool {
    if t.mark == Mark::Hidden {
        return u.mark != Mark::Unused;
    }
    t == u
}

fn goes_line(a: &Line, s: &Line) -> bool {
    a.table == s.table && (0..8).all(|p| keeps_term(a.terms[p], s.terms[p]))
}

// The columns of b in which this term stands.
fn columns_of(t: Term, b: &Line) -> u64 {
    if t.mark == Mark::Unused {
        return 0;
    }
    let mut m = 0;
    for q in 0..8 {
        m |= u64::from(b.terms[q] == t) << q;
    }
    m
}

// Bit 8 p + q: column p of a has the same term as column q of b.
fn same_columns(a: &Line, b: &Line) -> u64 {
    let mut m = 0;
    for p in 0..8 {
        m |= columns_of(a.terms[p], b) << (p * 8);
    }
    m
}

fn goings(q: &Query) -> u64 {
    let mut m = 0;
    for i in 0..q.count {
        for j in 0..q.count {
            m |= u64::from(goes_line(&q.lines[i], &q.lines[j])) << (i * 8 + j);
        }
    }
    m
}

fn columns(q: &Query) -> [u64; 64] {
    let mut table = [0; 64];
    for i in 0..q.count {
        for j in 0..q.count {
            table[i * 8 + j] = same_columns(&q.lines[i], &q.lines[j]);
        }
    }
    table
}

// One map can do both of these pairs: where the two lines have equal terms, so have their targets.
fn join(columns: &[u64; 64], p: usize, b: usize) -> bool {
    let lines = columns[p / 8 * 8 + b / 8];
    let targets = columns[p % 8 * 8 + b % 8];
    targets & lines == lines
}

// The pairs that join with themselves.
fn candidates(columns: &[u64; 64], goings: u64) -> u64 {
    let mut m = 0;
    let mut rest = goings;
    while rest != 0 {
        let p = least(rest);
        m |= u64::from(join(columns, p, p)) << p;
        rest = drop_least(rest);
    }
    m
}

// The candidates that join with this one.
fn pair_word(columns: &[u64; 64], candidates: u64, p: usize) -> u64 {
    let mut m = 0;
    let mut rest = candidates;
    while rest != 0 {
        let b = least(rest);
        m |= u64::from(join(columns, p, b)) << b;
        rest = drop_least(rest);
    }
    m
}

fn pair_words(columns: &[u64; 64], candidates: u64) -> [u64; 64] {
    let mut table = [0; 64];
    let mut rest = candidates;
    while rest != 0 {
        let p = least(rest);
        table[p] = pair_word(columns, candidates, p);
        rest = drop_least(rest);
    }
    table
}

fn row_of(candidates: u64, targets: u64, k: usize) -> u64 {
    (candidates >> (k * 8)) & targets
}

fn rows_left(rows: u64, targets: u64, candidates: u64) -> bool {
    let mut rest = rows;
    while rest != 0 {
        if row_of(candidates, targets, least(rest)) == 0 {
            return false;
        }
        rest = drop_least(rest);
    }
    true
}

// Some map sends all these lines into these targets by candidates.
fn search(rows: u64, targets: u64, candidates: u64, table: &[u64; 64]) -> bool {
    if rows == 0 {
        return true;
    }
    if !rows_left(rows, targets, candidates) {
        return false;
    }
    let k = least(rows);
    let rest = drop_least(rows);
    let mut row = row_of(candidates, targets, k);
    while row != 0 {
        let left = candidates & table[k * 8 + least(row)];
        if search(rest, targets, left, table) {
            return true;
        }
        row = drop_least(row);
    }
    false
}

// The pairs of a line with itself.
const STAYING: u64 = 0x8040_2010_0804_0201;

// The lines left when those are taken out, from the last on, that can go while all others stay.
fn fold(n: usize, candidates: u64, table: &[u64; 64]) -> u64 {
    let mut rows = low_bits(n);
    for i in (0..n).rev() {
        let rest = rows & !(1 << i);
        let alone = candidates & (STAYING | (255 << (i * 8)));
        if search(rows, rest, alone, table) {
            rows = rest;
        }
    }
    rows
}

// The lines left when every line that may go is taken out, from the last on. It is enough to send those that folding leaves.
fn taken(n: usize, rows: u64, candidates: u64, table: &[u64; 64]) -> u64 {
    let mut left = low_bits(n);
    for i in (0..n).rev() {
        let rest = left & !(1 << i);
        if search(rows, rest, candidates, table) {
            left = rest;
        }
    }
    left
}

pub fn lines_left(q: &Query) -> u64 {
    let g = goings(q);
    if g & !STAYING == 0 {
        return low_bits(q.count);
    }
    let same = columns(q);
    let c = candidates(&same, g);
    let table = pair_words(&same, c);
    let rows = fold(q.count, c, &table);
    taken(q.count, rows, c, &table)
}

fn hidden_word(l: &Line) -> u64 {
    let mut m = 0;
    for t in &l.terms {
        if t.mark == Mark::Hidden {
            m |= 1 << t.number;
        }
    }
    m
}

// The hidden variables that stand in two or more of the lines left.
pub fn shared(q: &Query, left: u64) -> u64 {
    let mut once = 0;
    let mut twice = 0;
    for i in 0..q.count {
        if left >> i & 1 == 1 {
            let w = hidden_word(&q.lines[i]);
            twice |= once & w;
            once |= w;
        }
    }
    twice
}
