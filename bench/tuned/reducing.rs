// Which lines of a query are left when those that may go are taken out.

use super::maps::Maps;
use super::query::Query;
use super::{spread, DIAGONAL, ONES};

// Bit i: line i is left.
#[inline(always)]
pub fn lines_left(q: &Query) -> u8 {
    let n = q.count & 15;
    let all = ((1u32 << n) - 1) as u8;
    if n == 1 {
        return all;
    }
    let (mut goings, mut movable) = (0u64, 0u8);
    for a in 0..n.min(8) {
        let fixed = !spread(q.hidden_columns[a]);
        let mut targets = 0u8;
        for b in 0..n.min(8) {
            let odd = (q.words[a] ^ q.words[b]) & fixed | u64::from(q.tables[a] ^ q.tables[b]);
            targets |= u8::from(odd == 0) << b;
        }
        goings |= u64::from(targets) << (8 * a);
        movable |= u8::from(targets != 1 << a) << a;
    }
    if movable == 0 {
        return all;
    }
    take_out(q, all, goings, movable)
}

// The goings without those of lines with a repeated variable that the target does not repeat.
fn keep_repeats(q: &Query, m: &Maps, mut goings: u64) -> u64 {
    let mut rest = q.repeats;
    while rest != 0 {
        let a = rest.trailing_zeros() as usize & 7;
        rest &= rest - 1;
        for b in 0..q.count.min(8) {
            if m.bound[a][a] & !m.same[b][b] != 0 {
                goings &= !(1 << (8 * a + b));
            }
        }
    }
    goings
}

// The lines left when those are taken out that can go while all others stay, which is quickly found.
fn fold(m: &mut Maps, all: u8, goings: u64, movable: u8) -> u8 {
    let (mut left, mut rest) = (all, movable);
    while rest != 0 {
        let i = rest.trailing_zeros() as usize & 7;
        rest &= rest - 1;
        let others = left & !(1 << i);
        let staying = DIAGONAL & spread(others);
        let mut targets = (goings >> (8 * i)) as u8 & others;
        while targets != 0 {
            let b = targets.trailing_zeros() as usize & 7;
            targets &= targets - 1;
            if staying & !m.support(i, b) == 0 {
                left = others;
                break;
            }
        }
    }
    left
}

// The lines left that hang together with line i by hidden variables: all others stay in a map that moves i.
fn around(q: &Query, left: u8, i: usize) -> u8 {
    let (mut lines, mut variables) = (1u8 << i, q.hidden[i]);
    loop {
        let mut more = lines;
        for c in 0..q.count.min(8) {
            if left >> c & 1 == 1 && q.hidden[c] & variables != 0 {
                more |= 1 << c;
                variables |= q.hidden[c];
            }
        }
        if more == lines {
            return lines;
        }
        lines = more;
    }
}

#[inline(never)]
fn take_out(q: &Query, all: u8, goings: u64, movable: u8) -> u8 {
    let mut m = Maps::of(q);
    let goings = keep_repeats(q, &m, goings);
    let mut left = fold(&mut m, all, goings, movable);
    let mut rest = movable & left;
    while rest != 0 {
        let i = rest.trailing_zeros() as usize & 7;
        rest &= rest - 1;
        let state = goings & !(ONES << i) & ONES.wrapping_mul(left as u64);
        if left >> i & 1 == 0 || (state >> (8 * i)) as u8 == 0 {
            continue;
        }
        let lines = around(q, left, i);
        if let Some(map) = m.find(state, lines) {
            // What no line is sent to can go with line i.
            let mut image = left & !lines;
            for c in 0..q.count.min(8) {
                if lines >> c & 1 == 1 {
                    image |= (map >> (8 * c)) as u8;
                }
            }
            left &= image;
        }
    }
    left
}
