// The views that cover a line, and the partitions that settle a query.

use super::equal_bytes;
use super::policy::{Policy, Table};
use super::query::{Query, CONSTANT, HIDDEN};

// The hidden variables that stand in two or more of the lines left.
#[inline(always)]
fn shared(q: &Query, left: u8) -> u64 {
    let (mut once, mut twice, mut rest) = (0, 0, left);
    while rest != 0 {
        let i = rest.trailing_zeros() as usize & 7;
        rest &= rest - 1;
        twice |= once & q.hidden[i];
        once |= q.hidden[i];
    }
    twice
}

// The views that take this constant in a column.
#[inline(always)]
fn constant_views(p: &Policy, t: &Table, c: usize, value: u64) -> u32 {
    let mut views = t.shown[c];
    for &(known, those) in &p.constants[t.first[c] as usize..t.first[c + 1] as usize] {
        if known == value {
            views |= those;
        }
    }
    views
}

// The views whose marks and constants allow line i, whatever terms it repeats.
#[inline(always)]
fn allowing(p: &Policy, t: &Table, q: &Query, i: usize, shared: u64) -> u32 {
    let mut views = t.views;
    for c in 0..t.columns.min(8) {
        let term = q.words[i] >> (8 * c) & 255;
        views &= if term & HIDDEN != 0 && shared >> (term & 63) & 1 == 0 {
            t.hidden[c]
        } else if term & (HIDDEN | CONSTANT) == CONSTANT {
            constant_views(p, t, c, q.constants[term as usize & 63])
        } else {
            t.shown[c]
        };
    }
    views
}

// The views that cover line i.
fn covering(p: &Policy, q: &Query, i: usize, shared: u64) -> u32 {
    let t = &p.tables[(q.tables[i] as usize).min(16)];
    let mut rest = allowing(p, t, q, i, shared);
    if q.repeats >> i & 1 == 0 {
        return rest & t.once;
    }
    let equal = equal_bytes(q.words[i], q.words[i]);
    let mut views = 0;
    while rest != 0 {
        let v = rest.trailing_zeros() as usize & 31;
        rest &= rest - 1;
        // What the view repeats the line repeats, and nothing else where the view hides.
        let odd = p.equal[v] & !equal | equal & p.hidden[v] & !p.equal[v];
        views |= u32::from(odd == 0) << v;
    }
    views
}

// The partitions that hold one of these views.
#[inline(always)]
fn holding(p: &Policy, mut views: u32) -> u32 {
    let mut partitions = 0;
    while views != 0 {
        partitions |= p.holders[views.trailing_zeros() as usize & 31];
        views &= views - 1;
    }
    partitions
}

// The open partitions that settle the query with these lines left.
#[inline(always)]
pub fn settling(p: &Policy, q: &Query, left: u8, open: u32) -> u32 {
    let shared = shared(q, left);
    let (mut partitions, mut rest) = (open, left);
    while rest != 0 && partitions != 0 {
        let i = rest.trailing_zeros() as usize & 7;
        rest &= rest - 1;
        partitions &= holding(p, covering(p, q, i, shared));
    }
    partitions
}
