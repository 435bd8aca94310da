// The labels of a query.

use super::reducing::{drop_least, least, lines_left, shared};
use super::values::{Line, Mark, Policy, Query, Term};

// The line with its shared hidden variables shown.
fn show_line(shared: u64, l: &Line) -> Line {
    let mut r = *l;
    for t in &mut r.terms {
        if t.mark == Mark::Hidden && shared >> t.number & 1 == 1 {
            t.mark = Mark::Shown;
        }
    }
    r
}

// The rules of covering for two columns: the view has v and w there, the line a and b.
fn obeys(v: Term, w: Term, a: Term, b: Term) -> bool {
    if v.mark == Mark::Constant {
        return a == v;
    }
    let equals = v != w || a == b;
    if v.mark == Mark::Shown {
        return equals;
    }
    if a.mark != Mark::Hidden {
        return false;
    }
    equals && (a != b || v == w)
}

fn covers(width: usize, v: &Line, a: &Line) -> bool {
    for p in 0..width {
        for q in 0..width {
            if !obeys(v.terms[p], v.terms[q], a.terms[p], a.terms[q]) {
                return false;
            }
        }
    }
    true
}

// The views of each table.
pub fn table_views(p: &Policy) -> [u64; 17] {
    let mut masks = [0; 17];
    for k in 0..p.view_count {
        masks[p.views[k].table] |= 1 << k;
    }
    masks
}

fn label_line(p: &Policy, masks: &[u64; 17], a: &Line) -> u64 {
    let width = p.columns[a.table - 1];
    let mut word = 0;
    let mut left = masks[a.table];
    while left != 0 {
        let k = least(left);
        word |= u64::from(covers(width, &p.views[k], a)) << k;
        left = drop_least(left);
    }
    a.table as u64 | word << 32
}

// The labels, and how many there are.
pub fn label_query(p: &Policy, masks: &[u64; 17], q: &Query) -> ([u64; 8], usize) {
    let left = lines_left(q);
    let shared = shared(q, left);
    let mut words = [0; 8];
    let mut count = 0;
    for i in 0..q.count {
        if left >> i & 1 == 1 {
            words[count] = label_line(p, masks, &show_line(shared, &q.lines[i]));
            count += 1;
        }
    }
    (words, count)
}
