// Queries as a desk is asked: simple ones, joins of them, and simple ones with looser copies of their lines.

use super::lines::{constant, Line, Term, Variables};
use super::policies::{COLUMNS, FRIENDS, OF_FRIEND, OF_OTHER, OWN};
use super::random::Random;

const READER: Term = Term {
    mark: '#',
    number: 1000,
};

// A row of a table with so many of a hundred attributes shown.
fn row(
    g: &mut Random,
    v: &mut Variables,
    table: usize,
    start: [Term; 2],
    kept: usize,
) -> Option<Line> {
    let mut terms = start.to_vec();
    for _ in 2..COLUMNS[table - 1] {
        terms.push(v.fresh(if g.percent(kept) { '!' } else { '?' })?);
    }
    Some(Line { table, terms })
}

fn friend(of: Term, whose: u64, friend: Term) -> Line {
    Line {
        table: FRIENDS,
        terms: vec![of, constant(whose), friend],
    }
}

// Some attributes of a table for the reader, the reader's friends, their friends, or anyone: 1 to 3 lines.
fn part(g: &mut Random, v: &mut Variables, owner: Option<Term>) -> Option<Vec<Line>> {
    let table = g.between(1, 8);
    let kept = g.one_of(&[25, 50, 75]);
    let who = g.below(4);
    if who == 0 {
        let start = [owner.unwrap_or(READER), constant(OWN)];
        return Some(vec![row(g, v, table, start, kept)?]);
    }
    let mark = g.one_of(&['!', '?']);
    let owner = match owner {
        Some(owner) => owner,
        None => v.fresh(mark)?,
    };
    if who == 1 {
        let last = row(g, v, table, [owner, constant(OF_FRIEND)], kept)?;
        return Some(vec![friend(READER, OWN, owner), last]);
    }
    if who == 2 {
        let between = v.fresh('?')?;
        let any = v.fresh('?')?;
        let whose = g.one_of(&[constant(OF_OTHER), any]);
        let last = row(g, v, table, [owner, whose], kept)?;
        let first = friend(READER, OWN, between);
        return Some(vec![first, friend(between, OF_FRIEND, owner), last]);
    }
    let start = [owner, constant(OF_OTHER)];
    Some(vec![row(g, v, table, start, kept)?])
}

pub fn simple(g: &mut Random) -> Option<Vec<Line>> {
    let mut v = Variables::new(g);
    part(g, &mut v, None)
}

// Up to five parts about one owner, while there is room.
pub fn complex(g: &mut Random) -> Option<Vec<Line>> {
    let mut v = Variables::new(g);
    let mark = g.one_of(&['!', '?']);
    let owner = v.fresh(mark)?;
    let mut lines = Vec::new();
    for _ in 0..g.between(1, 5) {
        let more = part(g, &mut v, Some(owner))?;
        if 8 < lines.len() + more.len() || v.free.len() < 20 {
            break;
        }
        lines.extend(more);
    }
    g.shuffle(&mut lines);
    Some(lines)
}

// A copy of a line with some terms made hidden variables; `renamed` has those that copies made together have in common.
fn loosen(
    g: &mut Random,
    v: &mut Variables,
    line: &Line,
    renamed: &mut Vec<(Term, Term)>,
) -> Option<Line> {
    let mut copy = line.clone();
    for t in &mut copy.terms {
        if t.mark != '?' && !g.percent(60) {
            continue;
        }
        let known = renamed.iter().rev().find(|x| x.0 == *t).map(|x| x.1);
        *t = match known {
            Some(name) if !g.percent(30) => name,
            _ => {
                let name = v.fresh('?')?;
                renamed.push((*t, name));
                name
            }
        };
    }
    Some(copy)
}

// A simple query and 2 to 6 looser copies of its lines, which may go.
pub fn foldable(g: &mut Random) -> Option<Vec<Line>> {
    let mut v = Variables::new(g);
    let base = part(g, &mut v, None)?;
    let mut lines = base.clone();
    let mut renamed = Vec::new();
    for _ in 0..g.between(2, 6).min(8 - base.len()) {
        if g.percent(40) {
            renamed.clear();
        }
        let line = &base[g.below(base.len())];
        lines.push(loosen(g, &mut v, line, &mut renamed)?);
    }
    g.shuffle(&mut lines);
    Some(lines)
}
