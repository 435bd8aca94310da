// Queries that make the search for maps long: hidden variables in up to eight lines of one table of eight columns.

use super::lines::{constant, hidden, Line};
use super::policies::USERS;
use super::random::Random;

type Edge = (usize, usize);

fn line(numbers: impl IntoIterator<Item = usize>) -> Line {
    let terms = numbers.into_iter().map(|n| hidden(n as u64)).collect();
    let table = USERS;
    Line { table, terms }
}

// Lines that share one variable each with a last one, the hub. Nothing fails before the hub is reached.
pub fn star(arms: usize) -> Vec<Line> {
    let arm = |k| line([k].into_iter().chain(7 + 7 * k..14 + 7 * k));
    let mut lines: Vec<Line> = (0..arms).map(arm).collect();
    let mut hub = vec![constant(1)];
    hub.extend((0..arms).map(|k| hidden(k as u64)));
    hub.resize(8, constant(0));
    lines.push(Line {
        table: USERS,
        terms: hub,
    });
    lines
}

// Edges as lines: the ends in the first two columns, in the others variables of their own while they last, or one constant.
fn graph(edges: &[Edge], private: bool) -> Vec<Line> {
    let mut free = edges.iter().map(|e| e.0.max(e.1)).max().unwrap_or(0) + 1;
    let mut lines = Vec::new();
    for &(a, b) in edges {
        let mut l = line([a, b]);
        while l.terms.len() < 8 {
            if private && free < 64 {
                l.terms.push(hidden(free as u64));
                free += 1;
            } else {
                l.terms.push(constant(0));
            }
        }
        lines.push(l);
    }
    lines
}

fn cycle(start: usize, length: usize) -> impl Iterator<Item = Edge> {
    (0..length).map(move |i| (start + i, start + (i + 1) % length))
}

fn random_graph(g: &mut Random) -> Vec<Edge> {
    let ends = g.between(3, 7);
    let mut edges = Vec::new();
    while edges.len() < 8.min(ends * (ends - 1)) {
        let e = (g.below(ends), g.below(ends));
        if e.0 != e.1 && !edges.contains(&e) {
            edges.push(e);
        }
    }
    edges
}

// One directed cycle, or two, of which one may go into the other.
fn cycles(g: &mut Random) -> Vec<Edge> {
    let n = g.one_of(&[8, 7, 5, 4, 3]);
    let mut edges: Vec<Edge> = cycle(0, n).collect();
    if n < 7 {
        edges.extend(cycle(n, 8 - n));
    }
    edges
}

// A cycle of four in both directions.
fn square() -> Vec<Edge> {
    cycle(0, 4).flat_map(|(a, b)| [(a, b), (b, a)]).collect()
}

fn either_way(g: &mut Random, a: usize, b: usize) -> Edge {
    if g.percent(50) {
        (a, b)
    } else {
        (b, a)
    }
}

// Four ends, each joined with each, and two edges more.
fn clique(g: &mut Random) -> Vec<Edge> {
    let mut edges = Vec::new();
    for i in 0..4 {
        for j in 0..i {
            edges.push(either_way(g, i, j));
        }
    }
    edges.push((g.below(4), 4));
    edges.push((4, g.below(4)));
    edges
}

fn tree(g: &mut Random) -> Vec<Edge> {
    let mut edges = Vec::new();
    for end in 1..9_usize {
        let other = g.between(end.saturating_sub(3), end - 1);
        edges.push(either_way(g, other, end));
    }
    edges
}

// Lines over few variables.
fn dense(g: &mut Random) -> Vec<Line> {
    let variables = g.one_of(&[4, 6, 8, 12, 20]);
    let mut any = || line((0..8).map(|_| g.below(variables)));
    (0..8).map(|_| any()).collect()
}

// A star with one line more, which may go.
fn loose_star(g: &mut Random) -> Vec<Line> {
    let mut lines = star(g.one_of(&[3, 4, 5]));
    let hub = lines.len() - 1;
    lines.insert(hub, line([60, 61, 61, 61, 61, 61, 61, 61]));
    lines
}

// A star with the hub first or last, or anywhere.
fn turned_star(g: &mut Random) -> Vec<Line> {
    let mut lines = star(g.one_of(&[4, 4, 5, 5, 6, 7]));
    if g.percent(50) {
        lines.rotate_right(1);
    }
    if g.percent(50) {
        g.shuffle(&mut lines);
    }
    lines
}

pub fn hard(g: &mut Random) -> Option<Vec<Line>> {
    let private = g.percent(50);
    let mut lines = match g.below(8) {
        0 => graph(&random_graph(g), private),
        1 => graph(&cycles(g), false),
        2 => graph(&square(), private),
        3 => graph(&clique(g), false),
        4 => dense(g),
        5 => graph(&tree(g), true),
        6 => return Some(loose_star(g)),
        _ => return Some(turned_star(g)),
    };
    g.shuffle(&mut lines);
    Some(lines)
}
