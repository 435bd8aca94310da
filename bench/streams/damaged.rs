// Files that try all that a run can meet: policies and queries with repeated terms, and texts that are spoiled.

use super::lines::{constant, hidden, line_text, query_text, shown, Line, Term};
use super::random::Random;
use super::{files, File};

// How the terms of a query are chosen: variables are few, so that they repeat, and so many of a hundred terms are hidden ones.
struct Choice {
    variables: usize,
    hidden: usize,
}

fn choice(g: &mut Random) -> Choice {
    Choice {
        variables: g.one_of(&[2, 4, 8, 16]),
        hidden: g.one_of(&[30, 60, 95]),
    }
}

// Constants of which some differ by whole halves of a word.
const CONSTANTS: [u64; 4] = [0, 1, 1 << 32, u64::MAX];

// Low variables are shown and high ones hidden.
fn term(g: &mut Random, how: &Choice) -> Term {
    let number = g.below(how.variables) as u64;
    if g.percent(how.hidden) {
        hidden(63 - number)
    } else if g.percent(60) {
        shown(number)
    } else {
        constant(CONSTANTS[number as usize % 4])
    }
}

fn line(g: &mut Random, columns: &[usize], how: &Choice) -> Line {
    let table = g.between(1, columns.len());
    let terms = (0..columns[table - 1]).map(|_| term(g, how)).collect();
    Line { table, terms }
}

fn lines(g: &mut Random, columns: &[usize], count: usize) -> Vec<Line> {
    let how = choice(g);
    (0..count).map(|_| line(g, columns, &how)).collect()
}

// Lines that are mostly shown variables, few of them twice, so that they cover something.
fn views(g: &mut Random, columns: &[usize], count: usize) -> Vec<Line> {
    let mut views = lines(g, columns, count);
    for view in &mut views {
        for (c, t) in view.terms.iter_mut().enumerate() {
            if g.percent(75) {
                *t = shown(if g.percent(85) { 20 + c as u64 } else { 20 });
            }
        }
    }
    views
}

fn policy(g: &mut Random, columns: &[usize], damaged: bool) -> String {
    let mut text = String::from("table columns\n");
    for (i, c) in columns.iter().enumerate() {
        text += &format!("{} {c}\n", i + 1);
    }
    text += "view table terms\n";
    let count = g.one_of(&[1, 2, 4, 8, 16, 32]);
    let mut views = views(g, columns, count);
    if damaged {
        spoil_lines(g, columns, &mut views);
    }
    for (i, view) in views.iter().enumerate() {
        text += &format!("{} {}\n", i + 1, line_text(view));
    }
    text += "partition views\n";
    for k in 1..=g.between(1, 32) {
        text += &k.to_string();
        let held = g.one_of(&[30, 60, 90]);
        for v in 1..=count {
            if g.percent(held) {
                text += &format!(" {v}");
            }
        }
        text.push('\n');
    }
    text
}

const NUMBERS: [u64; 8] = [
    0,
    10,
    63,
    64,
    4_294_967_296,
    10_000_000_000,
    u64::MAX - 1,
    u64::MAX,
];

// Around the largest number of 64 bits, and around twenty digits.
const NUMERALS: [&[u8]; 6] = [
    b"9999999999999999999",
    b"18446744073709551615",
    b"18446744073709551616",
    b"18446744073709551617",
    b"99999999999999999999",
    b"100000000000000000000",
];

// A query with one thing wrong in its lines, or at a limit.
fn spoil_lines(g: &mut Random, columns: &[usize], q: &mut Vec<Line>) {
    let i = g.below(q.len());
    let k = g.below(q[i].terms.len());
    let other = g.below(q.len());
    let copied = q[other].terms[0];
    match g.below(8) {
        0 => q[i].table = g.one_of(&[0, 1, 15, 16, 17, 100, columns.len() + 1]),
        1 => q[i].terms[k].number = g.one_of(&NUMBERS),
        2 => q[i].terms[k].mark = g.one_of(&['!', '?', '#', '$', ' ', '7']),
        3 => drop(q[i].terms.pop()),
        4 => q[i].terms.clear(),
        5 => q[i].terms.push(copied),
        // A variable with both marks.
        6 => {
            q[i].terms[k] = Term {
                mark: if copied.mark == '!' { '?' } else { '!' },
                number: copied.number & 63,
            }
        }
        _ => {
            let count = g.one_of(&[0, 8, 9, 10]);
            *q = lines(g, columns, count);
        }
    }
}

// A text with one byte or more changed, put in or left out.
fn spoil_bytes(g: &mut Random, text: &mut Vec<u8>) {
    let at = g.below(text.len());
    let byte = g.one_of(b"0019 #!?\n\n\rt\0\xff");
    match g.below(8) {
        0 => text[at] = byte,
        1 => text.insert(at, byte),
        2 => drop(text.remove(at)),
        3 => text.truncate(at),
        4 => drop(text.pop()),
        // Without the names line.
        5 => drop(text.drain(..12.min(text.len()))),
        // A numeral in place of a byte.
        6 => drop(text.splice(at..=at, g.one_of(&NUMERALS).iter().copied())),
        // Too long for a query or a policy, or just not.
        _ => {
            let end = g.one_of(&[4095, 4096, 16_383, 16_384]);
            text.resize(end.max(text.len()), b'1');
            text.push(b'\n');
        }
    }
}

fn damaged_query(g: &mut Random, columns: &[usize]) -> Vec<u8> {
    let count = g.between(1, 8);
    let mut q = lines(g, columns, count);
    let damage = g.below(3);
    if damage == 1 {
        spoil_lines(g, columns, &mut q);
    }
    let mut text = query_text(&q).into_bytes();
    if damage == 2 {
        spoil_bytes(g, &mut text);
    }
    text
}

// A file of so many queries, two of three of them damaged, under a policy of which one of three is damaged as well.
fn damaged_file(g: &mut Random, count: usize) -> Vec<File> {
    let tables = g.one_of(&[1, 1, 2, 3, 16]);
    let columns: Vec<usize> = (0..tables).map(|_| g.between(1, 8)).collect();
    let damage = g.below(6);
    let mut policy = policy(g, &columns, damage == 0).into_bytes();
    if damage == 1 {
        spoil_bytes(g, &mut policy);
    }
    let texts: Vec<Vec<u8>> = (0..count).map(|_| damaged_query(g, &columns)).collect();
    files(&policy, texts.into_iter())
}

pub fn damaged_files(seed: u64, count: usize, queries: usize) -> Vec<File> {
    let mut g = Random::new(seed);
    (0..count)
        .flat_map(|_| damaged_file(&mut g, queries))
        .collect()
}
