// Policies of 8 tables and 32 views, after section 7.2 of source document 000: a table has the owner of a row, a column that says
// what the owner is to the reader, and attributes.

use super::lines::{constant, hidden, line_text, shown, Line};
use super::random::Random;

pub const COLUMNS: [usize; 8] = [8, 3, 5, 7, 6, 4, 5, 8];

pub const USERS: usize = 1;
pub const FRIENDS: usize = 2;

// What the owner of a row is: the reader, a friend, or someone else.
pub const OWN: u64 = 0;
pub const OF_FRIEND: u64 = 1;
pub const OF_OTHER: u64 = 2;

// The rows of one kind, or of all, with some attributes shown and the others hidden.
fn view(table: usize, attributes: &[usize], whose: Option<u64>) -> Line {
    let mut terms = vec![shown(0), whose.map_or(shown(1), constant)];
    for c in 2..COLUMNS[table - 1] {
        let number = c as u64;
        terms.push(if attributes.contains(&c) {
            shown(number)
        } else {
            hidden(number)
        });
    }
    Line { table, terms }
}

fn some_of(g: &mut Random, items: &[usize], count: usize) -> Vec<usize> {
    let mut all = items.to_vec();
    g.shuffle(&mut all);
    all.truncate(count);
    all
}

// Eleven views of the users and three of each other table.
fn views(g: &mut Random) -> Vec<Line> {
    let mut views = Vec::new();
    let attributes: Vec<usize> = (2..8).collect();
    for k in 0..11 {
        let count = if k < 2 { 6 } else { g.between(1, 4) };
        let whose = [Some(OWN), Some(OF_FRIEND), None][k % 3];
        views.push(view(USERS, &some_of(g, &attributes, count), whose));
    }
    for table in 2..=8 {
        let all: Vec<usize> = (2..COLUMNS[table - 1]).collect();
        views.push(view(table, &all, Some(OWN)));
        views.push(view(table, &all, Some(OF_FRIEND)));
        let part = some_of(g, &all, (all.len() / 2).max(1));
        views.push(view(table, &part, None));
    }
    views
}

// The same tables and views for every number of partitions, each of which holds one half of the views to nearly all.
pub fn policy(seed: u64, partitions: usize) -> String {
    let mut text = String::from("table columns\n");
    for (i, columns) in COLUMNS.iter().enumerate() {
        text += &format!("{} {columns}\n", i + 1);
    }
    text += "view table terms\n";
    for (i, view) in views(&mut Random::new(seed)).iter().enumerate() {
        text += &format!("{} {}\n", i + 1, line_text(view));
    }
    text += "partition views\n";
    let mut g = Random::new(seed + partitions as u64);
    for k in 1..=partitions {
        text += &k.to_string();
        let held = g.between(50, 95);
        for v in 1..=32 {
            if g.percent(held) {
                text += &format!(" {v}");
            }
        }
        text.push('\n');
    }
    text
}
