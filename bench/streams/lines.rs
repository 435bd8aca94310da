// Lines of queries and of views, and their texts.

use super::random::Random;

#[derive(Clone, Copy, PartialEq)]
pub struct Term {
    pub mark: char,
    pub number: u64,
}

#[derive(Clone)]
pub struct Line {
    pub table: usize,
    pub terms: Vec<Term>,
}

pub fn constant(number: u64) -> Term {
    Term { mark: '#', number }
}

pub fn shown(number: u64) -> Term {
    Term { mark: '!', number }
}

pub fn hidden(number: u64) -> Term {
    Term { mark: '?', number }
}

pub fn line_text(line: &Line) -> String {
    let mut text = line.table.to_string();
    for t in &line.terms {
        text += &format!(" {}{}", t.mark, t.number);
    }
    text
}

pub fn query_text(lines: &[Line]) -> String {
    let mut text = String::from("table terms\n");
    for line in lines {
        text += &line_text(line);
        text.push('\n');
    }
    text
}

// The variables that a query has not used yet, in any order.
pub struct Variables {
    pub free: Vec<u64>,
}

impl Variables {
    pub fn new(g: &mut Random) -> Variables {
        let mut free: Vec<u64> = (0..64).collect();
        g.shuffle(&mut free);
        Variables { free }
    }

    pub fn fresh(&mut self, mark: char) -> Option<Term> {
        let number = self.free.pop()?;
        Some(Term { mark, number })
    }
}
