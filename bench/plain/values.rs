// Policies and queries as values.

#[derive(Clone, Copy, Default, PartialEq)]
pub enum Mark {
    #[default]
    Unused,
    Constant,
    Shown,
    Hidden,
}

#[derive(Clone, Copy, Default, PartialEq)]
pub struct Term {
    pub mark: Mark,
    pub number: u64,
}

#[derive(Clone, Copy, Default)]
pub struct Line {
    pub table: usize,
    pub terms: [Term; 8],
}

#[derive(Default)]
pub struct Policy {
    pub table_count: usize,
    pub columns: [usize; 16],
    pub view_count: usize,
    pub views: [Line; 32],
    pub partition_count: usize,
    // bit n - 1: view n
    pub partitions: [u64; 32],
}

#[derive(Default)]
pub struct Query {
    pub count: usize,
    pub lines: [Line; 8],
}

// The number that turns a text back, and the line.
pub type Refusal = (u64, u64);
