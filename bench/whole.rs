// Whole runs over files in memory, by the proved code and by the two references.

use crate::streams::{File, Stream};
use crate::{plain, rattle, tuned};
use std::hint::black_box;
use std::time::Instant;

// From a policy and queries to the output and its length.
type Run = fn(&[u8], &[u8], &mut [u8]) -> usize;

// In the order of the columns of the tables.
const RUNS: [(&str, Run); 3] = [
    ("Rattle", rattle::run),
    ("plain", plain::run),
    ("tuned", tuned::run),
];

// Room for the longest output of a run.
const MOST_OUTPUT: usize = 524_288;

pub struct Buffers {
    ours: Vec<u8>,
    theirs: Vec<u8>,
}

impl Buffers {
    pub fn new() -> Buffers {
        Buffers {
            ours: vec![0; MOST_OUTPUT],
            theirs: vec![0; MOST_OUTPUT],
        }
    }
}

// Stops the benchmark where one of the references does not write what the proved code writes.
pub fn compare(files: &[File], b: &mut Buffers) {
    for f in files {
        let n = rattle::run(&f.policy, &f.queries, &mut b.ours);
        assert!(n != 0, "nothing is written");
        for (name, run) in &RUNS[1..] {
            let m = run(&f.policy, &f.queries, &mut b.theirs);
            assert!(
                b.ours[..n] == b.theirs[..m],
                "{name} differs under\n{}for\n{}",
                String::from_utf8_lossy(&f.policy),
                String::from_utf8_lossy(&f.queries)
            );
        }
    }
}

// A stream, and the least nanoseconds a query that each took.
pub struct Case {
    pub stream: Stream,
    pub least: [f64; 3],
}

pub fn case(stream: Stream, b: &mut Buffers) -> Case {
    compare(&stream.files, b);
    Case {
        stream,
        least: [f64::MAX; 3],
    }
}

// One round more.
pub fn measure(c: &mut Case, b: &mut Buffers) {
    for (k, (_, run)) in RUNS.iter().enumerate() {
        let began = Instant::now();
        for f in &c.stream.files {
            black_box(run(&f.policy, &f.queries, &mut b.ours));
        }
        let nanoseconds = began.elapsed().as_nanos() as f64;
        c.least[k] = c.least[k].min(nanoseconds / c.stream.queries as f64);
    }
}
