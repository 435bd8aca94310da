// Policies and streams of queries, generated.

mod asked;
mod damaged;
mod full;
mod hard;
mod lines;
mod policies;
mod random;

use lines::{query_text, Line};
use random::Random;

pub use damaged::damaged_files;
pub use full::full_files;
pub use policies::policy;

// The most bytes of queries in a run.
pub const MOST_QUERIES: usize = 65_536;

// What a run gets.
pub struct File {
    pub policy: Vec<u8>,
    pub queries: Vec<u8>,
}

pub struct Stream {
    pub name: &'static str,
    pub partitions: usize,
    pub queries: usize,
    pub files: Vec<File>,
}

// A query, or None where the generator has run out of variables.
type Make = fn(&mut Random) -> Option<Vec<Line>>;

// Each kind of query, and how many of it a seed gives: a round over all takes some 0.2 s for three seeds.
const KINDS: [(&str, Make, usize); 4] = [
    ("simple", asked::simple, 4000),
    ("complex", asked::complex, 1400),
    ("foldable", asked::foldable, 1000),
    ("hard", hard::hard, 400),
];

// Texts one behind the other in as few files as hold them.
pub fn files(policy: &[u8], texts: impl Iterator<Item = Vec<u8>>) -> Vec<File> {
    let mut files: Vec<File> = Vec::new();
    for text in texts {
        match files.last_mut() {
            Some(f) if f.queries.len() + text.len() <= MOST_QUERIES => f.queries.extend(text),
            _ => files.push(File {
                policy: policy.to_vec(),
                queries: text,
            }),
        }
    }
    files
}

fn stream(
    name: &'static str,
    make: Make,
    count: usize,
    partitions: usize,
    seeds: &[u64],
) -> Stream {
    let mut s = Stream {
        name,
        partitions,
        queries: count * seeds.len(),
        files: Vec::new(),
    };
    for &seed in seeds {
        let mut g = Random::new(seed);
        let texts = std::iter::from_fn(|| Some(make(&mut g)))
            .flatten()
            .map(|lines| query_text(&lines).into_bytes())
            .take(count);
        s.files
            .extend(files(policy(seed, partitions).as_bytes(), texts));
    }
    s
}

// All kinds of queries under policies of this many partitions.
pub fn streams(partitions: usize, seeds: &[u64]) -> Vec<Stream> {
    KINDS
        .iter()
        .map(|&(name, make, count)| stream(name, make, count, partitions, seeds))
        .collect()
}
