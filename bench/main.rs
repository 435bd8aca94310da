// The time of the proved Rattle code, linked as a static library, against two references in Rust: a straightforward desk and one
// tuned by hand. `bench/run` builds and runs it; README.md says what is measured.

#[forbid(unsafe_code)]
mod plain;
mod rattle;
mod single;
mod streams;
mod tables;
mod texts;
#[forbid(unsafe_code)]
mod tuned;
mod whole;

use single::{check_in_rattle, decide_in_plain, decide_in_rattle};
use single::{grant_in_plain, grant_in_rattle, label_in_plain, label_in_rattle};
use streams::{damaged_files, files, full_files, policy, streams, Stream};
use texts::{GRANTED, POLICY, QUERIES};
use whole::Buffers;

// What is measured, with the least times so far.
struct Measured {
    streams: Vec<whole::Case>,
    full: Vec<whole::Case>,
    worst: Vec<whole::Case>,
    labelled: Vec<single::Case>,
    decided: Vec<single::Case>,
    granted: Vec<single::Case>,
    checked: single::Case,
}

// The queries whose search is longest are the last four.
const WORST: usize = QUERIES.len() - 4;

// One query again and again in one session.
fn repeated(name: &'static str, lines: &str) -> Stream {
    let text = query(lines).into_bytes();
    let queries = 50;
    Stream {
        name,
        partitions: 2,
        queries,
        files: files(POLICY.as_bytes(), std::iter::repeat_n(text, queries)),
    }
}

fn query(lines: &str) -> String {
    format!("table terms\n{lines}")
}

fn prepare(seeds: &[u64], b: &mut Buffers) -> Measured {
    let mut whole = |s: Stream| whole::case(s, b);
    let few = streams(5, seeds).into_iter();
    let many = streams(32, seeds).into_iter();
    let label = [label_in_rattle, label_in_plain];
    let decide = [decide_in_rattle, decide_in_plain];
    let grant = [grant_in_rattle, grant_in_plain];
    let single = |q: &(&'static str, &str), works| single::case(q.0, &query(q.1), works);
    Measured {
        streams: few.chain(many).map(&mut whole).collect(),
        full: full_files().into_iter().map(&mut whole).collect(),
        worst: QUERIES[WORST..]
            .iter()
            .map(|q| whole(repeated(q.0, q.1)))
            .collect(),
        labelled: QUERIES.iter().map(|q| single(q, &label)).collect(),
        decided: QUERIES.iter().map(|q| single(q, &decide)).collect(),
        granted: GRANTED.iter().map(|q| single(q, &grant)).collect(),
        checked: single::case("checked", &policy(seeds[0], 32), &[check_in_rattle]),
    }
}

// A round measures everything once, so that what else the machine does for a second falls on all.
fn round(m: &mut Measured, b: &mut Buffers) {
    let files = m.streams.iter_mut().chain(&mut m.full);
    for c in files.chain(&mut m.worst) {
        whole::measure(c, b);
    }
    let operations = m.labelled.iter_mut().chain(&mut m.decided);
    for c in operations.chain(&mut m.granted) {
        single::measure(c);
    }
    single::measure(&mut m.checked);
}

// The rounds and the seeds, of which there are three if none is given.
fn arguments() -> Option<(usize, Vec<u64>)> {
    let mut rounds = 40;
    let mut seeds = Vec::new();
    let mut words = std::env::args().skip(1);
    while let Some(word) = words.next() {
        if word == "--rounds" {
            rounds = words.next()?.parse().ok()?;
        } else {
            seeds.push(word.parse().ok()?);
        }
    }
    if seeds.is_empty() {
        seeds = vec![1, 2, 3];
    }
    Some((rounds, seeds))
}

fn main() {
    let Some((rounds, seeds)) = arguments() else {
        eprintln!("usage: bench/run [--write] [--rounds N] [SEED..]");
        std::process::exit(2);
    };
    let mut b = Buffers::new();
    for &seed in &seeds {
        whole::compare(&damaged_files(seed, 1000, 20), &mut b);
    }
    let mut m = prepare(&seeds, &mut b);
    for _ in 0..rounds {
        round(&mut m, &mut b);
    }
    tables::print_streams(&m.streams);
    tables::print_full(&m.full);
    tables::print_worst(&m.worst);
    tables::print_single(&m.labelled, &m.decided);
    tables::print_granted(&m.granted);
    tables::print_check(&m.checked);
}
