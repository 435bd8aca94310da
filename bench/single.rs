// One operation at a time, again and again: by the proved code, and by the straightforward reference where that has it.

use crate::plain::{self, Reply};
use crate::rattle;
use crate::texts::POLICY;
use std::hint::black_box;
use std::time::Instant;

// Something done so many times with a text: the sum of what it gives.
pub type Work = fn(text: &str, times: u64) -> u64;

pub fn label_in_rattle(query: &str, times: u64) -> u64 {
    rattle::label(POLICY, query, times)
}

pub fn label_in_plain(query: &str, times: u64) -> u64 {
    let p = plain::load(POLICY.as_bytes()).expect("a policy");
    let masks = plain::table_views(&p);
    let q = plain::read_query(&p, query.as_bytes()).expect("a query");
    let mut sum: u64 = 0;
    for _ in 0..times {
        for word in plain::label_query(black_box(&p), black_box(&masks), black_box(&q)).0 {
            sum = sum.wrapping_add(word);
        }
    }
    sum
}

pub fn decide_in_rattle(query: &str, times: u64) -> u64 {
    rattle::decide(POLICY, query, times)
}

// The number that crate measure has for a reply that leaves so many partitions open.
fn number_of(r: Reply, count: u32) -> u64 {
    match r {
        Reply::Yes => u64::from(count),
        Reply::No => 100 + u64::from(count),
        Reply::Refused((number, _)) => 1000 + number,
    }
}

pub fn decide_in_plain(query: &str, times: u64) -> u64 {
    let p = plain::load(POLICY.as_bytes()).expect("a policy");
    let masks = plain::table_views(&p);
    let open = (1 << p.partition_count) - 1;
    let mut sum: u64 = 0;
    for _ in 0..times {
        let (p, masks, text) = (
            black_box(&p),
            black_box(&masks),
            black_box(query.as_bytes()),
        );
        let (reply, left) = plain::decide(p, masks, open, text);
        sum = sum.wrapping_add(number_of(reply, left.count_ones()));
    }
    sum
}

// The partition that wants the views.
const PARTITION: u8 = 1;

pub fn grant_in_rattle(query: &str, times: u64) -> u64 {
    rattle::grant(POLICY, u64::from(PARTITION), query, times)
}

pub fn grant_in_plain(query: &str, times: u64) -> u64 {
    let p = plain::load(POLICY.as_bytes()).expect("a policy");
    let masks = plain::table_views(&p);
    let mut sum: u64 = 0;
    for _ in 0..times {
        let (p, text) = (black_box(&p), black_box(query.as_bytes()));
        let q = plain::read_query(p, text).expect("a query");
        let list = plain::smallest_grant(p, &masks, usize::from(PARTITION), &q);
        let number = list.map_or(100, |views| 1 + views.len() + views.iter().sum::<usize>());
        sum = sum.wrapping_add(number as u64);
    }
    sum
}

// The check of a policy, which refusal 8 asks of every public operation.
pub fn check_in_rattle(policy: &str, times: u64) -> u64 {
    rattle::check(policy, times)
}

// A text, what is done with it, and the least nanoseconds that each work took.
pub struct Case {
    pub name: &'static str,
    text: String,
    works: Vec<Work>,
    times: u64,
    pub least: Vec<f64>,
}

fn timed(work: Work, text: &str, times: u64) -> (u64, f64) {
    let began = Instant::now();
    let sum = work(text, times);
    (sum, began.elapsed().as_nanos() as f64)
}

// So many times that a run takes 5 ms or more: reading the texts once is some 50 µs of it. An odd number, by which no bit of the
// sum of one time is lost modulo 2^64.
fn times_for(work: Work, text: &str) -> u64 {
    let mut times = 1;
    while timed(work, text, times).1 < 5e6 {
        times = times * 2 + 1;
    }
    times
}

pub fn case(name: &'static str, text: &str, works: &[Work]) -> Case {
    Case {
        name,
        text: text.to_string(),
        works: works.to_vec(),
        times: times_for(works[0], text),
        least: vec![f64::MAX; works.len()],
    }
}

// One round more. All works have to give the same.
pub fn measure(c: &mut Case) {
    let mut first = None;
    for (k, work) in c.works.iter().enumerate() {
        let (sum, nanoseconds) = timed(*work, &c.text, c.times);
        assert!(
            sum != 0 && *first.get_or_insert(sum) == sum,
            "{}: Rattle and plain Rust differ",
            c.name
        );
        c.least[k] = c.least[k].min(nanoseconds / c.times as f64);
    }
}
