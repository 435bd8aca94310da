// Deciding a query text in a session under a loaded policy.

use super::labelling::label_query;
use super::reading::read_query;
use super::values::{Policy, Refusal};

pub enum Reply {
    Yes,
    No,
    Refused(Refusal),
}

fn settles(words: &[u64], partition: u64) -> bool {
    words.iter().all(|w| (w >> 32) & partition != 0)
}

// The open partitions that settle a query with these labels.
fn settling(p: &Policy, open: u64, words: &[u64]) -> u64 {
    let mut left = 0;
    for i in 0..p.partition_count {
        let on = open >> i & 1 == 1 && settles(words, p.partitions[i]);
        left |= u64::from(on) << i;
    }
    left
}

// The reply, and the partitions that it leaves open.
pub fn decide(p: &Policy, masks: &[u64; 17], open: u64, text: &[u8]) -> (Reply, u64) {
    let q = match read_query(p, text) {
        Err(refusal) => return (Reply::Refused(refusal), open),
        Ok(q) => q,
    };
    let (words, count) = label_query(p, masks, &q);
    match settling(p, open, &words[..count]) {
        0 => (Reply::No, open),
        left => (Reply::Yes, left),
    }
}
