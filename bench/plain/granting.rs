// The smallest extra grant, by trying every list of views in order, the shortest lists first.

use super::labelling::label_query;
use super::values::{Policy, Query};

// The first list of so many views from view `from` on, counted from 0, that leaves none of the words of views without one of its own.
fn first_list(words: &[u64], many: usize, from: usize, views: usize) -> Option<Vec<usize>> {
    if many == 0 {
        return words.is_empty().then(Vec::new);
    }
    (from..views).find_map(|v| {
        let left: Vec<u64> = words.iter().copied().filter(|w| w >> v & 1 == 0).collect();
        let mut list = first_list(&left, many - 1, v + 1, views)?;
        list.insert(0, v + 1);
        Some(list)
    })
}

// The views to add to partition n, or none where some label holds no view.
pub fn smallest_grant(p: &Policy, masks: &[u64; 17], n: usize, q: &Query) -> Option<Vec<usize>> {
    let granted = p.partitions[n - 1];
    let (labels, count) = label_query(p, masks, q);
    let words = labels[..count].iter().map(|label| label >> 32);
    let lacking: Vec<u64> = words.filter(|w| w & granted == 0).collect();
    if lacking.contains(&0) {
        return None;
    }
    (0..=lacking.len()).find_map(|many| first_list(&lacking, many, 0, p.view_count))
}
