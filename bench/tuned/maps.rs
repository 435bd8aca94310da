// The search for a map of lines. A state has for each line the lines that it may still be sent to: bit 8 a + b stands for line a sent
// to line b.

use super::query::Query;
use super::{equal_bytes, spread, HIGH, ONES};

pub struct Maps {
    count: usize,
    // bit 8 p + q: column p of the one line and column q of the other have the same term; in `bound`, the same hidden variable
    pub same: [[u64; 8]; 8],
    pub bound: [[u64; 8]; 8],
    // the states that go with a sent to b, made when they are first asked for
    supports: [[u64; 8]; 8],
    known: [u8; 8],
    // the steps of the search so far, and the number up to which it goes without looking ahead
    steps: u64,
    calm: u64,
}

// Some byte of the word is 0.
#[inline(always)]
fn has_zero(word: u64) -> bool {
    word.wrapping_sub(ONES) & !word & HIGH != 0
}

#[inline(always)]
fn row(state: u64, a: usize) -> u8 {
    (state >> (8 * a)) as u8
}

impl Maps {
    pub fn of(q: &Query) -> Maps {
        let mut m = Maps {
            count: q.count.min(8),
            same: [[0; 8]; 8],
            bound: [[0; 8]; 8],
            supports: [[0; 8]; 8],
            known: [0; 8],
            steps: 0,
            calm: 0,
        };
        for a in 0..m.count {
            let hidden = spread(q.hidden_columns[a]);
            for b in 0..m.count {
                m.same[a][b] = equal_bytes(q.words[a], q.words[b]);
                m.bound[a][b] = m.same[a][b] & hidden;
            }
        }
        m
    }

    // What is left of a state when a is sent to b.
    #[inline(always)]
    pub fn support(&mut self, a: usize, b: usize) -> u64 {
        if self.known[a] >> b & 1 == 1 {
            return self.supports[a][b];
        }
        self.make_support(a, b)
    }

    #[inline(never)]
    fn make_support(&mut self, a: usize, b: usize) -> u64 {
        let mut w = !0;
        for c in 0..self.count {
            let bound = self.bound[a][c];
            if c == a || bound == 0 {
                continue;
            }
            let mut targets = 0;
            for d in 0..8 {
                targets |= u64::from(bound & !self.same[b][d] == 0) << d;
            }
            w &= !(255 << (8 * c)) | targets << (8 * c);
        }
        w = w & !(255 << (8 * a)) | 1 << (8 * a + b);
        self.supports[a][b] = w;
        self.known[a] |= 1 << b;
        w
    }

    // The state without the pairs that leave some open line without a target, or None where a line has no pair left.
    #[inline(never)]
    fn look_ahead(&mut self, mut state: u64, open: u8) -> Option<u64> {
        let others = !spread(open);
        loop {
            let before = state;
            let mut lines = open;
            while lines != 0 {
                let a = lines.trailing_zeros() as usize & 7;
                lines &= lines - 1;
                let mut targets = row(state, a);
                while targets != 0 {
                    let b = targets.trailing_zeros() as usize & 7;
                    targets &= targets - 1;
                    self.steps += 1;
                    if has_zero(state & self.support(a, b) | others) {
                        state &= !(1 << (8 * a + b));
                    }
                }
                if row(state, a) == 0 {
                    return None;
                }
            }
            if state == before {
                return Some(state);
            }
        }
    }

    // A map of the open lines within the state, as the state in which each has one target. From so many steps on it looks ahead.
    pub fn find(&mut self, state: u64, open: u8) -> Option<u64> {
        self.calm = self.steps + 12;
        self.search(state, open)
    }

    fn search(&mut self, mut state: u64, mut open: u8) -> Option<u64> {
        loop {
            self.steps += 1;
            if has_zero(state | !spread(open)) {
                return None;
            }
            if open == 0 {
                return Some(state);
            }
            let (a, targets) = fewest(state, open);
            if targets == 1 {
                open &= !(1 << a);
                state &= self.support(a, row(state, a).trailing_zeros() as usize & 7);
                continue;
            }
            if self.calm < self.steps {
                let ahead = self.look_ahead(state, open)?;
                self.calm = self.steps;
                if ahead != state {
                    state = ahead;
                    continue;
                }
            }
            open &= !(1 << a);
            match self.branch(state, open, a) {
                Ok(found) => return Some(found),
                Err(last) => state = last,
            }
        }
    }

    // Line a sent to each of its targets but the last, itself first: a map, or the state with a sent to the last one.
    #[inline(always)]
    fn branch(&mut self, state: u64, open: u8, a: usize) -> Result<u64, u64> {
        let mut targets = row(state, a);
        let mut b = if targets >> a & 1 == 1 {
            a
        } else {
            targets.trailing_zeros() as usize & 7
        };
        loop {
            targets &= !(1 << b);
            let left = state & self.support(a, b);
            if targets == 0 {
                return Err(left);
            }
            if let Some(found) = self.search(left, open) {
                return Ok(found);
            }
            b = targets.trailing_zeros() as usize & 7;
        }
    }
}

// The open line with the fewest targets, and their number.
#[inline(always)]
fn fewest(state: u64, open: u8) -> (usize, u32) {
    let (mut line, mut fewest, mut rest) = (0, 9, open);
    while rest != 0 {
        let a = rest.trailing_zeros() as usize & 7;
        rest &= rest - 1;
        let targets = row(state, a).count_ones();
        if targets < fewest {
            (line, fewest) = (a, targets);
            if targets == 1 {
                break;
            }
        }
    }
    (line, fewest)
}
