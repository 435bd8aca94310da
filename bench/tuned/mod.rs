// The desk tuned by hand: 64-bit words, no SIMD and no unsafe code. A query is read in one pass over its bytes; a line is one word
// with a byte for each term; the search for maps of lines is a problem of 8 by 8 bits in one word; a line's views are found by
// masks of views for each column. It shares nothing with the straightforward desk.

mod faults;
mod fields;
mod labelling;
mod loading;
mod maps;
mod policy;
mod query;
mod reducing;
mod running;
mod scanning;
mod writing;

pub use running::run;

// A byte in each of the eight places of a word.
const ONES: u64 = 0x0101_0101_0101_0101;

// The high bit of each byte.
const HIGH: u64 = 0x8080_8080_8080_8080;

// Bit p of byte p.
const DIAGONAL: u64 = 0x8040_2010_0804_0201;

// Bit p to byte p, as 0 or 255.
#[inline(always)]
fn spread(bits: u8) -> u64 {
    let x = (bits as u64).wrapping_mul(ONES) & DIAGONAL;
    ((x | x.wrapping_add(!HIGH)) & HIGH) / 128 * 255
}

// Bit 8 p + q: byte p of a equals byte q of b.
#[inline(always)]
fn equal_bytes(a: u64, b: u64) -> u64 {
    let mut m = 0;
    for p in 0..8 {
        let x = b ^ (a >> (8 * p) & 255).wrapping_mul(ONES);
        // The high bit of each byte that is 0 in x, then these eight bits side by side.
        let z = !((x & !HIGH).wrapping_add(!HIGH) | x) & HIGH;
        m |= ((z >> 7).wrapping_mul(0x0102_0408_1020_4080) >> 56) << (8 * p);
    }
    m
}
