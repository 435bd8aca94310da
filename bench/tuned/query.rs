// A query as words. A term is a byte: a shown variable its number, a constant 64 and its place among the query's constants, a
// hidden variable 128 and its number. A column that the table lacks is 0: it is like a shown variable, but it is compared with such
// columns only, or with hidden variables.

pub const CONSTANT: u64 = 0x40;
pub const HIDDEN: u64 = 0x80;

// One is lent for a whole run: only what is below the counts means anything.
pub struct Query {
    pub count: usize,
    pub words: [u64; 8],
    pub tables: [u8; 8],
    // bit n: hidden variable n stands in the line
    pub hidden: [u64; 8],
    // bit c: a hidden variable stands in column c
    pub hidden_columns: [u8; 8],
    // bit i: some term stands twice in line i
    pub repeats: u8,
    pub constant_count: usize,
    pub constants: [u64; 64],
}

impl Query {
    pub fn new() -> Query {
        Query {
            count: 0,
            words: [0; 8],
            tables: [0; 8],
            hidden: [0; 8],
            hidden_columns: [0; 8],
            repeats: 0,
            constant_count: 0,
            constants: [0; 64],
        }
    }

    // The place of a constant among those of the query.
    #[inline(always)]
    pub fn place(&mut self, value: u64) -> u64 {
        let n = self.constant_count & 63;
        for k in 0..n {
            if self.constants[k] == value {
                return k as u64;
            }
        }
        self.constants[n] = value;
        self.constant_count = n + 1;
        n as u64
    }
}
