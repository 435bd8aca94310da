// The fields of a line, read from left to right. None always means that the line is malformed.

pub const CONSTANT_MARK: u8 = b'#';
pub const SHOWN_MARK: u8 = b'!';
pub const HIDDEN_MARK: u8 = b'?';

// What is left of a line.
pub struct Fields<'a> {
    rest: &'a [u8],
}

impl<'a> Fields<'a> {
    pub fn of(line: &'a [u8]) -> Fields<'a> {
        Fields { rest: line }
    }

    pub fn at_end(&self) -> bool {
        self.rest.is_empty()
    }

    fn byte(&mut self) -> Option<u8> {
        let (&b, rest) = self.rest.split_first()?;
        self.rest = rest;
        Some(b)
    }

    pub fn space(&mut self) -> Option<()> {
        (self.byte()? == b' ').then_some(())
    }

    // A numeral, up to the byte that is no digit. Twenty digits may stand for more than 64 bits hold.
    pub fn numeral(&mut self) -> Option<u128> {
        let (mut value, mut n) = (0, 0);
        while let Some(d) = self.rest.get(n).map(|b| b.wrapping_sub(b'0')) {
            if 9 < d {
                break;
            }
            if n == 20 {
                return None;
            }
            value = value * 10 + u128::from(d);
            n += 1;
        }
        if n == 0 || (1 < n && self.rest[0] == b'0') {
            return None;
        }
        self.rest = &self.rest[n..];
        Some(value)
    }

    // A table and its terms, up to the end of the line.
    pub fn row(&mut self) -> Option<Row> {
        let table = self.numeral()?;
        let mut row = Row {
            table: table as usize,
            outside: table == 0 || 16 < table,
            ..Row::default()
        };
        while row.count == 0 || !self.at_end() {
            self.space()?;
            let mark = self.byte()?;
            row.add(mark, self.numeral()?)?;
        }
        Some(row)
    }
}

// The terms of a line, of which more than eight are counted but not kept.
#[derive(Clone, Copy, Default)]
pub struct Row {
    pub table: usize,
    pub count: usize,
    pub marks: [u8; 8],
    pub numbers: [u64; 8],
    // some number is outside its limits
    pub outside: bool,
    pub shown: u64,
    pub hidden: u64,
}

impl Row {
    fn add(&mut self, mark: u8, number: u128) -> Option<()> {
        if self.count < 8 {
            self.marks[self.count] = mark;
            self.numbers[self.count] = number as u64;
        }
        self.count += 1;
        match mark {
            CONSTANT_MARK => self.outside |= u64::try_from(number).is_err(),
            SHOWN_MARK | HIDDEN_MARK if 63 < number => self.outside = true,
            SHOWN_MARK => self.shown |= 1 << number,
            HIDDEN_MARK => self.hidden |= 1 << number,
            _ => return None,
        }
        Some(())
    }
}
