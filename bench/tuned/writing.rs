// Writing the lines of the output.

// A buffer with room for all that is written, and the place of the next byte.
pub struct Output<'a> {
    bytes: &'a mut [u8],
    pub at: usize,
}

impl<'a> Output<'a> {
    pub fn to(bytes: &'a mut [u8]) -> Output<'a> {
        Output { bytes, at: 0 }
    }

    #[inline(always)]
    pub fn put<const N: usize>(&mut self, bytes: &[u8; N]) {
        self.bytes[self.at..self.at + N].copy_from_slice(bytes);
        self.at += N;
    }

    #[inline(always)]
    pub fn put_number(&mut self, n: u32) {
        let (mut digits, mut at, mut rest) = ([b'0'; 10], 10, n);
        loop {
            at -= 1;
            digits[at] = b'0' + (rest % 10) as u8;
            rest /= 10;
            if rest == 0 {
                break;
            }
        }
        for &d in &digits[at..] {
            self.bytes[self.at] = d;
            self.at += 1;
        }
    }

    // The line of a query that is refused.
    pub fn put_refusal(&mut self, query: u32, open: u32, refusal: (u32, u32)) {
        self.put_number(query);
        self.put(b" refused ");
        self.put_number(open);
        self.put(b" ");
        self.put_number(refusal.0);
        self.put(b" ");
        self.put_number(refusal.1);
        self.put(b"\n");
    }

    // The line of a query that is answered.
    #[inline(always)]
    pub fn put_answer(&mut self, query: u32, yes: bool, open: u32) {
        self.put_number(query);
        if yes {
            self.put(b" yes ");
        } else {
            self.put(b" no ");
        }
        self.put_number(open);
        self.put(b" 0 0\n");
    }
}
