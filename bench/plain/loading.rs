// Loading a policy text: the policy, or what turns it back.

use super::numerals::{fields, read_numeral, read_row, split_line};
use super::values::{Policy, Refusal};

// A line reader: the text from the next line on, and that line's number.
struct Reader<'a> {
    rest: &'a [u8],
    next: u64,
}

impl<'a> Reader<'a> {
    fn refuse<T>(&self, number: u64) -> Result<T, Refusal> {
        Err((number, self.next))
    }

    fn line(&self) -> Result<&'a [u8], Refusal> {
        match split_line(self.rest) {
            Some((line, _)) => Ok(line),
            None => self.refuse(1),
        }
    }

    fn pass(&mut self) {
        if let Some((_, rest)) = split_line(self.rest) {
            self.rest = rest;
            self.next += 1;
        }
    }
}

fn read_table(r: &Reader, p: &mut Policy) -> Result<(), Refusal> {
    let numbers: Option<Vec<u128>> = fields(r.line()?).map(read_numeral).collect();
    let (number, columns) = match numbers.as_deref() {
        Some(&[number, columns]) => (number, columns),
        _ => return r.refuse(1),
    };
    if !(1..=16).contains(&number) || !(1..=8).contains(&columns) {
        return r.refuse(2);
    }
    if number as usize != p.table_count + 1 {
        return r.refuse(3);
    }
    p.columns[p.table_count] = columns as usize;
    p.table_count += 1;
    Ok(())
}

fn read_view(r: &Reader, p: &mut Policy) -> Result<(), Refusal> {
    let mut parts = fields(r.line()?);
    let number = parts.next().and_then(read_numeral);
    let (number, row) = match (number, read_row(parts)) {
        (Some(number), Some(row)) => (number, row),
        _ => return r.refuse(1),
    };
    if !(1..=32).contains(&number) || row.outside {
        return r.refuse(2);
    }
    if number as usize != p.view_count + 1 {
        return r.refuse(3);
    }
    if p.table_count < row.line.table {
        return r.refuse(4);
    }
    if p.columns[row.line.table - 1] != row.count {
        return r.refuse(5);
    }
    if row.shown & row.hidden != 0 {
        return r.refuse(6);
    }
    p.views[p.view_count] = row.line;
    p.view_count += 1;
    Ok(())
}

fn read_partition(r: &Reader, p: &mut Policy) -> Result<(), Refusal> {
    let numbers: Option<Vec<u128>> = fields(r.line()?).map(read_numeral).collect();
    let Some(numbers) = numbers else {
        return r.refuse(1);
    };
    if numbers.iter().any(|n| !(1..=32).contains(n)) {
        return r.refuse(2);
    }
    let views = &numbers[1..];
    let ascending = views.windows(2).all(|w| w[0] < w[1]);
    if numbers[0] as usize != p.partition_count + 1 || !ascending {
        return r.refuse(3);
    }
    if views.iter().any(|&v| p.view_count < v as usize) {
        return r.refuse(4);
    }
    p.partitions[p.partition_count] = views.iter().map(|v| 1 << (v - 1)).sum();
    p.partition_count += 1;
    Ok(())
}

// A names line, which may stand only here.
fn read_names(r: &mut Reader, names: &[u8]) -> Result<(), Refusal> {
    if r.line()? != names {
        return r.refuse(1);
    }
    r.pass();
    Ok(())
}

pub fn load(text: &[u8]) -> Result<Policy, Refusal> {
    if 16_384 < text.len() {
        return Err((7, 0));
    }
    let mut p = Policy::default();
    let mut r = Reader {
        rest: text,
        next: 1,
    };
    read_names(&mut r, b"table columns")?;
    while p.table_count == 0 || r.line()? != b"view table terms" {
        read_table(&r, &mut p)?;
        r.pass();
    }
    r.pass();
    while p.view_count == 0 || r.line()? != b"partition views" {
        read_view(&r, &mut p)?;
        r.pass();
    }
    r.pass();
    while p.partition_count == 0 || !r.rest.is_empty() {
        read_partition(&r, &mut p)?;
        r.pass();
    }
    Ok(p)
}
