// The program's whole work: from the bytes of a policy and of queries to the bytes written.

use super::deciding::{decide, Reply};
use super::labelling::table_views;
use super::loading::load;
use super::numerals::split_line;
use std::io::Write;

// The length of the first query text: the next complete line `table terms` behind its first line starts another.
fn next_cut(input: &[u8]) -> usize {
    let mut at = 0;
    while let Some((line, _)) = split_line(&input[at..]) {
        if at != 0 && line == b"table terms" {
            return at;
        }
        at += line.len() + 1;
    }
    input.len()
}

// Writes the output to the front of a buffer that has room for it, and tells its length.
pub fn run(policy: &[u8], queries: &[u8], out: &mut [u8]) -> usize {
    let room = out.len();
    let mut to = out;
    write_all(policy, queries, &mut to).expect("there is room");
    room - to.len()
}

fn write_all(policy: &[u8], queries: &[u8], to: &mut &mut [u8]) -> std::io::Result<()> {
    writeln!(to, "query answer open refusal line")?;
    let p = match load(policy) {
        Err((number, line)) => return writeln!(to, "0 refused 0 {number} {line}"),
        Ok(p) => p,
    };
    let masks = table_views(&p);
    let mut open = (1 << p.partition_count) - 1;
    let (mut query, mut rest) = (1, queries);
    while !rest.is_empty() {
        let (text, behind) = rest.split_at(next_cut(rest));
        let (reply, left) = decide(&p, &masks, open, text);
        open = left;
        let count = open.count_ones();
        match reply {
            Reply::Yes => writeln!(to, "{query} yes {count} 0 0")?,
            Reply::No => writeln!(to, "{query} no {count} 0 0")?,
            Reply::Refused((number, line)) => {
                writeln!(to, "{query} refused {count} {number} {line}")?
            }
        }
        query += 1;
        rest = behind;
    }
    Ok(())
}
