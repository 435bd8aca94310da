// The tables, in Markdown.

use crate::{single, whole};

pub fn print_streams(cases: &[whole::Case]) {
    println!("Whole runs, in nanoseconds a query, and the ratio of Rattle to each reference:\n");
    println!("| partitions | queries | Rattle | plain | tuned | to plain | to tuned |");
    println!("|---:|:---|---:|---:|---:|---:|---:|");
    for c in cases {
        let [rattle, plain, tuned] = c.least;
        println!(
            "| {} | {} {} | {rattle:.0} | {plain:.0} | {tuned:.0} | {:.2} | {:.2} |",
            c.stream.partitions,
            c.stream.queries,
            c.stream.name,
            rattle / plain,
            rattle / tuned
        );
    }
}

pub fn print_worst(cases: &[whole::Case]) {
    println!("\nThe worst queries known, in microseconds:\n");
    println!("| query | Rattle | plain | tuned |");
    println!("|:---|---:|---:|---:|");
    for c in cases {
        let [rattle, plain, tuned] = c.least.map(|nanoseconds| nanoseconds / 1000.0);
        println!(
            "| {} | {rattle:.1} | {plain:.1} | {tuned:.1} |",
            c.stream.name
        );
    }
}

pub fn print_full(cases: &[whole::Case]) {
    println!("\nFull files, in microseconds a file:\n");
    println!("| queries | Rattle | plain | tuned |");
    println!("|:---|---:|---:|---:|");
    for c in cases {
        let [rattle, plain, tuned] = c
            .least
            .map(|nanoseconds| nanoseconds * c.stream.queries as f64 / 1000.0);
        println!(
            "| {} {} | {rattle:.0} | {plain:.0} | {tuned:.0} |",
            c.stream.queries, c.stream.name
        );
    }
}

pub fn print_single(labelled: &[single::Case], decided: &[single::Case]) {
    println!("\nOne operation, in nanoseconds:\n");
    println!("| query | labelled by Rattle | by plain | decided by Rattle | by plain |");
    println!("|:---|---:|---:|---:|---:|");
    for (l, d) in labelled.iter().zip(decided) {
        println!(
            "| {} | {:.0} | {:.0} | {:.0} | {:.0} |",
            l.name, l.least[0], l.least[1], d.least[0], d.least[1]
        );
    }
}

pub fn print_granted(cases: &[single::Case]) {
    println!("\nThe smallest extra grant, from the text, in nanoseconds:\n");
    println!("| query | Rattle | plain |");
    println!("|:---|---:|---:|");
    for c in cases {
        println!("| {} | {:.0} | {:.0} |", c.name, c.least[0], c.least[1]);
    }
}

pub fn print_check(checked: &single::Case) {
    let nanoseconds = checked.least[0];
    println!("\nThe check of a policy of 32 views: {nanoseconds:.0} ns.");
}
