//! bench [--seed S] [--rounds N] [--quick] [--stack]: times the unchanged Rust and the library on the same drawn inputs.

mod call;
mod crowd;
mod growth;
mod options;
mod plain;
mod rows;
mod stack;
mod table;
mod timing;

use call::Row;
use options::{Options, Report};
use rows::ROWS;
use std::env;
use std::process::exit;
use table::{Table, duration, three_digits};
use timing::measure;

fn main() {
    let options = options::parse(env::args().skip(1)).unwrap_or_else(|error| {
        eprintln!("{error}\nusage: bench [--seed S] [--rounds N] [--quick] [--stack]");
        exit(2)
    });
    if options.report == Report::Stack {
        return depths(&options);
    }
    let Options { seed, rounds, .. } = options;
    println!("seed {seed}, medians of {rounds} rounds\n");
    times(ROWS.iter().map(|row| row(seed)), rounds);
    if options.report == Report::All {
        for growth in growth::tables() {
            println!("\n{}\n", growth.name);
            times(growth.rows.iter().map(|row| row(seed)), rounds);
        }
    }
}

/// Each row is made when it is its turn.
fn times(rows: impl Iterator<Item = Row>, rounds: usize) {
    let mut table = Table::headed(&[
        "call", "Rust", "library", "ratio", "from", "to", "target", "answer",
    ]);
    for mut row in rows {
        let timed = measure(row.sides.as_mut(), rounds);
        table.line(vec![
            row.name,
            duration(timed.rust),
            duration(timed.library),
            three_digits(timed.ratio()),
            three_digits(timed.lowest),
            three_digits(timed.highest),
            row.target
                .map_or(String::new(), |least| format!(">= {least}")),
            row.answer,
        ]);
    }
    table.print();
}

fn depths(options: &Options) {
    let mut table = Table::headed(&["call", "bytes of stack"]);
    for mut row in ROWS.iter().map(|row| row(options.seed)) {
        let depth = stack::depth(|| {
            row.sides.library();
        });
        table.line(vec![row.name, depth.to_string()]);
    }
    table.print();
}
