//! compare [--cases N] [--seed S] [--only FAMILY] [--hall-calls N]: N cases for each function, and lists of N calls of the hall;
//! exits 1 on a difference, or if as many calls as are made by default miss what they always reach.

use compare::families::FAMILIES;
use compare::function::Listed;
use compare::lists::{self, Library, Modelled};
use compare::options::{self, Options};
use compare::rng::Rng;
use compare::tally::{self, Tally};
use std::env;
use std::process::exit;

/// So many differences of a function are printed.
const SHOWN: usize = 5;

/// `--only` this runs the hall's lists alone.
const HALL: &str = "hall";
/// So many calls of the hall, where it alone is run and no number is given.
const HALL_CALLS: u64 = 20_000;

fn main() {
    let mut names: Vec<&str> = FAMILIES.iter().map(|(name, _)| *name).collect();
    names.push(HALL);
    let options = options::parse(env::args().skip(1), 10_000, &names).unwrap_or_else(|error| {
        eprintln!(
            "{error}\nusage: compare [--cases N] [--seed S] [--only FAMILY] [--hall-calls N]"
        );
        exit(2)
    });
    let hall_alone = options.only.as_deref() == Some(HALL);
    let mut failures = 0;
    if !hall_alone {
        failures += run_families(&options);
    }
    let default = if hall_alone { HALL_CALLS } else { 0 };
    let calls = options.hall_calls.unwrap_or(default);
    if calls > 0 {
        failures += run_hall(options.seed, calls);
    }
    exit(i32::from(failures > 0));
}

fn run_families(options: &Options) -> usize {
    println!("{}", tally::heading());
    let (mut cases, mut differences, mut corners) = (0, 0, Vec::new());
    for (family, functions) in FAMILIES {
        if options.only.as_ref().is_some_and(|only| only != family) {
            continue;
        }
        let mut tallies = Vec::new();
        for function in *functions {
            let tally = run(options, family, function);
            println!("{}", tally.line(family, function.name));
            cases += tally.cases;
            differences += tally.differences;
            tallies.push((function.name, tally));
        }
        corners.extend(tally::corners(family, &tallies));
    }
    println!("compared: {cases} cases, {differences} differences");
    corners.iter().for_each(|line| println!("{line}"));
    differences
}

/// How many differences there are, and how much was missed.
fn run_hall(seed: u64, calls: u64) -> usize {
    let mut shown = 0;
    let counts = lists::run::<Library, Modelled>(seed, calls, &mut |difference| {
        shown += 1;
        if shown <= SHOWN {
            println!("difference: hall, {difference}");
        }
    });
    println!("{}", counts.lines());
    let missing = counts.missing();
    if calls < HALL_CALLS || missing.is_empty() {
        return counts.differences;
    }
    println!("hall: never reached: {}", missing.join("; "));
    counts.differences + missing.len()
}

fn run(options: &Options, family: &str, function: &Listed) -> Tally {
    let mut tally = Tally::default();
    let cases = match function.one_case {
        true => options.cases.min(1),
        false => options.cases,
    };
    for case in 0..cases {
        let mut rng = Rng::for_case(options.seed, function.name, case);
        let verdict = (function.judge)(&mut rng);
        tally.count(&verdict);
        if let Some(difference) = verdict.difference
            && tally.differences <= SHOWN
        {
            let (name, seed) = (function.name, options.seed);
            println!("difference: {family} {name}, case {case} of seed {seed}\n{difference}");
        }
    }
    tally
}
