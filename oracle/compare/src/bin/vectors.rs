//! vectors [--cases N] [--seed S]: stored answers, N lines for each function that has them, N / 2 where lines are long.

use compare::families::FAMILIES;
use compare::options;
use compare::rng::Rng;
use std::env;
use std::io::{self, BufWriter, Write};
use std::process::exit;

const LAYOUT: &str = "\
# One case a line, words in hex: the function's code, inputs, the refusal, outputs.
# entry = player joined rating party role; queue = n and n entries.
# A queue of n = 65 has no entries here and stands for a len field of 65; its outputs hold no queue.
# 1 enqueue: queue entry -> refusal, queue
# 2 remove: queue player -> refusal, found, entry if found, queue
# 3 remove_batch: queue k ids -> refusal, queue kept, queue removed
# 4 waiting_time: queue player now -> refusal, found, wait
# 5 duration_since: later earlier -> refusal, nanos
# 6 as_secs_f64: time -> refusal, seconds
# 7 roster check: six times n and n words (ids ratings deviations parties roles regions) -> refusal";

const SCORES: &str = "\
# team = n and n players, or 9 alone for a len field of 9; column = n and n words, or 129 alone for 129 rows.
# A value that is NaN is written 7ff8000000000000.
# 8 match_quality: team a, team b, columns ids and ratings -> refusal, value
# 9 match_score: weights (quality wait ping uncertainty), team a, team b, queue, columns ids, ratings and deviations, clock -> refusal, value
# 10 soft_score: k and k times kind weight, team a, team b, columns ids and ratings -> refusal, value
# vector = skill role latency party wait utilization. Vectors refuse nothing: their lines hold no refusal.
# 11 scalarize: vector, weights as a vector -> value
# 12 dominates: vector, other vector -> 0 or 1";

const RULES: &str = "\
# requirements = n and n times role least bounded most (most counts only where bounded), or 9 alone for a len field of 9.
# pairs = n and n times first second, or 17 alone for a count field of 17.
# sizes = a b; brought = five times 0 or 1 (sizes roles parties latency regions).
# constraints = brought sizes requirements pairs, all there whether brought or not.
# objectives = k and k times kind weight; candidates = n and n times team a, team b, or 65 alone for a len field of 65.
# places = n and n places from 0; of a refused selection n is 0.
# 13 sizes: sizes, team a, team b -> refusal, 0 or 1
# 14 roles: requirements, team a, team b, columns ids and roles -> refusal, 0 or 1
# 15 parties: team a, team b, columns ids and parties -> refusal, 0 or 1
# 16 latency: team a, team b, columns ids and ratings -> refusal, 0 or 1
# 17 regions: pairs, team a, team b, columns ids and regions -> refusal, 0 or 1
# 18 constraints: constraints, team a, team b, columns ids, ratings, parties, roles and regions -> refusal, 0 or 1
# 19 validate: size, requirements, team, columns ids and roles -> refusal, place, fault (0 none, 1 size, 2 too few, 3 too many)
# 20 policy score: constraints, objectives, team a, team b, columns as in 18 -> refusal, value
# 21 greedy: objectives, candidates, columns ids and ratings -> refusal, places
# 22 threshold: minimum, objectives, candidates, columns ids and ratings -> refusal, places
# 23 lexicographic: objectives, candidates, columns ids and ratings -> refusal, places
# 24 weighted: weights as a vector, candidates, columns ids and ratings -> refusal, places
# Where scores do not strictly rise the Rust has no answer to 24: places are then the stable falling order.";

const SEARCHES: &str = "\
# sizes = a b, of the two teams; sheets = n places for players, m places for qualities. Before a call place i holds player i + 1000
# and every quality is -1.0. formed = k and k players, match by match, team A then B, then c and c qualities of as many matches; all
# else stays as it was. Of a refused call k and c are 0.
# 25 greedy_search: queue, sizes, columns ids and ratings, sheets -> refusal, formed
# Where joined times fall the Rust has no answer to 25: of equal distances the earlier joined time is then picked, then the earlier place.
# 26 nearest: max, queue, sizes, columns ids and ratings, sheets -> refusal, formed
# 27 beam_search: width, queue, sizes, weights (quality wait ping uncertainty), columns ids, ratings and deviations, clock, sheets -> refusal, formed
# 28 exhaustive: queue, sizes, sheets -> refusal, formed
# 29 best_choice: queue, sizes, constraints, objectives, columns as in 18 -> refusal, found, team a and team b if found, tried";

fn main() {
    let options = options::parse(env::args().skip(1), 200, &[]).unwrap_or_else(|error| {
        eprintln!("{error}\nusage: vectors [--cases N] [--seed S]");
        exit(2)
    });
    if let Err(error) = write(options.cases, options.seed) {
        eprintln!("the answers could not be written: {error}");
        exit(1);
    }
}

fn write(cases: u64, seed: u64) -> io::Result<()> {
    let mut out = BufWriter::new(io::stdout().lock());
    writeln!(out, "# Made by: vectors --cases {cases} --seed {seed}")?;
    writeln!(
        out,
        "# Answers of the unchanged Rust (matchlab commit fe3a82e733); refusals by document 01."
    )?;
    writeln!(out, "{LAYOUT}")?;
    writeln!(out, "{SCORES}")?;
    writeln!(out, "{RULES}")?;
    writeln!(out, "{SEARCHES}")?;
    for function in FAMILIES.iter().flat_map(|(_, functions)| *functions) {
        let Some(store) = function.store else {
            continue;
        };
        for case in 0..cases / function.one_of {
            if let Some(line) = store(&mut Rng::for_case(seed, function.name, case)) {
                writeln!(out, "{line}")?;
            }
        }
    }
    out.flush()
}
