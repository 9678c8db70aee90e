//! The hall on drawn lists of calls: the library beside the model after every call, greedy rounds in joining order beside the Rust
//! too, and demand 3 and the turns of games on the library's own answers.

mod beside;
mod corners;
mod counter;
mod counts;
mod demand;
mod fair;
mod friends;

pub use counter::{Counter, Library, Modelled};
pub use counts::{Befriended, Counts, Held};
pub use fair::Windows;

use crate::data::{Answer, Call, List, Start};
use crate::draw;
use crate::rng::Rng;
use crate::same::Same;
use beside::beside_rust;
use demand::{Ledger, Mark};
use fair::Turns;
use friends::friends;
use std::fmt::Debug;
use yilgashe_sys::{Hall, Note};

/// Lists until so many calls are made, then half as many single calls; `show` gets each difference in words.
pub fn run<L: Counter, M: Counter>(seed: u64, calls: u64, show: &mut dyn FnMut(String)) -> Counts {
    let mut counts = Counts::default();
    while counts.calls < calls {
        let number = counts.lists;
        let list = draw::list(&mut Rng::for_case(seed, "hall", number), number);
        counts.lists += 1;
        counts.calls += list.calls.len() as u64;
        if let Err(difference) = judge::<L, M>(&list, &mut counts) {
            counts.differences += 1;
            show(format!("list {number} of seed {seed}, {difference}"));
        }
    }
    for number in 0..calls / 2 {
        let (hall, call) = draw::single(&mut Rng::for_case(seed, "single", number));
        if let Err(difference) = judge_single::<L, M>(&hall, &call, &mut counts) {
            counts.differences += 1;
            show(format!("single call {number} of seed {seed}, {difference}"));
        }
    }
    counts
}

/// Serves a list on both sides, to the first difference.
pub fn judge<L: Counter, M: Counter>(list: &List, counts: &mut Counts) -> Result<(), String> {
    let (mut library, mut model) = (L::start(&list.start), M::start(&list.start));
    if !library.hall().same(&model.hall()) {
        return Err("the list starts from another hall".into());
    }
    let (mut ledger, mut turns) = (Ledger::open(&library.hall()), Turns::default());
    let mut kept: Vec<(&Call, Answer)> = Vec::new();
    for (place, call) in list.calls.iter().enumerate() {
        let before = library.hall();
        let answer = library.serve(call);
        let after = library.hall();
        counts.count(call, &answer, &before);
        let agreed = agree(call, (&answer, &after), (&model.serve(call), &model.hall()));
        let marked = agreed.and_then(|()| {
            let mark = ledger.enter(call, &answer, &before, &after)?;
            counts.held.count(beside_rust(call, &answer, &before)?);
            counts.befriended.count(friends(call, &answer, &before));
            turns.enter(call, &answer, &before);
            Ok(mark)
        });
        match marked.map_err(|difference| format!("call {place}: {difference}"))? {
            Mark::Resend => counts.resends += 1,
            mark => {
                counts.changed += u64::from(mark == Mark::Changed);
                kept.push((call, answer));
            }
        }
    }
    counts.windows.add(turns.windows()?);
    without_resends::<L>(&list.start, &kept, &library.hall())
}

/// The list with resends left out: does it answer alike and end alike?
fn without_resends<L: Counter>(
    start: &Start,
    calls: &[(&Call, Answer)],
    end: &Hall,
) -> Result<(), String> {
    let mut library = L::start(start);
    for (call, answer) in calls {
        let alone = library.serve(call);
        if !alone.same(answer) {
            return Err(format!(
                "without resends a call answers otherwise\n  call: {call:?}\n  with: {answer:?}\n  without: {alone:?}"
            ));
        }
    }
    match library.hall().same(end) {
        true => Ok(()),
        false => Err("without resends the hall ends otherwise".into()),
    }
}

/// Serves one call on a hall that no list need lead to.
pub fn judge_single<L: Counter, M: Counter>(
    hall: &Hall,
    call: &Call,
    counts: &mut Counts,
) -> Result<(), String> {
    let (mut library, mut model) = (L::with(hall), M::with(hall));
    let (answer, expected) = (library.serve(call), model.serve(call));
    counts.count_single(call, &answer, hall);
    let agreed = agree(call, (&answer, &library.hall()), (&expected, &model.hall()));
    agreed.map_err(|difference| format!("{difference}\n  before: {hall:?}"))?;
    counts.held_single.count(beside_rust(call, &answer, hall)?);
    counts.befriended_single.count(friends(call, &answer, hall));
    Ok(())
}

/// Answers and halls are the same, or where they part in words.
fn agree(
    call: &Call,
    (answer, hall): (&Answer, &Hall),
    (expected, expected_hall): (&Answer, &Hall),
) -> Result<(), String> {
    if answer.same(expected) && hall.same(expected_hall) {
        return Ok(());
    }
    let answered = |hall: &Hall| -> Vec<(u64, Note)> { hall.answered().collect() };
    let waiting = parted(hall.booked(), expected_hall.booked());
    let notes = parted(&answered(hall), &answered(expected_hall));
    let numbers = |hall: &Hall| {
        let (waiting, noted, served) = (hall.waiting, hall.noted, hall.served);
        format!("{waiting} wait, {noted} notes, {served} served last")
    };
    Err(format!(
        "{call:?}\n  expected: {expected:?}; {}\n  library:  {answer:?}; {}\n  waiting: {waiting}\n  notes: {notes}",
        numbers(expected_hall),
        numbers(hall)
    ))
}

/// The first place where two lists differ.
fn parted<T: Same + Debug>(library: &[T], expected: &[T]) -> String {
    let least = library.len().min(expected.len());
    let differs = (0..least).find(|&place| !library[place].same(&expected[place]));
    match differs.or((library.len() != expected.len()).then_some(least)) {
        None => "alike".into(),
        Some(place) => {
            let (expected, library) = (expected.get(place), library.get(place));
            format!("place {place}, expected {expected:?}, library {library:?}")
        }
    }
}
