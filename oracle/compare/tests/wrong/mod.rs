//! Halls that break one rule, and what the lists find of them.

use compare::lists::{self, Counter, Counts, Modelled};
use compare::model::hall::{Hall as Model, Note};

/// On the default seed.
pub fn run<L: Counter, M: Counter>(calls: u64) -> (Counts, Vec<String>) {
    let mut differences = Vec::new();
    let counts = lists::run::<L, M>(1, calls, &mut |difference| differences.push(difference));
    (counts, differences)
}

/// How many lists and single calls differ from the model's.
pub fn found<L: Counter>() -> usize {
    run::<L, Modelled>(4000).0.differences
}

/// Of more calls, for what few of them reach.
pub fn found_in_many<L: Counter>() -> usize {
    run::<L, Modelled>(16_000).0.differences
}

/// More than by chance, each of them.
pub fn are_found(others: &[(&str, usize)]) {
    assert!(others.iter().all(|(_, count)| *count > 3), "{others:?}");
}

/// How many differences say so in so many calls, with no model to compare with.
pub fn said<L: Counter>(calls: u64, words: &[&str]) -> usize {
    let (_, differences) = run::<L, L>(calls);
    let says = |difference: &&String| words.iter().any(|words| difference.contains(words));
    differences.iter().filter(says).count()
}

/// The note that a call made, as the last one, if it made one; `before` it so many were noted.
#[allow(dead_code)] // not all of these tests change notes
pub fn noted_now(before: usize, hall: &mut Model) -> Option<&mut Note> {
    match hall.notes.len() > before {
        true => hall.notes.last_mut(),
        false => None,
    }
}

/// A model that breaks one rule.
macro_rules! wrong {
    ($name:ident, $hall:ident, $call:ident, $serve:expr) => {
        struct $name(compare::lists::Modelled);

        impl compare::lists::Counter for $name {
            fn open(games: yilgashe_sys::Games) -> Self {
                $name(compare::lists::Modelled::open(games))
            }

            fn with(hall: &yilgashe_sys::Hall) -> Self {
                $name(compare::lists::Modelled::with(hall))
            }

            fn serve(&mut self, $call: &Call) -> Answer {
                match &mut self.0 {
                    compare::lists::Modelled::Within($hall) => $serve,
                    over => over.serve($call),
                }
            }

            fn hall(&self) -> yilgashe_sys::Hall {
                self.0.hall()
            }
        }
    };
}
