//! One function of the library beside its Rust and its refusals, and the judging of a case.

use crate::draw::Scale;
use crate::rng::Rng;
use crate::same::Same;
use crate::words::Words;
use std::cell::Cell;
use std::fmt::Debug;
use std::panic::{AssertUnwindSafe, catch_unwind, set_hook, take_hook};
use std::sync::Once;

pub trait Function {
    /// Its name in the report.
    const NAME: &'static str;
    /// True where it takes no input: one case says it all.
    const ONE_CASE: bool = false;

    type Case: Debug;
    /// All that a call gives or changes.
    type Answer: Debug + Same;

    fn draw(rng: &mut Rng, scale: Scale) -> Self::Case;
    /// The model's refusal, 0 for none.
    fn refusal(case: &Self::Case) -> u8;
    /// What a refused call answers: nothing found, nothing changed.
    fn refused(case: &Self::Case) -> Self::Answer;
    /// False where the Rust has no such rule: there the model alone can tell right from wrong.
    fn has_rust(_: &Self::Case) -> bool {
        true
    }
    /// What the unchanged Rust answers; asked only where it has the rule and the model does not refuse.
    fn rust(case: &Self::Case) -> Self::Answer;
    /// What the model answers where the Rust has no such rule, or panics; none where only the absence of a refusal is known.
    fn model(_: &Self::Case) -> Option<Self::Answer> {
        None
    }
    fn library(case: &Self::Case) -> (u8, Self::Answer);
    /// What an answer must keep by itself, the expected one and the library's alike; else in words what it breaks.
    fn keeps(_: &Self::Case, _: &Self::Answer) -> Result<(), String> {
        Ok(())
    }
    /// Corners that the report counts, for a case with this refusal due and the library's answer.
    fn corners(_: &Self::Case, _refusal: u8, _: &Self::Answer) -> Vec<Corner> {
        Vec::new()
    }
}

/// The name of a corner, and whether a case reaches it.
pub type Corner = (&'static str, bool);

/// A function with stored answers.
pub trait Stored: Function {
    /// The first word of its lines.
    const CODE: u64;
    /// False where nothing is ever refused: its lines hold no refusal.
    const REFUSES: bool = true;
    /// Of so many cases one is stored: more where lines are long.
    const ONE_OF: u64 = 1;

    fn write_case(case: &Self::Case, words: &mut Words);
    fn write_answer(case: &Self::Case, answer: &Self::Answer, words: &mut Words);
}

/// A line of the table of functions.
pub struct Listed {
    pub name: &'static str,
    pub one_case: bool,
    pub judge: fn(&mut Rng) -> Verdict,
    pub store: Option<fn(&mut Rng) -> Option<String>>,
    pub one_of: u64,
}

/// Compared only.
pub const fn compared<F: Function>() -> Listed {
    Listed {
        name: F::NAME,
        one_case: F::ONE_CASE,
        judge: judge::<F>,
        store: None,
        one_of: 1,
    }
}

/// Compared, and stored too.
pub const fn stored<F: Stored>() -> Listed {
    Listed {
        store: Some(store::<F>),
        one_of: F::ONE_OF,
        ..compared::<F>()
    }
}

/// Where the expected answer of a case came from.
#[derive(Clone, Copy, Debug, PartialEq)]
pub enum Source {
    Rust,
    Model,
    Refusal(u8),
    /// The Rust panicked: only the absence of a refusal is checked.
    Panic,
}

pub struct Verdict {
    pub source: Source,
    /// The case in words, where library and expectation differ or one of them breaks what it must keep.
    pub difference: Option<String>,
    pub corners: Vec<Corner>,
}

/// Draws a case and judges it.
pub fn judge<F: Function>(rng: &mut Rng) -> Verdict {
    judge_case::<F>(&F::draw(rng, Scale::Full))
}

/// Runs both sides on a case.
pub fn judge_case<F: Function>(case: &F::Case) -> Verdict {
    let (source, expected) = expected::<F>(case);
    let (refusal, answer) = F::library(case);
    let wanted = number(source);
    let agrees = refusal == wanted && expected.iter().all(|e| e.same(&answer));
    let broken = broken::<F>(case, expected.as_ref(), &answer);
    let corners = F::corners(case, wanted, &answer);
    let difference = (!agrees || !broken.is_empty()).then(|| {
        let expected = expected.map_or("unknown, the Rust panics".into(), |e| format!("{e:?}"));
        format!(
            "  case:     {case:?}\n  expected: refusal {wanted}, {expected}\n  library:  refusal {refusal}, {answer:?}{broken}"
        )
    });
    Verdict {
        source,
        difference,
        corners,
    }
}

/// A line for each side that breaks what it must keep: both may do so and agree.
fn broken<F: Function>(
    case: &F::Case,
    expected: Option<&F::Answer>,
    library: &F::Answer,
) -> String {
    let sides = [("expected", expected), ("library", Some(library))];
    let faults = sides.into_iter().filter_map(|(side, answer)| {
        let fault = F::keeps(case, answer?).err()?;
        Some(format!("\n  broken:   {side}, {fault}"))
    });
    faults.collect()
}

/// A stored line, or none where the Rust panics.
fn store<F: Stored>(rng: &mut Rng) -> Option<String> {
    let case = F::draw(rng, Scale::Stored);
    let (source, expected) = expected::<F>(&case);
    let answer = expected?;
    let mut words = Words::default();
    words.number(F::CODE);
    F::write_case(&case, &mut words);
    if F::REFUSES {
        words.number(u64::from(number(source)));
    }
    F::write_answer(&case, &answer, &mut words);
    Some(words.line())
}

fn expected<F: Function>(case: &F::Case) -> (Source, Option<F::Answer>) {
    let refusal = F::refusal(case);
    if refusal > 0 {
        return (Source::Refusal(refusal), Some(F::refused(case)));
    }
    let has_rust = F::has_rust(case);
    let asked = has_rust.then(|| caught(|| F::rust(case)));
    if let Some(answer) = asked.flatten() {
        return (Source::Rust, Some(answer));
    }
    let model = F::model(case);
    assert!(has_rust || model.is_some(), "nobody knows: {case:?}");
    match model {
        Some(answer) => (Source::Model, Some(answer)),
        None => (Source::Panic, None),
    }
}

fn number(source: Source) -> u8 {
    match source {
        Source::Refusal(number) => number,
        _ => 0,
    }
}

thread_local! {
    static QUIET: Cell<bool> = const { Cell::new(false) };
}

/// What `run` gives, or none where it panics, without a word on the screen.
pub fn caught<T>(run: impl FnOnce() -> T) -> Option<T> {
    static HOOK: Once = Once::new();
    HOOK.call_once(|| {
        let usual = take_hook();
        set_hook(Box::new(move |info| {
            if !QUIET.get() {
                usual(info);
            }
        }));
    });
    QUIET.set(true);
    let result = catch_unwind(AssertUnwindSafe(run)).ok();
    QUIET.set(false);
    result
}

#[cfg(test)]
mod tests {
    use super::*;

    /// Refuses 3 with 9. Its Rust doubles, and panics at 5 and 6, where the model knows 6 alone; from 100 on it halves, and the model
    /// alone is asked. Its library is wrong at 7, 8, 12 and 101. No answer may be above 20, save from 50 on.
    struct Doubling;

    thread_local! {
        static NEXT: Cell<u64> = const { Cell::new(0) };
    }

    impl Function for Doubling {
        const NAME: &'static str = "doubling";
        type Case = u64;
        type Answer = u64;

        fn draw(_: &mut Rng, _: Scale) -> u64 {
            NEXT.get()
        }
        fn refusal(case: &u64) -> u8 {
            if *case == 3 { 9 } else { 0 }
        }
        fn refused(case: &u64) -> u64 {
            *case
        }
        fn has_rust(case: &u64) -> bool {
            *case < 100
        }
        fn rust(case: &u64) -> u64 {
            assert!(*case != 5 && *case != 6);
            if *case < 100 { case * 2 } else { case / 2 }
        }
        fn model(case: &u64) -> Option<u64> {
            (*case == 6 || *case >= 100).then_some(case * 2)
        }
        fn library(case: &u64) -> (u8, u64) {
            match case {
                3 => (9, 3),
                7 => (9, 14),
                8 => (0, 17),
                12 => (0, 4),
                101 => (0, 50),
                _ => (0, case * 2),
            }
        }
        fn keeps(_: &u64, answer: &u64) -> Result<(), String> {
            match *answer {
                0..=20 | 50.. => Ok(()),
                _ => Err(format!("{answer} is above 20")),
            }
        }
        fn corners(case: &u64, refusal: u8, _: &u64) -> Vec<Corner> {
            vec![("odd", case % 2 == 1), ("refused", refusal > 0)]
        }
    }

    impl Stored for Doubling {
        const CODE: u64 = 99;
        fn write_case(case: &u64, words: &mut Words) {
            words.number(*case);
        }
        fn write_answer(_: &u64, answer: &u64, words: &mut Words) {
            words.number(*answer);
        }
    }

    fn verdict(case: u64) -> Verdict {
        NEXT.set(case);
        judge::<Doubling>(&mut Rng::new(0))
    }

    fn line(case: u64) -> Option<String> {
        NEXT.set(case);
        store::<Doubling>(&mut Rng::new(0))
    }

    #[test]
    fn agreement() {
        assert!(verdict(1).difference.is_none());
        assert_eq!(verdict(1).source, Source::Rust);
        assert!(verdict(3).difference.is_none());
        assert_eq!(verdict(3).source, Source::Refusal(9));
    }

    #[test]
    fn wrong_answers_and_refusals_are_found() {
        let wrong = verdict(8).difference.expect("17 is not 16");
        assert!(wrong.contains("refusal 0, 16") && wrong.contains("refusal 0, 17"));
        assert!(verdict(7).difference.is_some());
    }

    /// At 11 both sides agree on 22, at 12 the Rust alone is above 20.
    #[test]
    fn agreeing_on_what_is_broken_is_a_difference() {
        let both = verdict(11);
        assert_eq!(both.source, Source::Rust);
        let both = both.difference.expect("22 is above 20");
        assert!(both.contains("expected, 22 is above 20"), "{both}");
        assert!(both.contains("library, 22 is above 20"), "{both}");
        let rust = verdict(12).difference.expect("24 is above 20");
        assert!(rust.contains("expected, 24 is above 20"), "{rust}");
        assert!(!rust.contains("broken:   library"), "{rust}");
        assert!(verdict(10).difference.is_none());
    }

    #[test]
    fn corners_come_with_the_verdict() {
        assert_eq!(verdict(2).corners, [("odd", false), ("refused", false)]);
        assert_eq!(verdict(3).corners, [("odd", true), ("refused", true)]);
    }

    #[test]
    fn panics_are_counted_apart() {
        assert_eq!(verdict(5).source, Source::Panic);
        assert!(verdict(5).difference.is_none());
    }

    #[test]
    fn the_model_stands_in_for_a_panic() {
        assert_eq!(verdict(6).source, Source::Model);
        assert!(verdict(6).difference.is_none());
        assert_eq!(line(6).as_deref(), Some("63 6 0 c"));
    }

    /// At 101 the library answers as the Rust would.
    #[test]
    fn the_model_alone_tells_where_there_is_no_rust() {
        assert_eq!(verdict(100).source, Source::Model);
        assert_eq!(verdict(100).difference, None);
        let wrong = verdict(101).difference.expect("50 is not 202");
        assert!(wrong.contains("refusal 0, 202") && wrong.contains("refusal 0, 50"));
    }

    #[test]
    fn stored_lines_come_from_rust_and_model() {
        assert_eq!(line(8).as_deref(), Some("63 8 0 10"));
        assert_eq!(line(100).as_deref(), Some("63 64 0 c8"));
        assert_eq!(line(3).as_deref(), Some("63 3 9 3"));
        assert_eq!(line(5), None);
    }
}
