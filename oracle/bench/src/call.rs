//! A call that both sides make, and a row of the tables made of such calls.

use crate::timing::{Sides, Swept, sweep};
use std::time::Duration;

/// One drawn input, as each side takes it. Only the two calls are timed.
pub trait Call: Send + 'static {
    type Rust: Send;
    type Library: Send;

    /// The call of the Rust, or of what stands in its place.
    fn rust(&self) -> Self::Rust;
    /// The library's call, as a caller from Rust makes it.
    fn library(&mut self) -> Self::Library;
    /// Makes both calls, fails unless they answer the same, and says what they answer in a few words.
    fn agree(&mut self) -> String;
}

pub struct Row {
    pub name: String,
    /// The Rust's time over the library's should be at least this.
    pub target: Option<f64>,
    /// What the first of its cases answers.
    pub answer: String,
    pub sides: Box<dyn Sides>,
}

impl Row {
    /// Of cases on which both sides agree.
    pub fn of<C: Call>(name: impl Into<String>, mut cases: Vec<C>) -> Self {
        let answers: Vec<String> = cases.iter_mut().map(Call::agree).collect();
        Row {
            name: name.into(),
            target: None,
            answer: answers.first().cloned().unwrap_or_default(),
            sides: Box::new(Both::of(cases)),
        }
    }

    pub fn target(self, least: f64) -> Self {
        Row {
            target: Some(least),
            ..self
        }
    }
}

/// The cases of a row, with room for their answers: to drop these is no part of a call.
struct Both<C: Call> {
    rust: Vec<C::Rust>,
    library: Vec<C::Library>,
    cases: Vec<C>,
}

impl<C: Call> Both<C> {
    fn of(cases: Vec<C>) -> Self {
        Both {
            rust: Vec::with_capacity(cases.len()),
            library: Vec::with_capacity(cases.len()),
            cases,
        }
    }

    fn swept(&self, taken: Duration) -> Swept {
        Swept {
            taken,
            calls: self.cases.len() as u32,
        }
    }
}

impl<C: Call> Sides for Both<C> {
    fn rust(&mut self) -> Swept {
        let taken = sweep(&mut self.cases, &mut self.rust, |case| case.rust());
        self.swept(taken)
    }

    fn library(&mut self) -> Swept {
        let taken = sweep(&mut self.cases, &mut self.library, C::library);
        self.swept(taken)
    }
}
