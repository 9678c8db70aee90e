//! Calls on small halls, which the library and the model answer alike.

use compare::data::{Answer, Call};
use compare::lists::{Counter, Counts, Library, Modelled, judge_single};
use yilgashe_sys::Hall;

/// As the library answers, and the model too; and the hall that it leaves.
pub fn serve(hall: &Hall, call: &Call) -> (Answer, Hall) {
    let judged = judge_single::<Library, Modelled>(hall, call, &mut Counts::default());
    assert_eq!(judged, Ok(()));
    let mut library = Library::with(hall);
    let answer = library.serve(call);
    (answer, library.hall())
}

pub fn refusal(hall: &Hall, call: &Call) -> u8 {
    serve(hall, call).0.refusal
}
