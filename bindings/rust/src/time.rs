//! Times, in nanoseconds up to 2^53.

use crate::Refusal;
use crate::refusal::answered;
use yilgashe_sys as sys;

/// The last time that is taken.
pub const MAX: u64 = 1 << 53;

/// The later time minus the earlier, 0 if negative.
///
/// ```
/// use yilgashe::{Refusal, time};
///
/// assert_eq!(time::duration_since(50, 20), Ok(30));
/// assert_eq!(time::duration_since(20, 50), Ok(0));
/// assert_eq!(time::duration_since(time::MAX + 1, 0), Err(Refusal::Clock));
/// ```
pub fn duration_since(later: u64, earlier: u64) -> Result<u64, Refusal> {
    let answer = sys::time_duration_since(later, earlier);
    answered(answer.refusal)?;
    Ok(answer.nanos)
}

/// A time in seconds, rounded once.
pub fn as_secs_f64(nanos: u64) -> Result<f64, Refusal> {
    let answer = sys::time_as_secs_f64(nanos);
    answered(answer.refusal)?;
    Ok(answer.seconds)
}
