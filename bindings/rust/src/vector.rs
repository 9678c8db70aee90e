//! Objective vectors: what a match is worth by six measures.

use yilgashe_sys as sys;
use yilgashe_sys::{MatchObjectiveVector, ObjectiveWeights};

/// The weighted sum of the coordinates, the wait's share taken off.
pub fn scalarize(vector: MatchObjectiveVector, weights: ObjectiveWeights) -> f64 {
    sys::vector_scalarize(vector, weights)
}

/// Is the vector nowhere worse than the other, and somewhere better? NaN is neither better nor worse.
///
/// ```
/// use yilgashe::vector;
///
/// let one = vector::zeros();
/// let mut other = one;
/// other.wait = 1.0;
/// assert!(vector::dominates(one, other));
/// assert!(!vector::dominates(one, one));
/// ```
pub fn dominates(vector: MatchObjectiveVector, other: MatchObjectiveVector) -> bool {
    sys::vector_dominates(vector, other)
}

/// All zeros.
pub fn zeros() -> MatchObjectiveVector {
    sys::vector_default()
}

/// 1.0, 0.5, 0.3, 0.2, 0.8 and 0.0.
pub fn default_weights() -> ObjectiveWeights {
    sys::weights_default()
}
