//! Stand-in: the three parts of the world that the published files read.

use crate::player::{PlayerId, PlayerObservation, PlayerReality};
use crate::time::SimTime;
use std::collections::HashMap;

#[derive(Debug, Clone)]
pub struct World {
    pub observations: HashMap<PlayerId, PlayerObservation>,
    pub players: HashMap<PlayerId, PlayerReality>,
    pub time: SimTime,
}
