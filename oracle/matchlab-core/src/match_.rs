//! Stand-in: the sizes of the two teams, all that the published files read.

#[derive(Debug, Clone)]
pub struct TeamComposition {
    pub team_size_a: usize,
    pub team_size_b: usize,
}
