//! Sizes of teams, and matches laid on sheets.

use super::from_players;
use crate::data::Sheets;
use matchlab_core::match_;
use matchlab_matchmaking::matchmaker::ProposedMatch;
use yilgashe_sys::TeamComposition;

pub fn to_teams(sizes: &TeamComposition) -> match_::TeamComposition {
    match_::TeamComposition {
        team_size_a: sizes.a,
        team_size_b: sizes.b,
    }
}

/// How many matches, and the sheets with them: match by match, team A then B, and a quality for each.
pub fn laid_on(sheets: &Sheets, matches: &[ProposedMatch]) -> (usize, Sheets) {
    let teams = matches.iter().flat_map(|m| [&m.team_a, &m.team_b]);
    let players: Vec<u64> = teams.flat_map(|team| from_players(team)).collect();
    let qualities: Vec<f64> = matches.iter().map(|m| m.quality_score).collect();
    let mut laid = sheets.clone();
    laid.players[..players.len()].copy_from_slice(&players);
    laid.qualities[..qualities.len()].copy_from_slice(&qualities);
    (matches.len(), laid)
}
