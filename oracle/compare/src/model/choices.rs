//! Refusals of a full round's choice, and the choices that refusal 5 looks at.

use super::rules::{bad, bad_pairs, long, over_limit, unlisted, weighted_sum};
use super::{
    BAD_ROSTER, CLOCK, LISTED_LIMIT, NO_RECORD, OVER_LIMIT, TEAM_LIMIT, TOO_WIDE, UNRANKED, first,
    joined_late, large, over, unranked,
};
use crate::data::{FullRound, Rows};
use yilgashe_sys::{
    Constraints, ProposedMatch, Queue, QueueEntry, RegionConstraint, RoleRequirement,
    SoftObjectives, Team, TeamComposition,
};

/// What a full round's choice brings.
#[derive(Debug)]
pub struct Choice {
    pub queue: Queue,
    pub sizes: TeamComposition,
    pub constraints: Constraints,
    /// Only a full round of the hall can bring them.
    pub waiting_friends: bool,
    pub objectives: SoftObjectives,
    pub rows: Rows,
}

pub fn best_choice(choice: &Choice) -> u8 {
    let brought_over = over_limit(&choice.constraints) || unlisted(&choice.objectives);
    let seats_over = over(&choice.queue) || large(&choice.sizes);
    let bad = bad(&choice.rows) || bad_pairs(&choice.constraints);
    let checked = first(&[
        (seats_over || brought_over || long(&choice.rows), OVER_LIMIT),
        (bad, BAD_ROSTER),
        (joined_late(&choice.queue), CLOCK),
        (choice.queue.len > LISTED_LIMIT, TOO_WIDE),
    ]);
    match checked {
        0 => {
            let passing = choice.weighed().into_iter().filter(|(passes, _)| *passes);
            let scores: Vec<f64> = passing.map(|(_, score)| score).collect();
            first(&[(unranked(&scores), UNRANKED)])
        }
        number => number,
    }
}

/// Request 2.3: is each guest seated who waits with the party of somebody seated? Whoever waits twice has both parties; 0 is none.
pub fn friends_seated(waiting: &[QueueEntry], seated: &[u64]) -> bool {
    let sits = |entry: &QueueEntry| seated.contains(&entry.player);
    let at_table = waiting.iter().filter(|entry| sits(entry));
    let parties: Vec<u64> = at_table.map(|entry| entry.party).collect();
    let mut friends = waiting
        .iter()
        .filter(|entry| entry.party != 0 && parties.contains(&entry.party));
    friends.all(sits)
}

/// Does somebody wait twice, with two parties other than 0?
pub fn of_two_parties(waiting: &[QueueEntry]) -> bool {
    let in_party = || waiting.iter().filter(|entry| entry.party != 0);
    in_party().any(|one| {
        let mut own = in_party().filter(|other| other.player == one.player);
        own.any(|other| other.party != one.party)
    })
}

impl Choice {
    /// Of a full round of the hall, where those of `queue` wait.
    pub fn of(queue: Queue, sizes: TeamComposition, full: &FullRound) -> Self {
        Choice {
            queue,
            sizes,
            constraints: full.rules.constraints,
            waiting_friends: full.rules.waiting_friends,
            objectives: full.objectives,
            rows: full.rows.clone(),
        }
    }
}

/// For input within the limits.
impl Choice {
    /// Of every choice: does it pass all that is brought, and what does it score?
    pub fn weighed(&self) -> Vec<(bool, f64)> {
        let each = self.listed().into_iter().map(|teams| {
            let score = weighted_sum(&self.objectives, &teams, &self.rows);
            (self.passes(&teams), score)
        });
        each.collect()
    }

    /// Every choice, in ascending order of its places.
    pub fn listed(&self) -> Vec<ProposedMatch> {
        let choices = choices(self.queue.len, self.sizes.a + self.sizes.b);
        choices.iter().map(|places| self.teams(places)).collect()
    }

    /// Of the choices that pass, the last of those that score highest, if any passes; none where two or more pass and one is NaN.
    pub fn best(&self) -> Option<Option<ProposedMatch>> {
        let weighed = self.listed().into_iter().zip(self.weighed());
        let passing = weighed.filter(|(_, (passes, _))| *passes);
        let scored: Vec<(ProposedMatch, f64)> = passing.map(|(m, (_, s))| (m, s)).collect();
        let scores: Vec<f64> = scored.iter().map(|(_, score)| *score).collect();
        if unranked(&scores) {
            return None;
        }
        let best = scored
            .into_iter()
            .reduce(|best, next| match next.1 < best.1 {
                true => best,
                false => next,
            });
        Some(best.map(|(teams, _)| teams))
    }

    /// The first A places sit in team A, the others in B.
    fn teams(&self, places: &[usize]) -> ProposedMatch {
        let team = |places: &[usize]| {
            let mut players = [0; TEAM_LIMIT];
            for (seat, &place) in places.iter().enumerate() {
                players[seat] = self.queue.entries[place].player;
            }
            let len = places.len();
            Team { players, len }
        };
        let (a, b) = places.split_at(self.sizes.a);
        ProposedMatch {
            a: team(a),
            b: team(b),
        }
    }

    fn passes(&self, teams: &ProposedMatch) -> bool {
        let Constraints {
            brought,
            sizes,
            roles,
            regions,
        } = &self.constraints;
        let seated = [teams.a.seated(), teams.b.seated()].concat();
        let sized = || (teams.a.len, teams.b.len) == (sizes.a, sizes.b);
        let cast = || roles.listed().iter().all(|role| self.cast(role, &seated));
        let allowed = || self.allowed(regions, teams);
        (!brought.sizes || sized())
            && (!brought.roles || cast())
            && (!brought.parties || self.whole(&seated))
            && (!brought.latency || self.above_zero(&seated))
            && (!brought.regions || allowed())
            && self.keeps_friends(&seated)
    }

    /// Are waiting friends not brought, or seated with each of these?
    pub fn keeps_friends(&self, seated: &[u64]) -> bool {
        !self.waiting_friends || friends_seated(self.queue.waiting(), seated)
    }

    fn row(&self, player: u64) -> Option<usize> {
        self.rows.ids.iter().position(|&id| id == player)
    }

    fn cast(&self, wanted: &RoleRequirement, seated: &[u64]) -> bool {
        let rows = seated.iter().filter_map(|&player| self.row(player));
        let roles = rows.map(|row| self.rows.roles()[row]);
        let count = roles.filter(|&role| role > 0 && role == wanted.role);
        let count = count.count();
        count >= wanted.least && (!wanted.bounded || count <= wanted.most)
    }

    /// Every row of a seated player's party is that of a seated player.
    fn whole(&self, seated: &[u64]) -> bool {
        let parties = self.rows.parties();
        let rows = seated.iter().filter_map(|&player| self.row(player));
        let mut seated_parties = rows.map(|row| parties[row]).filter(|&party| party > 0);
        seated_parties.all(|party| {
            let mut members = self.rows.ids.iter().zip(parties);
            members.all(|(id, of)| *of != party || seated.contains(id))
        })
    }

    fn above_zero(&self, seated: &[u64]) -> bool {
        let mut rows = seated.iter().filter_map(|&player| self.row(player));
        rows.all(|row| self.rows.ratings()[row] > 0.0)
    }

    /// Each recorded player of A with each of B.
    fn allowed(&self, allowed: &RegionConstraint, teams: &ProposedMatch) -> bool {
        let recorded = |team: &Team| -> Vec<u8> {
            let rows = team.seated().iter().filter_map(|&player| self.row(player));
            let codes = rows.map(|row| self.rows.regions()[row]);
            codes.filter(|&code| code < NO_RECORD).collect()
        };
        let pairs = allowed.listed();
        let listed = |a, b| pairs.iter().any(|p| (p.first, p.second) == (a, b));
        let (of_a, of_b) = (recorded(&teams.a), recorded(&teams.b));
        let mut each = of_a.iter().flat_map(|&a| of_b.iter().map(move |&b| (a, b)));
        each.all(|(a, b)| listed(a, b) || listed(b, a))
    }
}

/// Every choice of `seats` of `n` places, in ascending order.
pub fn choices(n: usize, seats: usize) -> Vec<Vec<usize>> {
    let mut grown: Vec<Vec<usize>> = vec![Vec::new()];
    for seat in 0..seats {
        // So many places have to stay free behind the next one.
        let behind = seats - seat - 1;
        let longer = |places: Vec<usize>| {
            let from = places.last().map_or(0, |last| last + 1);
            let next = from..n.saturating_sub(behind);
            next.map(move |place| [&places[..], &[place]].concat())
        };
        grown = grown.into_iter().flat_map(longer).collect();
    }
    grown
}

#[cfg(test)]
mod tests {
    use super::super::{CLOCK_LIMIT, ways};
    use super::*;
    use yilgashe_sys::{Brought, RegionPair, RoleRequirements, TeamSizeConstraint};

    /// Guests from 1 to n, all rostered alike; no constraint is brought, and wait alone counts.
    fn choice(n: u64, a: usize, b: usize) -> Choice {
        let entry = |player| QueueEntry {
            player,
            ..QueueEntry::default()
        };
        let entries: Vec<QueueEntry> = (1..=n).map(entry).collect();
        let rows = n as usize;
        let role = RoleRequirement {
            role: 1,
            least: 1,
            bounded: true,
            most: 1,
        };
        let pair = |first, second| RegionPair { first, second };
        Choice {
            queue: Queue::of(&entries),
            sizes: TeamComposition { a, b },
            constraints: Constraints {
                brought: Brought::default(),
                sizes: TeamSizeConstraint { a: 1, b: 1 },
                roles: RoleRequirements {
                    of: [role; 8],
                    len: 1,
                },
                regions: RegionConstraint {
                    pairs: [pair(1, 0); 16],
                    count: 1,
                },
            },
            waiting_friends: false,
            objectives: SoftObjectives {
                kinds: [2; 8],
                weights: [1.0; 8],
                len: 1,
            },
            rows: Rows {
                ids: (1..=n).collect(),
                ratings: Some(vec![100.0; rows]),
                parties: Some(vec![0; rows]),
                roles: Some(vec![0; rows]),
                regions: Some(vec![NO_RECORD; rows]),
            },
        }
    }

    fn passing(choice: &Choice) -> Vec<bool> {
        let weighed = choice.weighed().into_iter();
        weighed.map(|(passes, _)| passes).collect()
    }

    #[test]
    fn choices_ascend() {
        assert_eq!(choices(3, 2), [[0, 1], [0, 2], [1, 2]]);
        assert_eq!(choices(3, 0), [[0; 0]]);
        assert_eq!(choices(2, 3), [[0; 0]; 0]);
        assert_eq!(choices(0, 1), [[0; 0]; 0]);
        for (n, seats) in [(9, 4), (20, 3), (12, 12), (16, 15)] {
            let listed = choices(n, seats);
            assert_eq!(listed.len(), ways(n, seats));
            assert!(listed.is_sorted());
        }
    }

    /// Mends one check after another, each showing the next.
    #[test]
    fn a_choice_checks_in_order() {
        let mut wide = choice(21, 9, 1);
        wide.queue.entries[20].joined = CLOCK_LIMIT + 1;
        wide.rows.regions = Some(vec![NO_RECORD + 1; 21]);
        wide.objectives.len = 9;
        wide.objectives.weights[0] = f64::NAN;
        wide.constraints.brought.roles = true;
        wide.constraints.roles.len = 9;
        wide.constraints.regions.pairs[0].first = NO_RECORD + 1;
        assert_eq!(best_choice(&wide), 1);
        wide.sizes.a = 1;
        assert_eq!(best_choice(&wide), 1);
        wide.objectives.len = 1;
        assert_eq!(best_choice(&wide), 1);
        wide.constraints.roles.len = 0;
        assert_eq!(best_choice(&wide), 2);
        wide.rows.regions = Some(vec![NO_RECORD; 21]);
        assert_eq!(best_choice(&wide), 4);
        wide.constraints.brought.regions = true;
        assert_eq!(best_choice(&wide), 2);
        wide.constraints.regions.pairs[0].first = NO_RECORD;
        assert_eq!(best_choice(&wide), 4);
        wide.queue.entries[20].joined = CLOCK_LIMIT;
        assert_eq!(best_choice(&wide), 6);
        wide.queue.len = 20;
        assert_eq!(best_choice(&wide), 5);
        wide.objectives.weights[0] = 1.0;
        assert_eq!(best_choice(&wide), 0);
        wide.objectives.kinds[0] = 3;
        assert_eq!(best_choice(&wide), 1);
    }

    #[test]
    fn only_choices_that_pass_are_ranked() {
        let mut nan = choice(3, 1, 1);
        nan.objectives.weights[0] = f64::NAN;
        assert_eq!(best_choice(&nan), 5);
        // Guest 3 bars two of the three choices.
        nan.rows.ratings = Some(vec![1.0, 1.0, 0.0]);
        assert_eq!(best_choice(&nan), 5);
        nan.constraints.brought.latency = true;
        assert_eq!(passing(&nan), [true, false, false]);
        assert_eq!(best_choice(&nan), 0);
        nan.rows.ratings = Some(vec![0.0; 3]);
        assert_eq!(best_choice(&nan), 0);
    }

    #[test]
    fn each_constraint_bars_its_own() {
        let mut three = choice(3, 1, 1);
        three.rows.roles = Some(vec![1, 1, 0]);
        three.rows.parties = Some(vec![0, 7, 7]);
        three.rows.regions = Some(vec![0, 1, 1]);
        three.constraints.brought.roles = true;
        assert_eq!(passing(&three), [false, true, true]);
        three.constraints.brought.regions = true;
        assert_eq!(passing(&three), [false, true, false]);
        three.constraints.brought.parties = true;
        assert_eq!(passing(&three), [false, false, false]);
        three.constraints.brought.roles = false;
        three.constraints.brought.regions = false;
        assert_eq!(passing(&three), [false, false, true]);
        three.constraints.brought.sizes = true;
        assert_eq!(passing(&three), [false, false, true]);
        three.constraints.sizes.b = 0;
        assert_eq!(passing(&three), [false, false, false]);
    }

    /// Guests who wait, each with his party.
    fn waiting(entries: &[(u64, u64)]) -> Vec<QueueEntry> {
        let entry = |&(player, party)| QueueEntry {
            player,
            party,
            ..QueueEntry::default()
        };
        entries.iter().map(entry).collect()
    }

    #[test]
    fn friends_are_seated_together_or_not_at_all() {
        let pair = waiting(&[(1, 7), (2, 0), (3, 7), (4, 0), (5, 8)]);
        let kept: [&[u64]; 7] = [&[], &[2], &[2, 4], &[5], &[1, 3], &[3, 5, 1], &[9]];
        assert!(kept.iter().all(|seated| friends_seated(&pair, seated)));
        let parted: [&[u64]; 4] = [&[1], &[3], &[2, 3], &[1, 2, 4, 5]];
        assert!(!parted.iter().any(|seated| friends_seated(&pair, seated)));
    }

    /// Guest 2 is a friend of both others, who are none of each other.
    #[test]
    fn each_entry_of_a_guest_makes_friends() {
        let doubled = waiting(&[(1, 7), (2, 7), (3, 8), (2, 8), (4, 0), (4, 9)]);
        let parted: [&[u64]; 5] = [&[1], &[2], &[1, 2], &[2, 3], &[1, 3]];
        assert!(!parted.iter().any(|seated| friends_seated(&doubled, seated)));
        assert!(friends_seated(&doubled, &[1, 2, 3]));
        assert!(friends_seated(&doubled, &[4]));
        assert!(of_two_parties(&doubled));
        assert!(!of_two_parties(&doubled[..3]));
        assert!(!of_two_parties(&doubled[2..]));
    }

    #[test]
    fn waiting_friends_bar_choices_where_they_are_brought() {
        let mut three = choice(3, 1, 1);
        three.queue.entries[0].party = 7;
        three.queue.entries[2].party = 7;
        // One who does not wait bars nothing.
        three.queue.entries[3] = QueueEntry {
            player: 9,
            ..three.queue.entries[0]
        };
        three.rows.parties = Some(vec![5, 5, 0]);
        assert_eq!(passing(&three), [true, true, true]);
        three.waiting_friends = true;
        assert_eq!(passing(&three), [false, true, false]);
        three.constraints.brought.parties = true;
        assert_eq!(passing(&three), [false, false, false]);
        three.waiting_friends = false;
        assert_eq!(passing(&three), [true, false, false]);
    }

    /// One that passes alone is not ranked.
    #[test]
    fn friends_leave_one_choice_that_scores_nan() {
        let mut nan = choice(3, 1, 1);
        nan.objectives.weights[0] = f64::NAN;
        nan.queue.entries[0].party = 7;
        nan.queue.entries[2].party = 7;
        assert_eq!(best_choice(&nan), 5);
        nan.waiting_friends = true;
        assert_eq!(best_choice(&nan), 0);
    }
}
