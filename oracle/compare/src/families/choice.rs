//! The choice of a full round: candidate.rs lists, constraint.rs filters, selection.rs takes the best.

use crate::draw::{self, Scale};
use crate::function::{Function, Listed, Stored, stored};
use crate::model::{self, Choice};
use crate::rng::Rng;
use crate::translate::{
    from_players, to_objectives, to_policy, to_queue, to_ruled_world, to_teams,
};
use crate::words::Words;
use matchlab_core::rng::SimRng;
use matchlab_core::time::SimTime;
use matchlab_matchmaking::candidate::{CandidateGenerator, ExhaustiveGenerator};
use matchlab_matchmaking::matchmaker::ProposedMatch;
use matchlab_matchmaking::selection::{GreedySelection, MatchSelectionPolicy};
use yilgashe_sys::{self as library, Team};

pub const FUNCTIONS: &[Listed] = &[stored::<BestChoice>()];

/// How many, then each.
type Seated = (usize, Vec<u64>);

/// The teams that are found, and how many choices were tried.
type Best = (Option<(Seated, Seated)>, u64);

fn seated(team: &Team) -> Seated {
    (team.len, team.seated().to_vec())
}

struct BestChoice;

impl Function for BestChoice {
    const NAME: &'static str = "best_choice";
    type Case = Choice;
    type Answer = Best;

    fn draw(rng: &mut Rng, scale: Scale) -> Choice {
        draw::choice(rng, scale)
    }

    fn refusal(choice: &Choice) -> u8 {
        model::best_choice(choice)
    }

    fn refused(_: &Choice) -> Best {
        (None, 0)
    }

    /// Of the policy the constraints alone are asked. It knows no waiting friends: where a test brings them, the model keeps them
    /// together. The clock is not read.
    fn rust(choice: &Choice) -> Best {
        let world = to_ruled_world(&choice.rows);
        let mut matches = ExhaustiveGenerator.generate_candidates(
            &to_queue(&choice.queue),
            &to_teams(&choice.sizes),
            &world,
            SimTime::ZERO,
            &mut SimRng::from_seed(0),
        );
        let tried = matches.len() as u64;
        let policy = to_policy(&choice.constraints, &choice.objectives);
        matches.retain(|proposed| {
            let seated = [&proposed.team_a[..], &proposed.team_b].concat();
            policy.satisfies_constraints(proposed, &world)
                && choice.keeps_friends(&from_players(&seated))
        });
        let objectives = to_objectives(&choice.objectives);
        let best = GreedySelection { objectives }.select(matches, &world);
        let teams = |best: &ProposedMatch| {
            let seated = |team| {
                let players = from_players(team);
                (players.len(), players)
            };
            (seated(&best.team_a), seated(&best.team_b))
        };
        (best.first().map(teams), tried)
    }

    fn library(choice: &Choice) -> (u8, Best) {
        let given = library::best_choice(
            choice.queue,
            choice.sizes,
            choice.constraints,
            choice.objectives,
            &choice.rows.ids,
            choice.rows.ratings(),
            choice.rows.parties(),
            choice.rows.roles(),
            choice.rows.regions(),
        );
        let teams = given.teams;
        let found = given.found.then(|| (seated(&teams.a), seated(&teams.b)));
        (given.refusal, (found, given.tried))
    }
}

impl Stored for BestChoice {
    const CODE: u64 = 29;
    const ONE_OF: u64 = 2;

    fn write_case(choice: &Choice, words: &mut Words) {
        words.queue(&choice.queue);
        words.teams(&choice.sizes);
        words.constraints(&choice.constraints);
        words.objectives(&choice.objectives);
        words.rows(&choice.rows);
    }

    fn write_answer(_: &Choice, (found, tried): &Best, words: &mut Words) {
        words.flag(found.is_some());
        if let Some(((_, a), (_, b))) = found {
            words.list(a.iter().copied());
            words.list(b.iter().copied());
        }
        words.number(*tried);
    }
}

#[cfg(test)]
mod tests {
    use super::*;
    use crate::data::{Rows, nothing_brought};
    use crate::function::caught;
    use yilgashe_sys::{Queue, QueueEntry, SoftObjectives, TeamComposition, TeamSizeConstraint};

    /// Guests from 1 to n without a row, no constraint, the wait objective only.
    fn choice(n: u64, a: usize, b: usize) -> Choice {
        let entry = |player| QueueEntry {
            player,
            ..QueueEntry::default()
        };
        let entries: Vec<QueueEntry> = (1..=n).map(entry).collect();
        Choice {
            queue: Queue::of(&entries),
            sizes: TeamComposition { a, b },
            constraints: nothing_brought(),
            waiting_friends: false,
            objectives: SoftObjectives {
                kinds: [2; 8],
                weights: [1.0; 8],
                len: 1,
            },
            rows: Rows {
                ratings: Some(Vec::new()),
                parties: Some(Vec::new()),
                roles: Some(Vec::new()),
                regions: Some(Vec::new()),
                ids: Vec::new(),
            },
        }
    }

    fn found(a: &[u64], b: &[u64], tried: u64) -> Best {
        let team = |players: &[u64]| (players.len(), players.to_vec());
        (Some((team(a), team(b))), tried)
    }

    #[test]
    fn choices_at_the_table() {
        let rust = |choice: Choice| {
            assert_eq!(BestChoice::refusal(&choice), 0);
            BestChoice::rust(&choice)
        };
        assert_eq!(rust(choice(3, 1, 1)), found(&[2], &[3], 3));
        assert_eq!(rust(choice(4, 2, 2)), found(&[1, 2], &[3, 4], 1));
        assert_eq!(rust(choice(3, 0, 0)), found(&[], &[], 1));
        assert_eq!(rust(choice(0, 0, 0)), found(&[], &[], 1));
        assert_eq!(rust(choice(3, 2, 2)), (None, 0));
        let mut sized = choice(3, 1, 1);
        sized.constraints.brought.sizes = true;
        sized.constraints.sizes = TeamSizeConstraint { a: 1, b: 2 };
        assert_eq!(rust(sized), (None, 3));
    }

    /// The Rust panics just where two or more pass and one of them scores NaN; elsewhere it finds the model's best. Every other case
    /// brings waiting friends, as a full round of the hall may.
    #[test]
    fn the_model_weighs_as_the_rust_does() {
        for scale in [Scale::Full, Scale::Stored] {
            for number in 0..3000 {
                let mut case = BestChoice::draw(&mut Rng::for_case(1, "weighed", number), scale);
                case.waiting_friends = number % 2 == 1;
                let refusal = BestChoice::refusal(&case);
                if [0, 5].contains(&refusal) {
                    let rust = caught(|| BestChoice::rust(&case));
                    assert_eq!(rust.is_none(), refusal == 5, "{case:?}");
                    let best = case.best();
                    assert_eq!(best.is_none(), refusal == 5, "{case:?}");
                    if let (Some((found, tried)), Some(best)) = (rust, best) {
                        assert_eq!(case.weighed().len() as u64, tried);
                        let best = best.map(|best| (seated(&best.a), seated(&best.b)));
                        assert_eq!(found, best, "{case:?}");
                    }
                }
            }
        }
    }

    /// How often a case is of some sort.
    #[derive(Debug, Default)]
    struct Sorts {
        refused: [usize; 7],
        none: usize,
        all: usize,
        some: usize,
        tied: usize,
        tied_and_barred: usize,
        barred_nan: usize,
        lone_nan: usize,
        empty: usize,
        too_few: usize,
    }

    impl Sorts {
        fn count(&mut self, case: &Choice) {
            let refusal = BestChoice::refusal(case);
            self.refused[usize::from(refusal)] += 1;
            if refusal != 0 {
                return;
            }
            let weighed = case.weighed();
            let passing = weighed.iter().filter(|(passes, _)| *passes);
            let scores: Vec<f64> = passing.map(|(_, score)| *score).collect();
            let highest = scores.iter().copied().fold(f64::NEG_INFINITY, f64::max);
            let best = scores.iter().filter(|&&score| score == highest).count();
            let (passed, barred) = (scores.len(), weighed.len() - scores.len());
            let nan = weighed
                .iter()
                .any(|(passes, score)| !passes && score.is_nan());
            self.none += usize::from(passed == 0 && barred > 0);
            self.all += usize::from(passed > 1 && barred == 0);
            self.some += usize::from(passed > 1 && barred > 0);
            self.tied += usize::from(best > 1 && best < passed);
            self.tied_and_barred += usize::from(best > 1 && barred > 0);
            self.barred_nan += usize::from(passed > 1 && nan);
            self.lone_nan += usize::from(passed == 1 && scores[0].is_nan());
            self.empty += usize::from(case.sizes.a + case.sizes.b == 0);
            self.too_few += usize::from(weighed.is_empty());
        }
    }

    #[test]
    fn choices_of_every_sort_are_drawn() {
        for scale in [Scale::Full, Scale::Stored] {
            let mut seen = Sorts::default();
            for number in 0..3000 {
                let case = BestChoice::draw(&mut Rng::for_case(1, "sorts", number), scale);
                seen.count(&case);
            }
            assert!(seen.refused[0] > 1500, "{seen:?}");
            let refused = [1, 2, 4, 5, 6].map(|number| seen.refused[number]);
            assert!(refused.iter().all(|&count| count > 40), "{seen:?}");
            let sorts = [
                seen.none,
                seen.all,
                seen.some,
                seen.tied,
                seen.tied_and_barred,
                seen.empty,
                seen.too_few,
            ];
            assert!(sorts.iter().all(|&count| count > 40), "{seen:?}");
            assert!(seen.barred_nan > 8 && seen.lone_nan > 8, "{seen:?}");
        }
    }
}
