//! The matches that a search, a generator or a round hands out.

use yilgashe_sys::TeamComposition;

/// One match: who plays whom, and how even it is. Full rounds and generators give quality 0.0.
#[derive(Clone, Copy, Debug, PartialEq)]
pub struct Match<'a> {
    /// Team A, in the order of joining.
    pub team_a: &'a [u64],
    /// Team B, in the order of joining.
    pub team_b: &'a [u64],
    /// 0.0 to 1.0.
    pub quality: f64,
}

/// The matches of one call, in the order that they were formed.
///
/// ```
/// use yilgashe::{Queue, QueueEntry, TeamComposition};
///
/// let queue: Queue = (1..=3).map(|player| QueueEntry { player, ..QueueEntry::default() }).collect();
/// let all = queue.exhaustive(TeamComposition { a: 1, b: 1 })?;
/// let pairs: Vec<(u64, u64)> = all.iter().map(|table| (table.team_a[0], table.team_b[0])).collect();
/// assert_eq!(pairs, [(1, 2), (1, 3), (2, 3)]);
/// # Ok::<(), yilgashe::Refusal>(())
/// ```
#[derive(Clone, Debug, PartialEq)]
pub struct Matches {
    sizes: TeamComposition,
    players: Vec<u64>,
    qualities: Vec<f64>,
}

impl Matches {
    /// Sheets with room for so many guests and matches.
    pub(crate) fn sheets(sizes: TeamComposition, players: usize, qualities: usize) -> Matches {
        Matches {
            sizes,
            players: vec![0; players],
            qualities: vec![0.0; qualities],
        }
    }

    /// The sheets of rounds, searches and the nearest generator: no call fills more than 64 places.
    pub(crate) fn of_64(sizes: TeamComposition) -> Matches {
        Matches::sheets(sizes, 64, 64)
    }

    /// To be read by these sizes.
    pub(crate) fn read_by(self, sizes: TeamComposition) -> Matches {
        Matches { sizes, ..self }
    }

    /// Both sheets, to be written to.
    pub(crate) fn lent(&mut self) -> (&mut [u64], &mut [f64]) {
        (&mut self.players, &mut self.qualities)
    }

    /// The first `count` matches alone.
    pub(crate) fn first(mut self, count: usize) -> Matches {
        self.players.truncate(count * (self.sizes.a + self.sizes.b));
        self.qualities.truncate(count);
        self
    }

    /// How many there are.
    pub fn len(&self) -> usize {
        self.qualities.len()
    }

    /// Is there none?
    pub fn is_empty(&self) -> bool {
        self.qualities.is_empty()
    }

    /// The sizes of the two teams.
    pub fn sizes(&self) -> TeamComposition {
        self.sizes
    }

    /// Everyone who is seated, match by match.
    pub fn players(&self) -> &[u64] {
        &self.players
    }

    /// The match at a place, from 0.
    pub fn get(&self, place: usize) -> Option<Match<'_>> {
        let quality = *self.qualities.get(place)?;
        let TeamComposition { a, b } = self.sizes;
        let seats = &self.players[place * (a + b)..][..a + b];
        let (team_a, team_b) = seats.split_at(a);
        Some(Match {
            team_a,
            team_b,
            quality,
        })
    }

    /// Match by match.
    pub fn iter(&self) -> Iter<'_> {
        Iter {
            matches: self,
            places: 0..self.len(),
        }
    }
}

impl<'a> IntoIterator for &'a Matches {
    type Item = Match<'a>;
    type IntoIter = Iter<'a>;

    fn into_iter(self) -> Iter<'a> {
        self.iter()
    }
}

/// Goes through [`Matches`].
#[derive(Clone, Debug)]
pub struct Iter<'a> {
    matches: &'a Matches,
    places: std::ops::Range<usize>,
}

impl<'a> Iterator for Iter<'a> {
    type Item = Match<'a>;

    fn next(&mut self) -> Option<Match<'a>> {
        self.matches.get(self.places.next()?)
    }

    fn size_hint(&self) -> (usize, Option<usize>) {
        self.places.size_hint()
    }
}

impl ExactSizeIterator for Iter<'_> {}
