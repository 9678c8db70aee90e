//! The hall.

use crate::matches::Matches;
use crate::proposed::raw_objectives;
use crate::refusal::answered;
use crate::{Booking, KeyRecord, Refusal, Roster, RoundRules, SoftObjective};
use yilgashe_sys as sys;
use yilgashe_sys::{BeamSearch, Games, MatchObjective, TeamComposition};

/// Who waits, for which of up to eight games, and the keys of the calls that were answered: 64 guests and 1,024 keys at most, for all games
/// together, and no key is ever dropped.
///
/// A call that is sent again with its key gets the answer that it got and changes nothing. A key stands for the whole call: a booking that
/// is not [equal](Booking) to the one noted, in a bit of its rating too, is [`KeyClash`](Refusal::KeyClash). Refusals
/// [`Clock`](Refusal::Clock), [`AlreadyWaiting`](Refusal::AlreadyWaiting), [`HallFull`](Refusal::HallFull),
/// [`NotWaiting`](Refusal::NotWaiting) and [`NoSuchGame`](Refusal::NoSuchGame) are noted with the key, so a corrected call needs a new key.
///
/// ```
/// use yilgashe::{Booking, Games, Hall, Refusal, TeamComposition};
///
/// let mut hall = Hall::new(Games::of([TeamComposition { a: 5, b: 5 }]));
/// let guest = |player, rating| Booking { player, rating, ..Booking::default() };
/// assert_eq!(hall.book(7, guest(1, 1000.0)), Ok(()));
/// assert_eq!(hall.book(7, guest(1, 1000.0)), Ok(())); // sent again
/// assert_eq!(hall.waiting(), [guest(1, 1000.0)]);
/// assert_eq!(hall.book(7, guest(2, 1000.0)), Err(Refusal::KeyClash));
/// assert_eq!(hall.book(7, guest(1, 1020.0)), Err(Refusal::KeyClash));
/// assert_eq!(hall.withdraw(8, 1), Ok(()));
/// assert_eq!(hall.withdraw(9, 1), Err(Refusal::NotWaiting));
/// ```
///
/// A game is a number, 0 to 7. A round takes the sizes of its game and those who wait for it, and leaves all others waiting as they are. A
/// number over 7 is the library's to refuse, with [`NoSuchGame`](Refusal::NoSuchGame) before anything else.
#[derive(Clone, Debug)]
pub struct Hall(Box<sys::Hall>);

/// What a full round hands out: one match or none, and how many choices it tried.
#[derive(Clone, Debug, PartialEq)]
pub struct FullRound {
    /// At most one match.
    pub matches: Matches,
    /// All ways to choose the guests of two teams among those who waited for the game.
    pub tried: u64,
}

/// What a dispatch hands out: the game that it served, and that game's matches.
#[derive(Clone, Debug, PartialEq)]
pub struct Dispatch {
    /// None where no game had enough.
    pub served: Option<u8>,
    /// By the sizes of the game served. A game that is served may form none.
    pub matches: Matches,
}

/// The game that a number stands for.
fn game_in(served: u8) -> Option<u8> {
    (served != sys::NONE_SERVED).then_some(served)
}

impl Hall {
    /// Nobody waits, no key is noted, and no game was served. Games may have sizes over 8; every other call refuses such a hall.
    pub fn new(games: Games) -> Hall {
        Hall(Box::new(sys::hall_empty(games)))
    }

    /// The games with their sizes.
    pub fn games(&self) -> Games {
        let sizes = self.0.sizes;
        Games { sizes }
    }

    /// The last game that a dispatch served, if one did.
    pub fn last_served(&self) -> Option<u8> {
        game_in(self.0.served)
    }

    /// The bookings of those who wait, for whatever game, in the order booked.
    pub fn waiting(&self) -> Vec<Booking> {
        let booked = self.0.booked().iter();
        booked.map(|&raw| raw.into()).collect()
    }

    /// The answered calls, in the order of coming.
    pub fn noted(&self) -> Vec<KeyRecord> {
        self.0.answered().map(KeyRecord::of).collect()
    }

    /// A booking under a key. A guest waits for one game at a time.
    pub fn book(&mut self, key: u64, booking: Booking) -> Result<(), Refusal> {
        self.keep(sys::hall_book(*self.0, key, booking.into()))
    }

    /// A withdrawal under a key.
    pub fn withdraw(&mut self, key: u64, player: u64) -> Result<(), Refusal> {
        self.keep(sys::hall_withdraw(*self.0, key, player))
    }

    /// The greedy search over those who wait for the game: of equally near guests the longer wait goes first. The seated leave.
    pub fn greedy_round(
        &mut self,
        game: u8,
        clock: u64,
        roster: &Roster,
    ) -> Result<Matches, Refusal> {
        let mut matches = Matches::of_64(self.sizes_of(game));
        let (players, qualities) = matches.lent();
        let answer = sys::hall_greedy_round(
            *self.0,
            game,
            clock,
            &roster.ids,
            &roster.ratings,
            players,
            qualities,
        );
        self.seat(&answer)?;
        Ok(matches.first(answer.count))
    }

    /// The beam search over those who wait for the game, by the `width` partial matches of best score; the seated leave.
    pub fn beam_round(
        &mut self,
        width: usize,
        game: u8,
        objective: MatchObjective,
        clock: u64,
        roster: &Roster,
    ) -> Result<Matches, Refusal> {
        let mut matches = Matches::of_64(self.sizes_of(game));
        let (players, qualities) = matches.lent();
        let answer = sys::hall_beam_round(
            *self.0,
            BeamSearch { width },
            game,
            objective,
            clock,
            &roster.ids,
            &roster.ratings,
            &roster.deviations,
            players,
            qualities,
        );
        self.seat(&answer)?;
        Ok(matches.first(answer.count))
    }

    /// The best by the soft objectives among all choices of those who wait for the game that meet the rules, the last of equal best; the
    /// seated leave.
    ///
    /// A table needs a healer here, and the most even one is wished for:
    ///
    /// ```
    /// use yilgashe::{Booking, Games, Hall, Refusal, Roster, Row, TeamComposition};
    /// use yilgashe::{Constraints, RoleRequirement, RoundRules, SoftObjective};
    ///
    /// const HEALER: u32 = 1;
    /// let mut hall = Hall::new(Games::of([TeamComposition { a: 1, b: 1 }]));
    /// let mut rows = Vec::new();
    /// for (player, rating, role) in [(5, 1150.0, 0), (6, 1180.0, 0), (7, 1300.0, HEALER)] {
    ///     hall.book(player, Booking { player, rating, role, ..Booking::default() })?;
    ///     rows.push(Row { player, rating, role, ..Row::default() });
    /// }
    /// let roster: Roster = rows.into_iter().collect();
    /// let healer = RoleRequirement { role: HEALER, least: 1, most: None };
    /// let rules = RoundRules::from(Constraints { roles: Some(vec![healer]), ..Constraints::default() });
    /// let round = hall.full_round(0, &rules, &[SoftObjective::Skill(1.0)], 0, &roster)?;
    /// assert_eq!(round.tried, 3);
    /// let table = round.matches.iter().next().unwrap();
    /// assert_eq!((table.team_a, table.team_b), (&[6][..], &[7][..]));
    /// # Ok::<(), Refusal>(())
    /// ```
    pub fn full_round(
        &mut self,
        game: u8,
        rules: &RoundRules,
        objectives: &[SoftObjective],
        clock: u64,
        roster: &Roster,
    ) -> Result<FullRound, Refusal> {
        let mut matches = Matches::of_64(self.sizes_of(game));
        let (players, qualities) = matches.lent();
        let answer = sys::hall_full_round(
            *self.0,
            game,
            rules.raw(),
            raw_objectives(objectives),
            clock,
            &roster.ids,
            &roster.ratings,
            &roster.parties,
            &roster.roles,
            &roster.regions,
            players,
            qualities,
        );
        self.seat(&answer)?;
        Ok(FullRound {
            matches: matches.first(answer.count),
            tried: answer.tried,
        })
    }

    /// The greedy round of the game whose turn it is: the next one in circular order behind the [last one served](Hall::last_served),
    /// from game 0 where none was, that has seats, and at least as many bookings as seats. That game is then served, whether it forms a
    /// match or none. Where no game has enough, none is served, and the hall stays as it is.
    ///
    /// A game that has enough before each of eight dispatches in a row, refused ones not counted, is served by one of them, whatever
    /// other calls stand between.
    ///
    /// ```
    /// use yilgashe::{Booking, Games, Hall, Refusal, Roster, TeamComposition};
    ///
    /// let (pairs, alone) = (TeamComposition { a: 1, b: 1 }, TeamComposition { a: 1, b: 0 });
    /// let mut hall = Hall::new(Games::of([pairs, alone]));
    /// for (player, game) in [(1, 1), (2, 0), (3, 0), (4, 0)] {
    ///     hall.book(player, Booking { player, game, ..Booking::default() })?;
    /// }
    /// let mut served = Vec::new();
    /// for _ in 0..3 {
    ///     let dispatch = hall.dispatch(0, &Roster::new())?;
    ///     served.push((dispatch.served, dispatch.matches.players().to_vec()));
    /// }
    /// assert_eq!(served, [(Some(0), vec![2, 3]), (Some(1), vec![1]), (None, vec![])]);
    /// assert_eq!((hall.last_served(), hall.waiting().len()), (Some(1), 1));
    /// # Ok::<(), Refusal>(())
    /// ```
    pub fn dispatch(&mut self, clock: u64, roster: &Roster) -> Result<Dispatch, Refusal> {
        let mut matches = Matches::of_64(TeamComposition::default());
        let (players, qualities) = matches.lent();
        let answer = sys::hall_dispatch(
            *self.0,
            clock,
            &roster.ids,
            &roster.ratings,
            players,
            qualities,
        );
        self.seat(&answer)?;
        let sizes = self.sizes_of(answer.served);
        Ok(Dispatch {
            served: game_in(answer.served),
            matches: matches.read_by(sizes).first(answer.count),
        })
    }

    /// The sizes by which a game's matches are read. Of a number over 7 there are none: the library refuses it, or served no game.
    fn sizes_of(&self, game: u8) -> TeamComposition {
        let sizes = self.0.sizes.get(usize::from(game));
        sizes.copied().unwrap_or_default()
    }

    /// The hall as a keyed call leaves it.
    fn keep(&mut self, answer: sys::Keyed) -> Result<(), Refusal> {
        *self.0 = answer.hall;
        answered(answer.refusal)
    }

    /// The hall as a round leaves it.
    fn seat(&mut self, answer: &sys::Rounded) -> Result<(), Refusal> {
        *self.0 = answer.hall;
        answered(answer.refusal)
    }
}

/// A hall as the library has it, to be kept elsewhere and taken up again.
impl From<sys::Hall> for Hall {
    fn from(raw: sys::Hall) -> Hall {
        Hall(Box::new(raw))
    }
}

impl AsRef<sys::Hall> for Hall {
    fn as_ref(&self) -> &sys::Hall {
        &self.0
    }
}
