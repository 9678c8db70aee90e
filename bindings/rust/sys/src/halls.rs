//! The hall: keyed bookings, keyed withdrawals, the three rounds of a game and the dispatch. Each call gets the hall and gives the
//! hall that it leaves.

use crate::{
    BeamSearch, Constraints, MatchObjective, Queue, QueueEntry, SoftObjectives, TeamComposition,
};

/// What stands in the place of a game's number where no game was served.
pub const NONE_SERVED: u8 = 255;

/// The kind of a note that holds a whole booking.
pub const BOOKING: u8 = 0;

/// The kind of a withdrawal's note, of which just the guest counts.
pub const WITHDRAWAL: u8 = 1;

/// The kind of a booking's note from before notes held more than the guest. No call makes one; one that is handed in stays, and answers every
/// booking of its guest.
pub const OLDER_BOOKING: u8 = 2;

/// The sizes of the games 0 to 7, which share a hall's places and its keys. A game that is not used has sizes 0 and 0; by default no
/// game is used.
#[repr(C)]
#[derive(Clone, Copy, Debug, Default, PartialEq, Eq)]
pub struct Games {
    /// Game by game.
    pub sizes: [TeamComposition; 8],
}

/// What a booking brings beside its key, and what waits. Equal ones are those that a key takes for each other.
#[repr(C)]
#[derive(Clone, Copy, Default, PartialEq, Eq, Hash)]
pub struct Booking {
    /// Any number, 0 too.
    pub player: u64,
    /// Since when, in nanoseconds.
    pub joined: u64,
    /// The bits of the rating that searches go by, as [`f64::to_bits`] gives them.
    pub rating_bits: u64,
    /// 0 for none.
    pub party: u64,
    /// 0 for none.
    pub role: u32,
    /// 0 to 7; one that is not used is taken too.
    pub game: u8,
}

/// What is noted beside a key: the booking that came with it. A withdrawal's note and an older one hold the guest alone, and 0 in the
/// other fields.
#[repr(C)]
#[derive(Clone, Copy, Default, PartialEq, Eq, Hash)]
pub struct Note {
    /// Whom the call was for.
    pub player: u64,
    pub joined: u64,
    pub rating_bits: u64,
    pub party: u64,
    pub role: u32,
    /// Any number: a booking that is refused for its game is noted too.
    pub game: u8,
    /// [`BOOKING`], [`WITHDRAWAL`] or [`OLDER_BOOKING`].
    pub kind: u8,
    /// 0 accepted, else the refusal's number.
    pub answer: u8,
}

/// The first `waiting` bookings wait, in the order of coming, for whatever game. The first `noted` keys are noted, in the order of coming,
/// each with the note at its place. The places behind mean nothing. `sizes` are those of the games, and `served` is the last game that a
/// dispatch served, or [`NONE_SERVED`].
#[repr(C)]
#[derive(Clone, Copy)]
pub struct Hall {
    pub bookings: [Booking; 64],
    pub waiting: usize,
    pub keys: [u64; 1024],
    pub notes: [Note; 1024],
    pub noted: usize,
    pub sizes: [TeamComposition; 8],
    pub served: u8,
}

/// The hall as a keyed call leaves it.
#[repr(C)]
#[derive(Clone, Copy)]
pub struct Keyed {
    pub hall: Hall,
    pub refusal: u8,
}

/// What the match of a full round must meet: the constraints that are brought and, where waiting friends are, that everyone is seated
/// who waits for the round's game with the party, other than 0, of an entry of a seated guest.
#[repr(C)]
#[derive(Clone, Copy, Debug)]
pub struct RoundRules {
    pub constraints: Constraints,
    pub waiting_friends: bool,
}

/// `count` and `tried` are 0 where refused; `tried` is a full round's. `served` is the game that a dispatch served, and [`NONE_SERVED`]
/// where it served none, was refused, or is another round.
#[repr(C)]
#[derive(Clone, Copy)]
pub struct Rounded {
    pub hall: Hall,
    pub count: usize,
    pub tried: u64,
    pub served: u8,
    pub refusal: u8,
}

impl Games {
    /// The first games, from 0 on, with these sizes; the others are not used.
    ///
    /// ```
    /// use yilgashe_sys::{Games, TeamComposition};
    ///
    /// let (fives, twos) = (TeamComposition { a: 5, b: 5 }, TeamComposition { a: 2, b: 2 });
    /// let games = Games::of([fives, twos]);
    /// assert_eq!((games.sizes[0], games.sizes[1]), (fives, twos));
    /// assert_eq!(games.sizes[2..], [TeamComposition::default(); 6]);
    /// ```
    ///
    /// More than eight do not compile:
    ///
    /// ```compile_fail,E0080
    /// use yilgashe_sys::{Games, TeamComposition};
    ///
    /// Games::of([TeamComposition::default(); 9]);
    /// ```
    pub fn of<const N: usize>(sizes: [TeamComposition; N]) -> Self {
        const { assert!(N <= 8, "a hall has eight games") };
        let mut games = Games::default();
        games.sizes[..N].copy_from_slice(&sizes);
        games
    }
}

impl Hall {
    /// With these games, none of them served, these bookings, and these keys with their notes; at most 64 and 1,024.
    pub fn of(games: Games, bookings: &[Booking], answered: &[(u64, Note)]) -> Self {
        let mut hall = Hall {
            bookings: [Booking::default(); 64],
            waiting: bookings.len(),
            keys: [0; 1024],
            notes: [Note::default(); 1024],
            noted: answered.len(),
            sizes: games.sizes,
            served: NONE_SERVED,
        };
        hall.bookings[..bookings.len()].copy_from_slice(bookings);
        for (place, &(key, note)) in answered.iter().enumerate() {
            (hall.keys[place], hall.notes[place]) = (key, note);
        }
        hall
    }

    /// The bookings that wait; all 64 where `waiting` is over 64.
    pub fn booked(&self) -> &[Booking] {
        &self.bookings[..self.waiting.min(64)]
    }

    /// Those who wait, for whatever game, as a queue that states their number, over 64 too.
    pub fn queue(&self) -> Queue {
        Queue {
            entries: self.bookings.map(|booking| booking.entry()),
            len: self.waiting,
        }
    }

    /// The keys that are noted, each with its note; all 1,024 where `noted` is over 1,024.
    pub fn answered(&self) -> impl ExactSizeIterator<Item = (u64, Note)> {
        (0..self.noted.min(1024)).map(|place| (self.keys[place], self.notes[place]))
    }
}

impl Booking {
    /// The booking for game 0 that makes this entry.
    pub fn of(entry: &QueueEntry) -> Self {
        Booking {
            player: entry.player,
            joined: entry.joined,
            rating_bits: entry.rating.to_bits(),
            party: entry.party,
            role: entry.role,
            game: 0,
        }
    }

    /// The entry that it makes in the queue of a round of its game.
    pub fn entry(&self) -> QueueEntry {
        QueueEntry {
            player: self.player,
            joined: self.joined,
            rating: f64::from_bits(self.rating_bits),
            party: self.party,
            role: self.role,
        }
    }
}

impl Note {
    /// Of a booking that got this answer.
    pub fn of(booking: &Booking, answer: u8) -> Self {
        Note {
            player: booking.player,
            joined: booking.joined,
            rating_bits: booking.rating_bits,
            party: booking.party,
            role: booking.role,
            game: booking.game,
            kind: BOOKING,
            answer,
        }
    }

    /// The booking that it holds; of a note that is not of kind [`BOOKING`], just the guest has a meaning.
    pub fn booking(&self) -> Booking {
        Booking {
            player: self.player,
            joined: self.joined,
            rating_bits: self.rating_bits,
            party: self.party,
            role: self.role,
            game: self.game,
        }
    }
}

// Functions without a pointer are safe: each is total over every input.
unsafe extern "C" {
    safe fn yilgashe_hall_empty(games: Games) -> Hall;
    safe fn yilgashe_hall_book(hall: Hall, key: u64, booking: Booking) -> Keyed;
    safe fn yilgashe_hall_withdraw(hall: Hall, key: u64, player: u64) -> Keyed;
    fn yilgashe_hall_greedy_round(
        hall: Hall,
        game: u8,
        clock: u64,
        ids: *const u64,
        ids_len: usize,
        ratings: *const f64,
        ratings_len: usize,
        players: *mut u64,
        players_len: usize,
        qualities: *mut f64,
        qualities_len: usize,
    ) -> Rounded;
    fn yilgashe_hall_beam_round(
        hall: Hall,
        search: BeamSearch,
        game: u8,
        objective: MatchObjective,
        clock: u64,
        ids: *const u64,
        ids_len: usize,
        ratings: *const f64,
        ratings_len: usize,
        deviations: *const f64,
        deviations_len: usize,
        players: *mut u64,
        players_len: usize,
        qualities: *mut f64,
        qualities_len: usize,
    ) -> Rounded;
    fn yilgashe_hall_full_round(
        hall: Hall,
        game: u8,
        rules: RoundRules,
        objectives: SoftObjectives,
        clock: u64,
        ids: *const u64,
        ids_len: usize,
        ratings: *const f64,
        ratings_len: usize,
        parties: *const u64,
        parties_len: usize,
        roles: *const u32,
        roles_len: usize,
        regions: *const u8,
        regions_len: usize,
        players: *mut u64,
        players_len: usize,
        qualities: *mut f64,
        qualities_len: usize,
    ) -> Rounded;
    fn yilgashe_hall_dispatch(
        hall: Hall,
        clock: u64,
        ids: *const u64,
        ids_len: usize,
        ratings: *const f64,
        ratings_len: usize,
        players: *mut u64,
        players_len: usize,
        qualities: *mut f64,
        qualities_len: usize,
    ) -> Rounded;
}

// Inlined, so that a hall is copied once on its way in: a frame of its own would copy it once more.

#[inline]
pub fn hall_empty(games: Games) -> Hall {
    yilgashe_hall_empty(games)
}

#[inline]
pub fn hall_book(hall: Hall, key: u64, booking: Booking) -> Keyed {
    yilgashe_hall_book(hall, key, booking)
}

#[inline]
pub fn hall_withdraw(hall: Hall, key: u64, player: u64) -> Keyed {
    yilgashe_hall_withdraw(hall, key, player)
}

#[inline]
pub fn hall_greedy_round(
    hall: Hall,
    game: u8,
    clock: u64,
    ids: &[u64],
    ratings: &[f64],
    players: &mut [u64],
    qualities: &mut [f64],
) -> Rounded {
    // SAFETY: each pointer and length come from one slice; the call writes to the two lent to be changed alone.
    unsafe {
        yilgashe_hall_greedy_round(
            hall,
            game,
            clock,
            ids.as_ptr(),
            ids.len(),
            ratings.as_ptr(),
            ratings.len(),
            players.as_mut_ptr(),
            players.len(),
            qualities.as_mut_ptr(),
            qualities.len(),
        )
    }
}

#[inline]
#[allow(clippy::too_many_arguments)] // as many as the library's function takes
pub fn hall_beam_round(
    hall: Hall,
    search: BeamSearch,
    game: u8,
    objective: MatchObjective,
    clock: u64,
    ids: &[u64],
    ratings: &[f64],
    deviations: &[f64],
    players: &mut [u64],
    qualities: &mut [f64],
) -> Rounded {
    // SAFETY: each pointer and length come from one slice; the call writes to the two lent to be changed alone.
    unsafe {
        yilgashe_hall_beam_round(
            hall,
            search,
            game,
            objective,
            clock,
            ids.as_ptr(),
            ids.len(),
            ratings.as_ptr(),
            ratings.len(),
            deviations.as_ptr(),
            deviations.len(),
            players.as_mut_ptr(),
            players.len(),
            qualities.as_mut_ptr(),
            qualities.len(),
        )
    }
}

#[inline]
#[allow(clippy::too_many_arguments)] // as many as the library's function takes
pub fn hall_full_round(
    hall: Hall,
    game: u8,
    rules: RoundRules,
    objectives: SoftObjectives,
    clock: u64,
    ids: &[u64],
    ratings: &[f64],
    parties: &[u64],
    roles: &[u32],
    regions: &[u8],
    players: &mut [u64],
    qualities: &mut [f64],
) -> Rounded {
    // SAFETY: each pointer and length come from one slice; the call writes to the two lent to be changed alone.
    unsafe {
        yilgashe_hall_full_round(
            hall,
            game,
            rules,
            objectives,
            clock,
            ids.as_ptr(),
            ids.len(),
            ratings.as_ptr(),
            ratings.len(),
            parties.as_ptr(),
            parties.len(),
            roles.as_ptr(),
            roles.len(),
            regions.as_ptr(),
            regions.len(),
            players.as_mut_ptr(),
            players.len(),
            qualities.as_mut_ptr(),
            qualities.len(),
        )
    }
}

#[inline]
pub fn hall_dispatch(
    hall: Hall,
    clock: u64,
    ids: &[u64],
    ratings: &[f64],
    players: &mut [u64],
    qualities: &mut [f64],
) -> Rounded {
    // SAFETY: each pointer and length come from one slice; the call writes to the two lent to be changed alone.
    unsafe {
        yilgashe_hall_dispatch(
            hall,
            clock,
            ids.as_ptr(),
            ids.len(),
            ratings.as_ptr(),
            ratings.len(),
            players.as_mut_ptr(),
            players.len(),
            qualities.as_mut_ptr(),
            qualities.len(),
        )
    }
}
