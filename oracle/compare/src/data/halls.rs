//! Halls by their games.

use yilgashe_sys::{Booking, Games, Hall, NONE_SERVED, QueueEntry, TeamComposition};

/// A hall has this many games.
pub const GAMES: usize = 8;

/// What makes this entry in a round of the game.
pub fn booking(entry: &QueueEntry, game: u8) -> Booking {
    Booking {
        game,
        ..Booking::of(entry)
    }
}

/// The entries of a game, in the order booked.
pub fn entries_for(waiting: &[Booking], game: u8) -> Vec<QueueEntry> {
    let own = waiting.iter().filter(|booking| booking.game == game);
    own.map(Booking::entry).collect()
}

/// A game above 7 has no seats.
pub fn sizes_for(games: &Games, game: u8) -> TeamComposition {
    let sizes = games.sizes.get(usize::from(game));
    sizes.copied().unwrap_or_default()
}

pub fn games_of(hall: &Hall) -> Games {
    Games { sizes: hall.sizes }
}

/// The game that a number stands for, 8 and others, which are no games, too.
pub fn game_in(served: u8) -> Option<u8> {
    (served != NONE_SERVED).then_some(served)
}
