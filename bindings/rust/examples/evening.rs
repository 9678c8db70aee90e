//! A short evening at the lounge. examples/evening.c tells the same story and prints the same text.

use yilgashe::{Booking, Games, Hall, Refusal, Roster, Row, TeamComposition};

const MINUTE: u64 = 60_000_000_000;
const RATINGS: [f64; 8] = [
    1000.0, 1280.0, 1010.0, 1090.0, 1150.0, 1200.0, 1300.0, 1180.0,
];

fn say(key: u64, does: &str, answer: Result<(), Refusal>) {
    let told = answer.map_or_else(Refusal::word, |()| "accepted");
    println!("key {key} {does}: {told}");
}

fn book(hall: &mut Hall, key: u64, player: u64, rating: f64, game: u8) {
    let booking = Booking {
        player,
        joined: player * MINUTE,
        rating,
        game,
        ..Booking::default()
    };
    say(key, "books", hall.book(key, booking));
}

/// Says which game was served and who plays.
fn dispatch(hall: &mut Hall, minute: u64, roster: &Roster) -> Result<(), Refusal> {
    let round = hall.dispatch(minute * MINUTE, roster)?;
    let Some(game) = round.served else {
        println!("no game has enough");
        return Ok(());
    };
    for table in &round.matches {
        let (a, b) = (table.team_a, table.team_b);
        println!(
            "game {game}: {a:?} against {b:?}, quality {:.2}",
            table.quality
        );
    }
    Ok(())
}

fn main() -> Result<(), Refusal> {
    let rows = (1..).zip(RATINGS).map(|(player, rating)| Row {
        player,
        rating,
        ..Row::default()
    });
    let roster: Roster = rows.collect();
    let twos = TeamComposition { a: 2, b: 2 };
    let ones = TeamComposition { a: 1, b: 1 };
    let mut hall = Hall::new(Games::of([twos, ones])); // game 0 and game 1
    for (guest, rating) in (1..).zip(RATINGS) {
        book(&mut hall, 100 + guest, guest, rating, u8::from(guest > 4));
    }
    book(&mut hall, 103, 3, 1010.0, 0); // the phone lost the answer and sends it again
    book(&mut hall, 103, 3, 1020.0, 0); // with another rating it is another booking, and needs another key
    book(&mut hall, 109, 1, 1000.0, 1); // waits for game 0
    say(110, "leaves", hall.withdraw(110, 5));
    for minute in 10..=12 {
        dispatch(&mut hall, minute, &roster)?;
    }
    println!("still waiting: {}", hall.waiting().len());
    Ok(())
}
