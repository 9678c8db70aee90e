//! What a key stands for: the whole booking, or its guest alone where it was noted before that.

use yilgashe::{
    Booking, Games, Hall, KeyRecord, Noted, Refusal, Roster, TeamComposition, sys, time,
};

const PAIRS: TeamComposition = TeamComposition { a: 1, b: 1 };
const CLASH: Result<(), Refusal> = Err(Refusal::KeyClash);

fn guest(player: u64) -> Booking {
    Booking {
        player,
        joined: 5,
        rating: 1000.0,
        party: 6,
        role: 7,
        game: 0,
    }
}

fn rated(player: u64, rating: f64) -> Booking {
    Booking {
        rating,
        ..guest(player)
    }
}

/// The booking with each one of its six fields changed.
fn changed(booking: Booking) -> [Booking; 6] {
    let mut all = [booking; 6];
    all[0].player += 1;
    all[1].joined += 1;
    all[2].rating += 0.5;
    all[3].party += 1;
    all[4].role += 1;
    all[5].game += 1;
    all
}

/// All that can be seen of a hall.
fn seen(hall: &Hall) -> (Vec<Booking>, Vec<KeyRecord>, Games, Option<u8>) {
    let (waiting, noted) = (hall.waiting(), hall.noted());
    (waiting, noted, hall.games(), hall.last_served())
}

/// The answer of a booking that changes nothing.
fn books(hall: &mut Hall, key: u64, booking: Booking) -> Result<(), Refusal> {
    let before = seen(hall);
    let answer = hall.book(key, booking);
    assert_eq!(seen(hall), before);
    answer
}

/// And that of such a withdrawal.
fn leaves(hall: &mut Hall, key: u64, player: u64) -> Result<(), Refusal> {
    let before = seen(hall);
    let answer = hall.withdraw(key, player);
    assert_eq!(seen(hall), before);
    answer
}

fn empty() -> Hall {
    Hall::new(Games::of([PAIRS]))
}

/// A phone reused a key with a changed rating, and got the old yes.
#[test]
fn a_changed_booking_under_its_key() {
    let mut hall = empty();
    assert_eq!(hall.book(1, guest(1)), Ok(()));
    for other in changed(guest(1)) {
        assert_ne!(other, guest(1));
        assert_eq!(books(&mut hall, 1, other), CLASH);
    }
    assert_eq!(books(&mut hall, 1, guest(1)), Ok(()));
    assert_eq!(leaves(&mut hall, 1, 1), CLASH);
    assert_eq!(hall.withdraw(2, 1), Ok(()));
    assert_eq!(books(&mut hall, 1, guest(1)), Ok(())); // he left, and is not booked again
    assert_eq!(books(&mut hall, 2, guest(1)), CLASH);
    assert_eq!(hall.book(3, rated(1, 1020.0)), Ok(()));
}

/// Four times no, each noted with the whole booking: a corrected one needs a new key, also when nothing speaks against the first any more.
#[test]
fn a_refused_booking_under_its_key() {
    let late = Booking {
        joined: time::MAX + 1,
        ..guest(70)
    };
    let nowhere = Booking {
        game: 200,
        ..guest(71)
    };
    let sent = [
        (late, Refusal::Clock),
        (nowhere, Refusal::NoSuchGame),
        (rated(1, 900.0), Refusal::AlreadyWaiting),
        (guest(72), Refusal::HallFull),
    ];
    let mut hall = empty();
    for player in 1..=64 {
        hall.book(player, guest(player)).unwrap();
    }
    for (key, (booking, refusal)) in (101..).zip(sent) {
        assert_eq!(hall.book(key, booking), Err(refusal));
        let record = KeyRecord {
            key,
            noted: Noted::Booking(booking),
            answer: refusal.number(),
        };
        assert_eq!(hall.noted().last(), Some(&record));
    }
    hall.withdraw(100, 1).unwrap();
    for (key, (booking, refusal)) in (101..).zip(sent) {
        assert_eq!(books(&mut hall, key, booking), Err(refusal));
        for other in changed(booking) {
            assert_eq!(books(&mut hall, key, other), CLASH);
        }
    }
    assert_eq!(books(&mut hall, 101, guest(70)), CLASH);
    assert_eq!(books(&mut hall, 102, guest(71)), CLASH);
    let elsewhere = Booking {
        game: 8,
        ..guest(2)
    };
    assert_eq!(books(&mut hall, 2, elsewhere), CLASH); // what the key says comes first
    assert_eq!(hall.book(105, guest(70)), Ok(()));
}

/// Zeros, infinities and NaNs of either sign, quiet and not, with other bits.
const BITS: [u64; 9] = [
    0,
    1 << 63,
    0x7ff0_0000_0000_0000,
    0xfff0_0000_0000_0000,
    0x7ff8_0000_0000_0000,
    0xfff8_0000_0000_0000,
    0x7ff0_0000_0000_0001,
    0xfff4_dcba_9876_5432,
    u64::MAX,
];

/// A double goes in and comes out with its bits, of those who wait and of what is noted, and the key stands for these.
#[test]
fn bits_of_a_rating() {
    let mut hall = empty();
    let sent = |player: u64| rated(player, f64::from_bits(BITS[player as usize]));
    let players = 0..BITS.len() as u64;
    for player in players.clone() {
        hall.book(player, sent(player)).unwrap();
    }
    let (waiting, noted) = (hall.waiting(), hall.noted());
    for player in players.clone() {
        let n = player as usize;
        let Noted::Booking(first) = noted[n].noted else {
            panic!("{:?}", noted[n]);
        };
        assert_eq!(waiting[n].rating.to_bits(), BITS[n]);
        assert_eq!(first.rating.to_bits(), BITS[n]);
        for other in players.clone() {
            let again = rated(player, sent(other).rating);
            assert_eq!(first == again, other == player);
            let due = if other == player { Ok(()) } else { CLASH };
            assert_eq!(books(&mut hall, player, again), due);
        }
    }
    hall.withdraw(99, 0).unwrap();
    assert_eq!(hall.waiting(), waiting[1..]);
}

/// What is equal as a number need not be the same booking, and what prints alike is told by its bits.
#[test]
fn equal_bookings() {
    let (zero, minus) = (rated(1, 0.0), rated(1, -0.0));
    assert_eq!(zero.rating, minus.rating);
    assert_ne!(zero, minus);
    let nan = |bits| rated(1, f64::from_bits(bits));
    assert_eq!(nan(BITS[4]), nan(BITS[4]));
    assert_ne!(nan(BITS[4]), nan(BITS[8]));
    assert_ne!(format!("{:?}", nan(BITS[4])), format!("{:?}", nan(BITS[8])));
    assert_eq!(Booking::of(&nan(BITS[7]).entry()), nan(BITS[7]));
}

/// A hall as it was kept before a key stood for the whole booking, in its 27,288 bytes.
mod kept {
    use yilgashe::TeamComposition;

    #[repr(C)]
    pub struct Booking {
        pub player: u64,
        pub joined: u64,
        pub rating: f64,
        pub party: u64,
        pub role: u32,
        pub game: u8,
    }

    #[repr(C)]
    pub struct Note {
        pub player: u64,
        pub kind: u8,
        pub answer: u8,
    }

    #[repr(C)]
    pub struct Hall {
        pub bookings: [Booking; 64],
        pub waiting: usize,
        pub keys: [u64; 1024],
        pub notes: [Note; 1024],
        pub noted: usize,
        pub sizes: [TeamComposition; 8],
        pub served: u8,
    }

    const _: () = assert!(size_of::<Hall>() == 27_288);
}

/// A booking by the bits of its rating.
fn booking_brought_over(kept: &kept::Booking) -> sys::Booking {
    sys::Booking {
        player: kept.player,
        joined: kept.joined,
        rating_bits: kept.rating.to_bits(),
        party: kept.party,
        role: kept.role,
        game: kept.game,
    }
}

/// A note by its guest: a booking's becomes an older one, and the fields that it lacks are 0.
fn note_brought_over(kept: &kept::Note) -> sys::Note {
    let kind = match kept.kind {
        sys::BOOKING => sys::OLDER_BOOKING,
        kind => kind,
    };
    sys::Note {
        player: kept.player,
        kind,
        answer: kept.answer,
        ..sys::Note::default()
    }
}

fn brought_over(kept: &kept::Hall) -> Hall {
    let sizes = kept.sizes;
    let bookings = kept.bookings[..kept.waiting].iter();
    let bookings: Vec<sys::Booking> = bookings.map(booking_brought_over).collect();
    let notes = kept.notes.iter().map(note_brought_over);
    let answered: Vec<(u64, sys::Note)> =
        kept.keys.into_iter().zip(notes).take(kept.noted).collect();
    let mut hall = sys::Hall::of(Games { sizes }, &bookings, &answered);
    hall.served = kept.served;
    Hall::from(hall)
}

/// Guests 1 to 3 wait, with a NaN and a zero of their own; game 0 was served. Keys 1 to 3 brought them, and 4 to 9 were refused or left.
fn evening() -> kept::Hall {
    let notes = [
        (1, 0, 0),
        (2, 0, 0),
        (3, 0, 0),
        (4, 0, 4),
        (1, 0, 9),
        (5, 0, 10),
        (6, 0, 13),
        (7, 1, 0),
        (8, 1, 11),
    ];
    let rating = |player| match player {
        1 => f64::from_bits(BITS[7]),
        2 => -0.0,
        _ => 1000.0,
    };
    let blank = |_| kept::Note {
        player: 0,
        kind: 0,
        answer: 0,
    };
    let mut hall = kept::Hall {
        bookings: std::array::from_fn(|n| kept::Booking {
            player: n as u64 + 1,
            joined: n as u64,
            rating: rating(n + 1),
            party: 0,
            role: 0,
            game: 0,
        }),
        waiting: 3,
        keys: std::array::from_fn(|n| n as u64 + 1),
        notes: std::array::from_fn(blank),
        noted: notes.len(),
        sizes: Games::of([PAIRS]).sizes,
        served: 0,
    };
    for (place, (player, kind, answer)) in notes.into_iter().enumerate() {
        hall.notes[place] = kept::Note {
            player,
            kind,
            answer,
        };
    }
    hall
}

/// Each key answers its guest as it did, whatever his booking brings, and nobody else.
fn assert_answers_as_kept(hall: &mut Hall) {
    let kept = evening();
    for (key, note) in kept.keys.into_iter().zip(&kept.notes).take(kept.noted) {
        let answer = Refusal::from_number(note.answer).map_or(Ok(()), Err);
        let (booked, left) = match note.kind {
            0 => (answer, CLASH),
            _ => (CLASH, answer),
        };
        let nowhere = Booking {
            joined: time::MAX + 1,
            game: 200,
            ..guest(note.player)
        };
        for booking in changed(guest(note.player)).into_iter().chain([nowhere]) {
            let due = if booking.player == note.player {
                booked
            } else {
                CLASH
            };
            assert_eq!(books(hall, key, booking), due);
        }
        assert_eq!(leaves(hall, key, note.player), left);
        assert_eq!(leaves(hall, key, note.player + 1), CLASH);
    }
}

/// An evening under way keeps running: old notes answer as before and stay what they are, new ones are whole.
#[test]
fn a_hall_of_before_keys_stood_for_whole_bookings() {
    let mut hall = brought_over(&evening());
    let waiting = hall.waiting();
    let bits: Vec<u64> = waiting.iter().map(|guest| guest.rating.to_bits()).collect();
    assert_eq!(bits, [BITS[7], BITS[1], 1000f64.to_bits()]);
    assert_answers_as_kept(&mut hall);
    let old = hall.noted();
    assert_eq!(old[4].noted, Noted::OlderBooking(1));
    assert_eq!(old[7].noted, Noted::Withdrawal(7));
    let guests: Vec<u64> = old.iter().map(|record| record.noted.player()).collect();
    assert_eq!(guests, [1, 2, 3, 4, 1, 5, 6, 7, 8]);

    let tables = hall.dispatch(9, &Roster::new()).unwrap();
    assert_eq!((tables.served, tables.matches.len()), (Some(0), 1));
    assert_eq!(hall.book(10, guest(9)), Ok(()));
    assert_eq!(hall.withdraw(11, 9), Ok(()));
    assert_answers_as_kept(&mut hall);
    for other in changed(guest(9)) {
        assert_eq!(books(&mut hall, 10, other), CLASH);
    }
    let noted = hall.noted();
    assert_eq!(noted[..9], old);
    assert_eq!(noted[9].noted, Noted::Booking(guest(9)));
    assert_eq!(noted[10].noted, Noted::Withdrawal(9));
}

/// It is told and kept, and answers nobody. So is an answer that its kind cannot get.
#[test]
fn a_note_of_no_call() {
    let note = |kind, answer| sys::Note {
        kind,
        ..sys::Note::of(&guest(1).into(), answer)
    };
    let answered = [(1, note(3, 0)), (2, note(255, 255)), (3, note(0, 11))];
    let mut hall = Hall::from(sys::Hall::of(Games::of([PAIRS]), &[], &answered));
    let noted: Vec<Noted> = hall.noted().iter().map(|record| record.noted).collect();
    let nothing = |kind| Noted::Nothing { kind, player: 1 };
    assert_eq!(noted, [nothing(3), nothing(255), Noted::Booking(guest(1))]);
    assert_eq!(noted[1].player(), 1);
    for key in 1..=3 {
        assert_eq!(books(&mut hall, key, guest(1)), CLASH);
        assert_eq!(leaves(&mut hall, key, 1), CLASH);
    }
    assert_eq!(hall.book(4, guest(1)), Ok(()));
}
