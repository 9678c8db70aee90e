//! The hall's calls in plain C, `plain.c` and `dispatch.c`. They are called as the library's are, whose wrappers are inlined: on its way in
//! a hall is copied once.

use compare::data::{Columns, Sheets};
use yilgashe_sys::{Booking, Hall, Keyed, Rounded};

// Each is total over every input: a hall over its limits is refused before its lists are read.
unsafe extern "C" {
    #[link_name = "plain_book"]
    pub safe fn book(hall: Hall, key: u64, booking: Booking) -> Keyed;
    #[link_name = "plain_withdraw"]
    pub safe fn withdraw(hall: Hall, key: u64, player: u64) -> Keyed;
    /// Nobody is seated.
    #[link_name = "plain_round"]
    pub safe fn round(hall: Hall) -> Rounded;
    fn plain_dispatch(
        hall: Hall,
        clock: u64,
        ids: *const u64,
        ids_len: usize,
        ratings: *const f64,
        ratings_len: usize,
        players: *mut u64,
        players_len: usize,
        qualities: *mut f64,
        qualities_len: usize,
    ) -> Rounded;
}

#[inline]
pub fn dispatch(hall: Hall, clock: u64, columns: &Columns, sheets: &mut Sheets) -> Rounded {
    let Columns { ids, ratings, .. } = columns;
    let Sheets { players, qualities } = sheets;
    // SAFETY: each pointer and length come from one list; the call writes to the two lent to be changed alone.
    unsafe {
        plain_dispatch(
            hall,
            clock,
            ids.as_ptr(),
            ids.len(),
            ratings.as_ptr(),
            ratings.len(),
            players.as_mut_ptr(),
            players.len(),
            qualities.as_mut_ptr(),
            qualities.len(),
        )
    }
}

#[cfg(test)]
mod tests {
    use super::*;
    use compare::data::{Answer, Call, Round, Search, game_in};
    use compare::lists::{self, Counter, Modelled};
    use compare::same::Same;
    use yilgashe_sys::Games;

    /// The C at the counter; rounds of a game are left to the model.
    struct Plain(Box<Hall>);

    impl Plain {
        fn keep(&mut self, told: Keyed) -> Answer {
            *self.0 = told.hall;
            Answer::keyed(told.refusal)
        }

        fn dispatch(&mut self, round: &Round, columns: &Columns) -> Answer {
            let mut sheets = round.sheets.clone();
            let told = dispatch(*self.0, round.clock, columns, &mut sheets);
            *self.0 = told.hall;
            Answer {
                refusal: told.refusal,
                count: told.count,
                tried: told.tried,
                served: game_in(told.served),
                sheets,
            }
        }
    }

    impl Counter for Plain {
        fn open(games: Games) -> Self {
            Plain(Box::new(Hall::of(games, &[], &[])))
        }

        fn with(hall: &Hall) -> Self {
            Plain(Box::new(*hall))
        }

        fn serve(&mut self, call: &Call) -> Answer {
            match call {
                Call::Book { key, booking } => self.keep(book(*self.0, *key, *booking)),
                Call::Withdraw { key, player } => self.keep(withdraw(*self.0, *key, *player)),
                Call::Round(round) => match &round.search {
                    Search::Dispatch(columns) => self.dispatch(round, columns),
                    _ => {
                        let mut model = Modelled::with(&self.0);
                        let answer = model.serve(call);
                        *self.0 = model.hall();
                        answer
                    }
                },
            }
        }

        fn hall(&self) -> Hall {
            *self.0
        }
    }

    #[test]
    fn the_c_keeps_the_rules() {
        let counts =
            lists::run::<Plain, Modelled>(1, 20_000, &mut |difference| panic!("{difference}"));
        let mut due = (7..=11).chain([13]);
        assert!(due.all(|number| counts.refused(number) > 20));
        assert_eq!(counts.missing(), [""; 0]);
    }

    #[test]
    fn a_round_hands_the_hall_back() {
        let waiting = [Booking::default()];
        let mut hall = withdraw(Hall::of(Games::default(), &waiting, &[]), 1, 9).hall;
        let told = round(hall);
        assert_eq!((told.refusal, told.count, told.tried), (0, 0, 0));
        assert_eq!(game_in(told.served), None);
        assert!(told.hall.same(&hall));
        hall.noted = 1025;
        assert_eq!(round(hall).refusal, 1);
    }
}
