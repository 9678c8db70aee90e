//! Reads stored lines back by their layout, as a program that replays them would.

use compare::families::FAMILIES;
use compare::rng::Rng;

/// The words of a line still to be read.
struct Reader(Vec<u64>);

type Entry = [u64; 5];

impl Reader {
    fn new(line: &str) -> Self {
        let words = line.split(' ').map(|word| {
            assert_eq!(word, word.trim_start_matches("0x").to_lowercase());
            u64::from_str_radix(word, 16).expect("a word in hex")
        });
        Reader(words.collect())
    }

    fn word(&mut self) -> u64 {
        self.0.remove(0)
    }

    fn entry(&mut self) -> Entry {
        std::array::from_fn(|_| self.word())
    }

    fn list(&mut self) -> Vec<u64> {
        let n = self.word();
        (0..n).map(|_| self.word()).collect()
    }

    /// None where the line stands for a queue over limit.
    fn queue(&mut self) -> Option<Vec<Entry>> {
        match self.word() {
            65 => None,
            n => {
                assert!(n <= 12 || n == 21);
                Some((0..n).map(|_| self.entry()).collect())
            }
        }
    }

    fn end(self) {
        assert_eq!(self.0, [], "words are left over");
    }
}

/// Sets of `seats` of `n` places in ascending order: by their bits, the first place the highest, from the greatest number down.
fn choices(n: usize, seats: usize) -> Vec<Vec<usize>> {
    let sets = (0..1u32 << n).rev();
    let chosen = sets.filter(|set| set.count_ones() as usize == seats);
    let places = |set: u32| (0..n).filter(move |place| set >> (n - 1 - place) & 1 == 1);
    chosen.map(|set| places(set).collect()).collect()
}

fn lines(code: u64) -> Vec<Reader> {
    let functions = FAMILIES.iter().flat_map(|(_, functions)| *functions);
    let stored = functions.filter_map(|function| Some((function.name, function.store?)));
    let lines = stored.flat_map(|(name, store)| {
        (0..300).map(move |case| store(&mut Rng::for_case(5, name, case)).expect("no panic"))
    });
    let readers = lines.map(|line| {
        assert!(line.split(' ').count() <= 1000);
        Reader::new(&line)
    });
    let of_code: Vec<Reader> = readers
        .filter_map(|mut reader| (reader.word() == code).then_some(reader))
        .collect();
    assert_eq!(of_code.len(), 300);
    of_code
}

#[test]
fn enqueue() {
    for mut line in lines(1) {
        let (queue, entry, refusal) = (line.queue(), line.entry(), line.word());
        if let Some(mut queue) = queue {
            if refusal == 0 {
                queue.push(entry);
            }
            assert_eq!(line.queue(), Some(queue));
        } else {
            assert_eq!(refusal, 1);
        }
        line.end();
    }
}

#[test]
fn remove() {
    for mut line in lines(2) {
        let (queue, player, refusal) = (line.queue(), line.word(), line.word());
        let found = line.word() == 1;
        if let Some(mut queue) = queue {
            let place = queue.iter().position(|entry| entry[0] == player);
            let place = place.filter(|_| refusal == 0);
            assert_eq!(found, place.is_some());
            if let Some(place) = place {
                assert_eq!(line.entry(), queue.remove(place));
            }
            assert_eq!(line.queue(), Some(queue));
        } else {
            assert_eq!((refusal, found), (1, false));
        }
        line.end();
    }
}

#[test]
fn remove_batch() {
    for mut line in lines(3) {
        let (queue, ids, refusal) = (line.queue(), line.list(), line.word());
        if let Some(queue) = queue {
            let named = |entry: &Entry| refusal == 0 && ids.contains(&entry[0]);
            let (removed, kept): (Vec<Entry>, Vec<Entry>) = queue.iter().partition(|e| named(e));
            assert_eq!(line.queue(), Some(kept));
            assert_eq!(line.queue(), Some(removed));
        } else {
            assert_eq!(refusal, 1);
        }
        line.end();
    }
}

#[test]
fn waiting_time() {
    for mut line in lines(4) {
        let (queue, player, now) = (line.queue(), line.word(), line.word());
        let (refusal, found, wait) = (line.word(), line.word(), line.word());
        assert!(queue.is_some() || refusal == 1);
        let entry = queue.and_then(|queue| queue.into_iter().find(|entry| entry[0] == player));
        let expected = entry.filter(|_| refusal == 0);
        assert_eq!(found, u64::from(expected.is_some()));
        assert_eq!(wait, expected.map_or(0, |e| now.saturating_sub(e[1])));
        line.end();
    }
}

#[test]
fn times() {
    for mut line in lines(5) {
        let (later, earlier, refusal) = (line.word(), line.word(), line.word());
        let late = later.max(earlier) > 1 << 53;
        assert_eq!(refusal, if late { 4 } else { 0 });
        let nanos = later.saturating_sub(earlier);
        assert_eq!(line.word(), if late { 0 } else { nanos });
        line.end();
    }
    for mut line in lines(6) {
        let (time, refusal, bits) = (line.word(), line.word(), line.word());
        assert_eq!(refusal, if time > 1 << 53 { 4 } else { 0 });
        assert!(refusal == 0 || bits == 0);
        line.end();
    }
}

#[test]
fn roster_check() {
    let mut seen = [0; 3];
    for mut line in lines(7) {
        let columns: Vec<Vec<u64>> = (0..6).map(|_| line.list()).collect();
        let refusal = line.word();
        let long = columns.iter().any(|column| column.len() > 128);
        assert_eq!(refusal == 1, long);
        let regions = columns[5].iter().all(|&region| region <= 4);
        assert!(regions || refusal > 0);
        seen[refusal as usize] += 1;
        line.end();
    }
    assert!(seen.iter().all(|&count| count > 10), "{seen:?}");
}

/// Lines of scores, their values computed anew from document 01.
mod scores {
    use super::{Entry, Reader, lines};
    use compare::same::Same;

    type Teams = [Vec<u64>; 2];
    /// Ids, then floats as bits.
    type Columns = Vec<Vec<u64>>;

    /// None where one is over limit.
    fn teams(line: &mut Reader) -> Option<Teams> {
        let read: Vec<Option<Vec<u64>>> = (0..2).map(|_| team(line)).collect();
        let [a, b] = read.try_into().expect("two teams");
        Some([a?, b?])
    }

    fn team(line: &mut Reader) -> Option<Vec<u64>> {
        match line.word() {
            9 => None,
            n => {
                assert!(n <= 8);
                Some((0..n).map(|_| line.word()).collect())
            }
        }
    }

    /// None where the ids are over limit.
    fn columns(line: &mut Reader, count: usize) -> Option<Columns> {
        let ids = column(line);
        let others: Vec<Vec<u64>> = (1..count)
            .map(|_| column(line).expect("only ids are over limit"))
            .collect();
        if ids.is_none() {
            assert!(others.iter().all(Vec::is_empty));
        }
        Some([vec![ids?], others].concat())
    }

    fn column(line: &mut Reader) -> Option<Vec<u64>> {
        match line.word() {
            129 => None,
            n => {
                assert!(n <= 12);
                Some((0..n).map(|_| line.word()).collect())
            }
        }
    }

    fn float(line: &mut Reader) -> f64 {
        f64::from_bits(line.word())
    }

    fn floats<const N: usize>(line: &mut Reader) -> [f64; N] {
        std::array::from_fn(|_| float(line))
    }

    fn bad(columns: &[Vec<u64>]) -> bool {
        let ids = &columns[0];
        let doubled = (0..ids.len()).any(|row| ids[..row].contains(&ids[row]));
        doubled || columns.iter().any(|column| column.len() != ids.len())
    }

    /// The refusal of 1 or 2, else teams and columns.
    fn checked(teams: Option<Teams>, columns: Option<Columns>) -> Result<(Teams, Columns), u64> {
        let (teams, columns) = teams.zip(columns).ok_or(1u64)?;
        if bad(&columns) {
            return Err(2);
        }
        Ok((teams, columns))
    }

    /// The sum of a column over the seated, from +0.0, by the number of seats.
    fn average(players: &[u64], columns: &[Vec<u64>], column: usize) -> f64 {
        let mut sum = 0.0;
        for player in players {
            if let Some(row) = columns[0].iter().position(|id| id == player) {
                sum += f64::from_bits(columns[column][row]);
            }
        }
        sum / players.len().max(1) as f64
    }

    /// 1.0 minus the smaller, where NaN is never the smaller.
    fn from_one(share: f64) -> f64 {
        1.0 - if share < 1.0 { share } else { 1.0 }
    }

    fn quality([a, b]: &Teams, columns: &[Vec<u64>]) -> f64 {
        let difference = average(a, columns, 1) - average(b, columns, 1);
        from_one(difference.abs() / 400.0)
    }

    /// Reads refusal and value, the end of every such line.
    fn answered(mut line: Reader, expected: Result<f64, u64>, seen: &mut [usize; 5]) {
        let (refusal, value) = (line.word(), float(&mut line));
        assert_eq!(refusal, expected.err().unwrap_or(0));
        assert!(value.same(&expected.unwrap_or(0.0)));
        seen[refusal as usize] += 1;
        line.end();
    }

    #[test]
    fn match_quality() {
        let mut seen = [0; 5];
        for mut line in lines(8) {
            let (teams, columns) = (teams(&mut line), columns(&mut line, 2));
            let expected =
                checked(teams, columns).map(|(teams, columns)| quality(&teams, &columns));
            answered(line, expected, &mut seen);
        }
        assert!(seen[0] > 200 && seen[1] > 5 && seen[2] > 5, "{seen:?}");
    }

    fn longest_wait(players: &[u64], queue: &[Entry], clock: u64) -> f64 {
        let first = |player: &u64| queue.iter().find(|entry| entry[0] == *player);
        let waits = players.iter().filter_map(first).map(|entry| entry[1]);
        let nanos = waits.map(|joined| clock.saturating_sub(joined)).max();
        nanos.unwrap_or(0) as f64 / 1_000_000_000.0
    }

    #[test]
    fn match_score() {
        let mut seen = [0; 5];
        for mut line in lines(9) {
            let [quality_weight, wait, ping, uncertainty] = floats(&mut line);
            let (teams, queue) = (teams(&mut line), line.queue());
            let (columns, clock) = (columns(&mut line, 3), line.word());
            let score = |queue: Vec<Entry>, teams: Teams, columns: Columns| {
                let mut times = queue.iter().map(|entry| entry[1]).chain([clock]);
                if times.any(|time| time > 1 << 53) {
                    return Err(4);
                }
                let seated = teams.concat();
                Ok(quality_weight * quality(&teams, &columns)
                    - wait * (longest_wait(&seated, &queue, clock) / 60.0)
                    - ping * 0.0
                    - uncertainty * (average(&seated, &columns, 2) / 350.0))
            };
            let expected = queue.ok_or(1).and_then(|queue| {
                let (teams, columns) = checked(teams, columns)?;
                score(queue, teams, columns)
            });
            answered(line, expected, &mut seen);
        }
        assert!(seen[0] > 150 && seen[1] > 5 && seen[2] > 5 && seen[4] > 5);
    }

    #[test]
    fn soft_score() {
        let mut seen = [0; 5];
        for mut line in lines(10) {
            let k = line.word();
            assert!(k <= 8);
            let listed: Vec<(u64, f64)> = (0..k).map(|_| (line.word(), float(&mut line))).collect();
            let (teams, columns) = (teams(&mut line), columns(&mut line, 2));
            let known = listed.iter().all(|(kind, _)| *kind <= 2);
            let teams = teams.filter(|_| known);
            let expected = checked(teams, columns).map(|(teams, columns)| {
                let value = |kind: u64| match kind {
                    0 => quality(&teams, &columns),
                    1 => from_one(average(&teams.concat(), &columns, 1) / 200.0),
                    _ => 0.5,
                };
                let sum = |sum: f64, (kind, weight): &(u64, f64)| sum + weight * value(*kind);
                listed.iter().fold(0.0, sum)
            });
            answered(line, expected, &mut seen);
        }
        assert!(seen[0] > 150 && seen[1] > 5 && seen[2] > 5, "{seen:?}");
    }

    #[test]
    fn scalarize() {
        for mut line in lines(11) {
            let (v, w): ([f64; 6], [f64; 6]) = (floats(&mut line), floats(&mut line));
            let good = w[0] * v[0] + w[1] * v[1] + w[2] * v[2] + w[3] * v[3];
            let expected = good - w[4] * v[4] + w[5] * v[5];
            assert!(float(&mut line).same(&expected));
            line.end();
        }
    }

    #[test]
    fn dominates() {
        let mut seen = [0; 2];
        for mut line in lines(12) {
            let (mut one, mut other): ([f64; 6], [f64; 6]) = (floats(&mut line), floats(&mut line));
            // A lower wait is a better one.
            (one[4], other[4]) = (-one[4], -other[4]);
            let better = one.iter().zip(&other).any(|(a, b)| a > b);
            let worse = one.iter().zip(&other).any(|(a, b)| a < b);
            let answer = line.word();
            assert_eq!(answer, u64::from(better && !worse));
            seen[answer as usize] += 1;
            line.end();
        }
        assert!(seen.iter().all(|&count| count > 50), "{seen:?}");
    }
}

/// Lines of constraints, policies and selections, their answers computed anew from document 01.
mod rules {
    use super::{Reader, choices, lines};
    use compare::same::Same;

    type Teams = [Vec<u64>; 2];

    /// So many items, or none where the list is just over its limit.
    fn items<T>(line: &mut Reader, limit: u64, read: impl Fn(&mut Reader) -> T) -> Option<Vec<T>> {
        match line.word() {
            n if n == limit + 1 => None,
            n => {
                assert!(n <= limit);
                Some((0..n).map(|_| read(line)).collect())
            }
        }
    }

    fn team(line: &mut Reader) -> Option<Vec<u64>> {
        items(line, 8, Reader::word)
    }

    fn teams(line: &mut Reader) -> Option<Teams> {
        let (a, b) = (team(line), team(line));
        Some([a?, b?])
    }

    fn float(line: &mut Reader) -> f64 {
        f64::from_bits(line.word())
    }

    /// Ids and the columns of a call.
    struct Columns(Vec<Vec<u64>>);

    /// None where one is over limit.
    fn columns(line: &mut Reader, count: usize) -> Option<Columns> {
        let read: Vec<Option<Vec<u64>>> =
            (0..count).map(|_| items(line, 128, Reader::word)).collect();
        read.into_iter().collect::<Option<_>>().map(Columns)
    }

    impl Columns {
        fn bad(&self) -> bool {
            let ids = &self.0[0];
            let doubled = (0..ids.len()).any(|row| ids[..row].contains(&ids[row]));
            doubled || self.0.iter().any(|column| column.len() != ids.len())
        }

        /// What stands in a column for each player who has a row.
        fn of<'a>(&'a self, players: &'a [u64], column: usize) -> impl Iterator<Item = u64> + 'a {
            let row = |player: &u64| self.0[0].iter().position(|id| id == player);
            let rows = players.iter().filter_map(row);
            rows.map(move |row| self.0[column][row])
        }
    }

    struct Requirement {
        role: u64,
        least: u64,
        most: Option<u64>,
    }

    type Requirements = Vec<Requirement>;
    type Pairs = Vec<[u64; 2]>;

    fn requirements(line: &mut Reader) -> Option<Requirements> {
        items(line, 8, |line| {
            let [role, least, bounded, most] = std::array::from_fn(|_| line.word());
            assert!(bounded <= 1);
            Requirement {
                role,
                least,
                most: (bounded == 1).then_some(most),
            }
        })
    }

    fn pairs(line: &mut Reader) -> Option<Pairs> {
        items(line, 16, |line| [line.word(), line.word()])
    }

    fn sizes(line: &mut Reader) -> [u64; 2] {
        [line.word(), line.word()]
    }

    fn unknown(codes: &[u64]) -> bool {
        codes.iter().any(|&code| code > 4)
    }

    /// 2 for too few, 3 for too many.
    fn role_fault(wanted: &Requirement, players: &[u64], columns: &Columns, column: usize) -> u64 {
        let having = columns.of(players, column);
        let count = having.filter(|&role| role > 0 && role == wanted.role);
        let count = count.count() as u64;
        match wanted.most {
            _ if count < wanted.least => 2,
            Some(most) if count > most => 3,
            _ => 0,
        }
    }

    fn sized(teams: &Teams, sizes: [u64; 2]) -> bool {
        (0..2).all(|side| teams[side].len() as u64 == sizes[side])
    }

    fn roles_met(wanted: &Requirements, teams: &Teams, columns: &Columns, column: usize) -> bool {
        let players = teams.concat();
        let mut faults = wanted
            .iter()
            .map(|w| role_fault(w, &players, columns, column));
        faults.all(|fault| fault == 0)
    }

    fn parties_whole(teams: &Teams, columns: &Columns, column: usize) -> bool {
        let players = teams.concat();
        let parties: Vec<u64> = columns.of(&players, column).filter(|&p| p > 0).collect();
        let mut rows = columns.0[0].iter().zip(&columns.0[column]);
        rows.all(|(id, party)| !parties.contains(party) || players.contains(id))
    }

    fn above_zero(teams: &Teams, columns: &Columns, column: usize) -> bool {
        let players = teams.concat();
        let mut ratings = columns.of(&players, column).map(f64::from_bits);
        ratings.all(|rating| rating > 0.0)
    }

    fn regions_allowed(allowed: &Pairs, [a, b]: &Teams, columns: &Columns, column: usize) -> bool {
        let allows =
            |a, b| a > 3 || b > 3 || allowed.contains(&[a, b]) || allowed.contains(&[b, a]);
        let mut of_a = columns.of(a, column);
        of_a.all(|of_a| columns.of(b, column).all(|of_b| allows(of_a, of_b)))
    }

    /// Reads refusal and verdict, the end of every such line.
    fn judged(mut line: Reader, expected: Result<bool, u64>, seen: &mut [usize; 4]) {
        let (refusal, answer) = (line.word(), line.word());
        assert_eq!(refusal, expected.err().unwrap_or(0));
        assert_eq!(answer, u64::from(expected.unwrap_or(false)));
        seen[if refusal == 0 { answer } else { 1 + refusal } as usize] += 1;
        line.end();
    }

    /// Both verdicts and both refusals were met often.
    fn all_seen(seen: [usize; 4]) {
        assert!(seen.iter().all(|&count| count > 3), "{seen:?}");
    }

    fn checked(teams: Option<Teams>, columns: Option<Columns>) -> Result<(Teams, Columns), u64> {
        let (teams, columns) = teams.zip(columns).ok_or(1u64)?;
        if columns.bad() {
            return Err(2);
        }
        Ok((teams, columns))
    }

    #[test]
    fn size_constraint() {
        let mut seen = [0; 4];
        for mut line in lines(13) {
            let (sizes, teams) = (sizes(&mut line), teams(&mut line));
            let teams = teams.filter(|_| sizes.iter().all(|&size| size <= 8));
            let expected = teams.map(|teams| sized(&teams, sizes)).ok_or(1);
            judged(line, expected, &mut seen);
        }
        assert!(seen[..3].iter().all(|&count| count > 10), "{seen:?}");
    }

    #[test]
    fn role_constraint() {
        let mut seen = [0; 4];
        for mut line in lines(14) {
            let (wanted, teams) = (requirements(&mut line), teams(&mut line));
            let columns = columns(&mut line, 2);
            let expected = wanted.ok_or(1).and_then(|wanted| {
                let (teams, columns) = checked(teams, columns)?;
                Ok(roles_met(&wanted, &teams, &columns, 1))
            });
            judged(line, expected, &mut seen);
        }
        all_seen(seen);
    }

    #[test]
    fn party_and_latency_constraints() {
        let (mut whole, mut above) = ([0; 4], [0; 4]);
        for mut line in lines(15) {
            let (teams, columns) = (teams(&mut line), columns(&mut line, 2));
            let expected = checked(teams, columns);
            let expected = expected.map(|(teams, columns)| parties_whole(&teams, &columns, 1));
            judged(line, expected, &mut whole);
        }
        for mut line in lines(16) {
            let (teams, columns) = (teams(&mut line), columns(&mut line, 2));
            let expected = checked(teams, columns);
            let expected = expected.map(|(teams, columns)| above_zero(&teams, &columns, 1));
            judged(line, expected, &mut above);
        }
        all_seen(whole);
        all_seen(above);
    }

    #[test]
    fn region_constraint() {
        let mut seen = [0; 4];
        for mut line in lines(17) {
            let (allowed, teams) = (pairs(&mut line), teams(&mut line));
            let columns = columns(&mut line, 2);
            let expected = allowed.ok_or(1).and_then(|allowed| {
                let (teams, columns) = checked(teams, columns)?;
                if unknown(&allowed.concat()) || unknown(&columns.0[1]) {
                    return Err(2);
                }
                Ok(regions_allowed(&allowed, &teams, &columns, 1))
            });
            judged(line, expected, &mut seen);
        }
        all_seen(seen);
    }

    struct Constraints {
        brought: [bool; 5],
        sizes: [u64; 2],
        roles: Option<Requirements>,
        regions: Option<Pairs>,
    }

    fn constraints(line: &mut Reader) -> Constraints {
        Constraints {
            brought: std::array::from_fn(|_| line.word() == 1),
            sizes: sizes(line),
            roles: requirements(line),
            regions: pairs(line),
        }
    }

    /// The constraints that are brought, and columns ids, ratings, parties, roles, regions.
    struct Ruled {
        sizes: Option<[u64; 2]>,
        roles: Requirements,
        parties: bool,
        latency: bool,
        regions: Option<Pairs>,
        columns: Columns,
    }

    /// The refusal of 1 and 2, else what is brought.
    fn ruled(constraints: Constraints, columns: Option<Columns>) -> Result<Ruled, u64> {
        let [sizes, roles, parties, latency, regions] = constraints.brought;
        let ruled = Ruled {
            sizes: sizes.then_some(constraints.sizes),
            roles: if roles {
                constraints.roles.ok_or(1u64)?
            } else {
                Vec::new()
            },
            parties,
            latency,
            regions: if regions {
                Some(constraints.regions.ok_or(1u64)?)
            } else {
                None
            },
            columns: columns.ok_or(1u64)?,
        };
        if ruled.sizes.iter().flatten().any(|&size| size > 8) {
            return Err(1);
        }
        let pairs = ruled.regions.iter().flatten();
        let codes: Vec<u64> = pairs.flatten().copied().collect();
        if ruled.columns.bad() || unknown(&codes) || unknown(&ruled.columns.0[4]) {
            return Err(2);
        }
        Ok(ruled)
    }

    impl Ruled {
        fn satisfied(&self, teams: &Teams) -> bool {
            let columns = &self.columns;
            let mut regions = self.regions.iter();
            self.sizes.iter().all(|&sizes| sized(teams, sizes))
                && roles_met(&self.roles, teams, columns, 3)
                && (!self.parties || parties_whole(teams, columns, 2))
                && (!self.latency || above_zero(teams, columns, 1))
                && regions.all(|allowed| regions_allowed(allowed, teams, columns, 4))
        }
    }

    fn together(
        constraints: Constraints,
        teams: Option<Teams>,
        columns: Option<Columns>,
    ) -> Result<(bool, Teams, Columns), u64> {
        let teams = teams.ok_or(1u64)?;
        let ruled = ruled(constraints, columns)?;
        Ok((ruled.satisfied(&teams), teams, ruled.columns))
    }

    #[test]
    fn constraints_together() {
        let mut seen = [0; 4];
        for mut line in lines(18) {
            let (constraints, teams) = (constraints(&mut line), teams(&mut line));
            let expected = together(constraints, teams, columns(&mut line, 5));
            judged(line, expected.map(|(satisfied, ..)| satisfied), &mut seen);
        }
        all_seen(seen);
    }

    #[test]
    fn validate() {
        let mut seen = [0; 4];
        for mut line in lines(19) {
            let (size, wanted, team) = (line.word(), requirements(&mut line), team(&mut line));
            let columns = columns(&mut line, 2);
            let teams = team.filter(|_| size <= 8).map(|team| [team, Vec::new()]);
            let expected = wanted.ok_or(1).and_then(|wanted| {
                let ([team, _], columns) = checked(teams, columns)?;
                if team.len() as u64 != size {
                    return Ok((0, 1));
                }
                let faults = wanted.iter().map(|w| role_fault(w, &team, &columns, 1));
                let first = (0..).zip(faults).find(|(_, fault)| *fault > 0);
                Ok(first.unwrap_or((0, 0)))
            });
            let (refusal, place, fault) = (line.word(), line.word(), line.word());
            assert_eq!(refusal, expected.err().unwrap_or(0));
            assert_eq!((place, fault), expected.unwrap_or((0, 0)));
            seen[fault as usize] += 1;
            line.end();
        }
        assert!(seen.iter().all(|&count| count > 3), "{seen:?}");
    }

    fn average(players: &[u64], columns: &Columns) -> f64 {
        let ratings = columns.of(players, 1).map(f64::from_bits);
        ratings.fold(0.0, |sum, rating| sum + rating) / players.len().max(1) as f64
    }

    /// 1.0 minus the smaller, where NaN is never the smaller.
    fn from_one(share: f64) -> f64 {
        1.0 - if share < 1.0 { share } else { 1.0 }
    }

    fn quality([a, b]: &Teams, columns: &Columns) -> f64 {
        from_one((average(a, columns) - average(b, columns)).abs() / 400.0)
    }

    type Objectives = Vec<(u64, f64)>;

    /// None where a kind is unknown.
    fn objectives(line: &mut Reader) -> Option<Objectives> {
        let listed = items(line, 8, |line| (line.word(), float(line)));
        let known = |listed: &Objectives| listed.iter().all(|(kind, _)| *kind <= 2);
        listed.filter(known)
    }

    fn value(kind: u64, teams: &Teams, columns: &Columns) -> f64 {
        match kind {
            0 => quality(teams, columns),
            1 => from_one(average(&teams.concat(), columns) / 200.0),
            _ => 0.5,
        }
    }

    fn score(objectives: &Objectives, teams: &Teams, columns: &Columns) -> f64 {
        let listed = objectives.iter();
        listed.fold(0.0, |sum, (kind, weight)| {
            sum + weight * value(*kind, teams, columns)
        })
    }

    #[test]
    fn policy_score() {
        let mut barred = 0;
        for mut line in lines(20) {
            let (constraints, objectives) = (constraints(&mut line), objectives(&mut line));
            let (teams, columns) = (teams(&mut line), columns(&mut line, 5));
            let expected = objectives.ok_or(1).and_then(|objectives| {
                let (satisfied, teams, columns) = together(constraints, teams, columns)?;
                let score = score(&objectives, &teams, &columns);
                Ok(if satisfied { score } else { f64::NEG_INFINITY })
            });
            let (refusal, value) = (line.word(), float(&mut line));
            assert_eq!(refusal, expected.err().unwrap_or(0));
            assert!(value.same(&expected.unwrap_or(0.0)));
            barred += usize::from(value == f64::NEG_INFINITY);
            line.end();
        }
        assert!((30..200).contains(&barred), "{barred}");
    }

    #[test]
    fn best_choice() {
        let mut seen = [0; 9];
        for mut line in lines(29) {
            let (queue, sizes) = (line.queue(), sizes(&mut line));
            let (constraints, objectives) = (constraints(&mut line), objectives(&mut line));
            let columns = columns(&mut line, 5);
            let small = sizes.iter().all(|&size| size <= 8);
            let listed = queue.zip(objectives).filter(|_| small).ok_or(1u64);
            let expected = listed.and_then(|(queue, objectives)| {
                let ruled = ruled(constraints, columns)?;
                if queue.iter().any(|entry| entry[1] > 1 << 53) {
                    return Err(4);
                }
                if queue.len() > 20 {
                    return Err(6);
                }
                let [a, b] = sizes.map(|size| size as usize);
                let choices = choices(queue.len(), a + b);
                let tried = choices.len() as u64;
                let teams = choices.into_iter().map(|places| {
                    let players = places.into_iter().map(|place| queue[place][0]);
                    let mut of_a: Vec<u64> = players.collect();
                    let of_b = of_a.split_off(a);
                    [of_a, of_b]
                });
                let passing: Vec<Teams> = teams.filter(|teams| ruled.satisfied(teams)).collect();
                let scores = passing
                    .iter()
                    .map(|t| score(&objectives, t, &ruled.columns));
                let scores: Vec<f64> = scores.collect();
                rankable(&scores)?;
                let beaten = |score: &f64| scores.iter().any(|other| other > score);
                let last = scores.iter().rposition(|score| !beaten(score));
                Ok((last.map(|place| passing[place].clone()), tried))
            });
            let (refusal, found) = (line.word(), line.word());
            let teams = (found == 1).then(|| teams(&mut line).expect("within limits"));
            let tried = line.word();
            seen[match refusal {
                0 if teams.is_some() => 7,
                0 if tried > 0 => 8,
                number => number as usize,
            }] += 1;
            assert_eq!(refusal, *expected.as_ref().err().unwrap_or(&0));
            assert_eq!((teams, tried), expected.unwrap_or((None, 0)));
            line.end();
        }
        assert!(seen[7] > 60 && seen[8] > 20 && seen[0] > 5, "{seen:?}");
        assert!([1, 2, 4, 5, 6].iter().all(|&n| seen[n] > 2), "{seen:?}");
    }

    type Candidates = Vec<Teams>;

    /// None where there are too many or one has a team over limit.
    fn candidates(line: &mut Reader) -> Option<Candidates> {
        items(line, 64, teams)?.into_iter().collect()
    }

    fn ranked(
        candidates: Option<Candidates>,
        columns: Option<Columns>,
    ) -> Result<(Candidates, Columns), u64> {
        let (candidates, columns) = candidates.zip(columns).ok_or(1u64)?;
        if columns.bad() {
            return Err(2);
        }
        Ok((candidates, columns))
    }

    fn rankable(scores: &[f64]) -> Result<(), u64> {
        let unranked = scores.len() > 1 && scores.iter().any(|score| score.is_nan());
        if unranked { Err(5) } else { Ok(()) }
    }

    /// Reads refusal and places, the end of every such line.
    fn selected(mut line: Reader, expected: Result<Vec<u64>, u64>, seen: &mut [usize; 6]) {
        let (refusal, places) = (line.word(), line.list());
        assert_eq!(refusal, *expected.as_ref().err().unwrap_or(&0));
        assert_eq!(places, expected.unwrap_or_default());
        seen[refusal as usize] += 1;
        line.end();
    }

    #[test]
    fn greedy_and_threshold() {
        let (mut greedy, mut threshold) = ([0; 6], [0; 6]);
        for code in [21, 22] {
            for mut line in lines(code) {
                let minimum = (code == 22).then(|| float(&mut line));
                let objectives = objectives(&mut line);
                let (candidates, columns) = (candidates(&mut line), columns(&mut line, 2));
                let expected = objectives.ok_or(1).and_then(|objectives| {
                    let (candidates, columns) = ranked(candidates, columns)?;
                    let scores = candidates.iter().map(|c| score(&objectives, c, &columns));
                    let scores: Vec<f64> = scores.collect();
                    if let Some(minimum) = minimum {
                        let first = scores.iter().position(|&score| score >= minimum);
                        return Ok(first.map(|place| place as u64).into_iter().collect());
                    }
                    rankable(&scores)?;
                    let beaten = |score: &f64| scores.iter().any(|other| other > score);
                    let last = scores.iter().rposition(|score| !beaten(score));
                    Ok(last.map(|place| place as u64).into_iter().collect())
                });
                let seen = if code == 21 {
                    &mut greedy
                } else {
                    &mut threshold
                };
                selected(line, expected, seen);
            }
        }
        assert!(greedy[5] > 5 && threshold[5] == 0);
    }

    #[test]
    fn lexicographic() {
        let mut seen = [0; 6];
        for mut line in lines(23) {
            let objectives = objectives(&mut line);
            let (candidates, columns) = (candidates(&mut line), columns(&mut line, 2));
            let expected = objectives.ok_or(1).and_then(|objectives| {
                let (candidates, columns) = ranked(candidates, columns)?;
                let mut kept: Vec<usize> = (0..candidates.len()).collect();
                for (kind, _) in objectives {
                    if kept.len() > 1 {
                        let value = |place: &usize| value(kind, &candidates[*place], &columns);
                        let best = kept.iter().map(value).fold(f64::NEG_INFINITY, f64::max);
                        kept.retain(|place| value(place) >= best - 0.001);
                    }
                }
                Ok(kept.into_iter().map(|place| place as u64).collect())
            });
            selected(line, expected, &mut seen);
        }
        assert!(seen[0] > 150 && seen[5] == 0, "{seen:?}");
    }

    #[test]
    fn weighted() {
        let mut seen = [0; 6];
        for mut line in lines(24) {
            let weights: [f64; 6] = std::array::from_fn(|_| float(&mut line));
            let (candidates, columns) = (candidates(&mut line), columns(&mut line, 2));
            let expected = ranked(candidates, columns).and_then(|(candidates, columns)| {
                let scores = candidates.iter().map(|c| weights[0] * quality(c, &columns));
                let scores: Vec<f64> = scores.collect();
                rankable(&scores)?;
                let mut places: Vec<u64> = (0..scores.len() as u64).collect();
                let score = |place: u64| scores[place as usize];
                places.sort_by(|&a, &b| score(b).partial_cmp(&score(a)).expect("no NaN"));
                Ok(places)
            });
            selected(line, expected, &mut seen);
        }
        assert!(seen[0] > 150 && seen[5] > 3, "{seen:?}");
    }
}

/// Lines of searches and generators, their answers computed anew from document 01 and request 2.2.
mod searches {
    use super::{Entry, Reader, choices, lines};
    use compare::same::Same;

    /// Ids, then floats as bits.
    type Columns = Vec<Vec<u64>>;
    /// Teams one after the other, their qualities.
    type Formed = (Vec<u64>, Vec<f64>);

    struct Search {
        queue: Option<Vec<Entry>>,
        sizes: [u64; 2],
    }

    fn search(line: &mut Reader) -> Search {
        Search {
            queue: line.queue(),
            sizes: [line.word(), line.word()],
        }
    }

    /// None where the ids are over limit.
    fn columns(line: &mut Reader, count: usize) -> Option<Columns> {
        let column = |line: &mut Reader| match line.word() {
            129 => None,
            n => {
                assert!(n <= 12);
                Some((0..n).map(|_| line.word()).collect())
            }
        };
        let read: Vec<Option<Vec<u64>>> = (0..count).map(|_| column(line)).collect();
        read.into_iter().collect()
    }

    /// The refusal of 1 to 4, else queue and columns.
    fn checked(
        search: &Search,
        columns: Option<Columns>,
        sheets: [u64; 2],
        clock: u64,
    ) -> Result<(&[Entry], Columns), u64> {
        let small = search.sizes.iter().all(|&size| size <= 8);
        let queue = search.queue.as_ref().filter(|_| small).ok_or(1u64)?;
        let columns = columns.ok_or(1u64)?;
        let ids = &columns[0];
        let doubled = (0..ids.len()).any(|row| ids[..row].contains(&ids[row]));
        if doubled || columns.iter().any(|column| column.len() != ids.len()) {
            return Err(2);
        }
        if sheets.iter().any(|&places| places < 64) {
            return Err(3);
        }
        let mut times = queue.iter().map(|entry| entry[1]).chain([clock]);
        if times.any(|time| time > 1 << 53) {
            return Err(4);
        }
        Ok((queue, columns))
    }

    /// What a column says of a player.
    fn of(player: u64, columns: &[Vec<u64>], column: usize) -> Option<f64> {
        let row = columns[0].iter().position(|&id| id == player)?;
        Some(f64::from_bits(columns[column][row]))
    }

    fn average(players: &[u64], columns: &[Vec<u64>]) -> f64 {
        let ratings = players.iter().filter_map(|&player| of(player, columns, 1));
        ratings.fold(0.0, |sum, rating| sum + rating) / players.len().max(1) as f64
    }

    /// 1.0 minus the smaller, where NaN is never the smaller.
    fn quality(a: &[u64], b: &[u64], columns: &[Vec<u64>]) -> f64 {
        let share = (average(a, columns) - average(b, columns)).abs() / 400.0;
        1.0 - if share < 1.0 { share } else { 1.0 }
    }

    /// Reads refusal, players and qualities, the end of every such line.
    fn formed(mut line: Reader, expected: Result<Formed, u64>, seen: &mut [usize; 14]) {
        let (refusal, players) = (line.word(), line.list());
        let qualities: Vec<f64> = line.list().into_iter().map(f64::from_bits).collect();
        assert_eq!(refusal, *expected.as_ref().err().unwrap_or(&0));
        let (seats, values) = expected.unwrap_or_default();
        assert_eq!(players, seats);
        assert!(qualities.same(&values));
        seen[if qualities.is_empty() { refusal } else { 13 } as usize] += 1;
        line.end();
    }

    fn all_seen(seen: [usize; 14], refusals: &[usize]) {
        assert!(seen[0] > 5 && seen[13] > 50, "{seen:?}");
        assert!(refusals.iter().all(|&number| seen[number] > 2), "{seen:?}");
    }

    /// Is it team A's turn, with so many seated?
    fn takes_a(a: usize, b: usize, sizes: [usize; 2]) -> bool {
        a < sizes[0] && (a <= b || b == sizes[1])
    }

    fn greedy(queue: &[Entry], sizes: [usize; 2], columns: &[Vec<u64>]) -> Formed {
        let mut used: Vec<u64> = Vec::new();
        let mut all = Formed::default();
        for anchor in queue {
            if used.contains(&anchor[0]) {
                continue;
            }
            used.push(anchor[0]);
            let (mut a, mut b) = (vec![anchor[0]], Vec::new());
            let mut reference = f64::from_bits(anchor[2]);
            while a.len() < sizes[0] || b.len() < sizes[1] {
                let distance = |entry: &Entry| (reference - f64::from_bits(entry[2])).abs();
                let free = queue.iter().filter(|entry| !used.contains(&entry[0]));
                let near = free.filter(|entry| distance(entry) < f64::INFINITY);
                // Of equal distances the earlier joined time; the first of equal ones is the smallest.
                let pick = near.min_by(|x, y| {
                    let distances = distance(x).total_cmp(&distance(y));
                    distances.then(x[1].cmp(&y[1]))
                });
                let Some(pick) = pick else { break };
                used.push(pick[0]);
                if takes_a(a.len(), b.len(), sizes) {
                    a.push(pick[0]);
                    let rating = |&player: &u64| of(player, columns, 1).unwrap_or(0.0);
                    let sum = a.iter().map(rating).fold(0.0, |sum, rating| sum + rating);
                    reference = sum / a.len() as f64;
                } else {
                    b.push(pick[0]);
                }
            }
            if a.len() == sizes[0] && b.len() == sizes[1] {
                all.1.push(quality(&a, &b, columns));
                all.0.extend(a.into_iter().chain(b));
            }
        }
        all
    }

    /// Some lines would hold other matches if all guests had joined at once.
    #[test]
    fn greedy_search() {
        let (mut seen, mut by_wait) = ([0; 14], 0);
        for mut line in lines(25) {
            let (search, columns) = (search(&mut line), columns(&mut line, 2));
            let sheets = [line.word(), line.word()];
            let sizes = search.sizes.map(|size| size as usize);
            let checked = checked(&search, columns, sheets, 0);
            let expected = checked.map(|(queue, columns)| {
                let formed = greedy(queue, sizes, &columns);
                let mut at_once = queue.to_vec();
                at_once.iter_mut().for_each(|entry| entry[1] = 0);
                by_wait += usize::from(greedy(&at_once, sizes, &columns).0 != formed.0);
                formed
            });
            formed(line, expected, &mut seen);
        }
        all_seen(seen, &[1, 2, 3, 4]);
        assert!(by_wait > 10, "{by_wait}");
    }

    #[test]
    fn nearest() {
        let mut seen = [0; 14];
        for mut line in lines(26) {
            let (max, search) = (line.word(), search(&mut line));
            let columns = columns(&mut line, 2);
            let sheets = [line.word(), line.word()];
            let checked = checked(&search, columns, sheets, 0);
            let expected = checked.and_then(|(queue, columns)| {
                let seats = search.sizes.iter().sum::<u64>() as usize;
                if seats == 0 {
                    return Err(12);
                }
                let rating = |entry: &Entry| of(entry[0], &columns, 1).unwrap_or(1000.0);
                let mut sorted: Vec<Entry> = queue.to_vec();
                let nan = sorted.len() > 1 && sorted.iter().any(|entry| rating(entry).is_nan());
                if sorted.len() < seats {
                    return Ok(Formed::default());
                }
                if nan {
                    return Err(5);
                }
                sorted.sort_by(|x, y| rating(x).partial_cmp(&rating(y)).expect("no NaN"));
                let count = (sorted.len() / seats).min(max.min(64) as usize);
                let players = sorted.iter().map(|entry| entry[0]);
                Ok((players.take(count * seats).collect(), vec![0.0; count]))
            });
            formed(line, expected, &mut seen);
        }
        all_seen(seen, &[1, 2, 3, 4, 5, 12]);
    }

    #[test]
    fn exhaustive() {
        let mut seen = [0; 14];
        for mut line in lines(28) {
            let search = search(&mut line);
            let sheets = [line.word(), line.word()];
            let small = search.sizes.iter().all(|&size| size <= 8);
            let queue = search.queue.as_ref().filter(|_| small).ok_or(1u64);
            let expected = queue.and_then(|queue| {
                if queue.iter().any(|entry| entry[1] > 1 << 53) {
                    return Err(4);
                }
                if queue.len() > 20 {
                    return Err(6);
                }
                let seats = search.sizes.iter().sum::<u64>() as usize;
                let choices = choices(queue.len(), seats);
                let players = choices.concat().into_iter().map(|place| queue[place][0]);
                let players: Vec<u64> = players.collect();
                let wanted = [players.len() as u64, choices.len() as u64];
                if sheets[0] < wanted[0] || sheets[1] < wanted[1] {
                    return Err(3);
                }
                Ok((players, vec![0.0; choices.len()]))
            });
            formed(line, expected, &mut seen);
        }
        all_seen(seen, &[1, 3, 4, 6]);
    }

    /// The players on the line are taken as they are; their number, their qualities and that nobody sits twice are known.
    #[test]
    fn beam_search() {
        let mut seen = [0; 14];
        for mut line in lines(27) {
            let (width, search) = (line.word(), search(&mut line));
            let weights: [f64; 4] = std::array::from_fn(|_| f64::from_bits(line.word()));
            let (columns, clock) = (columns(&mut line, 3), line.word());
            let sheets = [line.word(), line.word()];
            let narrow = columns.filter(|_| width <= 32);
            let given = line.0[0];
            let on_line: Vec<u64> = line.0[2..][..line.0[1] as usize].to_vec();
            let expected = checked(&search, narrow, sheets, clock).and_then(|(queue, columns)| {
                let [a, b] = search.sizes.map(|size| size as usize);
                if given == 5 {
                    let deviations = columns[2].iter().map(|&bits| f64::from_bits(bits));
                    let mut floats = weights.into_iter().chain(deviations);
                    assert!(queue.len() > 2 && a.max(1) + b > 1);
                    assert!(floats.any(|float| !float.is_finite() || float.abs() > 1e300));
                    return Err(5);
                }
                let mut players: Vec<u64> = queue.iter().map(|entry| entry[0]).collect();
                players.sort_unstable();
                players.dedup();
                let mut seated = on_line.clone();
                seated.sort_unstable();
                seated.dedup();
                assert_eq!(seated.len(), on_line.len());
                assert!(seated.iter().all(|player| players.contains(player)));
                let possible = a > 0 && (width > 0 || a + b == 1);
                let count = if possible { players.len() / (a + b) } else { 0 };
                assert_eq!(seated.len(), count * (a + b));
                let matches = on_line.chunks((a + b).max(1)).map(|of| of.split_at(a));
                let qualities = matches.map(|(a, b)| quality(a, b, &columns)).collect();
                Ok((on_line, qualities))
            });
            formed(line, expected, &mut seen);
        }
        all_seen(seen, &[1, 2, 3, 4, 5]);
    }
}
