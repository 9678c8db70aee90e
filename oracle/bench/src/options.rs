//! The options of the program.

/// What is printed.
#[derive(Clone, Copy, Debug, PartialEq)]
pub enum Report {
    /// Both tables.
    All,
    /// The first table alone, with few rounds.
    Quick,
    /// How deep the library's stack gets.
    Stack,
}

pub struct Options {
    pub seed: u64,
    pub rounds: usize,
    pub report: Report,
}

/// A multiple of four: a round begins at one of four places on the stack.
const ROUNDS: usize = 8;
const QUICK_ROUNDS: usize = 4;

/// Reads `--seed S`, `--rounds N`, `--quick` and `--stack`.
pub fn parse(arguments: impl Iterator<Item = String>) -> Result<Options, String> {
    let mut arguments = arguments;
    let (mut seed, mut rounds, mut report) = (1, None, Report::All);
    while let Some(name) = arguments.next() {
        match name.as_str() {
            "--seed" => seed = number(&name, arguments.next())?,
            "--rounds" => rounds = Some(number(&name, arguments.next())?.max(1) as usize),
            "--quick" => report = Report::Quick,
            "--stack" => report = Report::Stack,
            _ => return Err(format!("unknown option {name}")),
        }
    }
    let usual = match report {
        Report::Quick => QUICK_ROUNDS,
        _ => ROUNDS,
    };
    Ok(Options {
        seed,
        rounds: rounds.unwrap_or(usual),
        report,
    })
}

fn number(name: &str, value: Option<String>) -> Result<u64, String> {
    let value = value.ok_or(format!("{name}: a value is missing"))?;
    value
        .parse()
        .map_err(|_| format!("{name}: {value} is not a number"))
}

#[cfg(test)]
mod tests {
    use super::*;

    fn read(line: &str) -> Result<Options, String> {
        parse(line.split_whitespace().map(String::from))
    }

    #[test]
    fn options_are_read() {
        let options = read("--seed 7 --quick").expect("good options");
        assert_eq!((options.seed, options.rounds), (7, QUICK_ROUNDS));
        assert_eq!(options.report, Report::Quick);
        let options = read("--rounds 0").expect("good options");
        assert_eq!((options.seed, options.rounds), (1, 1));
        assert_eq!(options.report, Report::All);
    }

    #[test]
    fn bad_options_are_named() {
        for line in ["--seed", "--seed x", "--rounds -1", "--what"] {
            assert!(read(line).is_err(), "{line}");
        }
    }
}
