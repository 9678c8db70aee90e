//! The options of both programs.

pub struct Options {
    pub cases: u64,
    pub seed: u64,
    pub only: Option<String>,
    /// Of the hall's lists.
    pub hall_calls: Option<u64>,
}

/// Reads `--cases N`, `--seed S` and, where `families` is not empty, `--only FAMILY` and `--hall-calls N`.
pub fn parse(
    arguments: impl Iterator<Item = String>,
    cases: u64,
    families: &[&str],
) -> Result<Options, String> {
    let mut arguments = arguments;
    let mut options = Options {
        cases,
        seed: 1,
        only: None,
        hall_calls: None,
    };
    while let Some(name) = arguments.next() {
        let value = arguments
            .next()
            .ok_or(format!("{name}: a value is missing"))?;
        match name.as_str() {
            "--cases" => options.cases = number(&name, &value)?,
            "--seed" => options.seed = number(&name, &value)?,
            "--hall-calls" if !families.is_empty() => {
                options.hall_calls = Some(number(&name, &value)?)
            }
            "--only" if families.contains(&value.as_str()) => options.only = Some(value),
            "--only" if !families.is_empty() => {
                return Err(format!(
                    "no family {value}; there are {}",
                    families.join(", ")
                ));
            }
            _ => return Err(format!("unknown option {name}")),
        }
    }
    Ok(options)
}

fn number(name: &str, value: &str) -> Result<u64, String> {
    value
        .parse()
        .map_err(|_| format!("{name}: {value} is not a number"))
}

#[cfg(test)]
mod tests {
    use super::*;

    fn read(line: &str) -> Result<Options, String> {
        let words = line.split_whitespace().map(String::from);
        parse(words, 10, &["queue", "time"])
    }

    #[test]
    fn options_are_read() {
        let options = read("--seed 7 --only time").expect("good options");
        assert_eq!((options.cases, options.seed), (10, 7));
        assert_eq!(options.only.as_deref(), Some("time"));
        assert_eq!(options.hall_calls, None);
        let options = read("--hall-calls 300").expect("good options");
        assert_eq!(options.hall_calls, Some(300));
    }

    #[test]
    fn bad_options_are_named() {
        for line in [
            "--seed",
            "--seed x",
            "--only hall",
            "--what 1",
            "--hall-calls x",
        ] {
            assert!(read(line).is_err(), "{line}");
        }
    }
}
