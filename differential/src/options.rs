//! The command line.

use std::time::Duration;

/// What `--help` prints.
pub const HELP: &str = "\
usage: differential [--seed N] [--minutes M | --seconds S] [--only NAME [--case K]]

Compares libtwine.a with the second program; the exit status is 1 at the first difference.

  --seed N       make the cases from this number (1)
  --minutes M    how long in all (100 seconds)
  --seconds S    the same in seconds
  --only NAME    only this section: names, short, text, labels, padded, written, built, damaged, ends,
                 prune, calls, states, edge, long
  --case K       only this case of it
";

/// The names of the sections.
const SECTIONS: [&str; 14] = [
    "names", "short", "text", "labels", "padded", "written", "built", "damaged", "ends", "prune", "calls", "states", "edge",
    "long",
];

/// What to compare.
#[derive(Clone, Debug, PartialEq, Eq)]
pub struct Options {
    /// What the cases are made from.
    pub seed: u64,
    /// How long in all.
    pub time: Duration,
    /// Only the section of this name.
    pub only: Option<String>,
    /// Only the case of this number.
    pub case: Option<u64>,
}

/// A command line that is understood.
#[derive(Clone, Debug, PartialEq, Eq)]
pub enum Parsed {
    /// Compare.
    Run(Options),
    /// Print the help.
    Help,
}

impl Options {
    /// Reads a command line.
    pub fn parse(mut arguments: impl Iterator<Item = String>) -> Result<Parsed, String> {
        let mut options = Self { seed: 1, time: Duration::from_secs(100), only: None, case: None };
        while let Some(option) = arguments.next() {
            if matches!(option.as_str(), "--help" | "-h") {
                return Ok(Parsed::Help);
            }
            let value = arguments.next().ok_or(format!("{option} wants a value, or is unknown; see --help"))?;
            let number = || value.parse::<u64>().map_err(|_| format!("{option}: no number: {value}"));
            let time = |unit: f64| {
                let number = value.parse::<f64>().ok();
                let time = number.and_then(|number| Duration::try_from_secs_f64(number * unit).ok());
                time.ok_or(format!("{option}: no time: {value}"))
            };
            match option.as_str() {
                "--seed" => options.seed = number()?,
                "--minutes" => options.time = time(60.0)?,
                "--seconds" => options.time = time(1.0)?,
                "--case" => options.case = Some(number()?),
                "--only" if SECTIONS.contains(&value.as_str()) => options.only = Some(value),
                "--only" => return Err(format!("no section: {value}; see --help")),
                _ => return Err(format!("unknown: {option}; see --help")),
            }
        }
        if options.case.is_some() && options.only.is_none() {
            return Err("--case wants --only".into());
        }
        Ok(Parsed::Run(options))
    }
}

#[cfg(test)]
mod tests {
    use super::*;
    use crate::product::Archive;
    use crate::sections;

    fn parse(line: &str) -> Result<Parsed, String> {
        Options::parse(line.split_whitespace().map(String::from))
    }

    #[test]
    fn lines() {
        let options = Options { seed: 7, time: Duration::from_secs(90), only: Some("calls".into()), case: Some(3) };
        assert_eq!(parse("--seed 7 --minutes 1.5 --only calls --case 3"), Ok(Parsed::Run(options)));
        assert_eq!(parse("--seed 1 --help"), Ok(Parsed::Help));
        for wrong in ["--seed", "--seed x", "--only x", "--case 3", "--seconds -1", "--minutes nan", "x 1"] {
            assert!(parse(wrong).is_err(), "{wrong}");
        }
    }

    #[test]
    fn names_of_sections() {
        let names = sections::all::<Archive>().map(|section| section.name);
        assert_eq!(names, SECTIONS);
        let words: Vec<&str> = HELP.split_whitespace().collect();
        assert!(words.join(" ").contains(&SECTIONS.join(", ")));
    }
}
