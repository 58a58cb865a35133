//! The command line.

use crate::cases::Which;

/// What is asked for.
#[derive(Debug, PartialEq)]
pub enum Command {
    Compare(Settings),
    /// Every fault, with the file that the table is held against, if any.
    Faults(Settings, Option<String>),
    Record(String),
    Help,
}

#[derive(Clone, Debug, PartialEq)]
pub struct Settings {
    pub cases: u64,
    pub seed: u64,
    pub against: Option<Against>,
    /// One case alone, shown in words.
    pub only: Option<Which>,
    /// A fault to switch on in the plain port.
    pub fault: Option<String>,
}

#[derive(Clone, Copy, Debug, PartialEq)]
pub enum Against {
    Plain,
    Rattle,
}

/// Enough to meet every point several times, in well under two minutes.
pub const CASES: u64 = 20_000;
pub const SEED: u64 = 1;

pub const USAGE: &str = "\
Holds a fit checker against the original Rust by running both.

usage: compare [--cases N] [--seed S] [--against plain|rattle] [--case K] [--fault NAME]
       compare --faults [--seed S] [--check FILE]
       compare record FILE

  --cases N        how many numbered cases to run (20000), the fixed ones first; with
                   them run all large ones, and one more large one for every 1000
  --seed S         the seed of the generated cases (1)
  --against WHICH  the checker: `rattle`, the library, or `plain`, the plain port
                   (the library where this build has it, else the plain port)
  --case K         run case K alone and print it in words: a number, L3 for a large
                   case, D3 for a large one that follows from the seed
  --fault NAME     switch one deliberate fault of the plain port on
  --faults         try every deliberate fault: each must be told apart
  --check FILE     with --faults: hold what is printed against a file, row by row
  record FILE      write the recorded answers of the original

The last line is `N passed, M failed`; the status is 0 where nothing failed.";

/// The command, or what is wrong with the line.
pub fn parse(line: &[String]) -> Result<Command, String> {
    let mut settings = Settings {
        cases: CASES,
        seed: SEED,
        against: None,
        only: None,
        fault: None,
    };
    let mut faults = false;
    let mut check = None;
    let mut rest = line.iter();
    if line.first().is_some_and(|word| word == "record") {
        return match line {
            [_, file] => Ok(Command::Record(file.clone())),
            _ => Err("`record` takes one file name".to_string()),
        };
    }
    while let Some(option) = rest.next() {
        let mut value = || {
            rest.next()
                .ok_or_else(|| format!("`{option}` needs a value"))
        };
        match option.as_str() {
            "--cases" => settings.cases = number(option, value()?)?,
            "--seed" => settings.seed = number(option, value()?)?,
            "--case" => settings.only = Some(which(value()?)?),
            "--check" => check = Some(value()?.clone()),
            "--fault" => settings.fault = Some(value()?.clone()),
            "--against" => {
                settings.against = match value()?.as_str() {
                    "plain" => Some(Against::Plain),
                    "rattle" => Some(Against::Rattle),
                    other => {
                        return Err(format!("`--against` takes plain or rattle, not `{other}`"));
                    }
                }
            }
            "--faults" => faults = true,
            "--help" | "-h" => return Ok(Command::Help),
            other => return Err(format!("`{other}` is not an option")),
        }
    }
    if settings.fault.is_some() && settings.against == Some(Against::Rattle) {
        return Err("`--fault` belongs to the plain port".to_string());
    }
    if faults {
        if settings.against == Some(Against::Rattle) {
            return Err("`--faults` belongs to the plain port".to_string());
        }
        return Ok(Command::Faults(settings, check));
    }
    if check.is_some() {
        return Err("`--check` belongs to `--faults`".to_string());
    }
    Ok(Command::Compare(settings))
}

fn which(value: &str) -> Result<Which, String> {
    Which::named(value).ok_or(format!("there is no case `{value}`"))
}

fn number(option: &str, value: &str) -> Result<u64, String> {
    value
        .parse()
        .map_err(|_| format!("`{option}` takes a whole number, not `{value}`"))
}

#[cfg(test)]
mod tests {
    use super::*;

    fn parsed(line: &str) -> Result<Command, String> {
        let words: Vec<String> = line.split_whitespace().map(str::to_string).collect();
        parse(&words)
    }

    #[test]
    fn the_options_are_read() {
        let Ok(Command::Compare(settings)) = parsed("--cases 7 --seed 9 --against plain") else {
            panic!("a comparison");
        };
        assert_eq!((settings.cases, settings.seed), (7, 9));
        assert_eq!(settings.against, Some(Against::Plain));
        assert!(matches!(
            parsed("--faults --check FAULTS.md"),
            Ok(Command::Faults(_, Some(_)))
        ));
        assert_eq!(
            parsed("record answers.bin"),
            Ok(Command::Record("answers.bin".to_string()))
        );
    }

    #[test]
    fn wrong_lines_say_what_is_wrong() {
        assert_eq!(
            parsed("--cases"),
            Err("`--cases` needs a value".to_string())
        );
        assert_eq!(
            parsed("--cases many"),
            Err("`--cases` takes a whole number, not `many`".to_string())
        );
        assert_eq!(
            parsed("--what"),
            Err("`--what` is not an option".to_string())
        );
        assert!(parsed("--against rust").is_err());
        assert!(parsed("--check FAULTS.md").is_err());
        assert!(parsed("--case X").is_err());
        assert!(parsed("record").is_err());
        assert!(parsed("--fault Mark9 --against rattle").is_err());
    }
}
