//! The command line.

use std::ffi::OsString;

pub const USAGE: &str =
    "usage: rul [--budget N] [--longer] [--words] [FILE]   (rul --help says more)";

pub const HELP: &str = "\
usage: rul [--budget N] [--longer] [--words] [FILE]

Answers a sheet from FILE, or from standard input: is there a frame, a value for each
quantity, that is in every range and meets every rule?

  --budget N   search with at most N sweeps, 0 to 1000000000, and as much room as the sheet
               needs; without it as the desk does, with 100000 sweeps and room for 8192 numbers
  --longer     search in stages: first 100000 sweeps, then ten times as many each time, until a
               stage decides or N are used up (without --budget: 1000000000), with as much room
               as the sheet needs. After each stage standard error has its sweeps, its time, and
               the floor if it stopped. The stages before the last cost together less than 10/9
               of the last. Ctrl-C prints the last floor as STOP.
  --words      answer in plain words, and show the line at fault of a refused sheet
  --help       print this

  NONE n       no frame meets everything; n sweeps were needed
  FOUND n      the smallest frame that does, a line with name and value for each quantity
  STOP n       the budget was used up; no frame before these values meets everything
  REFUSED g k  the sheet was not taken: ground g, line k (0: no line of its own)

Status: 0 answered, 1 refused, 2 bad usage or the sheet could not be read,
130 interrupted while searching with --longer.
";

pub enum Command {
    Help,
    Answer(Options),
}

#[derive(Default)]
pub struct Options {
    /// None: the desk's.
    pub budget: Option<i64>,
    pub longer: bool,
    pub words: bool,
    /// None: standard input.
    pub file: Option<OsString>,
}

impl Options {
    /// Nothing is asked for that the desk does not do.
    pub fn as_the_desk(&self) -> bool {
        !self.longer && !self.words && self.budget.is_none()
    }
}

pub fn parse(mut arguments: impl Iterator<Item = OsString>) -> Result<Command, String> {
    let mut options = Options::default();
    while let Some(argument) = arguments.next() {
        match argument.to_str() {
            Some("--help") => return Ok(Command::Help),
            Some("--longer") => options.longer = true,
            Some("--words") => options.words = true,
            Some("--budget") => options.budget = Some(budget(arguments.next())?),
            Some(unknown) if unknown.starts_with("--") => {
                return Err(format!("unknown option {unknown}"))
            }
            _ if options.file.is_some() => return Err("more than one file".to_string()),
            _ => options.file = Some(argument),
        }
    }
    Ok(Command::Answer(options))
}

/// Any number: the library says which ones it takes.
fn budget(argument: Option<OsString>) -> Result<i64, String> {
    let number = argument.and_then(|text| text.to_str()?.parse().ok());
    number.ok_or("--budget needs a whole number".to_string())
}

#[cfg(test)]
mod tests {
    use super::*;

    fn parsed(words: &[&str]) -> Result<Options, String> {
        match parse(words.iter().map(OsString::from))? {
            Command::Help => Err("help".to_string()),
            Command::Answer(options) => Ok(options),
        }
    }

    #[test]
    fn options_in_any_order() {
        let options = parsed(&["--words", "a.rul", "--budget", "5"]).unwrap_or_default();
        assert!(options.words && !options.longer);
        assert_eq!((options.budget, options.file), (Some(5), Some("a.rul".into())));
    }

    #[test]
    fn only_without_options_as_the_desk() {
        let as_the_desk = |words| parsed(words).unwrap_or_default().as_the_desk();
        assert!(as_the_desk(&["a.rul"]));
        for words in [&["--longer"][..], &["--words"], &["--budget", "100000"]] {
            assert!(!as_the_desk(words));
        }
    }

    #[test]
    fn faults() {
        for words in [&["--budget"][..], &["--budget", "x"], &["a", "b"], &["--x"], &["--help"]] {
            assert!(parsed(words).is_err());
        }
    }
}
