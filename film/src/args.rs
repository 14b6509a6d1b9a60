//! The words after a subcommand: `--name value`, `--name=value`, flags and positional words. After
//! `--` every word is positional.
use crate::failure::Failure;
use crate::words::{near, printable, thousands};
use std::ffi::{OsStr, OsString};
use std::ops::RangeInclusive;
use std::path::Path;

/// A subcommand, as it stands in the dispatch table and in `--help`.
pub struct Command {
    pub name: &'static str,
    /// One line for `film --help`.
    pub summary: &'static str,
    /// The whole of `film NAME --help`; its first line is the usage.
    pub help: &'static str,
    /// Each option without its dashes, and how many values follow it.
    pub options: &'static [(&'static str, usize)],
    /// How many positional words it takes.
    pub words: RangeInclusive<usize>,
    pub run: fn(Args) -> Result<(), Failure>,
}

impl Command {
    /// The first line of its help.
    pub fn usage(&self) -> &'static str {
        self.help.lines().next().unwrap_or("")
    }
}

/// What was asked for, held against the subcommand's own options and number of words.
#[derive(Clone, Debug, Default, PartialEq, Eq)]
pub struct Args {
    words: Vec<OsString>,
    options: Vec<(&'static str, Vec<OsString>)>,
}

impl Args {
    /// `Ok(None)` if help is asked for.
    pub fn parse(command: &Command, given: impl IntoIterator<Item = OsString>) -> Result<Option<Args>, Failure> {
        let wrong = |text: String| Failure::usage(format!("{text}\n{}\n`film {} --help` says more", command.usage(), command.name));
        let mut args = Args::default();
        let mut given = given.into_iter();
        let mut options_end = false;
        while let Some(word) = given.next() {
            let shown = printable(&word.to_string_lossy());
            let text = word.to_str().unwrap_or("");
            if options_end || !text.starts_with('-') || text == "-" {
                args.words.push(word);
                continue;
            }
            if text == "--" {
                options_end = true;
                continue;
            }
            if text == "--help" || text == "-h" {
                return Ok(None);
            }
            let (name, joined) = match text.trim_start_matches('-').split_once('=') {
                Some((name, value)) => (name, Some(OsString::from(value))),
                None => (text.trim_start_matches('-'), None),
            };
            let known = command.options.iter().find(|(own, _)| *own == name && text.starts_with("--"));
            let Some((own, count)) = known else {
                let meant = near(name, command.options.iter().map(|(own, _)| *own));
                let meant = meant.map_or(String::new(), |own| format!("; is --{own} meant?"));
                return Err(wrong(format!("{shown}: there is no such option{meant}")));
            };
            let mut values: Vec<OsString> = joined.into_iter().collect();
            if values.len() > *count {
                return Err(wrong(format!("--{own} takes no value")));
            }
            while values.len() < *count {
                match given.next() {
                    Some(value) => values.push(value),
                    None => return Err(wrong(format!("--{own}: its value is missing"))),
                }
            }
            args.options.push((own, values));
        }
        if !command.words.contains(&args.words.len()) {
            let what = match args.words.len() < *command.words.start() {
                true => "a word is missing".to_string(),
                false => format!("{}: one word too many", printable(&args.words[args.words.len() - 1].to_string_lossy())),
            };
            return Err(wrong(what));
        }
        Ok(Some(args))
    }

    /// The positional words.
    pub fn words(&self) -> &[OsString] {
        &self.words
    }

    /// Positional word k as a file, counted from 0; `-`, standard input, if it is absent.
    pub fn path(&self, k: usize) -> &Path {
        Path::new(self.words.get(k).map_or(OsStr::new("-"), |word| word.as_os_str()))
    }

    /// Whether an option was given.
    pub fn flag(&self, name: &str) -> bool {
        self.options.iter().any(|(own, _)| *own == name)
    }

    /// Each time an option was given, its values.
    pub fn all(&self, name: &str) -> Vec<&[OsString]> {
        self.options.iter().filter(|(own, _)| *own == name).map(|(_, values)| values.as_slice()).collect()
    }

    /// The value of an option, the last if it was given more than once.
    pub fn value(&self, name: &str) -> Option<&OsStr> {
        self.all(name).last().copied().and_then(|values| values.first()).map(OsString::as_os_str)
    }

    /// The value of an option as text; what is no UTF-8 in it is replaced.
    pub fn text(&self, name: &str) -> Option<String> {
        self.value(name).map(|value| printable(&value.to_string_lossy()))
    }

    /// The value of an option as a number in a range.
    pub fn number(&self, name: &str, range: RangeInclusive<u64>) -> Result<Option<u64>, Failure> {
        self.value(name).map(|value| number(&format!("--{name}"), &value.to_string_lossy(), range)).transpose()
    }
}

/// A number of the command line: digits alone, in a range.
pub fn number(about: &str, word: &str, range: RangeInclusive<u64>) -> Result<u64, Failure> {
    let (low, high) = (thousands(*range.start()), thousands(*range.end()));
    let digits = !word.is_empty() && word.bytes().all(|b| b.is_ascii_digit());
    match word.parse::<u64>() {
        Ok(n) if digits && range.contains(&n) => Ok(n),
        _ if digits => Err(Failure::usage(format!("{about} {}: it is {low} to {high}", printable(word)))),
        _ => Err(Failure::usage(format!("{about} {}: that is no number; numbers are digits alone, here {low} to {high}", printable(word)))),
    }
}
