//! `film`: one command for people over the proved film planner.
#![forbid(unsafe_code)]
// What is cut to fewer bits was judged against its range before; a picture's places, means and
// times need no more digits than a double has.
#![allow(clippy::cast_possible_truncation, clippy::cast_possible_wrap, clippy::cast_precision_loss, clippy::cast_sign_loss)]
// Both arms of a test, and both ends of an answer, read as one table.
#![allow(clippy::match_bool, clippy::single_match_else)]
// A text is made line by line, and none is long.
#![allow(clippy::format_push_string, clippy::format_collect)]
// Every command is one form of function, which owns its arguments.
#![allow(clippy::needless_pass_by_value)]
// The middle of two slots, or of two places of a picture, is within either's type.
#![allow(clippy::manual_midpoint)]
// Words of the papers, and of files, are near each other: last and lost, line and lines.
#![allow(clippy::similar_names)]

mod args;
mod desk;
mod draw;
mod failure;
mod files;
mod links;
mod make;
mod out;
mod page;
mod plan;
mod programme;
mod questions;
mod rehearse;
mod replan;
mod rows;
mod search;
mod second;
mod text;
mod words;

use args::{Args, Command};
use failure::Failure;
use std::ffi::OsString;
use std::io::Write;
use std::process::ExitCode;

/// The subcommands by what they are for, in the order of `film --help`.
const GROUPS: &[(&str, &[Command])] = &[
    ("A job, as text and as a file", &[make::MAKE, make::SHOW]),
    ("Its plan", &[plan::PLAN, plan::CHECK, plan::REPORT, plan::REASONS, draw::COMMAND, desk::COMMAND]),
    ("Questions", &[questions::WAIT, questions::LIMIT, questions::MARGIN, questions::WHAT_IF, second::COMMAND, search::COMMAND]),
    ("The act", &[rehearse::COMMAND, replan::COMMAND]),
];

fn commands() -> impl Iterator<Item = &'static Command> {
    GROUPS.iter().flat_map(|(_, commands)| commands.iter())
}

fn help() -> String {
    let line = |c: &Command| format!("  {:<9} {}\n", c.name, c.summary);
    let group = |(title, commands): &(&str, &[Command])| format!("{title}\n{}\n", commands.iter().map(line).collect::<String>());
    format!(
        "film SUBCOMMAND JOB ..

Plans which layers of which chunks of a film to fetch in which second (slot) over a link, so that
every chunk is there when it is due. Layer 0 of a chunk is its base, the picture itself; the others
refine it. A chunk whose base cannot come in time is skipped: the screen stands.

{}JOB is a job's text or a job file, told apart by their first bytes; `-` or no word at all is
standard input. `film SUBCOMMAND --help` says more, with an example to run in the repository's
folder, as in

  film limit samples/flight.txt

Status 0: answered. 1: bad input or a refusal; the message says where, which sentence of the
documents, and what to do. 2: a wrong command line.

{}
",
        GROUPS.iter().map(group).collect::<String>(),
        text::HELP
    )
}

fn run(mut given: impl Iterator<Item = OsString>) -> Result<(), Failure> {
    let Some(first) = given.next() else {
        return Err(Failure::usage(help().trim_end()));
    };
    let name = first.to_string_lossy();
    if name == "--help" || name == "-h" || name == "help" {
        return out::text(&help());
    }
    if name == "--version" {
        return out::text(concat!("film ", env!("CARGO_PKG_VERSION"), "\n"));
    }
    let Some(command) = commands().find(|c| c.name == name) else {
        let names: Vec<&str> = commands().map(|c| c.name).collect();
        let meant = words::near(&name, names.iter().copied()).map_or(String::new(), |own| format!("; is {own} meant?"));
        let shown = words::printable(&name);
        return Err(Failure::usage(format!("{shown}: there is no such subcommand{meant}\nThere are {}.", names.join(", "))));
    };
    match Args::parse(command, given)? {
        None => out::text(&format!("{}\n", command.help.trim_end())),
        Some(args) => (command.run)(args),
    }
}

fn main() -> ExitCode {
    match run(std::env::args_os().skip(1)) {
        Ok(()) => ExitCode::SUCCESS,
        Err(Failure { text, status }) => {
            if !text.is_empty() {
                let _ = writeln!(std::io::stderr(), "film: {text}");
            }
            ExitCode::from(status)
        }
    }
}
