//! `film make` and `film show`: a job's text and its file.
use crate::args::{Args, Command};
use crate::failure::Failure;
use crate::{files, out, text};
use film_planner::convert_file;

pub const MAKE: Command = Command {
    name: "make",
    summary: "make the job file of a text; all faults of the text are told in one go",
    help: "film make [TEXT] [--out FILE]

Writes the job file of a job's text to FILE, or to standard output. Without TEXT, standard input is
read. `film --help` says how a text is written. A job file is also read: a mixed one, as document 01
has it, comes out in one sequence.

  film make samples/flight.txt --out flight.job",
    options: &[("out", 1)],
    words: 0..=1,
    run: make,
};

pub const SHOW: Command = Command {
    name: "show",
    summary: "show a job file as text",
    help: "film show [JOB] [--out FILE]

Writes the text of a job, the one text that it has, to FILE or to standard output. JOB is a job file
or a text; without it, standard input is read.

  film show samples/a.job
  film show samples/flight.txt",
    options: &[("out", 1)],
    words: 0..=1,
    run: show,
};

fn make(args: Args) -> Result<(), Failure> {
    let path = args.path(0);
    let data = files::read(path, files::TEXT)?;
    let file = match files::is_records(&data).then(|| convert_file(&data)) {
        // A mixed file has no sizes by chunk; what it refuses may still be a file in one sequence.
        Some(Ok(file)) => file,
        _ => files::job_of(path, &data)?.job.write().map_err(|refusal| Failure::refused(files::called(path), refusal))?,
    };
    out::result(&args, &file, "give it a file, `film make TEXT --out JOB`, or see it by `film show`")
}

fn show(args: Args) -> Result<(), Failure> {
    let loaded = files::job(args.path(0))?;
    out::result(&args, text::show(&loaded.job).as_bytes(), "")
}
