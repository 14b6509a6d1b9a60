//! The picture of a plan: what is shown of each chunk and what is skipped and why, the link and what
//! is fetched over it, the chunks held against the limit, and when each chunk is fetched.
pub mod canvas;
pub mod film;
pub mod panels;
pub mod reasons;

use crate::args::{Args, Command};
use crate::failure::Failure;
use crate::{files, out, programme};
use canvas::{Canvas, VIEW};
use film::Film;
use film_planner::{Job, Plan, Verdict};

pub const COMMAND: Command = Command {
    name: "draw",
    summary: "draw a plan as one picture (SVG) for a browser",
    help: "film draw JOB [PLAN] [--title WORDS] [--out FILE]

Draws the plan of a job as one picture (SVG), to be opened in a browser: the film with what is
skipped and why, the link and what is fetched over it, the buffer against its limit, and when each
chunk is fetched. Point at a bar to read about it.

  JOB            the job, as a text or as a job file; - is standard input
  PLAN           a plan file of it; without one the job is planned. A plan that breaks a rule is not
                 drawn. Reasons are told for the job's own plan alone.
  --title WORDS  what stands above the picture; the job's file name if absent
  --out FILE     where the picture goes; standard output if absent

Example:

  film draw samples/flight.txt --out flight.svg",
    options: &[("title", 1), ("out", 1)],
    words: 1..=2,
    run,
};

pub fn run(args: Args) -> Result<(), Failure> {
    let loaded = files::job(args.path(0))?;
    let job = &loaded.job;
    let own = job.plan().map_err(|refusal| Failure::refused(&loaded.called, refusal))?;
    let plan = match args.words().len() {
        1 => own.clone(),
        _ => files::plan(job, args.path(1))?,
    };
    let verdict = job.check(&plan.marks, &plan.list).map_err(|refusal| Failure::refused(&loaded.called, refusal))?;
    if verdict != Verdict::Passes {
        let (name, told) = (files::called(args.path(1)), programme::verdict_told(job, &plan, verdict));
        return Err(Failure::bad(format!("{name}: this is no passing plan of the job: verdict {}\n{told}", verdict.number())));
    }
    let reasons = match plan.marks == own.marks {
        true => job.reasons().map_err(|refusal| Failure::refused(&loaded.called, refusal))?,
        false => String::new(),
    };
    let title = args.text("title").unwrap_or(loaded.title);
    out::result(&args, svg(job, &plan, &reasons, &title).as_bytes(), "")
}

/// The picture of a plan that passes, with the lines of `Job::reasons` (empty if there are none to
/// tell) and words to stand above it. `film desk` calls this.
pub fn svg(job: &Job, plan: &Plan, reasons: &str, title: &str) -> String {
    let film = Film::new(job, &plan.marks, &plan.list);
    let whys = reasons::read(&film, reasons);
    let mut c = Canvas::new(&film);
    let sentence = panels::head(&mut c, &film, title);
    panels::legend(&mut c, &film, panels::Link::Forecast);
    panels::film(&mut c, &film, &whys, "Film: the layers", None);
    panels::why(&mut c, &film, &whys);
    panels::link(&mut c, &film, panels::Link::Forecast);
    panels::held(&mut c, &film);
    panels::chunks(&mut c, &film, &whys);
    c.whole(&sentence, natural(&film))
}

/// How wide a picture is where it has room: wider for films of many chunks.
pub fn natural(film: &Film) -> f64 {
    (VIEW + 2.0 * film.chunks() as f64).clamp(840.0, 1500.0)
}
