//! `film plan`, `check`, `report` and `reasons`.
use crate::args::{Args, Command};
use crate::failure::Failure;
use crate::{files, out, programme};
use film_planner::{Refusal, Verdict};

pub const PLAN: Command = Command {
    name: "plan",
    summary: "plan a job: the plan file, or with --text a line for each fetch",
    help: "film plan [JOB] [--text] [--out FILE]

Plans a job (its text or its file; standard input without JOB) and writes the plan file to FILE or
to standard output. With --text it prints the plan by slot instead, a line for each fetch:
`slot 77: chunk 17 layer 2, 6,000 bytes`.

  film plan samples/flight.txt --text
  film plan samples/flight.txt --out flight.plan",
    options: &[("text", 0), ("out", 1)],
    words: 0..=1,
    run: plan,
};

pub const CHECK: Command = Command {
    name: "check",
    summary: "judge a plan by the seven rules: verdict 0, or the lowest rule that it breaks",
    help: "film check JOB PLAN [--from P]

Prints `verdict 0` if the plan keeps all seven rules; else the verdict, the place and the rule's
sentence, and ends with status 1. PLAN is a plan file, or rows as text (what `film plan --text`
prints, or lines SLOT CHUNK LAYER BYTES), which are taken with the marks that they give. --from P is
the second call, for a plan made afresh at slot P: rows before P may leave a layer short.

  film plan samples/flight.txt --text > flight.rows
  film check samples/flight.txt flight.rows",
    options: &[("from", 1)],
    words: 2..=2,
    run: check,
};

pub const REPORT: Command = Command {
    name: "report",
    summary: "what the plan of a job carries, chunk by chunk",
    help: "film report [JOB]

Prints the report of a job's plan. Its lines: last due slot, chunks, chunks that the buffer holds;
for each chunk its number, layers carried, bytes; how many chunks carry each layer; bytes fetched
and left over; the sum of switches, and the same by second of film as quotient and remainder.

  film report samples/flight.txt",
    options: &[],
    words: 0..=1,
    run: report,
};

pub const REASONS: Command = Command {
    name: "reasons",
    summary: "why each missing layer cannot be carried",
    help: "film reasons [JOB]

Prints a line for each layer that the plan of a job lacks; nothing if it lacks none. Either the
slots that would need more bytes than they carry, or the lower layer that is missing.

  film reasons samples/flight.txt",
    options: &[],
    words: 0..=1,
    run: reasons,
};

/// A refusal of a job that was read: files and texts are refused before, so this says which.
fn refused(called: &str) -> impl Fn(Refusal) -> Failure + '_ {
    move |refusal| Failure::refused(called.to_string(), refusal)
}

fn plan(args: Args) -> Result<(), Failure> {
    let loaded = files::job(args.path(0))?;
    let plan = loaded.job.plan().map_err(refused(&loaded.called))?;
    if plan.list.is_empty() {
        out::note("the plan is empty: nothing can be fetched in time; `film reasons` says why");
    }
    if args.flag("text") {
        return out::result(&args, programme::by_slot(&plan.list).as_bytes(), "");
    }
    let file = loaded.job.write_plan(&plan.marks, &plan.list).map_err(refused(&loaded.called))?;
    out::result(&args, &file, "print it with --text, or give it a file with --out")
}

fn check(args: Args) -> Result<(), Failure> {
    let loaded = files::job(args.path(0))?;
    let plan = files::plan_or_rows(&loaded.job, args.path(1))?;
    let from = args.number("from", 1..=u64::from(programme::last(&loaded.job)))?;
    let verdict = match from {
        None => loaded.job.check(&plan.marks, &plan.list),
        Some(p) => loaded.job.check_from(p as u16, &plan.marks, &plan.list),
    };
    let verdict = verdict.map_err(refused(&loaded.called))?;
    out::text(&format!("verdict {}\n", verdict.number()))?;
    match verdict {
        Verdict::Passes => Ok(()),
        Verdict::Breaks(_) => {
            let told = programme::verdict_told(&loaded.job, &plan, verdict);
            Err(Failure::bad(format!("{}: {told}", files::called(args.path(1)))))
        }
    }
}

fn report(args: Args) -> Result<(), Failure> {
    let loaded = files::job(args.path(0))?;
    out::text(&loaded.job.report().map_err(refused(&loaded.called))?)
}

fn reasons(args: Args) -> Result<(), Failure> {
    let loaded = files::job(args.path(0))?;
    out::text(&loaded.job.reasons().map_err(refused(&loaded.called))?)
}
