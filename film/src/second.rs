//! `film second`: the safety film on what the first film leaves of the link (request 11).
use crate::args::{Args, Command};
use crate::failure::Failure;
use crate::programme::{by_slot, counts, skips};
use crate::words::thousands;
use crate::{files, out, text};
use film_planner::{Job, Plan};
use std::path::Path;

pub const COMMAND: Command = Command {
    name: "second",
    summary: "the safety film on what the first film leaves of the link, with the book of both",
    help: "film second JOB SECOND [--text] [--slots] [--out-job FILE] [--out-plan FILE]

Plans the first film, books its plan, plans SECOND on what it leaves, books that too, and prints the
book: bytes of the forecast, of each film, and left over. SECOND is a text or a job file whose last
chunk is due in the same slot as the first film's; its own forecast is left aside, and in a text it
may be absent. The second plan is the best on what is left, not the best for both films together.

--text prints the second plan by slot, --slots the book slot by slot. --out-job and --out-plan write
the second film's job, on what is left, and its plan, for the other subcommands.

  film second samples/flight.txt samples/safety.txt
  film second samples/flight.txt samples/safety.txt --slots",
    options: &[("text", 0), ("slots", 0), ("out-job", 1), ("out-plan", 1)],
    words: 2..=2,
    run,
};

fn spent(plan: &Plan, slots: usize) -> Vec<u64> {
    let mut spent = vec![0; slots];
    for row in plan.list.rows() {
        if let Some(sum) = spent.get_mut(usize::from(row.slot).wrapping_sub(1)) {
            *sum += u64::from(row.bytes);
        }
    }
    spent
}

/// The second film's job on the link that is left.
fn second_job(path: &Path, link: &[u32]) -> Result<Job, Failure> {
    let data = files::read(path, files::TEXT)?;
    if files::is_records(&data) {
        let job = Job { forecast: link.to_vec(), ..files::job_of(path, &data)?.job };
        return match crate::programme::last(&job) as usize == link.len() {
            true => Ok(job),
            false => Err(Failure::bad(format!(
                "{}: its last chunk is due in slot {}, the first film's in slot {}; both films need the same last due slot",
                files::called(path),
                thousands(u64::from(crate::programme::last(&job))),
                thousands(link.len() as u64)
            ))),
        };
    }
    let (job, warnings) = text::read(&data, path, Some(link))?;
    for line in &warnings {
        out::note(&format!("warning: {line}"));
    }
    Ok(job)
}

fn run(args: Args) -> Result<(), Failure> {
    let first = files::job(args.path(0))?;
    let refused = |refusal| Failure::refused(first.called.clone(), refusal);
    let first_plan = first.job.plan().map_err(refused)?;
    let mut left = first.job.clone();
    left.book(&first_plan.marks, &first_plan.list).map_err(refused)?;
    let path = args.path(1);
    let job = second_job(path, &left.forecast)?;
    let refused = |refusal| Failure::refused(files::called(path), refusal);
    let plan = job.plan().map_err(refused)?;
    let mut after = job.clone();
    after.book(&plan.marks, &plan.list).map_err(refused)?;

    let slots = job.forecast.len();
    let (a, b) = (spent(&first_plan, slots), spent(&plan, slots));
    let total = |numbers: &[u32]| numbers.iter().map(|n| u64::from(*n)).sum::<u64>();
    let mut text = format!(
        "first film   {:>16} bytes  layers {}, {}\nsecond film  {:>16} bytes  layers {}, {}\nleft over    {:>16} bytes\nforecast     {:>16} bytes\n",
        thousands(a.iter().sum()),
        counts(&first.job, &first_plan),
        skips(&first_plan),
        thousands(b.iter().sum()),
        counts(&job, &plan),
        skips(&plan),
        thousands(total(&after.forecast)),
        thousands(total(&first.job.forecast)),
    );
    if args.flag("slots") {
        for t in 0..slots {
            text += &format!(
                "slot {}: forecast {}, first {}, second {}, left {}\n",
                t + 1,
                thousands(u64::from(first.job.forecast[t])),
                thousands(a[t]),
                thousands(b[t]),
                thousands(u64::from(after.forecast[t]))
            );
        }
    }
    if args.flag("text") {
        text += &by_slot(&plan.list);
    }
    if let Some(path) = args.value("out-job") {
        out::file(Path::new(path), &job.write().map_err(refused)?)?;
    }
    if let Some(path) = args.value("out-plan") {
        out::file(Path::new(path), &job.write_plan(&plan.marks, &plan.list).map_err(refused)?)?;
    }
    out::text(&text)
}
