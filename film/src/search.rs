//! `film search`: the best set of pictures within a budget that grows until the walk ends or time
//! is up (request 13).
use crate::args::{Args, Command};
use crate::failure::Failure;
use crate::programme::{by_slot, counts, skips};
use crate::words::{counted, thousands};
use crate::{files, out};
use film_planner::Found;
use std::path::Path;
use std::time::{Duration, Instant};

/// The first budget of steps, which takes no time to speak of; and how fast it grows.
const FIRST: u32 = 1 << 12;
const GROWS: u32 = 4;

pub const COMMAND: Command = Command {
    name: "search",
    summary: "search for more pictures than the plan has, with growing budgets, until time is up",
    help: "film search JOB [--seconds N] [--text] [--out PLAN]

With uneven film and a buffer that binds, the plan may skip a picture more than needed. The search
tries sets of base pictures, with a budget of steps that grows until its walk ends or the time is up
(10 seconds, or --seconds). A line on standard error says how far it is. The answer says how many
pictures were found beside the plan's, and by how many at most another list in playing order can be
better: none, if the walk ended.

--text prints the plan found by slot, --out writes it as a plan file.

  film search samples/flight.txt
  film search samples/flight.txt --seconds 2",
    options: &[("seconds", 1), ("text", 0), ("out", 1)],
    words: 0..=1,
    run,
};

fn told(found: &Found, took: Duration) -> String {
    format!(
        "{:.1} s: {} tried, {} found{}",
        took.as_secs_f64(),
        counted(u64::from(found.steps), "step"),
        counted(u64::from(found.plan.counts[0]), "picture"),
        if found.ended { ", all tried".to_string() } else { format!(", at most {} more to be found", found.shortfall) }
    )
}

fn run(args: Args) -> Result<(), Failure> {
    let loaded = files::job(args.path(0))?;
    let job = &loaded.job;
    let seconds = args.number("seconds", 0..=86_400)?.unwrap_or(10);
    let refused = |refusal| Failure::refused(loaded.called.clone(), refusal);
    let start = Instant::now();
    let time = Duration::from_secs(seconds);
    let mut budget = FIRST;
    let found = loop {
        let before = Instant::now();
        let found = job.search(budget).map_err(refused)?;
        out::progress(&told(&found, start.elapsed()));
        // The walk begins anew with each budget; so the time left says how large the next may be.
        let took = before.elapsed().as_secs_f64().max(1e-6);
        let left = time.saturating_sub(start.elapsed()).as_secs_f64();
        let most = (f64::from(budget) * left / took).min(f64::from(u32::MAX)) as u32;
        // A budget that is hardly larger would find hardly more.
        let next = budget.saturating_mul(GROWS).min(most);
        if found.ended || found.shortfall == 0 || next / 2 < budget {
            break found;
        }
        budget = next;
    };
    out::progress_end();
    let plan = job.plan().map_err(refused)?;
    let mut text = format!(
        "search: layers {}, {}\nplan:   layers {}, {}\n",
        counts(job, &found.plan),
        skips(&found.plan),
        counts(job, &plan),
        skips(&plan)
    );
    text += &match (found.ended, found.shortfall) {
        (true, _) => format!("all sets were tried, in {}: no list in playing order shows more\n", counted(u64::from(found.steps), "step")),
        (false, 0) => "no list in playing order shows more: not even one without a limit of the buffer\n".to_string(),
        (false, n) => format!(
            "not all sets were tried, in {}{} and {} s: another list in playing order shows at most {n} more\n",
            counted(u64::from(found.steps), "step"),
            if budget == u32::MAX { ", the most there are" } else { "" },
            thousands(start.elapsed().as_secs())
        ),
    };
    if args.flag("text") {
        text += &by_slot(&found.plan.list);
    }
    if let Some(path) = args.value("out") {
        out::file(Path::new(path), &job.write_plan(&found.plan.marks, &found.plan.list).map_err(refused)?)?;
    }
    out::text(&text)
}
