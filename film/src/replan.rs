//! `film replan`: a plan made afresh during the act.
use crate::args::{Args, Command};
use crate::failure::Failure;
use crate::programme::{by_slot, counts, last, marks_of, skips, verdict_told};
use crate::words::{counted, thousands};
use crate::{files, out};
use film_planner::{FetchList, Job, Plan, Refusal, Rule, Verdict};
use std::collections::BTreeMap;
use std::path::Path;

pub const COMMAND: Command = Command {
    name: "replan",
    summary: "plan afresh at slot P, from what is fetched and what the link is now thought to bring",
    help: "film replan JOB --at P --fetched FILE [--rate BYTES | --trace FILE] [--text] [--out PLAN]

The act is at slot P and the link is not as forecast. FILE has the rows fetched: a plan file, or
text as `film plan --text` prints it, or lines SLOT CHUNK LAYER BYTES; `-` is standard input. Of
rows from slot P on it says that they are left out. Slots before P keep the job's forecast; from P
on every slot brings BYTES (--rate), or what the slots P and later of a trace of the act say
(--trace), or what the job's forecast says.

It prints what the plan afresh carries beside the plan of the whole job, with --text also its rows
from P on. --out writes the rows fetched and the new ones as a plan file, which
`film check JOB PLAN --from P` judges. That judges by the forecast of JOB: after --rate or --trace,
give it a text whose forecast says from P on what that link brings.

  film plan samples/flight.txt --text > flight.rows
  film replan samples/flight.txt --at 60 --fetched flight.rows --rate 50000",
    options: &[("at", 1), ("fetched", 1), ("rate", 1), ("trace", 1), ("text", 0), ("out", 1)],
    words: 0..=1,
    run,
};

/// What is wrong with the rows fetched, by the second checker call; else it is their order.
fn refused_rows(job: &Job, p: u16, before: &FetchList, refusal: Refusal) -> Failure {
    let failure = Failure::refused(format!("{} fetched before slot {p}", counted(before.len() as u64, "row")), refusal);
    let rows = Plan { marks: marks_of(job, before), list: before.clone(), counts: [0; 4] };
    match job.check_from(p, &rows.marks, before) {
        Ok(verdict @ Verdict::Breaks(rule)) => {
            let failure = failure.hint(&verdict_told(job, &rows, verdict));
            match rule {
                Rule::WithinForecast => failure.hint("The job's forecast of a slot before P has to say at least what it brought."),
                _ => failure,
            }
        }
        _ => match out_of_order(before) {
            Some(words) => failure.hint(&words),
            None => failure,
        },
    }
}

/// A chunk that is begun in an earlier slot than one that plays before it.
fn out_of_order(before: &FetchList) -> Option<String> {
    let mut first: BTreeMap<u16, u16> = BTreeMap::new();
    for row in before.rows() {
        let slot = first.entry(row.chunk).or_insert(row.slot);
        *slot = row.slot.min(*slot);
    }
    let begun: Vec<(u16, u16)> = first.into_iter().collect();
    let pair = begun.windows(2).find(|pair| pair[1].1 < pair[0].1)?;
    Some(format!("chunk {} is begun in slot {}, before chunk {}, which plays before it", pair[1].0, pair[1].1, pair[0].0))
}

fn run(args: Args) -> Result<(), Failure> {
    let wrong = |text: &str| Failure::usage(format!("{text}\n{}\n`film replan --help` says more", COMMAND.usage()));
    let (Some(_), Some(fetched)) = (args.value("at"), args.value("fetched")) else {
        return Err(wrong("--at P and --fetched FILE are needed"));
    };
    if args.flag("rate") && args.flag("trace") {
        return Err(wrong("--rate and --trace: one of them"));
    }
    let loaded = files::job(args.path(0))?;
    let job = &loaded.job;
    let end = last(job);
    let p = args.number("at", 1..=u64::from(end))?.unwrap_or(1) as u16;
    let all = files::plan_or_rows(job, Path::new(fetched))?.list;
    let before: FetchList = all.rows().filter(|row| row.slot < p).collect();
    if before.len() < all.len() {
        out::note(&format!("{} from slot {p} on are left out", counted((all.len() - before.len()) as u64, "row")));
    }
    let from = usize::from(p) - 1;
    let onward = match (args.number("rate", 0..=1 << 24)?, args.value("trace")) {
        (Some(rate), _) => vec![rate as u32; job.forecast.len() - from],
        (None, Some(path)) => files::trace(Path::new(path), end as usize)?.split_off(from),
        (None, None) => job.forecast[from..].to_vec(),
    };
    let plan = job.replan(p, &before, &onward).map_err(|refusal| refused_rows(job, p, &before, refusal))?;
    let joined_job = Job { forecast: job.forecast[..from].iter().chain(&onward).copied().collect(), ..job.clone() };
    let joined: FetchList = before.rows().chain(plan.list.rows()).collect();
    let refused = |refusal| Failure::refused(loaded.called.clone(), refusal);
    let verdict = joined_job.check_from(p, &plan.marks, &joined).map_err(refused)?;
    if verdict != Verdict::Passes {
        return Err(Failure::bad(format!("the plan afresh gets verdict {}", verdict.number())));
    }
    let whole = job.plan().map_err(refused)?;
    let bytes: u64 = plan.list.rows().map(|row| u64::from(row.bytes)).sum();
    let mut text = format!(
        "plan afresh at slot {p}: layers {}, {}\nplan of the whole job:  layers {}, {}\nto fetch from slot {p} on: {} bytes of the {} that the link brings\n",
        counts(job, &plan),
        skips(&plan),
        counts(job, &whole),
        skips(&whole),
        thousands(bytes),
        thousands(onward.iter().map(|bytes| u64::from(*bytes)).sum())
    );
    if args.flag("text") {
        text += &by_slot(&plan.list);
    }
    if let Some(path) = args.value("out") {
        out::file(Path::new(path), &joined_job.write_plan(&plan.marks, &joined).map_err(refused)?)?;
    }
    out::text(&text)
}
