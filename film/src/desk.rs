//! `film desk`: from a job to the picture of its plan, in one go.
use crate::args::{Args, Command};
use crate::failure::Failure;
use crate::{draw, files, out, programme};
use film_planner::Verdict;
use std::path::{Path, PathBuf};

pub const COMMAND: Command = Command {
    name: "desk",
    summary: "all in one go: job, plan, verdict, report, reasons and picture, in a folder",
    help: "film desk JOB [FOLDER]

Makes the job file, plans it, checks the plan, reports it, gives the reasons for what is missing and
draws it, and says where each file is. JOB is a text or a job file. FOLDER is desk/ and the job's
name unless named; files of an earlier run there are replaced.

  film desk samples/flight.txt",
    options: &[],
    words: 1..=2,
    run,
};

const FILES: [&str; 6] = ["job", "plan", "verdict", "report", "reasons", "plan.svg"];

/// One and the same file, by whatever names.
fn same(a: &Path, b: &Path) -> bool {
    matches!((a.canonicalize(), b.canonicalize()), (Ok(a), Ok(b)) if a == b)
}

fn run(args: Args) -> Result<(), Failure> {
    let path = args.path(0);
    let loaded = files::job(path)?;
    let folder = match args.words().get(1) {
        Some(folder) => PathBuf::from(folder),
        None => Path::new("desk").join(&loaded.title),
    };
    std::fs::create_dir_all(&folder)
        .map_err(|e| Failure::bad(format!("{} cannot be made: {}", files::called(&folder), files::said(&e))))?;
    if FILES.iter().any(|name| same(path, &folder.join(name))) {
        return Err(Failure::bad(format!("{} would be written over; name another folder", loaded.called)));
    }
    for name in FILES {
        match std::fs::remove_file(folder.join(name)) {
            Err(e) if e.kind() != std::io::ErrorKind::NotFound => {
                return Err(Failure::bad(format!("{} cannot be replaced: {}", files::called(&folder.join(name)), files::said(&e))));
            }
            _ => {}
        }
    }
    let step = |k: usize, what: &str, data: &[u8], more: String| {
        let file = folder.join(FILES[k - 1]);
        out::file(&file, data)?;
        let more = if more.is_empty() { more } else { format!(": {more}") };
        out::text(&format!("{k} of 6  {what:<8} {}{more}\n", files::called(&file)))
    };
    let job = &loaded.job;
    let refused = |refusal| Failure::refused(loaded.called.clone(), refusal);
    step(1, "job", &job.write().map_err(refused)?, String::new())?;
    let plan = job.plan().map_err(refused)?;
    step(2, "plan", &job.write_plan(&plan.marks, &plan.list).map_err(refused)?, String::new())?;
    let verdict = job.check(&plan.marks, &plan.list).map_err(refused)?;
    let said = format!("verdict {}", verdict.number());
    step(3, "verdict", format!("{said}\n").as_bytes(), said)?;
    if verdict != Verdict::Passes {
        return Err(Failure::bad(programme::verdict_told(job, &plan, verdict)));
    }
    let report = job.report().map_err(refused)?;
    step(4, "report", report.as_bytes(), format!("layers {}", programme::counts(job, &plan)))?;
    let reasons = job.reasons().map_err(refused)?;
    step(5, "reasons", reasons.as_bytes(), format!("layers missing {}", reasons.lines().count()))?;
    step(6, "picture", draw::svg(job, &plan, &reasons, &loaded.title).as_bytes(), "open it in a browser".to_string())
}
