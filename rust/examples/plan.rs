//! Plans a job file: reads it, plans it, and prints the plan, its report, and the reason under each
//! layer that it lacks. With a second name, writes the plan file. `examples/run` runs it on job A.
use film_planner::Job;
use std::{env, error::Error, fs};

fn main() -> Result<(), Box<dyn Error>> {
    let mut names = env::args().skip(1);
    let file = fs::read(names.next().unwrap_or_else(|| "../samples/a.job".into()))?;
    let job = Job::read(&file)?;
    println!(
        "job: {} chunks of {} slots, delay {}, limit {}, {} layers, {} SZs, {} slots",
        job.chunks,
        job.span,
        job.delay,
        job.limit,
        job.sizes.len(),
        job.overrides.len(),
        job.forecast.len()
    );

    let plan = job.plan()?;
    print!("marks");
    plan.marks.iter().for_each(|mark| print!(" {mark}"));
    println!();
    for row in plan.list.rows() {
        println!("slot {} chunk {} layer {} bytes {}", row.slot, row.chunk, row.layer, row.bytes);
    }
    print!("{}{}", job.report()?, job.reasons()?);

    if let Some(name) = names.next() {
        fs::write(name, job.write_plan(&plan.marks, &plan.list)?)?;
    }
    Ok(())
}
