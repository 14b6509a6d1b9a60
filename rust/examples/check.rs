//! Judges fetch lists: job A of document 01, a list that passes, lists that break a rule, and a job
//! that is refused. `examples/run` runs it.
use film_planner::{FetchList, Job, Row, Verdict};

fn judge(what: &str, job: &Job, marks: [u8; 3], list: &FetchList) {
    match job.check(&marks, list) {
        Ok(Verdict::Passes) => println!("{what}: passes"),
        Ok(verdict) => println!("{what}: breaks rule {}", verdict.number()),
        Err(refusal) => println!("{what}: refused {}, {}", refusal.number(), refusal.sentence()),
    }
}

fn main() {
    // Of equal chunks, so there are no overrides.
    let mut job = Job { chunks: 3, span: 2, delay: 2, limit: 2, sizes: vec![2, 1], forecast: vec![3, 0, 1, 0, 2, 0], ..Job::default() };
    let own = FetchList::from([Row::new(1, 2, 0, 2), Row::new(1, 2, 1, 1), Row::new(5, 3, 0, 2)]);
    judge("the plan's own list", &job, [0, 3, 1], &own);
    judge("a mark that says less", &job, [0, 3, 0], &own);
    judge("two bytes in slot 3, which carries one", &job, [0, 0, 1], &[Row::new(3, 3, 0, 2)].into());
    judge("chunk 2 after slot 4, in which it is due", &job, [0, 1, 0], &[Row::new(5, 2, 0, 2)].into());
    job.forecast.truncate(5);
    judge("a forecast one slot short", &job, [0, 3, 1], &own);
}
