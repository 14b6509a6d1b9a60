//! Shows the most pictures: uneven film in a small buffer, where the plan skips pictures that another
//! fetch list shows. Prints how many the plan and the search show, and how many no list can exceed.
//! `examples/run` runs it.
use film_planner::{Job, Override, Refusal};

fn main() -> Result<(), Refusal> {
    let base = |(chunk, bytes)| Override { chunk, layer: 0, bytes };
    let job = Job {
        chunks: 8,
        span: 1,
        delay: 2,
        limit: 3,
        sizes: vec![2],
        overrides: [(3, 6), (5, 6), (7, 6), (8, 3)].map(base).to_vec(),
        forecast: vec![4, 1, 3, 0, 3, 1, 0, 4, 1],
    };
    let (plan, most) = (job.plan()?, job.most(16)?);
    println!("the plan shows {} of {} pictures", plan.counts[0], job.chunks);
    let shown = most.plan.counts[0];
    println!("the search shows {shown}, verdict {}", job.check(&most.plan.marks, &most.plan.list)?.number());
    if shown == most.bound_any {
        println!("no fetch list shows more");
    } else if most.exact {
        println!("no fetch list in playing order shows more");
    } else {
        println!("a fetch list in playing order shows at most {}", most.bound);
    }
    Ok(())
}
