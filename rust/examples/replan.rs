//! A changed link: a film is planned on a link of 30 bytes a slot and fetched as planned until the
//! link falls. From the last slots' samples the meter forecasts the rest, the film is planned afresh
//! over the rows fetched, and both together are judged. `examples/run` runs it.
use film_planner::{compare, FetchList, Job, Meter, Plan, Refusal, Row};
use std::cmp::Ordering;

const STEADY: u32 = 30;
const FALLEN: u32 = 9;
const FALLS: u16 = 7;
const SEEN: u16 = 3;

fn tell(what: &str, plan: &Plan) {
    print!("{what}: marks");
    plan.marks.iter().for_each(|mark| print!(" {mark}"));
    println!(", pictures {} of {}, {} rows", plan.counts[0], plan.marks.len(), plan.list.len());
}

/// The plan's rows of a slot, as far as the link carries them.
fn fetch(plan: &Plan, slot: u16, carries: u32) -> FetchList {
    let mut left = carries;
    let mut part = |row: Row| {
        let bytes = row.bytes.min(left);
        left -= bytes;
        Row { bytes, ..row }
    };
    plan.list.rows().filter(|row| row.slot == slot).map(&mut part).filter(|row| row.bytes > 0).collect()
}

fn main() -> Result<(), Refusal> {
    let mut job = Job { chunks: 8, span: 2, delay: 3, limit: 6, sizes: vec![40, 20], forecast: vec![STEADY; 17], ..Job::default() };
    let plan = job.plan()?;
    tell("planned", &plan);

    let (mut meter, mut fetched) = (Meter::new(), FetchList::new());
    for slot in 1..FALLS + SEEN {
        let carries = if slot < FALLS { STEADY } else { FALLEN };
        let rows = fetch(&plan, slot, carries);
        println!("slot {slot} carries {carries}, brought {}", rows.rows().map(|row| row.bytes).sum::<u32>());
        fetched.extend(rows.rows());
        // What a slot that is gone could carry.
        job.forecast[usize::from(slot) - 1] = carries;
        meter.take(slot, carries)?;
    }
    let slot = FALLS + SEEN;
    let rate = meter.forecast()?;
    println!("the meter forecasts {rate} from slot {slot} on");

    // Slot p is the next one; the forecast from it on has d(C) - p + 1 slots.
    let gone = usize::from(slot) - 1;
    let onward = vec![rate; job.forecast.len() - gone];
    let afresh = job.replan(slot, &fetched, &onward)?;
    tell("planned afresh", &afresh);
    let fewer = compare(afresh.counts, plan.counts) == Ordering::Less;
    println!("beside the first plan it carries {}", if fewer { "fewer" } else { "no fewer" });

    // What passes is the rows fetched and those from p on, on the joined forecast.
    fetched.extend(afresh.list.rows());
    job.forecast[gone..].copy_from_slice(&onward);
    println!("verdict at slot {slot}: {}", job.check_from(slot, &afresh.marks, &fetched)?.number());
    Ok(())
}
