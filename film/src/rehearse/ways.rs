//! Three ways to fetch a film over a link: by the plan that knew it, by the act, which sees in each
//! slot what came, and by planning afresh with the meter in every slot.
use crate::draw::film::Film;
use crate::programme::marks_of;
use film_planner::{Act, FetchList, Job, Meter, Refusal, Row};

/// What one way fetched, and the marks of what is whole.
pub struct Fetched {
    pub marks: Vec<u8>,
    pub list: FetchList,
}

/// What there is to say of one way on one link, or of many together.
#[derive(Clone, Debug, Default, PartialEq)]
pub struct Figures {
    pub skipped: u64,
    /// In slots.
    pub freeze: u64,
    pub layers: [u64; 4],
    pub switch: u64,
    pub wasted: u64,
}

impl Figures {
    pub fn of(job: &Job, way: &Fetched) -> Figures {
        let film = Film::new(job, &way.marks, &way.list);
        let mut layers = [0; 4];
        film.counts().iter().enumerate().for_each(|(n, count)| layers[n] = *count as u64);
        Figures {
            skipped: film.skipped().len() as u64,
            freeze: film.longest_freeze() as u64,
            layers,
            switch: film.switch(),
            wasted: film.wasted(),
        }
    }

    pub fn add(&mut self, other: &Figures) {
        self.skipped += other.skipped;
        self.freeze += other.freeze;
        self.layers.iter_mut().zip(other.layers).for_each(|(sum, n)| *sum += n);
        self.switch += other.switch;
        self.wasted += other.wasted;
    }
}

/// The job with the link as its forecast.
pub fn on_link(job: &Job, link: &[u32]) -> Job {
    Job { forecast: link.to_vec(), ..job.clone() }
}

/// The plan that knew the link.
pub fn known(job: &Job, link: &[u32]) -> Result<Fetched, Refusal> {
    let plan = on_link(job, link).plan()?;
    Ok(Fetched { marks: plan.marks, list: plan.list })
}

/// The act, slot by slot; `seen` is called in each slot, before the link brings anything.
pub fn act(job: &Job, link: &[u32], mut seen: impl FnMut(&Act)) -> Result<Fetched, Refusal> {
    let mut act = Act::new(job.clone())?;
    for carries in link {
        seen(&act);
        act.brought(*carries);
    }
    Ok(Fetched { marks: act.shown().marks, list: act.fetched().clone() })
}

/// Planning afresh with the meter in every slot, as documents 01 and 02 put them together: the meter
/// gets what each slot carried, its forecast stands for every slot to come, and what the plan says for
/// this slot is fetched as far as the link goes. Before the first sample the job's own forecast
/// stands. In a slot whose plan is refused nothing is fetched; these slots are handed back.
pub fn afresh(job: &Job, link: &[u32]) -> Result<(Fetched, Vec<(u16, Refusal)>), Refusal> {
    let (mut now, mut list, mut meter, mut refused) = (job.clone(), FetchList::new(), Meter::new(), Vec::new());
    now.plan()?;
    for (k, carries) in link.iter().enumerate() {
        let slot = k as u16 + 1;
        let onward = match meter.forecast() {
            Ok(rate) => vec![rate; link.len() - k],
            Err(_) => job.forecast[k..].to_vec(),
        };
        let mut left = *carries;
        match now.replan(slot, &list, &onward) {
            Ok(plan) => {
                for row in plan.list.rows().filter(|row| row.slot == slot) {
                    let part = left.min(row.bytes);
                    if part > 0 {
                        list.push(Row::new(slot, row.chunk, row.layer, part));
                    }
                    left -= part;
                }
            }
            Err(refusal) => refused.push((slot, refusal)),
        }
        // Slots gone say what they brought, or their rows would break rule 4 of the next planning.
        now.forecast[k] = carries - left;
        if let Err(refusal) = meter.take(slot, *carries) {
            refused.push((slot, refusal));
        }
    }
    Ok((Fetched { marks: marks_of(job, &list), list }, refused))
}
