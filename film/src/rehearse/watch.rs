//! An act, watched: what it asked in each slot, whom it passed over, and in the end why each skipped
//! chunk was skipped.
use super::ways::{self, Fetched};
use crate::draw::film::Film;
use crate::words::{counted, thousands};
use film_planner::{Act, Job, Piece, Refusal};

/// The most pieces of a slot that are kept; of the others their number is.
const PIECES: usize = 12;

/// A slot of the act, before the link brought anything.
#[derive(Clone, Debug, Default, PartialEq, Eq)]
pub struct Slot {
    /// The rate that it measured; before the meter's first sample there is none.
    pub rate: Option<u32>,
    pub asked: u64,
    pub pieces: usize,
    pub first: Vec<Piece>,
    /// Open chunks given up in this slot for a later one.
    pub passed: Vec<usize>,
}

/// A chunk given up in a slot: what it lacked, and for which one.
#[derive(Clone, Copy, Debug, PartialEq, Eq)]
struct Passed {
    slot: usize,
    rate: u64,
    missing: u64,
    instead: usize,
}

/// What became of a chunk that is not whole yet.
#[derive(Clone, Copy, Debug, Default)]
struct Story {
    passed: Option<Passed>,
    /// The chunk that overtook it, and the slot before which that was begun.
    overtaken: Option<(usize, usize)>,
    /// The first slot that asked for it.
    asked: Option<usize>,
    /// The last slot in which it had no place in the buffer.
    waited: Option<usize>,
    /// In its due slot.
    passed_last: bool,
}

pub struct Watch<'a> {
    job: &'a Job,
    pub slots: Vec<Slot>,
    stories: Vec<Story>,
    /// The marks of an act on the same link with room for the whole programme.
    roomy: Vec<u8>,
}

/// The rule of docs/LIVE.md in a slot: who is open, who lacks bytes, who is passed over.
pub struct Rule {
    pub open: Vec<bool>,
    pub missing: Vec<u64>,
    /// The chunks from k to before j that lack bytes, and j.
    pub passed: Option<(Vec<usize>, usize)>,
}

pub fn rule(film: &Film, slot: usize, rate: u64) -> Rule {
    let all = 1..=film.chunks();
    let latest = all.clone().filter(|i| film.first(*i).is_some()).max().unwrap_or(0);
    let open: Vec<bool> = all.clone().map(|i| film.due(i) >= slot && (film.first(i).is_some() || i > latest)).collect();
    let missing: Vec<u64> = all.clone().map(|i| film.size(i, 0).saturating_sub(film.sum(i, 0))).collect();
    let lacks = |i: &usize| open[*i - 1] && missing[*i - 1] > 0;
    let brings = |i: usize| rate.saturating_mul((film.due(i) + 1 - slot) as u64);
    let mut passed = None;
    if let Some(k) = all.clone().find(lacks).filter(|k| missing[k - 1] > brings(*k)) {
        let next = (k + 1..=film.chunks()).filter(|i| open[*i - 1]).take(film.places);
        let j = next.filter(lacks).find(|j| missing[j - 1] <= brings(*j));
        if let Some(j) = j.filter(|j| missing[k - 1] + missing[j - 1] > brings(*j)) {
            passed = Some(((k..j).filter(lacks).collect(), j));
        }
    }
    Rule { open, missing, passed }
}

impl<'a> Watch<'a> {
    /// The limit is named as a cause where an act with room for the whole programme shows the chunk;
    /// so one is run here.
    pub fn new(job: &'a Job, link: &[u32]) -> Result<Watch<'a>, Refusal> {
        let roomy = ways::act(&Job { limit: u16::MAX, ..job.clone() }, link, |_| {})?.marks;
        Ok(Watch { job, slots: Vec::new(), stories: vec![Story::default(); usize::from(job.chunks)], roomy })
    }

    /// To be called in each slot, before the link brings anything.
    pub fn see(&mut self, act: &Act) {
        let slot = usize::from(act.slot());
        let film = Film::new(self.job, &[], act.fetched());
        let rule = rule(&film, slot, act.rate().into());
        let asks = act.asks();
        let asked: u64 = asks.iter().map(|piece| u64::from(piece.bytes)).sum();
        let is_asked = |i: usize| asks.iter().any(|piece| piece.layer == 0 && usize::from(piece.chunk) == i);
        // Where the rate asked for no base the act asks for all of them, and nobody is passed over.
        let (given_up, instead) = rule.passed.unwrap_or_default();
        let given_up: Vec<usize> = given_up.into_iter().filter(|i| !is_asked(*i)).collect();
        let latest = (1..=film.chunks()).rev().find(|i| film.first(*i).is_some()).unwrap_or(0);
        for i in (1..=film.chunks()).filter(|i| film.due(*i) >= slot && rule.missing[i - 1] > 0) {
            let story = &mut self.stories[i - 1];
            story.passed_last = given_up.contains(&i);
            if !rule.open[i - 1] {
                story.overtaken = story.overtaken.or(Some((latest, slot)));
            } else if is_asked(i) {
                story.asked = story.asked.or(Some(slot));
            } else if story.passed_last {
                story.passed = Some(Passed { slot, rate: act.rate().into(), missing: rule.missing[i - 1], instead });
            } else {
                story.waited = Some(slot);
            }
        }
        let rate = (act.meter().kept > 0).then(|| act.rate());
        let first = asks.iter().take(PIECES).copied().collect();
        self.slots.push(Slot { rate, asked, pieces: asks.len(), first, passed: given_up });
    }

    /// Why each skipped chunk was skipped, once the act is over.
    pub fn skips(&self, fetched: &Fetched) -> Vec<Skip> {
        let film = Film::new(self.job, &fetched.marks, &fetched.list);
        film.skipped().into_iter().map(|chunk| self.skip(&film, chunk)).collect()
    }

    fn skip(&self, film: &Film, chunk: usize) -> Skip {
        let (story, due) = (self.stories[chunk - 1], film.due(chunk));
        let came = film.sum(chunk, 0);
        let late = film.size(chunk, 0).saturating_sub(came);
        let limit = self.roomy.get(chunk - 1).is_some_and(|mark| mark & 1 == 1).then(|| self.limit_told(film, story.waited));
        let (cause, why) = match (story.overtaken, story.passed) {
            (Some((by, before)), passed) => {
                let begun = thousands(film.first(by).unwrap_or(before.saturating_sub(1)) as u64);
                let passed = passed.map_or(String::new(), |passed| format!("{}; ", told(&passed, due)));
                (Cause::Overtaken, format!("{passed}chunk {by} was begun in slot {begun}"))
            }
            (None, Some(passed)) if story.passed_last => (Cause::PassedOver, told(&passed, due)),
            _ => {
                let from = match story.asked {
                    Some(slot) => format!("asked from slot {} on", thousands(slot as u64)),
                    None => "never asked".to_string(),
                };
                let of = format!("{} of {} came, {from}", thousands(came), counted(film.size(chunk, 0), "byte"));
                let cause = if limit.is_some() && story.waited.is_some() { Cause::Limit } else { Cause::Late };
                (cause, format!("late by {}: {of}", counted(late, "byte")))
            }
        };
        Skip { chunk, due, cause, why, limit }
    }

    fn limit_told(&self, film: &Film, waited: Option<usize>) -> String {
        let places = match film.places {
            0 => "no chunk".to_string(),
            places => counted(places as u64, "chunk"),
        };
        let limit = format!("the limit of {} holds {places}", counted(self.job.limit.into(), "slot"));
        let had = match waited {
            Some(slot) => format!("up to slot {} it had no place, since {limit}", thousands(slot as u64)),
            None => limit,
        };
        format!("The limit is a cause: {had}; with room for the whole programme the act shows it.")
    }
}

fn told(passed: &Passed, due: usize) -> String {
    let slots = due + 1 - passed.slot.min(due);
    let brings = passed.rate.saturating_mul(slots as u64);
    format!(
        "in slot {} it lacked {}; at {} a slot {} of them would come by its due slot, and all of chunk {}",
        thousands(passed.slot as u64),
        counted(passed.missing, "byte"),
        counted(passed.rate, "byte"),
        thousands(brings),
        passed.instead
    )
}

/// Why a chunk was skipped.
#[derive(Clone, Copy, Debug, PartialEq, Eq)]
pub enum Cause {
    /// The rate did not bring it by its due slot, and brought a later one.
    PassedOver,
    /// Passed over until a later one was begun: from then on it may not begin.
    Overtaken,
    /// Asked for, and not whole in its due slot.
    Late,
    /// It had no place in the buffer.
    Limit,
}

impl Cause {
    pub fn words(self) -> &'static str {
        match self {
            Cause::PassedOver => "passed over",
            Cause::Overtaken => "overtaken",
            Cause::Late => "late",
            Cause::Limit => "no place in the buffer",
        }
    }
}

/// A skipped chunk and its reason.
#[derive(Clone, Debug, PartialEq, Eq)]
pub struct Skip {
    pub chunk: usize,
    pub due: usize,
    pub cause: Cause,
    pub why: String,
    /// What there is to say of the limit.
    pub limit: Option<String>,
}

impl Skip {
    /// The sentences without their chunk.
    pub fn sentence(&self) -> String {
        let limit = self.limit.as_ref().map_or(String::new(), |limit| format!(" {limit}"));
        match self.cause {
            Cause::Late => format!("{}.{limit}", self.why),
            _ => format!("{}: {}.{limit}", self.cause.words(), self.why),
        }
    }
}
