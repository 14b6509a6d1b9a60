//! The reason under each missing layer: the library's line, and whether the limit is the cause.
use super::film::Film;
use crate::words::{counted, thousands};
use std::collections::BTreeMap;

/// A stretch of slots that would need more than it carries.
#[derive(Clone, Copy, Debug, PartialEq, Eq, PartialOrd, Ord)]
pub struct Stretch {
    pub first: usize,
    pub last: usize,
    pub carry: u64,
    pub need: u64,
}

/// Why a layer is missing.
#[derive(Clone, Debug, PartialEq, Eq)]
pub struct Why {
    /// The library's line, or one of our own.
    pub line: String,
    pub stretch: Option<Stretch>,
    /// What there is to say of the limit.
    pub limit: Option<String>,
}

impl Why {
    /// All of it, for a title.
    pub fn told(&self) -> String {
        match &self.limit {
            Some(limit) => format!("{}\n{limit}", self.line),
            None => self.line.clone(),
        }
    }
}

/// By chunk and layer.
pub type Whys = BTreeMap<(usize, usize), Why>;

/// The title of a missing layer.
pub fn title(whys: &Whys, chunk: usize, layer: usize) -> String {
    whys.get(&(chunk, layer)).map_or_else(|| format!("chunk {chunk} layer {layer}: not carried"), Why::told)
}

/// Of the lines of `Job::reasons`; what is no such line is left out.
pub fn read(film: &Film, lines: &str) -> Whys {
    let mut whys = Whys::new();
    for line in lines.lines() {
        let Some((chunk, layer, stretch)) = understood(line) else { continue };
        if !(1..=film.chunks()).contains(&chunk) || layer >= film.layers() || layer < film.level(chunk) {
            continue;
        }
        let limit = stretch.and_then(|stretch| limit_named(film, chunk, layer, &stretch));
        whys.insert((chunk, layer), Why { line: with_separators(line), stretch, limit });
    }
    whys
}

/// Chunk, layer and the stretch, if one is named.
fn understood(line: &str) -> Option<(usize, usize, Option<Stretch>)> {
    let words: Vec<&str> = line.split_whitespace().collect();
    let number = |k: usize| words.get(k).and_then(|word| word.trim_end_matches([',', ':']).parse::<u64>().ok());
    let (Some(&"chunk"), Some(&"layer")) = (words.first(), words.get(2)) else { return None };
    let (chunk, layer) = (number(1)? as usize, number(3)? as usize);
    let stretch = match (words.get(4).copied(), number(5), number(7), number(9), number(11)) {
        (Some("slots"), Some(first), Some(last), Some(carry), Some(need)) => {
            Some(Stretch { first: first as usize, last: last as usize, carry, need })
        }
        _ => None,
    };
    Some((chunk, layer, stretch))
}

/// The line with thousands told apart.
fn with_separators(line: &str) -> String {
    let word = |word: &str| {
        let digits = word.trim_end_matches([',', ':']);
        match digits.parse::<u64>() {
            Ok(n) => format!("{}{}", thousands(n), &word[digits.len()..]),
            Err(_) => word.to_string(),
        }
    };
    line.split(' ').map(word).collect::<Vec<_>>().join(" ")
}

/// A stretch that begins after slot 1 begins there because of the limit: what it counts can begin
/// only when the chunk H places before is due. Whether the link alone would carry the layer says
/// whether the limit is the whole cause.
fn limit_named(film: &Film, chunk: usize, layer: usize, stretch: &Stretch) -> Option<String> {
    if stretch.first <= 1 {
        return None;
    }
    let places = match film.places {
        0 => "no place".to_string(),
        places => counted(places as u64, "place"),
    };
    let slots = (thousands(stretch.last as u64), thousands(stretch.first as u64));
    let begins = format!("with {places}, what is due by slot {} could begin only in slot {}", slots.0, slots.1);
    Some(match carried_without_limit(film, chunk, layer) {
        true => format!("The limit is the cause: {begins}."),
        false => format!("The limit plays a part ({begins}), but the link is too slow without it as well."),
    })
}

/// Whether, with room for the whole programme, the layer could be carried beside those settled
/// before it: all layers below it, and its own layer of the chunks after.
fn carried_without_limit(film: &Film, chunk: usize, layer: usize) -> bool {
    let (mut carried, mut need, mut slot) = (0, 0, 0);
    (1..=film.chunks()).all(|i| {
        while slot < film.due(i).min(film.last) {
            slot += 1;
            carried += film.carries(slot);
        }
        let lower: u64 = (0..layer.min(film.level(i))).map(|n| film.size(i, n)).sum();
        let own = i == chunk || (i > chunk && layer < film.level(i));
        need += lower + if own { film.size(i, layer) } else { 0 };
        need <= carried
    })
}

#[cfg(test)]
mod tests {
    use super::*;
    use crate::rehearse::tests::{random_job, Random};
    use film_planner::{FetchList, Job, Row, Verdict};

    /// The layers settled before a missing one and that one, fetched as early as the link allows in a
    /// buffer that holds all, pass the checker exactly where the limit is called the cause.
    #[test]
    fn the_limit_is_the_cause_where_the_checker_says_so() {
        let mut r = Random(11);
        let (mut causes, mut parts) = (0, 0);
        for _ in 0..1500 {
            let job = random_job(&mut r);
            let plan = job.plan().unwrap();
            let film = Film::new(&job, &plan.marks, &plan.list);
            for ((chunk, layer), why) in read(&film, &job.reasons().unwrap()) {
                let Some(stretch) = why.stretch else { continue };
                assert!(film.level(chunk) == layer, "the next one up is missing");
                let Some(limit) = why.limit else {
                    assert_eq!(stretch.first, 1);
                    continue;
                };
                let level = |i: usize| match i {
                    i if i == chunk => layer + 1,
                    i if i > chunk => film.level(i).min(layer + 1),
                    i => film.level(i).min(layer),
                };
                let passes = carried(&job, &film, level);
                assert_eq!(limit.starts_with("The limit is the cause"), passes, "{job:?} {chunk} {layer}");
                causes += u32::from(passes);
                parts += u32::from(!passes);
            }
        }
        assert!(causes > 200 && parts > 200, "{causes} {parts}");
    }

    fn carried(job: &Job, film: &Film, level: impl Fn(usize) -> usize) -> bool {
        let mut left = job.forecast.clone();
        let mut list = FetchList::new();
        for i in 1..=film.chunks() {
            for n in 0..level(i) {
                let mut bytes = film.size(i, n) as u32;
                for (k, left) in left.iter_mut().enumerate() {
                    let part = bytes.min(*left);
                    if part > 0 {
                        list.push(Row::new(k as u16 + 1, i as u16, n as u8, part));
                    }
                    *left -= part;
                    bytes -= part;
                }
            }
        }
        let marks: Vec<u8> = (1..=film.chunks()).map(|i| (1u8 << level(i)) - 1).collect();
        Job { limit: 65535, ..job.clone() }.check(&marks, &list).unwrap() == Verdict::Passes
    }

    #[test]
    fn lines_are_read_as_they_are_written() {
        let line = "chunk 12 layer 0: slots 78 to 108 carry 186000, need 240000";
        let stretch = Stretch { first: 78, last: 108, carry: 186_000, need: 240_000 };
        assert_eq!(understood(line), Some((12, 0, Some(stretch))));
        assert_eq!(with_separators(line), "chunk 12 layer 0: slots 78 to 108 carry 186,000, need 240,000");
        assert_eq!(understood("chunk 3 layer 2: layer 1 is missing"), Some((3, 2, None)));
        for line in ["", "chunk", "chunk x layer 1", "layer 1: chunk 2", "a b c d e f g h i j k l m"] {
            assert_eq!(understood(line), None);
        }
    }
}
