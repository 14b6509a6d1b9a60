//! Links to rehearse on: traces and texts that people hand over, and synthetic ones, seeded.
use crate::failure::Failure;
use crate::words::{counted, printable, thousands};
use crate::{files, out, text};
use film_planner::Job;
use std::io::Read;
use std::path::Path;

/// The most that a slot can carry.
pub const SLOT_MOST: u32 = 16_777_216;

/// What a link brings, slot by slot.
#[derive(Clone, Debug, PartialEq, Eq)]
pub struct Link {
    pub name: String,
    pub bytes: Vec<u32>,
}

/// Reads the link of a file for so many slots: a trace, a text with `forecast` lines, or a job, whose
/// forecast is taken. A shorter one is filled with slots that bring nothing, a longer one is cut.
pub fn read(path: &Path, slots: usize) -> Result<Link, Failure> {
    if path.as_os_str() == "-" {
        return Err(Failure::usage("--trace -: a trace is read from a file; standard input is for the job alone"));
    }
    let mut start = Vec::new();
    let told = |e: std::io::Error| Failure::bad(format!("{}: {}", files::called(path), files::said(&e)));
    files::open(path)?.take(4096).read_to_end(&mut start).map_err(told)?;
    let form = form(&start);
    let mut bytes = match form {
        Form::Trace => files::trace(path, slots)?,
        Form::Records => files::job(path)?.job.forecast,
        Form::Text => text_link(path)?,
    };
    let name = files::called(path);
    if let Form::Text | Form::Records = form {
        if let Some(line) = ends_early(&name, bytes.len(), slots) {
            out::note(&format!("warning: {line}"));
        }
    }
    bytes.resize(slots, 0);
    Ok(Link { name, bytes })
}

/// A link that has fewer slots than the film brings nothing from there on.
fn ends_early(name: &str, has: usize, slots: usize) -> Option<String> {
    let (own, from, to) = (counted(has as u64, "slot"), thousands(has as u64 + 1), thousands(slots as u64));
    let says = || format!("{name} has {own}: from slot {from} to {to} the link brings nothing, and what is due there may be skipped");
    (has < slots).then(says)
}

#[derive(Clone, Copy)]
enum Form {
    Trace,
    Text,
    Records,
}

/// A trace begins with a digit, a text with a word or a comment.
fn form(start: &[u8]) -> Form {
    let first = start.iter().find(|b| !b.is_ascii_whitespace());
    match first {
        _ if files::is_records(start) => Form::Records,
        Some(b) if b.is_ascii_alphabetic() || *b == b'#' || *b >= 0x80 => Form::Text,
        _ => Form::Trace,
    }
}

/// The forecast of a job's text, or of a text that has `forecast` lines alone.
fn text_link(path: &Path) -> Result<Vec<u32>, Failure> {
    let data = files::read(path, files::TEXT)?;
    let words = String::from_utf8_lossy(&data);
    let is_job = words.lines().any(|line| line.split_whitespace().next() == Some("chunks"));
    match is_job {
        true => text::read(&data, path, None).map(|(job, _)| job.forecast),
        false => forecast_lines(&files::called(path), &words),
    }
}

/// `forecast BYTES BYTES ..` and `forecast SLOTS x BYTES`, as in a job's text.
fn forecast_lines(name: &str, words: &str) -> Result<Vec<u32>, Failure> {
    let mut bytes = Vec::new();
    for (k, line) in words.trim_start_matches('\u{feff}').lines().enumerate() {
        let said = line.split('#').next().unwrap_or("").trim();
        let wrong = |what: &str| {
            let text = format!("{name} line {}: {}\n{what}", k + 1, printable(said));
            Err(Failure::bad(text).hint("A link's text has lines `forecast BYTES BYTES ..` and `forecast SLOTS x BYTES`."))
        };
        let mut words = said.split_whitespace();
        match words.next() {
            None => continue,
            Some("forecast") => {}
            Some(other) => return wrong(&format!("`{}` is no statement of a link", printable(other))),
        }
        let words: Vec<&str> = words.collect();
        let number = |word: &str, most: u64| match !word.is_empty() && word.bytes().all(|b| b.is_ascii_digit()) {
            true => word.parse::<u64>().ok().filter(|n| *n <= most),
            false => None,
        };
        let found: Option<Vec<u32>> = match words.as_slice() {
            [] => None,
            [slots, "x", each] => match (number(slots, 3600), number(each, SLOT_MOST.into())) {
                (Some(slots), Some(each)) if slots > 0 => Some(vec![each as u32; slots as usize]),
                _ => None,
            },
            all => all.iter().map(|word| number(word, SLOT_MOST.into()).map(|b| b as u32)).collect(),
        };
        match found {
            Some(more) => bytes.extend(more),
            None => return wrong(odd_numbers(&words)),
        }
        if bytes.len() > 3600 {
            return wrong("the link has more than 3,600 slots by this line");
        }
    }
    Ok(bytes)
}

/// What is wrong with the words after `forecast`.
fn odd_numbers(words: &[&str]) -> &'static str {
    let digit = |c: char| c.is_ascii_digit();
    let joined =
        |word: &&str| word.split_once('x').is_some_and(|(a, b)| !(a.is_empty() && b.is_empty()) && a.chars().chain(b.chars()).all(digit));
    let parted = |word: &&str| word.len() > 4 && word.chars().all(|c| digit(c) || ",._'".contains(c)) && !word.chars().all(digit);
    match words {
        [] => "its numbers are missing",
        words if words.iter().any(joined) => "a run stands on a line of its own and has spaces: `forecast 6 x 3`",
        words if words.iter().any(parted) => "numbers are digits alone: 4000, not 4,000",
        words if words.contains(&"x") => "a run stands on a line of its own: `forecast SLOTS x BYTES`, 1 to 3,600 slots",
        _ => "a slot carries 0 to 16,777,216 bytes; numbers are digits alone",
    }
}

/// The kinds of synthetic links, and what each is like.
pub const KINDS: &[(&str, &str)] = &[
    ("3g", "deep, fast changes; one second in twelve brings nothing"),
    ("lte", "wide, with dips to a tenth"),
    ("walk", "slow changes, no gaps"),
    ("tunnel", "20 to 60 seconds of link, then 8 to 30 of nothing"),
    ("steady", "the same in every second"),
];

/// Numbers that are the same for the same seed on every machine (`SplitMix64`).
struct Random(u64);

impl Random {
    fn next(&mut self) -> u64 {
        self.0 = self.0.wrapping_add(0x9e37_79b9_7f4a_7c15);
        let z = (self.0 ^ (self.0 >> 30)).wrapping_mul(0xbf58_476d_1ce4_e5b9);
        let z = (z ^ (z >> 27)).wrapping_mul(0x94d0_49bb_1331_11eb);
        z ^ (z >> 31)
    }

    fn between(&mut self, a: u32, b: u32) -> u32 {
        a + ((self.next() >> 33) % u64::from(b - a + 1)) as u32
    }

    fn odds(&mut self, hundredths: u32) -> bool {
        self.between(0, 99) < hundredths
    }
}

/// A level that moves by chance in every slot, and what a slot makes of it.
struct Wander {
    lowest: u32,
    highest: u32,
    step: u32,
    around: u32,
    lost: u32,
}

fn wandering(r: &mut Random, slots: usize, w: Wander) -> Vec<u32> {
    let mut level = r.between(w.lowest, w.highest);
    let mut one = || {
        let by = r.between(0, 2 * w.step);
        level = (level + by).saturating_sub(w.step).clamp(w.lowest, w.highest);
        if r.odds(w.lost) {
            0
        } else {
            level * r.between(100 - w.around, 100 + w.around) / 100
        }
    };
    (0..slots).map(|_| one()).collect()
}

/// Stretches of the link with stretches of nothing between.
fn broken(r: &mut Random, whole: Vec<u32>, on: (u32, u32), off: (u32, u32)) -> Vec<u32> {
    let (mut left, mut up) = (r.between(on.0, on.1), true);
    let mut one = |b| {
        if left == 0 {
            up = !up;
            left = if up { r.between(on.0, on.1) } else { r.between(off.0, off.1) };
        }
        left -= 1;
        if up {
            b
        } else {
            0
        }
    };
    whole.into_iter().map(&mut one).collect()
}

/// What a kind of link is like, in numbers without a unit; the kinds of rust/tests/live.rs.
fn shape(kind: &str, r: &mut Random, slots: usize) -> Option<Vec<u32>> {
    Some(match kind {
        "3g" => wandering(r, slots, Wander { lowest: 30, highest: 420, step: 60, around: 60, lost: 8 }),
        "lte" => {
            let wide = wandering(r, slots, Wander { lowest: 150, highest: 1200, step: 150, around: 50, lost: 2 });
            let dips = wandering(r, slots, Wander { lowest: 0, highest: 100, step: 40, around: 0, lost: 0 });
            wide.into_iter().zip(dips).map(|(b, dip)| if dip < 12 { b / 10 } else { b }).collect()
        }
        "walk" => wandering(r, slots, Wander { lowest: 60, highest: 350, step: 20, around: 30, lost: 0 }),
        "tunnel" => {
            let whole = wandering(r, slots, Wander { lowest: 120, highest: 400, step: 30, around: 30, lost: 0 });
            broken(r, whole, (20, 60), (8, 30))
        }
        "steady" => vec![1; slots],
        _ => return None,
    })
}

/// A link of a kind that brings about so many bytes a slot in the mean; none if there is no such
/// kind. The same seed gives the same link.
pub fn synthetic(kind: &str, rate: u32, seed: u64, slots: usize) -> Option<Link> {
    let shape = shape(kind, &mut Random(seed), slots)?;
    let all: u64 = shape.iter().map(|b| u64::from(*b)).sum();
    let share = |b: &u32| u64::from(*b) * u64::from(rate) * slots as u64 / all.max(1);
    let bytes = shape.iter().map(|b| share(b).min(SLOT_MOST.into()) as u32).collect();
    let name = match kind {
        "steady" => format!("steady, {} bytes a slot", thousands(rate.into())),
        _ => format!("{kind}, about {} bytes a slot, seed {seed}", thousands(rate.into())),
    };
    Some(Link { name, bytes })
}

/// What the bases of a job take in a slot, in the mean.
pub fn base_rate(job: &Job) -> u64 {
    let own = job.sizes.first().copied().unwrap_or(0);
    let bases = job.overrides.iter().filter(|size| size.layer == 0);
    let sum = u64::from(own) * u64::from(job.chunks) + bases.clone().map(|size| u64::from(size.bytes)).sum::<u64>();
    let sum = sum.saturating_sub(bases.count() as u64 * u64::from(own));
    sum / (u64::from(job.chunks) * u64::from(job.span)).max(1)
}

/// Bytes a slot, or so many per cent of what the bases take: `60000`, `150%`.
pub fn rate(word: &str, job: &Job) -> Result<u32, Failure> {
    let (digits, percent) = match word.strip_suffix('%') {
        Some(digits) => (digits, true),
        None => (word, false),
    };
    let number = match !digits.is_empty() && digits.bytes().all(|b| b.is_ascii_digit()) {
        true => digits.parse::<u64>().ok(),
        false => None,
    };
    let rate = match (number, percent) {
        (Some(n), true) if n <= 100_000 => Some(n * base_rate(job) / 100),
        (Some(n), false) => Some(n),
        _ => None,
    };
    rate.filter(|rate| *rate <= SLOT_MOST.into()).map(|rate| rate as u32).ok_or_else(|| {
        let bases = thousands(base_rate(job));
        let text = format!("--link: {} is no rate; it is 0 to 16,777,216 bytes a slot, or a per cent of the bases'", printable(word));
        Failure::usage(text).hint(&format!("The bases of this film take {bases} bytes a slot: try 150%."))
    })
}

#[cfg(test)]
mod tests {
    use super::*;

    #[test]
    fn the_same_seed_gives_the_same_link() {
        for (kind, _) in KINDS {
            for slots in [1, 7, 186, 3600] {
                let link = synthetic(kind, 60_000, 5, slots).unwrap();
                assert_eq!(link, synthetic(kind, 60_000, 5, slots).unwrap());
                assert_eq!(link.bytes.len(), slots);
                assert!(link.bytes.iter().all(|b| *b <= SLOT_MOST));
                if slots > 100 && *kind != "steady" {
                    assert_ne!(link.bytes, synthetic(kind, 60_000, 6, slots).unwrap().bytes);
                }
            }
        }
        assert_eq!(synthetic("5g", 1, 1, 1), None);
    }

    /// Pinned, so that a change of the generator is seen.
    #[test]
    fn a_link_stays_what_it_was() {
        assert_eq!(synthetic("steady", 7, 1, 3).unwrap().bytes, [7, 7, 7]);
        let sums: Vec<u64> = ["3g", "lte", "walk", "tunnel"]
            .iter()
            .map(|kind| synthetic(kind, 60_000, 1, 600).unwrap().bytes.iter().enumerate().map(|(k, b)| k as u64 * u64::from(*b)).sum())
            .collect();
        assert_eq!(sums, [11_290_855_383, 9_442_289_880, 11_109_701_009, 11_235_790_843]);
    }

    #[test]
    fn the_mean_is_the_rate() {
        for (kind, _) in KINDS {
            for seed in 0..20 {
                let link = synthetic(kind, 60_000, seed, 1000).unwrap();
                let mean = link.bytes.iter().map(|b| u64::from(*b)).sum::<u64>() / 1000;
                assert!((59_990..=60_000).contains(&mean), "{kind} {seed}: {mean}");
            }
        }
        assert_eq!(synthetic("steady", SLOT_MOST, 1, 2).unwrap().bytes, [SLOT_MOST; 2]);
        assert!(synthetic("3g", SLOT_MOST, 1, 3600).unwrap().bytes.iter().all(|b| *b <= SLOT_MOST));
    }

    #[test]
    fn each_kind_is_what_it_says() {
        let zeros = |kind: &str| synthetic(kind, 60_000, 3, 3600).unwrap().bytes.iter().filter(|b| **b == 0).count();
        assert_eq!((zeros("walk"), zeros("steady")), (0, 0));
        assert!((180..400).contains(&zeros("3g")));
        assert!((700..1800).contains(&zeros("tunnel")), "{}", zeros("tunnel"));
    }

    #[test]
    fn forecast_lines_are_read_as_in_a_job() {
        assert_eq!(forecast_lines("x", "# a\nforecast 1 2 # b\r\n\n forecast 3 x 0\nforecast 7").unwrap(), [1, 2, 0, 0, 0, 7]);
        assert_eq!(forecast_lines("x", "").unwrap(), [0u32; 0]);
        let bad = ["forecast", "forecast 6x3", "forecast 4,000", "forecast -1", "forecast 0 x 5", "forecast 3601 x 5", "forecast 16777217"];
        for line in bad.iter().chain(&["span 3", "forecast 1 x", "forecast x 1", "forecast 1 2 x 3", "forecast 99999999999999999999"]) {
            let failure = forecast_lines("x", &format!("\n{line}")).unwrap_err();
            assert!(failure.status == 1 && failure.text.starts_with("x line 2: "), "{line}: {}", failure.text);
        }
        assert!(forecast_lines("x", "forecast 3600 x 1\nforecast 1").is_err());
    }

    #[test]
    fn a_rate_is_bytes_or_a_share_of_the_bases() {
        let job = Job { chunks: 4, span: 2, sizes: vec![100, 50], ..Job::default() };
        assert_eq!((base_rate(&job), rate("150%", &job), rate("60000", &job)), (50, Ok(75), Ok(60_000)));
        for word in ["", "%", "-1", "1.5", "16777217", "1e3", "100001%", "99999999999999999999"] {
            assert!(rate(word, &job).is_err(), "{word}");
        }
        assert_eq!(base_rate(&Job::default()), 0);
    }
}
