//! An act on links that nobody forecast, beside the best list for the link as it turned out.
//! `cargo test --offline --test most_live -- --nocapture` prints the tables of docs/LIVE.md that set
//! the act beside that list. Links and films are those of tests/live.rs.
use film_planner::{Act, Job, Override, Verdict};

/// Numbers that are the same in every run (a linear congruence, its upper half).
struct Random(u64);

impl Random {
    fn below(&mut self, n: u32) -> u32 {
        self.0 = self.0.wrapping_mul(6_364_136_223_846_793_005).wrapping_add(1_442_695_040_888_963_407);
        ((self.0 >> 33) % u64::from(n.max(1))) as u32
    }

    /// From a to b, in hundredths.
    fn between(&mut self, a: u32, b: u32) -> u32 {
        a + self.below(b - a + 1)
    }

    fn odds(&mut self, hundredths: u32) -> bool {
        self.below(100) < hundredths
    }
}

/// A kind of link: its name, and what it carries in so many slots, in hundredths of the bases'
/// rate.
type Kind = (&'static str, fn(&mut Random, usize) -> Vec<u32>);

/// A level that moves by chance in every slot, and what a slot makes of it.
fn wandering(r: &mut Random, slots: usize, lowest: u32, highest: u32, step: u32, around: u32, lost: u32) -> Vec<u32> {
    let mut level = r.between(lowest, highest);
    (0..slots)
        .map(|_| {
            let by = r.between(0, 2 * step);
            level = (level + by).saturating_sub(step).clamp(lowest, highest);
            if r.odds(lost) {
                0
            } else {
                level * r.between(100 - around, 100 + around) / 100
            }
        })
        .collect()
}

/// Stretches of the link, each with so many slots of its own between those of nothing.
fn broken(r: &mut Random, whole: Vec<u32>, on: (u32, u32), off: (u32, u32)) -> Vec<u32> {
    let (mut left, mut up) = (r.between(on.0, on.1), true);
    whole
        .into_iter()
        .map(|b| {
            if left == 0 {
                up = !up;
                left = if up { r.between(on.0, on.1) } else { r.between(off.0, off.1) };
            }
            left -= 1;
            if up {
                b
            } else {
                0
            }
        })
        .collect()
}

const KINDS: &[Kind] = &[
    // Deep, fast changes; one slot in twelve brings nothing.
    ("3G", |r, n| wandering(r, n, 30, 420, 60, 60, 8)),
    // Wide, with dips far below the bases' rate.
    ("LTE", |r, n| {
        let wide = wandering(r, n, 150, 1200, 150, 50, 2);
        let dips = wandering(r, n, 0, 100, 40, 0, 0);
        wide.into_iter().zip(dips).map(|(b, dip)| if dip < 12 { b / 10 } else { b }).collect()
    }),
    ("walking", |r, n| wandering(r, n, 60, 350, 20, 30, 0)),
    ("tunnels", |r, n| {
        let whole = wandering(r, n, 120, 400, 30, 30, 0);
        broken(r, whole, (20, 60), (8, 30))
    }),
    ("gaps", |r, n| {
        let whole = wandering(r, n, 250, 450, 30, 30, 0);
        broken(r, whole, (1, 4), (1, 3))
    }),
    // About what the bases need, and nothing to spare.
    ("scarce", |r, n| wandering(r, n, 40, 160, 20, 40, 3)),
];

/// Steady links, in hundredths of the bases' rate.
const STEADY: [u32; 6] = [97, 90, 80, 60, 50, 30];

/// A film: chunks of so many slots, H, and whether sizes differ by chunk.
struct Film {
    chunks: u16,
    span: u16,
    held: u16,
    uneven: bool,
}

const BASE: u32 = 30_000;
const DELAY: u16 = 5;

impl Film {
    fn job(&self, r: &mut Random, link: &[u32]) -> Job {
        let rate = u32::from(self.span) * BASE;
        let sizes = vec![rate, rate / 2, rate * 3 / 4, rate];
        let mut overrides = Vec::new();
        if self.uneven {
            for chunk in 2..=self.chunks {
                for layer in 0..4u8 {
                    let own = sizes[usize::from(layer)];
                    let bytes = own / 100 * r.between(40, 160);
                    if bytes != own {
                        overrides.push(Override { chunk, layer, bytes });
                    }
                }
            }
        }
        let forecast = link.iter().map(|hundredths| hundredths * (BASE / 100)).collect();
        Job { chunks: self.chunks, span: self.span, delay: DELAY, limit: self.held * self.span, sizes, overrides, forecast }
    }

    fn slots(&self) -> usize {
        usize::from((self.chunks - 1) * self.span + DELAY)
    }
}

/// Runs an act on the link that the job's forecast is; the act itself does not see it.
fn run(job: &Job) -> Act {
    let mut act = Act::new(Job { forecast: vec![0; job.forecast.len()], ..job.clone() }).expect("the job is in order");
    for carries in &job.forecast {
        let asked: u32 = act.asks().iter().map(|piece| piece.bytes).sum();
        act.brought(asked.min(*carries));
    }
    assert_eq!(act.check(), Verdict::Passes);
    act
}

/// Pictures shown on some links: by the best list for the link, and by the act.
#[derive(Default)]
struct Shown {
    links: u32,
    best: u32,
    act: u32,
}

impl Shown {
    fn take(&mut self, job: &Job) {
        self.links += 1;
        let plan = u32::from(job.plan().expect("the job is in order").counts[0]);
        let most = job.most(16).expect("the job is in order");
        let best = u32::from(most.plan.counts[0]);
        let act = u32::from(run(job).shown().counts[0]);
        assert!(most.exact && plan <= best && act <= best, "plan {plan}, best {best} of at most {}, act {act}", most.bound);
        self.best += best;
        self.act += act;
    }

    fn skipped(&self, film: &Film, shown: u32) -> f64 {
        f64::from(u32::from(film.chunks) * self.links - shown) / f64::from(self.links)
    }
}

fn films() -> Vec<(String, Film)> {
    let held = [0, 1, 2, 5, 20].map(|held| (format!("L 2, H {held}"), Film { chunks: 150, span: 2, held, uneven: false }));
    let span = [1, 6].map(|span| (format!("L {span}, H 5"), Film { chunks: 150, span, held: 5, uneven: false }));
    let uneven = [1, 5, 20].map(|held| (format!("L 2, H {held}, uneven"), Film { chunks: 150, span: 2, held, uneven: true }));
    held.into_iter().chain(span).chain(uneven).collect()
}

/// No act shows more than the best list, and every best list is proved best in playing order.
#[test]
fn the_act_beside_the_best_list_for_the_link() {
    let mut r = Random(12);
    println!("| film | {} |", KINDS.iter().map(|kind| kind.0).collect::<Vec<_>>().join(" | "));
    for (name, film) in films() {
        let mut cells = Vec::new();
        for (_, link) in KINDS {
            let mut shown = Shown::default();
            for _ in 0..10 {
                let link = link(&mut r, film.slots());
                shown.take(&film.job(&mut r, &link));
            }
            cells.push(format!("{:.1} {:.1}", shown.skipped(&film, shown.best), shown.skipped(&film, shown.act)));
        }
        println!("| {name} | {} |", cells.join(" | "));
    }
}

/// The same on steady links too slow for the bases.
#[test]
fn the_act_beside_the_best_list_on_a_steady_link() {
    let mut r = Random(21);
    println!("| film | {} |", STEADY.map(|part| format!("0.{part}")).join(" | "));
    for (name, film) in films() {
        let mut cells = Vec::new();
        for part in STEADY {
            let mut shown = Shown::default();
            shown.take(&film.job(&mut r, &vec![part; film.slots()]));
            cells.push(format!("{} {}", shown.best, shown.act));
        }
        println!("| {name} | {} |", cells.join(" | "));
    }
}
