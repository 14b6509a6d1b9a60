//! An act on links that nobody forecast, second by second: whatever they bring, it is never
//! refused, its list passes the second checker call, and it skips few pictures more than the plan
//! that knew the link beforehand. `cargo test --offline --test live -- --nocapture` prints the
//! table of docs/LIVE.md.
use film_planner::{Act, Job, Override, Piece, Refusal, Verdict};

/// Numbers that are the same in every run (a linear congruence, its upper half).
struct Random(u64);

impl Random {
    fn below(&mut self, n: u32) -> u32 {
        self.0 = self.0.wrapping_mul(6_364_136_223_846_793_005).wrapping_add(1_442_695_040_888_963_407);
        ((self.0 >> 33) % u64::from(n.max(1))) as u32
    }

    fn less(&mut self, n: u16) -> u16 {
        u16::try_from(self.below(n.into())).expect("below n")
    }

    /// From a to b, in hundredths.
    fn between(&mut self, a: u32, b: u32) -> u32 {
        a + self.below(b - a + 1)
    }

    fn odds(&mut self, hundredths: u32) -> bool {
        self.below(100) < hundredths
    }
}

/// A kind of link: its name, and what it carries in so many slots, in hundredths of the bases'
/// rate.
type Kind = (&'static str, fn(&mut Random, usize) -> Vec<u32>);

/// A level that moves by chance in every slot, and what a slot makes of it.
fn wandering(r: &mut Random, slots: usize, lowest: u32, highest: u32, step: u32, around: u32, lost: u32) -> Vec<u32> {
    let mut level = r.between(lowest, highest);
    (0..slots)
        .map(|_| {
            let by = r.between(0, 2 * step);
            level = (level + by).saturating_sub(step).clamp(lowest, highest);
            if r.odds(lost) {
                0
            } else {
                level * r.between(100 - around, 100 + around) / 100
            }
        })
        .collect()
}

/// Stretches of the link, each with so many slots of its own between those of nothing.
fn broken(r: &mut Random, whole: Vec<u32>, on: (u32, u32), off: (u32, u32)) -> Vec<u32> {
    let (mut left, mut up) = (r.between(on.0, on.1), true);
    whole
        .into_iter()
        .map(|b| {
            if left == 0 {
                up = !up;
                left = if up { r.between(on.0, on.1) } else { r.between(off.0, off.1) };
            }
            left -= 1;
            if up {
                b
            } else {
                0
            }
        })
        .collect()
}

const KINDS: &[Kind] = &[
    // Deep, fast changes; one slot in twelve brings nothing.
    ("3G", |r, n| wandering(r, n, 30, 420, 60, 60, 8)),
    // Wide, with dips far below the bases' rate.
    ("LTE", |r, n| {
        let wide = wandering(r, n, 150, 1200, 150, 50, 2);
        let dips = wandering(r, n, 0, 100, 40, 0, 0);
        wide.into_iter().zip(dips).map(|(b, dip)| if dip < 12 { b / 10 } else { b }).collect()
    }),
    ("walking", |r, n| wandering(r, n, 60, 350, 20, 30, 0)),
    ("tunnels", |r, n| {
        let whole = wandering(r, n, 120, 400, 30, 30, 0);
        broken(r, whole, (20, 60), (8, 30))
    }),
    ("gaps", |r, n| {
        let whole = wandering(r, n, 250, 450, 30, 30, 0);
        broken(r, whole, (1, 4), (1, 3))
    }),
    // About what the bases need, and nothing to spare.
    ("scarce", |r, n| wandering(r, n, 40, 160, 20, 40, 3)),
];

/// Steady links, in hundredths of the bases' rate: those of the table, and others.
const STEADY: [u32; 6] = [97, 90, 80, 60, 50, 30];
const STEADY_TOO: [u32; 14] = [99, 94, 87, 75, 70, 69, 55, 49, 45, 40, 33, 20, 10, 4];

/// A film: chunks of so many slots, H, and whether sizes differ by chunk.
struct Film {
    chunks: u16,
    span: u16,
    held: u16,
    uneven: bool,
}

const BASE: u32 = 30_000;
const DELAY: u16 = 5;

impl Film {
    fn job(&self, r: &mut Random, link: &[u32]) -> Job {
        let rate = u32::from(self.span) * BASE;
        let sizes = vec![rate, rate / 2, rate * 3 / 4, rate];
        let mut overrides = Vec::new();
        if self.uneven {
            for chunk in 2..=self.chunks {
                for layer in 0..4u8 {
                    let own = sizes[usize::from(layer)];
                    let bytes = own / 100 * r.between(40, 160);
                    if bytes != own {
                        overrides.push(Override { chunk, layer, bytes });
                    }
                }
            }
        }
        let forecast = link.iter().map(|hundredths| hundredths * (BASE / 100)).collect();
        Job { chunks: self.chunks, span: self.span, delay: DELAY, limit: self.held * self.span, sizes, overrides, forecast }
    }

    fn slots(&self) -> usize {
        usize::from((self.chunks - 1) * self.span + DELAY)
    }
}

/// Runs an act on the link that the job's forecast is; the act itself does not see it. Now and then
/// the list so far is checked, and a plan made afresh.
fn run(job: &Job) -> Act {
    let mut act = Act::new(Job { forecast: vec![0; job.forecast.len()], ..job.clone() }).expect("the job is in order");
    for (t, carries) in job.forecast.iter().enumerate() {
        if t % 97 == 5 {
            assert_eq!(act.check(), Verdict::Passes);
            assert!(act.replan(&act.onward()).is_ok());
            assert!(act.replan(&job.forecast[t..]).is_ok());
        }
        act.brought(asked(&act).min(*carries));
    }
    assert!(act.is_over() && act.asks().is_empty());
    assert_eq!(act.check(), Verdict::Passes);
    act
}

fn asked(act: &Act) -> u32 {
    act.asks().iter().map(|piece| piece.bytes).sum()
}

/// Pictures shown on some links: by the plan that knew the link, and by the act.
#[derive(Default)]
struct Shown {
    links: u32,
    plan: u32,
    act: u32,
}

impl Shown {
    fn take(&mut self, job: &Job) {
        self.links += 1;
        self.plan += u32::from(job.plan().expect("the job is in order").counts[0]);
        self.act += u32::from(run(job).shown().counts[0]);
    }

    /// No more skipped than 1.5 times what the plan skips, plus 2 % of the chunks.
    fn skips_few(&self, film: &Film) -> bool {
        let all = u32::from(film.chunks) * self.links;
        (all - self.act) * 100 <= (all - self.plan) * 150 + all * 2
    }

    /// On a steady link at so many hundredths of the bases' rate.
    fn shows_most(&self, film: &Film, part: u32) -> bool {
        if part < 70 {
            self.act * 4 >= self.plan * 3
        } else {
            self.skips_few(film)
        }
    }

    fn skipped(&self, film: &Film, shown: u32) -> f64 {
        f64::from(u32::from(film.chunks) * self.links - shown) / f64::from(self.links)
    }
}

fn films() -> Vec<(String, Film)> {
    let held = [0, 1, 2, 5, 20].map(|held| (format!("L 2, H {held}"), Film { chunks: 150, span: 2, held, uneven: false }));
    let span = [1, 6].map(|span| (format!("L {span}, H 5"), Film { chunks: 150, span, held: 5, uneven: false }));
    let uneven = [1, 5, 20].map(|held| (format!("L 2, H {held}, uneven"), Film { chunks: 150, span: 2, held, uneven: true }));
    held.into_iter().chain(span).chain(uneven).collect()
}

/// "Skips no more than 1.5 times as many pictures as the plan that knew the link plus 2 % of the
/// chunks", on the mean of ten links.
#[test]
fn few_pictures_more_are_skipped_than_by_the_plan_that_knew_the_link() {
    let mut r = Random(12);
    println!("| film | {} |", KINDS.iter().map(|kind| kind.0).collect::<Vec<_>>().join(" | "));
    for (name, film) in films() {
        let mut cells = Vec::new();
        for (kind, link) in KINDS {
            let mut shown = Shown::default();
            for _ in 0..10 {
                let link = link(&mut r, film.slots());
                shown.take(&film.job(&mut r, &link));
            }
            assert!(shown.skips_few(&film), "{name}, {kind}: {} {}", shown.plan, shown.act);
            cells.push(format!("{:.1} {:.1}", shown.skipped(&film, shown.plan), shown.skipped(&film, shown.act)));
        }
        println!("| {name} | {} |", cells.join(" | "));
    }
}

/// On a steady link too slow for the bases: the same, and below 0.7 of their rate "at least three
/// quarters of what that plan shows".
#[test]
fn a_steady_link_that_is_too_slow_shows_most_of_what_it_can() {
    let mut r = Random(21);
    println!("| film | {} |", STEADY.map(|part| format!("0.{part}")).join(" | "));
    for (name, film) in films() {
        let mut cells = Vec::new();
        for part in STEADY {
            let mut shown = Shown::default();
            shown.take(&film.job(&mut r, &vec![part; film.slots()]));
            assert!(shown.shows_most(&film, part), "{name}, 0.{part}: {} {}", shown.plan, shown.act);
            cells.push(format!("{} {}", shown.plan, shown.act));
        }
        println!("| {name} | {} |", cells.join(" | "));
    }
    for (name, film) in films() {
        for part in STEADY_TOO {
            let mut shown = Shown::default();
            shown.take(&film.job(&mut r, &vec![part; film.slots()]));
            assert!(shown.shows_most(&film, part), "{name}, 0.{part:02}: {} {}", shown.plan, shown.act);
        }
    }
}

/// Small films, any rates, any bytes: nothing is refused, in any slot, and every list passes.
#[test]
fn an_act_is_never_refused_whatever_comes() {
    let mut r = Random(7);
    let (mut acts, mut plans) = (0, 0);
    while acts < 2000 {
        let (chunks, span, delay) = (1 + r.less(6), 1 + r.less(3), 1 + r.less(6));
        let sizes: Vec<u32> = (0..=r.below(4)).map(|_| 1 + r.below(9)).collect();
        let mut overrides = Vec::new();
        for chunk in 2..=chunks {
            for (layer, own) in (0u8..).zip(&sizes) {
                let bytes = 1 + r.below(9);
                if r.odds(30) && bytes != *own {
                    overrides.push(Override { chunk, layer, bytes });
                }
            }
        }
        let slots = usize::from((chunks - 1) * span + delay);
        let job = Job { chunks, span, delay, limit: r.less(12), sizes, overrides, forecast: vec![0; slots] };
        let mut act = Act::new(job).expect("the job is in order");
        while !act.is_over() {
            if r.odds(50) {
                let rate = if r.odds(10) { u32::MAX } else { r.below(12) };
                act.asks_at(rate);
            }
            let onward: Vec<u32> = (usize::from(act.slot())..=slots).map(|_| r.below(12)).collect();
            assert!(act.replan(&onward).is_ok());
            let came = r.below(20);
            act.brought(came);
            assert_eq!(act.check(), Verdict::Passes);
            plans += 1;
        }
        acts += 1;
    }
    println!("{acts} acts, {plans} plans made afresh");
}

/// The same on links so slow that a chunk gives way to a later one, which the act asks for itself.
#[test]
fn giving_way_is_never_refused() {
    let mut r = Random(70);
    let (mut slots, mut own) = (0, 0);
    for _ in 0..200 {
        let (chunks, span, delay) = (15 + r.less(20), 1 + r.less(3), 1 + r.less(6));
        let sizes: Vec<u32> = (0..=r.below(3)).map(|_| 1 + r.below(30)).collect();
        let overrides = (2..=chunks).filter(|_| r.odds(30)).collect::<Vec<_>>();
        let overrides = overrides.into_iter().map(|chunk| Override { chunk, layer: 0, bytes: 31 + r.below(30) }).collect();
        let forecast = vec![0; usize::from((chunks - 1) * span + delay)];
        let mut act = Act::new(Job { chunks, span, delay, limit: r.less(12), sizes, overrides, forecast }).expect("the job is in order");
        let usual = 1 + r.below(12);
        while !act.is_over() {
            let rate = act.rate();
            let ruled = act.clone().asks_at(rate).to_vec();
            own += u32::from(ruled.iter().any(|piece| piece.layer == 0) && ruled != act.asks());
            act.brought(if r.odds(5) { r.below(60) } else { r.below(usual + 1) });
            assert_eq!(act.check(), Verdict::Passes);
            assert!(act.is_over() || act.replan(&act.onward()).is_ok());
            slots += 1;
        }
    }
    println!("{slots} slots, in {own} of them a chunk gave way");
    assert!(own > 500);
}

/// A base of 10 on a link of 3, and a place: chunk 11 would take four slots and has one. It gives
/// way to the first that comes in time, and in that one's last slot so does the next.
#[test]
fn a_chunk_that_cannot_come_gives_way_to_one_that_does() {
    let piece = |chunk, bytes| Piece { chunk, layer: 0, bytes };
    let job = Job { chunks: 20, span: 1, delay: 1, limit: 1, sizes: vec![10], overrides: vec![], forecast: vec![0; 20] };
    let mut act = Act::new(job.clone()).unwrap();
    for slot in 1..=10 {
        assert_eq!(act.asks(), [piece(slot, 10), piece(slot + 1, 10)]);
        act.brought(3);
    }
    for asks in [vec![piece(14, 10)], vec![piece(14, 7)], vec![piece(14, 4)], vec![piece(14, 1), piece(17, 10)], vec![piece(17, 8)]] {
        assert_eq!(act.asks(), asks);
        act.brought(3);
    }
    // One slot of the last ten that would bring chunk 11 alone: it does not give way.
    let mut once = Act::new(job.clone()).unwrap();
    (1..=10).for_each(|slot| once.brought(if slot == 5 { 10 } else { 3 }));
    assert_eq!(once.asks(), [piece(11, 10), piece(12, 10)]);
    // Nor with no place in the buffer, where no chunk begins before its due slot.
    let mut none = Act::new(Job { limit: 0, ..job }).unwrap();
    (1..=10).for_each(|_| none.brought(3));
    assert_eq!(none.asks(), [piece(11, 10)]);
}

fn one_chunk(size: u32, slots: u16) -> Job {
    Job { chunks: 1, span: 1, delay: slots, limit: 1, sizes: vec![size], overrides: vec![], forecast: vec![0; usize::from(slots)] }
}

/// The meter gets what the link carries: no slot without bytes, and one in which all asks came only
/// where it brought more than the rate.
#[test]
fn the_meter_gets_what_the_link_carries() {
    let job = Job { chunks: 2, span: 1, delay: 9, limit: 9, sizes: vec![100], overrides: vec![], forecast: vec![0; 10] };
    let mut act = Act::new(job).unwrap();
    let kept = |act: &Act| act.meter().bytes[..usize::from(act.meter().kept)].to_vec();
    assert_eq!(act.rate(), 16_777_216);
    act.brought(0);
    assert_eq!((kept(&act), act.rate()), (vec![], 16_777_216));
    act.brought(60);
    act.brought(40);
    assert_eq!(kept(&act), [60, 40]);
    // The meter says 48 at most, its last sample 40; then the last one is more.
    assert_eq!(act.rate(), 47);
    assert_eq!(act.asks(), [Piece { chunk: 2, layer: 0, bytes: 100 }]);
    act.brought(80);
    assert_eq!(act.rate(), 80);
    // All asks came: that the link carries at least 20 is no news.
    act.brought(1000);
    assert_eq!(kept(&act), [60, 40, 80]);
    assert_eq!(act.shown().counts, [2, 0, 0, 0]);
    let mut fast = Act::new(Job { sizes: vec![100, 500], ..one_chunk(1, 9) }).unwrap();
    fast.brought(5);
    fast.brought(1000);
    assert_eq!(kept(&fast), [5, 595]);
}

/// Chunk 1 is passed over for chunk 2, which cannot begin while chunk 1 keeps the only place: the
/// slot goes to chunk 1.
#[test]
fn no_slot_is_left_to_nobody() {
    let job = Job { chunks: 2, span: 2, delay: 3, limit: 2, sizes: vec![10], overrides: vec![], forecast: vec![0; 5] };
    let mut act = Act::new(job.clone()).unwrap();
    act.brought(3);
    let rate = act.rate();
    assert_eq!(act.asks_at(rate), []);
    let mut again = Act::new(job).unwrap();
    again.brought(3);
    assert_eq!(again.asks(), [Piece { chunk: 1, layer: 0, bytes: 7 }]);
}

/// 500 chunks, 3,600 slots, every size its own: the rows stay few, a slot cuts at most one piece.
#[test]
fn the_largest_act() {
    let mut r = Random(500);
    let film = Film { chunks: 500, span: 7, held: 4, uneven: true };
    let link = wandering(&mut r, 3600, 20, 200, 30, 50, 10);
    let job = Job { delay: 107, ..film.job(&mut r, &link) };
    let act = run(&job);
    assert!(act.fetched().len() <= film_planner::PIECES + film_planner::SLOTS);
    assert!(act.shown().counts[0] > 300, "{:?}", act.shown().counts);
}

/// A slot's forecast goes up to 16,777,216 bytes, and so do a slot's asks.
#[test]
fn a_slot_asks_for_no_more_than_a_forecast_can_say() {
    let size = 16_777_216;
    let mut act = Act::new(Job { sizes: vec![size, size], ..one_chunk(size, 3) }).unwrap();
    assert_eq!(act.asks(), [Piece { chunk: 1, layer: 0, bytes: size }]);
    act.brought(1);
    assert_eq!(act.asks(), [Piece { chunk: 1, layer: 0, bytes: size - 1 }, Piece { chunk: 1, layer: 1, bytes: 1 }]);
    act.brought(u32::MAX);
    assert_eq!(act.job().forecast, [1, size, 0]);
    act.brought(u32::MAX);
    assert_eq!((act.check(), act.shown().counts), (Verdict::Passes, [1, 1, 0, 0]));
}

#[test]
fn an_act_begins_and_ends() {
    assert_eq!(Act::new(Job { chunks: 0, ..one_chunk(1, 1) }), Err(Refusal::ProgrammeField));
    assert_eq!(Act::new(Job { forecast: vec![], ..one_chunk(1, 1) }), Err(Refusal::Forecast));
    let mut act = Act::new(one_chunk(5, 2)).unwrap();
    assert_eq!(act.replan(&[0]), Err(Refusal::Forecast));
    assert_eq!(act.replan(&act.onward()).unwrap().counts, [1, 0, 0, 0]);
    act.brought(2);
    // The last slot brings a part of what is missing: the list without it passes.
    act.brought(2);
    assert_eq!((act.is_over(), act.slot(), act.asks()), (true, 3, [].as_slice()));
    assert_eq!((act.shown().marks, act.shown().list.len(), act.fetched().len()), (vec![0], 1, 2));
    assert_eq!(act.check(), Verdict::Passes);
    let before = act.clone();
    act.brought(2);
    act.asks_at(9);
    assert_eq!(act, before);
    assert_eq!(act.replan(&[]), Err(Refusal::Slot));
    assert_eq!(act.onward(), []);
}
