//! A rehearsal's numbers against the wrapper's own calls.
use super::watch::{rule, Cause, Watch};
use super::ways::{self, on_link, Figures};
use super::*;
use crate::draw::film::Film;
use film_planner::{Act, Override, Verdict};

/// Numbers that are the same in every run.
pub struct Random(pub u64);

impl Random {
    pub fn below(&mut self, n: u32) -> u32 {
        self.0 = self.0.wrapping_mul(6_364_136_223_846_793_005).wrapping_add(1_442_695_040_888_963_407);
        ((self.0 >> 33) % u64::from(n.max(1))) as u32
    }
}

pub fn random_job(r: &mut Random) -> Job {
    let (chunks, span, delay) = (1 + r.below(12) as u16, 1 + r.below(3) as u16, 1 + r.below(6) as u16);
    let sizes: Vec<u32> = (0..=r.below(4)).map(|_| 1 + r.below(9)).collect();
    let mut overrides = Vec::new();
    for chunk in 2..=chunks {
        for (layer, own) in sizes.iter().enumerate() {
            let bytes = 1 + r.below(9);
            if r.below(4) == 0 && bytes != *own {
                overrides.push(Override { chunk, layer: layer as u8, bytes });
            }
        }
    }
    let slots = usize::from((chunks - 1) * span + delay);
    let forecast = (0..slots).map(|_| r.below(12)).collect();
    Job { chunks, span, delay, limit: r.below(12) as u16, sizes, overrides, forecast }
}

fn random_link(r: &mut Random, slots: usize) -> Link {
    let most = 1 + r.below(20);
    Link { name: "a link".into(), bytes: (0..slots).map(|_| if r.below(5) == 0 { 0 } else { r.below(most + 1) }).collect() }
}

/// The number after a word of the report.
fn reported(report: &str, word: &str) -> Vec<u64> {
    let line = report.lines().find(|line| line.starts_with(word)).unwrap();
    line.split(' ').filter_map(|word| word.parse().ok()).collect()
}

#[test]
fn the_plan_that_knew_the_link_is_the_plan_of_the_call() {
    let mut r = Random(1);
    for _ in 0..400 {
        let job = random_job(&mut r);
        let link = random_link(&mut r, job.forecast.len());
        let [known, _, _] = Rehearsal::new(&job, &link).unwrap().figures();
        let (plan, report) = (on_link(&job, &link.bytes).plan().unwrap(), on_link(&job, &link.bytes).report().unwrap());
        assert_eq!(known.skipped, u64::from(job.chunks - plan.counts[0]));
        assert_eq!(known.layers, plan.counts.map(u64::from));
        assert_eq!(known.switch, reported(&report, "switch")[0]);
        assert_eq!(known.wasted, 0);
    }
}

#[test]
fn the_act_is_the_act_of_the_wrapper() {
    let mut r = Random(2);
    let mut skipped = 0;
    for _ in 0..400 {
        let job = random_job(&mut r);
        let link = random_link(&mut r, job.forecast.len());
        let (rehearsal, _) = Rehearsal::watched(&job, &link).unwrap();
        let mut act = Act::new(job.clone()).unwrap();
        for bytes in &link.bytes {
            let asked: u32 = act.asks().iter().map(|piece| piece.bytes).sum();
            act.brought(asked.min(*bytes));
        }
        assert_eq!(act.check(), Verdict::Passes);
        let shown = act.shown();
        assert_eq!((&rehearsal.act.marks, &rehearsal.act.list), (&shown.marks, act.fetched()));
        let figures = Figures::of(&job, &rehearsal.act);
        assert_eq!(figures.layers, shown.counts.map(u64::from));
        let fetched: u64 = act.fetched().rows().map(|row| u64::from(row.bytes)).sum();
        let film = Film::new(&job, &shown.marks, act.fetched());
        assert_eq!(figures.wasted, fetched - (1..=film.chunks()).map(|i| film.shown(i)).sum::<u64>());
        skipped += figures.skipped;
    }
    assert!(skipped > 300, "{skipped}");
}

/// The rule as the reasons read it asks for the bases that the act asks for.
#[test]
fn the_rule_is_read_as_the_call_has_it() {
    let mut r = Random(3);
    let (mut slots, mut passed) = (0, 0);
    for _ in 0..600 {
        let job = random_job(&mut r);
        let link = random_link(&mut r, job.forecast.len());
        ways::act(&job, &link.bytes, |act| {
            let film = Film::new(&job, &[], act.fetched());
            let slot = usize::from(act.slot());
            let rule = rule(&film, slot, act.rate().into());
            let by_rate = act.job().live(act.slot(), act.fetched(), act.rate()).unwrap();
            let given_up = rule.passed.as_ref().map_or(vec![], |(chunks, _)| chunks.clone());
            // Begun chunks keep their places; others take them in playing order.
            let held = |i: &usize| film.due(*i) > slot;
            let mut places = film.places.saturating_sub((1..=film.chunks()).filter(|i| film.first(*i).is_some() && held(i)).count());
            let mut wanted = Vec::new();
            for i in (1..=film.chunks()).filter(|i| rule.open[i - 1] && !given_up.contains(i)) {
                if film.first(i).is_none() && held(&i) {
                    match places {
                        0 => break,
                        _ => places -= 1,
                    }
                }
                if rule.missing[i - 1] > 0 {
                    wanted.push(i);
                }
            }
            let bases: Vec<usize> = by_rate.iter().filter(|piece| piece.layer == 0).map(|piece| piece.chunk.into()).collect();
            assert_eq!(bases, wanted, "{job:?} {:?} slot {slot}", link.bytes);
            slots += 1;
            passed += given_up.len();
        })
        .unwrap();
    }
    println!("the rule asks for the same bases in {slots} slots; {passed} times a chunk was passed over");
    assert!(slots > 5000 && passed > 300, "{slots} {passed}");
}

#[test]
fn every_skip_has_its_reason() {
    let mut r = Random(4);
    let mut causes = [0; 4];
    for _ in 0..1000 {
        let job = random_job(&mut r);
        let link = random_link(&mut r, job.forecast.len());
        let (rehearsal, watch) = Rehearsal::watched(&job, &link).unwrap();
        let film = Film::new(&job, &rehearsal.act.marks, &rehearsal.act.list);
        let skips = watch.skips(&rehearsal.act);
        let roomy = Rehearsal::new(&Job { limit: 65535, ..job.clone() }, &link).unwrap().act.marks.clone();
        assert_eq!(skips.iter().map(|skip| skip.chunk).collect::<Vec<_>>(), film.skipped());
        assert_eq!(watch.slots.len(), link.bytes.len());
        for skip in &skips {
            assert_eq!(skip.due, film.due(skip.chunk));
            // The limit is named exactly where it is a cause.
            assert_eq!(skip.limit.is_some(), roomy[skip.chunk - 1] & 1 == 1);
            let late = film.size(skip.chunk, 0) - film.sum(skip.chunk, 0);
            assert!(late > 0);
            match skip.cause {
                Cause::Late => assert!(skip.why.starts_with(&format!("late by {late} byte"))),
                Cause::Limit => assert!(skip.limit.is_some() && skip.why.starts_with("late by"), "{skip:?}"),
                // Somebody later is there, and this one was not begun.
                Cause::Overtaken => assert!(film.first(skip.chunk).is_none() && skip.why.contains("was begun")),
                Cause::PassedOver => assert!(watch.slots[skip.due - 1].passed.contains(&skip.chunk)),
            }
            causes[skip.cause as usize] += 1;
        }
    }
    println!("passed over, overtaken, late, no place: {causes:?}");
    assert!(causes.iter().all(|n| *n > 20), "{causes:?}");
}

/// No room, and a link that carries all in the second before: the limit is named.
#[test]
fn the_limit_is_named_where_it_is_the_cause() {
    let job = Job { chunks: 2, span: 1, delay: 2, limit: 0, sizes: vec![10], overrides: vec![], forecast: vec![0; 3] };
    let link = Link { name: "l".into(), bytes: vec![99, 0, 0] };
    let (rehearsal, watch) = Rehearsal::watched(&job, &link).unwrap();
    let skips = watch.skips(&rehearsal.act);
    assert_eq!(skips.iter().map(|skip| skip.cause).collect::<Vec<_>>(), [Cause::Limit, Cause::Limit]);
    assert!(skips[0].sentence().contains("the limit of 0 slots holds no chunk"), "{}", skips[0].sentence());
    let roomy = Job { limit: 2, ..job };
    assert_eq!(Rehearsal::new(&roomy, &link).unwrap().figures()[1].skipped, 0);
    // A link that brings nothing leaves nothing unused: no limit is named.
    let dead = Link { name: "l".into(), bytes: vec![0; 3] };
    let (rehearsal, watch) = Rehearsal::watched(&roomy, &dead).unwrap();
    assert!(watch.skips(&rehearsal.act).iter().all(|skip| skip.cause == Cause::Late && skip.limit.is_none()));
}

/// Planning afresh hands its rows to the call in every slot, and is never refused here; on a link
/// that is as the job's forecast from the first slot to the last and has no end, it shows all.
#[test]
fn planning_afresh_goes_on_slot_by_slot() {
    let mut r = Random(5);
    for _ in 0..300 {
        let job = random_job(&mut r);
        let link = random_link(&mut r, job.forecast.len());
        let (way, refused) = ways::afresh(&job, &link.bytes).unwrap();
        assert_eq!(refused, []);
        for slot in 1..=link.bytes.len() {
            let came: u64 = way.list.rows().filter(|row| usize::from(row.slot) == slot).map(|row| u64::from(row.bytes)).sum();
            assert!(came <= link.bytes[slot - 1].into());
        }
        let rich = vec![1000; job.forecast.len()];
        let (way, _) = ways::afresh(&on_link(&job, &rich), &rich).unwrap();
        assert_eq!(way.marks, on_link(&job, &rich).plan().unwrap().marks);
    }
}

#[test]
fn the_longest_freeze_is_the_longest_run() {
    let job = Job { chunks: 6, span: 4, delay: 1, limit: 9, sizes: vec![1], overrides: vec![], forecast: vec![0; 21] };
    let freeze = |marks: &[u8]| Film::new(&job, marks, &film_planner::FetchList::new()).longest_freeze();
    assert_eq!((freeze(&[1; 6]), freeze(&[0; 6]), freeze(&[0, 1, 0, 0, 1, 0]), freeze(&[0, 0, 1, 0, 1, 1])), (0, 24, 8, 8));
}

#[test]
fn means_have_one_place() {
    assert_eq!((mean(7, 1), mean(7, 2), mean(2, 3), mean(12345, 10)), ("7".into(), "3.5".into(), "0.7".into(), "1,234.5".into()));
}

/// The page says what the act did, and asks nobody for anything.
#[test]
fn the_page_stands_alone() {
    let mut r = Random(6);
    for _ in 0..60 {
        let job = random_job(&mut r);
        let mut link = random_link(&mut r, job.forecast.len());
        link.name = "<b>\"a & b\" [[DATA]] </script>".into();
        let (rehearsal, watch) = Rehearsal::watched(&job, &link).unwrap();
        let skips = watch.skips(&rehearsal.act);
        let page = page::html(&rehearsal, &watch, &skips, &rehearsal.figures(), "a [[SKIPS]] </title>");
        let outside = page.replace("http://www.w3.org/2000/svg", "");
        for word in ["http:", "https:", "src=", "href=", "@import", "url(http", "<link", "<b>\"a"] {
            assert!(!outside.contains(word), "{word}");
        }
        assert_eq!(page.matches("</script>").count(), 2);
        let data = page.split("id=\"data\">").nth(1).unwrap().split("</script>").next().unwrap();
        let field = |name: &str| {
            let rest = data.split(&format!("\"{name}\":")).nth(1).unwrap();
            rest.split(",\"").next().unwrap().trim_end_matches('}').to_string()
        };
        let rows: Vec<String> =
            rehearsal.act.list.rows().map(|row| format!("[{},{},{},{}]", row.slot, row.chunk, row.layer, row.bytes)).collect();
        assert_eq!(field("rows"), format!("[{}]", rows.join(",")));
        assert_eq!(field("link"), format!("{:?}", link.bytes).replace(' ', ""));
        assert_eq!(field("skips"), format!("{:?}", skips.iter().map(|skip| skip.due).collect::<Vec<_>>()).replace(' ', ""));
        assert_eq!((field("chunks"), field("last")), (job.chunks.to_string(), link.bytes.len().to_string()));
        assert_eq!(page.matches("<li><b>chunk ").count(), skips.len());
        assert!(page.contains("id=\"c1\""));
    }
}

/// What is kept of an act is little, also where a slot asks for two thousand pieces.
#[test]
fn of_many_pieces_the_first_are_kept() {
    let job = Job { chunks: 500, span: 1, delay: 100, limit: 65535, sizes: vec![9; 4], overrides: vec![], forecast: vec![0; 599] };
    let link = links::synthetic("3g", 30, 1, 599).unwrap();
    let mut watch = Watch::new(&job, &link.bytes).unwrap();
    ways::act(&job, &link.bytes, |act| watch.see(act)).unwrap();
    assert_eq!((watch.slots[0].pieces, watch.slots[0].asked, watch.slots[0].first.len()), (2000, 18000, 12));
}
