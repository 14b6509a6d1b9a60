//! Every subcommand against the calls.
// Random numbers are drawn from within the range that they are cut to.
#![allow(clippy::cast_possible_truncation)]
// A text is made line by line, and none is long.
#![allow(clippy::format_collect)]
// Both arms of a test read as one table.
#![allow(clippy::single_match_else)]
mod common;
use common::*;
use film_planner::{FetchList, Job, Plan, Row, Verdict};

fn skipped(plan: &Plan) -> Vec<u16> {
    (1..).zip(&plan.marks).filter(|(_, mark)| *mark & 1 == 0).map(|(i, _)| i).collect()
}

/// The number behind some words of a text.
fn number_after(text: &str, words: &str) -> u64 {
    let at = text.find(words).unwrap_or_else(|| panic!("no `{words}` in: {text}")) + words.len();
    text[at..].chars().take_while(|c| c.is_ascii_digit() || *c == ',').filter(char::is_ascii_digit).collect::<String>().parse().unwrap()
}

fn counts_of(job: &Job, plan: &Plan) -> String {
    plan.counts[..job.sizes.len()].iter().map(u16::to_string).collect::<Vec<_>>().join(" ")
}

/// 7000 as `7,000`.
fn grouped(n: u32) -> String {
    let digits = n.to_string();
    let parts: Vec<&str> = digits.as_bytes().rchunks(3).rev().map(|part| std::str::from_utf8(part).unwrap()).collect();
    parts.join(",")
}

fn by_slot(list: &FetchList) -> String {
    let bytes = |n: u32| format!("{} byte{}", grouped(n), if n == 1 { "" } else { "s" });
    list.rows().map(|r| format!("slot {}: chunk {} layer {}, {}\n", r.slot, r.chunk, r.layer, bytes(r.bytes))).collect()
}

#[test]
fn plans_reports_reasons_and_verdicts_are_those_of_the_calls() {
    let (folder, mut random) = (Folder::new(), Random(1));
    for k in 0..150 {
        let job = match k {
            0 => job_a(),
            1 => largest_job(28),
            _ if k % 2 == 0 => random.tight_job(),
            _ => random.job(40),
        };
        let plan = job.plan().unwrap();
        let file = job.write_plan(&plan.marks, &plan.list).unwrap();
        folder.put("job", job.write().unwrap());
        assert_eq!(folder.film(&["plan", "job"]).out, file);
        let rows = folder.film(&["plan", "job", "--text"]);
        assert_eq!(rows.text(), by_slot(&plan.list));
        assert_eq!(folder.film(&["report", "job"]).text(), job.report().unwrap());
        assert_eq!(folder.film(&["reasons", "job"]).text(), job.reasons().unwrap());
        folder.put("plan", &file).put("rows", &rows.out);
        let numbers: String = plan.list.rows().map(|r| format!("{} {} {} {}\n", r.slot, r.chunk, r.layer, r.bytes)).collect();
        folder.put("numbers", numbers);
        for list in ["plan", "rows", "numbers"] {
            let answer = folder.film(&["check", "job", list]);
            assert!(answer.status == 0 && answer.text() == "verdict 0\n", "{list}: {}", answer.err);
        }
    }
}

#[test]
fn each_rule_is_told_with_its_place() {
    let folder = Folder::new();
    let job = job_a();
    folder.put("job", job.write().unwrap());
    let cases: [(u8, &[[u32; 4]], &str, &str); 8] = [
        (1, &[[1, 2, 0, 2], [7, 3, 0, 2]], "row 2: slot 7 chunk 3 layer 0 bytes 2", "Slot 1 to d(C)"),
        (1, &[[1, 1, 255, 1]], "row 1: slot 1 chunk 1 layer 255 bytes 1", "Slot 1 to d(C)"),
        (2, &[[1, 2, 0, 2], [1, 2, 1, 1], [5, 3, 0, 1]], "chunk 3 layer 0: 1 of 2 bytes", "sums to 0 or its full size"),
        (3, &[[1, 2, 1, 1], [5, 3, 0, 2]], "chunk 2 layer 1", "has the layer below carried"),
        (4, &[[1, 2, 0, 2], [1, 2, 1, 1], [6, 3, 0, 2]], "slot 6: 2 bytes, and the forecast is 0", "at most B(slot)"),
        (5, &[[5, 2, 0, 2]], "row 1: slot 5 chunk 2 layer 0 bytes 2, and chunk 2 is due in slot 4", "No row is later"),
        (6, &[[1, 2, 0, 2], [1, 2, 1, 1], [3, 3, 0, 1], [5, 3, 0, 1]], "slot 3: 2 held, and H is 1", "at most H chunks are held"),
        (0, &[[1, 2, 0, 2], [1, 2, 1, 1], [5, 3, 0, 2]], "", ""),
    ];
    for (rule, rows, place, sentence) in cases {
        let list: FetchList = rows.iter().map(|r| Row::new(r[0] as u16, r[1] as u16, r[2] as u8, r[3])).collect();
        folder.put("rows", rows.iter().map(|r| format!("{} {} {} {}\n", r[0], r[1], r[2], r[3])).collect::<String>());
        let answer = folder.film(&["check", "job", "rows"]);
        assert_eq!(answer.text(), format!("verdict {rule}\n"));
        assert_eq!(answer.status, i32::from(rule != 0));
        assert!(
            answer.err.contains(place) && answer.err.contains(sentence) && (rule == 0 || answer.err.contains(&format!("rule {rule}: ")))
        );
        // The same as a plan file, with the marks that the rows give.
        let marks: Vec<u8> = (1..=3u16)
            .map(|i| {
                (0..2u8)
                    .filter(|n| {
                        list.rows().filter(|r| (r.chunk, r.layer) == (i, *n)).map(|r| r.bytes).sum::<u32>() == [2, 1][usize::from(*n)]
                    })
                    .map(|n| 1 << n)
                    .sum()
            })
            .collect();
        folder.put("plan", job.write_plan(&marks, &list).unwrap());
        assert_eq!(folder.film(&["check", "job", "plan"]).text(), format!("verdict {rule}\n"));
    }
    let plan = job.plan().unwrap();
    folder.put("plan", job.write_plan(&[1, 3, 1], &plan.list).unwrap());
    let answer = folder.film(&["check", "job", "plan"]);
    assert!(answer.status == 1 && answer.text() == "verdict 7\n" && answer.err.contains("chunk 1: marks 1, and its rows give 0"));
    // Rows before P may leave a layer short.
    folder.put("rows", "1 2 0 1\n5 3 0 2\n");
    assert_eq!(folder.film(&["check", "job", "rows"]).text(), "verdict 2\n");
    assert_eq!(folder.film(&["check", "job", "rows", "--from", "2"]).good("from 2").text(), "verdict 0\n");
    folder.put("marks", &job.write_plan(&plan.marks, &plan.list).unwrap()[..14]);
    folder.film(&["check", "job", "marks"]).bad(1, &["refusal 1: "], "a plan cut short");
    folder.film(&["check", "job", "job"]).bad(1, &["job: this is neither a plan file"], "a job as a plan");
}

#[test]
fn the_shortest_wait_is_that_of_the_call() {
    let (folder, mut random) = (Folder::new(), Random(5));
    let (mut within, mut beyond, mut none) = (0, 0, 0);
    for _ in 0..250 {
        let job = random.tight_job();
        folder.put("job", job.write().unwrap());
        let then = random.from(0, 4) as u32;
        let answer = folder.film(&["wait", "job", "--then", &then.to_string()]);
        let text = answer.text();
        let mut long = job.clone();
        long.forecast.resize(3600, then);
        let known = job.wait();
        let wanted = known.or_else(|_| long.wait());
        assert_eq!(text.contains("assumed: "), known.is_err(), "{text}");
        let at = |delay: u16| {
            let mut tried = Job { delay, ..long.clone() };
            tried.forecast.truncate(usize::from(tried.chunks - 1) * usize::from(tried.span) + usize::from(delay));
            tried
        };
        assert_eq!(answer.status, i32::from(wanted.is_err()), "{}", answer.err);
        match wanted {
            Ok(delay) => {
                assert_eq!(number_after(&text, "shortest wait: "), u64::from(delay));
                assert!(skipped(&at(delay).plan().unwrap()).is_empty());
                if delay > 1 {
                    let less = at(delay - 1);
                    let reasons = less.reasons().unwrap();
                    let first = reasons.lines().find(|line| line.contains(" layer 0: ")).unwrap();
                    assert!(text.contains(&format!("why not {}: ", delay - 1)) && text.contains(&format!("  {first}\n")), "{text}");
                }
                if known.is_ok() {
                    within += 1;
                } else {
                    beyond += 1;
                }
            }
            Err(_) => {
                assert!(text.starts_with("no wait works: from 1 to ") && answer.err.contains("refusal 16: "), "{text}");
                none += 1;
            }
        }
    }
    assert!(within > 20 && beyond > 20 && none > 10, "{within} {beyond} {none}");
    // A trace says how far the link is known, and nothing is assumed behind it.
    folder.put("job", Job { forecast: vec![0; 6], ..job_a() }.write().unwrap()).put("van", "3000\n5000\n7000\n");
    assert!(folder.film(&["wait", "job", "--trace", "van"]).good("a trace").text().starts_with("shortest wait: 4 slots"));
    folder.put("van", "5000\n6000\n7000\n");
    let answer = folder.film(&["wait", "job", "--trace", "van"]);
    assert!(answer.status == 1 && answer.text().starts_with("no wait works: from 1 to 4 slots"), "{}", answer.text());
    folder.put("van", "0\n1000\n2000\n");
    folder.film(&["wait", "job", "--trace", "van"]).bad(1, &["no wait works", "refusal 16: ", "3 chunks need 5 slots"], "a short trace");
}

#[test]
fn the_smallest_limit_is_the_smallest_of_all() {
    let (folder, mut random) = (Folder::new(), Random(6));
    let (mut found, mut none) = (0, 0);
    for _ in 0..250 {
        let mut job = random.tight_job();
        if random.chance(60) {
            job.forecast.iter_mut().for_each(|bytes| *bytes *= 4);
        }
        folder.put("job", job.write().unwrap());
        let text = folder.film(&["limit", "job"]).text();
        let at = |limit: u16| Job { limit, ..job.clone() };
        let smallest = (0..=job.chunks * job.span).find(|limit| skipped(&at(*limit).plan().unwrap()).is_empty());
        match smallest {
            Some(limit) => {
                assert_eq!(number_after(&text, "smallest limit that skips no picture: "), u64::from(limit), "{text}");
                if limit > 0 {
                    let reasons = at(limit - job.span).reasons().unwrap();
                    let first = reasons.lines().find(|line| line.contains(" layer 0: ")).unwrap();
                    assert!(text.contains(&format!("  {first}\n")), "{text}");
                }
                found += 1;
            }
            None => {
                assert!(text.starts_with("no limit does: "), "{text}");
                none += 1;
            }
        }
    }
    assert!(found > 20 && none > 20, "{found} {none}");
    let text = folder.film(&["limit", root().join("samples/flight.txt").to_str().unwrap()]).good("the sample").text();
    assert!(text.starts_with("smallest limit that skips no picture: 36 (6 chunks held)\n"), "{text}");
}

#[test]
fn the_margin_is_the_last_permille_before_a_loss() {
    let (folder, mut random) = (Folder::new(), Random(8));
    for _ in 0..120 {
        let mut job = random.tight_job();
        job.forecast.iter_mut().for_each(|bytes| *bytes *= 50);
        job.sizes.iter_mut().for_each(|bytes| *bytes *= 29);
        job.overrides.retain(|o| o.bytes != job.sizes[usize::from(o.layer)]);
        folder.put("job", job.write().unwrap());
        let answer = folder.film(&["margin", "job"]);
        assert_eq!(answer.status, 0, "{}", answer.err);
        let (text, shown) = (answer.text(), job.plan().unwrap().counts[0]);
        let at = |permille: u64| {
            let forecast = job.forecast.iter().map(|bytes| (u64::from(*bytes) * (1000 - permille) / 1000) as u32).collect();
            Job { forecast, ..job.clone() }.plan().unwrap().counts[0]
        };
        match (1..=1000).find(|permille| at(*permille) < shown) {
            Some(permille) => {
                match permille {
                    1 => assert!(text.starts_with("the link may not fall at all"), "{text}"),
                    _ => assert_eq!(number_after(&text, " % ("), permille - 1, "{text}"),
                }
                assert!(text.contains(&format!("at {}.{} % a picture is lost", permille / 10, permille % 10)), "{text}");
            }
            None => assert!(shown == 0 && text.starts_with("nothing to lose: "), "{text}"),
        }
        let even = job.overrides.iter().all(|o| o.layer != 0);
        assert!(shown == 0 || text.contains("not fall at all") || text.contains("request 10") == even, "{text}");
    }
}

#[test]
fn the_table_has_the_plans_of_its_jobs() {
    let (folder, mut random) = (Folder::new(), Random(9));
    for _ in 0..40 {
        let job = random.tight_job();
        folder.put("job", job.write().unwrap());
        let then = random.from(0, 6) as u32;
        let layers = format!("1..{}", job.sizes.len());
        let words = ["what-if", "job", "--limit", "0..12/4,5", "--delay=1,2..6/2,9", "--layers", &layers, "--then", &then.to_string()];
        let answer = folder.film(&words);
        assert_eq!(answer.status, 0, "{}", answer.err);
        let text = answer.text();
        let mut lines = text.lines().skip(1);
        for limit in [0, 4, 8, 12, 5] {
            for delay in [1, 2, 4, 6, 9] {
                for count in 1..=job.sizes.len() {
                    let mut tried = Job { limit, delay, ..job.clone() };
                    tried.sizes.truncate(count);
                    tried.overrides.retain(|o| usize::from(o.layer) < count);
                    tried.forecast.resize(usize::from(job.chunks - 1) * usize::from(job.span) + usize::from(delay), then);
                    let plan = tried.plan().unwrap();
                    let bytes: u32 = plan.list.rows().map(|row| row.bytes).sum();
                    let left = tried.forecast.iter().sum::<u32>() - bytes;
                    let line: Vec<&str> = lines.next().unwrap().trim_end_matches('*').split_whitespace().collect();
                    let head = [limit, limit / job.span, delay, count as u16, plan.counts[0], skipped(&plan).len() as u16];
                    assert_eq!(line[..6], head.map(|n| n.to_string()), "{text}");
                    assert_eq!(line[7..line.len() - 1].join(" "), counts_of(&tried, &plan), "{text}");
                    assert_eq!(line[line.len() - 1].replace(',', ""), left.to_string(), "{text}");
                }
            }
        }
    }
    folder.put("job", job_a().write().unwrap());
    for (words, message) in [
        (vec!["--limit", "1..99999"], "it is 0 to 65,535"),
        (vec!["--limit", "5..1"], "the range begins above its end"),
        (vec!["--limit", "1,,2"], "that is no number"),
        (vec!["--limit", "0..60000"], "at most 2,000 rows"),
        (vec!["--limit", "0..1000", "--delay", "1..1000"], "at most 2,000 rows"),
        (vec!["--limit", "7/2"], "a step stands behind a range"),
        (vec!["--limit", "1..7/0"], "--limit 0: it is 1 to"),
        (vec!["--layers", "3"], "it is 1 to 2"),
        (vec!["--delay", "3597"], "it is 1 to 3,596"),
    ] {
        folder.film(&[vec!["what-if", "job"], words.clone()].concat()).bad(2, &[message], message);
    }
}

#[test]
fn plans_made_afresh_are_those_of_the_call() {
    let (folder, mut random) = (Folder::new(), Random(12));
    for _ in 0..150 {
        let job = random.tight_job();
        let whole = job.plan().unwrap();
        let p = random.from(1, job.forecast.len() as u64) as u16;
        let before: FetchList = whole.list.rows().filter(|row| row.slot < p).collect();
        let rate = random.from(0, 9) as u32;
        let onward = vec![rate; job.forecast.len() + 1 - usize::from(p)];
        let wanted = job.replan(p, &before, &onward).unwrap();
        folder.put("job", job.write().unwrap()).put("rows", by_slot(&whole.list));
        let (at, by) = (p.to_string(), rate.to_string());
        let answer = folder.film(&["replan", "job", "--at", &at, "--fetched", "rows", "--rate", &by, "--text", "--out", "plan"]);
        assert_eq!(answer.status, 0, "{}", answer.err);
        let text = answer.text();
        assert!(text.starts_with(&format!("plan afresh at slot {p}: layers {}, ", counts_of(&job, &wanted))), "{text}");
        assert!(text.ends_with(&by_slot(&wanted.list)), "{text}");
        let joined_job = Job { forecast: job.forecast[..usize::from(p) - 1].iter().chain(&onward).copied().collect(), ..job.clone() };
        let joined = joined_job.read_plan(&folder.get("plan")).unwrap();
        assert_eq!(joined_job.check_from(p, &joined.marks, &joined.list).unwrap(), Verdict::Passes);
        assert_eq!((joined.marks, joined.list.len()), (wanted.marks, before.len() + wanted.list.len()));
        folder.put("joined", joined_job.write().unwrap());
        assert_eq!(folder.film(&["check", "joined", "plan", "--from", &at]).text(), "verdict 0\n");
        // Without another link the standing plan goes on, wherever it was settled in document 01's
        // way.
        let text = folder.film(&["replan", "job", "--at", &at, "--fetched", "rows", "--text"]).text();
        assert!(text.ends_with(&by_slot(&job.replan(p, &before, &job.forecast[usize::from(p) - 1..]).unwrap().list)));
    }
    folder.put("job", job_a().write().unwrap()).put("rows", "1 2 0 2\n").put("late", "3 1 0 1\n").put("odd", "slot 1: chunk x\n1 2\n");
    folder.put("van", "1000\n4000\n").put("empty", "");
    folder.film(&["replan", "job", "--at", "3"]).bad(2, &["--at P and --fetched FILE are needed"], "no rows");
    folder.film(&["replan", "job", "--at", "7", "--fetched", "rows"]).bad(2, &["it is 1 to 6"], "slot 7");
    folder.film(&["replan", "job", "--at", "5", "--fetched", "late"]).bad(
        1,
        &["refusal 22: ", "and chunk 1 is due in slot 2\n", "rule 5: "],
        "a late row",
    );
    folder.put("order", "1 3 0 2\n3 2 0 1\n");
    let wide = Job { limit: 6, ..job_a() };
    folder.put("wide", wide.write().unwrap());
    folder.film(&["replan", "wide", "--at", "5", "--fetched", "order"]).bad(
        1,
        &["refusal 22: ", "chunk 3 is begun in slot 1, before chunk 2"],
        "order",
    );
    folder.put("more", "2 2 0 1\n");
    folder.film(&["replan", "job", "--at", "5", "--fetched", "more"]).bad(
        1,
        &["refusal 22: ", "rule 4: ", "what it brought"],
        "more than forecast",
    );
    folder.put("rows", "1 2 0 2\n");
    folder.film(&["replan", "job", "--at", "5", "--fetched", "odd"]).bad(1, &["odd line 1: ", "odd line 2: "], "odd rows");
    folder.film(&["replan", "job", "--at", "5", "--fetched", "rows", "--rate", "1", "--trace", "van"]).bad(2, &["one of them"], "both");
    let answer = folder.film(&["replan", "job", "--at", "3", "--fetched", "empty", "--trace", "van"]);
    assert!(answer.status == 0 && answer.text().contains("of the 1,500 that the link brings"), "{} {}", answer.text(), answer.err);
}

#[test]
fn the_second_film_is_planned_on_what_the_first_leaves() {
    let (folder, mut random) = (Folder::new(), Random(13));
    for k in 0..120 {
        let first = random.tight_job();
        // Another film of the same last due slot.
        let last = first.forecast.len() as u16;
        let chunks = random.from(1, 5) as u16;
        let span = random.from(1, 3) as u16;
        let (chunks, span) = if (chunks - 1) * span < last { (chunks, span) } else { (1, 1) };
        let mut second = Job {
            chunks,
            span,
            delay: last - (chunks - 1) * span,
            limit: 5,
            sizes: vec![2, 1],
            overrides: vec![],
            forecast: vec![0; usize::from(last)],
        };
        let plan = first.plan().unwrap();
        let mut left = first.clone();
        left.book(&plan.marks, &plan.list).unwrap();
        folder.put("first", first.write().unwrap());
        if k % 2 == 0 {
            folder.put("second", second.write().unwrap());
        } else {
            let limit = second.limit;
            folder.put("second", format!("chunks {chunks}\nspan {span}\ndelay {}\nlimit {limit}\nlayer 2\nlayer 1\n", second.delay));
        }
        second.forecast = left.forecast;
        let wanted = second.plan().unwrap();
        let answer = folder.film(&["second", "first", "second", "--text", "--slots", "--out-job", "job", "--out-plan", "plan"]);
        assert_eq!(answer.status, 0, "{}", answer.err);
        let text = answer.text();
        assert!(
            text.contains(&format!(" bytes  layers {}, ", counts_of(&second, &wanted))) && text.ends_with(&by_slot(&wanted.list)),
            "{text}"
        );
        assert_eq!(folder.get("job"), second.write().unwrap());
        assert_eq!(folder.get("plan"), second.write_plan(&wanted.marks, &wanted.list).unwrap());
        let book: Vec<u64> =
            text.lines().take(4).map(|line| number_after(line.trim_start_matches(|c: char| !c.is_ascii_digit()), "")).collect();
        assert_eq!(book[0] + book[1] + book[2], book[3], "{text}");
        for t in 1..=last {
            let slot = text.lines().find(|line| line.starts_with(&format!("slot {t}: forecast "))).unwrap();
            let parts = ["forecast ", "first ", "second ", "left "].map(|word| number_after(slot, word));
            assert_eq!(parts[0], u64::from(first.forecast[usize::from(t) - 1]));
            assert_eq!(parts[1] + parts[2] + parts[3], parts[0], "{slot}");
        }
    }
    folder.put("first", job_a().write().unwrap()).put("second", "chunks 2\nspan 1\ndelay 1\nlimit 1\nlayer 1\n");
    folder.film(&["second", "first", "second"]).bad(1, &["both films need the same last due slot"], "another last slot");
    folder.put("second", Job { delay: 3, forecast: vec![0; 7], ..job_a() }.write().unwrap());
    folder.film(&["second", "first", "second"]).bad(1, &["both films need the same last due slot"], "another last slot");
}

#[test]
fn the_search_ends_where_the_call_ends() {
    let (folder, mut random) = (Folder::new(), Random(14));
    for _ in 0..120 {
        let job = random.tight_job();
        let wanted = job.search(u32::MAX).unwrap();
        assert!(wanted.ended);
        folder.put("job", job.write().unwrap());
        let answer = folder.film(&["search", "job", "--text", "--out", "plan"]);
        assert!(answer.status == 0 && answer.err.contains(" tried, "), "{}", answer.err);
        let text = answer.text();
        assert!(text.starts_with(&format!("search: layers {}, ", counts_of(&job, &wanted.plan))), "{text}");
        assert!(text.ends_with(&by_slot(&wanted.plan.list)));
        assert_eq!(folder.get("plan"), job.write_plan(&wanted.plan.marks, &wanted.plan.list).unwrap());
    }
    // Time is up: no later than asked for, by much.
    let start = std::time::Instant::now();
    let flight = root().join("samples/flight.txt");
    let answer = folder.film(&["search", flight.to_str().unwrap(), "--seconds", "1"]);
    assert!(answer.status == 0 && answer.text().contains("shows at most 2 more"), "{}", answer.text());
    assert!(start.elapsed().as_secs() < 60);
}
