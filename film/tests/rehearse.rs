//! `film rehearse` by the command: its table against the calls, many links, wrong input, and the page
//! that it writes.
// Random numbers are drawn from within the range that they are cut to.
#![allow(clippy::cast_possible_truncation)]
// A text is made line by line, and none is long.
#![allow(clippy::format_collect)]
mod common;
use common::*;
use film_planner::{Act, Job};

const FLIGHT: &str = "samples/flight.txt";

fn with_samples() -> Folder {
    let folder = Folder::new();
    std::os::unix::fs::symlink(root().join("samples"), folder.0.join("samples")).unwrap();
    folder
}

/// The numbers of a table's line, separators and units left out.
fn numbers(line: &str) -> Vec<u64> {
    line.replace(',', "").split_whitespace().filter_map(|word| word.parse().ok()).collect()
}

#[test]
fn the_table_has_the_figures_of_the_calls() {
    let folder = with_samples();
    let mut random = Random(41);
    for k in 0..40 {
        let job = if k == 0 { Job::read(&folder.film(&["make", FLIGHT]).out).unwrap() } else { random.tight_job() };
        let job = Job { limit: job.limit.max(job.span), ..job };
        folder.put("job", job.write().unwrap());
        let table = folder.film(&["rehearse", "job", "--trace", "job"]).good("the job's own forecast as the link").text();
        let line = |start: &str| numbers(table.lines().find(|line| line.trim_start().starts_with(start)).unwrap());
        let plan = job.plan().unwrap();
        let layers = job.sizes.len();
        let report = job.report().unwrap();
        let switch = numbers(report.lines().find(|line| line.starts_with("switch")).unwrap())[0];
        let known = line("the plan that knew the link");
        assert_eq!(known[0], u64::from(job.chunks - plan.counts[0]));
        assert_eq!(known[2..2 + layers], plan.counts[..layers].iter().map(|n| u64::from(*n)).collect::<Vec<_>>());
        assert_eq!(known[2 + layers..], [switch, 0]);
        let mut act = Act::new(job.clone()).unwrap();
        job.forecast.iter().for_each(|bytes| act.brought(*bytes));
        let shown = act.shown();
        let own = line("the act, live");
        assert_eq!(own[0], u64::from(job.chunks - shown.counts[0]));
        assert_eq!(own[2..2 + layers], shown.counts[..layers].iter().map(|n| u64::from(*n)).collect::<Vec<_>>());
        let reasons = table.lines().filter(|line| line.starts_with("chunk ")).count() as u64;
        assert_eq!(reasons, own[0].min(30), "{table}");
    }
}

#[test]
fn the_forms_of_a_link_are_one_link() {
    let folder = with_samples();
    let job =
        Job { chunks: 3, span: 2, delay: 2, limit: 4, sizes: vec![1500], overrides: vec![], forecast: vec![1500, 0, 3000, 0, 0, 1500] };
    folder.put("job", job.write().unwrap());
    folder.put("trace", "0\n2000\n2999\n5500\n").put("text", "# a link\nforecast 1500 0 3000\nforecast 2 x 0\r\nforecast 1500");
    let table = |words: &[&str]| {
        let answer = folder.film(&[&["rehearse", "job"], words].concat()).good("a link").text();
        answer.lines().filter(|line| line.starts_with("  ")).map(String::from).collect::<Vec<_>>()
    };
    let wanted = table(&["--trace", "job"]);
    assert_eq!(wanted.len(), 4);
    assert_eq!(table(&["--trace", "trace"]), wanted);
    assert_eq!(table(&["--trace", "text"]), wanted);
    assert_eq!(table(&["text"]), wanted);
    // Several, also after one another as a shell names them, and the mean of alike ones is the same.
    let three = folder.film(&["rehearse", "job", "--trace", "job", "trace", "--trace=text"]);
    assert!(three.status == 0 && three.err.lines().all(|line| line.starts_with("rehearsed ")), "{}", three.err);
    assert_eq!(three.text().lines().filter(|line| line.trim_start().starts_with("the act, live")).count(), 4);
    assert!(three.text().contains("\nmean of 3 links\n"));
}

#[test]
fn seeds_and_kinds() {
    let folder = with_samples();
    let run = |words: &str| folder.shell(&format!("film rehearse {FLIGHT} {words} 2>/dev/null")).text();
    let five = run("--link 3g 150% --links 5 --seed 7");
    assert_eq!(five, run("--link 3g 150% --links 5 --seed 7"));
    assert!(five.ends_with('\n') && five.contains("mean of 5 links"));
    // Each of them by itself is the same link.
    let alone = run("--link 3g 150% --seed 9");
    let block: Vec<&str> = alone.lines().skip(1).take(4).collect();
    assert!(five.contains(&block.join("\n")), "{five}\n{alone}");
    assert_ne!(run("--link 3g 150% --seed 9"), run("--link 3g 150% --seed 10"));
    for kind in ["3g", "lte", "walk", "tunnel", "steady", "LTE"] {
        assert!(run(&format!("--link {kind} 60000")).contains("the act, live"), "{kind}");
    }
    // A link that brings all shows all.
    assert!(run("--link steady 16777216").contains("The act skipped nothing."));
}

#[test]
fn the_page_is_of_the_link_that_is_named() {
    let folder = with_samples();
    let run = |words: &str| folder.shell(&format!("film rehearse {FLIGHT} {words} 2>/dev/null"));
    assert_eq!(run("--link 3g 150% --links 3 --page all.html --page-of 2").status, 0);
    assert_eq!(run("--link 3g 150% --seed 2 --page one.html").status, 0);
    assert_eq!(folder.get("all.html"), folder.get("one.html"));
    assert!(String::from_utf8(folder.get("one.html")).unwrap().contains("seed 2: "));
    assert_eq!(run("--link 3g 150% --links 3 --page first.html").status, 0);
    assert_ne!(folder.get("first.html"), folder.get("one.html"));
}

#[test]
fn wrong_links_are_told() {
    let folder = with_samples();
    std::fs::create_dir(folder.0.join("folder")).unwrap();
    let texts = [
        ("crlf", "1\n2\r\n"),
        ("open", "1\n2"),
        ("falls", "5\n4\n"),
        ("six", "forecast 5\nforecast 6x3\n"),
        ("parted", "forecast 4,000\n"),
        ("hello", "hello\n"),
        ("long", "forecast 3600 x 1\nforecast 1\n"),
        ("halfjob", "chunks 3\nspan 0\n"),
    ];
    for (name, text) in &texts {
        folder.put(name, text);
    }
    let cases: [(&str, i32, &str); 27] = [
        ("", 2, "--trace FILE or --link KIND RATE is needed"),
        ("--trace", 2, "its value is missing"),
        ("--trace nothing", 1, "nothing: there is no such file"),
        ("--trace folder", 1, "folder is a folder"),
        ("--trace -", 2, "standard input is for the job"),
        ("--trace crlf", 1, "crlf line 2 ends in CR LF"),
        ("--trace open", 1, "lacks its line feed"),
        ("--trace falls", 1, "falls line 2"),
        ("--trace six", 1, "six line 2: forecast 6x3\na run stands on a line of its own and has spaces"),
        ("--trace parted", 1, "4000, not 4,000"),
        ("--trace hello", 1, "hello line 1: hello"),
        ("--trace long", 1, "more than 3,600 slots"),
        ("--trace halfjob", 1, "halfjob line 2"),
        ("--link 5g 100", 2, "there are 3g, lte, walk, tunnel, steady"),
        ("--link 3g", 2, "its value is missing"),
        ("--link 3g fast", 2, "try 150%"),
        ("--link 3g -5", 2, "is no rate"),
        ("--link 3g 16777217", 2, "is no rate"),
        ("--link 3g 1 --links 0", 2, "it is 1 to 1,000,000"),
        ("--link 3g 1 --links many", 2, "that is no number"),
        ("--link 3g 1 --seed -1", 2, "that is no number"),
        ("--links 3", 2, "there is no --link KIND RATE"),
        ("--link 3g 1 --page-of 1", 2, "--page FILE is needed too"),
        ("--link 3g 1 --page-of 2 --page x.html", 2, "it is 1 to 1"),
        ("--link 3g 1 --page samples/../samples/flight.txt", 2, "would be written over"),
        ("--trace six --page six", 2, "would be written over"),
        ("--link 3g 1 --paint", 2, "there is no such option"),
    ];
    for (words, status, message) in cases {
        let words: Vec<&str> = ["rehearse", FLIGHT].into_iter().chain(words.split_whitespace()).collect();
        folder.film(&words).bad(status, &[message], &words.join(" "));
    }
    for page in ["folder", "nowhere/x.html"] {
        let answer = folder.film(&["rehearse", FLIGHT, "--link", "3g", "1", "--page", page]);
        assert!(answer.status == 1 && answer.err.contains("cannot be written"), "{}", answer.err);
    }
}

#[test]
fn a_link_that_ends_early_is_warned_of() {
    let folder = with_samples();
    folder.put("short", "forecast 10 x 90000\n").put("empty", "").put("remark", "# nothing\n");
    for (name, words) in
        [("short", "short has 10 slots: from slot 11 to 186"), ("empty", "empty is empty"), ("remark", "remark has 0 slots")]
    {
        let answer = folder.film(&["rehearse", FLIGHT, "--trace", name]);
        assert!(answer.status == 0 && answer.err.contains(words), "{}", answer.err);
    }
    let long = "forecast 3600 x 90000\n";
    folder.put("long", long);
    folder.film(&["rehearse", FLIGHT, "--trace", "long"]).good("what is too long is cut");
}

/// Random and damaged links end with an answer or a message.
#[test]
fn damaged_links_never_panic() {
    let folder = with_samples();
    let mut random = Random(43);
    let texts = ["forecast 5 6 7\nforecast 3 x 8\n", "0\n5\n1000\n77777\n", "chunks 2\nspan 1\ndelay 1\nlimit 1\nlayer 5\nforecast 1 2\n"];
    let (mut read, mut told) = (0, 0);
    for _ in 0..300 {
        let mut data = random.one(&texts).as_bytes().to_vec();
        for _ in 0..random.from(1, 3) {
            let at = random.from(0, data.len() as u64 - 1) as usize;
            match random.from(0, 2) {
                0 => data[at] = random.from(0, 255) as u8,
                1 => data.truncate(at.max(1)),
                _ => data.insert(at, *random.one(b"0 x\n#9f\0\r")),
            }
        }
        folder.put("link", &data);
        let answer = folder.film(&["rehearse", "samples/a.job", "--trace", "link"]);
        assert!(!answer.err.contains("panicked"), "{data:?}: {}", answer.err);
        match answer.status {
            0 => read += 1,
            1 => told += 1,
            other => panic!("status {other} on {data:?}"),
        }
    }
    assert!(read > 10 && told > 50, "{read} {told}");
}

#[test]
fn a_text_may_go_without_a_forecast() {
    let folder = with_samples();
    let flight = String::from_utf8(folder.get(FLIGHT)).unwrap();
    let bare: String = flight.lines().filter(|line| !line.starts_with("forecast")).map(|line| format!("{line}\n")).collect();
    folder.put("bare.txt", &bare);
    let lines = |job: &str| {
        let table = folder.film(&["rehearse", job, "--link", "walk", "150%"]).good(job).text();
        table.lines().filter(|line| !line.contains("planning afresh")).map(String::from).collect::<Vec<_>>()
    };
    assert_eq!(lines("bare.txt"), lines(FLIGHT));
    folder.put("bare.txt", bare.replace("span 6", "span 0"));
    folder.film(&["rehearse", "bare.txt", "--link", "walk", "150%"]).bad(1, &["bare.txt line 3: span 0"], "a text with a fault");
    folder.put("bare.txt", bare.replace("delay 12", ""));
    folder.film(&["rehearse", "bare.txt", "--link", "walk", "150%"]).bad(1, &["there is no delay"], "a text without a delay");
}
