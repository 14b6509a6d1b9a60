//! The command line: help and its examples, wrong words, files that are none, closed pipes, desk.
// A text is made line by line, and none is long.
#![allow(clippy::format_collect)]
mod common;
use common::*;

const COMMANDS: [&str; 16] = [
    "make", "show", "plan", "check", "report", "reasons", "draw", "desk", "wait", "limit", "margin", "what-if", "second", "search",
    "rehearse", "replan",
];

/// A folder with the repository's samples in it.
fn with_samples() -> Folder {
    let folder = Folder::new();
    std::os::unix::fs::symlink(root().join("samples"), folder.0.join("samples")).unwrap();
    folder
}

#[test]
fn every_subcommand_has_help_with_examples_that_run() {
    let folder = with_samples();
    let help = folder.film(&["--help"]).good("--help").text();
    assert_eq!(folder.film(&["help"]).text(), help);
    let mut examples = 0;
    for name in COMMANDS {
        assert!(help.contains(&format!("\n  {name:<9} ")), "{name} is not in the help");
        let own = folder.film(&[name, "--help"]).good(name).text();
        assert!(own.starts_with(&format!("film {name} ")), "{own}");
        assert_eq!(folder.film(&[name, "-h"]).text(), own);
        let lines: Vec<&str> = own.lines().filter_map(|line| line.strip_prefix("  film ")).collect();
        assert!(lines.iter().any(|line| line.starts_with(name) && line.contains("samples/flight.txt")), "{name} has no example: {own}");
        for line in lines {
            let answer = folder.shell(&format!("film {line}"));
            assert!(answer.status == 0, "film {line}: {}", answer.err);
            examples += 1;
        }
        assert!(own.lines().all(|line| line.chars().count() <= 100), "{name}: a line of more than 100 columns");
    }
    assert!(help.lines().all(|line| line.chars().count() <= 100));
    println!("{examples} examples of the help run");
}

#[test]
fn wrong_command_lines_end_with_status_2() {
    let folder = with_samples();
    folder.put("job", job_a().write().unwrap());
    let cases: [(&[&str], &str); 21] = [
        (&["wait", "job", "--then", "1", "--trace", "van"], "--then and --trace: one of them"),
        (&[], "film SUBCOMMAND"),
        (&["made"], "made: there is no such subcommand; is make meant?\nThere are make, show"),
        (&["--paint"], "there is no such subcommand"),
        (&["make", "a", "b"], "b: one word too many"),
        (&["check"], "a word is missing"),
        (&["check", "job"], "a word is missing"),
        (&["check", "job", "plan", "plan"], "plan: one word too many"),
        (&["plan", "job", "--texts"], "--texts: there is no such option; is --text meant?"),
        (&["plan", "job", "-text"], "-text: there is no such option"),
        (&["plan", "job", "--out"], "--out: its value is missing"),
        (&["plan", "job", "--text=yes"], "--text takes no value"),
        (&["plan", "job", "--out", "job"], "job would be written over"),
        (&["desk"], "a word is missing"),
        (&["wait", "job", "--then", "-1"], "that is no number"),
        (&["wait", "job", "--then=16777217"], "it is 0 to 16,777,216"),
        (&["wait", "job", "--then", "1,500"], "numbers are digits alone"),
        (&["search", "job", "--seconds", "99999999999999999999999"], "it is 0 to 86,400"),
        (&["search", "job", "--seconds", ""], "that is no number"),
        (&["check", "job", "job", "--from", "0"], ""),
        (&["second", "job"], "a word is missing"),
    ];
    for (words, message) in cases {
        let status = if message.is_empty() { 1 } else { 2 };
        folder.film(words).bad(status, &[message], &words.join(" "));
    }
    // What is no UTF-8 is a word like others.
    let answer = folder.shell("film show $'\\xff\\xfe'");
    assert!(answer.status == 1 && answer.err.contains("there is no such file"), "{}", answer.err);
    let answer = folder.shell("film $'\\xff'");
    assert!(answer.status == 2 && answer.err.contains("no such subcommand"), "{}", answer.err);
    folder.put("-odd", A_TEXT);
    folder.film(&["show", "--", "-odd"]).good("a name behind --");
}

#[test]
fn files_that_are_none_are_told_as_what_they_are() {
    let folder = with_samples();
    folder.put("empty", "").put("job", job_a().write().unwrap());
    let readers = ["make", "show", "plan", "report", "reasons", "desk", "wait", "limit", "margin", "what-if", "search", "rehearse", "draw"];
    for name in readers {
        folder.film(&[name, "nothing"]).bad(1, &["nothing: there is no such file"], name);
        folder.film(&[name, "samples"]).bad(1, &["samples is a folder; a file is wanted"], name);
        folder.film(&[name, "empty"]).bad(1, &["empty is empty"], name);
        folder.film(&[name, "job/x"]).bad(1, &["job/x: Not a directory"], name);
        folder.film(&[name, "/dev/zero"]).bad(1, &["/dev/zero"], name);
        folder.film(&[name, "/dev/urandom"]).bad(1, &["/dev/urandom"], name);
    }
    folder.put("text", "chunks 1\nspan 1\ndelay 3\nlimit 1\nlayer 1\ntrace /dev/zero\n");
    folder.film(&["make", "text"]).bad(1, &["/dev/zero line 1 is"], "a trace without an end");
    folder.film(&["check", "job", "nothing"]).bad(1, &["nothing: there is no such file"], "check");
    folder.film(&["check", "job", "samples"]).bad(1, &["samples is a folder"], "check");
    folder.film(&["check", "job", "/dev/zero"]).bad(1, &["/dev/zero"], "check");
    folder.film(&["make", "job", "--out", "samples"]).bad(1, &["samples cannot be written"], "a folder as result");
    folder.film(&["make", "job", "--out", "no/where"]).bad(1, &["no/where cannot be written"], "no folder for the result");
    folder.put("mine", &job_a().write().unwrap()[..71]);
    folder.film(&["show", "mine"]).bad(1, &["mine: this is no job file in one sequence", "refusal 1: "], "cut short");
    let mut long = job_a().write().unwrap();
    long.extend(vec![0; 70_000]);
    folder.put("mine", long);
    folder.film(&["show", "mine"]).bad(1, &["refusal 9: A file above 65,536 bytes"], "too long");
}

#[test]
fn closed_pipes_and_full_disks_end_quietly_or_with_a_word() {
    let folder = with_samples();
    let lines = [
        "make samples/flight.txt",
        "show samples/flight.txt",
        "plan samples/flight.txt",
        "plan samples/flight.txt --text",
        "report samples/flight.txt",
        "reasons samples/flight.txt",
        "limit samples/flight.txt",
        "what-if samples/flight.txt",
        "--help",
        "plan --help",
    ];
    for line in lines {
        let answer = folder.shell(&format!("film {line} > /dev/full"));
        assert!(answer.status == 1 && answer.err == "film: standard output: No space left on device\n", "{line}: {}", answer.err);
        let answer = folder.shell(&format!("film {line} | true"));
        assert!(answer.status == 0 && answer.err.is_empty(), "{line}: {}", answer.err);
        let answer = folder.shell(&format!("set -o pipefail; film {line} >&- 2>&-"));
        assert!(answer.status <= 1, "{line}");
    }
    let answer = folder.shell("film plan samples/flight.txt --text | head -1");
    assert_eq!((answer.status, answer.text().as_str(), answer.err.as_str()), (0, "slot 1: chunk 1 layer 0, 76,000 bytes\n", ""));
    let answer = folder.shell("film show nothing 2> /dev/full");
    assert_eq!(answer.status, 1);
    let answer = folder.shell("cat samples/flight.txt | film limit | head -1");
    assert_eq!(answer.text(), "smallest limit that skips no picture: 36 (6 chunks held)\n");
}

#[test]
fn the_desk_makes_six_files() {
    let folder = with_samples();
    let answer = folder.film(&["desk", "samples/flight.txt"]).good("desk");
    let job = film_planner::Job::read(&folder.get("desk/flight/job")).unwrap();
    let plan = job.plan().unwrap();
    assert_eq!(folder.get("desk/flight/plan"), job.write_plan(&plan.marks, &plan.list).unwrap());
    assert_eq!(folder.get("desk/flight/verdict"), b"verdict 0\n");
    assert_eq!(folder.get("desk/flight/report"), job.report().unwrap().as_bytes());
    assert_eq!(folder.get("desk/flight/reasons"), job.reasons().unwrap().as_bytes());
    assert_eq!(
        folder.get("desk/flight/plan.svg"),
        std::fs::read(root().join("docs/flight.svg")).unwrap(),
        "docs/flight.svg is another picture"
    );
    assert_eq!(folder.get("desk/flight/job"), folder.film(&["make", "samples/flight.txt"]).out);
    // The README shows the lines that it prints.
    let readme = std::fs::read_to_string(root().join("README.md")).unwrap();
    let lines: String = answer.text().lines().map(|line| format!("    {line}\n")).collect();
    assert!(readme.contains(&lines), "the README has other lines: {}", answer.text());
    // Once more, in the same folder and in another one; never over its own input.
    folder.film(&["desk", "samples/flight.txt"]).good("once more");
    folder.film(&["desk", "samples/a.job", "deep/er"]).good("another folder");
    assert_eq!(folder.get("deep/er/job"), std::fs::read(root().join("samples/a.job")).unwrap());
    let words = folder.film(&["desk", "deep/er/job", "deep/er"]).bad(
        1,
        &["deep/er/job would be written over; name another folder"],
        "its own input",
    );
    assert!(words.out.is_empty() && folder.get("deep/er/job").len() == 72);
    folder.put("bad.txt", A_TEXT.replace("chunks 3", "chunks 501"));
    folder.film(&["desk", "bad.txt"]).bad(1, &["bad.txt line 1: chunks 501"], "a bad text");
    assert!(!folder.0.join("desk/bad").exists());
    folder.film(&["desk", "samples/a.job", "bad.txt"]).bad(1, &["bad.txt cannot be made"], "a file as folder");
}

/// Words in any order: an answer, or a message and status 1 or 2.
#[test]
fn random_command_lines_never_panic() {
    let (folder, mut random) = (with_samples(), Random(20));
    let tight = random.tight_job();
    folder.put("job", job_a().write().unwrap()).put("text", A_TEXT).put("rows", "1 2 0 2\n1 2 1 1\n5 3 0 2\n").put("empty", "");
    folder.put("tight", tight.write().unwrap()).put("van", "0\n900\n1500\n4200\n").put("crlf", "1\r\n").put("junk", [0, 255, 80, 71, 10]);
    folder.put("plan", job_a().write_plan(&[0, 3, 1], &job_a().plan().unwrap().list).unwrap());
    let options = [
        "--text",
        "--out",
        "--from",
        "--then",
        "--trace",
        "--limit",
        "--delay",
        "--layers",
        "--at",
        "--fetched",
        "--rate",
        "--slots",
        "--seconds",
        "--title",
        "--link",
        "--seed",
        "--",
        "-",
        "--out=x",
        "--at=3",
        "--fetched=rows",
        "--limit=0..6/2",
        "--help",
        "--links",
    ];
    let values = [
        "job",
        "text",
        "rows",
        "plan",
        "empty",
        "tight",
        "van",
        "crlf",
        "junk",
        "nothing",
        "samples",
        "0",
        "1",
        "2",
        "3",
        "5",
        "-1",
        "65536",
        "99999999999999999999",
        "1..3",
        "3..1",
        "1,2",
        "",
        "x",
        "\u{e9}",
        "3g",
        "steady",
        "50%",
        "new",
        "samples/a.job",
    ];
    let (mut good, mut bad) = (0, 0);
    for _ in 0..2500 {
        let mut words = vec![*random.one(&COMMANDS)];
        if random.chance(70) {
            words.push(*random.one(&["job", "text", "tight", "samples/a.job"]));
        }
        for _ in 0..random.from(0, 5) {
            words.push(if random.chance(50) { *random.one(&options) } else { *random.one(&values) });
        }
        let answer = folder.film(&words);
        let case = words.join(" ");
        match answer.status {
            0 => good += 1,
            1 | 2 => {
                assert!(answer.err.contains("film: ") && !answer.err.contains("panicked"), "{case}: {}", answer.err);
                bad += 1;
            }
            _ => panic!("{case}: status {} {}", answer.status, answer.err),
        }
    }
    println!("2,500 random command lines: {good} answered, {bad} told what is wrong");
}
