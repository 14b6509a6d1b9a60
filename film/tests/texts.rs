//! The text of a job and traces: inverse, loosely typed, faulty, damaged.
// Random numbers are drawn from within the range that they are cut to.
#![allow(clippy::cast_possible_truncation)]
// A text is made line by line, and none is long.
#![allow(clippy::format_collect)]
// Both arms of a test read as one table.
#![allow(clippy::match_bool)]
mod common;
use common::*;
use film_planner::{read_trace, Job, Refusal};

/// The job's text as somebody might type it: kinds in any order, runs cut anywhere, spaces,
/// comments, leading zeros.
fn loose(random: &mut Random, job: &Job) -> String {
    fn number(random: &mut Random, n: u32) -> String {
        format!("{}{n}", random.one(&["", "", "", "0", "00000000000000"]))
    }
    let mut kinds: Vec<Vec<String>> = Vec::new();
    for (kind, n) in [("chunks", job.chunks), ("span", job.span), ("delay", job.delay), ("limit", job.limit)] {
        kinds.push(vec![format!("{kind} {}", number(random, n.into()))]);
    }
    kinds.push(job.sizes.iter().map(|z| format!("layer {}", number(random, *z))).collect());
    let size = |o: &film_planner::Override, random: &mut Random| {
        format!("size {} {} {}", number(random, o.chunk.into()), number(random, o.layer.into()), number(random, o.bytes))
    };
    kinds.push(job.overrides.iter().map(|o| size(o, random)).collect());
    let (mut forecast, mut k) = (Vec::new(), 0);
    while k < job.forecast.len() {
        let part = &job.forecast[k..job.forecast.len().min(k + random.from(1, 12) as usize)];
        let same = part.iter().all(|bytes| bytes == &part[0]) && random.chance(70);
        forecast.push(match same {
            true => format!("forecast {} x {}", number(random, part.len() as u32), number(random, part[0])),
            false => format!("forecast {}", part.iter().map(|n| number(random, *n)).collect::<Vec<_>>().join("  ")),
        });
        k += part.len();
    }
    kinds.push(forecast);
    for kind in &mut kinds {
        kind.reverse();
    }
    let mut lines = Vec::new();
    while kinds.iter().any(|kind| !kind.is_empty()) {
        let k = random.from(0, kinds.len() as u64 - 1) as usize;
        if let Some(line) = kinds[k].pop() {
            let (before, after) = (random.one(&["", " ", "\t"]), random.one(&["", "", " ", "# chunks 7", "\t # \u{e9}"]));
            lines.push(format!("{before}{line}{after}"));
        }
    }
    lines.extend(random.one(&[vec![], vec![String::new()], vec!["# the end".to_string()]]).clone());
    format!("{}{}", random.one(&["", "\u{feff}"]), lines.join(*random.one(&["\n", "\r\n"])))
}

#[test]
fn make_and_show_are_inverse_on_1000_random_jobs() {
    let (folder, mut random) = (Folder::new(), Random(24));
    let a = folder.film_on(&["make"], A_TEXT.as_bytes()).good("A");
    assert_eq!(a.out, std::fs::read(root().join("samples/a.job")).unwrap());
    assert_eq!(folder.film_on(&["show"], &a.out).good("A").text(), A_TEXT);
    let (mut slots, mut rows) = (0, 0);
    for k in 0..1000 {
        let most = *random.one(&[6, 40, 500]);
        let job = if k == 0 { largest_job(2100) } else { random.job(most) };
        let file = job.write().unwrap();
        let warned = |answer: &Answer| (job.limit < job.span) == answer.err.contains("warning: limit");
        let shown = folder.film_on(&["show"], &file);
        assert!(shown.status == 0 && warned(&shown));
        let made = folder.film_on(&["make"], &shown.out);
        assert!(made.status == 0 && warned(&made) && made.out == file, "{}", shown.text());
        assert_eq!(folder.film_on(&["show"], &shown.out).out, shown.out);
        let typed = loose(&mut random, &job);
        let made = folder.film_on(&["make"], typed.as_bytes());
        assert!(made.out == file, "{typed}\n{}", made.err);
        slots += job.forecast.len();
        rows += Job::read(&made.out).unwrap().plan().unwrap().list.len();
    }
    println!("make and show are inverse on 1,000 random jobs of {slots} slots, and every file made is planned ({rows} rows)");
}

#[test]
fn a_mixed_file_comes_out_in_one_sequence() {
    let folder = Folder::new();
    let mixed = b"BW\x03\0\x05\0\0\0LY\x02\0\0\0PG\x02\0\x01\0\x02\0\x01\0EN";
    let job = Job::read_mixed(mixed).unwrap();
    assert_eq!(folder.film_on(&["make"], mixed).good("mixed").out, job.write().unwrap());
    folder.film_on(&["plan"], mixed).bad(1, &["refusal 17: ", "film make FILE > JOB"], "mixed");
}

#[test]
fn traces_give_the_forecast_of_the_proved_reader() {
    let (folder, mut random) = (Folder::new(), Random(4));
    let (mut agreed, mut refused) = (0, 0);
    for _ in 0..400 {
        let any = random.from(1, 30);
        let slots = *random.one(&[0, 1, 2, 5, 3600, 3601, any]);
        let mut times: Vec<u64> = (0..random.from(0, 40)).map(|_| random.from(0, 9000)).collect();
        times.sort_unstable();
        let mut lines: Vec<String> = times
            .iter()
            .map(|t| match random.from(0, 3) {
                0 => format!("{t:05}\n"),
                1 => format!("{t:07}\n"),
                _ => format!("{t}\n"),
            })
            .collect();
        if random.chance(40) {
            let odd = *random.one(&["\n", "12345678\n", "7", "7\r\n", "-1\n", "x\n", " 7\n", "0\n", "9999999\n", "\0\n"]);
            lines.insert(random.from(0, lines.len() as u64) as usize, odd.to_string());
        }
        if random.chance(10) {
            lines = vec!["3000\n".to_string(); *random.one(&[11184, 11185])];
        }
        let data = lines.concat();
        let delay = slots.clamp(1, 3600);
        folder
            .put("a van.txt", &data)
            .put("text", format!("chunks 1\nspan 1\ndelay {delay}\nlimit 1\nlayer 1\ntrace a van.txt {slots} # the van\n"));
        let answer = folder.film(&["make", "text"]);
        match read_trace(data.as_bytes(), slots as usize) {
            Ok(forecast) => {
                assert_eq!(Job::read(&answer.out).unwrap().forecast, forecast, "{}", answer.err);
                let reached = times_reached(&data);
                assert_eq!(answer.err.contains("warning: a van.txt"), reached < slots, "{} {data}", answer.err);
                agreed += 1;
            }
            Err(refusal) => {
                answer.bad(1, &[&format!("line 6: trace a van.txt {slots}\n"), &format!("refusal {}: ", refusal.number())], &data);
                refused += 1;
            }
        }
    }
    println!("{agreed} traces give the forecast of request 4, {refused} are refused with its number");
}

/// The last slot that a trace has a line in; 0 if it has none.
fn times_reached(data: &str) -> u64 {
    data.lines().last().map_or(0, |line| line.parse::<u64>().unwrap() / 1000 + 1)
}

/// A trace longer than the pieces in which it is read: lines cut by a piece's end count once.
#[test]
fn a_long_trace_is_read_in_pieces() {
    let (folder, mut random) = (Folder::new(), Random(7));
    let mut times: Vec<u64> = (0..700_000).map(|_| random.from(0, 3_599_999)).collect();
    times.sort_unstable();
    let data: String = times.iter().map(|t| format!("{t}\n")).collect();
    assert!(data.len() > 5 << 20);
    folder.put("van", &data).put("text", "chunks 1\nspan 1\ndelay 3600\nlimit 1\nlayer 1\ntrace van\n");
    let made = folder.film(&["make", "text"]).good("a long trace");
    assert_eq!(Job::read(&made.out).unwrap().forecast, read_trace(data.as_bytes(), 3600).unwrap());
    folder.put("van", &data[..data.len() - 1]);
    folder.film(&["make", "text"]).bad(1, &["van line 700,000 is the last and lacks its line feed", "refusal 14: "], "no line feed");
    let broken = format!("{}x{}", &data[..3_000_000], &data[3_000_000..]);
    let line = data[..3_000_000].lines().count();
    folder.put("van", broken);
    let words = format!("van line {},{:03} is `", line / 1000, line % 1000);
    folder.film(&["make", "text"]).bad(1, &[&words, "refusal 14: "], "an x");
}

#[test]
fn faults_of_a_trace_are_told_by_name() {
    let folder = Folder::new();
    folder.put("text", "chunks 1\nspan 1\ndelay 3\nlimit 1\nlayer 1\ntrace van.trace 3\n");
    let cases: [(&str, &str); 12] = [
        ("1\r\n2\r\n", "van.trace line 1 ends in CR LF, as on Windows"),
        ("1\n2\r\n", "van.trace line 2 ends in CR LF"),
        ("1\n2", "van.trace line 2 is the last and lacks its line feed"),
        ("2\n\n3\n", "van.trace line 2 is empty"),
        ("5\n3\n", "van.trace line 2 has the time 3, below 5"),
        ("12345678\n", "van.trace line 1 has 8 digits"),
        ("1.5\n", "van.trace line 1 is `1.5`; a line is the time in milliseconds"),
        ("1 1500\n", "van.trace line 1 is `1 1500`"),
        ("time\n", "van.trace line 1 is `time`"),
        ("\u{feff}1\n", "van.trace line 1 begins with a byte order mark"),
        ("1\r", "van.trace line 1 is `1`"),
        ("99999999999999999999999999999999999999999999999999999999999999999999", "van.trace line 1 is `99999999999999999999`.."),
    ];
    for (data, words) in cases {
        folder.put("van.trace", data);
        folder.film(&["make", "text"]).bad(1, &["text line 6: trace van.trace 3\n", words, "refusal 14: "], data);
    }
    folder.put("van.trace", "2999\n".repeat(11185));
    folder.film(&["make", "text"]).bad(1, &["16,777,500 bytes in slot 3", "refusal 15: "], "a slot too full");
    folder.put("van.trace", "1\n1200\n");
    let answer = folder.film(&["make", "text"]);
    assert!(
        answer.status == 0 && answer.err.contains("van.trace ends in its slot 2, at 1,200 ms: 1 slot after it without a byte"),
        "{}",
        answer.err
    );
    folder.put("van.trace", "");
    let answer = folder.film(&["make", "text"]);
    assert!(answer.status == 0 && answer.err.contains("van.trace is empty: 3 slots without a byte"), "{}", answer.err);
    folder.put("text", "chunks 1\nspan 5\ndelay 3\nlimit 4\nlayer 1\nforecast 3 x 1\n");
    let answer = folder.film(&["make", "text"]);
    assert!(answer.status == 0 && answer.err.contains("limit 4 is below span 5, so no chunk can be held"), "{}", answer.err);
}

#[test]
fn names_of_traces_and_slots_that_the_job_needs() {
    let folder = Folder::new();
    let head = "chunks 1\nspan 1\ndelay 4\nlimit 1\nlayer 1\n";
    for name in ["van.txt", "van #3.txt", "a 'b' c", "#", "x \"y\"", "600"] {
        folder.put(name, "0\n1000\n1000\n2000\n3000\n");
        let quoted = if name.contains('"') { format!("'{name}'") } else { format!("\"{name}\"") };
        let plain = !name.contains('#') && !name.starts_with(['"', '\'']);
        for line in
            [format!("trace {quoted}"), format!("trace   {quoted} 4 # all"), format!("trace {quoted} # {name}"), format!("trace {name}")]
        {
            if plain || line.contains(&quoted) {
                folder.put("text", format!("{head}{line}\n"));
                let made = folder.film(&["make", "text"]).good(&line);
                assert_eq!(Job::read(&made.out).unwrap().forecast, [1500, 3000, 1500, 1500], "{line}");
            }
        }
    }
    for (lines, forecast) in [
        ("trace van.txt 2\nforecast 7 8", [1500, 3000, 7, 8]),
        ("forecast 7\ntrace van.txt\nforecast 8", [7, 1500, 3000, 8]),
        ("trace van.txt\nforecast 3 x 1", [1500, 1, 1, 1]),
    ] {
        folder.put("text", format!("{lines}\n{head}"));
        assert_eq!(Job::read(&folder.film(&["make", "text"]).good(lines).out).unwrap().forecast, forecast, "{lines}");
    }
    // The trace is looked for from the text's folder; of a text on standard input, from here.
    folder.film_on(&["make"], format!("{head}trace van.txt\n").as_bytes()).good("a text on standard input");
    std::fs::create_dir(folder.0.join("deep")).unwrap();
    folder.put("deep/text", format!("{head}trace ../van.txt\n"));
    folder.film(&["make", "deep/text"]).good("a text in another folder");
    for (lines, words) in [
        ("trace van.txt\ntrace van.txt", "line 7: trace van.txt\n  a second trace without its number of slots, after that on line 6"),
        ("forecast 4 x 1\ntrace van.txt", "line 7: trace van.txt\n  the other lines give 4 slots"),
        ("trace \"van.txt 4", "line 6: trace \"van.txt 4\n  the name's second quote is missing"),
        ("trace \"\" 4", "the form is trace FILE SLOTS"),
        ("trace van #3.txt", "van: there is no such file"),
        ("trace \"van.txt\" four", "`four` is no number"),
        ("trace deep", "deep is a folder; a file is wanted"),
    ] {
        folder.put("text", format!("{head}{lines}\n"));
        folder.film(&["make", "text"]).bad(1, &[words], lines);
    }
}

/// The line of A's text to change, what stands there instead, the line named, the refusal, and
/// words of the message that say what to do.
const FAULTS: &[(usize, &str, usize, u8, &str)] = &[
    (1, "chunks 501", 1, 5, "chunks is 1 to 500"),
    (1, "chunks 0", 1, 5, "chunks is 1 to 500"),
    (1, "chunks -1", 1, 5, "chunks is 1 to 500"),
    (1, "chunks 99999999999999999999", 1, 5, "chunks is 1 to 500"),
    (2, "span 0", 2, 5, "span is 1 to 60"),
    (2, "span 61", 2, 5, "span is 1 to 60"),
    (3, "delay 0", 3, 5, "delay is 1 to 3,600"),
    (3, "delay 3601", 3, 5, "delay is 1 to 3,600"),
    (3, "delay 3597", 3, 5, "the last is due in slot 3,601, and 3,600 is the last there can be"),
    (4, "limit 65536", 4, 5, "limit is 0 to 65,535"),
    (4, "limit -1", 4, 5, "limit is 0 to 65,535"),
    (5, "layer 0", 5, 6, "a layer's size is 1 to 16,777,216"),
    (5, "layer 16777217", 5, 6, "a layer's size is 1 to 16,777,216"),
    (5, "layer 1\nlayer 1\nlayer 1\nlayer 1", 9, 6, "a fifth layer"),
    (5, "layer 99999999999999999999999999999999999999999999999999999999999999999999", 5, 6, "1 to 16,777,216"),
    (6, "size 1 0 5", 6, 18, "chunk 1 has the sizes of `layer`"),
    (6, "size 4 0 5", 6, 18, "there is no chunk 4"),
    (6, "size 2 1 5", 6, 18, "there is no layer 1; the job has 1, counted from 0"),
    (6, "size 2 0 2", 6, 18, "2 bytes are layer 0's own size; leave the line out"),
    (6, "size 2 0 0", 6, 18, "a size is 1 to 16,777,216"),
    (6, "size 2 0 16777217", 6, 18, "a size is 1 to 16,777,216"),
    (6, "size -2 0 5", 6, 18, "there is no chunk -2"),
    (6, "size 2 -1 5", 6, 18, "there is no layer -1"),
    (6, "size 3 0 5\nsize 2 0 5", 7, 18, "sizes rise by chunk, then layer, and chunk 3 layer 0 stands before"),
    (6, "size 2 0 5\nsize 2 0 6", 7, 18, "sizes rise by chunk, then layer"),
    (6, "size 65538 0 5", 6, 18, "there is no chunk 65538"),
    (6, "size 2 256 5", 6, 18, "there is no layer 256"),
    (7, "forecast 3 0 1 0 2", 7, 7, "the last chunk is due in slot 6: 1 slot missing"),
    (7, "forecast 7 x 1", 7, 7, "1 slot too many"),
    (7, "forecast 0 x 1", 7, 7, "a run's number of slots is 1 to 3,600"),
    (7, "forecast 3601 x 1", 7, 7, "a run's number of slots is 1 to 3,600"),
    (7, "forecast -1 x 1", 7, 7, "a run's number of slots is 1 to 3,600"),
    (7, "forecast 6 x 16777217", 7, 7, "a slot's bytes is 0 to 16,777,216"),
    (7, "forecast 1 2 3 4 5 16777217", 7, 7, "a slot's bytes is 0 to 16,777,216"),
    (7, "forecast -1 2 3 4 5 6", 7, 7, "a slot's bytes is 0 to 16,777,216"),
    (7, "forecast 3600 x 1\nforecast 1", 8, 7, "the forecast has 3,601 slots by this line"),
    (7, "forecast 6 x 1\nforecast 1", 8, 7, "the last chunk is due in slot 6: 1 slot too many"),
    (7, "trace nothing 0", 7, 7, "a trace's number of slots is 1 to 3,600"),
    (7, "trace nothing 3601", 7, 7, "a trace's number of slots is 1 to 3,600"),
    (1, "chunk 3", 1, 0, "`chunk` is no statement; is chunks NUMBER meant?"),
    (1, "Chunks 3", 1, 0, "is chunks NUMBER meant?"),
    (1, "frames 3", 1, 0, "the statements are chunks, span, delay, limit, layer, size, forecast, trace"),
    (1, "chunks", 1, 0, "the form is chunks NUMBER"),
    (1, "chunks 3 3", 1, 0, "the form is chunks NUMBER"),
    (1, "chunks three", 1, 0, "`three` is no number; numbers are digits alone"),
    (1, "chunks 3.0", 1, 0, "`3.0` is no number"),
    (1, "chunks \u{0663}", 1, 0, "is no number"),
    (1, "chunks 1_0", 1, 0, "`1_0` is no number"),
    (1, "chunks 1_000", 1, 0, "without separators: 1000"),
    (2, "span 2\nspan 2", 3, 0, "a second span; the first is on line 2"),
    (6, "size 2 0", 6, 0, "the form is size CHUNK LAYER BYTES"),
    (6, "size 2 0 5 5", 6, 0, "the form is size CHUNK LAYER BYTES"),
    (6, "layer", 6, 0, "the form is layer BYTES"),
    (6, "layer 240.000", 6, 0, "without separators: 240000"),
    (6, "layer 1'000'000", 6, 0, "without separators: 1000000"),
    (7, "forecast", 7, 0, "the form is forecast BYTES"),
    (7, "forecast 6x1", 7, 0, "a run has spaces around its x, forecast 6 x 1"),
    (7, "forecast 6\u{d7}1", 7, 0, "a run has spaces around its x, forecast 6 x 1"),
    (7, "forecast 6 X 1", 7, 0, "a run has a small x: forecast 6 x 1"),
    (7, "forecast 6 * 1", 7, 0, "a run has a small x: forecast 6 x 1"),
    (7, "forecast 3 3 x 1", 7, 0, "a run stands on a line of its own: forecast SLOTS x BYTES"),
    (7, "forecast 6 x", 7, 0, "a run stands on a line of its own"),
    (7, "forecast x 6", 7, 0, "a run stands on a line of its own"),
    (7, "forecast 6 x x", 7, 0, "is no number"),
    (7, "forecast 6 x 1 x 1", 7, 0, "a run stands on a line of its own"),
    (7, "forecast 4,000", 7, 0, "without separators: 4000"),
    (7, "forecast 1,234,567 1 2 3 4 5", 7, 0, "without separators: 1234567"),
    (7, "forecast 3, 0, 1, 0, 2, 0", 7, 0, "with spaces between them and no comma"),
    (7, "trace", 7, 0, "the form is trace FILE SLOTS, or trace FILE for what the job needs"),
    (7, "trace 6", 7, 0, "6: there is no such file"),
    (7, "trace nothing 6", 7, 0, "nothing: there is no such file"),
    (7, "trace nothing", 7, 0, "nothing: there is no such file"),
    (7, "trace / 6", 7, 0, "/ is a folder; a file is wanted"),
    (7, "trace . 6", 7, 0, " is a folder; a file is wanted"),
    (7, "trace nothing six", 7, 0, "nothing six: there is no such file"),
    (7, "a\0b 6", 7, 0, "this is no text"),
];

#[test]
fn faulty_texts_are_told_by_line_and_sentence() {
    let folder = Folder::new();
    for (place, words, line, number, what) in FAULTS {
        let mut lines: Vec<&str> = A_TEXT.lines().collect();
        lines[place - 1] = words;
        folder.put("bad.txt", lines.join("\n"));
        let answer = folder.film(&["make", "bad.txt"]).bad(1, &[&format!("film: bad.txt line {line}:"), what], words);
        match Refusal::of((*number).into()) {
            Some(refusal) => assert!(answer.err.contains(&format!("refusal {number}: {}", refusal.sentence())), "{}", answer.err),
            None => assert!(!answer.err.contains("refusal"), "{words}: {}", answer.err),
        }
        // A word that is no statement may have stood for one, which is then absent too.
        let messages = if words.starts_with("frames") { 2 } else { 1 };
        assert_eq!(answer.err.matches("bad.txt").count(), messages, "one fault gives one message: {}", answer.err);
    }
    let absent = [(1, "chunks NUMBER", 0), (2, "span SLOTS", 0), (3, "delay SLOTS", 0), (4, "limit SLOTS", 0), (7, "forecast BYTES", 7)];
    for (place, form, number) in absent {
        let mut lines: Vec<&str> = A_TEXT.lines().collect();
        lines[place - 1] = "# nothing";
        folder.put("bad.txt", lines.join("\n"));
        let kind = form.split(' ').next().unwrap();
        let answer = folder.film(&["make", "bad.txt"]).bad(1, &[&format!("bad.txt: there is no {kind}; a line `{form}")], form);
        assert!(number == 0 || answer.err.contains(&format!("refusal {number}: ")), "{}", answer.err);
    }
    let lacking: String = A_TEXT.lines().filter(|line| !line.contains("layer")).map(|line| format!("{line}\n")).collect();
    folder.film_on(&["make"], lacking.as_bytes()).bad(1, &["standard input: there is no layer", "refusal 6: "], "no layer");
    folder.film_on(&["make"], b"chunks 3\nspan \xff\n").bad(1, &["standard input line 2:", "UTF-8"], "no UTF-8");
    println!("{} faulty texts are refused with their line and sentence", FAULTS.len() + absent.len() + 2);
}

#[test]
fn all_faults_of_a_text_come_in_one_go() {
    let folder = Folder::new();
    folder.put("bad.txt", "chunks 501\nspan 2\ndelay two\nlayer 0\nlayer 1\nsize 1 0 5\nsize 9 1 4\nforecast 4,000\ntrace nothing\nfilm\n");
    let answer = folder.film(&["make", "bad.txt"]).bad(1, &["bad.txt: there is no limit"], "all faults");
    for line in [1, 3, 4, 6, 8, 9, 10] {
        assert!(answer.err.contains(&format!("bad.txt line {line}: ")), "line {line}: {}", answer.err);
    }
    let at: Vec<usize> = answer.err.match_indices("bad.txt line ").map(|(k, _)| k).collect();
    assert!(at.len() >= 7 && at.windows(2).all(|w| w[0] < w[1]));
    let many = "film\n".repeat(500);
    let answer = folder.film_on(&["make"], many.as_bytes()).bad(1, &["faults more"], "500 faults");
    assert!(answer.err.lines().count() < 50, "{}", answer.err);
}

/// Whatever bytes come, make and show end well or with a message.
#[test]
fn damaged_texts_and_files_never_panic() {
    let (folder, mut random) = (Folder::new(), Random(3));
    let other = random.job(40);
    let other_text = folder.film_on(&["show"], &other.write().unwrap()).out;
    let bases = [A_TEXT.as_bytes().to_vec(), job_a().write().unwrap(), other_text, other.write().unwrap()];
    let mut kept = 0;
    for k in 0..3000 {
        let mut data = bases[k % 4].clone();
        for _ in 0..random.from(1, 4) {
            let at = random.from(0, data.len() as u64) as usize;
            let end = data.len().min(at + random.from(0, 3) as usize);
            let noise: Vec<u8> = (0..random.from(0, 3))
                .map(|_| match random.from(0, 5) {
                    0 => random.next() as u8,
                    n => b" \n09-"[n as usize - 1],
                })
                .collect();
            data.splice(at..end, noise);
        }
        let way = if k % 8 < 4 { "make" } else { "plan" };
        let answer = folder.film_on(&[way], &data);
        match answer.status {
            0 => kept += 1,
            _ => drop(answer.bad(1, &["standard input"], &String::from_utf8_lossy(&data))),
        }
    }
    let start = std::time::Instant::now();
    for line in ["forecast 1\n", "size 2 0 5\n", "layer 7\n", "chunks 3\n", "film\n", "trace nothing\n", "\n", "\"\n", "trace \"\n"] {
        let text = format!("{A_TEXT}{}", line.repeat((10_000_000 - A_TEXT.len()) / line.len()));
        let answer = folder.film_on(&["make"], text.as_bytes());
        assert!(line == "\n" && answer.status == 0 || answer.status == 1 && answer.err.len() < 10_000, "{line}: {}", answer.err.len());
    }
    assert!(start.elapsed().as_secs() < 300, "long texts take too long");
    println!("3,000 damaged texts and files: {kept} still jobs, the others refused");
    let junk: Vec<u8> = (0..5000).map(|_| random.next() as u8).collect();
    let long_number = [b"chunks ".to_vec(), vec![b'1'; 100_000]].concat();
    for data in [
        vec![],
        vec![0; 70_000],
        junk,
        vec![b'\n'; 100_000],
        b"forecast ".iter().chain(&b"1 ".repeat(100_000)).copied().collect(),
        long_number,
        vec![b'#'; 11_000_000],
        b"PG".to_vec(),
        [b"PG".to_vec(), vec![0; 70_000]].concat(),
        b"EN".to_vec(),
    ] {
        for way in ["make", "show", "plan", "report", "wait", "limit", "margin", "what-if"] {
            folder.film_on(&[way], &data).bad(1, &["standard input"], &String::from_utf8_lossy(&data[..data.len().min(20)]));
        }
    }
}
