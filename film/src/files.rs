//! Files that people hand over: jobs as text or as records, told apart by their first bytes, plans,
//! and traces of the link.
use crate::failure::Failure;
use crate::out;
use crate::words::{counted, printable, thousands};
use crate::{programme, rows, text};
use film_planner::{Job, Plan, Refusal, FILE, SLOTS};
use std::io::{ErrorKind, IsTerminal, Read};
use std::path::Path;

/// The longest text of a job that is read.
pub const TEXT: usize = 10_000_000;
/// So much of a trace is read at a time: too little for a slot above its most bytes, so that this is
/// seen in the sums alone, behind every faulty line.
const PIECE: u64 = 1 << 14;
/// No line of a trace is longer, its line feed included; some more, so that messages can show it.
const LINE: usize = 64;
/// The most bytes of a slot.
const MOST: u64 = 1 << 24;

/// A job, and what it is called.
#[derive(Clone, Debug, PartialEq, Eq)]
pub struct Loaded {
    pub job: Job,
    /// As messages name it: the path, or `standard input`.
    pub called: String,
    /// The file's name without folder and `.txt` or `.job`: a title.
    pub title: String,
}

/// How messages name a file.
pub fn called(path: &Path) -> String {
    match path.as_os_str() == "-" {
        true => "standard input".to_string(),
        false => printable(&path.to_string_lossy()),
    }
}

/// The file's name without its folder and its ending.
pub fn title(path: &Path) -> String {
    let name = path.file_name().map_or(String::new(), |name| printable(&name.to_string_lossy()));
    let name = if path.as_os_str() == "-" { "film".to_string() } else { name };
    [".txt", ".job"].iter().find_map(|end| name.strip_suffix(end)).unwrap_or(&name).to_string()
}

/// What the system says of an error, without its number.
pub fn said(e: &std::io::Error) -> String {
    let words = e.to_string();
    words.split(" (os error").next().unwrap_or(&words).to_string()
}

/// Opens a file, or standard input for `-`. A folder is told as one.
pub fn open(path: &Path) -> Result<Box<dyn Read>, Failure> {
    if path.as_os_str() == "-" {
        if std::io::stdin().is_terminal() {
            out::note("reading standard input, which is a terminal; Ctrl-D ends it, `film --help` says more");
        }
        return Ok(Box::new(std::io::stdin()));
    }
    let name = called(path);
    match std::fs::metadata(path) {
        Ok(about) if about.is_dir() => Err(Failure::bad(format!("{name} is a folder; a file is wanted"))),
        Err(e) if e.kind() == ErrorKind::NotFound => Err(Failure::bad(format!("{name}: there is no such file"))),
        Err(e) => Err(Failure::bad(format!("{name}: {}", said(&e)))),
        Ok(_) => {
            let file = std::fs::File::open(path).map_err(|e| Failure::bad(format!("{name}: {}", said(&e))))?;
            Ok(Box::new(file))
        }
    }
}

/// The bytes of an input; of a longer one, one byte more than asked for.
pub fn read(path: &Path, most: usize) -> Result<Vec<u8>, Failure> {
    let mut data = Vec::new();
    let source = open(path)?;
    source.take(most as u64 + 1).read_to_end(&mut data).map_err(|e| Failure::bad(format!("{}: {}", called(path), said(&e))))?;
    Ok(data)
}

/// Whether these bytes are to be read as records: a text has no word in capitals.
pub fn is_records(data: &[u8]) -> bool {
    [b"PG", b"LY", b"SZ", b"BW", b"EN"].iter().any(|mark| data.starts_with(*mark))
}

/// A job: its text or its file, by the first bytes. Warnings go to standard error.
pub fn job(path: &Path) -> Result<Loaded, Failure> {
    job_of(path, &read(path, TEXT)?)
}

/// The job that a file's bytes are.
pub fn job_of(path: &Path, data: &[u8]) -> Result<Loaded, Failure> {
    let job = match is_records(data) {
        true => job_file(path, data)?,
        false => {
            let (job, warnings) = text::read(data, path, None)?;
            for line in &warnings {
                out::note(&format!("warning: {line}"));
            }
            job
        }
    };
    if job.limit < job.span {
        out::note(&format!(
            "warning: limit {} is below span {}, so no chunk can be held from one slot to the next: each can be fetched in its due slot alone",
            job.limit, job.span
        ));
    }
    Ok(Loaded { job, called: called(path), title: title(path) })
}

/// A job file in one sequence.
fn job_file(path: &Path, data: &[u8]) -> Result<Job, Failure> {
    Job::read(data).map_err(|refusal| {
        let failure = Failure::refused(format!("{}: this is no job file in one sequence", called(path)), refusal);
        match Job::read_mixed(data) {
            Ok(_) => failure.hint("It is a mixed one, as document 01 has it: `film make FILE > JOB` puts it in one sequence."),
            Err(_) => failure,
        }
    })
}

/// A plan file of a job, whatever its verdict.
pub fn plan(job: &Job, path: &Path) -> Result<Plan, Failure> {
    let data = read(path, FILE)?;
    job.read_plan(&data).map_err(|refusal| no_plan(path, refusal))
}

/// A plan file, or rows as text with the marks that they give.
pub fn plan_or_rows(job: &Job, path: &Path) -> Result<Plan, Failure> {
    let data = read(path, TEXT)?;
    if data.starts_with(b"KP") || data.starts_with(b"FT") || data.starts_with(b"EN") {
        return job.read_plan(&data).map_err(|refusal| no_plan(path, refusal));
    }
    let list = rows::read(&data, path)?;
    let marks = programme::marks_of(job, &list);
    let counts = [0, 1, 2, 3].map(|n| film_planner::count_marks(&marks, n) as u16);
    Ok(Plan { marks, list, counts })
}

fn no_plan(path: &Path, refusal: Refusal) -> Failure {
    Failure::refused(format!("{}: this is no plan file of the job", called(path)), refusal)
}

/// The forecast that a trace gives for so many slots; a warning goes to standard error.
pub fn trace(path: &Path, slots: usize) -> Result<Vec<u32>, Failure> {
    let (forecast, warning) = trace_told(path, slots)?;
    if let Some(line) = &warning {
        out::note(&format!("warning: {line}"));
    }
    Ok(forecast)
}

/// The forecast that a trace gives for so many slots, with a warning where it ends before them. It
/// is read in pieces of whole lines, each by the proved reader, whose slots are summed: so a trace
/// of any length takes the same memory. Faults are told by line and by name.
pub fn trace_told(path: &Path, slots: usize) -> Result<(Vec<u32>, Option<String>), Failure> {
    let called = called(path);
    let refused = |about: String, refusal: Refusal| Failure::refused(format!("{called}{about}"), refusal);
    if !(1..=SLOTS).contains(&slots) {
        return Err(refused(format!(": {} slots are asked for", thousands(slots as u64)), Refusal::Forecast));
    }
    let mut source = open(path)?;
    let mut sums = vec![0u64; slots];
    let (mut lines, mut last, mut rest) = (0u64, 0u32, Vec::new());
    loop {
        let before = rest.len();
        let got = source.by_ref().take(PIECE).read_to_end(&mut rest).map_err(|e| Failure::bad(format!("{called}: {}", said(&e))))?;
        // A piece ends with its last line feed; at the end of the file what is left is a line too.
        let end = if got == 0 { before } else { rest.iter().rposition(|b| *b == b'\n').map_or(0, |k| k + 1) };
        for line in rest[..end].split_inclusive(|b| *b == b'\n') {
            lines += 1;
            last =
                time(line, last, lines == 1).map_err(|fault| refused(format!(" line {} {fault}", thousands(lines)), Refusal::TraceLine))?;
        }
        // What is longer than a line can be is no line, and not kept until its end comes.
        if rest.len() - end > LINE {
            let fault = time(&rest[end..], last, lines == 0).err().unwrap_or_default();
            return Err(refused(format!(" line {} {fault}", thousands(lines + 1)), Refusal::TraceLine));
        }
        if end > 0 {
            let piece = film_planner::read_trace(&rest[..end], slots).map_err(|refusal| refused(String::new(), refusal))?;
            sums.iter_mut().zip(piece).for_each(|(sum, bytes)| *sum += u64::from(bytes));
        }
        rest.drain(..end);
        if got == 0 {
            break;
        }
    }
    if let Some(k) = sums.iter().position(|sum| *sum > MOST) {
        let about = format!(": {} bytes in slot {}, and a slot has at most {}", thousands(sums[k]), k + 1, thousands(MOST));
        return Err(refused(about, Refusal::TraceSlot));
    }
    let warning = ends_early(&called, lines, last, slots);
    Ok((sums.into_iter().map(|sum| sum as u32).collect(), warning))
}

/// The time of a trace's line, or what is wrong with it.
fn time(line: &[u8], before: u32, first: bool) -> Result<u32, String> {
    const WANTED: &str = "a line is the time in milliseconds, 1 to 7 digits";
    let Some(body) = line.strip_suffix(b"\n") else {
        let digits = !line.is_empty() && line.len() <= 7 && line.iter().all(u8::is_ascii_digit);
        return Err(match digits {
            true => "is the last and lacks its line feed; `echo >> FILE` adds it".to_string(),
            false => odd(line, WANTED),
        });
    };
    if first && body.starts_with(b"\xef\xbb\xbf") {
        return Err("begins with a byte order mark; a trace is digits and line feeds alone".to_string());
    }
    if body.ends_with(b"\r") && body[..body.len() - 1].iter().all(u8::is_ascii_digit) {
        return Err("ends in CR LF, as on Windows; a line ends in a line feed alone: `tr -d '\\r' < FILE > NEW` mends it".to_string());
    }
    if body.is_empty() {
        return Err(format!("is empty; {WANTED}"));
    }
    if !body.iter().all(u8::is_ascii_digit) {
        return Err(odd(body, WANTED));
    }
    if body.len() > 7 {
        return Err(format!("has {} digits; {WANTED}", thousands(body.len() as u64)));
    }
    let time = body.iter().fold(0, |sum, b| 10 * sum + u32::from(b - b'0'));
    match time < before {
        true => Err(format!("has the time {time}, below {before} in the line before; times never fall")),
        false => Ok(time),
    }
}

fn odd(line: &[u8], wanted: &str) -> String {
    let start = String::from_utf8_lossy(&line[..line.len().min(20)]).into_owned();
    format!("is `{}`{}; {wanted}", printable(start.trim_end()), if line.len() > 20 { ".." } else { "" })
}

/// A trace that ends before its slots leaves the others without a byte, as if the link were dead.
fn ends_early(called: &str, lines: u64, last: u32, slots: usize) -> Option<String> {
    if lines == 0 {
        return Some(format!("{called} is empty: {} without a byte, in which nothing can be fetched", counted(slots as u64, "slot")));
    }
    let reached = last as usize / 1000 + 1;
    (reached < slots).then(|| {
        format!(
            "{called} ends in its slot {}, at {} ms: {} after it without a byte, in which nothing can be fetched",
            thousands(reached as u64),
            thousands(u64::from(last)),
            counted((slots - reached) as u64, "slot")
        )
    })
}
