//! The act on traces and synthetic links, beside the plan that knew the link and beside planning
//! afresh with the meter.
pub mod watch;
pub mod ways;

use crate::args::{Args, Command};
use crate::failure::{sentence, Failure};
use crate::links::{self, Link, KINDS};
use crate::words::{counted, printable, thousands};
use crate::{files, out, page};
use film_planner::{Job, Refusal};
use std::ffi::OsString;
use std::io::IsTerminal;
use std::path::{Path, PathBuf};
#[cfg(test)]
pub mod tests;

use watch::{Skip, Watch};
use ways::{Fetched, Figures};

pub const COMMAND: Command = Command {
    name: "rehearse",
    summary: "the act on one or many links, second by second, with a table and a page",
    help: "film rehearse JOB [--trace FILE ..] [--link KIND RATE ..] [--page FILE]

Fetches the film of a job second by second over links that it does not know, as the desk would in
the act, and says what was shown: beside the plan that knew the link, and beside planning afresh
with the meter in every slot. On one link each skipped chunk is told with its reason.

  JOB               the job, as a text or as a job file. Its forecast is not used but for the first
                    guess of planning afresh, and a text may go without.
  --trace FILE ..   the link of a file: a trace of the test van (a line is the time in milliseconds
                    at which 1,500 bytes came), a text with lines `forecast BYTES BYTES ..` and
                    `forecast SLOTS x BYTES`, or a job, whose forecast is taken. Several may
                    follow; the table then ends with their mean.
  --link KIND RATE  a synthetic link. KIND is
                      3g      deep, fast changes; one second in twelve brings nothing
                      lte     wide, with dips to a tenth
                      walk    slow changes, no gaps
                      tunnel  20 to 60 seconds of link, then 8 to 30 of nothing
                      steady  the same in every second
                    RATE is its mean: bytes a second, or a per cent of what the bases take (150%)
  --seed N          which link of that kind, 1 unless named; the same number gives the same link
  --links N         so many of them, seeds N, N + 1 and so on
  --page FILE       writes a page with the picture of what was shown and a slider over the seconds:
                    what was held, asked and brought. It stands alone: open it in a browser.
  --page-of N       which link the page is of, 1 unless named

The table: chunks skipped; the longest time that the screen stands; how many chunks show each layer;
the report's switch sum; bytes fetched of layers that are never shown.

Examples:

  film rehearse samples/flight.txt --trace samples/flight.txt --page rehearsal.html
  film rehearse samples/flight.txt --link 3g 150% --links 20",
    options: &[("trace", 1), ("link", 2), ("seed", 1), ("links", 1), ("page", 1), ("page-of", 1)],
    words: 1..=usize::MAX,
    run,
};

/// The most synthetic links in one go.
const LINKS: u64 = 1_000_000;

/// Where a link comes from; it is made when its turn comes, so that many take no more memory.
enum Source {
    File(PathBuf),
    Synthetic { kind: String, rate: u32, seed: u64 },
}

impl Source {
    fn link(&self, slots: usize) -> Result<Link, Failure> {
        match self {
            Source::File(path) => links::read(path, slots),
            Source::Synthetic { kind, rate, seed } => links::synthetic(kind, *rate, *seed, slots).ok_or_else(|| no_kind(kind)),
        }
    }
}

fn no_kind(kind: &str) -> Failure {
    let names: Vec<&str> = KINDS.iter().map(|(name, _)| *name).collect();
    Failure::usage(format!("--link {}: there is no such kind of link; there are {}", printable(kind), names.join(", ")))
}

/// The links that are asked for, in the order of the command line but files first.
struct Sources {
    files: Vec<PathBuf>,
    kinds: Vec<(String, u32)>,
    seed: u64,
    each: u64,
}

impl Sources {
    fn of(args: &Args, job: &Job) -> Result<Sources, Failure> {
        let named = args.all("trace").into_iter().flatten().chain(&args.words()[1..]);
        let mut kinds = Vec::new();
        for pair in args.all("link") {
            let words: Vec<String> = pair.iter().map(|word: &OsString| word.to_string_lossy().into_owned()).collect();
            let kind = words[0].to_lowercase();
            if !KINDS.iter().any(|(name, _)| *name == kind) {
                return Err(no_kind(&words[0]));
            }
            kinds.push((kind, links::rate(&words[1], job)?));
        }
        let each = args.number("links", 1..=LINKS)?.unwrap_or(1);
        let seed = args.number("seed", 0..=u64::MAX - LINKS)?.unwrap_or(1);
        let sources = Sources { files: named.map(PathBuf::from).collect(), kinds, seed, each };
        if (args.flag("links") || args.flag("seed")) && sources.kinds.is_empty() {
            return Err(Failure::usage("--links and --seed say which synthetic links; there is no --link KIND RATE"));
        }
        match sources.number() {
            0 => Err(Failure::usage("no link to rehearse on: --trace FILE or --link KIND RATE is needed")
                .hint("For a link that nobody recorded, try: film rehearse JOB --link lte 150%")),
            _ => Ok(sources),
        }
    }

    fn number(&self) -> u64 {
        self.files.len() as u64 + self.kinds.len() as u64 * self.each
    }

    /// Link k, from 0.
    fn get(&self, k: u64) -> Source {
        match self.files.get(k as usize) {
            Some(path) => Source::File(path.clone()),
            None => {
                let k = k - self.files.len() as u64;
                let (kind, rate) = &self.kinds[(k / self.each) as usize];
                Source::Synthetic { kind: kind.clone(), rate: *rate, seed: self.seed + k % self.each }
            }
        }
    }
}

/// The three ways on one link.
pub struct Rehearsal<'a> {
    pub job: &'a Job,
    pub link: &'a Link,
    pub known: Fetched,
    pub act: Fetched,
    pub afresh: Fetched,
    pub refused: Vec<(u16, Refusal)>,
}

pub const WAYS: [&str; 3] = ["the plan that knew the link", "the act, live", "the meter, planning afresh"];

impl<'a> Rehearsal<'a> {
    pub fn new(job: &'a Job, link: &'a Link) -> Result<Rehearsal<'a>, Refusal> {
        Rehearsal::with(job, link, |_| {})
    }

    /// The same with an act that is watched.
    pub fn watched(job: &'a Job, link: &'a Link) -> Result<(Rehearsal<'a>, Watch<'a>), Refusal> {
        let mut watch = Watch::new(job, &link.bytes)?;
        let rehearsal = Rehearsal::with(job, link, |act| watch.see(act))?;
        Ok((rehearsal, watch))
    }

    fn with(job: &'a Job, link: &'a Link, seen: impl FnMut(&film_planner::Act)) -> Result<Rehearsal<'a>, Refusal> {
        let known = ways::known(job, &link.bytes)?;
        let act = ways::act(job, &link.bytes, seen)?;
        let (afresh, refused) = ways::afresh(job, &link.bytes)?;
        Ok(Rehearsal { job, link, known, act, afresh, refused })
    }

    pub fn figures(&self) -> [Figures; 3] {
        [&self.known, &self.act, &self.afresh].map(|way| Figures::of(self.job, way))
    }
}

pub fn run(args: Args) -> Result<(), Failure> {
    let loaded = load(args.path(0))?;
    let job = &loaded.job;
    let sources = Sources::of(&args, job)?;
    let many = sources.number();
    let page_of = args.number("page-of", 1..=many)?.unwrap_or(1);
    let page = args.value("page").map(Path::new);
    if page.is_none() && args.flag("page-of") {
        return Err(Failure::usage("--page-of says which link the page is of; --page FILE is needed too"));
    }
    let inputs: Vec<&Path> = std::iter::once(args.path(0)).chain(sources.files.iter().map(PathBuf::as_path)).collect();
    if let Some(path) = page.filter(|path| inputs.iter().any(|input| same(input, path))) {
        return Err(Failure::usage(format!("{} would be written over; name another file", files::called(path))));
    }
    let mut sums: [Figures; 3] = Default::default();
    for k in 0..many {
        let link = sources.get(k).link(job.forecast.len())?;
        let refused = |refusal| Failure::refused(format!("{}: {}", loaded.called, link.name), refusal);
        let (rehearsal, watch) = match many == 1 || (page.is_some() && k + 1 == page_of) {
            true => Rehearsal::watched(job, &link).map(|(rehearsal, watch)| (rehearsal, Some(watch))).map_err(refused)?,
            false => (Rehearsal::new(job, &link).map_err(refused)?, None),
        };
        let figures = rehearsal.figures();
        sums.iter_mut().zip(&figures).for_each(|(sum, one)| sum.add(one));
        if many > 1 && std::io::stderr().is_terminal() {
            // The line of progress makes room for the table.
            out::progress("");
        }
        let head = if k == 0 { header(job) } else { String::new() };
        out::text(&(head + &block(job, &link.name, &figures, 1, &rehearsal.refused)))?;
        if let Some(watch) = watch {
            let skips = watch.skips(&rehearsal.act);
            if many == 1 {
                out::text(&reasons(&skips))?;
            }
            if let Some(path) = page {
                out::file(path, page::html(&rehearsal, &watch, &skips, &figures, &loaded.title).as_bytes())?;
            }
        }
        progress(k + 1, many);
    }
    if many > 1 {
        out::progress_end();
        out::text(&block(job, &format!("mean of {}", counted(many, "link")), &sums, many, &[]))?;
    }
    if let Some(path) = page {
        out::text(&format!("page: {}, to be opened in a browser\n", files::called(path)))?;
    }
    Ok(())
}

/// The job of a text that has no forecast is read as well: links take its place.
fn load(path: &Path) -> Result<files::Loaded, Failure> {
    let mut data = files::read(path, files::TEXT)?;
    if let Some(slots) = slots_without_forecast(&data) {
        data.extend(format!("\nforecast {slots} x 0\n").bytes());
    }
    files::job_of(path, &data)
}

/// d(C) of a text in which no forecast stands; none for any other, which is then told its faults.
fn slots_without_forecast(data: &[u8]) -> Option<u64> {
    if files::is_records(data) {
        return None;
    }
    let text = String::from_utf8_lossy(data);
    let mut fields = [None; 3];
    for line in text.trim_start_matches('\u{feff}').lines() {
        let mut words = line.split('#').next().unwrap_or("").split_whitespace();
        let field = match words.next() {
            Some("chunks") => 0,
            Some("span") => 1,
            Some("delay") => 2,
            Some("forecast" | "trace") => return None,
            _ => continue,
        };
        fields[field] = words.next().and_then(|word| word.parse::<u64>().ok()).filter(|n| (1..=3600).contains(n));
    }
    let [Some(chunks), Some(span), Some(delay)] = fields else { return None };
    Some((chunks - 1) * span + delay).filter(|slots| *slots <= 3600)
}

/// One and the same file, by whatever names.
fn same(a: &Path, b: &Path) -> bool {
    a == b || matches!((a.canonicalize(), b.canonicalize()), (Ok(a), Ok(b)) if a == b)
}

/// Every link on a terminal that shows them on one line, else each twentieth part.
fn progress(done: u64, many: u64) {
    let often = if std::io::stderr().is_terminal() { 1 } else { many.div_ceil(20) };
    if many > 1 && (done.is_multiple_of(often) || done == many) {
        out::progress(&format!("rehearsed {} of {} links", thousands(done), thousands(many)));
    }
}

/// The width of the column of layers.
fn layers_wide(job: &Job) -> usize {
    (job.sizes.len() * 6).max(8)
}

fn header(job: &Job) -> String {
    let wide = layers_wide(job);
    format!("{:<29} {:>8} {:>8}  {:>wide$} {:>13} {:>13}\n", "", "skipped", "freeze", "layers", "switch", "wasted")
}

/// A link and its three lines; of many links the mean.
fn block(job: &Job, name: &str, figures: &[Figures; 3], links: u64, refused: &[(u16, Refusal)]) -> String {
    let wide = layers_wide(job);
    let mut out = format!("{name}\n");
    for (way, figures) in WAYS.iter().zip(figures) {
        let layers: Vec<String> = figures.layers[..job.sizes.len().min(4)].iter().map(|n| mean(*n, links)).collect();
        let freeze = format!("{} s", mean(figures.freeze, links));
        let (switch, wasted) = (thousands(figures.switch / links.max(1)), thousands(figures.wasted / links.max(1)));
        let skipped = mean(figures.skipped, links);
        out += &format!("  {way:<27} {skipped:>8} {freeze:>8}  {:>wide$} {switch:>13} {wasted:>13}\n", layers.join(" "));
    }
    if let Some((slot, refusal)) = refused.first() {
        let times = counted(refused.len() as u64, "slot");
        out += &format!(
            "  (planning afresh was refused in {times}, first in slot {slot}, and fetched nothing there)\n  {}\n",
            sentence(*refusal)
        );
    }
    out
}

/// A mean with one place; of one link the number.
pub fn mean(sum: u64, links: u64) -> String {
    match links {
        0 | 1 => thousands(sum),
        _ => {
            let tenths = (sum * 10 + links / 2) / links;
            format!("{}.{}", thousands(tenths / 10), tenths % 10)
        }
    }
}

/// The most reasons that are printed.
const REASONS: usize = 30;

/// Each skip of the act on a line.
fn reasons(skips: &[Skip]) -> String {
    let line = |skip: &Skip| format!("chunk {}, due in slot {}: {}\n", skip.chunk, thousands(skip.due as u64), skip.sentence());
    let mut lines: String = skips.iter().take(REASONS).map(line).collect();
    if skips.len() > REASONS {
        lines += &format!("and {} more; the page (--page FILE) has them all\n", skips.len() - REASONS);
    }
    match skips.len() {
        0 => "The act skipped nothing.\n".to_string(),
        _ => format!("Why the act skipped:\n{lines}"),
    }
}
