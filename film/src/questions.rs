//! `film wait`, `limit`, `margin` and `what-if`: the questions of the office, answered by plans.
use crate::args::{self, Args, Command};
use crate::failure::Failure;
use crate::programme::{base_reasons, counts, has_even_bases, held, last, skipped, skips};
use crate::words::{counted, printable, thousands};
use crate::{files, out};
use film_planner::{Job, Plan, Refusal, SLOTS};
use std::path::Path;

/// The most bytes of a slot.
const MOST: u64 = 1 << 24;
/// So many reasons are told under an answer.
const TOLD: usize = 6;
/// So many rows a table has at most.
const ROWS: usize = 2000;

pub const WAIT: Command = Command {
    name: "wait",
    summary: "the shortest wait (delay) that skips no picture, and why not shorter",
    help: "film wait JOB [--then BYTES] [--trace FILE]

How long must the film wait before its first chunk is due, so that no base picture is skipped? The
answer is the smallest delay, whatever the job's own is; no shorter one does, and the last line says
what a wait of one slot less would skip, and why.

A longer wait needs slots that the job's forecast does not have: it ends where the last chunk is
due. Beyond its end a slot is taken to carry as many bytes as its last one, or as --then says; an
answer that leans on such slots says so. --trace FILE takes the link from a trace instead, as far as
the trace goes.

A longer wait can be worse where the buffer is small, so every one is tried, from 1 up.

  film wait samples/flight.txt
  film wait samples/flight.txt --then 100000",
    options: &[("then", 1), ("trace", 1)],
    words: 0..=1,
    run: wait,
};

pub const LIMIT: Command = Command {
    name: "limit",
    summary: "the smallest limit of the buffer that skips no picture, and why not smaller",
    help: "film limit JOB

How large must the buffer be, in slots of film (`limit`), so that no base picture is skipped? Every
number of chunks that it can hold is tried, from none up to the whole programme. If no limit does,
it says so, and why.

  film limit samples/flight.txt",
    options: &[],
    words: 0..=1,
    run: limit,
};

pub const MARGIN: Command = Command {
    name: "margin",
    summary: "by how much the link may fall before a picture more is lost",
    help: "film margin JOB

By how much may every slot of the forecast fall before the plan shows a picture less than now? The
answer is in whole permille, each slot rounded down to whole bytes.

Where all bases have one size, less link never shows more (request 10), and so too where nothing is
skipped now or the buffer holds the whole programme: every smaller fall loses nothing either. For
uneven bases, a limit that binds and a plan that skips, nothing of the kind is promised: there every
whole permille up to the answer was tried, and what lies between them was not.

  film margin samples/flight.txt",
    options: &[],
    words: 0..=1,
    run: margin,
};

pub const WHAT_IF: Command = Command {
    name: "what-if",
    summary: "a table: pictures and layers for other limits, delays and numbers of layers",
    help: "film what-if JOB [--limit LIST] [--delay LIST] [--layers LIST] [--then BYTES]

Plans the job for every combination of the limits, delays and numbers of layers named, and prints a
table: chunks shown and skipped, the longest run of skipped ones, how many chunks carry each layer,
and the bytes of the forecast left over. A LIST is numbers with commas between them, each a number
or a range: 12,24,36 or 12..36 or 12..60/12 (in steps of 12). What is not named is the job's own;
without any option, some limits around the job's own are tried.

A delay below the job's own uses the first slots of its forecast. A longer one needs more slots:
they carry as many bytes as the forecast's last one, or as --then says.

  film what-if samples/flight.txt --limit 12..48/6
  film what-if samples/flight.txt --limit 24,36 --delay 6..18/6 --layers 1..3",
    options: &[("limit", 1), ("delay", 1), ("layers", 1), ("then", 1)],
    words: 0..=1,
    run: what_if,
};

fn plan_of(job: &Job) -> Result<Plan, Failure> {
    job.plan().map_err(|refusal| Failure::refused("the plan", refusal))
}

/// The job with another delay: its forecast is cut, or drawn out by slots of so many bytes.
fn delayed(job: &Job, delay: u16, then: u32) -> Job {
    let mut other = Job { delay, ..job.clone() };
    other.forecast.resize(last(&other) as usize, then);
    other
}

/// What a slot beyond the forecast's end carries.
fn then(args: &Args, job: &Job) -> Result<u32, Failure> {
    let own = job.forecast.last().copied().unwrap_or(0);
    Ok(args.number("then", 0..=MOST)?.map_or(own, |bytes| bytes as u32))
}

/// The forecast that a trace gives as far as it goes.
fn whole_trace(path: &Path) -> Result<Vec<u32>, Failure> {
    let (mut forecast, _) = files::trace_told(path, SLOTS)?;
    let end = forecast.iter().rposition(|bytes| *bytes > 0).map_or(1, |k| k + 1);
    forecast.truncate(end);
    Ok(forecast)
}

fn wait(args: Args) -> Result<(), Failure> {
    if args.flag("then") && args.flag("trace") {
        return Err(Failure::usage("--then and --trace: one of them; behind a trace's end nothing is assumed"));
    }
    let loaded = files::job(args.path(0))?;
    let own = &loaded.job;
    let then = then(&args, own)?;
    let link = match args.value("trace") {
        Some(path) => whole_trace(Path::new(path))?,
        None => own.forecast.clone(),
    };
    let known = link.len();
    let film = u32::from(own.chunks - 1) * u32::from(own.span);
    // What is known of the link decides first; slots that are only assumed come in where it does
    // not.
    let asked = |forecast: Vec<u32>| Job { forecast, ..own.clone() }.wait();
    let (mut link, mut answer) = (link.clone(), asked(link));
    if answer == Err(Refusal::NoWait) && args.value("trace").is_none() {
        link.resize(SLOTS, then);
        answer = asked(link.clone());
    }
    let longest = (link.len() as u32).saturating_sub(film);
    let at = |delay: u16| {
        let mut job = Job { delay, ..own.clone() };
        job.forecast = link.iter().copied().take(last(&job) as usize).collect();
        job
    };
    let assumed = |slots: u32| match slots as usize > known {
        true => format!(
            "assumed: {} after the forecast's end, slot {}, of {} each (--then BYTES says otherwise)\n",
            counted(u64::from(slots) - known as u64, "slot"),
            thousands(known as u64),
            counted(u64::from(then), "byte")
        ),
        false => String::new(),
    };
    match answer {
        Ok(delay) => {
            let job = at(delay);
            let mut text = format!("shortest wait: {} (delay {delay})\n", counted(u64::from(delay), "slot"));
            if last(&job) as usize > known {
                let room = counted((known as u64).saturating_sub(u64::from(film)), "slot");
                text += &format!("on the forecast alone none works; it has room for waits up to {room}\n");
            }
            text += &assumed(last(&job));
            if own.delay != delay && last(own) as usize <= link.len() {
                text += &format!("the job's own delay is {}: {}\n", own.delay, skips(&plan_of(&at(own.delay))?));
            }
            text += &match delay {
                1 => "why not shorter: 1 is the shortest there is\n".to_string(),
                _ => {
                    let less = at(delay - 1);
                    format!("why not {}: {}\n{}", delay - 1, skips(&plan_of(&less)?), base_reasons(&less, TOLD)?)
                }
            };
            out::text(&text)
        }
        Err(Refusal::NoWait) => {
            let none = Failure::refused(format!("{}: no wait works", loaded.called), Refusal::NoWait);
            if longest == 0 {
                let film = counted(u64::from(own.chunks), "chunk");
                let need = counted(u64::from(last(&at(1))), "slot");
                return Err(
                    none.hint(&format!("{film} need {need} with a wait of 1, and the link is known for {}", thousands(known as u64)))
                );
            }
            let job = at(longest as u16);
            let mut text = format!("no wait works: from 1 to {} slots, each skips a picture\n", thousands(u64::from(longest)));
            text += &assumed(last(&job));
            text += &format!("with a wait of {}: {}\n{}", thousands(u64::from(longest)), skips(&plan_of(&job)?), base_reasons(&job, TOLD)?);
            out::text(&text)?;
            Err(none.hint("`film limit` asks whether a larger buffer does"))
        }
        Err(refusal) => Err(Failure::refused(loaded.called, refusal)),
    }
}

/// The job with a limit that holds so many chunks and no slot more.
fn holding(job: &Job, chunks: u16) -> Job {
    Job { limit: chunks.saturating_mul(job.span), ..job.clone() }
}

fn limit(args: Args) -> Result<(), Failure> {
    let loaded = files::job(args.path(0))?;
    let job = &loaded.job;
    let plan = plan_of(job)?;
    let own = format!("the job's own limit is {}, {} held: {}\n", job.limit, counted(u64::from(held(job)), "chunk"), skips(&plan));
    for chunks in 0..=job.chunks {
        let tried = holding(job, chunks);
        if !skipped(&plan_of(&tried)?).is_empty() {
            continue;
        }
        let mut text = format!(
            "smallest limit that skips no picture: {} ({} held)\n{own}",
            thousands(u64::from(tried.limit)),
            counted(u64::from(chunks), "chunk")
        );
        text += &match chunks {
            0 => "why not smaller: 0 is the smallest there is\n".to_string(),
            _ => {
                let less = holding(job, chunks - 1);
                let why = base_reasons(&less, TOLD)?;
                format!("why not {} ({} held): {}\n{why}", less.limit, counted(u64::from(chunks - 1), "chunk"), skips(&plan_of(&less)?))
            }
        };
        return out::text(&text);
    }
    let whole = holding(job, job.chunks);
    out::text(&format!(
        "no limit does: with a buffer that holds the whole programme (limit {}), {}\n{}{own}",
        thousands(u64::from(whole.limit)),
        skips(&plan_of(&whole)?),
        base_reasons(&whole, TOLD)?
    ))
}

/// The job on a link that has fallen by so many permille, each slot rounded down.
fn fallen(job: &Job, permille: u64) -> Job {
    let forecast = job.forecast.iter().map(|bytes| (u64::from(*bytes) * (1000 - permille) / 1000) as u32).collect();
    Job { forecast, ..job.clone() }
}

/// `12.3 %`.
fn percent(permille: u64) -> String {
    format!("{}.{} %", permille / 10, permille % 10)
}

fn margin(args: Args) -> Result<(), Failure> {
    let loaded = files::job(args.path(0))?;
    let job = &loaded.job;
    let now = plan_of(job)?;
    let shown = now.counts[0];
    let of = counted(u64::from(job.chunks), "chunk");
    if shown == 0 {
        return out::text(&format!("nothing to lose: of {of} none is shown on this link\n{}", base_reasons(job, TOLD)?));
    }
    let mut first = None;
    for permille in 1..=1000 {
        let plan = plan_of(&fallen(job, permille))?;
        if plan.counts[0] < shown {
            first = Some((permille, plan));
            break;
        }
    }
    // A link that has fallen by all carries nothing, and a base has at least a byte.
    let Some((permille, plan)) = first else { return Err(Failure::bad("no fall loses a picture, which cannot be")) };
    let less = fallen(job, permille);
    let before = skipped(&now);
    // What is lost at this permille, not by all of the fall: with a smaller one the plan may skip
    // as many chunks, and others.
    let last = plan_of(&fallen(job, permille - 1))?;
    let lost: Vec<u16> = skipped(&plan).into_iter().filter(|i| !skipped(&last).contains(i)).collect();
    let mut text = match permille {
        1 => format!("the link may not fall at all, not by a permille: {shown} of {of} are shown now\n"),
        _ => format!(
            "the link may fall by {} ({} permille) in every slot: {shown} of {of} are still shown{}\n",
            percent(permille - 1),
            permille - 1,
            if skipped(&last) == before { String::new() } else { format!(", not the same ones: {}", skips(&last)) }
        ),
    };
    text += &format!("at {} a picture is lost: {} shown, {}\n", percent(permille), plan.counts[0], skips(&plan));
    let why = less.reasons().map_err(|refusal| Failure::refused("the reasons", refusal))?;
    for line in why.lines().filter(|line| lost.iter().any(|i| line.starts_with(&format!("chunk {i} layer 0: ")))).take(TOLD) {
        text += &format!("  {line}\n");
    }
    text += match (has_even_bases(job), before.is_empty() || held(job) >= job.chunks) {
        _ if permille == 1 => "",
        (true, _) => "all bases have one size, so every smaller fall loses nothing either (request 10)\n",
        (false, true) => "every smaller fall loses nothing either\n",
        (false, false) => "bases are uneven and the limit binds: each whole permille was tried, what lies between them was not\n",
    };
    out::text(&text)
}

/// The numbers of a list: `12,24,36`, `12..36`, `12..60/12`.
fn list(name: &str, words: &str, low: u64, high: u64) -> Result<Vec<u64>, Failure> {
    let about = format!("--{name}");
    let mut numbers = Vec::new();
    for part in words.split(',') {
        let (range, step) = match part.split_once('/') {
            Some((range, step)) => (range, args::number(&about, step, 1..=high.max(1))?),
            None => (part, 1),
        };
        match range.split_once("..") {
            None if part.contains('/') => {
                return Err(Failure::usage(format!("{about} {}: a step stands behind a range, as in 12..60/12", printable(part))));
            }
            None => numbers.push(args::number(&about, range, low..=high)?),
            Some((from, to)) => {
                let (from, to) = (args::number(&about, from, low..=high)?, args::number(&about, to, low..=high)?);
                if from > to {
                    return Err(Failure::usage(format!("{about} {}: the range begins above its end", printable(part))));
                }
                numbers.extend((from..=to).step_by(step as usize).take(ROWS + 1));
            }
        }
        if numbers.len() > ROWS {
            return Err(Failure::usage(format!("{about}: a table has at most {} rows", thousands(ROWS as u64))));
        }
    }
    Ok(numbers)
}

/// The job with its first layers alone.
fn layered(job: &Job, layers: u64) -> Job {
    let mut other = job.clone();
    other.sizes.truncate(layers as usize);
    other.overrides.retain(|o| u64::from(o.layer) < layers);
    other
}

fn what_if(args: Args) -> Result<(), Failure> {
    let loaded = files::job(args.path(0))?;
    let job = &loaded.job;
    let then = then(&args, job)?;
    let longest = SLOTS as u64 - u64::from(last(job) - u32::from(job.delay));
    let named = |name: &str, own: u64, low: u64, high: u64| match args.text(name) {
        Some(words) => list(name, &words, low, high),
        None => Ok(vec![own]),
    };
    let mut limits = named("limit", u64::from(job.limit), 0, 65535)?;
    let delays = named("delay", u64::from(job.delay), 1, longest)?;
    let layers = named("layers", job.sizes.len() as u64, 1, job.sizes.len() as u64)?;
    if !["limit", "delay", "layers"].iter().any(|name| args.flag(name)) {
        let (own, span) = (u64::from(held(job)), u64::from(job.span));
        limits = (own.saturating_sub(2)..=(own + 4).min(u64::from(job.chunks)).max(own)).map(|chunks| (chunks * span).min(65535)).collect();
    }
    if limits.len() * delays.len() * layers.len() > ROWS {
        return Err(Failure::usage(format!("a table has at most {} rows", thousands(ROWS as u64))));
    }
    let drawn_out = delays.iter().max().is_some_and(|delay| *delay > u64::from(job.delay));
    let mut text = String::from("limit  held  delay  layers  shown  skipped  longest  carried                     bytes left\n");
    for limit in &limits {
        for delay in &delays {
            for count in &layers {
                let tried = Job { limit: *limit as u16, ..delayed(&layered(job, *count), *delay as u16, then) };
                text += &table_row(job, &tried)?;
            }
        }
    }
    text += "longest: the longest run of skipped chunks; * the job as it is\n";
    if drawn_out {
        text += &format!(
            "assumed: slots after the forecast's end of {} each (--then BYTES says otherwise)\n",
            counted(u64::from(then), "byte")
        );
    }
    out::text(&text)
}

fn table_row(own: &Job, tried: &Job) -> Result<String, Failure> {
    let plan = plan_of(tried)?;
    let skipped = skipped(&plan);
    let longest = crate::programme::runs(&skipped).iter().map(|(a, b)| b - a + 1).max().unwrap_or(0);
    let fetched: u64 = plan.list.rows().map(|row| u64::from(row.bytes)).sum();
    let left = tried.forecast.iter().map(|bytes| u64::from(*bytes)).sum::<u64>() - fetched;
    Ok(format!(
        "{:>5}  {:>4}  {:>5}  {:>6}  {:>5}  {:>7}  {:>7}  {:<18}  {:>18}{}\n",
        tried.limit,
        held(tried),
        tried.delay,
        tried.sizes.len(),
        plan.counts[0],
        skipped.len(),
        longest,
        counts(tried, &plan),
        thousands(left),
        if tried == own { " *" } else { "" }
    ))
}
