//! The panels of a picture: head, film, reasons, link, buffer, chunks.
use super::canvas::{broken, nice, px, short_bytes, step_of, thousands, wide, Canvas, EDGE, LEFT, SMALL, VIEW, WIDTH};
use super::film::{runs, Film, LAYERS};
use super::reasons::{title, Stretch, Whys};
use crate::words::counted;
use std::collections::BTreeMap;

/// The most stretches that are written out.
const LANES: usize = 6;
/// A row of at least this height takes a text.
const TALL: f64 = 13.0;
/// The narrowest tile of a chunk in the film; narrower ones are broken into lines.
const TILE: f64 = 6.0;
const LINE: usize = 100;
/// Small neighbours overlap a little, or the paper would shine through between them.
const SEAM: f64 = 0.3;

/// What the link is called in titles: a plan's forecast, or what an act met.
#[derive(Clone, Copy, PartialEq, Eq)]
pub enum Link {
    Forecast,
    Carried,
}

impl Link {
    fn named(self) -> &'static str {
        match self {
            Link::Forecast => "forecast",
            Link::Carried => "the link carried",
        }
    }
}

fn count(n: usize, thing: &str) -> String {
    counted(n as u64, thing)
}

fn named(first: usize, last: usize, between: &str) -> String {
    if first == last {
        first.to_string()
    } else {
        format!("{first}{between}{last}")
    }
}

/// The longest first.
fn longest(mut found: Vec<(usize, usize)>) -> Vec<(usize, usize)> {
    found.sort_by_key(|(a, b)| std::cmp::Reverse(b - a));
    found
}

/// What is shown and what the picture is of; the sentence is the picture's title.
pub fn head(c: &mut Canvas, film: &Film, called: &str) -> String {
    let skipped = film.skipped().len();
    let sentence = format!("{} of {} shown, {skipped} skipped", film.chunks() - skipped, count(film.chunks(), "chunk"));
    let sentence = if called.is_empty() { sentence } else { format!("{called}: {sentence}") };
    c.y = 6.0;
    c.words(&sentence, 20.0, "in", true);
    c.y += 2.0;
    let last = thousands(film.last as u64);
    let due = format!(
        "{} of {}, due in slots {} to {last}.",
        count(film.chunks(), "chunk"),
        count(film.span(), "slot"),
        thousands(film.job.delay.into())
    );
    let holds = format!("The buffer's limit of {} holds {}.", counted(film.job.limit.into(), "slot"), count(film.places, "chunk"));
    c.words(&format!("{due} {holds}"), SMALL, "gr", false);
    let (all, spent) = (film.job.forecast.iter().map(|b| u64::from(*b)).sum::<u64>(), film.all_fetched());
    let left = thousands(all.saturating_sub(spent));
    c.words(&format!("{} of {} bytes of the forecast are fetched, {left} left.", thousands(spent), thousands(all)), SMALL, "gr", false);
    sentence
}

/// What the colours and marks say.
pub fn legend(c: &mut Canvas, film: &Film, link: Link) {
    let counts = film.counts();
    let mut entries: Vec<(String, String)> =
        counts.iter().enumerate().map(|(n, shown)| (format!("l{n}"), format!("layer {n}: {shown} of {}", film.chunks()))).collect();
    entries.push(("missing".into(), "layer missing".into()));
    entries.push(("skipped".into(), format!("skipped: {}", film.skipped().len())));
    if film.wasted() > 0 {
        entries.push(("wa".into(), "fetched, not shown".into()));
    }
    entries.push(("link".into(), if link == Link::Forecast { "forecast" } else { "carried" }.into()));
    c.y += 24.0;
    let mut x = EDGE;
    for (kind, words) in entries {
        let room = 21.0 + wide(&words, SMALL, false) + 12.0;
        if x + room > VIEW {
            (x, c.y) = (EDGE, c.y + 20.0);
        }
        swatch(c, &kind, x, c.y - 11.0);
        c.text((x + 21.0, c.y), &words, SMALL, "start", "in", false);
        x += room;
    }
}

fn swatch(c: &mut Canvas, kind: &str, x: f64, y: f64) {
    match kind {
        "skipped" => {
            c.rect((x, y), (16.0, 13.0), "in", None);
            c.cross(x + 8.0, y + 6.5, 3.2, "sa", None);
        }
        "missing" => hatched(c, (x, y), (16.0, 13.0), None),
        "link" => {
            c.rect((x, y + 2.0), (16.0, 11.0), "li", None);
            c.line((x, y + 2.0), (x + 16.0, y + 2.0), "si", 1.2, "");
        }
        layer => c.rect((x, y), (16.0, 13.0), layer, None),
    }
}

fn hatched(c: &mut Canvas, at: (f64, f64), size: (f64, f64), title: Option<&str>) {
    let head =
        format!("<rect fill=\"url(#hatch)\" x=\"{}\" y=\"{}\" width=\"{}\" height=\"{}\"", px(at.0), px(at.1), px(size.0), px(size.1));
    match title {
        Some(title) => c.add(&format!("{head}><title>{}</title></rect>", super::canvas::escape(title))),
        None => c.add(&format!("{head}/>")),
    }
}

/// A line of the film: its chunks, and where each begins and ends.
struct Tiles {
    chunks: (usize, usize),
    places: Vec<(f64, f64)>,
}

/// In line with the slots where a tile has room enough; else lines of a hundred with a scale of their
/// own.
fn tiles(c: &Canvas, film: &Film) -> (Vec<Tiles>, bool) {
    let all = film.chunks();
    if c.wide(film.span()) >= TILE {
        let places = (1..=all).map(|i| (c.x(film.due(i)), c.x(film.due(i) + film.span()))).collect();
        return (vec![Tiles { chunks: (1, all), places }], true);
    }
    let lines = all.div_ceil(LINE);
    let each = all.div_ceil(lines.max(1)).max(1);
    let tile = (WIDTH / each as f64).min(24.0);
    let line = |k: usize| {
        let (first, last) = (k * each + 1, ((k + 1) * each).min(all));
        Tiles {
            chunks: (first, last),
            places: (0..=last - first).map(|n| (LEFT + n as f64 * tile, LEFT + (n + 1) as f64 * tile)).collect(),
        }
    };
    ((0..lines).map(line).filter(|tiles| tiles.chunks.0 <= all).collect(), false)
}

/// A tile a chunk, a cell a layer, the base at the bottom. The tiles of a chunk are one group, named
/// where a name is asked for.
pub fn film(c: &mut Canvas, film: &Film, whys: &Whys, caption: &str, id: Option<&str>) {
    let (lines, aligned) = tiles(c, film);
    let along = if aligned { "each chunk from its due slot on" } else { "chunk by chunk" };
    c.panel(&format!("{caption}, {along}"));
    let cell = if lines.len() > 1 { 10.0 } else { 15.0 };
    for line in &lines {
        film_line(c, film, whys, line, cell, id);
    }
}

fn film_line(c: &mut Canvas, film: &Film, whys: &Whys, line: &Tiles, cell: f64, id: Option<&str>) {
    let (from, to) = line.chunks;
    let place = |i: usize| line.places[i - from];
    let high = cell * film.layers() as f64;
    c.y += 11.0;
    c.labels(c.y, &numbers(film, line));
    c.text((LEFT - 8.0, c.y), "chunk", SMALL, "end", "gr", false);
    c.y += 4.0;
    for n in 0..film.layers() {
        if cell >= TALL || film.layers() == 1 || n == 0 {
            c.text((LEFT - 8.0, c.y + high - cell * n as f64 - cell / 2.0 + 4.5), &format!("layer {n}"), SMALL, "end", "gr", false);
        }
    }
    for i in from..=to {
        let (x, end) = place(i);
        if let Some(id) = id {
            c.add(&format!("<g id=\"{id}{i}\">"));
        }
        tile(c, film, whys, i, (x, end), cell);
        if id.is_some() {
            c.add("</g>");
        }
    }
    outline(c, film, line, cell);
    c.y += high + 6.0;
}

/// Skipped chunks' numbers first, then as many as there is room for.
fn numbers(film: &Film, line: &Tiles) -> Vec<(f64, String, bool)> {
    let (from, to) = line.chunks;
    let middle = |a: usize, b: usize| (line.places[a - from].0 + line.places[b - from].1) / 2.0;
    let skipped: Vec<usize> = (from..=to).filter(|i| film.level(*i) == 0).collect();
    let room = (wide(&to.to_string(), SMALL, true) + 5.0) / (line.places[0].1 - line.places[0].0);
    let every = step_of(room, &[1, 2, 5, 10, 20, 50]);
    let found = if every == 1 { skipped.iter().map(|i| (*i, *i)).collect() } else { longest(runs(&skipped)) };
    let mut wanted: Vec<_> = found.iter().map(|(a, b)| (middle(*a, *b), named(*a, *b, "\u{2013}"), true)).collect();
    let shown = |i: usize| (middle(i, i), i.to_string(), false);
    wanted.extend([from, to].into_iter().filter(|i| film.level(*i) > 0).map(shown));
    wanted.extend((from..=to).filter(|i| film.level(*i) > 0 && i % every == 0).map(shown));
    wanted
}

fn tile(c: &mut Canvas, film: &Film, whys: &Whys, i: usize, (x, end): (f64, f64), cell: f64) {
    let (width, high, gap) = (end - x, cell * film.layers() as f64, if end - x >= 9.0 { 1.0 } else { -SEAM });
    if film.level(i) == 0 {
        let words: Vec<String> = (0..film.layers()).map(|n| title(whys, i, n)).collect();
        c.rect((x, c.y), (width - gap, high), "in", Some(&words.join("\n")));
        let arm = (width / 4.0).min(4.0);
        c.add("<g pointer-events=\"none\">");
        c.cross(x + (width - gap) / 2.0, c.y + high / 2.0, arm, "sa", None);
        c.add("</g>");
        return;
    }
    for n in 0..film.layers() {
        let y = c.y + high - cell * (n + 1) as f64;
        if n < film.level(i) {
            let from = thousands(film.due(i) as u64);
            let words = format!("chunk {i} layer {n}: {}, shown from slot {from} on", counted(film.size(i, n), "byte"));
            c.rect((x, y), (width - gap, cell + SEAM), &format!("l{n}"), Some(&words));
        } else {
            hatched(c, (x, y), (width - gap, cell + SEAM), Some(&title(whys, i, n)));
        }
    }
}

/// A line over what is shown: it says the number of layers without any colour.
fn outline(c: &mut Canvas, film: &Film, line: &Tiles, cell: f64) {
    let (from, to) = line.chunks;
    let high = cell * film.layers() as f64;
    let (mut d, mut drawn) = (String::new(), false);
    for i in from..=to {
        let (x, end) = line.places[i - from];
        let y = px(c.y + high - cell * film.level(i) as f64);
        match (film.level(i), drawn) {
            (0, _) => {}
            (_, false) => d += &format!("M{} {y}H{}", px(x), px(end)),
            (_, true) => d += &format!("V{y}H{}", px(end)),
        }
        drawn = film.level(i) > 0;
    }
    if !d.is_empty() {
        c.path(&d, "si", " stroke-width=\"1.3\" pointer-events=\"none\"");
    }
}

/// A stretch, and what there is to say of the limit.
type Reason = (Stretch, Option<String>);

/// The stretches that skipped bases were too much for: those of the longest skips, and what room
/// there is for others.
pub fn why(c: &mut Canvas, film: &Film, whys: &Whys) {
    let skipped = film.skipped();
    let stretch = |i: &usize| whys.get(&(*i, 0)).and_then(|why| why.stretch.map(|stretch| (stretch, why.limit.clone())));
    let mut told: Vec<(Reason, Vec<usize>)> = Vec::new();
    let by_run = longest(runs(&skipped)).into_iter().map(|(first, _)| first);
    for i in by_run.chain(skipped.iter().copied()) {
        let Some(found) = stretch(&i) else { continue };
        match told.iter_mut().find(|(known, _)| *known == found) {
            Some((_, chunks)) if !chunks.contains(&i) => chunks.push(i),
            Some(_) => {}
            None => told.push((found, vec![i])),
        }
    }
    if told.is_empty() {
        return;
    }
    c.panel("Why skipped: with the chunk, these slots would need more than they carry");
    c.y -= 4.0;
    told.truncate(LANES);
    told.sort_by_key(|(_, chunks)| chunks.iter().min().copied());
    let named: usize = told.iter().map(|(_, chunks)| chunks.len()).sum();
    for ((stretch, limit), mut chunks) in told {
        chunks.sort_unstable();
        lane(c, &stretch, limit, &chunks);
    }
    if skipped.len() > named {
        let more = count(skipped.len() - named, "chunk");
        c.y += 4.0;
        c.words(&format!("and {more} more: point at a skipped chunk of the film to read its reason"), SMALL, "gr", false);
    }
}

/// The stretch as a bar, which is a block where it is one slot, and its sentences under it.
fn lane(c: &mut Canvas, stretch: &Stretch, limit: Option<String>, chunks: &[usize]) {
    let of: Vec<String> = runs(chunks).iter().map(|(a, b)| named(*a, *b, " to ")).collect();
    let more = if of.len() > 3 { ", .." } else { "" };
    let of = format!("chunk{} {}{more}", if chunks.len() == 1 { "" } else { "s" }, of[..of.len().min(3)].join(", "));
    let (first, last) = (thousands(stretch.first as u64), thousands(stretch.last as u64));
    let (carry, need) = (thousands(stretch.carry), thousands(stretch.need));
    let words = match first == last {
        true => format!("{of}: slot {first} carries {carry}, needs {need}."),
        false => format!("{of}: slots {first} to {last} carry {carry}, need {need}."),
    };
    let limit = limit.unwrap_or_else(|| "The link is the cause: no limit plays a part.".to_string());
    let (x, end) = (c.x(stretch.first.saturating_sub(1)), c.x(stretch.last));
    let x = x.min(LEFT + WIDTH - 3.0);
    c.y += 11.0;
    c.rect((x, c.y - 5.0), ((end - x).max(3.0), 5.0), "in", Some(&format!("{words}\n{limit}")));
    let lines: Vec<String> = broken(&format!("{words} {limit}"), SMALL, false, VIEW - 2.0 * EDGE);
    let widest = lines.iter().map(|line| wide(line, SMALL, false)).fold(0.0, f64::max);
    let at = x.min(VIEW - EDGE - widest).max(EDGE);
    for line in lines {
        c.y += 15.5;
        c.text((at, c.y), &line, SMALL, "start", "in", false);
    }
    c.y += 3.0;
}

/// Slots as they are drawn: so many together that each can be seen.
fn bins(c: &Canvas, film: &Film) -> Vec<(usize, usize)> {
    let together = (2.4 / c.wide(1).max(0.001)).ceil() as usize;
    (0..film.last).step_by(together.max(1)).map(|a| (a, (a + together).min(film.last))).collect()
}

fn slots_named((a, b): (usize, usize)) -> String {
    match a + 1 == b {
        true => format!("slot {}", thousands(b as u64)),
        false => format!("slots {} to {}", thousands(a as u64 + 1), thousands(b as u64)),
    }
}

/// The link as an outline, filled with what was fetched over it.
pub fn link(c: &mut Canvas, film: &Film, link: Link) {
    let (bins, high) = (bins(c, film), 150.0);
    let together = bins.first().map_or(1, |(a, b)| b - a);
    let mean = if together > 1 { format!(", in means of {together}") } else { String::new() };
    let outline = if link == Link::Forecast { "forecast" } else { "carried" };
    c.panel(&format!("Link: bytes a slot {outline} (outline) and fetched{mean}"));
    c.y += 8.0;
    let over = |a: usize, b: usize, of: &dyn Fn(usize) -> u64| (a + 1..=b).map(of).sum::<u64>() as f64 / (b - a).max(1) as f64;
    let carried: Vec<(usize, f64)> = bins.iter().map(|(a, b)| (*a, over(*a, *b, &|t| film.carries(t)))).collect();
    let most = carried.iter().map(|(_, value)| *value).fold(1.0, f64::max);
    c.scale(high, most, nice(most / 4.0), |value| short_bytes(value, most));
    c.grid(film, high);
    let bottom = px(c.y + high);
    let d = c.steps(&carried, high, most);
    c.path(&format!("{d}V{bottom}Z"), "li", "");
    // Each layer is filled from the bottom, the base last, so that no seam shows between them.
    let kinds: Vec<usize> = if film.wasted() > 0 { (0..=LAYERS).collect() } else { (0..film.layers()).collect() };
    for k in (0..kinds.len()).rev() {
        let sums: Vec<_> = bins.iter().map(|(a, b)| (*a, over(*a, *b, &|t| kinds[..=k].iter().map(|n| film.spent(t)[*n]).sum()))).collect();
        let class = if kinds[k] == LAYERS { "wa".to_string() } else { format!("l{}", kinds[k]) };
        if kinds[k] == LAYERS || kinds[k] < film.layers() {
            let d = c.steps(&sums, high, most);
            c.path(&format!("{d}V{bottom}Z"), &class, "");
        }
    }
    let stroke = px((c.wide(together) / 5.0).clamp(0.7, 1.2));
    c.path(&format!("{d}V{bottom}"), "si", &format!(" stroke-width=\"{stroke}\" stroke-linejoin=\"round\""));
    for i in film.skipped() {
        c.arrow(c.x(film.due(i)), c.y - 1.0, "in");
    }
    for bin in bins {
        let words = link_title(film, bin, link);
        c.rect((c.x(bin.0), c.y), (c.x(bin.1) - c.x(bin.0), high), "hi", Some(&words));
    }
    c.y += high;
    c.axis();
}

/// What a bin carried, and which layers it brought.
fn link_title(film: &Film, (a, b): (usize, usize), link: Link) -> String {
    let carried: u64 = (a + 1..=b).map(|t| film.carries(t)).sum();
    let fetched: u64 = (a + 1..=b).map(|t| film.fetched(t)).sum();
    let mut words = format!("{}: {} {} bytes, fetched {}", slots_named((a, b)), link.named(), thousands(carried), thousands(fetched));
    let mut sums: BTreeMap<(u16, u8), u64> = BTreeMap::new();
    for row in (a + 1..=b).flat_map(|t| film.rows(t)) {
        *sums.entry((row.chunk, row.layer)).or_default() += u64::from(row.bytes);
    }
    for ((chunk, layer), bytes) in sums.iter().take(8) {
        words += &format!("\nchunk {chunk} layer {layer}: {}", thousands(*bytes));
    }
    if sums.len() > 8 {
        words += &format!("\nand {} more", sums.len() - 8);
    }
    words
}

/// Chunks held at the end of each slot, against the limit.
pub fn held(c: &mut Canvas, film: &Film) {
    let high = 60.0;
    let peak = (1..=film.last).map(|t| film.held(t)).max().unwrap_or(0);
    let whole = film.places >= film.chunks();
    let inside = !whole && film.places <= 4 * peak.max(1);
    let limit = match (whole, inside) {
        (true, _) => "the limit holds them all".to_string(),
        (_, true) => format!("in a strong tone at the limit of {}", film.places),
        _ => format!("the limit is {}, far above", film.places),
    };
    c.panel(&format!("Buffer: chunks held after each slot; {limit}"));
    let most = (if inside { film.places } else { peak }).max(1) as f64;
    c.scale(high, most, nice(most / 3.0), |value| thousands(value as u64));
    c.grid(film, high);
    let bins = bins(c, film);
    let top = |bin: &(usize, usize)| (bin.0 + 1..=bin.1).map(|t| film.held(t)).max().unwrap_or(0);
    let tops: Vec<(usize, f64)> = bins.iter().map(|bin| (bin.0, top(bin) as f64)).collect();
    let d = c.steps(&tops, high, most);
    c.path(&format!("{d}V{}Z", px(c.y + high)), "he", "");
    let full: Vec<usize> = (0..bins.len()).filter(|k| inside && film.places > 0 && top(&bins[*k]) == film.places).collect();
    for (a, b) in runs(&full) {
        let (x, end) = (c.x(bins[a].0), c.x(bins[b].1));
        c.rect((x, c.y), (end - x, high), "fu", None);
    }
    for bin in bins {
        let words = held_title(film, bin, inside && top(&bin) == film.places);
        c.rect((c.x(bin.0), c.y), (c.x(bin.1) - c.x(bin.0), high), "hi", Some(&words));
    }
    if inside {
        let y = c.y + high - film.places as f64 * high / most;
        c.line((LEFT, y), (LEFT + WIDTH, y), "si", 1.4, " stroke-dasharray=\"6 4\" pointer-events=\"none\"");
    }
    c.y += high;
    c.line((LEFT, c.y), (LEFT + WIDTH, c.y), "sg", 1.0, "");
    c.y += 2.0;
}

fn held_title(film: &Film, bin: (usize, usize), full: bool) -> String {
    let held: Vec<usize> = (bin.0 + 1..=bin.1).map(|t| film.held(t)).collect();
    let (least, most) = (held.iter().min().copied().unwrap_or(0), held.iter().max().copied().unwrap_or(0));
    let words = match held.len() {
        1 if most > 0 => format!("{} held, {}", count(most, "chunk"), listed(&film.held_chunks(bin.1))),
        _ if most == 1 && least == 1 => "1 chunk held".to_string(),
        _ => format!("{} chunks held", named(least, most, " to ")),
    };
    let limit = match full {
        true => format!("\nas many as the limit of {} allows", counted(film.job.limit.into(), "slot")),
        false => String::new(),
    };
    format!("{}: {words}{limit}", slots_named(bin))
}

/// Numbers, the first few of them.
fn listed(numbers: &[usize]) -> String {
    let found: Vec<String> = runs(numbers).iter().map(|(a, b)| named(*a, *b, " to ")).collect();
    let more = if found.len() > 8 { ", .." } else { "" };
    format!("{}{more}", found[..found.len().min(8)].join(", "))
}

/// A bar a chunk, from its first byte to its due slot, in the colour of the highest layer it shows.
pub fn chunks(c: &mut Canvas, film: &Film, whys: &Whys) {
    let row = (420.0 / film.chunks().max(1) as f64).clamp(1.2, 16.0);
    let every = step_of(14.0 / row, &[1, 2, 5, 10, 20, 50]);
    c.panel("Chunks: from first byte to due slot, coloured by the highest layer");
    let high = row * film.chunks() as f64;
    if row < TALL {
        c.y += 8.0;
    }
    c.grid(film, high);
    for i in 1..=film.chunks() {
        let y = c.y + row * (i - 1) as f64;
        let (first, due) = (film.first(i), film.due(i));
        let begins = c.x(first.unwrap_or(due) - 1);
        if i % every == 0 || (i == 1 && every > 2) {
            c.text((LEFT - 8.0, y + row / 2.0 + 4.5), &i.to_string(), SMALL, "end", "gr", false);
            c.line((LEFT, y + row / 2.0), (begins, y + row / 2.0), "sp", 0.7, "");
        }
        let thick = if row >= 4.0 { row * 0.78 } else { row + SEAM };
        let top = y + (row - thick) / 2.0;
        if film.level(i) > 0 {
            c.rect((begins, top), (c.x(due) - begins, thick), &format!("l{}", film.level(i) - 1), Some(&chunk_title(film, i)));
            continue;
        }
        if first.is_some() {
            c.rect((begins, top), (c.x(due) - begins, thick), "wa", Some(&chunk_title(film, i)));
        }
        let words: Vec<String> = (0..film.layers()).map(|n| title(whys, i, n)).collect();
        c.cross(c.x(due), y + row / 2.0, (row / 3.0).clamp(2.2, 4.5), "si", Some(&words.join("\n")));
    }
    skips(c, film, row);
    c.y += high + 4.0;
    c.axis();
}

fn chunk_title(film: &Film, i: usize) -> String {
    let begun = film.first(i).map_or(String::new(), |first| format!(", from slot {} to its due slot", thousands(first as u64)));
    let shown: Vec<String> = (0..film.level(i)).map(|n| n.to_string()).collect();
    let what = match film.level(i) {
        0 => format!("skipped; {} fetched of it", counted((0..film.layers()).map(|n| film.sum(i, n)).sum(), "byte")),
        1 => format!("layer 0, {}", counted(film.shown(i), "byte")),
        _ => format!("layers {}, {}", shown.join(" "), counted(film.shown(i), "byte")),
    };
    format!("chunk {i}: {what}{begun} {}", thousands(film.due(i) as u64))
}

/// The skipped chunks beside their crosses, where no bar comes; in rows too low for a text as runs,
/// above their row, where every bar has ended, and of runs too near each other the longest.
fn skips(c: &mut Canvas, film: &Film, row: f64) {
    let skipped = film.skipped();
    let found = if row >= TALL { skipped.iter().map(|i| (*i, *i)).collect() } else { longest(runs(&skipped)) };
    let mut taken: Vec<f64> = Vec::new();
    for (a, b) in found {
        let (middle, words) = ((a + b) / 2, format!("{} skipped", named(a, b, " to ")));
        let y = c.y + row * (middle - 1) as f64 + if row >= TALL { row / 2.0 + 4.5 } else { row - 3.0 };
        let x = c.x(film.due(middle)) + 9.0;
        if taken.iter().all(|other| (y - other).abs() >= TALL) && x + wide(&words, SMALL, false) <= VIEW {
            c.text((x, y), &words, SMALL, "start", "in", false);
            taken.push(y);
        }
    }
}
