//! The page of a rehearsal: one file, with the picture of what was shown, a slider over the seconds
//! of the act, and each skip with its reason. Nothing of it comes from outside.
use crate::draw::canvas::{escape, px, Canvas, LEFT};
use crate::draw::film::Film;
use crate::draw::panels::{self, Link};
use crate::draw::reasons::{self, Why, Whys};
use crate::rehearse::watch::{Skip, Slot, Watch};
use crate::rehearse::ways::{on_link, Fetched, Figures};
use crate::rehearse::{mean, Rehearsal, WAYS};
use crate::words::{counted, thousands};
use film_planner::Job;
use std::fmt::Write;

const FORM: &str = include_str!("page.html");

/// The page of a rehearsal whose act was watched.
pub fn html(rehearsal: &Rehearsal, watch: &Watch, skips: &[Skip], figures: &[Figures; 3], title: &str) -> String {
    let job = &on_link(rehearsal.job, &rehearsal.link.bytes);
    let film = Film::new(job, &rehearsal.act.marks, &rehearsal.act.list);
    let picture = Picture::new(rehearsal, job, skips);
    let shown = format!("{} of {} shown, {} skipped", film.chunks() - skips.len(), counted(film.chunks() as u64, "chunk"), skips.len());
    let sentence = format!("{title} on {}: {shown}", rehearsal.link.name);
    let parts = [
        ("TITLE", escape(&sentence)),
        ("ABOUT", escape(&about(&film))),
        ("TABLE", table(job, figures)),
        ("REFUSED", refused(rehearsal)),
        ("LAST", film.last.to_string()),
        ("SKIPS", listed(skips)),
        ("DATA", data(&film, rehearsal, &watch.slots, skips, &picture)),
        ("PICTURE", picture.svg),
    ];
    filled(&parts)
}

/// The form with each part in its places. A part is put in once and not looked into again.
fn filled(parts: &[(&str, String)]) -> String {
    let mut out = String::new();
    for (k, piece) in FORM.split("[[").enumerate() {
        let (name, rest) = if k == 0 { ("", piece) } else { piece.split_once("]]").unwrap_or(("", piece)) };
        out.push_str(parts.iter().find(|(own, _)| *own == name).map_or("", |(_, text)| text));
        out.push_str(rest);
    }
    out
}

fn about(film: &Film) -> String {
    let chunks = format!("{} of {}", counted(film.chunks() as u64, "chunk"), counted(film.span() as u64, "second"));
    let due = format!("due in slots {} to {}", thousands(film.job.delay.into()), thousands(film.last as u64));
    let limit = format!("limit {}, which holds {}", film.job.limit, counted(film.places as u64, "chunk"));
    format!("{chunks}, {due}; {limit}. The act sees in each second what came, and nothing of the link to come.")
}

fn table(job: &Job, figures: &[Figures; 3]) -> String {
    let heads = ["", "skipped", "longest freeze", "chunks by layer", "switch sum", "bytes wasted"];
    let mut out = format!("<thead><tr>{}</tr></thead><tbody>", heads.map(|head| format!("<th>{head}</th>")).concat());
    for (k, (way, figures)) in WAYS.iter().zip(figures).enumerate() {
        let layers: Vec<String> = figures.layers[..job.sizes.len().min(4)].iter().map(|n| mean(*n, 1)).collect();
        let freeze = format!("{} s", thousands(figures.freeze));
        let cells = [thousands(figures.skipped), freeze, layers.join(" "), thousands(figures.switch), thousands(figures.wasted)];
        let own = if k == 1 { " class=\"own\"" } else { "" };
        let _ = write!(out, "<tr{own}><td>{way}</td>{}</tr>", cells.map(|cell| format!("<td>{cell}</td>")).concat());
    }
    out + "</tbody>"
}

fn refused(rehearsal: &Rehearsal) -> String {
    match rehearsal.refused.first() {
        None => String::new(),
        Some((slot, refusal)) => {
            let times = counted(rehearsal.refused.len() as u64, "slot");
            let words = format!("Planning afresh was refused in {times}, first in slot {slot}, and fetched nothing there. {refusal}");
            format!("<p class=\"grey\">{}</p>", escape(&words))
        }
    }
}

fn listed(skips: &[Skip]) -> String {
    let one = |skip: &Skip| {
        let place = format!("<button type=\"button\" data-slot=\"{}\">slot {}</button>", skip.due, thousands(skip.due as u64));
        format!("<li><b>chunk {}</b> {place} {}</li>\n", skip.chunk, escape(&skip.sentence()))
    };
    match skips.len() {
        0 => "<li>It skipped nothing.</li>".to_string(),
        _ => skips.iter().map(one).collect(),
    }
}

/// The picture, and where in it the slots are.
struct Picture {
    svg: String,
    each: f64,
    top: f64,
    bottom: f64,
}

impl Picture {
    fn new(rehearsal: &Rehearsal, job: &Job, skips: &[Skip]) -> Picture {
        let film = |way: &Fetched| Film::new(job, &way.marks, &way.list);
        let (known, act, afresh) = (film(&rehearsal.known), film(&rehearsal.act), film(&rehearsal.afresh));
        let mut whys = came(&act);
        for skip in skips {
            let line = format!("chunk {} layer 0: {}", skip.chunk, skip.sentence());
            whys.insert((skip.chunk, 0), Why { line, stretch: None, limit: None });
        }
        let known_whys = reasons::read(&known, &job.reasons().unwrap_or_default());
        let mut c = Canvas::new(&act);
        panels::legend(&mut c, &act, Link::Carried);
        panels::film(&mut c, &act, &whys, "The act", Some("c"));
        panels::film(&mut c, &known, &known_whys, "The plan that knew the link", None);
        panels::film(&mut c, &afresh, &came(&afresh), "The meter, planning afresh", None);
        let top = c.y + 14.0;
        panels::link(&mut c, &act, Link::Carried);
        panels::held(&mut c, &act);
        panels::chunks(&mut c, &act, &whys);
        let bottom = c.y - 16.0;
        c.add("<path id=\"cursor\" d=\"M0 0\"/><rect id=\"tile\" width=\"0\" height=\"0\" visibility=\"hidden\"/>");
        let each = c.wide(1);
        Picture { svg: c.whole("What was shown", crate::draw::natural(&act)), each, top, bottom }
    }
}

/// Of each layer that is not shown how much came.
fn came(film: &Film) -> Whys {
    let mut whys = Whys::new();
    for chunk in 1..=film.chunks() {
        for layer in film.level(chunk)..film.layers() {
            let of = format!("{} of {} came", thousands(film.sum(chunk, layer)), counted(film.size(chunk, layer), "byte"));
            whys.insert((chunk, layer), Why { line: format!("chunk {chunk} layer {layer}: {of}"), stretch: None, limit: None });
        }
    }
    whys
}

/// What the slider shows, as the page's script reads it: numbers alone.
fn data(film: &Film, rehearsal: &Rehearsal, slots: &[Slot], skips: &[Skip], picture: &Picture) -> String {
    let list = |numbers: &mut dyn Iterator<Item = String>| format!("[{}]", numbers.collect::<Vec<_>>().join(","));
    let sizes = list(&mut (1..=film.chunks()).map(|i| list(&mut (0..film.layers()).map(|n| film.size(i, n).to_string()))));
    let shown = list(&mut (1..=film.chunks()).map(|i| film.level(i).to_string()));
    let link = list(&mut rehearsal.link.bytes.iter().map(u32::to_string));
    let rate = list(&mut slots.iter().map(|slot| slot.rate.map_or("null".to_string(), |rate| rate.to_string())));
    let rows = list(&mut rehearsal.act.list.rows().map(|row| format!("[{},{},{},{}]", row.slot, row.chunk, row.layer, row.bytes)));
    let asks = list(&mut slots.iter().map(|slot| {
        let first = list(&mut slot.first.iter().map(|piece| format!("[{},{},{}]", piece.chunk, piece.layer, piece.bytes)));
        format!("[{},{},{first},{}]", slot.pieces, slot.asked, list(&mut slot.passed.iter().map(usize::to_string)))
    }));
    let skips = list(&mut skips.iter().map(|skip| skip.due.to_string()));
    let places =
        [("chunks", film.chunks()), ("span", film.span()), ("delay", film.job.delay.into()), ("places", film.places), ("last", film.last)];
    let mut out = String::from("{");
    for (name, value) in places {
        let _ = write!(out, "\"{name}\":{value},");
    }
    for (name, value) in [("left", LEFT), ("each", picture.each), ("top", picture.top), ("bottom", picture.bottom)] {
        let _ = write!(out, "\"{name}\":{},", if name == "each" { format!("{value:.6}") } else { px(value) });
    }
    let _ = write!(
        out,
        "\"sizes\":{sizes},\"shown\":{shown},\"link\":{link},\"rate\":{rate},\"rows\":{rows},\"asks\":{asks},\"skips\":{skips}}}"
    );
    out
}
