//! The page of a rehearsal and the pictures in a browser without a screen: the slider in every slot
//! against an act of the wrapper, the buttons and the address; pictures whose texts cover nothing and
//! stay inside. Where there is no chromium (or what `FILM_BROWSER` names), they are passed over with a
//! message.
// Random numbers are drawn from within the range that they are cut to.
#![allow(clippy::cast_possible_truncation)]
// A text is made line by line, and none is long.
#![allow(clippy::format_collect, clippy::format_push_string)]
use film_planner::{Act, Job, Override};
use std::ffi::OsString;
use std::io::Write;
use std::path::{Path, PathBuf};
use std::process::{Command, Output};

const ROOT: &str = concat!(env!("CARGO_MANIFEST_DIR"), "/..");

/// A folder of its own, which goes in the end.
struct Folder(PathBuf);

impl Folder {
    fn new(name: &str) -> Folder {
        let path = std::env::temp_dir().join(format!("film-{name}-{}", std::process::id()));
        std::fs::create_dir_all(&path).unwrap();
        Folder(path)
    }

    fn put(&self, name: &str, data: impl AsRef<[u8]>) -> PathBuf {
        let path = self.0.join(name);
        std::fs::write(&path, data).unwrap();
        path
    }
}

impl Drop for Folder {
    fn drop(&mut self) {
        let _ = std::fs::remove_dir_all(&self.0);
    }
}

fn browser() -> Option<OsString> {
    let wanted = std::env::var_os("FILM_BROWSER");
    let names = wanted.into_iter().chain(["chromium", "chromium-browser", "google-chrome"].map(OsString::from));
    let found = names.into_iter().find(|name| Command::new(name).arg("--version").output().is_ok_and(|out| out.status.success()));
    if found.is_none() {
        // Not by eprintln, which a test that passes keeps to itself.
        let _ = writeln!(std::io::stderr(), "no browser (chromium, or FILM_BROWSER): the page and the pictures were not tried in one");
    }
    found
}

fn film(words: &[&str]) -> Output {
    Command::new(env!("CARGO_BIN_EXE_film")).current_dir(ROOT).args(words).output().unwrap()
}

fn done(words: &[&str]) -> Vec<u8> {
    let out = film(words);
    assert!(out.status.success(), "{words:?}: {}", String::from_utf8_lossy(&out.stderr));
    out.stdout
}

/// The document after its scripts have run.
fn dom(browser: &OsString, folder: &Folder, page: &Path, hash: &str, wide: u32) -> String {
    let address = format!("file://{}{hash}", page.display());
    let profile = folder.0.join("profile");
    let out = Command::new(browser)
        .args(["--headless", "--no-sandbox", "--disable-gpu", "--virtual-time-budget=4000", "--dump-dom"])
        .arg(format!("--window-size={wide},1200"))
        .arg(format!("--user-data-dir={}", profile.display()))
        .arg(address)
        .output()
        .unwrap();
    String::from_utf8(out.stdout).unwrap()
}

/// The text of an element that has this id and no element of its own kind inside.
fn inside(dom: &str, kind: &str, id: &str) -> String {
    let from = dom.split(&format!("<{kind} id=\"{id}\"")).nth(1).unwrap_or_else(|| panic!("no {id} in {dom}"));
    let from = from.split_once('>').unwrap().1.split(&format!("</{kind}>")).next().unwrap();
    let mut text = String::new();
    let mut tag = false;
    for c in from.chars() {
        match c {
            '<' => tag = true,
            '>' => tag = false,
            c if !tag => text.push(c),
            _ => {}
        }
    }
    text.replace("&amp;", "&").replace("&lt;", "<").replace("&gt;", ">")
}

/// The page with one more script at its end.
fn with_script(folder: &Folder, page: &Path, name: &str, script: &str) -> PathBuf {
    let text = std::fs::read_to_string(page).unwrap();
    assert_eq!(text.matches("</body>").count(), 1);
    folder.put(name, text.replace("</body>", &format!("<pre id=\"trial\"></pre><script>{script}</script></body>")))
}

/// Moves the slider to every slot, as a hand would, and writes down what the page says.
const EVERY_SLOT: &str = "
var said = [], slider = document.getElementById('slot');
var text = function (id) { return document.getElementById(id).textContent; };
for (var t = 1; t <= Number(slider.max); t += 1) {
  slider.value = t;
  slider.dispatchEvent(new Event('input'));
  said.push([text('now'), text('screen'), text('brought'), text('asks'), text('held')].join('|'));
}
document.getElementById('trial').textContent = said.join('\\n');";

fn thousands(n: u64) -> String {
    let digits = n.to_string();
    let parts: Vec<&str> = digits.as_bytes().rchunks(3).rev().map(|part| std::str::from_utf8(part).unwrap()).collect();
    parts.join(",")
}

fn bytes(n: u64) -> String {
    format!("{} byte{}", thousands(n), if n == 1 { "" } else { "s" })
}

fn due(job: &Job, i: u64) -> u64 {
    (i - 1) * u64::from(job.span) + u64::from(job.delay)
}

/// What the page has to say in a slot, from the act alone: the part of asks and brought.
fn expected_slot(act: &Act, carries: u64) -> (String, String, u32) {
    let asked: u64 = act.asks().iter().map(|piece| u64::from(piece.bytes)).sum();
    let brought = asked.min(carries);
    let unused =
        if carries > brought { format!("{} unused: nothing more was asked", bytes(carries - brought)) } else { "nothing unused".into() };
    let rate = match act.meter().kept {
        0 => "rate unknown: no slot has told yet".to_string(),
        _ => format!("rate {} a slot, as measured", bytes(act.rate().into())),
    };
    let mut asks = match act.asks().len() {
        0 => "nothing".to_string(),
        n => format!("{} in {} piece{}", bytes(asked), thousands(n as u64), if n == 1 { "" } else { "s" }),
    };
    let mut left = brought;
    for piece in act.asks().iter().take(12) {
        let got = left.min(piece.bytes.into());
        left -= got;
        asks += &format!("chunk {} layer {}: {} of {}", piece.chunk, piece.layer, thousands(got), thousands(piece.bytes.into()));
    }
    match act.asks().len().saturating_sub(12) {
        0 => {}
        1 => asks += "and 1 piece more",
        n => asks += &format!("and {} pieces more", thousands(n as u64)),
    }
    (format!("{} brought of {} that the link carried{unused}{rate}", bytes(brought), bytes(carries)), asks, brought as u32)
}

fn expected_held(job: &Job, act: &Act, slot: u64) -> String {
    let mut begun: Vec<u64> = act.fetched().rows().map(|row| row.chunk.into()).filter(|i| due(job, *i) > slot).collect();
    begun.sort_unstable();
    begun.dedup();
    let places = u64::from(job.limit / job.span);
    let limit = match begun.len() as u64 {
        _ if places >= job.chunks.into() => "the limit holds them all".to_string(),
        n if n >= places => "as many as the limit allows".to_string(),
        _ => format!("the limit allows {}", thousands(places)),
    };
    let mut held = format!("{} chunk{}, {limit}", begun.len(), if begun.len() == 1 { "" } else { "s" });
    let more = begun.len().saturating_sub(12);
    for i in begun.into_iter().take(12) {
        held += &format!("chunk {i}, due in slot {}", thousands(due(job, i)));
    }
    if more > 0 {
        held += &format!("and {more} more");
    }
    held
}

fn expected_screen(job: &Job, marks: &[u8], slot: u64) -> String {
    if slot < u64::from(job.delay) {
        return format!("Nothing is due yet: chunk 1 is due in slot {}.", thousands(job.delay.into()));
    }
    let i = (slot - u64::from(job.delay)) / u64::from(job.span) + 1;
    let level = |i: u64| marks[i as usize - 1].count_ones();
    match level(i) {
        0 => {
            let last = (1..i).rev().find(|k| level(*k) > 0);
            let what = last.map_or("no picture yet".to_string(), |k| format!("the screen stands on chunk {k}"));
            format!("Chunk {i} is skipped: {what}, since slot {}.", thousands(due(job, last.unwrap_or(0) + 1)))
        }
        1 => format!("On the screen: chunk {i} in 1 layer."),
        n => format!("On the screen: chunk {i} in {n} layers."),
    }
}

/// The page of the job on its own forecast as the link, in every slot. Says how many chunks were
/// skipped, and in how many slots somebody was passed over.
fn every_slot(browser: &OsString, folder: &Folder, job: &Job) -> (usize, usize) {
    let file = folder.put("job", job.write().unwrap());
    let page = folder.0.join("rehearsal.html");
    let (file, at) = (file.to_str().unwrap(), page.to_str().unwrap());
    done(&["rehearse", file, "--trace", file, "--page", at]);
    let tried = with_script(folder, &page, "every.html", EVERY_SLOT);
    let said = inside(&dom(browser, folder, &tried, "", 1000), "pre", "trial");
    let said: Vec<&str> = said.lines().collect();
    assert_eq!(said.len(), job.forecast.len());
    let mut act = Act::new(job.clone()).unwrap();
    let mut wanted = Vec::new();
    for (k, carries) in job.forecast.iter().enumerate() {
        let slot = k as u64 + 1;
        let (brought, asks, came) = expected_slot(&act, (*carries).into());
        act.brought(came);
        let now = format!("slot {} of {}", thousands(slot), thousands(said.len() as u64));
        wanted.push((now, brought, asks, expected_held(job, &act, slot)));
    }
    let marks = act.shown().marks;
    let mut passed = 0;
    for (k, ((now, brought, asks, held), said)) in wanted.iter().zip(&said).enumerate() {
        let said: Vec<&str> = said.split('|').collect();
        let (told, over) = said[3].split_once("passed over").map_or((said[3], false), |(told, _)| (told, true));
        passed += usize::from(over);
        assert_eq!((said[0], said[2], told, said[4]), (now.as_str(), brought.as_str(), asks.as_str(), held.as_str()));
        assert_eq!(said[1], expected_screen(job, &marks, k as u64 + 1));
    }
    (marks.iter().filter(|mark| **mark & 1 == 0).count(), passed)
}

#[test]
fn the_slider_says_what_the_act_did_in_every_slot() {
    let Some(browser) = browser() else { return };
    let folder = Folder::new("slider");
    let flight = Job::read(&done(&["make", "samples/flight.txt"])).unwrap();
    let (skipped, passed) = every_slot(&browser, &folder, &flight);
    assert!(skipped == 4 && passed > 0, "{skipped} {passed}");
    let mut r = Random(5);
    let forecast = (0..640).map(|_| if r.below(6) == 0 { 0 } else { r.below(62_000) }).collect();
    let many = Job { chunks: 200, span: 3, delay: 43, limit: 50, sizes: vec![90_000, 40_000, 30_000, 9], overrides: vec![], forecast };
    let (skipped, passed) = every_slot(&browser, &folder, &many);
    assert!(skipped > 5 && passed > 5, "{skipped} {passed}");
    // No place to hold anything; then room for all, and nothing ever shown.
    every_slot(&browser, &folder, &Job { limit: 0, ..flight.clone() });
    let dead = Job { limit: 65535, forecast: vec![0; flight.forecast.len()], ..flight };
    assert_eq!(every_slot(&browser, &folder, &dead), (30, 0));
}

/// Presses the buttons and changes the address, one after the other, and writes down where the slider
/// is after each. The skips of the sample's act are due in slots 102 to 120.
const BUTTONS: &str = "
var said = [], at = function (id) { return document.getElementById(id); };
var say = function (what) { said.push(what + ' ' + at('now').textContent + ' ' + at('slot').value + ' ' + document.body.getAttribute('data-slot')); };
say('opened');
at('on').click(); at('on').click(); at('on').click(); say('on');
at('back').click(); say('back');
at('skip').click(); say('skip');
at('skip').click(); say('skip');
document.querySelectorAll('#skips button')[3].click(); say('reason');
at('skip').click(); say('first');
var addresses = ['slot=33', 'slot=0', 'slot=99999', 'nothing', 'slot=186'];
var next = function () {
  if (!addresses.length) { at('on').click(); say('end'); at('trial').textContent = said.join('\\n'); return; }
  var address = addresses.shift();
  location.hash = address;
  setTimeout(function () { say(address); next(); }, 100);
};
next();";

#[test]
fn the_buttons_and_the_address_move_the_slider() {
    let Some(browser) = browser() else { return };
    let folder = Folder::new("buttons");
    let page = folder.0.join("rehearsal.html");
    done(&["rehearse", "samples/flight.txt", "--trace", "samples/flight.txt", "--page", page.to_str().unwrap()]);
    let tried = with_script(&folder, &page, "buttons.html", BUTTONS);
    let said = inside(&dom(&browser, &folder, &tried, "#slot=77", 600), "pre", "trial");
    let wanted = [
        ("opened", 77),
        ("on", 80),
        ("back", 79),
        ("skip", 102),
        ("skip", 108),
        ("reason", 120),
        ("first", 102),
        ("slot=33", 33),
        ("slot=0", 1),
        ("slot=99999", 186),
        ("nothing", 186),
        ("slot=186", 186),
        ("end", 186),
    ];
    let wanted: Vec<String> = wanted.iter().map(|(what, slot)| format!("{what} slot {slot} of 186 {slot} {slot}")).collect();
    assert_eq!(said.lines().collect::<Vec<_>>(), wanted);
    let alone = dom(&browser, &folder, &page, "", 600);
    assert_eq!(inside(&alone, "output", "now"), "slot 1 of 186");
}

/// Every text of a picture against every other and against the edges.
const TEXTS: &str = "
var found = [];
Array.prototype.forEach.call(document.querySelectorAll('svg'), function (svg) {
  var name = svg.parentNode.id, edge = svg.getBoundingClientRect();
  var texts = Array.prototype.map.call(svg.querySelectorAll('text'), function (t) { return [t.textContent, t.getBoundingClientRect()]; });
  found.push(name + ' texts ' + texts.length + ' smallest ' + Math.min.apply(null, texts.map(function (t) { return t[1].height; })).toFixed(1));
  texts.forEach(function (a, k) {
    if (a[1].left < edge.left - 1 || a[1].right > edge.right + 1 || a[1].bottom > edge.bottom + 1 || a[1].top < edge.top - 1) {
      found.push(name + ' outside: ' + a[0]);
    }
    texts.slice(k + 1).forEach(function (b) {
      var wide = Math.min(a[1].right, b[1].right) - Math.max(a[1].left, b[1].left);
      var high = Math.min(a[1].bottom, b[1].bottom) - Math.max(a[1].top, b[1].top);
      if (wide > 1 && high > 0.32 * Math.min(a[1].height, b[1].height)) { found.push(name + ' covered: ' + a[0] + ' / ' + b[0]); }
    });
  });
  var bars = svg.querySelectorAll('rect.hi, rect.l0, rect.l1, rect.l2, rect.l3, rect[fill], rect.in, path.si[stroke-linecap]');
  var untitled = Array.prototype.filter.call(bars, function (r) {
    return !r.querySelector('title') && !(r.getAttribute('width') === '16' && r.getAttribute('height') === '13');
  });
  if (untitled.length) { found.push(name + ' without a title: ' + untitled.length); }
});
document.getElementById('trial').textContent = found.join('\\n');";

struct Random(u64);

impl Random {
    fn below(&mut self, n: u32) -> u32 {
        self.0 = self.0.wrapping_mul(6_364_136_223_846_793_005).wrapping_add(1_442_695_040_888_963_407);
        ((self.0 >> 33) % u64::from(n.max(1))) as u32
    }
}

/// Small films and large, lean links and rich ones.
fn random_job(r: &mut Random) -> Job {
    loop {
        let most = [4, 30, 120, 500][r.below(4) as usize];
        let longest = [9, 200, 3000][r.below(3) as usize];
        let (chunks, span, delay) = (1 + r.below(most) as u16, 1 + r.below(9) as u16, 1 + r.below(longest) as u16);
        let slots = (usize::from(chunks) - 1) * usize::from(span) + usize::from(delay);
        if slots > 3600 {
            continue;
        }
        let scale = 10u32.pow(r.below(6));
        let sizes: Vec<u32> = (0..=r.below(4)).map(|_| scale * (1 + r.below(20))).collect();
        let overrides =
            (2..=chunks).filter(|_| r.below(5) == 0).map(|chunk| Override { chunk, layer: 0, bytes: sizes[0] + 1 + scale }).collect();
        let rich = 1 + r.below(30);
        let mut level = scale * rich;
        let mut carries = || {
            level = (level + r.below(scale * 4)).saturating_sub(scale * 2).min(16_000_000);
            if r.below(9) == 0 {
                0
            } else {
                level
            }
        };
        let forecast = (0..slots).map(|_| carries()).collect();
        return Job { chunks, span, delay, limit: r.below(60) as u16, sizes, overrides, forecast };
    }
}

#[test]
fn texts_of_pictures_cover_nothing_and_stay_inside() {
    let Some(browser) = browser() else { return };
    let folder = Folder::new("pictures");
    let mut r = Random(9);
    let mut pictures =
        vec![("flight".to_string(), done(&["draw", "samples/flight.txt"])), ("a".to_string(), done(&["draw", "samples/a.job"]))];
    for k in 0..40 {
        let job = folder.put("job", random_job(&mut r).write().unwrap());
        pictures.push((format!("random{k}"), done(&["draw", job.to_str().unwrap(), "--title", "A film with a long name & <more>"])));
    }
    let body: String = pictures.iter().map(|(name, svg)| format!("<div id=\"{name}\">{}</div>", String::from_utf8_lossy(svg))).collect();
    let whole = format!(
        "<!DOCTYPE html><meta charset=\"utf-8\"><body style=\"margin:0\">{body}<pre id=\"trial\"></pre><script>{TEXTS}</script></body>"
    );
    let page = folder.put("pictures.html", whole);
    for wide in [600, 1000, 1600] {
        let said = inside(&dom(&browser, &folder, &page, "", wide), "pre", "trial");
        let bad: Vec<&str> = said.lines().filter(|line| !line.contains(" texts ")).collect();
        assert!(bad.is_empty(), "{wide} px: {bad:#?}");
        assert_eq!(said.lines().count(), pictures.len());
        // Eleven pixels of type are about thirteen of line.
        for line in said.lines() {
            let smallest: f64 = line.rsplit(' ').next().unwrap().parse().unwrap();
            assert!(smallest >= 12.0, "{wide} px: {line}");
        }
    }
}
