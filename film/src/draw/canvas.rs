//! The plane that panels are drawn on, one beneath the other: slots run from left to right.
use super::film::Film;
use std::fmt::Write;

/// All is drawn in this width. A picture of 600 px then has texts of eleven; a larger one is scaled.
pub const VIEW: f64 = 700.0;
pub const LEFT: f64 = 62.0;
pub const WIDTH: f64 = VIEW - LEFT - 12.0;
/// Where head, captions and reasons begin.
pub const EDGE: f64 = 10.0;
pub const SMALL: f64 = 13.0;

/// Colours by what they stand for. Layers go from dark to light, so that they are told apart in
/// grey as well, and lie between the paper and the ink of either mode.
pub const STYLE: &str = "\
.fp{background:#fff}.pa{fill:#fff}.in{fill:#1b1d20}.gr{fill:#565c64}.l0{fill:#0e4578}.l1{fill:#2d76c1}.l2{fill:#f19125}.l3{fill:#f7de75}\
.mi{fill:#fff}.ha{stroke:#9298a0}.li{fill:#f6f7f8}.he{fill:#a3aab3}.fu{fill:#6d747d}.wa{fill:url(#waste)}.hi{fill:transparent}\
.si{stroke:#1b1d20}.sg{stroke:#565c64}.sp{stroke:#dcdfe3}.sa{stroke:#fff}\
@media (prefers-color-scheme:dark){.fp{background:#15181c}.pa{fill:#15181c}.in{fill:#eef0f2}.gr{fill:#aab1ba}.mi{fill:#15181c}.ha{stroke:#69707a}\
.li{fill:#1f2329}.he{fill:#6b727c}.fu{fill:#a3aab3}.si{stroke:#eef0f2}.sg{stroke:#aab1ba}.sp{stroke:#32373e}.sa{stroke:#15181c}}";

/// What is missing is hatched, what was fetched for nothing has lines: told from the layers without
/// any colour. One pattern each over the plane, so that narrow neighbours make one field.
const PATTERNS: &str = "<defs><pattern id=\"hatch\" width=\"4\" height=\"4\" patternUnits=\"userSpaceOnUse\" \
patternTransform=\"rotate(45)\"><rect class=\"mi\" width=\"4\" height=\"4\"/><path class=\"ha\" d=\"M0 0v4\" stroke-width=\"1.4\"/></pattern>\
<pattern id=\"waste\" width=\"4\" height=\"3\" patternUnits=\"userSpaceOnUse\"><rect class=\"mi\" width=\"4\" height=\"3\"/>\
<path class=\"sg\" d=\"M0 1.5h4\" stroke-width=\"1\"/></pattern></defs>";

pub struct Canvas {
    parts: String,
    /// Where the next panel begins.
    pub y: f64,
    slots: usize,
    last: usize,
}

impl Canvas {
    /// The last chunk's film reaches past the last slot; of a long chunk so much as leaves the slots
    /// their room.
    pub fn new(film: &Film) -> Canvas {
        Canvas { parts: String::new(), y: 0.0, slots: film.last + film.span().min(1 + film.last / 8), last: film.last }
    }

    /// Where slot t ends, and the next begins.
    pub fn x(&self, t: usize) -> f64 {
        LEFT + self.wide(t.min(self.slots))
    }

    /// The width of so many slots.
    pub fn wide(&self, slots: usize) -> f64 {
        slots as f64 * WIDTH / self.slots.max(1) as f64
    }

    pub fn add(&mut self, element: &str) {
        self.parts.push_str(element);
        self.parts.push('\n');
    }

    pub fn rect(&mut self, at: (f64, f64), size: (f64, f64), class: &str, title: Option<&str>) {
        let (x, y, w, h) = (px(at.0), px(at.1), px(size.0.max(0.0)), px(size.1.max(0.0)));
        let head = format!("<rect class=\"{class}\" x=\"{x}\" y=\"{y}\" width=\"{w}\" height=\"{h}\"");
        self.titled(&head, "rect", title);
    }

    fn titled(&mut self, head: &str, name: &str, title: Option<&str>) {
        match title {
            Some(title) => self.add(&format!("{head}><title>{}</title></{name}>", escape(title))),
            None => self.add(&format!("{head}/>")),
        }
    }

    pub fn line(&mut self, from: (f64, f64), to: (f64, f64), class: &str, width: f64, more: &str) {
        let d = format!("M{} {}L{} {}", px(from.0), px(from.1), px(to.0), px(to.1));
        self.add(&format!("<path class=\"{class}\" d=\"{d}\" stroke-width=\"{}\"{more}/>", px(width)));
    }

    pub fn path(&mut self, d: &str, class: &str, more: &str) {
        self.add(&format!("<path class=\"{class}\" d=\"{d}\"{more}/>"));
    }

    /// A text that starts, is centred or ends at x.
    pub fn text(&mut self, at: (f64, f64), words: &str, size: f64, anchor: &str, class: &str, bold: bool) {
        let weight = if bold { " font-weight=\"bold\"" } else { "" };
        let (x, y, size) = (px(at.0), px(at.1), px(size));
        let head = format!("<text class=\"{class}\" x=\"{x}\" y=\"{y}\" font-size=\"{size}\" text-anchor=\"{anchor}\"{weight}>");
        self.add(&format!("{head}{}</text>", escape(words)));
    }

    pub fn cross(&mut self, x: f64, y: f64, arm: f64, class: &str, title: Option<&str>) {
        let (left, top, across) = (px(x - arm), px(y - arm), px(2.0 * arm));
        let d = format!("M{left} {top}l{across} {across}m0 -{across}l-{across} {across}");
        let head = format!("<path class=\"{class}\" d=\"{d}\" stroke-width=\"{}\" stroke-linecap=\"round\"", px((arm / 2.2).max(1.2)));
        self.titled(&head, "path", title);
    }

    /// A small arrow down to a place.
    pub fn arrow(&mut self, x: f64, y: f64, class: &str) {
        self.path(&format!("M{} {}l-3.5 -6h7z", px(x), px(y)), class, "");
    }

    /// Lines of text from the left edge on, broken where they are too long.
    pub fn words(&mut self, words: &str, size: f64, class: &str, bold: bool) {
        for line in broken(words, size, bold, VIEW - 2.0 * EDGE) {
            self.y += size * 1.32;
            self.text((EDGE, self.y), &line, size, "start", class, bold);
        }
    }

    /// The caption of the next panel, whose top is then y.
    pub fn panel(&mut self, caption: &str) {
        self.y += 13.0;
        self.words(caption, 14.0, "in", true);
        self.y += 10.0;
    }

    /// Labels along a line, each only if it covers none before it: the first are the most wanted.
    pub fn labels(&mut self, y: f64, wanted: &[(f64, String, bool)]) {
        let mut taken: Vec<(f64, f64)> = Vec::new();
        for (x, words, bold) in wanted {
            let half = wide(words, SMALL, *bold) / 2.0 + 2.0;
            let x = x.min(VIEW - half).max(LEFT - 6.0 + half);
            if taken.iter().all(|(a, b)| x + half <= *a || *b <= x - half) {
                taken.push((x - half, x + half));
                self.text((x, y), words, SMALL, "middle", if *bold { "in" } else { "gr" }, *bold);
            }
        }
    }

    /// A faint line at each due slot, as many as can be told apart.
    pub fn grid(&mut self, film: &Film, height: f64) {
        let every = step_of(12.0 / self.wide(film.span()).max(0.01), &[1, 2, 5, 10, 20, 50, 100, 200, 500]);
        for i in (1..=film.chunks()).filter(|i| i % every == 0 || *i == 1) {
            let x = self.x(film.due(i));
            self.line((x, self.y), (x, self.y + height), "sp", 0.7, "");
        }
    }

    /// Slots, under the panel that ends at y.
    pub fn axis(&mut self) {
        self.line((LEFT, self.y), (LEFT + WIDTH, self.y), "sg", 1.0, "");
        let step = step_of(62.0 * self.slots as f64 / WIDTH, &[1, 2, 5, 10, 15, 30, 60, 120, 300, 600]);
        let far = step - step * 3 / 10;
        let mut shown = vec![1];
        shown.extend((1..=self.last / step).map(|k| k * step).filter(|t| *t > far && *t + far <= self.last));
        shown.push(self.last);
        shown.dedup();
        for t in shown {
            let x = (self.x(t - 1) + self.x(t)) / 2.0;
            self.line((x, self.y), (x, self.y + 5.0), "sg", 1.0, "");
            let words = thousands(t as u64);
            let inside = VIEW - wide(&words, SMALL, false) / 2.0 - 2.0;
            self.text((x.min(inside), self.y + 18.0), &words, SMALL, "middle", "gr", false);
        }
        self.text((LEFT - 14.0, self.y + 18.0), "slot", SMALL, "end", "gr", false);
        self.y += 20.0;
    }

    /// Values at the left of a panel, and a line across for each.
    pub fn scale(&mut self, height: f64, most: f64, step: f64, named: impl Fn(f64) -> String) {
        let mut value = 0.0;
        while value <= most * 1.0001 && step > 0.0 {
            let y = self.y + height - value * height / most;
            self.line((LEFT, y), (LEFT + WIDTH, y), "sp", 0.7, "");
            self.text((LEFT - 8.0, y + 4.5), &named(value), SMALL, "end", "gr", false);
            value += step;
        }
    }

    /// The path of a stepped line over slots, from the bottom at the left: each value from the end
    /// of a slot on.
    pub fn steps(&self, values: &[(usize, f64)], height: f64, most: f64) -> String {
        let mut path = format!("M{} {}", px(LEFT), px(self.y + height));
        let mut level = String::new();
        for (start, value) in values {
            let y = px(self.y + height - value * height / most);
            if y != level {
                let _ = write!(path, "H{}V{y}", px(self.x(*start)));
            }
            level = y;
        }
        let _ = write!(path, "H{}", px(self.x(self.last)));
        path
    }

    /// The whole picture. Many chunks want a larger one, where there is room.
    pub fn whole(self, title: &str, natural: f64) -> String {
        let height = (self.y + 12.0).ceil();
        let (wide, high) = (px(natural.ceil()), px((height * natural / VIEW).ceil()));
        let mut out = format!(
            "<svg xmlns=\"http://www.w3.org/2000/svg\" viewBox=\"0 0 {} {}\" width=\"{wide}\" height=\"{high}\" role=\"img\" \
             class=\"fp\" style=\"max-width:100%;height:auto\" font-family=\"system-ui, -apple-system, Arial, sans-serif\" fill=\"none\">\n",
            px(VIEW),
            px(height)
        );
        let _ = writeln!(out, "<title>{}</title>\n<style>{STYLE}</style>\n{PATTERNS}", escape(title));
        let _ = writeln!(out, "<rect class=\"pa\" width=\"{}\" height=\"{}\"/>", px(VIEW), px(height));
        out.push_str(&self.parts);
        out.push_str("</svg>\n");
        out
    }
}

/// A number of the plane, two places at most.
pub fn px(x: f64) -> String {
    let text = format!("{x:.2}");
    let text = text.trim_end_matches('0').trim_end_matches('.');
    if text == "-0" || text.is_empty() {
        "0".to_string()
    } else {
        text.to_string()
    }
}

/// For text and attributes of SVG and HTML. What XML cannot say is a space.
pub fn escape(text: &str) -> String {
    let mut out = String::with_capacity(text.len());
    for c in text.chars() {
        match c {
            '&' => out.push_str("&amp;"),
            '<' => out.push_str("&lt;"),
            '>' => out.push_str("&gt;"),
            '"' => out.push_str("&quot;"),
            '\n' => out.push('\n'),
            c if c.is_control() || c == '\u{fffe}' || c == '\u{ffff}' => out.push(' '),
            c => out.push(c),
        }
    }
    out
}

/// The width of a text, about, in a wide font.
pub fn wide(words: &str, size: f64, bold: bool) -> f64 {
    let one = |c: char| match c {
        ' ' | '.' | ',' | ':' | ';' | '\'' | '!' | 'i' | 'j' | 'l' | 'f' | 't' | '|' | '(' | ')' => 0.36,
        'm' | 'w' | '=' => 0.85,
        c if c.is_uppercase() => 0.85,
        c if c.is_ascii() => 0.64,
        _ => 1.0,
    };
    size * if bold { 1.13 } else { 1.0 } * words.chars().map(one).sum::<f64>()
}

/// A text in lines of at most so much width, broken between words; a word alone may be wider.
pub fn broken(words: &str, size: f64, bold: bool, most: f64) -> Vec<String> {
    let mut lines: Vec<String> = Vec::new();
    for word in words.split(' ') {
        match lines.last_mut() {
            Some(line) if wide(&format!("{line} {word}"), size, bold) <= most => {
                line.push(' ');
                line.push_str(word);
            }
            _ => lines.push(word.to_string()),
        }
    }
    lines
}

/// The first of the steps that is at least so much.
pub fn step_of(least: f64, steps: &[usize]) -> usize {
    steps.iter().copied().find(|s| *s as f64 >= least).or(steps.last().copied()).unwrap_or(1)
}

/// The first of 1, 2, 5, 10, 20, 50 .. that is at least so much.
pub fn nice(least: f64) -> f64 {
    let mut unit = 1.0;
    loop {
        for m in [1.0, 2.0, 5.0] {
            if m * unit >= least {
                return m * unit;
            }
        }
        unit *= 10.0;
    }
}

pub use crate::words::thousands;

/// Bytes at a scale: 150 kB, 1.5 MB.
pub fn short_bytes(value: f64, most: f64) -> String {
    match most {
        m if m >= 2_000_000.0 => format!("{} MB", px(value / 1e6)),
        m if m >= 10_000.0 => format!("{} kB", px(value / 1e3)),
        _ => thousands(value as u64),
    }
}
