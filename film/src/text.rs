//! The text form of a job: one statement a line, read with all its faults in one go, and written as
//! the one text that a job has.
use crate::failure::{sentence, Failure};
use crate::files;
use crate::words::{counted, printable, thousands};
use film_planner::{Job, Override, Refusal, LAYERS, SLOTS};
use std::path::{Path, PathBuf};

/// The most bytes of a layer or a slot.
const MOST: i64 = 1 << 24;
/// So many faults are told; one wrong line at the top may make hundreds.
const TOLD: usize = 20;
/// So many are kept; a text of ten million bytes may have a million.
const KEPT: usize = 1000;
/// Slots that stand on a line of `show`, and how many alike make a run.
const ROW: usize = 10;
const RUN: usize = 3;

/// Each statement, its form, and the fewest and most words after the first.
const FORMS: [(&str, &str, usize, usize); 8] = [
    ("chunks", "chunks NUMBER", 1, 1),
    ("span", "span SLOTS", 1, 1),
    ("delay", "delay SLOTS", 1, 1),
    ("limit", "limit SLOTS", 1, 1),
    ("layer", "layer BYTES", 1, 1),
    ("size", "size CHUNK LAYER BYTES", 3, 3),
    ("forecast", "forecast BYTES BYTES .. or forecast SLOTS x BYTES", 1, usize::MAX),
    ("trace", "trace FILE SLOTS, or trace FILE for what the job needs", 1, usize::MAX),
];
const FIELDS: [(&str, i64, i64); 4] = [("chunks", 1, 500), ("span", 1, 60), ("delay", 1, 3600), ("limit", 0, 65535)];

/// What `--help` says of the text form.
pub const HELP: &str = "\
The text of a job has one statement a line. From # to the end of a line is a comment.

  chunks 30             chunks of film, 1 to 500
  span 6                slots (seconds) of film a chunk, 1 to 60
  delay 12              slots before the first chunk is due, 1 to 3,600
  limit 24              slots of film that the buffer takes, 0 to 65,535
  layer 240000          bytes of layer 0 of a chunk; the next `layer` is layer 1, and so on,
                        up to four
  size 21 0 330000      chunk 21 has a layer 0 of 330,000 bytes instead; rising by chunk, then
                        layer, from chunk 2
  forecast 3000 0 1500  bytes that the link carries, slot after slot
  forecast 34 x 6000    34 slots of 6,000 bytes each
  trace van.txt 186     the first 186 slots of a trace of the link; its place is seen from the
                        text's folder
  trace van.txt         as many slots of it as the job needs beside the other statements
  trace \"van #3.txt\"    a name with a # in it stands in quotes, \" or '

What `forecast` and `trace` give stands one after the other, up to the slot in which the last chunk
is due: (chunks - 1) x span + delay slots. The kinds of statement may stand in any order. Numbers
are digits alone: 6000, not 6,000.

A trace has one line for every 1,500 bytes that got through: the time in milliseconds since the
start, 1 to 7 digits, never below the line before, ended by a line feed (no CR). So the line 2340
says that 1,500 bytes came in slot 3, and slot 3 gets 1,500 times its lines from 2000 to 2999.";

/// A fault: its line, none if a statement is absent, and what there is to say.
struct Fault {
    line: Option<usize>,
    message: String,
    refusal: Option<Refusal>,
}

/// A stretch of the forecast, with the line that gives it.
enum Part {
    Slots(Vec<u32>),
    /// A trace whose number of slots is known when all else is.
    Open(PathBuf),
}

/// A field of the programme: its line, and its value unless that is faulty.
type Field = Option<(usize, Option<i64>)>;

struct Text<'a> {
    folder: &'a Path,
    line: usize,
    fields: [Field; 4],
    layers: Vec<i64>,
    layers_bad: bool,
    sizes: Vec<(usize, [i64; 3])>,
    parts: Vec<(usize, Part)>,
    /// The slots that the parts give so far.
    slots: usize,
    forecast_bad: bool,
    /// The forecast is lent, and the text's own is read and left aside.
    lent: bool,
    faults: Vec<Fault>,
    faults_more: usize,
    warnings: Vec<String>,
}

/// A statement that is not taken; its fault is written down already.
struct Faulty;

/// The statement of a line, without its comment. In a trace's name in quotes a # is no comment.
fn statement(line: &str) -> &str {
    let start = line.trim_start().strip_prefix("trace").map_or("", str::trim_start);
    let quote = start.chars().next().filter(|c| matches!(c, '"' | '\''));
    let name_end = quote.and_then(|q| start[1..].find(q)).map(|k| line.len() - start.len() + 2 + k);
    let from = name_end.unwrap_or(0);
    let end = line[from..].find('#').map_or(line.len(), |k| from + k);
    line[..end].trim()
}

/// A statement as a message shows it.
fn shown(statement: &str) -> String {
    let clean = printable(statement);
    match clean.chars().count() {
        0..=60 => clean,
        _ => clean.chars().take(57).chain("...".chars()).collect(),
    }
}

/// What may be meant by a word that is no number.
fn meant(word: &str) -> String {
    let digits: String = word.chars().filter(char::is_ascii_digit).collect();
    let parts: Vec<&str> = word.split([',', '.', '_', '\'', '\u{a0}', '\u{202f}']).collect();
    let grouped = parts.len() > 1
        && (1..=3).contains(&parts[0].len())
        && parts[1..].iter().all(|part| part.len() == 3)
        && parts.iter().all(|part| part.bytes().all(|b| b.is_ascii_digit()));
    let run = word.split_once(['x', 'X', '*', '\u{d7}']).filter(|(a, b)| {
        let number = |s: &str| !s.is_empty() && s.bytes().all(|b| b.is_ascii_digit());
        number(a) && number(b)
    });
    match run {
        Some((slots, bytes)) => format!(": a run has spaces around its x, forecast {slots} x {bytes}"),
        None if grouped => format!(", without separators: {digits}"),
        None if word.contains(',') => ", with spaces between them and no comma".to_string(),
        None => String::new(),
    }
}

impl Text<'_> {
    fn fault(&mut self, message: impl Into<String>, refusal: Option<Refusal>) -> Faulty {
        self.fault_at(Some(self.line), message, refusal)
    }

    fn fault_at(&mut self, line: Option<usize>, message: impl Into<String>, refusal: Option<Refusal>) -> Faulty {
        match self.faults.len() < KEPT {
            true => self.faults.push(Fault { line, message: message.into(), refusal }),
            false => self.faults_more += 1,
        }
        Faulty
    }

    fn number(&mut self, word: &str) -> Result<i64, Faulty> {
        let digits = word.strip_prefix('-').unwrap_or(word);
        if digits.is_empty() || !digits.bytes().all(|b| b.is_ascii_digit()) {
            return Err(self.fault(format!("`{}` is no number; numbers are digits alone{}", shown(word), meant(word)), None));
        }
        // No number of a job has twelve digits: what is longer is as far out of range.
        let digits = digits.trim_start_matches('0');
        let value = digits.get(..12).unwrap_or(digits).parse().unwrap_or(0);
        Ok(if word.starts_with('-') { -value } else { value })
    }

    fn ranged(&mut self, what: &str, word: &str, low: i64, high: i64, refusal: Refusal) -> Result<i64, Faulty> {
        let value = self.number(word)?;
        match (low..=high).contains(&value) {
            true => Ok(value),
            false => Err(self.fault(format!("{what} is {} to {}", thousands(low as u64), thousands(high as u64)), Some(refusal))),
        }
    }

    fn take(&mut self, statement: &str) -> Result<(), Faulty> {
        let mut words = statement.split_whitespace();
        let Some(kind) = words.next() else { return Ok(()) };
        let words: Vec<&str> = words.collect();
        let Some((kind, form, fewest, most)) = FORMS.into_iter().find(|form| form.0 == kind) else {
            return Err(self.unknown(kind));
        };
        let whole = (fewest..=most).contains(&words.len());
        let taken = match kind {
            _ if !whole => Err(self.fault(format!("the form is {form}"), None)),
            "layer" => self.take_layer(words[0]),
            "size" => self.take_size(&words),
            "forecast" => self.take_forecast(&words),
            "trace" => self.take_trace(statement["trace".len()..].trim()),
            _ => return self.take_field(kind, words[0]),
        };
        if taken.is_err() {
            self.layers_bad |= kind == "layer";
            self.forecast_bad |= kind == "forecast" || kind == "trace";
            self.field_given(kind);
        }
        taken
    }

    /// A field that stands there, though faulty, is not told as absent.
    fn field_given(&mut self, kind: &str) {
        if let Some(k) = FIELDS.iter().position(|field| field.0 == kind) {
            self.fields[k].get_or_insert((self.line, None));
        }
    }

    fn unknown(&mut self, kind: &str) -> Faulty {
        let low = kind.to_lowercase();
        let near = FORMS.iter().find(|form| low == form.0 || low.trim_end_matches('s') == form.0.trim_end_matches('s'));
        // What is meant stands there, so it is not told as absent as well.
        match near {
            Some((name, form, ..)) => {
                self.field_given(name);
                self.layers_bad |= *name == "layer";
                self.forecast_bad |= *name == "forecast" || *name == "trace";
                self.fault(format!("`{}` is no statement; is {form} meant?", shown(kind)), None)
            }
            None => {
                let names: Vec<&str> = FORMS.iter().map(|form| form.0).collect();
                self.fault(format!("`{}` is no statement; the statements are {}", shown(kind), names.join(", ")), None)
            }
        }
    }

    fn take_field(&mut self, kind: &str, word: &str) -> Result<(), Faulty> {
        let Some(k) = FIELDS.iter().position(|field| field.0 == kind) else { return Ok(()) };
        if let Some((first, _)) = self.fields[k] {
            return Err(self.fault(format!("a second {kind}; the first is on line {first}"), None));
        }
        self.fields[k] = Some((self.line, None));
        let value = self.ranged(kind, word, FIELDS[k].1, FIELDS[k].2, Refusal::ProgrammeField)?;
        self.fields[k] = Some((self.line, Some(value)));
        Ok(())
    }

    fn take_layer(&mut self, word: &str) -> Result<(), Faulty> {
        if self.layers.len() == LAYERS {
            return Err(self.fault("a fifth layer", Some(Refusal::LayerSize)));
        }
        // A faulty one keeps its place, so that a fifth is told as one.
        self.layers.push(0);
        let value = self.ranged("a layer's size", word, 1, MOST, Refusal::LayerSize)?;
        if let Some(last) = self.layers.last_mut() {
            *last = value;
        }
        Ok(())
    }

    /// Which chunks and layers there are is known at the end.
    fn take_size(&mut self, words: &[&str]) -> Result<(), Faulty> {
        let (chunk, layer) = (self.number(words[0])?, self.number(words[1])?);
        let bytes = self.ranged("a size", words[2], 1, MOST, Refusal::Sz)?;
        self.sizes.push((self.line, [chunk, layer, bytes]));
        Ok(())
    }

    fn take_forecast(&mut self, words: &[&str]) -> Result<(), Faulty> {
        if !words.contains(&"x") {
            if words.len() == 3 && matches!(words[1], "X" | "*" | "\u{d7}") {
                return Err(self.fault(format!("a run has a small x: forecast {} x {}", shown(words[0]), shown(words[2])), None));
            }
            let mut slots = Vec::new();
            for word in words {
                slots.push(self.ranged("a slot's bytes", word, 0, MOST, Refusal::Forecast)? as u32);
            }
            return self.add(Part::Slots(slots));
        }
        if words.len() != 3 || words[1] != "x" {
            return Err(self.fault("a run stands on a line of its own: forecast SLOTS x BYTES", None));
        }
        let slots = self.ranged("a run's number of slots", words[0], 1, SLOTS as i64, Refusal::Forecast)?;
        let bytes = self.ranged("a slot's bytes", words[2], 0, MOST, Refusal::Forecast)?;
        self.add(Part::Slots(vec![bytes as u32; slots as usize]))
    }

    /// The file's name is in quotes, or all that stands before the last word if that is a number,
    /// spaces included.
    fn take_trace(&mut self, rest: &str) -> Result<(), Faulty> {
        let quote = rest.chars().next().filter(|c| matches!(c, '"' | '\''));
        let (name, slots) = match quote.map(|q| rest[1..].split_once(q)) {
            Some(None) => return Err(self.fault("the name's second quote is missing", None)),
            Some(Some((name, slots))) => (name, slots.trim()),
            None => match rest.rsplit_once(char::is_whitespace) {
                Some((name, word)) if word.trim_start_matches('-').bytes().all(|b| b.is_ascii_digit()) => (name.trim_end(), word),
                _ => (rest, ""),
            },
        };
        if name.is_empty() {
            return Err(self.fault("the form is trace FILE SLOTS, or trace FILE for what the job needs", None));
        }
        let path = self.folder.join(name);
        if slots.is_empty() {
            return self.add(Part::Open(path));
        }
        let slots = self.ranged("a trace's number of slots", slots, 1, SLOTS as i64, Refusal::Forecast)?;
        // Past the most slots that there can be no file is read.
        match self.slots > SLOTS {
            true => Err(Faulty),
            false => {
                let traced = self.traced(&path, slots as usize)?;
                self.add(Part::Slots(traced))
            }
        }
    }

    fn traced(&mut self, path: &Path, slots: usize) -> Result<Vec<u32>, Faulty> {
        match files::trace_told(path, slots) {
            Ok((forecast, warning)) => {
                self.warnings.extend(warning);
                Ok(forecast)
            }
            Err(failure) => Err(self.fault(failure.text, None)),
        }
    }

    fn add(&mut self, part: Part) -> Result<(), Faulty> {
        if self.lent {
            return Ok(());
        }
        let before = self.slots;
        self.slots += if let Part::Slots(slots) = &part { slots.len() } else { 0 };
        // Past the most that there can be, one fault is enough, and nothing more is kept.
        if before <= SLOTS {
            self.parts.push((self.line, part));
        }
        match self.slots > SLOTS && before <= SLOTS {
            true => {
                Err(self.fault(format!("the forecast has {} slots by this line", thousands(self.slots as u64)), Some(Refusal::Forecast)))
            }
            false => Ok(()),
        }
    }

    fn absent(&mut self, kind: &str, refusal: Option<Refusal>) {
        let form = FORMS.iter().find(|form| form.0 == kind).map_or("", |form| form.1);
        self.fault_at(None, format!("there is no {kind}; a line `{form}` is needed"), refusal);
    }

    /// What is to be seen once all statements are read; the job, if there is no fault.
    fn job(mut self) -> Result<(Job, Vec<String>), (Vec<Fault>, usize)> {
        for (k, (kind, ..)) in FIELDS.iter().enumerate() {
            if self.fields[k].is_none() {
                self.absent(kind, None);
            }
        }
        let value = |k: usize| self.fields[k].and_then(|(_, value)| value);
        let (chunks, span, delay, limit) = (value(0), value(1), value(2), value(3));
        let last = match (chunks, span, delay) {
            (Some(chunks), Some(span), Some(delay)) => self.last(chunks, span, delay),
            _ => None,
        };
        if self.layers.is_empty() && !self.layers_bad {
            self.absent("layer", Some(Refusal::LayerSize));
        }
        self.check_sizes(chunks);
        self.open_trace(last);
        if let Some(last) = last {
            self.check_slots(last);
        } else if self.parts.is_empty() && !self.forecast_bad {
            self.absent("forecast", Some(Refusal::Forecast));
        }
        let (Some(chunks), Some(span), Some(delay), Some(limit), true) = (chunks, span, delay, limit, self.faults.is_empty()) else {
            self.faults.sort_by_key(|fault| fault.line.unwrap_or(usize::MAX));
            return Err((self.faults, self.faults_more));
        };
        let forecast = self.parts.iter().flat_map(|(_, part)| if let Part::Slots(slots) = part { slots.clone() } else { Vec::new() });
        let overrides = self.sizes.iter().map(|(_, [i, n, z])| Override { chunk: *i as u16, layer: *n as u8, bytes: *z as u32 });
        let job = Job {
            chunks: chunks as u16,
            span: span as u16,
            delay: delay as u16,
            limit: limit as u16,
            sizes: self.layers.iter().map(|z| *z as u32).collect(),
            overrides: overrides.collect(),
            forecast: forecast.collect(),
        };
        Ok((job, self.warnings))
    }

    /// The slot in which the last chunk is due, if it is one.
    fn last(&mut self, chunks: i64, span: i64, delay: i64) -> Option<usize> {
        let last = (chunks - 1) * span + delay;
        if last <= SLOTS as i64 {
            return Some(last as usize);
        }
        let line = self.fields[..3].iter().flatten().map(|(line, _)| *line).max();
        let message = format!(
            "{chunks} chunks of {span} slots after a delay of {delay}: the last is due in slot {}, and {} is the last there can be",
            thousands(last as u64),
            thousands(SLOTS as u64)
        );
        self.fault_at(line, message, Some(Refusal::ProgrammeField));
        None
    }

    fn check_sizes(&mut self, chunks: Option<i64>) {
        let mut before = [1, 3];
        for (line, [chunk, layer, bytes]) in self.sizes.clone() {
            let layers = self.layers.len() as i64;
            let own = usize::try_from(layer).ok().and_then(|n| self.layers.get(n)).copied();
            let fault = if chunk == 1 {
                "chunk 1 has the sizes of `layer`".to_string()
            } else if chunk < 1 || chunks.is_some_and(|chunks| chunk > chunks) || chunk > 500 {
                format!("there is no chunk {chunk}")
            } else if layer < 0 || layer >= layers && !self.layers_bad || layer > 3 {
                format!("there is no layer {layer}; the job has {layers}, counted from 0")
            } else if own == Some(bytes) {
                format!("{} bytes are layer {layer}'s own size; leave the line out", thousands(bytes as u64))
            } else if [chunk, layer] <= before {
                format!("sizes rise by chunk, then layer, and chunk {} layer {} stands before", before[0], before[1])
            } else {
                before = [chunk, layer];
                continue;
            };
            self.fault_at(Some(line), fault, Some(Refusal::Sz));
        }
    }

    /// A trace without a number takes what the other statements leave.
    fn open_trace(&mut self, last: Option<usize>) {
        let open: Vec<usize> = (0..self.parts.len()).filter(|k| matches!(self.parts[*k].1, Part::Open(_))).collect();
        if let [first, second, ..] = open[..] {
            let message = format!(
                "a second trace without its number of slots, after that on line {}; one alone takes what is left",
                self.parts[first].0
            );
            self.fault_at(Some(self.parts[second].0), message, None);
            self.forecast_bad = true;
        }
        let ([k], Some(last), false) = (&open[..], last, self.forecast_bad) else {
            // How many slots it is to take is not known; what is wrong with its lines is.
            for k in open.into_iter().take(2) {
                if let (line, Part::Open(path)) = &self.parts[k] {
                    let path = path.clone();
                    self.line = *line;
                    self.forecast_bad |= self.traced(&path, 1).is_err();
                }
            }
            return;
        };
        let Some((line, Part::Open(path))) = self.parts.get(*k).map(|(line, part)| (*line, part)) else { return };
        let (path, given) = (path.clone(), self.slots);
        self.line = line;
        if given >= last {
            let message = format!(
                "the other lines give {} slots and the last chunk is due in slot {}: none is left for this trace",
                thousands(given as u64),
                thousands(last as u64)
            );
            self.fault(message, Some(Refusal::Forecast));
            self.forecast_bad = true;
        } else if let Ok(slots) = self.traced(&path, last - given) {
            self.slots += slots.len();
            self.parts[*k].1 = Part::Slots(slots);
        } else {
            self.forecast_bad = true;
        }
    }

    fn check_slots(&mut self, last: usize) {
        if self.forecast_bad {
            return;
        }
        let slots = self.slots;
        match self.parts.last() {
            None => self.absent("forecast", Some(Refusal::Forecast)),
            Some(_) if slots != last && self.lent => {
                let message = format!(
                    "the last chunk is due in slot {}, and the link that is lent has {} slots; both films need the same last due slot",
                    thousands(last as u64),
                    thousands(slots as u64)
                );
                self.fault_at(None, message, Some(Refusal::Forecast));
            }
            Some((line, _)) if slots != last => {
                let what = match slots < last {
                    true => format!("{} missing", counted((last - slots) as u64, "slot")),
                    false => format!("{} too many", counted((slots - last) as u64, "slot")),
                };
                let message = format!(
                    "the forecast has {} slots by this line, and the last chunk is due in slot {}: {what}",
                    thousands(slots as u64),
                    thousands(last as u64)
                );
                self.fault_at(Some(*line), message, Some(Refusal::Forecast));
            }
            _ => {}
        }
    }
}

/// The job that a text says, and warnings; all faults in one go. Traces are looked for from the
/// text's folder. A link that is lent stands in for a text's own forecast, which may be absent.
pub fn read(data: &[u8], path: &Path, link: Option<&[u32]>) -> Result<(Job, Vec<String>), Failure> {
    let called = files::called(path);
    if data.len() > files::TEXT {
        return Err(Failure::bad(format!("{called}: a text above {} bytes", thousands(files::TEXT as u64))));
    }
    if data.is_empty() {
        return Err(Failure::bad(format!("{called} is empty; a job's text or its file is wanted (`film make --help`)")));
    }
    let data = data.strip_prefix(b"\xef\xbb\xbf").unwrap_or(data);
    let mut text = Text {
        folder: path.parent().filter(|_| path.as_os_str() != "-").unwrap_or(Path::new("")),
        line: 0,
        fields: [None; 4],
        layers: Vec::new(),
        layers_bad: false,
        sizes: Vec::new(),
        parts: Vec::new(),
        slots: 0,
        forecast_bad: false,
        lent: false,
        faults: Vec::new(),
        faults_more: 0,
        warnings: Vec::new(),
    };
    if let Some(link) = link {
        text.lent = true;
        text.slots = link.len();
        text.parts.push((0, Part::Slots(link.to_vec())));
    }
    let mut lines = Vec::new();
    for line in data.split(|b| *b == b'\n') {
        text.line += 1;
        match std::str::from_utf8(line) {
            Ok(line) if !line.contains('\0') => {
                let statement = statement(line);
                lines.push(statement);
                let _ = text.take(statement);
            }
            _ => {
                lines.push("");
                text.fault("this is no text; a job file begins with PG, a text is UTF-8", None);
                // Of what is no text the first line is enough.
                return Err(told(&called, &lines, (text.faults, text.faults_more)));
            }
        }
    }
    text.job().map_err(|faults| told(&called, &lines, faults))
}

/// The faults as one message, each with its line and its sentence.
fn told(called: &str, lines: &[&str], (faults, more): (Vec<Fault>, usize)) -> Failure {
    let more = more + faults.len().saturating_sub(TOLD);
    let mut blocks = Vec::new();
    for fault in faults.iter().take(TOLD) {
        let place = fault.line.map_or(String::new(), |line| {
            let statement = lines.get(line - 1).map_or(String::new(), |words| shown(words));
            format!(" line {line}: {statement}\n ")
        });
        let place = if place.is_empty() { ":".to_string() } else { place };
        let refusal = fault.refusal.map_or(String::new(), |refusal| format!("\n  {}", sentence(refusal)));
        blocks.push(format!("{called}{place} {}{refusal}", fault.message.replace('\n', "\n  ")));
    }
    if more > 0 {
        blocks.push(format!("{called}: and {} faults more", thousands(more as u64)));
    }
    Failure::bad(blocks.join("\n"))
}

/// The text of a job, which is one text a job: sizes as they rise, runs of three or more alike,
/// other slots ten a line.
pub fn show(job: &Job) -> String {
    let mut lines: Vec<String> =
        FIELDS.iter().zip([job.chunks, job.span, job.delay, job.limit]).map(|(field, value)| format!("{} {value}", field.0)).collect();
    lines.extend(job.sizes.iter().map(|size| format!("layer {size}")));
    lines.extend(job.overrides.iter().map(|o| format!("size {} {} {}", o.chunk, o.layer, o.bytes)));
    let mut row: Vec<u32> = Vec::new();
    let flush = |row: &mut Vec<u32>, lines: &mut Vec<String>| {
        if !row.is_empty() {
            let words: Vec<String> = row.iter().map(u32::to_string).collect();
            lines.push(format!("forecast {}", words.join(" ")));
            row.clear();
        }
    };
    for alike in job.forecast.chunk_by(|a, b| a == b) {
        if alike.len() >= RUN {
            flush(&mut row, &mut lines);
            lines.push(format!("forecast {} x {}", alike.len(), alike[0]));
            continue;
        }
        for bytes in alike {
            row.push(*bytes);
            if row.len() == ROW {
                flush(&mut row, &mut lines);
            }
        }
    }
    flush(&mut row, &mut lines);
    lines.iter().map(|line| format!("{line}\n")).collect()
}
