//! What the trials share: the program run on files of a folder of its own, and random jobs.
#![allow(dead_code)]
// Random numbers are drawn from within the range that they are cut to.
#![allow(clippy::cast_possible_truncation, clippy::cast_precision_loss, clippy::cast_sign_loss)]
use film_planner::{Job, Override};
use std::fs::File;
use std::path::{Path, PathBuf};
use std::process::{Command, Output, Stdio};
use std::sync::atomic::{AtomicU32, Ordering};

pub const A_TEXT: &str = "chunks 3\nspan 2\ndelay 2\nlimit 2\nlayer 2\nlayer 1\nforecast 3 0 1 0 2 0\n";

pub fn job_a() -> Job {
    Job { chunks: 3, span: 2, delay: 2, limit: 2, sizes: vec![2, 1], overrides: vec![], forecast: vec![3, 0, 1, 0, 2, 0] }
}

/// The root of the repository.
pub fn root() -> PathBuf {
    Path::new(env!("CARGO_MANIFEST_DIR")).parent().unwrap().to_path_buf()
}

/// What a run answered.
pub struct Answer {
    pub status: i32,
    pub out: Vec<u8>,
    pub err: String,
}

impl Answer {
    pub fn text(&self) -> String {
        String::from_utf8(self.out.clone()).unwrap()
    }

    /// It answered, without a word on standard error.
    pub fn good(self, case: &str) -> Answer {
        assert!(self.status == 0 && self.err.is_empty(), "{case}: status {} {}", self.status, self.err);
        self
    }

    /// It ended with a status, a message that has these words, and nothing written.
    pub fn bad(self, status: i32, words: &[&str], case: &str) -> Answer {
        assert!(self.status == status, "{case}: status {} {}", self.status, self.err);
        assert!(self.out.is_empty(), "{case}: something was written");
        assert!(self.err.starts_with("film: "), "{case}: {}", self.err);
        assert!(!self.err.contains("panicked"), "{case}: {}", self.err);
        for word in words {
            assert!(self.err.contains(word), "{case}: no `{word}` in: {}", self.err);
        }
        self
    }
}

pub fn answer(output: Output) -> Answer {
    let status = output.status.code().unwrap_or(-1);
    Answer { status, out: output.stdout, err: String::from_utf8_lossy(&output.stderr).into_owned() }
}

/// A folder that goes with its owner.
pub struct Folder(pub PathBuf);

static FOLDERS: AtomicU32 = AtomicU32::new(0);

impl Folder {
    pub fn new() -> Folder {
        let k = FOLDERS.fetch_add(1, Ordering::Relaxed);
        let path = Path::new(env!("CARGO_TARGET_TMPDIR")).join(format!("{}-{k}", std::process::id()));
        std::fs::create_dir_all(&path).unwrap();
        Folder(path)
    }

    pub fn put(&self, name: &str, data: impl AsRef<[u8]>) -> &Folder {
        std::fs::write(self.0.join(name), data).unwrap();
        self
    }

    pub fn get(&self, name: &str) -> Vec<u8> {
        std::fs::read(self.0.join(name)).unwrap()
    }

    /// Runs the program here, with nothing to read.
    pub fn film(&self, words: &[&str]) -> Answer {
        answer(Command::new(env!("CARGO_BIN_EXE_film")).args(words).current_dir(&self.0).stdin(Stdio::null()).output().unwrap())
    }

    /// Runs the program here with these bytes on standard input.
    pub fn film_on(&self, words: &[&str], data: &[u8]) -> Answer {
        self.put(".stdin", data);
        let input = File::open(self.0.join(".stdin")).unwrap();
        answer(Command::new(env!("CARGO_BIN_EXE_film")).args(words).current_dir(&self.0).stdin(input).output().unwrap())
    }

    /// Runs a line of the shell here, in which `film` is the program.
    pub fn shell(&self, line: &str) -> Answer {
        let bin = Path::new(env!("CARGO_BIN_EXE_film")).parent().unwrap().to_path_buf();
        let path = format!("{}:{}", bin.display(), std::env::var("PATH").unwrap_or_default());
        answer(Command::new("bash").args(["-c", line]).env("PATH", path).current_dir(&self.0).stdin(Stdio::null()).output().unwrap())
    }
}

impl Drop for Folder {
    fn drop(&mut self) {
        let _ = std::fs::remove_dir_all(&self.0);
    }
}

/// Random numbers by a seed (`SplitMix64`).
pub struct Random(pub u64);

impl Random {
    pub fn next(&mut self) -> u64 {
        self.0 = self.0.wrapping_add(0x9e37_79b9_7f4a_7c15);
        let mut z = self.0;
        z = (z ^ (z >> 30)).wrapping_mul(0xbf58_476d_1ce4_e5b9);
        z = (z ^ (z >> 27)).wrapping_mul(0x94d0_49bb_1331_11eb);
        z ^ (z >> 31)
    }

    /// A number from low to high, both included.
    pub fn from(&mut self, low: u64, high: u64) -> u64 {
        low + self.next() % (high - low + 1)
    }

    pub fn one<'a, T>(&mut self, of: &'a [T]) -> &'a T {
        &of[self.from(0, of.len() as u64 - 1) as usize]
    }

    pub fn chance(&mut self, percent: u64) -> bool {
        self.from(0, 99) < percent
    }

    /// The ends often, small numbers and large ones alike.
    pub fn number(&mut self, low: u64, high: u64) -> u64 {
        match self.from(0, 4) {
            0 => low,
            1 => high,
            2 => self.from(low, high),
            3 => high.min(low + self.from(0, 9)),
            _ => low + ((high - low) as f64).powf(self.from(0, 1000) as f64 / 1000.0) as u64,
        }
        .min(high)
    }

    pub fn forecast(&mut self, slots: usize, most: u64) -> Vec<u32> {
        let kind = self.from(0, 9);
        let some: Vec<u32> = (0..self.from(1, 6)).map(|_| self.number(0, most) as u32).collect();
        match kind {
            0 => vec![some[0]; slots],
            1..=4 => (0..slots).map(|_| *self.one(&some)).collect(),
            5..=6 => (0..slots).map(|_| self.number(0, most) as u32).collect(),
            _ => {
                let mut forecast = Vec::new();
                while forecast.len() < slots {
                    let run = [1, 2, 3, 4, 9, 10, 11, self.from(1, slots as u64)][self.from(0, 7) as usize];
                    let bytes = *self.one(&some);
                    forecast.extend((0..run).map(|_| bytes));
                }
                forecast.truncate(slots);
                forecast
            }
        }
    }

    pub fn overrides(&mut self, chunks: u16, sizes: &[u32], most: u64) -> Vec<Override> {
        let share = [0, 0, 2, 30, 100][self.from(0, 4) as usize];
        let mut found = Vec::new();
        for chunk in 2..=chunks {
            for (layer, own) in (0..).zip(sizes) {
                let bytes = self.number(1, most) as u32;
                if self.chance(share) && bytes != *own {
                    found.push(Override { chunk, layer, bytes });
                }
            }
        }
        found
    }

    /// An accepted job, small or large.
    pub fn job(&mut self, most: u64) -> Job {
        let (chunks, span, delay, last) = loop {
            let (chunks, span, delay) = (self.number(1, most), self.number(1, 60), self.number(1, 3600));
            let last = (chunks - 1) * span + delay;
            if last <= 3600 && (most == 500 || last <= 4 * most) {
                break (chunks as u16, span as u16, delay as u16, last as usize);
            }
        };
        let sizes: Vec<u32> = (0..self.from(1, 4)).map(|_| self.number(1, 1 << 24) as u32).collect();
        let overrides = self.overrides(chunks, &sizes, 1 << 24);
        let limit = self.number(0, 65535) as u16;
        Job { chunks, span, delay, limit, sizes, overrides, forecast: self.forecast(last, 1 << 24) }
    }

    /// A small job on a link that is tight: pictures are skipped for every reason.
    pub fn tight_job(&mut self) -> Job {
        let (chunks, span, delay) = (self.from(1, 9) as u16, self.from(1, 4) as u16, self.from(1, 8) as u16);
        let last = usize::from(chunks - 1) * usize::from(span) + usize::from(delay);
        let sizes: Vec<u32> = (0..self.from(1, 4)).map(|_| self.from(1, 9) as u32).collect();
        let overrides = self.overrides(chunks, &sizes, 12);
        let forecast = (0..last).map(|_| *self.one(&[0, 0, 1, 2, 3, 5, 9])).collect();
        Job { chunks, span, delay, limit: self.from(0, 9 * u64::from(span)) as u16, sizes, overrides, forecast }
    }
}

/// 500 chunks, four layers and a size of each, 3,600 slots that all differ from their neighbours.
pub fn largest_job(limit: u16) -> Job {
    let mut random = Random(24);
    let sizes = vec![120_000, 90_000, 70_000, 50_000];
    let overrides = (2..=500u16).flat_map(|chunk| (0..4u8).map(move |layer| (chunk, layer)));
    Job {
        chunks: 500,
        span: 7,
        delay: 107,
        limit,
        overrides: overrides
            .map(|(chunk, layer)| Override {
                chunk,
                layer,
                bytes: [120_000, 90_000, 70_000, 50_000][usize::from(layer)] + 20 * u32::from(chunk),
            })
            .collect(),
        sizes,
        forecast: (0..3600u32).map(|t| 30_000 + 100 * random.from(0, 300) as u32 + t % 2).collect(),
    }
}
