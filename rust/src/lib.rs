//! The layered film planner of the winch desk, proved in Rattle, for callers in Rust. A call
//! answers a value or a [`Refusal`], which carries document 01's or 02's number and sentence; nothing
//! is changed by a call that refuses. `include/film_planner.h` says what every call needs and
//! answers, and `include/film_most.h` says it of [`Job::most`]; here buffers are of the largest size
//! a result can have, so that [`Refusal::ShortBuffer`] never arises. No call panics: what is expected
//! of the archive in this crate is proved of it.
//!
//! ```
//! use film_planner::{Job, Refusal, Verdict};
//!
//! let job = Job {
//!     chunks: 3,
//!     span: 2,
//!     delay: 2,
//!     limit: 2,
//!     sizes: vec![2, 1],
//!     overrides: vec![],
//!     forecast: vec![3, 0, 1, 0, 2, 0],
//! };
//! let plan = job.plan()?;
//! assert_eq!(plan.counts, [2, 1, 0, 0]);
//! assert_eq!(job.check(&plan.marks, &plan.list)?, Verdict::Passes);
//! print!("{}", job.reasons()?); // chunk 1 layer 0: slots 2 to 4 carry 1, need 2 ..
//! assert_eq!(Job::read(b"").unwrap_err(), Refusal::EndsEarly);
//! # Ok::<(), Refusal>(())
//! ```
#![deny(unsafe_code)]
#![warn(missing_docs)]
// Every number that the archive answers is bounded, by theorem, below what it is cut to here.
#![allow(clippy::cast_possible_truncation)]
// An `expect` here says what is proved of the archive, so there is no panic to tell of.
#![allow(clippy::missing_panics_doc)]

// Nothing is lost where the answer of a getter is dropped; both arms of a test read as one table.
#[allow(clippy::must_use_candidate, clippy::match_bool)]
mod act;
#[macro_use]
mod ffi;
mod files;
mod job;
mod list;
mod meter;
mod most;
mod refusal;
mod trace;

use std::cmp::Ordering;

pub use act::Act;
pub use files::{convert_file, plan_file, reasons_file, report_file, verdict_files};
pub use job::{Job, Override};
pub use list::{FetchList, Piece, Row};
pub use meter::Meter;
pub use most::{Most, BOUNDS, MOST_WORK};
pub use refusal::Refusal;
pub use trace::{read_trace, write_trace};

/// The version of the header that this crate was written for: the archive's, or it does not link.
pub const VERSION: u32 = 1;

/// The largest results, each with its name and its place in the header (`FILM_ROWS` and so on).
macro_rules! largest {
    ($($(#[$doc:meta])* $name:ident = $value:literal;)*) => {
        $($(#[$doc])* pub const $name: usize = $value;)*

        /// The largest results by name, as the header has them behind `FILM_`.
        pub const LARGEST: &[(&str, usize)] = &[$((stringify!($name), $name),)*];
    };
}

largest! {
    /// Layer sizes of a job.
    LAYERS = 4;
    /// Slots of a forecast.
    SLOTS = 3600;
    /// Marks of a plan: one a chunk.
    MARKS = 500;
    /// Rows that planning hands over, also afresh.
    ROWS = 5599;
    /// Pieces to ask the link for: four layers of 500 chunks.
    PIECES = 2000;
    /// `SZ`s of a job: four layers of 499 chunks.
    SZS = 1996;
    /// C, L, s and the limit.
    PROGRAMME = 4;
    /// How many layers, how many `SZ`s.
    LENGTHS = 2;
    /// Counts of a plan.
    COUNTS = 4;
    /// Steps, ended, shortfall of a search.
    WALK = 3;
    /// Bytes of any file that is read or written.
    FILE = 65536;
    /// Rows of any plan file that is read.
    FILE_ROWS = 5957;
    /// Bytes of a job file as written.
    JOB_FILE = 46800;
    /// Bytes of the file of a plan of at most `ROWS` rows.
    PLAN_FILE = 64091;
    /// Bytes of a report.
    REPORT = 7633;
    /// Bytes of the reasons.
    REASONS = 94000;
    /// Cells of a meter.
    SAMPLES = 10;
}

/// A plan: a mark byte a chunk, whose bit n says that layer n is carried; its fetch list; how many
/// chunks carry each layer.
#[derive(Clone, Debug, PartialEq, Eq)]
pub struct Plan {
    /// One a chunk.
    pub marks: Vec<u8>,
    /// The plan's own list, by slot, chunk, layer.
    pub list: FetchList,
    /// 0 for layers that the job has not.
    pub counts: [u16; COUNTS],
}

/// What a search within a budget found: the plan over the best set of bases met, the steps taken,
/// whether the walk ended, and by how many bases at most another list in playing order can be
/// better.
#[derive(Clone, Debug, PartialEq, Eq)]
pub struct Found {
    /// The plan over the best set.
    pub plan: Plan,
    /// The steps taken, at most the budget.
    pub steps: u32,
    /// No set is better: the shortfall is 0.
    pub ended: bool,
    /// How many bases more a passing list in playing order can carry at the most.
    pub shortfall: u16,
}

/// What the checker says of a list: it passes, or the lowest rule it breaks.
#[derive(Clone, Copy, Debug, PartialEq, Eq, Hash)]
pub enum Verdict {
    /// All rules hold.
    Passes,
    /// The lowest rule that does not hold.
    Breaks(Rule),
}

/// Rules 1 to 7 of document 01.
#[derive(Clone, Copy, Debug, PartialEq, Eq, PartialOrd, Ord, Hash)]
pub enum Rule {
    /// Slot 1 to d(C), chunk 1 to C, layer below the layer count, bytes at least 1.
    InRange = 1,
    /// Each layer of each chunk sums to 0 or its full size.
    WholeLayers,
    /// A carried layer has the layer below carried.
    LowerCarried,
    /// A slot's rows sum to at most the forecast of the slot.
    WithinForecast,
    /// No row is later than its chunk's due slot.
    OnTime,
    /// At the end of each slot at most H chunks are held.
    FewHeld,
    /// The marks of the plan say the layers carried.
    MarksSay,
}

impl Rule {
    /// All of them, by number.
    pub const ALL: [Rule; 7] =
        [Rule::InRange, Rule::WholeLayers, Rule::LowerCarried, Rule::WithinForecast, Rule::OnTime, Rule::FewHeld, Rule::MarksSay];
}

impl Verdict {
    fn of(n: usize) -> Verdict {
        match n {
            0 => Verdict::Passes,
            _ => Verdict::Breaks(Rule::ALL[n - 1]),
        }
    }

    /// Document 01's number.
    #[must_use]
    pub fn number(self) -> u8 {
        match self {
            Verdict::Passes => 0,
            Verdict::Breaks(rule) => rule as u8,
        }
    }
}

/// Two plans' counts, entry by entry from the base.
#[must_use]
pub fn compare(a: [u16; COUNTS], b: [u16; COUNTS]) -> Ordering {
    match ffi::compare(&a, &b) {
        0 => Ordering::Equal,
        1 => Ordering::Less,
        _ => Ordering::Greater,
    }
}

/// How many marks have bit n; 0 for n above 7.
#[must_use]
pub fn count_marks(marks: &[u8], n: u8) -> u64 {
    let mut count = [0];
    Refusal::settle(ffi::count_marks(marks, n, &mut count)).expect("one number has room for a count");
    count[0]
}

/// The archive's version, [`VERSION`].
#[must_use]
pub fn version() -> u32 {
    ffi::version() as u32
}

/// How many of a word's eight bytes have bit n; 0 for n above 7.
#[must_use]
pub fn count_word(word: u64, n: u8) -> u8 {
    ffi::count_word(word, n) as u8
}
