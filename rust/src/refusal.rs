//! The refusals by name, with the documents' numbers and sentences.
use std::fmt;

macro_rules! refusals {
    ($($name:ident = $number:literal, $sentence:literal;)*) => {
        /// A refusal of document 01 (1 to 13) or 02 (14 to 22). Its sentence is the document's.
        #[derive(Clone, Copy, Debug, PartialEq, Eq, Hash)]
        #[repr(u8)]
        pub enum Refusal {
            $(#[doc = $sentence] $name = $number,)*
        }

        impl Refusal {
            /// Every refusal, by number.
            pub const ALL: &'static [Refusal] = &[$(Refusal::$name,)*];

            /// The document's sentence.
            #[must_use]
            pub fn sentence(self) -> &'static str {
                match self {
                    $(Refusal::$name => $sentence,)*
                }
            }
        }
    };
}

refusals! {
    EndsEarly = 1, "A file ends before a mark, within a record or without `EN`.";
    UnknownMark = 2, "Unknown mark for this kind of file.";
    BytesAfter = 3, "Bytes after `EN`.";
    Programmes = 4, "A second `PG`, or none by `EN`.";
    ProgrammeField = 5, "A programme field out of range, or d(C) above 3,600.";
    LayerSize = 6, "A layer size out of range, a fifth layer, or no layer by `EN`.";
    Forecast = 7, "A run of 0 slots, runs beyond 3,600 slots, bytes out of range, or a slot total other than d(C).";
    NotWhole = 8, "`KP` records not for 1 to C in turn, before every `FT`, and complete by `EN`; in a direct call marks that aren't one byte a chunk or a row not handed whole.";
    LongFile = 9, "A file above 65,536 bytes, read or to be written.";
    Sample = 10, "A sample's slot or bytes out of range, handed or kept; a meter with more than ten samples or slots not rising.";
    ShortBuffer = 11, "A lent buffer is shorter than the whole result, after all input refusals.";
    NoSamples = 12, "A forecast from a meter without samples.";
    LateSample = 13, "A sample whose slot is not above the last one's, after 10.";
    TraceLine = 14, "A line that isn't 1 to 7 digits, lacks its line feed, or has a time below the line before.";
    TraceSlot = 15, "A slot above 16,777,216 bytes, or a slot not a multiple of 1,500 in writing.";
    NoWait = 16, "No s within the forecast works, a forecast too short for s = 1 included.";
    Sequence = 17, "A record out of sequence or a run of the same bytes as the one before.";
    Sz = 18, "An `SZ` naming chunk 1, or a chunk or layer that isn't in the job, not rising, or of size out of range or equal to the layer's own; in a direct call also an `SZ` not handed whole.";
    NotPassing = 19, "Booking a list whose verdict isn't 0.";
    Release = 20, "Releasing a row for a slot that isn't there or beyond 16,777,216 bytes in a slot.";
    Slot = 21, "p not from 1 to d(C), or in planning a handed row not before p.";
    Fetched = 22, "Handed rows that break rule 1, 3, 4, 5 or 6, with rule 2 only where a sum exceeds its size, or that begin a chunk in an earlier slot than a handed one that plays before it.";
}

impl Refusal {
    /// Its number in the documents.
    #[must_use]
    pub fn number(self) -> u8 {
        self as u8
    }

    /// The refusal of a number.
    #[must_use]
    pub fn of(number: u64) -> Option<Refusal> {
        Refusal::ALL.iter().copied().find(|r| u64::from(r.number()) == number)
    }

    /// What a call answers: the result below 2^32, or 2^32 and the refusal's number more.
    pub(crate) fn settle(answer: u64) -> Result<usize, Refusal> {
        match answer.checked_sub(1 << 32) {
            None => Ok(answer as usize),
            Some(number) => Err(Refusal::of(number).expect("the library refuses by the documents' numbers alone")),
        }
    }
}

impl fmt::Display for Refusal {
    fn fmt(&self, f: &mut fmt::Formatter<'_>) -> fmt::Result {
        write!(f, "refused {}: {}", self.number(), self.sentence())
    }
}

impl std::error::Error for Refusal {}
