//! The link meter.
use crate::{ffi, Refusal, SAMPLES};

/// The link meter: the last ten samples, and a forecast from them. Its fields are the storage that
/// the calls work in, so that a meter can be kept and brought back; whatever they hold, the calls
/// answer or refuse.
#[derive(Clone, Debug, PartialEq, Eq)]
pub struct Meter {
    /// The slots of the samples, the newest last.
    pub slots: [u16; SAMPLES],
    /// What each of these slots carried.
    pub bytes: [u32; SAMPLES],
    /// How many of the cells hold a sample, from the first on.
    pub kept: u8,
}

impl Default for Meter {
    fn default() -> Self {
        Meter::new()
    }
}

impl Meter {
    /// A meter without samples.
    #[must_use]
    pub fn new() -> Meter {
        let mut m = Meter { slots: [0; SAMPLES], bytes: [0; SAMPLES], kept: 0 };
        let mut kept = [0];
        let answer = ffi::meter_new(&mut m.slots, &mut m.bytes, &mut kept);
        Refusal::settle(answer).expect("ten cells and one are a meter");
        m.kept = kept[0];
        m
    }

    /// Takes a sample, a slot of 1 to 65,535 and its bytes, 0 to 16,777,216; the last ten are kept.
    ///
    /// # Errors
    ///
    /// In this order: [`Refusal::Sample`], [`Refusal::LateSample`]. The sample itself is judged
    /// before what is kept.
    pub fn take(&mut self, slot: u16, bytes: u32) -> Result<(), Refusal> {
        let mut kept = [self.kept];
        let answer = ffi::meter_take(&mut self.slots, &mut self.bytes, &mut kept, slot, bytes);
        self.kept = kept[0];
        Refusal::settle(answer).map(|_| ())
    }

    /// The forecast of a slot's bytes, never above the samples' harmonic mean; 0 if a sample is 0.
    ///
    /// # Errors
    ///
    /// In this order: [`Refusal::Sample`], [`Refusal::NoSamples`].
    pub fn forecast(&self) -> Result<u32, Refusal> {
        Refusal::settle(ffi::meter_forecast(&self.slots, &self.bytes, &[self.kept])).map(|n| n as u32)
    }
}
