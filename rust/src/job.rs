//! Jobs: what is fetched, by when, over which link; and every call that takes one.
use crate::{
    ffi, FetchList, Found, Piece, Plan, Refusal, Verdict, COUNTS, FILE, FILE_ROWS, JOB_FILE, LAYERS, LENGTHS, MARKS, PIECES, PROGRAMME,
    REASONS, REPORT, ROWS, SLOTS, SZS, WALK,
};

/// A size of one layer of one chunk that differs from the layer's own (`SZ`).
#[derive(Clone, Copy, Debug, PartialEq, Eq, PartialOrd, Ord, Hash)]
pub struct Override {
    /// From 2 to C: the layer's own size is chunk 1's.
    pub chunk: u16,
    /// From 0, the base, to 3.
    pub layer: u8,
    /// From 1 to 16,777,216, and not the layer's own.
    pub bytes: u32,
}

/// A job: C chunks of L slots of film each (`span`), a start delay of s slots, the buffer limit,
/// the layer sizes, the sizes that differ by chunk, and the forecast, one number a slot. Any value
/// may stand in it; each call refuses what is out of range.
#[derive(Clone, Debug, Default, PartialEq, Eq)]
pub struct Job {
    /// C, from 1 to 500.
    pub chunks: u16,
    /// L, from 1 to 60 slots.
    pub span: u16,
    /// s, from 1 to 3,600 slots.
    pub delay: u16,
    /// Slots of film that the buffer holds; H is limit / L.
    pub limit: u16,
    /// Bytes of each layer of a chunk, the base first: one to four, each from 1 to 16,777,216.
    pub sizes: Vec<u32>,
    /// Sizes that differ, rising by chunk and then layer; none for film of equal chunks.
    pub overrides: Vec<Override>,
    /// Bytes that each slot can carry, from 0 to 16,777,216: d(C) = (C - 1) * L + s of them.
    pub forecast: Vec<u32>,
}

/// The overrides by column, as the calls take them.
struct Columns(Vec<u16>, Vec<u8>, Vec<u32>);

fn columns(overrides: &[Override]) -> Columns {
    Columns(
        overrides.iter().map(|o| o.chunk).collect(),
        overrides.iter().map(|o| o.layer).collect(),
        overrides.iter().map(|o| o.bytes).collect(),
    )
}

/// A call with the job's arguments in front of some more.
macro_rules! with_job {
    ($call:ident, $job:expr, $forecast:expr, $($more:expr),*) => {{
        let Columns(chunks, layers, bytes) = columns(&$job.overrides);
        Refusal::settle(ffi::$call(
            $job.chunks, $job.span, $job.delay, $job.limit, &$job.sizes, &chunks, &layers, &bytes, $forecast, $($more),*
        ))
    }};
}

impl Job {
    /// Reads a job file in one sequence.
    ///
    /// # Errors
    ///
    /// [`Refusal::LongFile`]; then record by record [`Refusal::UnknownMark`] or
    /// [`Refusal::EndsEarly`] for its mark, [`Refusal::EndsEarly`] for its body,
    /// [`Refusal::Programmes`] for a second `PG`, [`Refusal::Sequence`],
    /// [`Refusal::ProgrammeField`], [`Refusal::LayerSize`], [`Refusal::Forecast`]; at `EN`
    /// [`Refusal::BytesAfter`], [`Refusal::Programmes`], [`Refusal::LayerSize`], [`Refusal::Sz`],
    /// [`Refusal::Forecast`].
    pub fn read(file: &[u8]) -> Result<Job, Refusal> {
        let (mut programme, mut lengths, mut sizes, mut forecast) = ([0; PROGRAMME], [0; LENGTHS], vec![0; LAYERS], vec![0; SLOTS]);
        let (mut chunks, mut layers, mut bytes) = (vec![0; SZS], vec![0; SZS], vec![0; SZS]);
        let answer = ffi::read_job(file, &mut programme, &mut lengths, &mut sizes, &mut chunks, &mut layers, &mut bytes, &mut forecast);
        let slots = Refusal::settle(answer)?;
        let overrides = (0..lengths[1] as usize).map(|k| Override { chunk: chunks[k], layer: layers[k], bytes: bytes[k] }).collect();
        Ok(Job::read_as(programme, lengths, sizes, overrides, forecast, slots))
    }

    /// Reads a mixed job file, as document 01 has it: `PG` anywhere, `LY` and `BW` mixed, no `SZ`.
    ///
    /// # Errors
    ///
    /// Those of [`Job::read`], without [`Refusal::Sequence`] and [`Refusal::Sz`].
    pub fn read_mixed(file: &[u8]) -> Result<Job, Refusal> {
        let (mut programme, mut lengths, mut sizes, mut forecast) = ([0; PROGRAMME], [0; LENGTHS], vec![0; LAYERS], vec![0; SLOTS]);
        let slots = Refusal::settle(ffi::read_mixed_job(file, &mut programme, &mut lengths, &mut sizes, &mut forecast))?;
        Ok(Job::read_as(programme, lengths, sizes, Vec::new(), forecast, slots))
    }

    fn read_as(
        p: [u16; PROGRAMME],
        lengths: [u64; LENGTHS],
        mut sizes: Vec<u32>,
        overrides: Vec<Override>,
        mut forecast: Vec<u32>,
        slots: usize,
    ) -> Job {
        sizes.truncate(lengths[0] as usize);
        forecast.truncate(slots);
        Job { chunks: p[0], span: p[1], delay: p[2], limit: p[3], sizes, overrides, forecast }
    }

    /// The job's file, the only one it has in one sequence.
    ///
    /// # Errors
    ///
    /// In this order: [`Refusal::ProgrammeField`], [`Refusal::LayerSize`], [`Refusal::Sz`],
    /// [`Refusal::Forecast`].
    pub fn write(&self) -> Result<Vec<u8>, Refusal> {
        let mut out = vec![0; JOB_FILE];
        let n = with_job!(write_job, self, &self.forecast, &mut out)?;
        out.truncate(n);
        Ok(out)
    }

    /// Reads a plan file for the job, its marks and rows. Counts are those of the marks.
    ///
    /// # Errors
    ///
    /// The job's: [`Refusal::ProgrammeField`], [`Refusal::LayerSize`], [`Refusal::Sz`],
    /// [`Refusal::Forecast`]. Then the file's: [`Refusal::LongFile`]; record by record
    /// [`Refusal::UnknownMark`], [`Refusal::EndsEarly`], [`Refusal::NotWhole`]; at `EN`
    /// [`Refusal::BytesAfter`], [`Refusal::NotWhole`].
    pub fn read_plan(&self, file: &[u8]) -> Result<Plan, Refusal> {
        let (mut marks, mut list) = (vec![0; MARKS], FetchList::room(FILE_ROWS));
        let rows = with_job!(
            read_plan,
            self,
            &self.forecast,
            file,
            &mut marks,
            &mut list.slots,
            &mut list.chunks,
            &mut list.layers,
            &mut list.bytes
        )?;
        marks.truncate(usize::from(self.chunks));
        let counts = [0, 1, 2, 3].map(|n| crate::count_marks(&marks, n) as u16);
        Ok(Plan { marks, list: list.cut(rows), counts })
    }

    /// The file of some marks and rows, the rows as handed.
    ///
    /// # Errors
    ///
    /// In this order: [`Refusal::ProgrammeField`], [`Refusal::LayerSize`], [`Refusal::Sz`],
    /// [`Refusal::Forecast`], [`Refusal::NotWhole`], [`Refusal::LongFile`].
    pub fn write_plan(&self, marks: &[u8], list: &FetchList) -> Result<Vec<u8>, Refusal> {
        let mut out = vec![0; FILE];
        let n = with_job!(write_plan, self, &self.forecast, marks, &list.slots, &list.chunks, &list.layers, &list.bytes, &mut out)?;
        out.truncate(n);
        Ok(out)
    }

    /// Plans the job. What is planned passes [`Job::check`].
    ///
    /// # Errors
    ///
    /// In this order: [`Refusal::ProgrammeField`], [`Refusal::LayerSize`], [`Refusal::Sz`],
    /// [`Refusal::Forecast`].
    pub fn plan(&self) -> Result<Plan, Refusal> {
        let (mut marks, mut list, mut counts) = (vec![0; MARKS], FetchList::room(ROWS), [0; COUNTS]);
        let rows = with_job!(
            plan,
            self,
            &self.forecast,
            &mut marks,
            &mut list.slots,
            &mut list.chunks,
            &mut list.layers,
            &mut list.bytes,
            &mut counts
        )?;
        marks.truncate(usize::from(self.chunks));
        Ok(Plan { marks, list: list.cut(rows), counts })
    }

    /// Plans afresh at slot p: the rows fetched before it, and the forecast from it on. The plan's
    /// list has the rows from p on; behind those fetched they pass [`Job::check_from`].
    ///
    /// # Errors
    ///
    /// In this order: [`Refusal::ProgrammeField`], [`Refusal::LayerSize`], [`Refusal::Sz`],
    /// [`Refusal::Forecast`], [`Refusal::Slot`], [`Refusal::Forecast`], [`Refusal::Fetched`]. The
    /// second [`Refusal::Forecast`] is that of the forecast from p on.
    pub fn replan(&self, p: u16, fetched: &FetchList, onward: &[u32]) -> Result<Plan, Refusal> {
        let (mut marks, mut list, mut counts) = (vec![0; MARKS], FetchList::room(ROWS), [0; COUNTS]);
        let rows = with_job!(
            replan,
            self,
            &self.forecast,
            p,
            &fetched.slots,
            &fetched.chunks,
            &fetched.layers,
            &fetched.bytes,
            onward,
            &mut marks,
            &mut list.slots,
            &mut list.chunks,
            &mut list.layers,
            &mut list.bytes,
            &mut counts
        )?;
        marks.truncate(usize::from(self.chunks));
        Ok(Plan { marks, list: list.cut(rows), counts })
    }

    /// What to ask the link for in slot p, from the rows fetched before it and a rate in bytes a
    /// slot, any number: the pieces, one after the other, as far as the slot goes. The forecast of
    /// the slots before p says what they brought, from p on it is not used. [`Act`](crate::Act) runs
    /// this slot by slot.
    ///
    /// # Errors
    ///
    /// In this order: [`Refusal::ProgrammeField`], [`Refusal::LayerSize`], [`Refusal::Sz`],
    /// [`Refusal::Forecast`], [`Refusal::Slot`], [`Refusal::Fetched`].
    pub fn live(&self, p: u16, fetched: &FetchList, rate: u32) -> Result<Vec<Piece>, Refusal> {
        let (mut chunks, mut layers, mut bytes) = (vec![0; PIECES], vec![0; PIECES], vec![0; PIECES]);
        let n = with_job!(
            live,
            self,
            &self.forecast,
            p,
            &fetched.slots,
            &fetched.chunks,
            &fetched.layers,
            &fetched.bytes,
            rate,
            &mut chunks,
            &mut layers,
            &mut bytes
        )?;
        Ok((0..n).map(|k| Piece { chunk: chunks[k], layer: layers[k], bytes: bytes[k] }).collect())
    }

    /// Searches the best set of bases within a budget of steps, and plans over it. A step takes about
    /// 3 nanoseconds, the largest budget about 15 seconds, and nothing stops it on the way.
    ///
    /// # Errors
    ///
    /// In this order: [`Refusal::ProgrammeField`], [`Refusal::LayerSize`], [`Refusal::Sz`],
    /// [`Refusal::Forecast`].
    pub fn search(&self, budget: u32) -> Result<Found, Refusal> {
        let (mut marks, mut list, mut counts, mut walk) = (vec![0; MARKS], FetchList::room(ROWS), [0; COUNTS], [0; WALK]);
        let rows = with_job!(
            search,
            self,
            &self.forecast,
            budget,
            &mut marks,
            &mut list.slots,
            &mut list.chunks,
            &mut list.layers,
            &mut list.bytes,
            &mut counts,
            &mut walk
        )?;
        marks.truncate(usize::from(self.chunks));
        Ok(Found { plan: Plan { marks, list: list.cut(rows), counts }, steps: walk[0], ended: walk[1] == 1, shortfall: walk[2] as u16 })
    }

    /// Judges a fetch list with its marks, one a chunk.
    ///
    /// # Errors
    ///
    /// In this order: [`Refusal::ProgrammeField`], [`Refusal::LayerSize`], [`Refusal::Sz`],
    /// [`Refusal::Forecast`], [`Refusal::NotWhole`].
    pub fn check(&self, marks: &[u8], list: &FetchList) -> Result<Verdict, Refusal> {
        let n = with_job!(check, self, &self.forecast, marks, &list.slots, &list.chunks, &list.layers, &list.bytes)?;
        Ok(Verdict::of(n))
    }

    /// The second call, for lists made afresh at slot p, on the joined forecast: a sum whose rows are
    /// all before p may be short.
    ///
    /// # Errors
    ///
    /// In this order: [`Refusal::ProgrammeField`], [`Refusal::LayerSize`], [`Refusal::Sz`],
    /// [`Refusal::Forecast`], [`Refusal::NotWhole`], [`Refusal::Slot`].
    pub fn check_from(&self, p: u16, marks: &[u8], list: &FetchList) -> Result<Verdict, Refusal> {
        let n = with_job!(check_from, self, &self.forecast, p, marks, &list.slots, &list.chunks, &list.layers, &list.bytes)?;
        Ok(Verdict::of(n))
    }

    /// The report of the job's plan.
    ///
    /// # Errors
    ///
    /// In this order: [`Refusal::ProgrammeField`], [`Refusal::LayerSize`], [`Refusal::Sz`],
    /// [`Refusal::Forecast`].
    pub fn report(&self) -> Result<String, Refusal> {
        let mut out = vec![0; REPORT];
        let n = with_job!(report, self, &self.forecast, &mut out)?;
        out.truncate(n);
        Ok(String::from_utf8(out).expect("a report is words, digits and line feeds"))
    }

    /// The reason under each layer that the job's plan doesn't carry.
    ///
    /// # Errors
    ///
    /// In this order: [`Refusal::ProgrammeField`], [`Refusal::LayerSize`], [`Refusal::Sz`],
    /// [`Refusal::Forecast`].
    pub fn reasons(&self) -> Result<String, Refusal> {
        let mut out = vec![0; REASONS];
        let n = with_job!(reasons, self, &self.forecast, &mut out)?;
        out.truncate(n);
        Ok(String::from_utf8(out).expect("reasons are words, digits and line feeds"))
    }

    /// Takes a passing list's bytes off the forecast.
    ///
    /// # Errors
    ///
    /// In this order: [`Refusal::ProgrammeField`], [`Refusal::LayerSize`], [`Refusal::Sz`],
    /// [`Refusal::Forecast`], [`Refusal::NotWhole`], [`Refusal::NotPassing`].
    pub fn book(&mut self, marks: &[u8], list: &FetchList) -> Result<(), Refusal> {
        with_job!(book, self, &mut self.forecast, marks, &list.slots, &list.chunks, &list.layers, &list.bytes).map(|_| ())
    }

    /// Adds a list's bytes back to the forecast, whatever their chunks and layers are.
    ///
    /// # Errors
    ///
    /// In this order: [`Refusal::ProgrammeField`], [`Refusal::LayerSize`], [`Refusal::Sz`],
    /// [`Refusal::Forecast`], [`Refusal::Release`].
    pub fn release(&mut self, list: &FetchList) -> Result<(), Refusal> {
        with_job!(release, self, &mut self.forecast, &list.slots, &list.chunks, &list.layers, &list.bytes).map(|_| ())
    }

    /// The smallest start delay for which the plan skips no base, whatever the job's own is. The
    /// forecast may have from 1 to 3,600 slots.
    ///
    /// # Errors
    ///
    /// In this order: [`Refusal::ProgrammeField`], [`Refusal::LayerSize`], [`Refusal::Sz`],
    /// [`Refusal::Forecast`], [`Refusal::NoWait`]. The first is that of C, L and the limit alone.
    pub fn wait(&self) -> Result<u16, Refusal> {
        let Columns(chunks, layers, bytes) = columns(&self.overrides);
        let answer = ffi::wait(self.chunks, self.span, self.limit, &self.sizes, &chunks, &layers, &bytes, &self.forecast);
        Refusal::settle(answer).map(|s| s as u16)
    }
}
