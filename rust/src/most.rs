//! Most pictures for any film: the call of `include/film_most.h`, which is no part of version 1 of
//! `include/film_planner.h`.
#![allow(unsafe_code)] // The macro is that of ffi.rs, where the `unsafe` stands.
#![allow(clippy::too_many_arguments)]

use crate::{FetchList, Job, Plan, Refusal, COUNTS, MARKS, ROWS};

calls! {
    fn most = film_most(
        chunks: number u16, span: number u16, delay: number u16, limit: number u16, sizes: handed u32, size_chunks: handed u16,
        size_layers: handed u8, size_bytes: handed u32, forecast: handed u32, passes: number u32, work: lent u64, marks: lent u8,
        row_slots: lent u16, row_chunks: lent u16, row_layers: lent u8, row_bytes: lent u32, counts: lent u16, bounds: lent u16,
    );
}

/// In playing order, in any order, exact: of most pictures.
pub const BOUNDS: usize = 3;
/// Scratch of most pictures for any job: 501 rows of 501 numbers.
pub const MOST_WORK: usize = 251_001;

/// The plan with the most pictures that a search found, and how many pictures no fetch list can
/// exceed.
#[derive(Clone, Debug, PartialEq, Eq)]
pub struct Most {
    /// The plan over the set of bases found. It carries at least as many bases as [`Job::plan`]'s.
    pub plan: Plan,
    /// No passing list in playing order carries more bases.
    pub bound: u16,
    /// No passing list in any order carries more bases.
    pub bound_any: u16,
    /// The plan carries `bound` bases: no list in playing order shows more pictures.
    pub exact: bool,
}

impl Job {
    /// Returns a plan over the most bases that at most `passes` passes find, and two bounds that no
    /// fetch list exceeds. It is for any film, equal or uneven, and any limit.
    ///
    /// Each pass looks for one number of bases, from the bound down, so `passes` limits the time.
    /// Films with the sizes and links of practice mostly need 0 to 2 passes, and 16 are plenty. On
    /// 500 chunks a pass takes up to a few hundredths of a second. The scratch of the call, 2 MB for
    /// the largest job, is allocated here.
    ///
    /// If [`Most::exact`] is true, no list in playing order shows more pictures than the plan. If
    /// the plan carries [`Most::bound_any`] bases, no list in any order does. Both hold if all bases
    /// have one size, or if the limit holds the whole programme.
    ///
    /// # Errors
    ///
    /// In this order: [`Refusal::ProgrammeField`], [`Refusal::LayerSize`], [`Refusal::Sz`],
    /// [`Refusal::Forecast`].
    ///
    /// # Examples
    ///
    /// ```
    /// use film_planner::{Job, Override, Refusal};
    ///
    /// let job = Job {
    ///     chunks: 3,
    ///     span: 1,
    ///     delay: 1,
    ///     limit: 2,
    ///     sizes: vec![1],
    ///     overrides: vec![Override { chunk: 3, layer: 0, bytes: 3 }],
    ///     forecast: vec![1, 1, 1],
    /// };
    /// let most = job.most(16)?;
    /// assert_eq!((job.plan()?.counts[0], most.plan.counts[0]), (1, 2));
    /// assert_eq!((most.bound, most.bound_any, most.exact), (2, 2, true));
    /// # Ok::<(), Refusal>(())
    /// ```
    pub fn most(&self, passes: u32) -> Result<Most, Refusal> {
        let size_chunks: Vec<u16> = self.overrides.iter().map(|o| o.chunk).collect();
        let size_layers: Vec<u8> = self.overrides.iter().map(|o| o.layer).collect();
        let size_bytes: Vec<u32> = self.overrides.iter().map(|o| o.bytes).collect();
        let (mut work, mut bounds) = (vec![0; MOST_WORK], [0; BOUNDS]);
        let (mut marks, mut list, mut counts) = (vec![0; MARKS], FetchList::room(ROWS), [0; COUNTS]);
        let rows = Refusal::settle(most(
            self.chunks,
            self.span,
            self.delay,
            self.limit,
            &self.sizes,
            &size_chunks,
            &size_layers,
            &size_bytes,
            &self.forecast,
            passes,
            &mut work,
            &mut marks,
            &mut list.slots,
            &mut list.chunks,
            &mut list.layers,
            &mut list.bytes,
            &mut counts,
            &mut bounds,
        ))?;
        marks.truncate(usize::from(self.chunks));
        Ok(Most { plan: Plan { marks, list: list.cut(rows), counts }, bound: bounds[0], bound_any: bounds[1], exact: bounds[2] == 1 })
    }
}
