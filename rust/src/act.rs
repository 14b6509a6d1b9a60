use crate::{count_marks, FetchList, Job, Meter, Piece, Plan, Refusal, Row, Verdict, SAMPLES};

/// The most that a slot of a forecast can say, and so the most that a slot of an act can bring.
const SLOT_MOST: u32 = 16_777_216;

/// An act: a film fetched slot by slot on a link that is not as forecast. In each slot it says what
/// to ask the link for (`asks`), is told what came (`brought`) and goes on to the next; it keeps
/// the rows fetched, what each slot brought, and the meter. Once it is made it never refuses, to
/// the end of the act.
///
/// ```
/// # use film_planner::{Act, Job, Refusal, Verdict};
/// # let job = Job { chunks: 3, span: 2, delay: 2, limit: 2, sizes: vec![2, 1], overrides: vec![],
/// # forecast: vec![3, 0, 1, 0, 2, 0] };
/// let mut act = Act::new(job)?;
/// for link in [3, 0, 1, 0, 2, 0] {
///     // The desk asks the link for these one after the other, until the slot is over.
///     let asked: u32 = act.asks().iter().map(|piece| piece.bytes).sum();
///     act.brought(asked.min(link));
/// }
/// assert!(act.is_over());
/// assert_eq!(act.check(), Verdict::Passes);
/// # Ok::<(), Refusal>(())
/// ```
///
/// What is proved is the call behind `asks` (`film_live`): its pieces are those of the rule in
/// docs/LIVE.md, and whatever part of them comes, in their order, the rows that it makes are
/// refused neither by it nor by planning afresh in the next slot. What this type adds is not
/// proved: that it keeps the rows and the forecast of the slots gone so that this holds, which
/// samples the meter gets, the rate before the first, and what it asks for by itself where the rule
/// would begin a chunk that cannot come. The tests of `rust/tests/live.rs` try it. That the most
/// pictures are shown is promised by neither: no rule without a forecast can.
#[derive(Clone, Debug, PartialEq, Eq)]
pub struct Act {
    /// Its forecast says what each slot gone brought. One that said less would make the rows
    /// fetched break rule 4, and every later call would refuse them by 22.
    job: Job,
    slot: u16,
    fetched: FetchList,
    meter: Meter,
    asks: Vec<Piece>,
}

impl Act {
    /// An act in slot 1, nothing fetched.
    ///
    /// # Errors
    ///
    /// In this order: [`Refusal::ProgrammeField`], [`Refusal::LayerSize`], [`Refusal::Sz`],
    /// [`Refusal::Forecast`].
    pub fn new(job: Job) -> Result<Act, Refusal> {
        job.live(1, &FetchList::new(), SLOT_MOST)?;
        let mut act = Act { job, slot: 1, fetched: FetchList::new(), meter: Meter::new(), asks: Vec::new() };
        act.asks = act.next_asks();
        Ok(act)
    }

    /// The slot that goes on, from 1; d(C) + 1 when the act is over.
    pub fn slot(&self) -> u16 {
        self.slot
    }

    /// The last slot is gone.
    pub fn is_over(&self) -> bool {
        usize::from(self.slot) > self.job.forecast.len()
    }

    /// The job; its forecast says of the slots gone what they brought, and of the others what it
    /// was handed.
    pub fn job(&self) -> &Job {
        &self.job
    }

    /// The rows fetched so far.
    pub fn fetched(&self) -> &FetchList {
        &self.fetched
    }

    /// The meter, by whose forecast the act asks.
    pub fn meter(&self) -> &Meter {
        &self.meter
    }

    /// The rate by which the act asks, at most 16,777,216: the meter's forecast, or its last sample
    /// where that is more. The forecast is a harmonic mean: one slot far below the others holds it
    /// down for ten samples, and what is passed over then, on a link that is back, is lost. Before
    /// the first sample it is the most that a slot can bring: every base is then in time, so none
    /// is passed over on no evidence.
    pub fn rate(&self) -> u32 {
        let samples = &self.meter.bytes[..usize::from(self.meter.kept)];
        match (self.meter.forecast(), samples.last()) {
            (Ok(forecast), Some(last)) => forecast.max(*last),
            _ => SLOT_MOST,
        }
    }

    /// What to ask the link for in this slot, one piece after the other, as far as the slot goes;
    /// no more than 16,777,216 bytes. Nothing when there is nothing to ask, or the act is over.
    pub fn asks(&self) -> &[Piece] {
        &self.asks
    }

    /// By a rate that the desk knows better than the meter, for this slot alone: to be called
    /// before the slot's first piece is asked for. Any number does. The pieces are the rule's at
    /// that rate and no others: what the act does beside the rule it settles by its own samples.
    pub fn asks_at(&mut self, rate: u32) -> &[Piece] {
        self.asks = self.asks_by(rate);
        &self.asks
    }

    /// By the rate of the act. Where this asks for no base, it may be that a chunk is passed over
    /// for a later one that cannot begin yet, since the first one keeps its place in the buffer:
    /// then the slot goes to the first one, as at the highest rate, by which none is passed over.
    /// And where the rule would begin a chunk that cannot come, a later one begins instead.
    fn next_asks(&self) -> Vec<Piece> {
        let mut asks = self.rule(self.rate());
        if asks.iter().all(|piece| piece.layer > 0) {
            asks = self.rule(SLOT_MOST);
        }
        within_a_slot(self.with_a_later_one(&asks).unwrap_or(asks))
    }

    fn asks_by(&self, rate: u32) -> Vec<Piece> {
        within_a_slot(self.rule(rate))
    }

    /// The proved call's pieces; none when the act is over.
    fn rule(&self, rate: u32) -> Vec<Piece> {
        match self.is_over() {
            true => Vec::new(),
            false => self.job.live(self.slot, &self.fetched, rate).expect("what an act fetched is never refused"),
        }
    }

    /// The rule looks at the first chunk that lacks base bytes and the next H, and asks the others
    /// in turn, in time or not. A chunk that it begins keeps its place to its due slot; with few
    /// places, on a link too slow for every base, those that come too late leave none for one that
    /// would come in time, and the screen may stand. So the chunk c that the asks would begin gives
    /// way to a later one, m, if
    /// - the meter is full, and not even its largest sample in every slot brings c's base behind
    ///   the bases asked before it: a low rate alone may be a dip, and giving way in dips loses
    ///   more than it wins;
    /// - m is the first after c whose base the rate brings behind those bases, it would not bring
    ///   it behind c, and there is a place for m.
    ///
    /// Then the chunks from c to before m are not asked and those from m on are, as far as there
    /// are places. No chunk from c on is begun, so playing order and rule 6 hold as for the rule's
    /// own asks: these are safe whichever chunks are passed over (`Asked.safe_beside` in
    /// `theory_live`).
    fn with_a_later_one(&self, asks: &[Piece]) -> Option<Vec<Piece>> {
        let samples = &self.meter.bytes[..usize::from(self.meter.kept)];
        let most = samples.iter().max().filter(|_| samples.len() == SAMPLES)?;
        let mut begun = vec![false; usize::from(self.job.chunks) + 1];
        self.fetched.rows().for_each(|row| begun[usize::from(row.chunk)] = true);
        let is_begun = |chunk: u16| begun[usize::from(chunk)];
        let due = |chunk: u16| self.job.delay + (chunk - 1) * self.job.span;
        let brings = |rate: u32, chunk: u16| u64::from(rate) * u64::from(due(chunk) + 1 - self.slot);
        let (layers, left) = (self.job.sizes.len(), self.left());
        let lacks = |chunk: u16, layer: usize| left[(usize::from(chunk) - 1) * layers + layer];

        let rate = self.rate();
        let mut before = 0;
        let late = asks.iter().take_while(|piece| piece.layer == 0).find(|piece| {
            let with_it = before + u64::from(piece.bytes);
            let late = !is_begun(piece.chunk) && with_it > brings(*most, piece.chunk);
            if !late {
                // It takes no bytes after its due slot, whole or not.
                before = with_it.min(brings(rate, piece.chunk));
            }
            late
        })?;
        let later = (late.chunk + 1..=self.job.chunks).find(|m| before + u64::from(lacks(*m, 0)) <= brings(rate, *m))?;
        if before + u64::from(late.bytes) + u64::from(lacks(later, 0)) <= brings(rate, later) {
            return None;
        }

        let taken = (1..late.chunk).filter(|i| due(*i) > self.slot && (is_begun(*i) || asks.iter().any(|piece| piece.chunk == *i))).count();
        let places = (self.job.limit / self.job.span).checked_sub(taken as u16).filter(|places| *places > 0)?;
        let from_later = later..=self.job.chunks.min(later.saturating_add(places - 1));
        let of_layer = |layer: usize| {
            let kept = asks.iter().filter(move |piece| piece.chunk < late.chunk && usize::from(piece.layer) == layer).copied();
            kept.chain(from_later.clone().map(move |chunk| Piece { chunk, layer: layer as u8, bytes: lacks(chunk, layer) }))
        };
        Some((0..layers).flat_map(of_layer).collect())
    }

    /// The bytes not yet fetched, of each chunk the layers from the base up.
    fn left(&self) -> Vec<u32> {
        let layers = self.job.sizes.len();
        let at = |chunk: u16, layer: u8| (usize::from(chunk) - 1) * layers + usize::from(layer);
        let mut left = self.job.sizes.repeat(usize::from(self.job.chunks));
        self.job.overrides.iter().for_each(|o| left[at(o.chunk, o.layer)] = o.bytes);
        self.fetched.rows().for_each(|row| left[at(row.chunk, row.layer)] -= row.bytes);
        left
    }

    /// The slot is over: the first so many bytes of the asks came in it, in their order. On to the
    /// next one. Bytes beyond the asks are not of this film and not counted.
    pub fn brought(&mut self, bytes: u32) {
        if self.is_over() {
            return;
        }
        let asked: u32 = self.asks.iter().map(|piece| piece.bytes).sum();
        let came = bytes.min(asked);
        self.sample(came, asked);
        let mut left = came;
        for piece in std::mem::take(&mut self.asks) {
            let part = left.min(piece.bytes);
            if part > 0 {
                self.fetched.push(Row::new(self.slot, piece.chunk, piece.layer, part));
            }
            left -= part;
        }
        self.job.forecast[usize::from(self.slot) - 1] = came;
        self.slot += 1;
        self.asks = self.next_asks();
    }

    /// The meter has to say what the link carries, not what the desk fetched; so it does not get
    /// every slot.
    /// - A slot that brought nothing is not handed: one zero among ten samples makes the forecast
    ///   0, for nine slots that bring something, and what an outage says is over when the link
    ///   comes back.
    /// - A slot in which all asks came before its end tells no more than that the link carries at
    ///   least so much. That is handed where it is above the rate, which is then too low; below it,
    ///   it would say that the link is as slow as the desk is sparing: the desk would ask less,
    ///   measure less, and so on down.
    fn sample(&mut self, came: u32, asked: u32) {
        if came > 0 && (came < asked || came > self.rate()) {
            self.meter.take(self.slot, came).expect("slots of an act rise, and none brings more than a sample can say");
        }
    }

    /// A plan afresh from this slot on, over the rows fetched and the forecast from this slot on.
    ///
    /// # Errors
    ///
    /// [`Refusal::Slot`] when the act is over, else [`Refusal::Forecast`] for the forecast handed.
    pub fn replan(&self, onward: &[u32]) -> Result<Plan, Refusal> {
        self.job.replan(self.slot, &self.fetched, onward)
    }

    /// The rate in every slot from this one on, as a forecast for `replan`.
    pub fn onward(&self) -> Vec<u32> {
        vec![self.rate(); (self.job.forecast.len() + 1).saturating_sub(usize::from(self.slot))]
    }

    /// What is fetched so far, as a plan that the second checker call passes: all rows, at the slot
    /// that goes on; when the act is over, at its last slot, and so less the bytes that the last
    /// slot brought of a layer that stays short, since that call allows a short sum only before its
    /// p, which is at most d(C).
    pub fn shown(&self) -> Plan {
        let (layers, left) = (self.job.sizes.len(), self.left());
        let at = |row: &Row| (usize::from(row.chunk) - 1) * layers + usize::from(row.layer);
        let marks: Vec<u8> =
            left.chunks(layers).map(|sizes| sizes.iter().enumerate().map(|(n, left)| u8::from(*left == 0) << n).sum()).collect();
        let list = self.fetched.rows().filter(|row| row.slot < self.last_asked() || left[at(row)] == 0).collect();
        let counts = [0, 1, 2, 3].map(|n| count_marks(&marks, n) as u16);
        Plan { marks, list, counts }
    }

    /// What the second checker call says of `shown`: that it passes.
    pub fn check(&self) -> Verdict {
        let shown = self.shown();
        self.job.check_from(self.last_asked(), &shown.marks, &shown.list).expect("an act's job, and a slot of it")
    }

    /// The slot that goes on, or the last one.
    fn last_asked(&self) -> u16 {
        self.slot.min(self.job.forecast.len() as u16)
    }
}

/// The first pieces, of no more bytes together than a slot can bring: more cannot be said of it in
/// a forecast, and rows beyond the forecast of their slot would be refused.
fn within_a_slot(mut pieces: Vec<Piece>) -> Vec<Piece> {
    let mut room = SLOT_MOST;
    for piece in &mut pieces {
        piece.bytes = piece.bytes.min(room);
        room -= piece.bytes;
    }
    pieces.retain(|piece| piece.bytes > 0);
    pieces
}
