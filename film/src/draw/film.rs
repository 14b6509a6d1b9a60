//! A fetch list counted out as pictures and tables need it: a plan's, or what an act fetched.
use film_planner::{FetchList, Job, Row};

/// The most layers, and the place after them for bytes of layers that are never shown.
pub const LAYERS: usize = 4;
const WASTED: usize = LAYERS;

/// A film as a list fetched it over a link. Chunks and slots count from 1, layers from 0.
pub struct Film<'a> {
    pub job: &'a Job,
    /// d(C), the last slot.
    pub last: usize,
    /// H, the chunks that the limit holds.
    pub places: usize,
    /// By slot, the rows that it fetched.
    rows: Vec<Vec<Row>>,
    sizes: Vec<[u32; LAYERS]>,
    sums: Vec<[u64; LAYERS]>,
    levels: Vec<usize>,
    first: Vec<Option<usize>>,
    spent: Vec<[u64; LAYERS + 1]>,
    held: Vec<usize>,
}

impl<'a> Film<'a> {
    /// Rows that are of no chunk, layer or slot of the job are left out.
    pub fn new(job: &'a Job, marks: &[u8], list: &FetchList) -> Film<'a> {
        let (chunks, layers) = (usize::from(job.chunks), job.sizes.len().min(LAYERS));
        let last = job.forecast.len();
        let mut film = Film {
            job,
            last,
            places: usize::from(job.limit) / usize::from(job.span).max(1),
            rows: vec![Vec::new(); last],
            sizes: vec![[0; LAYERS]; chunks],
            sums: vec![[0; LAYERS]; chunks],
            levels: (0..chunks).map(|k| marks.get(k).map_or(0, |mark| (mark.trailing_ones() as usize).min(layers))).collect(),
            first: vec![None; chunks],
            spent: vec![[0; LAYERS + 1]; last],
            held: vec![0; last + 1],
        };
        film.sizes.iter_mut().for_each(|sizes| sizes[..layers].copy_from_slice(&job.sizes[..layers]));
        for size in &job.overrides {
            let (chunk, layer) = (usize::from(size.chunk), usize::from(size.layer));
            if (1..=chunks).contains(&chunk) && layer < layers {
                film.sizes[chunk - 1][layer] = size.bytes;
            }
        }
        list.rows().for_each(|row| film.take(row));
        film.count_held();
        film
    }

    fn take(&mut self, row: Row) {
        let (slot, chunk, layer) = (usize::from(row.slot), usize::from(row.chunk), usize::from(row.layer));
        if !(1..=self.last).contains(&slot) || !(1..=self.chunks()).contains(&chunk) || layer >= self.layers() {
            return;
        }
        self.rows[slot - 1].push(row);
        self.sums[chunk - 1][layer] += u64::from(row.bytes);
        let kind = if layer < self.level(chunk) { layer } else { WASTED };
        self.spent[slot - 1][kind] += u64::from(row.bytes);
        let first = &mut self.first[chunk - 1];
        *first = Some(first.map_or(slot, |before| before.min(slot)));
    }

    /// Held at the end of slot t: begun by t and due after it.
    fn count_held(&mut self) {
        let mut change = vec![0i64; self.last + 2];
        for chunk in 1..=self.chunks() {
            if let Some(first) = self.first[chunk - 1] {
                change[first] += 1;
                change[self.due(chunk).min(self.last + 1)] -= 1;
            }
        }
        let mut now = 0;
        for (held, change) in self.held.iter_mut().zip(change) {
            now += change;
            *held = now.max(0) as usize;
        }
    }

    pub fn chunks(&self) -> usize {
        self.sums.len()
    }

    pub fn layers(&self) -> usize {
        self.job.sizes.len().min(LAYERS)
    }

    /// The slots of film in a chunk.
    pub fn span(&self) -> usize {
        usize::from(self.job.span)
    }

    pub fn due(&self, chunk: usize) -> usize {
        (chunk - 1) * self.span() + usize::from(self.job.delay)
    }

    pub fn size(&self, chunk: usize, layer: usize) -> u64 {
        u64::from(self.sizes[chunk - 1][layer])
    }

    /// The bytes fetched of a layer.
    pub fn sum(&self, chunk: usize, layer: usize) -> u64 {
        self.sums[chunk - 1][layer]
    }

    /// How many layers of a chunk are shown.
    pub fn level(&self, chunk: usize) -> usize {
        self.levels[chunk - 1]
    }

    /// The slot of a chunk's first byte.
    pub fn first(&self, chunk: usize) -> Option<usize> {
        self.first[chunk - 1]
    }

    /// The bytes that are shown of a chunk.
    pub fn shown(&self, chunk: usize) -> u64 {
        (0..self.level(chunk)).map(|layer| self.size(chunk, layer)).sum()
    }

    /// The rows of a slot.
    pub fn rows(&self, slot: usize) -> &[Row] {
        &self.rows[slot - 1]
    }

    /// The bytes of a slot by layer, and at the end those of layers that are never shown.
    pub fn spent(&self, slot: usize) -> &[u64; LAYERS + 1] {
        &self.spent[slot - 1]
    }

    pub fn fetched(&self, slot: usize) -> u64 {
        self.spent(slot).iter().sum()
    }

    /// What the job's forecast says of a slot.
    pub fn carries(&self, slot: usize) -> u64 {
        u64::from(self.job.forecast[slot - 1])
    }

    /// Chunks held at the end of a slot.
    pub fn held(&self, slot: usize) -> usize {
        self.held[slot]
    }

    /// Which these are.
    pub fn held_chunks(&self, slot: usize) -> Vec<usize> {
        (1..=self.chunks()).filter(|i| self.first(*i).is_some_and(|first| first <= slot) && self.due(*i) > slot).collect()
    }

    pub fn skipped(&self) -> Vec<usize> {
        (1..=self.chunks()).filter(|i| self.level(*i) == 0).collect()
    }

    /// How many chunks show each layer.
    pub fn counts(&self) -> Vec<usize> {
        (0..self.layers()).map(|n| self.levels.iter().filter(|level| **level > n).count()).collect()
    }

    /// The most slots in which the screen stands: the longest run of chunks not shown, played out.
    pub fn longest_freeze(&self) -> usize {
        runs(&self.skipped()).iter().map(|(a, b)| b - a + 1).max().unwrap_or(0) * self.span()
    }

    /// The report's switch sum: each chunk shown against the next one shown, in bytes.
    pub fn switch(&self) -> u64 {
        let shown: Vec<u64> = (1..=self.chunks()).filter(|i| self.level(*i) > 0).map(|i| self.shown(i)).collect();
        shown.windows(2).map(|pair| pair[0].abs_diff(pair[1])).sum()
    }

    /// The bytes fetched of layers that are never shown.
    pub fn wasted(&self) -> u64 {
        self.spent.iter().map(|spent| spent[WASTED]).sum()
    }

    pub fn all_fetched(&self) -> u64 {
        self.spent.iter().flatten().sum()
    }
}

/// Rising numbers as runs of neighbours, first and last.
pub fn runs(numbers: &[usize]) -> Vec<(usize, usize)> {
    let mut found: Vec<(usize, usize)> = Vec::new();
    for i in numbers {
        match found.last_mut() {
            Some((_, last)) if *last + 1 == *i => *last = *i,
            _ => found.push((*i, *i)),
        }
    }
    found
}
