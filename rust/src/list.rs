//! Fetch lists, their rows, and the pieces to ask the link for.

/// A row of a fetch list: so many bytes of a layer of a chunk in a slot.
#[derive(Clone, Copy, Debug, PartialEq, Eq, PartialOrd, Ord, Hash)]
pub struct Row {
    /// From 1 to d(C).
    pub slot: u16,
    /// From 1 to C.
    pub chunk: u16,
    /// From 0, the base, to 3.
    pub layer: u8,
    /// At least 1.
    pub bytes: u32,
}

impl Row {
    /// A row of these, in document 01's order.
    #[must_use]
    pub fn new(slot: u16, chunk: u16, layer: u8, bytes: u32) -> Row {
        Row { slot, chunk, layer, bytes }
    }
}

/// A piece to ask the link for: so many bytes of a layer of a chunk.
#[derive(Clone, Copy, Debug, PartialEq, Eq, PartialOrd, Ord, Hash)]
pub struct Piece {
    /// From 1 to C.
    pub chunk: u16,
    /// From 0, the base, to 3.
    pub layer: u8,
    /// What is not yet fetched of it.
    pub bytes: u32,
}

/// A fetch list: any number of rows in any order, kept by column as the calls take them.
#[derive(Clone, Debug, Default, PartialEq, Eq)]
pub struct FetchList {
    pub(crate) slots: Vec<u16>,
    pub(crate) chunks: Vec<u16>,
    pub(crate) layers: Vec<u8>,
    pub(crate) bytes: Vec<u32>,
}

impl FetchList {
    /// A list without rows.
    #[must_use]
    pub fn new() -> FetchList {
        FetchList::default()
    }

    /// Room for so many rows.
    pub(crate) fn room(rows: usize) -> FetchList {
        FetchList { slots: vec![0; rows], chunks: vec![0; rows], layers: vec![0; rows], bytes: vec![0; rows] }
    }

    pub(crate) fn cut(mut self, rows: usize) -> FetchList {
        self.slots.truncate(rows);
        self.chunks.truncate(rows);
        self.layers.truncate(rows);
        self.bytes.truncate(rows);
        self
    }

    /// A row more, at the end.
    pub fn push(&mut self, row: Row) {
        self.slots.push(row.slot);
        self.chunks.push(row.chunk);
        self.layers.push(row.layer);
        self.bytes.push(row.bytes);
    }

    /// How many rows there are.
    #[must_use]
    pub fn len(&self) -> usize {
        self.slots.len()
    }

    /// Whether there is no row.
    #[must_use]
    pub fn is_empty(&self) -> bool {
        self.slots.is_empty()
    }

    /// The rows, as they stand.
    pub fn rows(&self) -> impl Iterator<Item = Row> + '_ {
        (0..self.len()).map(|k| Row::new(self.slots[k], self.chunks[k], self.layers[k], self.bytes[k]))
    }
}

impl FromIterator<Row> for FetchList {
    fn from_iter<I: IntoIterator<Item = Row>>(rows: I) -> FetchList {
        let mut list = FetchList::new();
        list.extend(rows);
        list
    }
}

impl Extend<Row> for FetchList {
    fn extend<I: IntoIterator<Item = Row>>(&mut self, rows: I) {
        rows.into_iter().for_each(|row| self.push(row));
    }
}

impl From<&[Row]> for FetchList {
    fn from(rows: &[Row]) -> FetchList {
        rows.iter().copied().collect()
    }
}

impl<const N: usize> From<[Row; N]> for FetchList {
    fn from(rows: [Row; N]) -> FetchList {
        rows.into_iter().collect()
    }
}
