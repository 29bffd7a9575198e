//! Rows as they are lent (01, Words and numbers): as records, one record a row,
//! or as three flat slices.

/// A row: the mask of its fixed inputs, their values, and the output word.
#[repr(C)]
#[derive(Clone, Copy, Debug, Default, PartialEq, Eq)]
pub struct Row {
    pub mask: u32,
    pub values: u32,
    pub word: u32,
}

impl Row {
    /// The row covers point x: x has the fixed values.
    pub fn covers(&self, x: u32) -> bool {
        x & self.mask == self.values
    }

    /// The two rows share a point: no input is fixed at different values.
    pub fn meets(&self, other: &Row) -> bool {
        (self.values ^ other.values) & self.mask & other.mask == 0
    }

    /// The two rows join (02, Ticket 9): "equal words, the same fixed inputs and values
    /// that differ in exactly one".
    pub fn joins(&self, other: &Row) -> bool {
        let differ = self.values ^ other.values;
        self.word == other.word && self.mask == other.mask && differ.count_ones() == 1
    }
}

/// A list of rows lent for reading, or as room too where it is changed in place.
pub trait List {
    /// The rows in order. Flat slices of unequal length are no list; they give
    /// the empty one, which every operation refuses with the same number 4.
    fn rows(&self) -> Vec<Row>;
}

/// Room lent for rows.
pub trait Room {
    /// How many rows it takes.
    fn room(&self) -> usize;

    /// Writes the rows from the front on; what lies beyond them stays.
    fn put(&mut self, rows: &[Row]);
}

impl List for &[Row] {
    fn rows(&self) -> Vec<Row> {
        self.to_vec()
    }
}

impl List for &mut [Row] {
    fn rows(&self) -> Vec<Row> {
        self.to_vec()
    }
}

impl Room for &mut [Row] {
    fn room(&self) -> usize {
        self.len()
    }

    fn put(&mut self, rows: &[Row]) {
        self[..rows.len()].copy_from_slice(rows);
    }
}

/// A list as three flat slices.
#[derive(Clone, Copy, Debug)]
pub struct Flat<'a> {
    pub masks: &'a [u32],
    pub values: &'a [u32],
    pub words: &'a [u32],
}

impl List for Flat<'_> {
    fn rows(&self) -> Vec<Row> {
        let count = self.masks.len();
        if self.values.len() != count || self.words.len() != count {
            return Vec::new();
        }
        (0..count)
            .map(|i| Row {
                mask: self.masks[i],
                values: self.values[i],
                word: self.words[i],
            })
            .collect()
    }
}

/// Room for rows as three flat slices; the shortest is the room.
#[derive(Debug)]
pub struct FlatRoom<'a> {
    pub masks: &'a mut [u32],
    pub values: &'a mut [u32],
    pub words: &'a mut [u32],
}

impl List for FlatRoom<'_> {
    fn rows(&self) -> Vec<Row> {
        let list = Flat {
            masks: self.masks,
            values: self.values,
            words: self.words,
        };
        list.rows()
    }
}

impl Room for FlatRoom<'_> {
    fn room(&self) -> usize {
        self.masks
            .len()
            .min(self.values.len())
            .min(self.words.len())
    }

    fn put(&mut self, rows: &[Row]) {
        for (i, row) in rows.iter().enumerate() {
            self.masks[i] = row.mask;
            self.values[i] = row.values;
            self.words[i] = row.word;
        }
    }
}
