//! The operations on lists of rows: single values, the row method, filling.

use crate::{
    checks, matrix, missing, Answer, List, Refusal, Room, Row, Smaller, FILL_ROWS, NO_OUTPUT, ROWS,
    ROW_INPUTS, SMALLER_ROWS, TABLE_INPUTS,
};

/// What an ordered pair of rows adds to R(t) (01, The measure): where both are
/// fixed t must be the XOR of their values; then 2 to the number of positions
/// free in both, else nothing.
fn pair_adds(n: usize, p: &Row, q: &Row, t: u32) -> u64 {
    let fixed_in_both = p.mask & q.mask;
    let meets_demands = (t ^ p.values ^ q.values) & fixed_in_both == 0;
    if p.word == q.word && meets_demands {
        let free_in_both = n as u32 - (p.mask | q.mask).count_ones();
        1 << free_in_both
    } else {
        0
    }
}

/// What R of disjoint rows is counted from. Points that no row covers may have a
/// word (02, Ticket 2), and no pair of rows tells of them: the points of that word
/// are counted one by one, with those of the rows that have it.
pub struct Shifts {
    n: usize,
    /// The rows of every other word.
    rows: Vec<Row>,
    /// The points of the word that missing points have, and at each point whether
    /// it is one. There are none where missing points have no output.
    points: Vec<u32>,
    is_point: Vec<bool>,
}

impl Shifts {
    pub fn new(n: usize, block_type: usize, rows: &[Row]) -> Shifts {
        let word = missing(block_type);
        let others = rows.iter().filter(|row| row.word != u32::from(word));
        let rows: Vec<Row> = others.copied().collect();
        let is_point = |x| word != NO_OUTPUT && !rows.iter().any(|row| row.covers(x));
        let is_point: Vec<bool> = (0..1 << n).map(is_point).collect();
        let points = (0..1 << n).filter(|&x| is_point[x as usize]).collect();
        Shifts {
            n,
            rows,
            points,
            is_point,
        }
    }

    /// R(t): the sum over all ordered pairs of rows, a row with itself included,
    /// and the points x of the other word such that x XOR t has it too.
    pub fn at(&self, t: u32) -> u64 {
        let pairs_of = |p| {
            self.rows
                .iter()
                .map(|q| pair_adds(self.n, p, q, t))
                .sum::<u64>()
        };
        let pairs: u64 = self.rows.iter().map(pairs_of).sum();
        let points = self
            .points
            .iter()
            .filter(|&x| self.is_point[(x ^ t) as usize]);
        pairs + points.count() as u64
    }

    /// The measure: the sum of R at 1, 2, 4, .. 2^(n-1).
    pub fn measure(&self) -> u64 {
        (0..self.n).map(|i| self.at(1 << i)).sum()
    }
}

/// A single value of R.
pub fn row_value(n: usize, k: usize, block_type: usize, t: usize, rows: impl List) -> Answer<u64> {
    let rows = rows.rows();
    let checked = check_value(n, k, block_type, t, &rows);
    let outcome = checked.map(|()| Shifts::new(n, block_type, &rows).at(t as u32));
    outcome.into()
}

/// The refusals of a single value of a list.
pub(crate) fn check_value(
    n: usize,
    k: usize,
    block_type: usize,
    t: usize,
    rows: &[Row],
) -> Result<(), Refusal> {
    checks::inputs(n, ROW_INPUTS)?;
    checks::outputs(k)?;
    checks::block_type(block_type)?;
    checks::shift(t, n)?;
    checks::rows_given(rows.len(), ROWS)?;
    checks::list(n, k, rows)
}

/// A way to find the row method's results: from n, the type, w and the rows.
pub(crate) type Find = fn(usize, usize, usize, &[Row]) -> Result<Found, Refusal>;

/// What the row method finds.
#[derive(Clone, Debug, PartialEq, Eq)]
pub struct Found {
    pub before: u64,
    pub after: u64,
    pub columns: Vec<u32>,
    pub sigma: Vec<u32>,
    pub rows: Vec<Row>,
}

/// The row method: the smaller rows, T into `columns`, and sigma.
pub fn row_method(
    n: usize,
    k: usize,
    block_type: usize,
    w: usize,
    rows: impl List,
    smaller: impl Room,
    columns: &mut [u32],
    sigma: &mut [u32],
) -> Answer<Smaller> {
    answer_method(n, k, block_type, w, rows, smaller, [columns, sigma], find)
}

/// The row method with this way to find its results.
pub(crate) fn answer_method(
    n: usize,
    k: usize,
    block_type: usize,
    w: usize,
    rows: impl List,
    mut smaller: impl Room,
    [columns, sigma]: [&mut [u32]; 2],
    find: Find,
) -> Answer<Smaller> {
    let rows = rows.rows();
    let room = || {
        checks::room(smaller.room(), SMALLER_ROWS)?;
        checks::room(columns.len(), n)?;
        checks::room(sigma.len(), n)
    };
    let checked = check_method(n, k, block_type, w, &rows, room);
    let outcome = checked.and_then(|()| find(n, block_type, w, &rows));
    let outcome = outcome.map(|found| {
        smaller.put(&found.rows);
        columns[..n].copy_from_slice(&found.columns);
        sigma[..n].copy_from_slice(&found.sigma);
        Smaller {
            before: found.before,
            after: found.after,
            rows: found.rows.len(),
        }
    });
    outcome.into()
}

/// The refusals of the row method and the sheet, but for 9; `room` checks the
/// room that either asks for.
pub(crate) fn check_method(
    n: usize,
    k: usize,
    block_type: usize,
    w: usize,
    rows: &[Row],
    room: impl FnOnce() -> Result<(), Refusal>,
) -> Result<(), Refusal> {
    checks::inputs(n, ROW_INPUTS)?;
    checks::outputs(k)?;
    checks::block_type(block_type)?;
    checks::weight_limit(w, n)?;
    checks::rows_given(rows.len(), ROWS)?;
    room()?;
    checks::list(n, k, rows)
}

/// The row method on a list that was checked: T, sigma, the measures and the
/// smaller rows, or refusal 9.
pub(crate) fn find(n: usize, block_type: usize, w: usize, rows: &[Row]) -> Result<Found, Refusal> {
    let shifts = Shifts::new(n, block_type, rows);
    let candidates: Vec<(u32, u64)> = matrix::candidates(n, w)
        .map(|t| (t, shifts.at(t)))
        .collect();
    let columns = matrix::basis(n, &candidates);
    let smaller = transformed(rows, &columns)?;
    Ok(Found {
        before: shifts.measure(),
        after: Shifts::new(n, block_type, &smaller).measure(),
        sigma: matrix::inverse(&columns),
        columns,
        rows: smaller,
    })
}

/// The smaller rows (01, How rows are transformed), or refusal 9 at the first
/// step after which there are more than 512.
fn transformed(rows: &[Row], columns: &[u32]) -> Result<Vec<Row>, Refusal> {
    let mut rows = rows.to_vec();
    let mut steps: Vec<Step> = Vec::new();
    for (position, &column) in columns.iter().enumerate() {
        let reached = steps.iter().fold(column, |x, step| step.point(x));
        let step = Step::new(position, reached);
        rows = rows.into_iter().flat_map(|row| step.row(row)).collect();
        steps.push(step);
        if rows.len() > SMALLER_ROWS {
            return Err(Refusal::at(9, steps.len(), 0));
        }
    }
    Ok(rows)
}

/// One step: exchange two positions, then add v where the bit at the first of
/// them is 1.
pub(crate) struct Step {
    /// Position i-1 at step i.
    position: usize,
    /// The position it is exchanged with; the same where nothing is exchanged.
    partner: usize,
    /// The chosen number, exchanged, without bit i-1.
    v: u32,
}

impl Step {
    /// The step at this position for a chosen number in the coordinates reached.
    pub(crate) fn new(position: usize, number: u32) -> Step {
        let partner = if number >> position & 1 == 1 {
            position
        } else {
            matrix::highest(number)
        };
        let exchanged = exchange(number, position, partner);
        Step {
            position,
            partner,
            v: exchanged & !(1 << position),
        }
    }

    /// A point after the step.
    fn point(&self, x: u32) -> u32 {
        let x = exchange(x, self.position, self.partner);
        if x >> self.position & 1 == 1 {
            x ^ self.v
        } else {
            x
        }
    }

    /// A row after the step: one row, or its 0 half and then its 1 half.
    pub(crate) fn row(&self, row: Row) -> Vec<Row> {
        let bit = 1 << self.position;
        let row = Row {
            mask: exchange(row.mask, self.position, self.partner),
            values: exchange(row.values, self.position, self.partner),
            word: row.word,
        };
        if row.mask & bit != 0 {
            vec![self.flipped(row)]
        } else if self.v & row.mask != 0 {
            let mask = row.mask | bit;
            let zero_half = Row { mask, ..row };
            let one_half = Row {
                mask,
                values: row.values | bit,
                ..row
            };
            vec![self.flipped(zero_half), self.flipped(one_half)]
        } else {
            vec![row]
        }
    }

    /// A row fixed at the position: with a 1 there each fixed symbol is flipped
    /// where v has a one, with a 0 it stays.
    fn flipped(&self, row: Row) -> Row {
        if row.values >> self.position & 1 == 1 {
            Row {
                values: row.values ^ (self.v & row.mask),
                ..row
            }
        } else {
            row
        }
    }
}

/// x with its bits at two positions exchanged.
fn exchange(x: u32, first: usize, second: usize) -> u32 {
    if x >> first & 1 == x >> second & 1 {
        x
    } else {
        x ^ (1 << first) ^ (1 << second)
    }
}

/// Filling: entry x is the word of the row that covers x, or that of a missing
/// point.
pub fn fill(
    n: usize,
    k: usize,
    block_type: usize,
    rows: impl List,
    table: &mut [u16],
) -> Answer<()> {
    let rows = rows.rows();
    if let Err(refusal) = check_fill(n, k, block_type, &rows, table.len()) {
        return Err(refusal).into();
    }
    for (x, entry) in (0..1 << n).zip(table) {
        let row = rows.iter().find(|row| row.covers(x));
        *entry = row.map_or(missing(block_type), |row| row.word as u16);
    }
    Ok(()).into()
}

/// The refusals of filling.
pub(crate) fn check_fill(
    n: usize,
    k: usize,
    block_type: usize,
    rows: &[Row],
    room: usize,
) -> Result<(), Refusal> {
    checks::inputs(n, TABLE_INPUTS)?;
    checks::outputs(k)?;
    checks::block_type(block_type)?;
    checks::rows_given(rows.len(), FILL_ROWS)?;
    checks::room(room, 1 << n)?;
    checks::list(n, k, rows)
}
