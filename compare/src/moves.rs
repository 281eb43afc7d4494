//! Change 7: stored tables from nine numbers a record to ten and back, from the customer's words.
//!
//! A table is movable if its length divides by 9, with ten numbers by 10, for 65,536 records at most, and each parent is 4294967295, the record just
//! before, or an ancestor of that one, the first record's being 4294967295. The tenth number has to be the record number just past the last descendant.

use crate::random::Rng;
use oracle::flatten::NO_PARENT;

const MOST: usize = 65_536;

#[derive(Clone, Copy, PartialEq, Eq, Debug)]
pub enum Way {
    Widen,
    Narrow,
}

impl Way {
    /// The numbers of a record before the move.
    pub fn from(self) -> usize {
        if self == Way::Widen { 9 } else { 10 }
    }

    /// And behind it.
    pub fn to(self) -> usize {
        if self == Way::Widen { 10 } else { 9 }
    }
}

/// What a move gives where the output is long enough: records, or the place of 33.
pub enum Moved {
    Rows { records: u32, rows: Vec<u32> },
    Refused(u32),
}

impl Moved {
    /// The answer of a move into an output of so many numbers, and what begins the output; the rest is 0.
    pub fn into_output(&self, out: usize) -> ([u32; 3], &[u32]) {
        match self {
            Moved::Refused(place) => ([33, *place, 0], &[]),
            Moved::Rows { rows, .. } if rows.len() > out => ([24, 0, 0], &[]),
            Moved::Rows { records, rows } => ([0, *records, 0], rows),
        }
    }
}

/// The first record with a bad parent. `line` is the record just before, last, behind its ancestors.
fn bad_parent(parents: &[u32]) -> Option<u32> {
    let mut line: Vec<u32> = Vec::new();
    for (at, parent) in (0..).zip(parents) {
        if *parent == NO_PARENT {
            line.clear();
        } else {
            let depth = line.iter().rposition(|one| one == parent);
            match depth {
                Some(depth) => line.truncate(depth + 1),
                None => return Some(at),
            }
        }
        line.push(at);
    }
    None
}

/// Of each record, parents being good, the number just past its last descendant: sizes counted from the back.
fn pasts(parents: &[u32]) -> Vec<u32> {
    let mut sizes = vec![1; parents.len()];
    for at in (0..parents.len()).rev() {
        if parents[at] != NO_PARENT {
            sizes[parents[at] as usize] += sizes[at];
        }
    }
    (0..).zip(sizes).map(|(at, size)| at + size).collect()
}

/// What the move of a table gives.
pub fn moved(way: Way, table: &[u32]) -> Moved {
    let records = table.len() / way.from();
    if table.len() % way.from() != 0 || records > MOST {
        return Moved::Refused(0);
    }
    let parents: Vec<u32> = table.chunks(way.from()).map(|record| record[1]).collect();
    if let Some(at) = bad_parent(&parents) {
        return Moved::Refused(at);
    }
    let pasts = pasts(&parents);
    if way == Way::Narrow {
        if let Some(at) = (0..records).find(|at| table[10 * at + 9] != pasts[*at]) {
            return Moved::Refused(at as u32);
        }
    }
    let rows = table.chunks(way.from()).zip(pasts).flat_map(|(record, past)| record[..9].iter().copied().chain((way == Way::Widen).then_some(past)));
    Moved::Rows { records: records as u32, rows: rows.collect() }
}

/// A table to be moved, half of the time damaged: numbers at random, and parents of any forest. `large`: around 65,536 records.
pub fn table(rng: &mut Rng, large: bool) -> (Way, Vec<u32>) {
    let way = rng.one(&[Way::Widen, Way::Narrow]);
    let records = if large { MOST - 1 + rng.below(3) } else { rng.below(40) };
    let (ends, deepens) = (rng.one(&[1, 5, 30]), rng.one(&[10, 40, 90, 99]));
    let (mut line, mut parents) = (Vec::new(), Vec::with_capacity(records));
    for at in 0..records as u32 {
        if rng.percent(ends) {
            line.clear();
        } else if !rng.percent(deepens) && !line.is_empty() {
            line.truncate(1 + rng.below(line.len()));
        }
        parents.push(line.last().copied().unwrap_or(NO_PARENT));
        line.push(at);
    }
    let mut table = Vec::with_capacity(records * way.from());
    for (parent, past) in parents.iter().zip(pasts(&parents)) {
        table.extend([rng.next() as u32, *parent]);
        table.extend((0..7).map(|_| rng.next() as u32));
        table.extend((way == Way::Narrow).then_some(past));
    }
    if rng.percent(50) {
        for _ in 0..1 + rng.below(3) {
            damage(rng, way, &mut table);
        }
    }
    (way, table)
}

/// A parent, a tenth number or the length made another.
fn damage(rng: &mut Rng, way: Way, table: &mut Vec<u32>) {
    let records = table.len() / way.from();
    if records == 0 || rng.percent(15) {
        if rng.percent(50) {
            table.extend((0..1 + rng.below(9)).map(|_| 7));
        } else {
            table.truncate(table.len().saturating_sub(1 + rng.below(9)));
        }
        return;
    }
    let at = rng.below(records);
    let near = [0, at.saturating_sub(1), at, at + 1, at + 2, records, rng.below(records)];
    let other = if rng.percent(15) { NO_PARENT - rng.below(2) as u32 } else { near[rng.below(near.len())] as u32 };
    let column = if way == Way::Narrow && rng.percent(60) { 9 } else { 1 };
    table[way.from() * at + column] = other;
}

/// Parents, and the place of 33 or the tenth numbers, worked out by hand: the model above is held to them too.
pub const KNOWN: &[(&[u32], Result<&[u32], u32>)] = &[
    (&[], Ok(&[])),
    (&[NO_PARENT], Ok(&[1])),
    (&[NO_PARENT, NO_PARENT], Ok(&[1, 2])),
    (&[NO_PARENT, 0, 0, 2, 2, 2], Ok(&[6, 2, 6, 4, 5, 6])),
    (&[NO_PARENT, 0, 1, 2, 0, NO_PARENT, 5], Ok(&[5, 4, 4, 4, 5, 7, 7])),
    (&[0], Err(0)),
    (&[1, 0], Err(0)),
    (&[NO_PARENT, 1], Err(1)),
    (&[NO_PARENT, 0, 3, 0], Err(2)),
    (&[NO_PARENT, 0, 0, 1], Err(3)),
    (&[NO_PARENT, NO_PARENT, 0], Err(2)),
    (&[NO_PARENT, 0, NO_PARENT - 1], Err(2)),
];

/// A table with these parents, and with these tenth numbers if any are given.
pub fn laid(parents: &[u32], pasts: Option<&[u32]>) -> Vec<u32> {
    let row = |at: usize| [&[5, parents[at], 5, 5, 5, 5, 5, 5, 5][..], pasts.map_or(&[], |pasts| &pasts[at..at + 1])].concat();
    (0..parents.len()).flat_map(row).collect()
}
