//! Steps that look rows up, and leave the column. Of a constant one row is looked at.

use crate::column::Column;
use crate::dtype::{DType, Kind};
use crate::elementwise::check_kinds;
use crate::flat::{Flat, Scalar};
use crate::job::Side;
use crate::refusal::Refusal;
use std::collections::BTreeSet;
use std::ops::Range;

/// How many sorted rows are in front of a value, and whether one is equal to it.
pub struct Place {
    pub number: usize,
    pub is_found: bool,
}

pub fn search(column: &Column, range: Range<usize>, side: Side, value: &Flat) -> Result<Place, Refusal> {
    check_kinds(column.dtype(), value.dtype)?;
    let (mut last, mut is_sorted) = (Scalar::Null, true);
    column.each_kept(range.clone(), &mut |row| {
        is_sorted &= last <= row;
        last = row;
    });
    if !is_sorted {
        return Err(Refusal::Unsorted);
    }
    let value = value.get(0);
    let first = partition_point(range.clone(), |i| column.get(i) < value);
    let is_found = first < range.end && column.get(first) == value;
    let place = match side {
        Side::Left => first,
        Side::Right => partition_point(first..range.end, |i| column.get(i) <= value),
    };
    Ok(Place { number: place - range.start, is_found })
}

/// The first number of a range at which this no longer holds, or its end.
fn partition_point(range: Range<usize>, holds: impl Fn(usize) -> bool) -> usize {
    let (mut start, mut end) = (range.start, range.end);
    while start < end {
        let middle = start + (end - start) / 2;
        if holds(middle) {
            start = middle + 1;
        } else {
            end = middle;
        }
    }
    start
}

/// For each row whether it is among those of another column, and a null for a null.
pub fn contains(column: &Column, range: Range<usize>, other: &Column) -> Result<Flat, Refusal> {
    check_kinds(column.dtype(), other.dtype())?;
    let mut held = BTreeSet::new();
    other.each_kept(0..other.len(), &mut |row| {
        held.insert(row);
    });
    let mut bits = Flat::new(DType { kind: Kind::Bool, nullable: true });
    for row in range.map(|i| column.get(i)) {
        let is_null = row == Scalar::Null;
        bits.push(if is_null { Scalar::Null } else { Scalar::Bool(held.contains(&row)) });
    }
    Ok(bits)
}
