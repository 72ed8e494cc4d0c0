//! Columns: parts that keep their rules, and reads of their rows.

use crate::dtype::DType;
use crate::flat::{Flat, Scalar};
use std::ops::Range;

pub enum Column {
    Flat(Flat),
    Constant { row: Flat, len: usize },
    Chunked(Chunked),
    Excepted(Excepted),
    Interleaved(Interleaved),
}

pub struct Chunked {
    pub dtype: DType,
    pub chunks: Vec<Column>,
    /// The row behind each chunk.
    pub ends: Vec<usize>,
}

pub struct Excepted {
    pub base: Box<Column>,
    /// The rows that have an exception, rising, each with the number of its value.
    pub exceptions: Vec<(usize, usize)>,
    pub values: Box<Column>,
    /// Whether a null of the base stays one.
    pub keeps_nulls: bool,
}

pub struct Interleaved {
    pub dtype: DType,
    pub values: Vec<Column>,
    pub arrays: Flat,
    pub rows: Flat,
}

impl Column {
    pub fn dtype(&self) -> DType {
        match self {
            Column::Flat(flat) => flat.dtype,
            Column::Constant { row, .. } => row.dtype,
            Column::Chunked(chunked) => chunked.dtype,
            Column::Excepted(excepted) => excepted.base.dtype(),
            Column::Interleaved(interleaved) => interleaved.dtype,
        }
    }

    pub fn len(&self) -> usize {
        match self {
            Column::Flat(flat) => flat.len(),
            Column::Constant { len, .. } => *len,
            Column::Chunked(chunked) => chunked.ends.last().copied().unwrap_or(0),
            Column::Excepted(excepted) => excepted.base.len(),
            Column::Interleaved(interleaved) => interleaved.rows.len(),
        }
    }

    pub fn get(&self, i: usize) -> Scalar<'_> {
        match self {
            Column::Flat(flat) => flat.get(i),
            Column::Constant { row, .. } => row.get(0),
            Column::Chunked(chunked) => {
                let number = chunked.chunk_of(i);
                chunked.chunks[number].get(i - chunked.start_of(number))
            }
            Column::Excepted(excepted) => excepted.get(i),
            Column::Interleaved(interleaved) => interleaved.get(i),
        }
    }

    /// Appends the rows of a range to flat ones.
    pub fn append_to(&self, range: Range<usize>, out: &mut Flat) {
        match self {
            Column::Flat(flat) => out.extend(flat, range),
            Column::Constant { row, .. } => range.for_each(|_| out.push(row.get(0))),
            Column::Chunked(chunked) => chunked.append_to(range, out),
            Column::Excepted(excepted) => excepted.append_to(range, out),
            Column::Interleaved(interleaved) => range.for_each(|i| out.push(interleaved.get(i))),
        }
    }

    /// Hands over each row of a range in order, that of a constant once.
    pub fn each_kept<'a>(&'a self, range: Range<usize>, out: &mut impl FnMut(Scalar<'a>)) {
        match self {
            Column::Constant { row, .. } if !range.is_empty() => out(row.get(0)),
            Column::Chunked(chunked) => {
                for (number, part) in chunked.pieces(range) {
                    chunked.chunks[number].each_kept(part, out);
                }
            }
            _ => range.for_each(|i| out(self.get(i))),
        }
    }

    /// The rows of a range, changed into rows of a type. What changes flat rows is told the number of the first, counted from the
    /// front of the range. A constant stays one.
    pub fn changed<E>(
        &self,
        range: Range<usize>,
        dtype: DType,
        change: &mut impl FnMut(usize, &Flat) -> Result<Flat, E>,
    ) -> Result<Column, E> {
        let (mut chunks, mut ends) = (Vec::new(), Vec::new());
        self.change_into(range, 0, change, &mut |column| {
            ends.push(ends.last().unwrap_or(&0) + column.len());
            chunks.push(column);
        })?;
        Ok(Column::Chunked(Chunked { dtype, chunks, ends }))
    }

    fn change_into<E>(
        &self,
        range: Range<usize>,
        before: usize,
        change: &mut impl FnMut(usize, &Flat) -> Result<Flat, E>,
        out: &mut impl FnMut(Column),
    ) -> Result<(), E> {
        if range.is_empty() {
            return Ok(());
        }
        match self {
            Column::Flat(flat) if range == (0..flat.len()) => out(Column::Flat(change(before, flat)?)),
            Column::Constant { row, .. } => {
                out(Column::Constant { row: change(before, row)?, len: range.len() });
            }
            Column::Chunked(chunked) => {
                for (number, part) in chunked.pieces(range.clone()) {
                    let from = chunked.start_of(number) + part.start - range.start;
                    chunked.chunks[number].change_into(part, before + from, change, out)?;
                }
            }
            _ => {
                let mut flat = Flat::new(self.dtype());
                self.append_to(range, &mut flat);
                out(Column::Flat(change(before, &flat)?));
            }
        }
        Ok(())
    }
}

impl Chunked {
    /// The number of the chunk that holds a row.
    fn chunk_of(&self, i: usize) -> usize {
        self.ends.partition_point(|end| *end <= i)
    }

    fn start_of(&self, number: usize) -> usize {
        match number {
            0 => 0,
            _ => self.ends[number - 1],
        }
    }

    /// The ranges within chunks that a range is, each with the number of its chunk.
    fn pieces(&self, range: Range<usize>) -> impl Iterator<Item = (usize, Range<usize>)> + '_ {
        let (from, to) = (range.start, range.end);
        let numbers = self.chunk_of(from)..self.chunks.len();
        let reached = numbers.take_while(move |number| self.start_of(*number) < to);
        reached.map(move |number| {
            let start = self.start_of(number);
            (number, from.max(start) - start..to.min(self.ends[number]) - start)
        })
    }

    fn append_to(&self, range: Range<usize>, out: &mut Flat) {
        for (number, part) in self.pieces(range) {
            self.chunks[number].append_to(part, out);
        }
    }
}

impl Excepted {
    fn get(&self, i: usize) -> Scalar<'_> {
        match self.exceptions.binary_search_by_key(&i, |(row, _)| *row) {
            Ok(k) => self.exception(self.exceptions[k]),
            Err(_) => self.base.get(i),
        }
    }

    fn exception(&self, (row, value): (usize, usize)) -> Scalar<'_> {
        if self.keeps_nulls && matches!(self.base.get(row), Scalar::Null) {
            return Scalar::Null;
        }
        self.values.get(value)
    }

    fn append_to(&self, range: Range<usize>, out: &mut Flat) {
        let first = self.exceptions.partition_point(|(row, _)| *row < range.start);
        let mut from = range.start;
        for exception in &self.exceptions[first..] {
            if exception.0 >= range.end {
                break;
            }
            self.base.append_to(from..exception.0, out);
            out.push(self.exception(*exception));
            from = exception.0 + 1;
        }
        self.base.append_to(from..range.end, out);
    }
}

impl Interleaved {
    fn get(&self, i: usize) -> Scalar<'_> {
        let array = self.arrays.indices()[i] as usize;
        self.values[array].get(self.rows.indices()[i] as usize)
    }
}
