//! Steps over the first column, and the page that they end in.

use crate::column::Column;
use crate::dtype::DType;
use crate::elementwise;
use crate::flat::{Flat, Scalar};
use crate::job::{Job, Step};
use crate::lookup::{self, Place};
use crate::open::open;
use crate::refusal::Refusal;
use serde::ser::{Serialize, SerializeMap, Serializer};
use std::ops::Range;
use std::rc::Rc;

/// What a step answers: the rows that it read, the place that it found, or a truth for each row.
pub enum Answer {
    Rows(Flat),
    Place(Place),
    Bits(Flat),
}

pub struct Page {
    answers: Vec<Answer>,
    rows: Flat,
    dtype: DType,
}

/// The rows that a plan has come to: a range of a column.
struct Rows {
    column: Rc<Column>,
    range: Range<usize>,
}

pub fn run(job: Job) -> Result<Page, Refusal> {
    let mut columns = Vec::with_capacity(job.parts.len());
    for (number, part) in job.parts.into_iter().enumerate() {
        columns.push(Rc::new(open(part, &mut vec![number])?));
    }
    let mut rows = Rows::of(Rc::clone(source_of(&columns, 0)?));
    let mut answers = Vec::new();
    for step in &job.plan {
        rows = match step {
            Step::Slice { start, end } => rows.slice(*start, *end)?,
            Step::Points { points } => {
                answers.push(rows.points(points)?);
                rows
            }
            Step::Filter { flags } => rows.filter(flags)?,
            Step::Take { indices } => rows.take(indices)?,
            Step::Runs { runs, len } => rows.runs(runs, *len)?,
            Step::Mask { flags } => rows.mask(flags)?,
            Step::Zip { source, choice } => rows.zip(source_of(&columns, *source)?, choice)?,
            Step::Fill { value } => Rows::of_column(elementwise::fill(&rows.column, rows.range, value)?),
            Step::Cast { target } => Rows::of_column(elementwise::cast(&rows.column, rows.range, *target)?),
            Step::Compare { operator, value } => {
                Rows::of_column(elementwise::compare(&rows.column, rows.range, *operator, value)?)
            }
            Step::Search { side, value } => {
                answers.push(Answer::Place(lookup::search(&rows.column, rows.range.clone(), *side, value)?));
                rows
            }
            Step::Contains { source } => {
                let other = source_of(&columns, *source)?;
                answers.push(Answer::Bits(lookup::contains(&rows.column, rows.range.clone(), other)?));
                rows
            }
        };
    }
    Ok(Page { answers, dtype: rows.column.dtype(), rows: rows.into_flat() })
}

/// The column of a part.
fn source_of(columns: &[Rc<Column>], number: usize) -> Result<&Rc<Column>, Refusal> {
    columns.get(number).ok_or(Refusal::UnknownColumn { number })
}

impl Rows {
    fn of(column: Rc<Column>) -> Rows {
        let range = 0..column.len();
        Rows { column, range }
    }

    fn of_column(column: Column) -> Rows {
        Rows::of(Rc::new(column))
    }

    fn of_flat(flat: Flat) -> Rows {
        Rows::of_column(Column::Flat(flat))
    }

    fn dtype(&self) -> DType {
        self.column.dtype()
    }

    fn into_flat(self) -> Flat {
        let mut flat = Flat::new(self.dtype());
        self.column.append_to(self.range, &mut flat);
        flat
    }

    fn append_to(&self, range: Range<usize>, out: &mut Flat) {
        let start = self.range.start;
        self.column.append_to(start + range.start..start + range.end, out);
    }

    /// The place in the column of a row that has to be there.
    fn place(&self, index: usize) -> Result<usize, Refusal> {
        let len = self.range.len();
        if index < len { Ok(self.range.start + index) } else { Err(Refusal::OutOfBounds { index, len }) }
    }

    fn slice(self, start: usize, end: usize) -> Result<Rows, Refusal> {
        if end < start {
            return Err(Refusal::BadRange { start, end });
        }
        if end > self.range.len() {
            return Err(Refusal::OutOfBounds { index: end, len: self.range.len() });
        }
        Ok(Rows { range: self.range.start + start..self.range.start + end, ..self })
    }

    fn points(&self, points: &[usize]) -> Result<Answer, Refusal> {
        let mut rows = Flat::new(self.dtype());
        for point in points {
            rows.push(self.column.get(self.place(*point)?));
        }
        Ok(Answer::Rows(rows))
    }

    fn filter(self, flags: &[bool]) -> Result<Rows, Refusal> {
        check_len(self.range.len(), flags.len())?;
        let mut rows = Flat::new(self.dtype());
        for (range, _) in runs_of(flags).filter(|(_, flag)| *flag) {
            self.append_to(range, &mut rows);
        }
        Ok(Rows::of_flat(rows))
    }

    fn take(self, indices: &[Option<usize>]) -> Result<Rows, Refusal> {
        let nullable = self.dtype().nullable || indices.contains(&None);
        let mut rows = Flat::new(DType { nullable, ..self.dtype() });
        for index in indices {
            match index {
                Some(index) => rows.push(self.column.get(self.place(*index)?)),
                None => rows.push(Scalar::Null),
            }
        }
        Ok(Rows::of_flat(rows))
    }

    fn runs(self, runs: &[(usize, usize)], len: usize) -> Result<Rows, Refusal> {
        let sum = runs.iter().map(|(_, count)| *count as u128).sum();
        if sum != len as u128 {
            return Err(Refusal::LengthMismatch { expected: len, found: clamped(sum) });
        }
        for (start, count) in runs.iter().filter(|(_, count)| *count > 0) {
            self.place(clamped(*start as u128 + *count as u128 - 1))?;
        }
        if let Column::Constant { row, .. } = self.column.as_ref() {
            return Ok(Rows::of_column(Column::Constant { row: row.clone(), len }));
        }
        let mut rows = Flat::new(self.dtype());
        for (start, count) in runs.iter().filter(|(_, count)| *count > 0) {
            self.append_to(*start..start + count, &mut rows);
        }
        Ok(Rows::of_flat(rows))
    }

    fn mask(self, flags: &[bool]) -> Result<Rows, Refusal> {
        check_len(self.range.len(), flags.len())?;
        let mut rows = Flat::new(DType { nullable: true, ..self.dtype() });
        for (range, flag) in runs_of(flags) {
            if flag {
                self.append_to(range, &mut rows);
            } else {
                range.for_each(|_| rows.push(Scalar::Null));
            }
        }
        Ok(Rows::of_flat(rows))
    }

    fn zip(self, other: &Column, choice: &[bool]) -> Result<Rows, Refusal> {
        check_len(self.range.len(), choice.len())?;
        check_len(self.range.len(), other.len())?;
        elementwise::check_kinds(self.dtype(), other.dtype())?;
        let nullable = self.dtype().nullable || other.dtype().nullable;
        let mut rows = Flat::new(DType { nullable, ..self.dtype() });
        for (range, flag) in runs_of(choice) {
            if flag {
                self.append_to(range, &mut rows);
            } else {
                other.append_to(range, &mut rows);
            }
        }
        Ok(Rows::of_flat(rows))
    }
}

/// The ranges of equal flags, each with its flag.
fn runs_of(flags: &[bool]) -> impl Iterator<Item = (Range<usize>, bool)> + '_ {
    let mut end = 0;
    flags.chunk_by(|flag, next| flag == next).map(move |run| {
        let start = end;
        end += run.len();
        (start..end, run[0])
    })
}

fn check_len(expected: usize, found: usize) -> Result<(), Refusal> {
    if expected == found { Ok(()) } else { Err(Refusal::LengthMismatch { expected, found }) }
}

fn clamped(number: u128) -> usize {
    usize::try_from(number).unwrap_or(usize::MAX)
}

impl Serialize for Answer {
    fn serialize<S: Serializer>(&self, serializer: S) -> Result<S::Ok, S::Error> {
        let mut map = serializer.serialize_map(Some(1))?;
        match self {
            Answer::Rows(rows) => map.serialize_entry("rows", rows)?,
            Answer::Place(place) => {
                map.serialize_entry(if place.is_found { "found" } else { "not_found" }, &place.number)?;
            }
            Answer::Bits(bits) => map.serialize_entry("bits", bits)?,
        }
        map.end()
    }
}

impl Serialize for Page {
    fn serialize<S: Serializer>(&self, serializer: S) -> Result<S::Ok, S::Error> {
        let mut map = serializer.serialize_map(Some(3))?;
        map.serialize_entry("answers", &self.answers)?;
        map.serialize_entry("rows", &self.rows)?;
        map.serialize_entry("type", &self.dtype)?;
        map.end()
    }
}
