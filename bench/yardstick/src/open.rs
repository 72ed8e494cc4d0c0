//! Columns out of parts: children come first, and then the rules of the part that holds them.

use crate::column::{Chunked, Column, Excepted, Interleaved};
use crate::dtype::DType;
use crate::flat::Flat;
use crate::index::Index;
use crate::job::Part;
use crate::layout::Layout;
use crate::refusal::Refusal;
use crate::rules::Rules;

/// Opens a part; `at` is its path.
pub fn open(part: Part, at: &mut Vec<usize>) -> Result<Column, Refusal> {
    match part {
        Part::Flat(flat) => Ok(Column::Flat(flat)),
        Part::Constant { row, len } => Ok(Column::Constant { row, len }),
        Part::Chunked { dtype, chunks } => chunked(dtype, open_all(chunks, at)?, at),
        Part::Lanes { inner, layout } => lanes(open_child(*inner, 0, at)?, layout, at),
        Part::Excepted { base, index, values } => {
            let base = open_child(*base, 0, at)?;
            excepted(base, index, open_child(*values, 1, at)?, at)
        }
        Part::Interleaved { values, arrays, rows } => interleaved(open_all(values, at)?, arrays, rows, at),
    }
}

fn open_child(part: Part, number: usize, at: &mut Vec<usize>) -> Result<Column, Refusal> {
    at.push(number);
    let column = open(part, at)?;
    at.pop();
    Ok(column)
}

fn open_all(parts: Vec<Part>, at: &mut Vec<usize>) -> Result<Vec<Column>, Refusal> {
    let numbered = parts.into_iter().enumerate();
    numbered.map(|(number, part)| open_child(part, number, at)).collect()
}

fn chunked(dtype: DType, chunks: Vec<Column>, at: &[usize]) -> Result<Column, Refusal> {
    let rules = Rules { at };
    let mut ends = Vec::with_capacity(chunks.len());
    let mut end = 0_usize;
    for chunk in &chunks {
        let sum = end.checked_add(chunk.len());
        rules.keep("TooLong", sum.is_some())?;
        end = sum.unwrap_or(usize::MAX);
        ends.push(end);
    }
    rules.keep("ChunkType", chunks.iter().all(|chunk| chunk.dtype() == dtype))?;
    Ok(Column::Chunked(Chunked { dtype, chunks, ends }))
}

fn lanes(inner: Column, layout: Layout, at: &[usize]) -> Result<Column, Refusal> {
    layout.check(&Rules { at }, inner.dtype(), inner.len())?;
    Ok(Column::Excepted(Excepted {
        exceptions: layout.by_row(inner.len()),
        base: Box::new(inner),
        values: Box::new(Column::Flat(layout.values)),
        keeps_nulls: true,
    }))
}

fn excepted(base: Column, index: Index, values: Column, at: &[usize]) -> Result<Column, Refusal> {
    let rows = (base.dtype(), base.len());
    index.check(&Rules { at }, rows, (values.dtype(), values.len()))?;
    Ok(Column::Excepted(Excepted {
        exceptions: index.by_row(),
        base: Box::new(base),
        values: Box::new(values),
        keeps_nulls: false,
    }))
}

fn interleaved(values: Vec<Column>, arrays: Flat, rows: Flat, at: &[usize]) -> Result<Column, Refusal> {
    let rules = Rules { at };
    let types: Vec<DType> = values.iter().map(Column::dtype).collect();
    rules.supports(types.iter().all(|dtype| dtype.is_bool_or_integer()))?;
    rules.keep("TooFewValues", types.len() >= 2)?;
    rules.keep("ValueTypes", types.iter().all(|dtype| dtype.kind == types[0].kind))?;
    rules.keep("SelectorType", arrays.dtype.is_index() && rows.dtype.is_index())?;
    rules.keep("SelectorLengths", arrays.len() == rows.len())?;
    let has_value = |array: &u64| *array < values.len() as u64;
    rules.keep("SelectorArray", arrays.indices().iter().all(has_value))?;
    let has_row = |(array, row): (&u64, &u64)| *row < values[*array as usize].len() as u64;
    let mut pairs = arrays.indices().iter().zip(rows.indices());
    rules.keep("SelectorRow", pairs.all(has_row))?;
    let nullable = types.iter().any(|dtype| dtype.nullable);
    let dtype = DType { nullable, ..types[0] };
    Ok(Column::Interleaved(Interleaved { dtype, values, arrays, rows }))
}
