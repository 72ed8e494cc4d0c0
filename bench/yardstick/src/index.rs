//! Exceptions that are kept by row.

use crate::dtype::DType;
use crate::flat::Flat;
use crate::refusal::Refusal;
use crate::rules::{chunks_of, rises, Rules, CHUNK};

pub struct Index {
    pub offset: usize,
    pub indices: Flat,
    pub chunk_offsets: Option<Flat>,
}

impl Index {
    /// Tries the rules over so many rows of a type, with so many values of another.
    pub fn check(
        &self,
        rules: &Rules<'_>,
        (dtype, len): (DType, usize),
        (value_dtype, count): (DType, usize),
    ) -> Result<(), Refusal> {
        rules.supports(dtype.is_bool_or_integer())?;
        self.check_indices(rules, len)?;
        rules.keep("ValueCount", count == self.indices.len())?;
        rules.keep("ValueType", value_dtype.kind == dtype.kind)?;
        rules.keep("ValueNullable", dtype.nullable || !value_dtype.nullable)?;
        match &self.chunk_offsets {
            Some(chunk_offsets) => self.check_chunk_offsets(rules, chunk_offsets, len),
            None => Ok(()),
        }
    }

    fn check_indices(&self, rules: &Rules<'_>, len: usize) -> Result<(), Refusal> {
        rules.keep("TooLong", self.offset.checked_add(len).is_some())?;
        rules.keep("NoExceptions", self.indices.len() > 0)?;
        rules.keep("IndexType", self.indices.dtype.is_index())?;
        let rows = self.indices.indices();
        let (start, end) = (self.offset as u64, (self.offset + len) as u64);
        rules.keep("IndexOrder", rises(rows))?;
        rules.keep("IndexBelowOffset", rows.iter().all(|row| *row >= start))?;
        rules.keep("IndexPastEnd", rows.iter().all(|row| *row < end))
    }

    fn check_chunk_offsets(
        &self,
        rules: &Rules<'_>,
        chunk_offsets: &Flat,
        len: usize,
    ) -> Result<(), Refusal> {
        rules.keep("ChunkOffsetType", chunk_offsets.dtype.is_index())?;
        let counts = chunk_offsets.indices();
        let chunks = chunks_of(self.offset % CHUNK, len);
        rules.keep("ChunkOffsetCount", counts.len() == chunks)?;
        let rows = self.indices.indices();
        let is_right = |(number, count): (usize, &u64)| {
            let start = (CHUNK * (self.offset / CHUNK + number)) as u64;
            *count == rows.partition_point(|row| *row < start) as u64
        };
        rules.keep("ChunkOffsetWrong", counts.iter().enumerate().all(is_right))
    }

    /// The rows that have an exception, rising, each with the number of its value.
    pub fn by_row(&self) -> Vec<(usize, usize)> {
        let rows = self.indices.indices().iter().enumerate();
        rows.map(|(k, row)| (*row as usize - self.offset, k)).collect()
    }
}
