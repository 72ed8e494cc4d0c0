//! Exceptions that are kept by lane.

use crate::dtype::DType;
use crate::flat::Flat;
use crate::refusal::Refusal;
use crate::rules::{chunks_of, rises, Rules, CHUNK};

pub struct Layout {
    pub n_lanes: usize,
    pub offset: usize,
    pub lane_offsets: Flat,
    pub indices: Flat,
    pub values: Flat,
}

impl Layout {
    /// Tries the rules over so many rows of a type.
    pub fn check(&self, rules: &Rules<'_>, dtype: DType, len: usize) -> Result<(), Refusal> {
        rules.supports(dtype.is_integer())?;
        self.check_offsets(rules, len)?;
        self.check_indices(rules)?;
        rules.keep("LaneValueType", self.values.dtype.kind == dtype.kind)?;
        rules.keep("LaneValueNull", !self.values.has_nulls())
    }

    fn check_offsets(&self, rules: &Rules<'_>, len: usize) -> Result<(), Refusal> {
        let is_count = self.n_lanes.is_power_of_two() && self.n_lanes <= 128;
        rules.keep("TooLong", self.offset.checked_add(len).is_some())?;
        rules.keep("LaneCount", is_count)?;
        rules.keep("LaneOffset", self.offset < CHUNK)?;
        rules.keep("LaneOffsetsType", self.lane_offsets.dtype == DType::index(32))?;
        let starts = self.lane_offsets.indices();
        let entries = self.n_lanes as u128 * chunks_of(self.offset, len) as u128;
        rules.keep("LaneOffsetsLength", starts.len() as u128 == entries + 1)?;
        rules.keep("LaneOffsetsFall", starts.is_sorted())
    }

    fn check_indices(&self, rules: &Rules<'_>) -> Result<(), Refusal> {
        let starts = self.lane_offsets.indices();
        let (first, last) = (starts[0] as usize, starts[starts.len() - 1] as usize);
        rules.keep("LaneOffsetsEnd", last <= self.indices.len())?;
        rules.keep("LaneIndexType", self.indices.dtype == DType::index(16))?;
        rules.keep("LaneLengths", self.indices.len() == self.values.len())?;
        let mut held = self.indices.indices()[first..last].iter();
        rules.keep("LaneIndexRange", held.all(|place| *place < CHUNK as u64))?;
        let is_in_lane = |(number, (_, places)): (usize, (usize, &[u64]))| {
            let lane = (number % self.n_lanes) as u64;
            places.iter().all(|place| place % self.n_lanes as u64 == lane)
        };
        rules.keep("LaneIndexLane", self.entries().enumerate().all(is_in_lane))?;
        rules.keep("LaneIndexOrder", self.entries().all(|(_, places)| rises(places)))
    }

    /// For each lane of each chunk the number of its first exception, and the places of all of them.
    fn entries(&self) -> impl Iterator<Item = (usize, &[u64])> {
        self.lane_offsets.indices().windows(2).map(|bounds| {
            let (from, to) = (bounds[0] as usize, bounds[1] as usize);
            (from, &self.indices.indices()[from..to])
        })
    }

    /// The rows that have an exception, rising, each with the number of its value.
    pub fn by_row(&self, len: usize) -> Vec<(usize, usize)> {
        let mut exceptions = Vec::with_capacity(self.indices.len());
        for (number, (from, places)) in self.entries().enumerate() {
            let start = number / self.n_lanes * CHUNK;
            for (k, place) in (from..).zip(places) {
                let row = (start + *place as usize).checked_sub(self.offset);
                if let Some(row) = row.filter(|row| *row < len) {
                    exceptions.push((row, k));
                }
            }
        }
        exceptions.sort_unstable();
        exceptions
    }
}
