//! Rules of parts, each tried in its order.

use crate::refusal::Refusal;

/// Rows in a chunk of exceptions.
pub const CHUNK: usize = 1024;

/// Refuses the part of this path by the first rule that it breaks.
pub struct Rules<'a> {
    pub at: &'a [usize],
}

impl Rules<'_> {
    pub fn supports(&self, is_supported: bool) -> Result<(), Refusal> {
        if is_supported {
            return Ok(());
        }
        Err(Refusal::Unsupported { at: self.at.to_vec() })
    }

    pub fn keep(&self, rule: &'static str, is_kept: bool) -> Result<(), Refusal> {
        if is_kept {
            return Ok(());
        }
        Err(Refusal::Malformed { at: self.at.to_vec(), rule })
    }
}

/// How many chunks the rows reach, of which the first stands at this place of its chunk.
pub fn chunks_of(place: usize, len: usize) -> usize {
    place / CHUNK + len / CHUNK + (place % CHUNK + len % CHUNK).div_ceil(CHUNK)
}

pub fn rises(numbers: &[u64]) -> bool {
    numbers.windows(2).all(|pair| pair[0] < pair[1])
}
