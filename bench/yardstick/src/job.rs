//! Jobs out of JSON: parts and steps as they were written, whose rules nobody has looked at yet.

use crate::dtype::DType;
use crate::flat::Flat;
use crate::index::Index;
use crate::layout::Layout;
use serde_json::{Map, Value};

pub enum Part {
    Flat(Flat),
    Constant { row: Flat, len: usize },
    Chunked { dtype: DType, chunks: Vec<Part> },
    Lanes { inner: Box<Part>, layout: Layout },
    Excepted { base: Box<Part>, index: Index, values: Box<Part> },
    Interleaved { values: Vec<Part>, arrays: Flat, rows: Flat },
}

pub enum Step {
    Slice {
        start: usize,
        end: usize,
    },
    /// Whether they are kept makes no difference: the column is.
    Points {
        points: Vec<usize>,
    },
    Filter {
        flags: Vec<bool>,
    },
    Take {
        indices: Vec<Option<usize>>,
    },
    /// Each run is a start and a length.
    Runs {
        runs: Vec<(usize, usize)>,
        len: usize,
    },
    Mask {
        flags: Vec<bool>,
    },
    Zip {
        source: usize,
        choice: Vec<bool>,
    },
    /// The value is a row.
    Fill {
        value: Flat,
    },
    Cast {
        target: DType,
    },
    Compare {
        operator: Operator,
        value: Flat,
    },
    Search {
        side: Side,
        value: Flat,
    },
    Contains {
        source: usize,
    },
}

/// In front of equal rows or behind them.
#[derive(Clone, Copy)]
pub enum Side {
    Left,
    Right,
}

/// How a row is compared with a value.
#[derive(Clone, Copy)]
pub enum Operator {
    Eq,
    Ne,
    Gt,
    Ge,
    Lt,
    Le,
}

pub struct Job {
    pub parts: Vec<Part>,
    pub plan: Vec<Step>,
}

/// The job that the bytes are, if they are one.
pub fn read(bytes: &[u8]) -> Option<Job> {
    let json: Value = serde_json::from_slice(bytes).ok()?;
    let map = object(&json, 2)?;
    let parts = list(map, "parts", part)?;
    let plan = list(map, "plan", step)?;
    Some(Job { parts, plan })
}

fn object(json: &Value, len: usize) -> Option<&Map<String, Value>> {
    json.as_object().filter(|map| map.len() == len)
}

fn list<T>(map: &Map<String, Value>, key: &str, item: fn(&Value) -> Option<T>) -> Option<Vec<T>> {
    map.get(key)?.as_array()?.iter().map(item).collect()
}

fn whole(json: &Value) -> Option<usize> {
    json.as_u64().map(|number| number as usize)
}

fn part(json: &Value) -> Option<Part> {
    let map = json.as_object()?;
    if map.contains_key("flat") {
        flat(json).map(Part::Flat)
    } else if map.contains_key("constant") {
        constant(json)
    } else if map.contains_key("chunked") {
        let map = object(json, 2)?;
        let dtype = DType::from_json(map.get("chunked")?)?;
        Some(Part::Chunked { dtype, chunks: list(map, "chunks", part)? })
    } else if map.contains_key("lanes") {
        lanes(json)
    } else if map.contains_key("excepted") {
        excepted(json)
    } else {
        interleaved(json)
    }
}

fn flat(json: &Value) -> Option<Flat> {
    let map = object(json, 2)?;
    Flat::from_json(DType::from_json(map.get("flat")?)?, map.get("rows")?.as_array()?)
}

fn constant(json: &Value) -> Option<Part> {
    let map = object(json, 3)?;
    let row = std::slice::from_ref(map.get("row")?);
    let row = Flat::from_json(DType::from_json(map.get("constant")?)?, row)?;
    Some(Part::Constant { row, len: whole(map.get("len")?)? })
}

fn lanes(json: &Value) -> Option<Part> {
    let map = object(json, 6)?;
    let inner = Box::new(part(map.get("lanes")?)?);
    let layout = Layout {
        n_lanes: whole(map.get("n_lanes")?)?,
        offset: whole(map.get("offset")?)?,
        lane_offsets: flat(map.get("lane_offsets")?)?,
        indices: flat(map.get("indices")?)?,
        values: flat(map.get("values")?)?,
    };
    Some(Part::Lanes { inner, layout })
}

fn excepted(json: &Value) -> Option<Part> {
    let map = object(json, 5)?;
    let chunk_offsets = match map.get("chunk_offsets")? {
        Value::Null => None,
        offsets => Some(flat(offsets)?),
    };
    let index =
        Index { offset: whole(map.get("offset")?)?, indices: flat(map.get("indices")?)?, chunk_offsets };
    let base = Box::new(part(map.get("excepted")?)?);
    let values = Box::new(part(map.get("values")?)?);
    Some(Part::Excepted { base, index, values })
}

fn interleaved(json: &Value) -> Option<Part> {
    let map = object(json, 3)?;
    Some(Part::Interleaved {
        values: list(map, "interleaved", part)?,
        arrays: flat(map.get("array_indices")?)?,
        rows: flat(map.get("row_indices")?)?,
    })
}

fn pair(json: &Value) -> Option<(usize, usize)> {
    match json.as_array()?.as_slice() {
        [first, second] => Some((whole(first)?, whole(second)?)),
        _ => None,
    }
}

fn whole_or_null(json: &Value) -> Option<Option<usize>> {
    match json {
        Value::Null => Some(None),
        number => whole(number).map(Some),
    }
}

/// A type and a row of it.
fn value(json: &Value) -> Option<Flat> {
    let map = object(json, 2)?;
    Flat::from_json(DType::from_json(map.get("type")?)?, std::slice::from_ref(map.get("row")?))
}

fn operator(json: &Value) -> Option<Operator> {
    match json.as_str()? {
        "eq" => Some(Operator::Eq),
        "ne" => Some(Operator::Ne),
        "gt" => Some(Operator::Gt),
        "ge" => Some(Operator::Ge),
        "lt" => Some(Operator::Lt),
        "le" => Some(Operator::Le),
        _ => None,
    }
}

fn side(json: &Value) -> Option<Side> {
    match json.as_str()? {
        "left" => Some(Side::Left),
        "right" => Some(Side::Right),
        _ => None,
    }
}

fn step(json: &Value) -> Option<Step> {
    let map = json.as_object()?;
    if map.contains_key("slice") {
        let (start, end) = pair(object(json, 1)?.get("slice")?)?;
        Some(Step::Slice { start, end })
    } else if map.contains_key("points") {
        let map = object(json, 2)?;
        map.get("kept")?.as_bool()?;
        Some(Step::Points { points: list(map, "points", whole)? })
    } else if map.contains_key("filter") {
        Some(Step::Filter { flags: list(object(json, 1)?, "filter", Value::as_bool)? })
    } else if map.contains_key("take") {
        Some(Step::Take { indices: list(object(json, 1)?, "take", whole_or_null)? })
    } else if map.contains_key("runs") {
        let map = object(json, 2)?;
        Some(Step::Runs { runs: list(map, "runs", pair)?, len: whole(map.get("len")?)? })
    } else {
        other_step(json, map)
    }
}

fn other_step(json: &Value, map: &Map<String, Value>) -> Option<Step> {
    if map.contains_key("mask") {
        Some(Step::Mask { flags: list(object(json, 1)?, "mask", Value::as_bool)? })
    } else if map.contains_key("zip") {
        let map = object(json, 2)?;
        Some(Step::Zip { source: whole(map.get("zip")?)?, choice: list(map, "choice", Value::as_bool)? })
    } else if map.contains_key("fill") {
        Some(Step::Fill { value: value(object(json, 1)?.get("fill")?)? })
    } else if map.contains_key("cast") {
        Some(Step::Cast { target: DType::from_json(object(json, 1)?.get("cast")?)? })
    } else if map.contains_key("compare") {
        let map = object(json, 2)?;
        let operator = operator(map.get("compare")?)?;
        Some(Step::Compare { operator, value: value(map.get("value")?)? })
    } else if map.contains_key("search") {
        let map = object(json, 2)?;
        Some(Step::Search { side: side(map.get("search")?)?, value: value(map.get("value")?)? })
    } else {
        Some(Step::Contains { source: whole(object(json, 1)?.get("contains")?)? })
    }
}
