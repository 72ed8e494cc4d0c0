//! Flat rows: a vector of values by their type, and which of them are valid.

use crate::dtype::{DType, Kind};
use serde::ser::{Serialize, Serializer};
use serde_json::Value;
use std::fmt;
use std::ops::Range;

/// A row, lent. Rows of one kind are ordered, a null before all others.
#[derive(Clone, Copy, Debug, PartialEq, Eq, PartialOrd, Ord)]
pub enum Scalar<'a> {
    Null,
    Bool(bool),
    Unsigned(u64),
    Signed(i64),
    Decimal(i128),
    Utf8(&'a str),
    Binary(&'a [u8]),
}

#[derive(Clone, Debug)]
enum Values {
    Bool(Vec<bool>),
    Unsigned(Vec<u64>),
    Signed(Vec<i64>),
    Decimal(Vec<i128>),
    Utf8(Vec<String>),
    Binary(Vec<Vec<u8>>),
}

#[derive(Clone, Debug)]
pub struct Flat {
    pub dtype: DType,
    values: Values,
    /// Which rows are no nulls; kept for nullable types alone.
    validity: Option<Vec<bool>>,
}

impl Flat {
    pub fn new(dtype: DType) -> Flat {
        let values = match dtype.kind {
            Kind::Bool => Values::Bool(Vec::new()),
            Kind::Unsigned(_) => Values::Unsigned(Vec::new()),
            Kind::Signed(_) => Values::Signed(Vec::new()),
            Kind::Decimal { .. } => Values::Decimal(Vec::new()),
            Kind::Utf8 => Values::Utf8(Vec::new()),
            Kind::Binary => Values::Binary(Vec::new()),
        };
        let validity = dtype.nullable.then(Vec::new);
        Flat { dtype, values, validity }
    }

    /// The rows of a list, if each of them is one of the type.
    pub fn from_json(dtype: DType, rows: &[Value]) -> Option<Flat> {
        let mut validity = dtype.nullable.then(|| Vec::with_capacity(rows.len()));
        let valid = validity.as_mut();
        let values = match dtype.kind {
            Kind::Bool => Values::Bool(read(rows, valid, Value::as_bool)?),
            Kind::Unsigned(bits) => Values::Unsigned(read(rows, valid, |row| unsigned(row, bits))?),
            Kind::Signed(bits) => Values::Signed(read(rows, valid, |row| signed(row, bits))?),
            Kind::Decimal { precision, .. } => {
                Values::Decimal(read(rows, valid, |row| decimal(row, precision))?)
            }
            Kind::Utf8 => Values::Utf8(read(rows, valid, |row| row.as_str().map(str::to_owned))?),
            Kind::Binary => Values::Binary(read(rows, valid, binary)?),
        };
        Some(Flat { dtype, values, validity })
    }

    pub fn len(&self) -> usize {
        match &self.values {
            Values::Bool(values) => values.len(),
            Values::Unsigned(values) => values.len(),
            Values::Signed(values) => values.len(),
            Values::Decimal(values) => values.len(),
            Values::Utf8(values) => values.len(),
            Values::Binary(values) => values.len(),
        }
    }

    pub fn is_null(&self, i: usize) -> bool {
        self.validity.as_ref().is_some_and(|validity| !validity[i])
    }

    pub fn has_nulls(&self) -> bool {
        self.validity.as_ref().is_some_and(|validity| validity.contains(&false))
    }

    /// The rows as indices. To be asked of unsigned rows only.
    pub fn indices(&self) -> &[u64] {
        match &self.values {
            Values::Unsigned(values) => values,
            _ => &[],
        }
    }

    pub fn get(&self, i: usize) -> Scalar<'_> {
        if self.is_null(i) {
            return Scalar::Null;
        }
        match &self.values {
            Values::Bool(values) => Scalar::Bool(values[i]),
            Values::Unsigned(values) => Scalar::Unsigned(values[i]),
            Values::Signed(values) => Scalar::Signed(values[i]),
            Values::Decimal(values) => Scalar::Decimal(values[i]),
            Values::Utf8(values) => Scalar::Utf8(&values[i]),
            Values::Binary(values) => Scalar::Binary(&values[i]),
        }
    }

    pub fn rows(&self) -> impl Iterator<Item = Scalar<'_>> {
        (0..self.len()).map(|i| self.get(i))
    }

    /// Appends a row, which is of the type.
    pub fn push(&mut self, row: Scalar<'_>) {
        if let Some(validity) = &mut self.validity {
            validity.push(!matches!(row, Scalar::Null));
        }
        match (&mut self.values, row) {
            (Values::Bool(values), Scalar::Bool(row)) => values.push(row),
            (Values::Unsigned(values), Scalar::Unsigned(row)) => values.push(row),
            (Values::Signed(values), Scalar::Signed(row)) => values.push(row),
            (Values::Decimal(values), Scalar::Decimal(row)) => values.push(row),
            (Values::Utf8(values), Scalar::Utf8(row)) => values.push(row.to_owned()),
            (Values::Binary(values), Scalar::Binary(row)) => values.push(row.to_owned()),
            (Values::Bool(values), _) => values.push(false),
            (Values::Unsigned(values), _) => values.push(0),
            (Values::Signed(values), _) => values.push(0),
            (Values::Decimal(values), _) => values.push(0),
            (Values::Utf8(values), _) => values.push(String::new()),
            (Values::Binary(values), _) => values.push(Vec::new()),
        }
    }

    /// Appends rows of another, which is of the same kind.
    pub fn extend(&mut self, other: &Flat, range: Range<usize>) {
        if let Some(validity) = &mut self.validity {
            match &other.validity {
                Some(valid) => validity.extend_from_slice(&valid[range.clone()]),
                None => validity.resize(validity.len() + range.len(), true),
            }
        }
        match (&mut self.values, &other.values) {
            (Values::Bool(to), Values::Bool(from)) => to.extend_from_slice(&from[range]),
            (Values::Unsigned(to), Values::Unsigned(from)) => to.extend_from_slice(&from[range]),
            (Values::Signed(to), Values::Signed(from)) => to.extend_from_slice(&from[range]),
            (Values::Decimal(to), Values::Decimal(from)) => to.extend_from_slice(&from[range]),
            (Values::Utf8(to), Values::Utf8(from)) => to.extend_from_slice(&from[range]),
            (Values::Binary(to), Values::Binary(from)) => to.extend_from_slice(&from[range]),
            _ => unreachable!("columns of one kind have values of one kind"),
        }
    }
}

/// Reads each row that isn't null, and notes which are.
fn read<T: Default>(
    rows: &[Value],
    mut validity: Option<&mut Vec<bool>>,
    value_of: impl Fn(&Value) -> Option<T>,
) -> Option<Vec<T>> {
    let mut values = Vec::with_capacity(rows.len());
    for row in rows {
        match validity.as_mut() {
            Some(validity) if row.is_null() => {
                validity.push(false);
                values.push(T::default());
            }
            Some(validity) => {
                validity.push(true);
                values.push(value_of(row)?);
            }
            None => values.push(value_of(row)?),
        }
    }
    Some(values)
}

fn unsigned(row: &Value, bits: u32) -> Option<u64> {
    row.as_u64().filter(|number| *number <= u64::MAX >> (64 - bits))
}

fn signed(row: &Value, bits: u32) -> Option<i64> {
    let range = i64::MIN >> (64 - bits)..=i64::MAX >> (64 - bits);
    row.as_i64().filter(|number| range.contains(number))
}

/// `0`, or digits without a leading zero behind an optional `-`.
fn decimal(row: &Value, precision: u32) -> Option<i128> {
    let text = row.as_str()?;
    let digits = text.strip_prefix('-').unwrap_or(text);
    let is_plain = digits.bytes().all(|byte| byte.is_ascii_digit()) && !digits.starts_with('0');
    if text != "0" && !(is_plain && (1..=precision as usize).contains(&digits.len())) {
        return None;
    }
    text.parse().ok()
}

fn binary(row: &Value) -> Option<Vec<u8>> {
    let digits = row.as_str()?.as_bytes();
    if digits.len() % 2 != 0 {
        return None;
    }
    let digit = |byte: u8| (byte as char).to_digit(16).map(|digit| digit as u8);
    digits.chunks(2).map(|pair| Some(digit(pair[0])? << 4 | digit(pair[1])?)).collect()
}

struct Hex<'a>(&'a [u8]);

impl fmt::Display for Hex<'_> {
    fn fmt(&self, f: &mut fmt::Formatter<'_>) -> fmt::Result {
        self.0.iter().try_for_each(|byte| write!(f, "{byte:02x}"))
    }
}

impl Serialize for Scalar<'_> {
    fn serialize<S: Serializer>(&self, serializer: S) -> Result<S::Ok, S::Error> {
        match *self {
            Scalar::Null => serializer.serialize_unit(),
            Scalar::Bool(row) => serializer.serialize_bool(row),
            Scalar::Unsigned(row) => serializer.serialize_u64(row),
            Scalar::Signed(row) => serializer.serialize_i64(row),
            Scalar::Decimal(row) => serializer.collect_str(&row),
            Scalar::Utf8(row) => serializer.serialize_str(row),
            Scalar::Binary(row) => serializer.collect_str(&Hex(row)),
        }
    }
}

impl Serialize for Flat {
    fn serialize<S: Serializer>(&self, serializer: S) -> Result<S::Ok, S::Error> {
        serializer.collect_seq(self.rows())
    }
}
