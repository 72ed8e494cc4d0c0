//! Types of rows, and their JSON.

use serde::ser::{Serialize, SerializeMap, Serializer};
use serde_json::Value;

#[derive(Clone, Copy, Debug, PartialEq, Eq)]
pub enum Kind {
    Bool,
    /// Integers of so many bits, unsigned.
    Unsigned(u32),
    /// Integers of so many bits, signed.
    Signed(u32),
    Decimal {
        precision: u32,
        scale: i8,
    },
    Utf8,
    Binary,
}

#[derive(Clone, Copy, Debug, PartialEq, Eq)]
pub struct DType {
    pub kind: Kind,
    pub nullable: bool,
}

impl DType {
    /// Unsigned integers of so many bits, without nulls.
    pub fn index(bits: u32) -> DType {
        DType { kind: Kind::Unsigned(bits), nullable: false }
    }

    pub fn is_integer(self) -> bool {
        matches!(self.kind, Kind::Unsigned(_) | Kind::Signed(_))
    }

    pub fn is_bool_or_integer(self) -> bool {
        self.kind == Kind::Bool || self.is_integer()
    }

    /// Unsigned integers without nulls, as indices are.
    pub fn is_index(self) -> bool {
        matches!(self.kind, Kind::Unsigned(_)) && !self.nullable
    }

    pub fn from_json(json: &Value) -> Option<DType> {
        match json {
            Value::String(name) => named(name),
            Value::Object(map) if map.len() == 2 => {
                let sizes = map.get("decimal")?.as_array()?;
                let [precision, scale] = sizes.as_slice() else {
                    return None;
                };
                let precision = u32::try_from(precision.as_u64()?).ok()?;
                let scale = i8::try_from(scale.as_i64()?).ok()?;
                let nullable = map.get("nullable")?.as_bool()?;
                let kind = Kind::Decimal { precision, scale };
                (1..=38).contains(&precision).then_some(DType { kind, nullable })
            }
            _ => None,
        }
    }
}

fn named(name: &str) -> Option<DType> {
    let (name, nullable) = match name.strip_suffix('?') {
        Some(name) => (name, true),
        None => (name, false),
    };
    let kind = match name {
        "bool" => Kind::Bool,
        "u8" => Kind::Unsigned(8),
        "u16" => Kind::Unsigned(16),
        "u32" => Kind::Unsigned(32),
        "u64" => Kind::Unsigned(64),
        "i8" => Kind::Signed(8),
        "i16" => Kind::Signed(16),
        "i32" => Kind::Signed(32),
        "i64" => Kind::Signed(64),
        "utf8" => Kind::Utf8,
        "binary" => Kind::Binary,
        _ => return None,
    };
    Some(DType { kind, nullable })
}

impl Serialize for DType {
    fn serialize<S: Serializer>(&self, serializer: S) -> Result<S::Ok, S::Error> {
        let mark = if self.nullable { "?" } else { "" };
        match self.kind {
            Kind::Bool => serializer.collect_str(&format_args!("bool{mark}")),
            Kind::Unsigned(bits) => serializer.collect_str(&format_args!("u{bits}{mark}")),
            Kind::Signed(bits) => serializer.collect_str(&format_args!("i{bits}{mark}")),
            Kind::Utf8 => serializer.collect_str(&format_args!("utf8{mark}")),
            Kind::Binary => serializer.collect_str(&format_args!("binary{mark}")),
            Kind::Decimal { precision, scale } => {
                let mut map = serializer.serialize_map(Some(2))?;
                map.serialize_entry("decimal", &(precision, scale))?;
                map.serialize_entry("nullable", &self.nullable)?;
                map.end()
            }
        }
    }
}
