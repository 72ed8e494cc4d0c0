//! Steps that change each row by itself. A constant stays one, and so do chunks.

use crate::column::Column;
use crate::dtype::{DType, Kind};
use crate::flat::{Flat, Scalar};
use crate::job::Operator;
use crate::refusal::Refusal;
use std::ops::Range;

pub fn check_kinds(dtype: DType, other: DType) -> Result<(), Refusal> {
    if dtype.kind == other.kind { Ok(()) } else { Err(Refusal::MismatchedTypes) }
}

/// Puts the value in the place of each null.
pub fn fill(column: &Column, range: Range<usize>, value: &Flat) -> Result<Column, Refusal> {
    check_kinds(column.dtype(), value.dtype)?;
    if value.get(0) == Scalar::Null {
        return Err(Refusal::MismatchedTypes);
    }
    let dtype = DType { nullable: false, ..column.dtype() };
    column.changed(range, dtype, &mut |_, rows| {
        let mut filled = Flat::new(dtype);
        for row in rows.rows() {
            filled.push(if row == Scalar::Null { value.get(0) } else { row });
        }
        Ok(filled)
    })
}

/// The same numbers as rows of another type of integers.
pub fn cast(column: &Column, range: Range<usize>, target: DType) -> Result<Column, Refusal> {
    if !(column.dtype().is_integer() && target.is_integer()) {
        return Err(Refusal::MismatchedTypes);
    }
    column.changed(range, target, &mut |before, rows| {
        let mut cast = Flat::new(target);
        for (row, number) in (before..).zip(rows.rows()) {
            cast.push(number_as(target, number).ok_or(Refusal::BadCast { row })?);
        }
        Ok(cast)
    })
}

/// The number as a row of a type of integers, if it is one.
fn number_as(target: DType, row: Scalar<'_>) -> Option<Scalar<'static>> {
    let number = match row {
        Scalar::Unsigned(number) => i128::from(number),
        Scalar::Signed(number) => i128::from(number),
        _ => return target.nullable.then_some(Scalar::Null),
    };
    match target.kind {
        Kind::Unsigned(bits) => {
            let number = u64::try_from(number).ok()?;
            (number <= u64::MAX >> (64 - bits)).then_some(Scalar::Unsigned(number))
        }
        Kind::Signed(bits) => {
            let number = i64::try_from(number).ok()?;
            let range = i64::MIN >> (64 - bits)..=i64::MAX >> (64 - bits);
            range.contains(&number).then_some(Scalar::Signed(number))
        }
        _ => None,
    }
}

/// For each row whether it stands so to the value, and a null where one of the two is.
pub fn compare(
    column: &Column,
    range: Range<usize>,
    operator: Operator,
    value: &Flat,
) -> Result<Column, Refusal> {
    check_kinds(column.dtype(), value.dtype)?;
    let nullable = column.dtype().nullable || value.dtype.nullable;
    let dtype = DType { kind: Kind::Bool, nullable };
    column.changed(range, dtype, &mut |_, rows| {
        let mut truths = Flat::new(dtype);
        for row in rows.rows() {
            truths.push(compared(row, operator, value.get(0)));
        }
        Ok(truths)
    })
}

fn compared(row: Scalar<'_>, operator: Operator, value: Scalar<'_>) -> Scalar<'static> {
    if row == Scalar::Null || value == Scalar::Null {
        return Scalar::Null;
    }
    Scalar::Bool(match operator {
        Operator::Eq => row == value,
        Operator::Ne => row != value,
        Operator::Gt => row > value,
        Operator::Ge => row >= value,
        Operator::Lt => row < value,
        Operator::Le => row <= value,
    })
}
