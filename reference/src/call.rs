//! The calls of a writer.

use crate::error::Error;
use crate::kind::Scalar;
use crate::leb128::Mode;
use crate::query::{body, read, Value};

/// A call: "each immediate; open array, map, tag, variant of one, variant of many; close at a start."
///
/// "Integers are signed 64-bit, tags and counts unsigned 64-bit, variant indexes unsigned 32-bit, so the writer gives neither
/// RESERVED nor RANGE." Targets are offsets of the file.
#[derive(Clone, Copy, Debug, PartialEq, Eq)]
pub enum Call<'a> {
    /// False, true or null.
    Scalar(Scalar),
    /// An integer.
    Integer(i64),
    /// A float of 32 bits, by its bits.
    Float32(u32),
    /// A float of 64 bits, by its bits.
    Float64(u64),
    /// A text.
    Text(&'a [u8]),
    /// A byte string.
    Bytes(&'a [u8]),
    /// A variant without an argument, by its index.
    Variant0(u32),
    /// A reference to the value at an offset.
    Reference(u64),
    /// A pointer to the value at an offset.
    Pointer(u64),
    /// Opens an array of that many items.
    Array(u64),
    /// Opens a map of that many pairs.
    Map(u64),
    /// Opens a tag.
    Tag(u64),
    /// Opens a variant of one argument, by its index.
    Variant1(u32),
    /// Opens a variant of many arguments, by its index and their number.
    VariantN(u32, u64),
    /// Closes the file; the entry is the value at an offset.
    Close(u64),
}

impl<'a> Call<'a> {
    /// The call that writes the value or the item at an offset of a file again, an opening without its items. A target is the
    /// offset that it has in the file.
    pub fn of(file: &'a [u8], mode: Mode, at: u64) -> Result<Self, Error> {
        Ok(match read(file, mode, at)? {
            Value::Scalar(scalar) => Self::Scalar(scalar),
            Value::Integer(integer) => Self::Integer(integer),
            Value::Float32(bits) => Self::Float32(bits),
            Value::Float64(bits) => Self::Float64(bits),
            Value::Text(_) => Self::Text(body(file, mode, at)),
            Value::Bytes(_) => Self::Bytes(body(file, mode, at)),
            Value::Array { items, .. } => Self::Array(items),
            Value::Map { pairs, .. } => Self::Map(pairs),
            Value::Tag { tag, .. } => Self::Tag(tag),
            Value::Variant0 { index } => Self::Variant0(index),
            Value::Variant1 { index, .. } => Self::Variant1(index),
            Value::VariantN { index, arguments, .. } => Self::VariantN(index, arguments),
            Value::Reference { target } => Self::Reference(target as u64),
            Value::Pointer { target } => Self::Pointer(target as u64),
        })
    }

    /// The items that it opens; more than 64 bits can count for a map of 2^63 pairs or more.
    #[must_use]
    pub const fn items(&self) -> u128 {
        match *self {
            Self::Array(items) | Self::VariantN(_, items) => items as u128,
            Self::Map(pairs) => 2 * pairs as u128,
            Self::Tag(_) | Self::Variant1(_) => 1,
            _ => 0,
        }
    }
}
