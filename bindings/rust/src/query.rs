//! Queries at any offset of any bytes, checked or not.
//!
//! Each returns an answer or an error. First come EMPTY, TOO_LONG and OUTSIDE, then the value's own errors. None tests the bytes of a
//! text, so that BAD_TEXT never comes. The [`Mode`] says whether padded numbers are read. On a checked file, [`Node`](crate::Node) asks
//! them.
//!
//! ```
//! use twine::{query, ErrorKind, Mode::Strict};
//!
//! // a text, and an array of two pointers to it
//! let file = [0x42, b'h', b'i', 0x62, 0xf3, 0xf4, 0x02];
//! let item = query::item(&file, Strict, 3, 1)?;
//! assert_eq!(item, 5);
//! assert_eq!(query::follow(&file, Strict, item)?, (0, 1));
//! assert_eq!(query::body(&file, Strict, item)?, b"hi");
//! assert_eq!(query::skip(&file, Strict, 3)?, 6);
//! assert_eq!(query::item(&file, Strict, 3, 2).unwrap_err().kind, ErrorKind::NoItem);
//! # Ok::<(), twine::Error>(())
//! ```

use crate::error::Error;
use crate::mode::Mode;
use crate::sys;

/// What a value is.
#[derive(Clone, Copy, Debug, PartialEq, Eq, Hash)]
pub enum Kind {
    /// False, true or null.
    Scalar = 0,
    /// An integer from 0.
    Integer = 1,
    /// An integer below 0.
    Negative = 2,
    /// A float of 32 or 64 bits.
    Float = 3,
    /// A text.
    Text = 4,
    /// A byte string.
    Bytes = 5,
    /// An array.
    Array = 6,
    /// A map.
    Map = 7,
    /// A tag, with one item.
    Tag = 8,
    /// A variant without arguments.
    Variant = 10,
    /// A variant of one argument.
    Variant1 = 11,
    /// A variant of many arguments; it may have one or none.
    VariantN = 12,
    /// A reference to an earlier value.
    Reference = 14,
    /// A pointer to an earlier value.
    Pointer = 15,
}

impl Kind {
    fn from_number(number: u64) -> Kind {
        match number {
            0 => Kind::Scalar,
            1 => Kind::Integer,
            2 => Kind::Negative,
            3 => Kind::Float,
            4 => Kind::Text,
            5 => Kind::Bytes,
            6 => Kind::Array,
            7 => Kind::Map,
            8 => Kind::Tag,
            10 => Kind::Variant,
            11 => Kind::Variant1,
            12 => Kind::VariantN,
            14 => Kind::Reference,
            15 => Kind::Pointer,
            _ => unreachable!("libtwine.a returns the kind {number}"),
        }
    }

    /// Whether a value of the kind has items. Such a value is not an item itself.
    pub const fn has_items(self) -> bool {
        matches!(self, Kind::Array | Kind::Map | Kind::Tag | Kind::Variant1 | Kind::VariantN)
    }
}

/// A value's header with its numbers.
///
/// | kind | number | count |
/// |---|---|---|
/// | Scalar | 0 false, 1 true, 2 null | 0 |
/// | Integer | the integer | 0 |
/// | Negative | the integer, in two's complement | 0 |
/// | Float | the bits | bytes, 4 or 8 |
/// | Text, Bytes | bytes | bytes |
/// | Array | items | items |
/// | Map | pairs | items, two for each pair |
/// | Tag | the tag | 1 |
/// | Variant | the index | 0 |
/// | Variant1 | the index | 1 |
/// | VariantN | the index | items |
/// | Reference, Pointer | the offset of the target | 0 |
#[derive(Clone, Copy, Debug, PartialEq, Eq, Hash)]
pub struct Token {
    /// What the value is.
    pub kind: Kind,
    /// By the kind, see the table.
    pub number: u64,
    /// The offset just after the numbers, at which the body starts, or the first item would.
    pub first: usize,
    /// By the kind, see the table.
    pub count: usize,
}

/// Reads the value at `at`, but neither its items nor the bytes of a text.
///
/// LONG_BODY if a text or byte string has more bytes than are left in the region, LONG_LIST if an array, map or variant of many has more
/// items; TRUNC if the region ends inside a number or a float.
///
/// ```
/// use twine::{query, ErrorKind, Mode::Strict};
///
/// // an array of three items, with one byte left for them
/// let error = query::read(&[0x63, 0x10, 0x00], Strict, 0).unwrap_err();
/// assert_eq!((error.kind, error.place), (ErrorKind::LongList, Some(1)));
/// ```
pub fn read(file: &[u8], mode: Mode, at: usize) -> Result<Token, Error> {
    let [kind, number, first, count] = sys::read(file, mode, at)?;
    Ok(Token { kind: Kind::from_number(kind), number, first: first as usize, count: count as usize })
}

/// The offset just after the value at `at`. Its items are read too, with their errors; TRUNC if the region ends where one is wanted.
pub fn skip(file: &[u8], mode: Mode, at: usize) -> Result<usize, Error> {
    Ok(sys::skip(file, mode, at)?[0] as usize)
}

/// The offset of an item of the value at `at`, which is not followed; for a map keys and values alternate.
///
/// NO_ITEM for an index at or past the count, WRONG_KIND for a kind without items; the errors of the items before it; TRUNC if it would
/// start at the region's end. Its time grows with the items before it.
pub fn item(file: &[u8], mode: Mode, at: usize, index: usize) -> Result<usize, Error> {
    Ok(sys::item(file, mode, at, index)?[0] as usize)
}

/// Follows pointers from the value at `at` to one that is not a pointer: its offset, and how many pointers were met.
///
/// References are not followed.
pub fn follow(file: &[u8], mode: Mode, at: usize) -> Result<(usize, usize), Error> {
    let [at, met] = sys::follow(file, mode, at)?;
    Ok((at as usize, met as usize))
}

/// The offset of a key's value in the map at `at`, which is not followed: that of the first pair whose key, followed, is a text of these
/// bytes. They may be any bytes, UTF-8 or not.
///
/// NO_ITEM if there is no such key, WRONG_KIND for another kind than a map; the errors of the pairs before it and of its key; TRUNC if the
/// value would start at the region's end.
pub fn lookup(file: &[u8], mode: Mode, at: usize, key: impl AsRef<[u8]>) -> Result<usize, Error> {
    Ok(sys::lookup(file, mode, at, key.as_ref())?[0] as usize)
}

/// The bytes of the text or byte string that the value at `at` is or that pointers lead to.
///
/// They are not looked at: in a file that was not checked, those of a text may be anything. [`Text`](crate::Text) shows them all the same.
/// WRONG_KIND for another kind.
pub fn body(file: &[u8], mode: Mode, at: usize) -> Result<&[u8], Error> {
    let [first, len] = sys::body(file, mode, at)?;
    Ok(&file[first as usize..][..len as usize])
}
