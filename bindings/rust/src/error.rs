//! The errors.

use std::fmt;

/// What is wrong, with the papers' numbers and names. The region is all bytes of the file but the last.
#[derive(Clone, Copy, Debug, PartialEq, Eq, Hash, PartialOrd, Ord)]
#[repr(u32)]
pub enum ErrorKind {
    /// The file has no bytes.
    Empty = 1,
    /// The file has more than [`LIMIT`](crate::LIMIT) bytes.
    TooLong = 2,
    /// The region ends inside a number or a float, and the place is the header; or an item is wanted at its end, and the place is that end.
    Trunc = 3,
    /// A reserved kind or low nibble.
    Reserved = 4,
    /// A padded number, in strict mode alone; see [`Mode`](crate::Mode). The place is its header.
    Overlong = 5,
    /// A number over its kind's bound or over 64 bits.
    Range = 6,
    /// An item of a kind that has items itself.
    Nested = 7,
    /// A text whose bytes are not UTF-8 (RFC 3629); see [`Text`](crate::Text). The place is its header.
    BadText = 8,
    /// A reference or pointer to something that is not a value that ended before; in the writer, not a finished value.
    BadTarget = 9,
    /// One value more than the table has words.
    Full = 10,
    /// The last byte names no value.
    BadEntry = 11,
    /// The offset asked for is not in the region.
    Outside = 12,
    /// An index at or past the count, or a key that is not there.
    NoItem = 13,
    /// The query does not fit the kind.
    WrongKind = 14,
    /// In the writer and in [`prune_into`](crate::prune_into): the output has no room.
    NoRoom = 15,
    /// In the writer: the open value still has to get items.
    Owed = 16,
    /// In the writer: already closed.
    Closed = 17,
    /// In the writer: a state that the output or the table does not fit. A [`Writer`](crate::Writer) never has one.
    BadState = 18,
    /// The length of a text or byte string exceeds the bytes left in the region. The place is where its body starts.
    LongBody = 19,
    /// A count of items exceeds the bytes left in the region, or a count of pairs half of them. The place is where the first item would
    /// start.
    LongList = 20,
}

impl ErrorKind {
    /// All of them, in the order of their numbers, from 1.
    pub const ALL: [ErrorKind; 20] = [
        ErrorKind::Empty,
        ErrorKind::TooLong,
        ErrorKind::Trunc,
        ErrorKind::Reserved,
        ErrorKind::Overlong,
        ErrorKind::Range,
        ErrorKind::Nested,
        ErrorKind::BadText,
        ErrorKind::BadTarget,
        ErrorKind::Full,
        ErrorKind::BadEntry,
        ErrorKind::Outside,
        ErrorKind::NoItem,
        ErrorKind::WrongKind,
        ErrorKind::NoRoom,
        ErrorKind::Owed,
        ErrorKind::Closed,
        ErrorKind::BadState,
        ErrorKind::LongBody,
        ErrorKind::LongList,
    ];

    /// The number, from 1.
    pub const fn number(self) -> u32 {
        self as u32
    }

    /// The error of a number, or none if no error has it.
    pub fn from_number(number: u32) -> Option<ErrorKind> {
        let index = number.checked_sub(1)?;
        Self::ALL.get(index as usize).copied()
    }

    /// The name as the papers spell it.
    ///
    /// ```
    /// assert_eq!(twine::ErrorKind::BadTarget.name(), "BAD_TARGET");
    /// ```
    pub const fn name(self) -> &'static str {
        match self {
            ErrorKind::Empty => "EMPTY",
            ErrorKind::TooLong => "TOO_LONG",
            ErrorKind::Trunc => "TRUNC",
            ErrorKind::Reserved => "RESERVED",
            ErrorKind::Overlong => "OVERLONG",
            ErrorKind::Range => "RANGE",
            ErrorKind::Nested => "NESTED",
            ErrorKind::BadText => "BAD_TEXT",
            ErrorKind::BadTarget => "BAD_TARGET",
            ErrorKind::Full => "FULL",
            ErrorKind::BadEntry => "BAD_ENTRY",
            ErrorKind::Outside => "OUTSIDE",
            ErrorKind::NoItem => "NO_ITEM",
            ErrorKind::WrongKind => "WRONG_KIND",
            ErrorKind::NoRoom => "NO_ROOM",
            ErrorKind::Owed => "OWED",
            ErrorKind::Closed => "CLOSED",
            ErrorKind::BadState => "BAD_STATE",
            ErrorKind::LongBody => "LONG_BODY",
            ErrorKind::LongList => "LONG_LIST",
        }
    }
}

impl fmt::Display for ErrorKind {
    fn fmt(&self, f: &mut fmt::Formatter<'_>) -> fmt::Result {
        f.pad(self.name())
    }
}

/// What is wrong, and where.
///
/// ```
/// let error = twine::File::check(&[0x42, 0xc3, 0x28, 0x02]).unwrap_err();
/// assert_eq!(error.kind, twine::ErrorKind::BadText);
/// assert_eq!(error.place, Some(0));
/// assert_eq!(error.to_string(), "BAD_TEXT at 0");
/// ```
#[derive(Clone, Copy, Debug, PartialEq, Eq, Hash)]
pub struct Error {
    /// What is wrong.
    pub kind: ErrorKind,
    /// The offset in the file. The writer's errors have none, nor have FULL and `NO_ROOM` of [`prune_into`](crate::prune_into) about the memory
    /// for the new file.
    pub place: Option<usize>,
}

impl fmt::Display for Error {
    fn fmt(&self, f: &mut fmt::Formatter<'_>) -> fmt::Result {
        match self.place {
            Some(place) => write!(f, "{} at {place}", self.kind),
            None => write!(f, "{}", self.kind),
        }
    }
}

impl std::error::Error for Error {}

#[cfg(test)]
mod tests {
    use super::*;
    use crate::sys;

    /// The archive's name of a number.
    fn named(number: u32) -> String {
        let name = sys::error_name(number);
        let letters = name.iter().position(|byte| *byte == 0).unwrap();
        assert!(name[letters..].iter().all(|byte| *byte == 0));
        String::from_utf8(name[..letters].to_vec()).unwrap()
    }

    #[test]
    fn names_and_numbers_are_the_archives() {
        for (index, kind) in ErrorKind::ALL.into_iter().enumerate() {
            assert_eq!(kind.number() as usize, index + 1);
            assert_eq!(ErrorKind::from_number(kind.number()), Some(kind));
            assert_eq!(kind.name(), named(kind.number()));
            assert_eq!(kind.to_string(), kind.name());
        }
        for number in [0, ErrorKind::ALL.len() as u32 + 1, u32::MAX] {
            assert_eq!(ErrorKind::from_number(number), None);
            assert_eq!(named(number), "");
        }
    }

    #[test]
    fn display_tells_the_place() {
        assert_eq!(Error { kind: ErrorKind::LongBody, place: Some(55) }.to_string(), "LONG_BODY at 55");
        assert_eq!(Error { kind: ErrorKind::NoRoom, place: None }.to_string(), "NO_ROOM");
    }
}
