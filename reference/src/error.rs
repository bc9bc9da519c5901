//! The refusals: their numbers, their names and their places.

use std::fmt;

/// Why a question or a call is refused. The numbers are those of the table "Numbers of refusal", and those that W-201 adds.
#[derive(Clone, Copy, Debug, PartialEq, Eq, Hash)]
#[repr(u8)]
pub enum ErrorKind {
    /// "L = 0".
    Empty = 1,
    /// "L over 16,777,216".
    TooLong = 2,
    /// "A number or fixed body cut by the region's end", or "an item wanted there".
    Trunc = 3,
    /// "Reserved kind or low".
    Reserved = 4,
    /// "Last LEB128 byte 0 and not the first"; in the strict mode alone.
    Overlong = 5,
    /// "Tenth LEB128 byte over 1; n over its kind's bound or over 2^64-1".
    Range = 6,
    /// "An item of kind 6, 7, 8, 11 or 12".
    Nested = 7,
    /// A text that breaks the text rule: "as above".
    BadText = 8,
    /// A target that is not the start of an earlier value of the row, or is below 0.
    BadTarget = 9,
    /// "One value more than the table has words".
    Full = 10,
    /// The delta byte does not lead to the start of a value of the row.
    BadEntry = 11,
    /// "Asked offset not in the region".
    Outside = 12,
    /// "Item number at or past the count; key not found".
    NoItem = 13,
    /// "The question doesn't fit the kind".
    WrongKind = 14,
    /// The writer's output is too short for the call.
    NoRoom = 15,
    /// "Items are still owed".
    Owed = 16,
    /// "Already closed".
    Closed = 17,
    /// The writer's state does not fit the lent output and table.
    BadState = 18,
    /// "A text or byte length exceeds the bytes left". The place is "the offset just after the numbers".
    LongBody = 19,
    /// "An item or argument count does, or a pair count exceeds half of them". The place is that of [`Self::LongBody`].
    LongList = 20,
}

impl ErrorKind {
    /// All refusals in the order of their numbers.
    pub const ALL: [Self; 20] = [
        Self::Empty,
        Self::TooLong,
        Self::Trunc,
        Self::Reserved,
        Self::Overlong,
        Self::Range,
        Self::Nested,
        Self::BadText,
        Self::BadTarget,
        Self::Full,
        Self::BadEntry,
        Self::Outside,
        Self::NoItem,
        Self::WrongKind,
        Self::NoRoom,
        Self::Owed,
        Self::Closed,
        Self::BadState,
        Self::LongBody,
        Self::LongList,
    ];

    /// The number in the papers.
    #[must_use]
    pub const fn number(self) -> u8 {
        self as u8
    }

    /// The name in the papers.
    #[must_use]
    pub const fn name(self) -> &'static str {
        match self {
            Self::Empty => "EMPTY",
            Self::TooLong => "TOO_LONG",
            Self::Trunc => "TRUNC",
            Self::Reserved => "RESERVED",
            Self::Overlong => "OVERLONG",
            Self::Range => "RANGE",
            Self::Nested => "NESTED",
            Self::BadText => "BAD_TEXT",
            Self::BadTarget => "BAD_TARGET",
            Self::Full => "FULL",
            Self::BadEntry => "BAD_ENTRY",
            Self::Outside => "OUTSIDE",
            Self::NoItem => "NO_ITEM",
            Self::WrongKind => "WRONG_KIND",
            Self::NoRoom => "NO_ROOM",
            Self::Owed => "OWED",
            Self::Closed => "CLOSED",
            Self::BadState => "BAD_STATE",
            Self::LongBody => "LONG_BODY",
            Self::LongList => "LONG_LIST",
        }
    }

    /// The refusal at an offset of the file.
    pub(crate) const fn at(self, offset: usize) -> Error {
        Error { kind: self, place: offset as u64 }
    }
}

impl fmt::Display for ErrorKind {
    fn fmt(&self, f: &mut fmt::Formatter<'_>) -> fmt::Result {
        f.write_str(self.name())
    }
}

impl std::error::Error for ErrorKind {}

/// A refusal with its place: "the offset of the header at fault (an item's own header for an item)", "the offset just after
/// the numbers" of a length or count at fault, and the other places that document 01 lists.
#[derive(Clone, Copy, Debug, PartialEq, Eq, Hash)]
pub struct Error {
    /// Why.
    pub kind: ErrorKind,
    /// Where.
    pub place: u64,
}

impl fmt::Display for Error {
    fn fmt(&self, f: &mut fmt::Formatter<'_>) -> fmt::Result {
        write!(f, "{} {}", self.kind, self.place)
    }
}

impl std::error::Error for Error {}

#[cfg(test)]
mod tests {
    use super::*;

    #[test]
    fn numbers_run_from_one() {
        for (index, kind) in ErrorKind::ALL.into_iter().enumerate() {
            assert_eq!(usize::from(kind.number()), index + 1);
        }
        assert_eq!([ErrorKind::Trunc, ErrorKind::LongBody, ErrorKind::LongList].map(ErrorKind::number), [3, 19, 20]);
    }

    #[test]
    fn a_refusal_is_its_name_and_its_place() {
        assert_eq!(ErrorKind::BadEntry.at(4).to_string(), "BAD_ENTRY 4");
        assert_eq!(ErrorKind::NoRoom.to_string(), "NO_ROOM");
        assert_eq!(ErrorKind::LongBody.at(2).to_string(), "LONG_BODY 2");
        assert_eq!(ErrorKind::LongList.at(10).to_string(), "LONG_LIST 10");
    }
}
