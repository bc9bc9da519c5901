//! The constant table of the kinds, and what a header byte decides alone.

/// Kind of false, true and null.
pub const SCALAR: u8 = 0;
/// Kind of the integers from 0.
pub const POSITIVE: u8 = 1;
/// Kind of the integers below 0.
pub const NEGATIVE: u8 = 2;
/// Kind of the floats of 32 and of 64 bits.
pub const FLOAT: u8 = 3;
/// Kind of texts.
pub const TEXT: u8 = 4;
/// Kind of byte strings.
pub const BYTES: u8 = 5;
/// Kind of arrays.
pub const ARRAY: u8 = 6;
/// Kind of maps.
pub const MAP: u8 = 7;
/// Kind of tags.
pub const TAG: u8 = 8;
/// Kind of variants without an argument.
pub const VARIANT0: u8 = 10;
/// Kind of variants of one argument.
pub const VARIANT1: u8 = 11;
/// Kind of variants of many arguments, which may be none or one.
pub const VARIANT_N: u8 = 12;
/// Kind of references.
pub const REFERENCE: u8 = 14;
/// Kind of pointers.
pub const POINTER: u8 = 15;

/// "False, true, null for low 0, 1, 2".
#[derive(Clone, Copy, Debug, PartialEq, Eq, Hash)]
#[repr(u8)]
pub enum Scalar {
    /// False.
    False = 0,
    /// True.
    True = 1,
    /// Null.
    Null = 2,
}

/// The low nibble that means that a number follows: "at low 15 a LEB128 number follows the header and n = 15 + that number".
pub(crate) const LONG: u8 = 15;

/// What follows the header and its number.
#[derive(Clone, Copy, Debug, PartialEq, Eq)]
pub(crate) enum Body {
    /// Nothing.
    None,
    /// "4 or 8 bytes, float bits, little endian", for low 0 and 1.
    Float,
    /// "n bytes".
    Bytes,
    /// "n immediates".
    Items,
    /// "2n immediates, key then value".
    Pairs,
    /// "one immediate".
    One,
    /// "an argument count in LEB128, then that many immediates".
    Arguments,
    /// Nothing; n is the distance of a target.
    Target,
}

/// One entry of the table: what a kind may hold.
#[derive(Clone, Copy, Debug)]
pub(crate) struct Kind {
    /// Low nibbles from this one on are reserved.
    pub reserved_from: u8,
    /// The bound of n.
    pub most: u64,
    /// What follows.
    pub body: Body,
    /// Whether it may be an item.
    pub immediate: bool,
}

/// "One constant table of sixteen entries says what each kind may hold", indexed by the high nibble.
pub(crate) static KINDS: [Kind; 16] = {
    const INTEGER: u64 = i64::MAX as u64;
    const INDEX: u64 = u32::MAX as u64;
    const fn kind(reserved_from: u8, most: u64, body: Body, immediate: bool) -> Kind {
        Kind { reserved_from, most, body, immediate }
    }
    [
        kind(3, 2, Body::None, true),
        kind(16, INTEGER, Body::None, true),
        kind(16, INTEGER, Body::None, true),
        kind(2, 1, Body::Float, true),
        kind(16, u64::MAX, Body::Bytes, true),
        kind(16, u64::MAX, Body::Bytes, true),
        kind(16, u64::MAX, Body::Items, false),
        kind(16, u64::MAX, Body::Pairs, false),
        kind(16, u64::MAX, Body::One, false),
        kind(0, 0, Body::None, false),
        kind(16, INDEX, Body::None, true),
        kind(16, INDEX, Body::One, false),
        kind(16, INDEX, Body::Arguments, false),
        kind(0, 0, Body::None, false),
        kind(16, u64::MAX, Body::Target, true),
        kind(16, u64::MAX, Body::Target, true),
    ]
};

/// What a header byte decides alone, so that checking a usual value takes one look into a table.
#[derive(Clone, Copy, Debug, PartialEq, Eq)]
#[repr(u8)]
pub(crate) enum Class {
    /// An immediate without a LEB128 number or a target. Its size is that of [`Header::size`], and it may be a text.
    Plain,
    /// An integer or a variant index with a LEB128 number and nothing after it.
    Number,
    /// A text whose length is a LEB128 number.
    LongText,
    /// A byte string whose length is a LEB128 number.
    LongBytes,
    /// A reference or pointer with a distance of at most 14.
    Near,
    /// A reference or pointer whose distance is a LEB128 number.
    Far,
    /// An array or a map. The number of items is that of [`Header::items`].
    Items,
    /// A tag or a variant of one, its tag or index at most 14.
    One,
    /// A variant of many, its index at most 14; the argument count follows.
    Arguments,
    /// All others, the reserved headers among them.
    Other,
}

/// An entry of [`HEADERS`].
#[derive(Clone, Copy, Debug)]
pub(crate) struct Header {
    /// How to go on.
    pub class: Class,
    /// The bytes of header and body, if the class is [`Class::Plain`].
    pub size: u8,
    /// The bytes of text after the header, if the class is [`Class::Plain`]: at most 14.
    pub text: u8,
    /// The number of items, if the class is [`Class::Items`].
    pub items: u8,
}

/// [`KINDS`] spread over all header bytes.
pub(crate) static HEADERS: [Header; 256] = {
    let mut headers = [header(0); 256];
    let mut byte = 0;
    while byte < 256 {
        headers[byte] = header(byte as u8);
        byte += 1;
    }
    headers
};

const fn header(byte: u8) -> Header {
    let (high, low) = (byte >> 4, byte & 15);
    let kind = &KINDS[high as usize];
    let long = low == LONG;
    let (class, size, items) = match kind.body {
        _ if low >= kind.reserved_from => (Class::Other, 0, 0),
        Body::None if long => (Class::Number, 0, 0),
        Body::None => (Class::Plain, 1, 0),
        Body::Float => (Class::Plain, 5 + 4 * low, 0),
        Body::Bytes if long && high == TEXT => (Class::LongText, 0, 0),
        Body::Bytes if long => (Class::LongBytes, 0, 0),
        Body::Bytes => (Class::Plain, 1 + low, 0),
        Body::Target if long => (Class::Far, 0, 0),
        Body::Target => (Class::Near, 0, 0),
        _ if long => (Class::Other, 0, 0),
        Body::Items => (Class::Items, 0, low),
        Body::Pairs => (Class::Items, 0, 2 * low),
        Body::One => (Class::One, 0, 0),
        Body::Arguments => (Class::Arguments, 0, 0),
    };
    let text = if high == TEXT && !long { low } else { 0 };
    Header { class, size, text, items }
}

#[cfg(test)]
mod tests {
    use super::*;

    #[test]
    fn the_immediates_are_those_of_the_table() {
        let immediates: Vec<usize> = (0..16).filter(|&kind| KINDS[kind].immediate).collect();
        assert_eq!(immediates, [0, 1, 2, 3, 4, 5, 10, 14, 15]);
    }

    #[test]
    fn reserved_headers() {
        let reserved = (0..=255u8).filter(|byte| byte & 15 >= KINDS[usize::from(byte >> 4)].reserved_from).count();
        assert_eq!(reserved, 13 + 14 + 16 + 16);
        assert_eq!(HEADERS[0x03].class, Class::Other);
        assert_eq!(HEADERS[0x32].class, Class::Other);
        assert_eq!(HEADERS[0x9f].class, Class::Other);
        assert_eq!(HEADERS[0xd0].class, Class::Other);
    }

    #[test]
    fn sizes_items_and_texts_of_headers() {
        assert_eq!(HEADERS[0x02].size, 1);
        assert_eq!(HEADERS[0x30].size, 5);
        assert_eq!(HEADERS[0x31].size, 9);
        assert_eq!(HEADERS[0x4e].size, 15);
        assert_eq!(HEADERS[0x50].size, 1);
        assert_eq!(HEADERS[0x6e].items, 14);
        assert_eq!(HEADERS[0x7e].items, 28);
        assert_eq!(HEADERS[0x4e].text, 14);
        assert_eq!(HEADERS[0x5e].text, 0);
    }
}
