//! Tokens: a header with its numbers and its body of bytes. The items of a value are tokens of their own.

use crate::error::{Error, ErrorKind};
use crate::kind::{Body, KINDS, LONG, POINTER, REFERENCE};
use crate::leb128::{self, Mode};

/// What a header and its numbers say.
#[derive(Clone, Copy, Debug, PartialEq, Eq)]
pub struct Token {
    /// The offset of the header.
    pub at: usize,
    /// The kind, which is the high nibble.
    pub kind: u8,
    /// "n = low below 15"; at low 15 "n = 15 + that number".
    pub n: u64,
    /// "Kinds 6, 7, 8, 11, 12 have n, 2n, 1, 1 and the argument count"; the others have none.
    pub items: u64,
    /// The offset after the numbers, where the body begins.
    pub first: usize,
    /// The offset after the body's bytes, where the items begin.
    pub end: usize,
}

impl Token {
    /// Whether it is a reference or a pointer.
    #[inline(always)]
    fn has_target(&self) -> bool {
        matches!(self.kind, REFERENCE | POINTER)
    }

    /// "A reference or pointer whose header is at q targets q - n - 1." None for other kinds, and if that is below 0.
    #[must_use]
    #[inline]
    pub fn target(&self) -> Option<usize> {
        let distance = usize::try_from(self.n).ok().filter(|_| self.has_target())?;
        self.at.checked_sub(distance)?.checked_sub(1)
    }

    /// Refuses a target below 0.
    #[inline(always)]
    fn judge_target(self) -> Result<Self, Error> {
        if self.has_target() && self.target().is_none() {
            Err(ErrorKind::BadTarget.at(self.at))
        } else {
            Ok(self)
        }
    }
}

/// Reads the token of a value.
///
/// The faults come in the order "RESERVED, NESTED, number (TRUNC, then RANGE of the tenth byte, OVERLONG, RANGE of n), the
/// second number of kind 12 likewise, TRUNC of the body", without `NESTED`, and "of a target only that it is not below 0".
/// `LONG_BODY` and `LONG_LIST` are in the place of TRUNC of the body, which is left to floats: "Order stays".
/// An `at` that is not in the region answers that an item is wanted there.
pub(crate) fn read(region: &[u8], mode: Mode, at: usize) -> Result<Token, Error> {
    parse(region, mode, at, false)?.judge_target()
}

/// Reads the token of an item, which is `NESTED` unless it is an immediate.
pub(crate) fn read_item(region: &[u8], mode: Mode, at: usize) -> Result<Token, Error> {
    parse(region, mode, at, true)?.judge_target()
}

#[inline(always)]
fn parse(region: &[u8], mode: Mode, at: usize, item: bool) -> Result<Token, Error> {
    let Some(&header) = region.get(at) else {
        return Err(ErrorKind::Trunc.at(region.len()));
    };
    let mut after_numbers = at;
    decide(region, mode, at, header, item, &mut after_numbers).map_err(|kind| match kind {
        // "The place for both becomes the offset just after the numbers."
        ErrorKind::LongBody | ErrorKind::LongList => kind.at(after_numbers),
        _ => kind.at(at),
    })
}

/// Decides on a token without its place, and leaves where its numbers end, if they are without fault.
#[inline(always)]
fn decide(region: &[u8], mode: Mode, at: usize, header: u8, item: bool, after_numbers: &mut usize) -> Result<Token, ErrorKind> {
    let (high, low) = (header >> 4, header & 15);
    let kind = &KINDS[usize::from(high)];
    if low >= kind.reserved_from {
        return Err(ErrorKind::Reserved);
    }
    if item && !kind.immediate {
        return Err(ErrorKind::Nested);
    }
    let (n, after) = number(region, mode, at, low, kind.most)?;
    let (first, second) = match kind.body {
        Body::Arguments => {
            let (count, end) = leb128::read(region, mode, after)?;
            (end, count)
        }
        _ => (after, 0),
    };
    *after_numbers = first;
    // The bytes left; a body of bytes or a count is compared with them before it is used.
    let left = (region.len() - first) as u64;
    let (bytes, items) = match kind.body {
        Body::None | Body::Target => (0, 0),
        Body::Float => (if low == 0 { 4 } else { 8 }, 0),
        Body::Bytes => (n, 0),
        Body::Items if n > left => return Err(ErrorKind::LongList),
        Body::Items => (0, n),
        Body::Pairs if n > left / 2 => return Err(ErrorKind::LongList),
        Body::Pairs => (0, 2 * n),
        Body::One => (0, 1),
        Body::Arguments if second > left => return Err(ErrorKind::LongList),
        Body::Arguments => (0, second),
    };
    if bytes > left {
        return Err(if kind.body == Body::Float { ErrorKind::Trunc } else { ErrorKind::LongBody });
    }
    Ok(Token { at, kind: high, n, items, first, end: first + bytes as usize })
}

/// The number of a header at `at`, and the offset after it.
#[inline(always)]
fn number(region: &[u8], mode: Mode, at: usize, low: u8, most: u64) -> Result<(u64, usize), ErrorKind> {
    if low < LONG {
        return Ok((u64::from(low), at + 1));
    }
    let (rest, end) = leb128::read(region, mode, at + 1)?;
    match rest.checked_add(u64::from(LONG)) {
        Some(n) if n <= most => Ok((n, end)),
        _ => Err(ErrorKind::Range),
    }
}

/// The tokens of a region from left to right, those of values and of items, up to the first fault.
///
/// The region is one without the delta byte. Neither texts nor targets are looked at.
pub fn tokens(region: &[u8], mode: Mode) -> impl Iterator<Item = Result<Token, Error>> + '_ {
    let mut next = Some((0, 0));
    std::iter::from_fn(move || {
        let (at, pending) = next.take()?;
        if at == region.len() && pending == 0 {
            return None;
        }
        let token = parse(region, mode, at, pending > 0);
        if let Ok(token) = token {
            let pending = if pending == 0 { token.items } else { pending - 1 };
            next = Some((token.end, pending));
        }
        Some(token)
    })
}

#[cfg(test)]
mod tests {
    use super::*;
    use crate::leb128::Mode::{Strict, Tolerant};
    use crate::leb128::MOST;
    use crate::testing::in_both;

    /// The tokens of a region in both modes, see [`in_both`].
    fn read_all(region: &[u8]) -> Result<Vec<Token>, Error> {
        in_both(|mode| tokens(region, mode).collect())
    }

    fn kinds_and_ends(region: &[u8]) -> Result<Vec<(u8, u64, usize)>, Error> {
        Ok(read_all(region)?.into_iter().map(|token| (token.kind, token.n, token.end)).collect())
    }

    fn fault(region: &[u8]) -> Option<Error> {
        read_all(region).err()
    }

    #[test]
    fn rows_of_document_000() {
        assert_eq!(kinds_and_ends(&[0x1f, 0x1b]), Ok(vec![(1, 42, 2)]));
        assert_eq!(kinds_and_ends(&[0x21]), Ok(vec![(2, 1, 1)]));
        assert_eq!(kinds_and_ends(&[0x2f, 0x0b]), Ok(vec![(2, 26, 2)]));
        assert_eq!(
            kinds_and_ends(&[0x61, 0x1f, 0x1b, 0x64, 0xf3, 0x11, 0x12, 0x13]),
            Ok(vec![(6, 1, 1), (1, 42, 3), (6, 4, 4), (15, 3, 5), (1, 1, 6), (1, 2, 7), (1, 3, 8)])
        );
        assert_eq!(
            kinds_and_ends(&[0x72, 0x41, 0x61, 0x1f, 0x1b, 0x41, 0x62, 0x00]),
            Ok(vec![(7, 2, 1), (4, 1, 3), (1, 42, 5), (4, 1, 7), (0, 0, 8)])
        );
    }

    #[test]
    fn an_item_wanted_at_the_end() {
        assert_eq!(fault(&[0x80]), Some(ErrorKind::Trunc.at(1)));
        assert_eq!(fault(&[0xb0]), Some(ErrorKind::Trunc.at(1)));
        assert_eq!(fault(&[0x62, 0x41, 0x61]), Some(ErrorKind::Trunc.at(3)));
    }

    #[test]
    fn counts_against_the_bytes_left() {
        assert_eq!(fault(&[0x63, 0x90, 0x90]), Some(ErrorKind::LongList.at(1)));
        assert_eq!(fault(&[0x71, 0x10, 0x11, 0x12]), None);
        assert_eq!(fault(&[0x72, 0x10, 0x11, 0x12]), Some(ErrorKind::LongList.at(1)));
        assert_eq!(fault(&[0xc1, 0x02, 0x10]), Some(ErrorKind::LongList.at(2)));
        assert_eq!(fault(&[0x61, 0x45, 0x61]), Some(ErrorKind::LongBody.at(2)));
        assert_eq!(fault(&[0x52, 0x61]), Some(ErrorKind::LongBody.at(1)));
    }

    #[test]
    fn cut_floats() {
        for (header, size) in [(0x30, 4), (0x31, 8)] {
            let mut region = vec![header];
            for _ in 0..size {
                assert_eq!(fault(&region), Some(ErrorKind::Trunc.at(0)));
                region.push(0xff);
            }
            assert_eq!(fault(&region), None);
        }
        assert_eq!(fault(&[0x61, 0x31, 0, 0]), Some(ErrorKind::Trunc.at(1)));
    }

    /// A header with low 15 and its number, to which 15 is still to be added: n may be over 2^64-1.
    fn long(kind: u8, rest: u64) -> Vec<u8> {
        long_in(kind, rest, leb128::size(rest))
    }

    /// The same with a number of `size` bytes.
    fn long_in(kind: u8, rest: u64, size: usize) -> Vec<u8> {
        let mut bytes = vec![kind << 4 | 15];
        append_in(&mut bytes, rest, size);
        bytes
    }

    /// Appends a LEB128 number.
    fn append(bytes: &mut Vec<u8>, number: u64) {
        append_in(bytes, number, leb128::size(number));
    }

    /// Appends a LEB128 number of `size` bytes.
    fn append_in(bytes: &mut Vec<u8>, number: u64, size: usize) {
        let from = bytes.len();
        bytes.resize(from + size, 0);
        leb128::write(&mut bytes[from..], number);
    }

    /// Each of these pair counts, doubled in 64 bits, is 0, a little over 0 or a little below 2^64.
    #[test]
    fn pair_counts_that_double_past_two_to_the_64() {
        for pairs in [1 << 62, (1 << 62) + 1, (1 << 63) - 1, 1 << 63, (1 << 63) + 1, u64::MAX - 1, u64::MAX] {
            let mut region = long(7, pairs - 15);
            let first = region.len();
            for left in 0..6 {
                assert_eq!(fault(&region), Some(ErrorKind::LongList.at(first)), "{pairs} pairs, {left} bytes left");
                region.push(0x10);
            }
        }
    }

    /// A length and a count of exactly the bytes left, of one more, and of the greatest numbers, after numbers of one to ten
    /// bytes. The bytes left are small values, so that what is accepted ends with them.
    #[test]
    fn lengths_and_counts_after_long_numbers() {
        for left in [0, 1, 2, 3, 15, 16, 17, 142, 143, 144, 150] {
            let numbers = [left - 1, left, left + 1, left / 2, left / 2 + 1, 14, 15, 1 << 31, 1 << 32, u64::MAX as i128];
            for n in numbers.into_iter().filter(|n| *n >= 0) {
                for kind in [4, 5, 6, 7] {
                    let mut region = if n < 15 { vec![kind << 4 | n as u8] } else { long(kind, n as u64 - 15) };
                    let first = region.len();
                    region.resize(first + left as usize, 0x10);
                    let (error, is_long) = match kind {
                        4 | 5 => (ErrorKind::LongBody, n > left),
                        6 => (ErrorKind::LongList, n > left),
                        _ => (ErrorKind::LongList, 2 * n > left),
                    };
                    let expected = is_long.then(|| error.at(first));
                    assert_eq!(fault(&region), expected, "kind {kind}, number {n}, {left} bytes left");
                }
                for index in [0, 14, 15, 142, 143, u64::from(u32::MAX)] {
                    let mut region = if index < 15 { vec![0xc0 | index as u8] } else { long(12, index - 15) };
                    append(&mut region, n as u64);
                    let first = region.len();
                    region.resize(first + left as usize, 0x10);
                    let expected = (n > left).then(|| ErrorKind::LongList.at(first));
                    assert_eq!(fault(&region), expected, "variant {index}, {n} arguments, {left} bytes left");
                }
            }
        }
    }

    #[test]
    fn an_item_has_the_place_after_its_own_numbers() {
        for (holder, before) in [(&[0x61][..], 1), (&[0x71], 1), (&[0x80], 1), (&[0xb0], 1), (&[0xc0, 0x01], 2)] {
            for kind in [4, 5] {
                let mut region = holder.to_vec();
                region.extend(long(kind, 200));
                let first = region.len();
                assert_eq!(first, before + 3);
                region.extend([0x61; 214]);
                assert_eq!(fault(&region), Some(ErrorKind::LongBody.at(first)), "kind {kind} in {holder:x?}");
                region.push(0x61);
                // A map's value is still wanted.
                let expected = (holder[0] == 0x71).then(|| ErrorKind::Trunc.at(first + 215));
                assert_eq!(fault(&region), expected, "kind {kind} in {holder:x?}");
            }
        }
    }

    #[test]
    fn bounds_of_n() {
        let range = Some(ErrorKind::Range.at(0));
        for kind in [1, 2] {
            assert_eq!(fault(&long(kind, (1 << 63) - 16)), None);
            assert_eq!(fault(&long(kind, (1 << 63) - 15)), range);
        }
        assert_eq!(fault(&long(10, (1 << 32) - 16)), None);
        for kind in [10, 11, 12] {
            assert_eq!(fault(&long(kind, (1 << 32) - 15)), range);
        }
        for (kind, error) in
            [(4, ErrorKind::LongBody), (5, ErrorKind::LongBody), (6, ErrorKind::LongList), (7, ErrorKind::LongList)]
        {
            assert_eq!(fault(&long(kind, u64::MAX - 15)), Some(error.at(11)));
            assert_eq!(fault(&long(kind, u64::MAX - 14)), range);
            assert_eq!(fault(&long(kind, u64::MAX)), range);
        }
        for kind in [14, 15] {
            let below = long(kind, u64::MAX - 15);
            assert_eq!(fault(&below), None);
            assert_eq!(read(&below, Strict, 0), Err(ErrorKind::BadTarget.at(0)));
            assert_eq!(fault(&long(kind, u64::MAX - 14)), range);
        }
        assert_eq!(fault(&long(8, u64::MAX - 15)), Some(ErrorKind::Trunc.at(11)));
        assert_eq!(fault(&long(8, u64::MAX - 14)), range);
    }

    /// RANGE of the index, then the count's own faults, then the count against the bytes left.
    #[test]
    fn the_two_numbers_of_a_variant_of_many() {
        let mut most = long(12, u64::from(u32::MAX) - 15);
        assert_eq!(fault(&most), Some(ErrorKind::Trunc.at(0)), "the count is cut");
        append(&mut most, u64::MAX);
        assert_eq!(most.len(), 1 + 5 + 10);
        assert_eq!(fault(&most), Some(ErrorKind::LongList.at(16)), "at the region's end");
        let mut over = most.clone();
        over[15] = 2;
        assert_eq!(fault(&over), Some(ErrorKind::Range.at(0)), "the count's tenth byte");
        for cut in 1..16 {
            assert_eq!(fault(&most[..cut]), Some(ErrorKind::Trunc.at(0)), "{cut} bytes");
        }
        let mut over = long(12, u64::from(u32::MAX) - 14);
        append(&mut over, u64::MAX);
        assert_eq!(fault(&over), Some(ErrorKind::Range.at(0)), "the index");
    }

    #[test]
    fn the_argument_count_is_a_bare_number() {
        let mut region = vec![0xc0, 0x0f];
        region.extend([0x10; 15]);
        assert_eq!(read_all(&region).map(|tokens| tokens.len()), Ok(16));
        assert_eq!(fault(&[0xc0, 0x80, 0x00]), Some(ErrorKind::Overlong.at(0)));
        assert_eq!(fault(&[0xc3]), Some(ErrorKind::Trunc.at(0)));
    }

    #[test]
    fn reserved_before_nested_before_the_number() {
        assert_eq!(fault(&[0x61, 0x90]), Some(ErrorKind::Reserved.at(1)));
        assert_eq!(fault(&[0x61, 0x6f]), Some(ErrorKind::Nested.at(1)));
        assert_eq!(fault(&[0x6f]), Some(ErrorKind::Trunc.at(0)));
    }

    #[test]
    fn targets_below_zero() {
        assert_eq!(read(&[0xf0], Strict, 0), Err(ErrorKind::BadTarget.at(0)));
        assert_eq!(read(&[0x10, 0xe1], Strict, 1), Err(ErrorKind::BadTarget.at(1)));
        let target = read(&[0x10, 0xe0], Strict, 1).map(|token| token.target());
        assert_eq!(target, Ok(Some(0)));
        assert_eq!(fault(&[0xf0]), None, "tokens do not tell targets");
    }

    /// The first token of a region in the tolerant mode.
    fn tolerant(region: &[u8]) -> Result<Token, Error> {
        tokens(region, Tolerant).next().expect("a region of some bytes")
    }

    /// A number of every kind that has one, in every number of bytes. What comes after it is as after the shortest form.
    #[test]
    fn padded_numbers_of_every_kind() {
        for kind in [1, 2, 4, 5, 6, 7, 8, 10, 11, 12, 14, 15] {
            for rest in [0, 1, 127, 128, 300, 1 << 31, 1 << 32, i64::MAX as u64, 1 << 63, u64::MAX] {
                // A count of no arguments, if it is a variant of many.
                let after = [0; 700];
                let shortest = [&long(kind, rest)[..], &after].concat();
                let expected = tolerant(&shortest);
                assert_eq!(expected, tokens(&shortest, Strict).next().expect("a token"));
                for size in leb128::size(rest) + 1..=MOST {
                    let padded = [&long_in(kind, rest, size)[..], &after].concat();
                    assert_eq!(fault(&padded), Some(ErrorKind::Overlong.at(0)));
                    let more = size - leb128::size(rest);
                    let expected = match expected {
                        Ok(token) => Ok(Token { first: token.first + more, end: token.end + more, ..token }),
                        Err(Error { kind, place: 0 }) => Err(kind.at(0)),
                        Err(Error { kind, place }) => Err(kind.at(place as usize + more)),
                    };
                    assert_eq!(tolerant(&padded), expected, "kind {kind}, number {rest} in {size} bytes");
                }
            }
        }
    }

    #[test]
    fn both_numbers_of_a_variant_of_many_may_be_padded() {
        for (index_size, count_size) in (1..=MOST).flat_map(|size| (1..=MOST).map(move |other| (size, other))) {
            let mut region = long_in(12, 3, index_size);
            append_in(&mut region, 2, count_size);
            let first = region.len();
            region.extend([0x10, 0x11]);
            let token = Token { at: 0, kind: 12, n: 18, items: 2, first, end: first };
            assert_eq!(tolerant(&region), Ok(token));
            let expected = (index_size > 1 || count_size > 1).then(|| ErrorKind::Overlong.at(0));
            assert_eq!(fault(&region), expected, "{index_size} and {count_size} bytes");
            // The tenth byte of either.
            for (size, last) in [(index_size, index_size), (count_size, first - 1)] {
                let mut over = region.clone();
                over[last] = 2;
                assert!(size < MOST || tolerant(&over) == Err(ErrorKind::Range.at(0)), "{over:x?}");
            }
        }
    }

    #[test]
    fn padded_distances_and_their_targets() {
        for kind in [14, 15] {
            for size in 1..=MOST {
                for (before, target) in [(15, None), (16, Some(0)), (19, Some(3))] {
                    let region = [vec![0x10; before], long_in(kind, 0, size)].concat();
                    let token = read(&region, Tolerant, before);
                    match target {
                        None => assert_eq!(token, Err(ErrorKind::BadTarget.at(before))),
                        Some(_) => assert_eq!(token.map(|token| (token.target(), token.end)), Ok((target, region.len()))),
                    }
                }
            }
        }
    }
}
