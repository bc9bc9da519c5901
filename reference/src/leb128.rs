//! Numbers in LEB128: "seven bits a byte, lowest first, high bit set on all but the last."

use crate::error::ErrorKind;

/// How numbers are read: a "manner, chosen by the caller".
#[derive(Clone, Copy, Debug, PartialEq, Eq, Hash)]
pub enum Mode {
    /// "Shortest form only": a padded number, one whose last byte is 0 and not the first, is OVERLONG.
    Strict,
    /// "OVERLONG isn't given; ten bytes and RANGE stay."
    Tolerant,
}

impl Mode {
    /// Both modes.
    pub const ALL: [Self; 2] = [Self::Strict, Self::Tolerant];
}

/// The most bytes of a number.
pub(crate) const MOST: usize = 10;

/// The high bits of four bytes: set on those that another byte follows.
const MORE: u32 = 0x8080_8080;

/// Reads the number at `at`; returns it and the offset after it.
///
/// The faults come in the order "TRUNC, then RANGE of the tenth byte, OVERLONG", the last in the strict mode alone.
#[inline]
pub(crate) fn read(region: &[u8], mode: Mode, at: usize) -> Result<(u64, usize), ErrorKind> {
    match read_short(region, at) {
        Some((number, end)) => Ok((u64::from(number), end)),
        None => read_long(region, mode, at),
    }
}

/// Reads a number of one to four bytes at one go, if it is in its shortest form and four bytes of the region are left.
#[inline(always)]
pub(crate) fn read_short(region: &[u8], at: usize) -> Option<(u32, usize)> {
    let bytes = region.get(at..)?.first_chunk::<4>()?;
    let word = u32::from_le_bytes(*bytes);
    if word & 0x80 == 0 {
        return Some((word & 0x7f, at + 1));
    }
    let last = !word & MORE;
    if last == 0 {
        return None;
    }
    // The bits of the number's own bytes: 16, 24 or 32 of them.
    let bits = last.trailing_zeros() + 1;
    let own = word & (u32::MAX >> (32 - bits));
    if own >> (bits - 8) == 0 {
        return None;
    }
    let number = own & 0x7f | (own & 0x7f00) >> 1 | (own & 0x007f_0000) >> 2 | (own & 0x7f00_0000) >> 3;
    Some((number, at + bits as usize / 8))
}

/// Reads a number of any length, byte by byte: at most ten are ever wanted.
#[cold]
fn read_long(region: &[u8], mode: Mode, at: usize) -> Result<(u64, usize), ErrorKind> {
    let mut number = 0;
    for index in 0..MOST - 1 {
        let byte = *region.get(at + index).ok_or(ErrorKind::Trunc)?;
        number |= u64::from(byte & 0x7f) << (7 * index);
        if byte == 0 && index > 0 && mode == Mode::Strict {
            return Err(ErrorKind::Overlong);
        }
        if byte < 0x80 {
            return Ok((number, at + index + 1));
        }
    }
    match region.get(at + MOST - 1) {
        None => Err(ErrorKind::Trunc),
        Some(2..) => Err(ErrorKind::Range),
        Some(0) if mode == Mode::Strict => Err(ErrorKind::Overlong),
        Some(&tenth) => Ok((number | u64::from(tenth) << 63, at + MOST)),
    }
}

/// The bytes of a number in its shortest form: "told beforehand from its leading zeros".
#[inline(always)]
pub(crate) const fn size(number: u64) -> usize {
    (70 - (number | 1).leading_zeros() as usize) / 7
}

/// Writes a number into `out`, which has as many bytes as [`size`] returns; in more of them, up to ten, the number is padded.
#[inline(always)]
pub(crate) fn write(out: &mut [u8], number: u64) {
    let byte = |index: u32| (number >> (7 * index)) as u8;
    match out {
        [a] => *a = byte(0),
        [a, b] => {
            *a = byte(0) | 0x80;
            *b = byte(1);
        }
        [a, b, c] => {
            *a = byte(0) | 0x80;
            *b = byte(1) | 0x80;
            *c = byte(2);
        }
        [a, b, c, d] => {
            *a = byte(0) | 0x80;
            *b = byte(1) | 0x80;
            *c = byte(2) | 0x80;
            *d = byte(3);
        }
        _ => write_long(out, number),
    }
}

#[cold]
fn write_long(out: &mut [u8], mut number: u64) {
    let Some((last, others)) = out.split_last_mut() else {
        return;
    };
    for byte in others {
        *byte = number as u8 | 0x80;
        number >>= 7;
    }
    *last = number as u8;
}

#[cfg(test)]
mod tests {
    use super::Mode::{Strict, Tolerant};
    use super::*;
    use crate::testing::in_both;

    fn written(number: u64, size: usize) -> Vec<u8> {
        let mut out = vec![0xaa; size];
        write(&mut out, number);
        out
    }

    /// Numbers around each change of size.
    fn numbers() -> impl Iterator<Item = u64> {
        (0..64)
            .flat_map(|bit| {
                let power = 1u64 << bit;
                [power - 1, power, power + 1]
            })
            .chain([u64::MAX - 1, u64::MAX])
    }

    /// Reads the bytes at the region's end, before other bytes, and after a header.
    fn assert_read(mode: Mode, bytes: &[u8], expected: Result<(u64, usize), ErrorKind>) {
        assert_eq!(read(bytes, mode, 0), expected, "{bytes:x?} at the region's end, {mode:?}");
        for after in [0x00, 0x10, 0xff] {
            let region = [bytes, &[after; 4]].concat();
            assert_eq!(read(&region, mode, 0), expected, "{region:x?}, {mode:?}");
        }
        let region = [&[0x1f], bytes].concat();
        let expected = expected.map(|(number, end)| (number, end + 1));
        assert_eq!(read(&region, mode, 1), expected, "{region:x?} after the header, {mode:?}");
    }

    #[test]
    fn what_is_written_is_read_in_both_modes() {
        for number in numbers() {
            let size = size(number);
            for mode in Mode::ALL {
                assert_read(mode, &written(number, size), Ok((number, size)));
            }
        }
    }

    #[test]
    fn a_padded_number_is_overlong_or_the_number() {
        for number in numbers() {
            for size in size(number) + 1..=MOST {
                let bytes = written(number, size);
                assert_eq!(bytes.last(), Some(&0));
                assert_read(Strict, &bytes, Err(ErrorKind::Overlong));
                assert_read(Tolerant, &bytes, Ok((number, size)));
            }
        }
    }

    #[test]
    fn sizes() {
        for number in numbers() {
            let bits = (64 - number.leading_zeros()).max(1) as usize;
            assert_eq!(size(number), bits.div_ceil(7));
        }
        assert_eq!(size(u64::MAX), MOST);
    }

    #[test]
    fn a_cut_number() {
        for number in numbers() {
            for size in size(number)..=MOST {
                let bytes = written(number, size);
                for cut in 0..size {
                    for mode in Mode::ALL {
                        assert_eq!(read(&bytes[..cut], mode, 0), Err(ErrorKind::Trunc));
                    }
                }
            }
        }
    }

    #[test]
    fn tenth_bytes() {
        for nine in [0x80, 0xff, 0xaa] {
            let low = (0..9).fold(0, |number, _| number << 7 | u64::from(nine & 0x7f));
            let number = |tenth: u8| [&[nine; 9][..], &[tenth]].concat();
            assert_read(Strict, &number(0), Err(ErrorKind::Overlong));
            assert_read(Tolerant, &number(0), Ok((low, 10)));
            for mode in Mode::ALL {
                assert_read(mode, &number(1), Ok((low | 1 << 63, 10)));
                for tenth in 2..=255 {
                    assert_read(mode, &number(tenth), Err(ErrorKind::Range));
                }
                assert_eq!(read(&[nine; 9], mode, 0), Err(ErrorKind::Trunc), "no tenth byte");
            }
        }
        // An eleventh byte is never wanted.
        for last in [0x00, 0x01, 0x7f, 0x80] {
            let bytes = [&[0x80; 10][..], &[last]].concat();
            for mode in Mode::ALL {
                assert_read(mode, &bytes, Err(ErrorKind::Range));
            }
        }
    }

    /// All bytes that are made of a few, which end numbers, pad them or are too great for a tenth.
    #[test]
    fn only_overlong_divides_the_modes() {
        let choice = [0x00, 0x01, 0x02, 0x80, 0xff];
        for length in 0..=11_u32 {
            // Up to six bytes vary; those in front go on.
            let vary = length.min(6);
            for case in 0..(choice.len() as u32).pow(vary) {
                let mut bytes = vec![0x81; length as usize];
                for index in 0..vary {
                    let digit = case / (choice.len() as u32).pow(index) % choice.len() as u32;
                    bytes[(length - 1 - index) as usize] = choice[digit as usize];
                }
                let _ = in_both(|mode| read(&bytes, mode, 0).map_err(|kind| kind.at(0)));
            }
        }
    }
}
