//! The rule of texts: "bytes 00-7F alone; lead C2-DF with one, E0-EF with two, F0-F4 with three bytes from 80-BF; all else is
//! `BAD_TEXT`"; and by W-202 "RFC 3629 also narrows the second byte: A0-BF after E0, 80-9F after ED, 90-BF after F0, 80-8F after
//! F4." Together they are section 4 of the RFC:
//!
//! ```text
//! UTF8-octets = *( UTF8-char )
//! UTF8-char   = UTF8-1 / UTF8-2 / UTF8-3 / UTF8-4
//! UTF8-1      = %x00-7F
//! UTF8-2      = %xC2-DF UTF8-tail
//! UTF8-3      = %xE0 %xA0-BF UTF8-tail / %xE1-EC 2( UTF8-tail ) /
//!               %xED %x80-9F UTF8-tail / %xEE-EF 2( UTF8-tail )
//! UTF8-4      = %xF0 %x90-BF 2( UTF8-tail ) / %xF1-F3 3( UTF8-tail ) /
//!               %xF4 %x80-8F 2( UTF8-tail )
//! UTF8-tail   = %x80-BF
//! ```

/// The high bits of eight bytes.
const HIGH: u64 = 0x8080_8080_8080_8080;

/// Whether bytes are a text.
#[inline]
pub(crate) fn is_text(bytes: &[u8]) -> bool {
    is_plain(bytes) || is_mixed(bytes)
}

/// The high bits of the first bytes of sixteen, by the number of those.
static FIRST: [u128; 16] = {
    let mut first = [0; 16];
    let mut length = 1;
    while length < 16 {
        first[length] = first[length - 1] << 8 | 0x80;
        length += 1;
    }
    first
};

/// Whether the first `length` of sixteen bytes are below 80; they are less than sixteen.
#[inline(always)]
pub(crate) fn begins_plain(bytes: &[u8; 16], length: u8) -> bool {
    u128::from_le_bytes(*bytes) & FIRST[usize::from(length % 16)] == 0
}

/// Whether all bytes are below 80, the last ones by a look that overlaps the one before.
#[inline(always)]
fn is_plain(bytes: &[u8]) -> bool {
    match (bytes.first_chunk::<8>(), bytes.last_chunk::<8>()) {
        (Some(first), Some(last)) => {
            let (chunks, _) = bytes[8..].as_chunks::<8>();
            let ends = u64::from_le_bytes(*first) | u64::from_le_bytes(*last);
            let all = chunks.iter().fold(ends, |all, chunk| all | u64::from_le_bytes(*chunk));
            all & HIGH == 0
        }
        _ => match (bytes.first_chunk::<4>(), bytes.last_chunk::<4>()) {
            (Some(first), Some(last)) => (u32::from_le_bytes(*first) | u32::from_le_bytes(*last)) & HIGH as u32 == 0,
            _ => bytes.iter().fold(0, |all, byte| all | byte) < 0x80,
        },
    }
}

/// Whether bytes are a text, character by character, eight plain ones at a time.
#[inline(never)]
fn is_mixed(bytes: &[u8]) -> bool {
    let mut rest = bytes;
    loop {
        while let Some((chunk, tail)) = rest.split_first_chunk::<8>() {
            if u64::from_le_bytes(*chunk) & HIGH != 0 {
                break;
            }
            rest = tail;
        }
        rest = match rest {
            [] => return true,
            // UTF8-1
            [0x00..=0x7f, tail @ ..] => tail,
            // UTF8-2
            [0xc2..=0xdf, 0x80..=0xbf, tail @ ..] => tail,
            // UTF8-3, the wide ranges first
            [0xe1..=0xec | 0xee..=0xef, 0x80..=0xbf, 0x80..=0xbf, tail @ ..]
            | [0xe0, 0xa0..=0xbf, 0x80..=0xbf, tail @ ..]
            | [0xed, 0x80..=0x9f, 0x80..=0xbf, tail @ ..] => tail,
            // UTF8-4, likewise
            [0xf1..=0xf3, 0x80..=0xbf, 0x80..=0xbf, 0x80..=0xbf, tail @ ..]
            | [0xf0, 0x90..=0xbf, 0x80..=0xbf, 0x80..=0xbf, tail @ ..]
            | [0xf4, 0x80..=0x8f, 0x80..=0xbf, 0x80..=0xbf, tail @ ..] => tail,
            _ => return false,
        };
    }
}

#[cfg(test)]
mod tests {
    use super::*;
    use crate::testing::{border_bytes, hex};

    /// Characters of two to four bytes: the first and the last of each lead range, and of each lead whose second byte is narrowed.
    const CHARACTERS: [&str; 16] = [
        "c2 80",
        "df bf",
        "e0 a0 80",
        "e0 bf bf",
        "e1 80 80",
        "ec bf bf",
        "ed 80 80",
        "ed 9f bf",
        "ee 80 80",
        "ef bf bf",
        "f0 90 80 80",
        "f0 bf bf bf",
        "f1 80 80 80",
        "f3 bf bf bf",
        "f4 80 80 80",
        "f4 8f bf bf",
    ];

    /// What is not a character: long forms, surrogates, numbers over 10FFFF, bytes that begin none, and a plain byte inside.
    const NOT_CHARACTERS: [&str; 19] = [
        "c0 80",
        "c1 bf",
        "e0 80 80",
        "e0 9f bf",
        "f0 80 80 80",
        "f0 8f bf bf",
        "ed a0 80",
        "ed af bf",
        "ed b0 80",
        "ed bf bf",
        "f4 90 80 80",
        "f4 bf bf bf",
        "f5 80 80 80",
        "80",
        "bf",
        "ff",
        "c2 7f",
        "ef bf 7f",
        "f4 8f bf 7f",
    ];

    /// The rule once more, by character numbers (section 3 of the RFC): the octets of a row of its table hold a number that is in
    /// the row's range, and not "between U+D800 and U+DFFF".
    fn by_numbers(bytes: &[u8]) -> bool {
        let mut rest = bytes;
        while let [lead, ..] = *rest {
            let ones = lead.leading_ones();
            let (octets, least, greatest) = match ones {
                0 => (1, 0x00, 0x7f),
                2 => (2, 0x80, 0x7ff),
                3 => (3, 0x800, 0xffff),
                4 => (4, 0x1_0000, 0x10_ffff),
                _ => return false,
            };
            if rest.len() < octets {
                return false;
            }
            let mut number = u32::from(lead & (0x7f >> ones));
            for &octet in &rest[1..octets] {
                if octet >> 6 != 0b10 {
                    return false;
                }
                number = number << 6 | u32::from(octet & 0x3f);
            }
            if number < least || number > greatest || matches!(number, 0xd800..=0xdfff) {
                return false;
            }
            rest = &rest[octets..];
        }
        true
    }

    /// A number in that many octets, by the bits that the table of section 3 has for it, be it of their row or not.
    fn in_octets(number: u32, octets: u32) -> Vec<u8> {
        let bits = |octet: u32| (number >> (6 * (octets - octet))) as u8;
        let ones = [0, 0, 0b1100_0000, 0b1110_0000, 0b1111_0000][octets as usize];
        std::iter::once(ones | bits(1)).chain((2..=octets).map(|octet| 0x80 | bits(octet) & 0x3f)).collect()
    }

    /// Compares the rule with the one by numbers and with Rust's own.
    fn compare(bytes: &[u8]) {
        let is_text = is_text(bytes);
        assert_eq!(is_text, by_numbers(bytes), "{bytes:x?}");
        assert_eq!(is_text, std::str::from_utf8(bytes).is_ok(), "{bytes:x?}");
    }

    #[test]
    fn every_sequence_of_up_to_three_bytes() {
        compare(&[]);
        for a in 0..=255 {
            compare(&[a]);
            for b in 0..=255 {
                compare(&[a, b]);
                for c in 0..=255 {
                    compare(&[a, b, c]);
                }
            }
        }
    }

    #[test]
    fn four_bytes_each_at_a_border() {
        let bytes = border_bytes();
        for &a in &bytes {
            for &b in &bytes {
                for &c in &bytes {
                    for &d in &bytes {
                        compare(&[a, b, c, d]);
                    }
                }
            }
        }
    }

    #[test]
    fn every_number_in_every_row() {
        for (octets, least, all) in [(1, 0, 0x80), (2, 0x80, 0x800), (3, 0x800, 0x1_0000), (4, 0x1_0000, 0x20_0000)] {
            for number in 0..all {
                let is_character = number <= 0x10_ffff && !(0xd800..=0xdfff).contains(&number);
                let bytes = in_octets(number, octets);
                assert_eq!(is_text(&bytes), is_character && number >= least, "{number:x}: {bytes:x?}");
            }
        }
    }

    #[test]
    fn a_byte_anywhere_in_a_plain_text() {
        for length in 0..40 {
            let mut bytes = vec![b'a'; length];
            assert!(is_text(&bytes));
            for place in 0..length {
                for byte in [0x80, 0xc3, 0xff] {
                    bytes[place] = byte;
                    assert!(!is_text(&bytes));
                }
                bytes[place] = b'a';
            }
        }
    }

    #[test]
    fn the_first_of_sixteen_bytes() {
        for place in 0..16 {
            let mut bytes = [0x7f; 16];
            bytes[place] = 0x80;
            for length in 0..16 {
                assert_eq!(begins_plain(&bytes, length), usize::from(length) <= place);
            }
        }
    }

    /// Whether bytes are a text with up to 19 characters, plain ones or not, on each side: in every such place, or in none.
    fn is_text_anywhere(bytes: &[u8]) -> bool {
        let mut answers = Vec::new();
        for around in ["a", "\u{e4}"] {
            for before in 0..20 {
                for after in 0..20 {
                    let [before, after] = [before, after].map(|length| around.repeat(length).into_bytes());
                    answers.push(is_text(&[&before, bytes, &after].concat()));
                }
            }
        }
        answers.dedup();
        assert_eq!(answers.len(), 1, "{bytes:x?}");
        answers[0]
    }

    #[test]
    fn characters_of_each_size_anywhere() {
        for character in CHARACTERS.map(hex) {
            assert!(is_text_anywhere(&character), "{character:x?}");
            for cut in 1..character.len() {
                let (first, last) = character.split_at(cut);
                assert!(!is_text_anywhere(first), "{first:x?}");
                assert!(!is_text_anywhere(last), "{last:x?}");
            }
        }
    }

    #[test]
    fn what_is_not_a_character_anywhere() {
        for bytes in NOT_CHARACTERS.map(hex) {
            assert!(!is_text_anywhere(&bytes), "{bytes:x?}");
        }
    }
}
