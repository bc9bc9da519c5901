//! Checking a file.

use crate::error::Error;
use crate::leb128::Mode;
use crate::scan::{scan, Checked, Note};

/// Checks a file: the count of its values and its entry, or the first fault.
///
/// "Accepted: count, entry, the starts in rising order, every other word 0. Refused: every word 0."
pub fn check(file: &[u8], mode: Mode, starts: &mut [u32]) -> Result<Checked, Error> {
    let answer = scan(file, mode, starts, &mut Nothing);
    let used = answer.map_or(0, |checked| checked.count);
    starts[used..].fill(0);
    answer
}

/// Check notes nothing besides the starts.
struct Nothing;

impl Note for Nothing {
    #[inline(always)]
    fn target(&mut self, _: usize) {}

    #[inline(always)]
    fn finished(&mut self, _: usize) {}
}

#[cfg(test)]
mod tests {
    use super::*;
    use crate::error::ErrorKind::{self, *};
    use crate::leb128;
    use crate::leb128::Mode::{Strict, Tolerant};
    use crate::testing::{hex, in_both, refusal, DOCUMENT_001, JUNK};
    use crate::MAX_LEN;

    /// Checks a file in both modes, see [`in_both`].
    fn checked(words: usize, file: &[u8]) -> Result<(usize, Vec<u32>), Error> {
        in_both(|mode| checked_in(mode, words, file))
    }

    /// Checks a file with a table of `words` words and looks at the words that have to be 0.
    fn checked_in(mode: Mode, words: usize, file: &[u8]) -> Result<(usize, Vec<u32>), Error> {
        let mut starts = vec![JUNK; words];
        let answer = check(file, mode, &mut starts);
        let rest = starts.split_off(answer.map_or(0, |checked| checked.count));
        assert!(rest.iter().all(|word| *word == 0));
        answer.map(|checked| {
            assert!(starts.is_sorted());
            (checked.entry, starts)
        })
    }

    fn accepted(file: &str, entry: usize, starts: &[u32]) {
        let file = hex(file);
        assert_eq!(checked(40, &file), Ok((entry, starts.to_vec())));
        assert_eq!(checked(starts.len(), &file), Ok((entry, starts.to_vec())));
        let full = refusal(Full, u64::from(starts[starts.len() - 1]));
        assert_eq!(checked(starts.len() - 1, &file), Err(full));
    }

    fn refused(file: &str, kind: ErrorKind, place: u64) {
        assert_eq!(checked(40, &hex(file)), Err(refusal(kind, place)), "{file}");
    }

    /// A file that is OVERLONG in the strict mode, at this place: its answer in the tolerant one.
    fn padded(file: &str, place: u64) -> Result<(usize, Vec<u32>), Error> {
        refused(file, Overlong, place);
        checked_in(Tolerant, 40, &hex(file))
    }

    #[test]
    fn samples_of_document_01() {
        refused("", Empty, 0);
        refused("00", BadEntry, 0);
        accepted("00 00", 0, &[0]);
        accepted(DOCUMENT_001, 11, &[0, 6, 8, 11]);
        accepted("61 1f 1b 64 f3 11 12 13 04", 3, &[0, 3]);
        refused("61 f0 01", BadTarget, 1);
        accepted("1f 1b e1 00", 2, &[0, 2]);
        refused("1f 80 00 02", Overlong, 0);
        refused("61 61 00 02", Nested, 1);
        refused("7f f1 ff ff ff ff ff ff ff 7f 00", LongList, 10);
        accepted("2f f0 ff ff ff ff ff ff ff 7f 09", 0, &[0]);
        refused("1f f1 ff ff ff ff ff ff ff 7f 09", Range, 0);
        refused("42 c3 28 02", BadText, 0);
        refused("41 61 41 61 00", BadEntry, 4);
        refused("41 61 41 61 05", BadEntry, 4);
    }

    #[test]
    fn rows_of_document_000() {
        accepted("1f 1b 01", 0, &[0]);
        accepted("21 00", 0, &[0]);
        accepted("2f 0b 01", 0, &[0]);
        accepted("31 00 00 00 00 00 40 45 40 08", 0, &[0]);
        accepted("4f 02 68 65 6c 6c 6f 20 77 6f 72 6c 64 21 20 f0 9f 98 81 12", 0, &[0]);
        accepted("61 1f 1b 64 f3 11 12 13 07", 0, &[0, 3]);
        accepted("72 41 61 1f 1b 41 62 00 07", 0, &[0]);
        accepted("1f 1b e1 02", 0, &[0, 2]);
        accepted("1f 1b f1 00", 2, &[0, 2]);
    }

    #[test]
    fn numbers() {
        let ten = "80 80 80 80 80 80 80 80 80 80";
        refused(&format!("1f {ten} 00"), Range, 0);
        refused(&format!("1f {} 00", &ten[3..]), Trunc, 0);
        refused(&format!("1f {} 00 0a", &ten[3..]), Overlong, 0);
        let most = "ff ff ff ff ff ff ff ff 01";
        refused(&format!("4f f1 {most} 00"), Range, 0);
        refused(&format!("4f f0 {most} 00"), LongBody, 11);
        refused(&format!("6f f1 {most} 00"), Range, 0);
        refused(&format!("6f f0 {most} 00"), LongList, 11);
        refused(&format!("ff f0 {most} 00"), BadTarget, 0);
        refused(&format!("ef f1 {most} 00"), Range, 0);
        accepted(&format!("8f f0 {most} 10 0b"), 0, &[0]);
        accepted("1f 00 01", 0, &[0]);
        refused("10 ff f1 ff ff ff 0f 00", BadTarget, 1);
    }

    #[test]
    fn argument_counts() {
        let fifteen = "10".repeat(15);
        accepted(&format!("c0 0f {fifteen} 10"), 0, &[0]);
        refused(&format!("c0 0f {fifteen} 0f"), BadEntry, 17);
        refused("cf f1 ff ff ff 0f 00", Range, 0);
        refused("cf f0 ff ff ff 0f 00", Trunc, 0);
        accepted("cf f0 ff ff ff 0f 00 06", 0, &[0]);
        refused("c0 ff ff ff ff ff ff ff ff ff 01 00", LongList, 11);
        refused("c0 ff ff ff ff ff ff ff ff ff 02 00", Range, 0);
        refused("c0 80 00 00", Overlong, 0);
        refused("c3 00", Trunc, 0);
    }

    #[test]
    fn padded_numbers() {
        assert_eq!(padded("1f 80 00 02", 0), Ok((0, vec![0])));
        assert_eq!(padded("10 1f 9b 80 80 80 00 05", 1), Ok((1, vec![0, 1])));
        let nine = "80".repeat(9);
        assert_eq!(padded(&format!("1f {nine} 00 0a"), 0), Ok((0, vec![0])));
        refused(&format!("1f {nine} 01 0a"), Range, 0);
        refused(&format!("1f {nine} 02 0a"), Range, 0);
        refused(&format!("1f {nine} 80 00 0b"), Range, 0);
        accepted(&format!("8f {nine} 01 10 0b"), 0, &[0]);
        assert_eq!(padded(&format!("8f {nine} 00 10 0b"), 0), Ok((0, vec![0])));
        // What comes after the number in the order of faults.
        assert_eq!(padded("4f 81 00 61 61 00", 0), Err(refusal(LongBody, 3)));
        assert_eq!(padded("6f 80 00 10 00", 0), Err(refusal(LongList, 3)));
        assert_eq!(padded("7f 80 80 00 10 00", 0), Err(refusal(LongList, 4)));
        assert_eq!(padded("1f f1 ff ff ff ff ff ff ff ff 00 0a", 0), Err(refusal(Range, 0)));
        assert_eq!(padded(&format!("4f 80 00 ff {} 00", "61".repeat(14)), 0), Err(refusal(BadText, 0)));
        assert_eq!(padded("bf 80 00 00", 0), Err(refusal(Trunc, 3)));
        assert_eq!(padded("1f 80 00 09", 0), Err(refusal(BadEntry, 3)));
        // The first fault wins, and an item has its own place.
        refused("61 6f 80 00 00", Nested, 1);
        refused("90 1f 80 00 00", Reserved, 0);
        assert_eq!(padded("62 1f 80 00 90 00", 1), Err(refusal(Reserved, 4)));
        assert_eq!(padded("1f 80 00 1f 80", 0), Err(refusal(Trunc, 3)));
    }

    #[test]
    fn both_numbers_of_a_variant_of_many() {
        for (numbers, count) in [("80 00 01", 5), ("00 81 00", 5), ("80 00 81 00", 6), ("80 80 80 80 00 81 80 80 80 00", 12)] {
            assert_eq!(padded(&format!("cf {numbers} 10 {:02x}", count - 1), 0), Ok((0, vec![0])));
            let long = padded(&format!("cf {numbers} 00"), 0);
            assert_eq!(long, Err(refusal(LongList, count - 1)));
        }
        assert_eq!(padded("c3 80 00 02", 0), Ok((0, vec![0])));
        let nine = "80".repeat(9);
        assert_eq!(padded(&format!("cf {nine} 00 {nine} 00 14"), 0), Ok((0, vec![0])));
        refused(&format!("c0 {nine} 02 0a"), Range, 0);
        refused(&format!("c0 {nine} 01 0a"), LongList, 11);
        // The strict answer is the first number's, the tolerant one the second's.
        assert_eq!(padded(&format!("cf 80 00 {nine} 02 0c"), 0), Err(refusal(Range, 0)));
        assert_eq!(padded("cf 80 00 80 00", 0), Err(refusal(Trunc, 0)));
        assert_eq!(padded("cf f1 ff ff ff 8f 00 00", 0), Err(refusal(Range, 0)));
    }

    /// "A reference or pointer whose header is at q targets q - n - 1", however many bytes its number takes.
    #[test]
    fn padded_distances() {
        let before = "10".repeat(16);
        let starts: Vec<u32> = (0..=16).collect();
        for kind in ["e", "f"] {
            for size in 2..=10 {
                let zeros = "80".repeat(size - 1);
                let file = format!("{before} {kind}f {zeros} 00 {size:02x}");
                assert_eq!(padded(&file, 16), Ok((16, starts.clone())), "{file}");
                let below = format!("{} {kind}f {zeros} 00 00", &before[2..]);
                assert_eq!(padded(&below, 15), Err(refusal(BadTarget, 15)), "{below}");
                let inside = format!("51 10 {} {kind}f {zeros} 00 00", &before[2..]);
                assert_eq!(padded(&inside, 17), Err(refusal(BadTarget, 17)), "{inside}");
            }
        }
        // Padded numbers between a target and its pointer count with all their bytes.
        assert_eq!(padded("10 1f 9b 80 80 80 00 f6 00", 1), Ok((7, vec![0, 1, 7])));
        assert_eq!(padded("10 1f 9b 80 80 80 00 f2 00", 1), Err(refusal(BadTarget, 7)));
    }

    #[test]
    fn items_wanted_at_the_end() {
        refused("80 00", Trunc, 1);
        refused("b0 00", Trunc, 1);
        refused("62 41 61 00", Trunc, 3);
        refused("10 80 00", Trunc, 2);
    }

    #[test]
    fn counts_and_lengths() {
        refused("63 90 90 00", LongList, 1);
        refused("62 90 90 00", Reserved, 1);
        refused("61 45 61 00", LongBody, 2);
        accepted("71 10 11 12 03", 0, &[0, 3]);
        refused("72 10 11 12 03", LongList, 1);
        refused("71 10 00", LongList, 1);
        refused("7f f1 ff ff ff ff ff ff ff 7f 10 11 0b", LongList, 10);
        refused("7f f2 ff ff ff ff ff ff ff 7f 10 11 0b", LongList, 10);
        refused("45 68 65 6c 6c 6f", LongBody, 1);
        refused("30 00 00 00 00", Trunc, 0);
        accepted("30 00 00 00 00 04", 0, &[0]);
    }

    #[test]
    fn a_length_or_count_comes_before_what_it_counts() {
        refused("43 ff ff 00", LongBody, 1);
        refused("61 42 ff 00", LongBody, 2);
        refused("c0 03 90 90 00", LongList, 2);
        refused("10 62 41 ff 43 61 61 00", BadText, 2);
        refused("10 62 41 61 43 61 61 00", LongBody, 5);
        refused("10 62 f5 43 61 61 00", BadTarget, 2);
        assert_eq!(checked(0, &hex("45 61 00")), Err(refusal(Full, 0)));
        assert_eq!(checked(1, &hex("10 65 00")), Err(refusal(Full, 1)));
    }

    #[test]
    fn tables_without_words() {
        assert_eq!(checked(0, &[]), Err(refusal(Empty, 0)));
        assert_eq!(checked(0, &[0]), Err(refusal(BadEntry, 0)));
        assert_eq!(checked(0, &hex("90 00")), Err(refusal(Full, 0)));
        assert_eq!(checked(1, &hex("10 90 00")), Err(refusal(Full, 1)));
        assert_eq!(checked(1, &hex("90 10 00")), Err(refusal(Reserved, 0)));
        let long = vec![0; MAX_LEN + 1];
        assert_eq!(checked(3, &long), Err(refusal(TooLong, 0)));
    }

    #[test]
    fn reserved_before_nested_before_the_number() {
        refused("61 90 00", Reserved, 1);
        refused("61 03 00", Reserved, 1);
        refused("61 6f 00", Nested, 1);
        refused("6f 00", Trunc, 0);
    }

    #[test]
    fn targets() {
        accepted("10 f0 e0 f0 00", 3, &[0, 1, 2, 3]);
        accepted("61 10 f1 e0 00", 3, &[0, 2, 3]);
        refused("62 10 11 f1 00", BadTarget, 3);
        refused("1f 1b f0 00", BadTarget, 2);
        refused("10 62 10 f1 00", BadTarget, 3);
        refused("10 62 10 f0 00", BadTarget, 3);
        refused("10 f1 00", BadTarget, 1);
        refused("10 62 f0 90 00", BadTarget, 2);
    }

    #[test]
    fn texts() {
        let borders = [
            ("43 e0 a0 80 03", "43 e0 9f bf 03"),
            ("43 ed 9f bf 03", "43 ed a0 80 03"),
            ("44 f0 90 80 80 04", "44 f0 8f bf bf 04"),
            ("44 f4 8f bf bf 04", "44 f4 90 80 80 04"),
        ];
        for (text, beside) in borders {
            accepted(text, 0, &[0]);
            refused(beside, BadText, 0);
        }
        refused("44 f5 80 80 80 04", BadText, 0);
        refused("42 c1 bf 02", BadText, 0);
        refused("42 e2 82 02", BadText, 0);
        refused("41 c2 80 00", BadText, 0);
        refused("61 41 ff 02", BadText, 1);
        // The same with bytes after it, which are passed quickly.
        let after = "10".repeat(16);
        refused(&format!("42 c1 bf {after} 00"), BadText, 0);
        refused(&format!("41 c2 {after} 00"), BadText, 0);
        refused(&format!("42 61 c2 {after} 00"), BadText, 0);
    }

    /// Short and long texts, near the end of the region and far from it, are decided in different ways.
    #[test]
    fn texts_of_many_lengths() {
        let characters = [("e0 a0 80", true), ("ed 9f bf", true), ("f0 90 80 80", true), ("f4 8f bf bf", true)];
        let others = [("e0 9f bf", false), ("ed a0 80", false), ("f0 8f bf bf", false), ("f4 90 80 80", false), ("e2 82", false)];
        for (bytes, is_text) in characters.into_iter().chain(others) {
            for (before, after) in (0..20).flat_map(|before| (0..20).map(move |after| (before, after))) {
                let text = [vec![b'a'; before], hex(bytes), vec![b'z'; after]].concat();
                let length = text.len() as u8;
                let header = if length < 15 { vec![0x40 | length] } else { vec![0x4f, length - 15] };
                for values in [1, 16] {
                    let file = [vec![0x10], header.clone(), text.clone(), vec![0x10; values], vec![0]].concat();
                    let answer = checked(20, &file).map(|(_, starts)| starts.len());
                    let expected = if is_text { Ok(2 + values) } else { Err(refusal(BadText, 1)) };
                    assert_eq!(answer, expected, "{file:x?}");
                }
            }
        }
    }

    #[test]
    fn entries() {
        accepted("10 11 01", 0, &[0, 1]);
        refused("10 90 01", Reserved, 1);
        refused("10 11 ff", BadEntry, 2);
    }

    /// A header with low 15 and its number.
    fn long_header(kind: u8, n: usize) -> Vec<u8> {
        let rest = n as u64 - 15;
        let mut bytes = vec![kind << 4 | 15; 1 + leb128::size(rest)];
        leb128::write(&mut bytes[1..], rest);
        bytes
    }

    /// Byte strings of `length` bytes, then tags that hold a pointer to each of them.
    fn strings_and_tags(count: usize, length: usize) -> (Vec<u8>, Vec<u32>) {
        let mut file = Vec::new();
        let mut starts = Vec::new();
        for _ in 0..count {
            starts.push(file.len() as u32);
            file.extend(long_header(5, length));
            file.resize(file.len() + length, 0x9f);
        }
        for number in 0..count {
            starts.push(file.len() as u32);
            file.push(0x81);
            let distance = file.len() - starts[number] as usize - 1;
            file.extend(long_header(15, distance));
        }
        let delta = file.len() - starts[starts.len() - 1] as usize - 1;
        file.push(delta as u8);
        (file, starts)
    }

    #[test]
    fn targets_in_other_blocks() {
        // Regions below and over the length of a small file; starts at the beginning of blocks.
        for (count, length) in [(7, 6000), (15, 4093), (17, 4093), (90, 1000), (3000, 16)] {
            let (file, starts) = strings_and_tags(count, length);
            let entry = starts[starts.len() - 1] as usize;
            let answer = checked(starts.len(), &file);
            assert_eq!(answer, Ok((entry, starts.clone())), "{count} of {length}");
            for number in [0, 1, count / 2, count - 1] {
                let mut file = file.clone();
                let pointer = starts[count + number] as usize + 1;
                file[pointer + 1] ^= 1;
                let answer = checked(starts.len(), &file);
                let bad = Err(refusal(BadTarget, pointer as u64));
                assert_eq!(answer, bad, "{count} of {length}, pointer {number}");
            }
        }
    }

    #[test]
    fn a_target_inside_a_holder_of_many_blocks() {
        // The last item targets an item before it, none or more blocks after the array's start.
        for distance in [15, 4000, 5000, 9000, 13000] {
            let mut file = vec![0x10];
            file.extend(long_header(6, 14_000));
            file.resize(file.len() + 13_999, 0x10);
            let pointer = file.len() as u64;
            file.extend(long_header(15, distance));
            file.push(0);
            assert_eq!(checked(9, &file), Err(refusal(BadTarget, pointer)));
        }
    }

    #[test]
    fn the_longest_file() {
        let mut file = vec![0x10; MAX_LEN];
        file[MAX_LEN - 1] = 0;
        let mut starts = vec![JUNK; MAX_LEN];
        let answer = check(&file, Strict, &mut starts);
        let (count, entry) = (MAX_LEN - 1, MAX_LEN - 2);
        assert_eq!(answer, Ok(Checked { count, entry }));
        assert!(starts[..count].iter().zip(0..).all(|(&word, start)| word == start));
        assert_eq!(starts[count], 0);
    }
}
