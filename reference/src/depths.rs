//! The depths of the values of a file.

use crate::error::{Error, ErrorKind};
use crate::leb128::Mode;
use crate::scan::{scan, Checked, Note};

/// Checks a file and finds the depth of each value.
///
/// "Depths is lent a second such table; it gives check's refusals first, then FULL if the second is shorter than the count
/// (place: the start of the first value without a word). Accepted: one depth a value, the rest 0. Refused: both tables all
/// 0."
pub fn depths(file: &[u8], mode: Mode, starts: &mut [u32], depths: &mut [u32]) -> Result<Checked, Error> {
    let mut note = Depths { words: depths, deepest: 0 };
    let answer = scan(file, mode, starts, &mut note).and_then(|checked| {
        if checked.count > depths.len() {
            Err(ErrorKind::Full.at(starts[depths.len()] as usize))
        } else {
            Ok(checked)
        }
    });
    let used = answer.map_or(0, |checked| checked.count);
    starts[used..].fill(0);
    depths[used..].fill(0);
    answer
}

/// "Depth is the number of values on the longest descent from it, itself counted; 1 if it targets nothing."
struct Depths<'t> {
    /// The lent table, which may have too few words: the walk goes on to find check's refusals.
    words: &'t mut [u32],
    /// The depth of the deepest target of the value that is walked over.
    deepest: u32,
}

impl Note for Depths<'_> {
    #[inline(always)]
    fn target(&mut self, number: usize) {
        if let Some(&depth) = self.words.get(number) {
            self.deepest = self.deepest.max(depth);
        }
    }

    #[inline(always)]
    fn finished(&mut self, number: usize) {
        if let Some(depth) = self.words.get_mut(number) {
            *depth = self.deepest + 1;
        }
        self.deepest = 0;
    }
}

#[cfg(test)]
mod tests {
    use super::*;
    use crate::error::ErrorKind::*;
    use crate::testing::{hex, in_both, refusal, DOCUMENT_001, JUNK};

    /// The depths of a file in both modes, see [`in_both`].
    fn depths_of(words: [usize; 2], file: &str) -> Result<Vec<u32>, Error> {
        in_both(|mode| depths_in(mode, words, file))
    }

    /// The depths of a file by tables of these lengths; the words that have to be 0 are looked at.
    fn depths_in(mode: Mode, words: [usize; 2], file: &str) -> Result<Vec<u32>, Error> {
        let [mut first, mut second] = words.map(|words| vec![JUNK; words]);
        let answer = depths(&hex(file), mode, &mut first, &mut second);
        let used = answer.map_or(0, |checked| checked.count);
        assert!(first.split_off(used).iter().all(|word| *word == 0));
        assert!(second.split_off(used).iter().all(|word| *word == 0));
        answer.map(|_| second)
    }

    #[test]
    fn samples_of_document_01() {
        assert_eq!(depths_of([2, 2], "00 00"), Ok(vec![1]));
        assert_eq!(depths_of([6, 5], DOCUMENT_001), Ok(vec![1, 2, 3, 4]));
        assert_eq!(depths_of([3, 2], "1f 1b e1 00"), Ok(vec![1, 2]));
    }

    #[test]
    fn the_deepest_target_counts() {
        assert_eq!(depths_of([3, 3], "10 f0 10 00"), Ok(vec![1, 2, 1]));
        assert_eq!(depths_of([2, 2], "10 62 e1 f2 02"), Ok(vec![1, 2]));
        assert_eq!(depths_of([4, 4], "10 f0 62 f1 f3 f2 00"), Ok(vec![1, 2, 3, 4]));
        assert_eq!(depths_of([4, 4], "10 f0 f1 62 f1 f3 02"), Ok(vec![1, 2, 2, 3]));
        assert_eq!(depths_of([5, 5], "10 71 e1 f2 80 f4 b0 e6 c0 02 10 f9 03"), Ok(vec![1, 2, 2, 2, 3]));
    }

    #[test]
    fn refusals_of_check_come_first() {
        assert_eq!(depths_of([2, 0], "61 f0 01"), Err(refusal(BadTarget, 1)));
        assert_eq!(depths_of([2, 0], "41 61 41 61 00"), Err(refusal(BadEntry, 4)));
        assert_eq!(depths_of([2, 0], "10 61 45 61 00"), Err(refusal(LongBody, 3)));
        assert_eq!(depths_of([2, 0], "10 cf 00 03 10 00"), Err(refusal(LongList, 4)));
        assert_eq!(depths_of([1, 0], "10 11 00"), Err(refusal(Full, 1)));
        assert_eq!(depths_of([0, 0], ""), Err(refusal(Empty, 0)));
    }

    #[test]
    fn the_second_table_is_too_short() {
        assert_eq!(depths_of([2, 0], "10 11 00"), Err(refusal(Full, 0)));
        assert_eq!(depths_of([2, 1], "1f 1b e1 00"), Err(refusal(Full, 2)));
        assert_eq!(depths_of([9, 2], "10 f0 f0 f0 00"), Err(refusal(Full, 2)));
    }

    #[test]
    fn padded_distances_count() {
        // A number, a pointer to it over 15 values, and an array of a reference to that and a pointer to the number.
        let file = format!("1f 80 00 {} ff 82 80 80 80 00 62 e6 ff 8a 80 80 80 00 07", "10".repeat(15));
        let depths: Vec<u32> = [vec![1; 16], vec![2, 3]].concat();
        assert_eq!(depths_of([18, 18], &file), Err(refusal(Overlong, 0)));
        assert_eq!(depths_in(Mode::Tolerant, [18, 19], &file), Ok(depths));
        assert_eq!(depths_in(Mode::Tolerant, [18, 17], &file), Err(refusal(Full, 24)));
        assert_eq!(depths_in(Mode::Tolerant, [17, 0], &file), Err(refusal(Full, 24)));
    }

    #[test]
    fn a_long_chain() {
        let mut file = vec![0x10];
        file.resize(100_000, 0xf0);
        file.push(0);
        let mut starts = vec![JUNK; 100_000];
        let mut words = vec![JUNK; 100_000];
        assert!(depths(&file, Mode::Strict, &mut starts, &mut words).is_ok());
        assert!(words.iter().zip(1..).all(|(&word, depth)| word == depth));
    }
}
