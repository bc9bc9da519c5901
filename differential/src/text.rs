//! The section `text`: every sequence of up to three bytes, and every one of four bytes at borders, as a text of a file and of a
//! writer's call. What both programs say of it is compared with Rust's own check of UTF-8 too.

use std::sync::LazyLock;

use reference::Call;

use crate::compare::{Comparer, Writing};
use crate::difference::{self, Difference};
use crate::ffi::STATE;
use crate::make;
use crate::product::Product;
use crate::random::Random;
use crate::sections::{self, Case};

/// The borders of RFC 3629's ranges of bytes, and the bytes beside them.
pub const BORDERS: [u8; 39] = [
    0x00, 0x01, 0x7e, 0x7f, 0x80, 0x81, 0x8e, 0x8f, 0x90, 0x91, 0x9e, 0x9f, 0xa0, 0xa1, 0xbe, 0xbf, 0xc0, 0xc1, 0xc2, 0xc3, 0xde,
    0xdf, 0xe0, 0xe1, 0xe2, 0xeb, 0xec, 0xed, 0xee, 0xef, 0xf0, 0xf1, 0xf2, 0xf3, 0xf4, 0xf5, 0xf6, 0xfe, 0xff,
];

/// The state of a new writer.
pub const NEW: [u64; STATE] = [0; STATE];

/// A case is the texts with the same first two bytes.
pub const CASES: u64 = 1 << 16;

/// The first two bytes of the texts of each case. Pairs at borders come first, and of these the narrowed ones, so that a fault is found
/// soon.
static PAIRS: LazyLock<Vec<[u8; 2]>> = LazyLock::new(|| {
    let mut pairs: Vec<[u8; 2]> = (0..=u16::MAX).map(u16::to_be_bytes).collect();
    pairs.sort_by_key(|pair| (!is_at_borders(*pair), !is_narrowed(*pair)));
    pairs
});

fn is_at_borders(pair: [u8; 2]) -> bool {
    pair.iter().all(|byte| BORDERS.contains(byte))
}

/// Whether document 01 takes the second byte after this lead and W-202 narrows it, or the lead is the one after the surrogates.
fn is_narrowed(pair: [u8; 2]) -> bool {
    matches!(pair, [0xe0 | 0xed | 0xee | 0xf0 | 0xf4, 0x80..=0xbf])
}

/// Visits the texts of a case, until a visit fails. Shorter texts are visited with the longer ones that go on with zeros.
fn each<E>(pair: [u8; 2], mut visit: impl FnMut(&[u8]) -> Result<(), E>) -> Result<(), E> {
    let [a, b] = pair;
    if pair == [0, 0] {
        visit(&[])?;
    }
    if b == 0 {
        visit(&[a])?;
    }
    visit(&pair)?;
    for c in 0..=255 {
        visit(&[a, b, c])?;
    }
    if is_at_borders(pair) {
        for c in BORDERS {
            for d in BORDERS {
                visit(&[a, b, c, d])?;
            }
        }
    }
    Ok(())
}

/// The texts with the same first two bytes: each alone, and some between letters.
pub fn text<P: Product>(comparer: &mut Comparer<P>, mut case: Case) -> Result<(), Difference> {
    let random = &mut case.random;
    let pair = PAIRS[case.number as usize % PAIRS.len()];
    let mut memory = Writing::new(NEW, &[0x80; 6], &[7]);
    each(pair, |text| alone(comparer, &mut memory, text))?;
    let [a, b] = pair;
    let some = [random.pick(&BORDERS)];
    for &c in if is_at_borders(pair) { &BORDERS[..] } else { &some } {
        let d = random.pick(&BORDERS);
        between(comparer, random, &[a, b, c])?;
        between(comparer, random, &[a, b, c, d])?;
    }
    Ok(())
}

/// A variant without an argument, as a value or an item. If a text is cut within a character, this byte would go on with it.
pub const VARIANT: u8 = 0xa0;

/// A file of a text of up to four bytes and a variant, and a new writer's call with the text.
fn alone<P: Product>(comparer: &mut Comparer<P>, memory: &mut Writing, text: &[u8]) -> Result<(), Difference> {
    let length = text.len();
    let mut file = [0; 7];
    file[0] = 0x40 | length as u8;
    file[1..=length].copy_from_slice(text);
    file[length + 1] = VARIANT;
    comparer.of_file(&file[..length + 3], 0x80, None, |comparer| {
        let count = comparer.check(2)?;
        agrees("check of the text", text, count.is_some())
    })?;
    memory.set_state(NEW);
    let answer = comparer.call(memory, Call::Text(text))?;
    agrees("a writer's call with the text", text, answer == 0)
}

/// A map whose only key is a text that holds these bytes, with all queries, and a new writer's call with the text.
fn between<P: Product>(comparer: &mut Comparer<P>, random: &mut Random, bytes: &[u8]) -> Result<(), Difference> {
    let [before, after] = [random.index(20), random.index(20)];
    let text = [&b"the letters before it"[..before], bytes, &b"and those that follow"[..after]].concat();
    let mut file = vec![0x71];
    make::head(&mut file, 4, text.len() as u64, 1);
    file.extend(&text);
    file.push(VARIANT);
    let delta = file.len() as u8 - 1;
    file.push(delta);
    let other_mode = make::other_mode(random);
    comparer.of_file(&file, 0x80, other_mode, |comparer| {
        let count = comparer.check(1)?;
        comparer.depths(1, 1)?;
        sections::queries(comparer, 0, &[&text, &text[1..]])?;
        sections::queries(comparer, 1, &[&text])?;
        agrees("check of a map with the text", &text, count.is_some())
    })?;
    let mut memory = Writing::new(NEW, &[0x80; 64], &[7]);
    let answer = comparer.call(&mut memory, Call::Text(&text))?;
    agrees("a writer's call with the text", &text, answer == 0)
}

/// Compares what both programs answered with Rust's own check of UTF-8.
pub fn agrees(question: &str, text: &[u8], is_accepted: bool) -> Result<(), Difference> {
    if is_accepted == std::str::from_utf8(text).is_ok() {
        return Ok(());
    }
    let [both, rust] = if is_accepted { ["accepted", "refused"] } else { ["refused", "accepted"] };
    Err(Difference {
        question: format!("{question} of {}", difference::hex(text)),
        product: format!("{both}, as by the second program"),
        second: format!("{rust} by str::from_utf8"),
    })
}

#[cfg(test)]
mod tests {
    use super::*;

    #[test]
    fn the_cases_are_every_text_of_up_to_three_bytes_and_those_at_borders() {
        let mut met = vec![0_u8; 1 << 24];
        let mut lengths = [0; 5];
        for pair in PAIRS.iter() {
            let all = each::<()>(*pair, |text| {
                lengths[text.len()] += 1;
                if let [a, b, c] = *text {
                    met[u32::from_be_bytes([0, a, b, c]) as usize] += 1;
                }
                Ok(())
            });
            assert_eq!(all, Ok(()));
        }
        assert_eq!(lengths, [1, 1 << 8, 1 << 16, 1 << 24, BORDERS.len().pow(4)]);
        assert!(met.iter().all(|times| *times == 1));
        assert_eq!(PAIRS.len() as u64, CASES);
    }

    #[test]
    fn a_third_opinion() {
        for (text, is_text) in [(&[0xed, 0x9f, 0xbf], true), (&[0xed, 0xa0, 0x80], false)] {
            assert_eq!(agrees("check", text, is_text), Ok(()));
            assert!(agrees("check", text, !is_text).is_err());
        }
    }
}
