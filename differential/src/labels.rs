//! The section `labels`: texts of up to forty bytes, with a byte or a character put at each place, or at each two, since the test of text takes
//! eight plain bytes at once (W-205). Each is asked for with several things before and after it.

use std::sync::LazyLock;

use reference::Call;

use crate::compare::{Comparer, Writing};
use crate::difference::Difference;
use crate::edges::Edges;
use crate::make;
use crate::product::Product;
use crate::sections::Case;
use crate::text::{agrees, BORDERS, NEW, VARIANT};

/// The most bytes of a label.
const MOST: usize = 40;

/// A case is a length and a place in it; no bytes have one case too.
pub const CASES: u64 = 1 + (MOST * (MOST + 1) / 2) as u64;

/// The length and the place of each case. A half of a word and a byte, a word and a byte, and two words and a byte come first, so that a fault is
/// found soon.
static PLACES: LazyLock<Vec<[usize; 2]>> = LazyLock::new(|| {
    let places = |length: usize| (0..length.max(1)).map(move |place| [length, place]);
    let mut places: Vec<[usize; 2]> = (0..=MOST).flat_map(places).collect();
    places.sort_by_key(|[length, _]| ![5, 9, 17].contains(length));
    places
});

/// What is put at two places of a label.
const PAIRED: [&[u8]; 6] = [&[0x80], &[0xc2], &[0xff], "ä".as_bytes(), "€".as_bytes(), "😀".as_bytes()];

/// What is around a label in a file, and how many values there are then.
#[derive(Debug)]
struct Around {
    before: &'static [u8],
    after: &'static [u8],
    values: usize,
}

/// A label may be the last thing of the region, with a plain delta or with one from 80 to BF; or such a byte, or a value with a body, plain or
/// not, comes after it.
const AROUND: [Around; 9] = [
    Around { before: &[], after: &[], values: 1 },
    Around { before: &LONG, after: &[], values: 2 },
    Around { before: &[], after: &[VARIANT], values: 2 },
    Around { before: &[], after: &BYTES, values: 2 },
    Around { before: &[], after: WIDE, values: 2 },
    Around { before: &[], after: PLAIN, values: 2 },
    // Items of an array.
    Around { before: &[0x62, VARIANT], after: &[], values: 1 },
    Around { before: &[0x62], after: &BYTES, values: 1 },
    Around { before: &[0x62], after: PLAIN, values: 1 },
];

/// A byte string that is long enough for a delta from 80 to BF.
const LONG: [u8; 128] = {
    let mut bytes = [b'a'; 128];
    [bytes[0], bytes[1]] = [0x5f, 126 - 15];
    bytes
};

/// A byte string of 80s.
const BYTES: [u8; 15] = {
    let mut bytes = [0x80; 15];
    bytes[0] = 0x5e;
    bytes
};

/// A text of letters beyond ASCII.
const WIDE: &[u8] = "\u{4e}äöüäöüä".as_bytes();

/// A plain text.
const PLAIN: &[u8] = b"\x4efourteen bytes";

/// The labels of a length with something at a place.
pub fn labels<P: Product>(comparer: &mut Comparer<P>, case: Case) -> Result<(), Difference> {
    let [length, place] = PLACES[case.number as usize % PLACES.len()];
    let mut edges = Edges::new();
    let mut memory = Writing::new(NEW, &[0x80; MOST + 4], &[7]);
    each(length, place, |label| {
        for around in &AROUND {
            comparer.of_file(&around.file(label), 0x80, None, |comparer| {
                let count = comparer.check(around.values)?;
                if around.after.is_empty() {
                    comparer.check_again(&mut edges)?;
                }
                agrees("check of the label", label, count.is_some())
            })?;
        }
        memory.set_state(NEW);
        let answer = comparer.call(&mut memory, Call::Text(label))?;
        for copy in edges.copies(label) {
            memory.set_state(NEW);
            comparer.call_with(&mut memory, Call::Text(label), Call::Text(copy))?;
        }
        agrees("a writer's call with the label", label, answer == 0)
    })
}

impl Around {
    /// The file of a label, with its first value as the entry.
    fn file(&self, label: &[u8]) -> Vec<u8> {
        let Self { before, after, .. } = self;
        let mut file = Vec::with_capacity(before.len() + label.len() + after.len() + 3);
        file.extend(*before);
        make::head(&mut file, 4, label.len() as u64, 1);
        file.extend(label);
        file.extend(*after);
        let delta = file.len() as u8 - 1;
        file.push(delta);
        file
    }
}

/// Visits the labels of a case, until a visit fails: plain ones with any byte at the place, and with two things, at the place and at any later
/// one; mixed ones with any border byte at the place; and both with what is a character and with what is not. What does not fit is cut by the
/// label's end.
fn each<E>(length: usize, place: usize, mut visit: impl FnMut(&[u8]) -> Result<(), E>) -> Result<(), E> {
    let [plain, mixed] = ["abcdefgh", "aä€😀"].map(|letters| letters_of(letters, length));
    if length == 0 {
        return visit(&plain);
    }
    let mut with = |letters: &[u8], things: &[(usize, &[u8])]| {
        let mut label = letters.to_vec();
        for &(place, thing) in things {
            let end = length.min(place + thing.len());
            label[place..end].copy_from_slice(&thing[..end - place]);
        }
        visit(&label)
    };
    for byte in 0..=255 {
        with(&plain, &[(place, &[byte])])?;
    }
    for byte in BORDERS {
        with(&mixed, &[(place, &[byte])])?;
    }
    for letters in [&plain, &mixed] {
        for character in make::CHARACTERS {
            with(letters, &[(place, character.encode_utf8(&mut [0; 4]).as_bytes())])?;
        }
        for odd in make::NOT_CHARACTERS {
            with(letters, &[(place, odd)])?;
        }
    }
    for later in place + 1..length {
        for thing in PAIRED {
            for other in PAIRED {
                with(&plain, &[(place, thing), (later, other)])?;
            }
        }
    }
    Ok(())
}

/// A text of these letters, again and again, and of plain ones where no more fit.
fn letters_of(letters: &str, length: usize) -> Vec<u8> {
    let letters = letters.repeat(1 + length / letters.len());
    let end = (0..=length).rev().find(|end| letters.is_char_boundary(*end)).unwrap_or(0);
    let mut text = letters.as_bytes()[..end].to_vec();
    text.resize(length, b'a');
    text
}

#[cfg(test)]
mod tests {
    use super::*;
    use reference::Mode;

    /// Every label of a case.
    fn all(length: usize, place: usize) -> Vec<Vec<u8>> {
        let mut labels = Vec::new();
        let visited = each::<()>(length, place, |label| {
            labels.push(label.to_vec());
            Ok(())
        });
        assert_eq!(visited, Ok(()));
        labels
    }

    fn not_plain(label: &[u8]) -> Vec<usize> {
        (0..label.len()).filter(|place| label[*place] >= 0x80).collect()
    }

    #[test]
    fn every_place_and_every_pair_of_places_is_met() {
        assert_eq!(PLACES.len() as u64, CASES);
        for length in 0..=MOST {
            let labels: Vec<_> = (0..length.max(1)).flat_map(|place| all(length, place)).collect();
            assert!(labels.iter().all(|label| label.len() == length));
            let places: Vec<_> = labels.iter().map(|label| not_plain(label)).collect();
            for place in 0..length {
                assert!(places.iter().filter(|places| **places == [place]).count() >= 128, "{place} of {length}");
                for later in place + 1..length {
                    assert!(places.contains(&vec![place, later]), "{place} and {later} of {length}");
                }
            }
        }
    }

    #[test]
    fn characters_are_whole_and_cut() {
        for character in make::CHARACTERS.into_iter().filter(|character| !character.is_ascii()) {
            let mut bytes = [0; 4];
            let character = character.encode_utf8(&mut bytes).as_bytes();
            for place in 0..MOST {
                let end = MOST.min(place + character.len());
                let is_whole = end - place == character.len();
                let is_such = |label: &Vec<u8>| {
                    label[place..end] == character[..end - place] && std::str::from_utf8(label).is_ok() == is_whole
                };
                assert!(all(MOST, place).iter().any(is_such), "{character:x?} at {place}");
            }
        }
    }

    #[test]
    fn what_is_around_a_label_is_well_formed() {
        for label in (0..=MOST).map(|length| vec![b'a'; length]) {
            for around in &AROUND {
                let file = around.file(&label);
                let checked = reference::check(&file, Mode::Strict, &mut vec![0; file.len()]);
                assert_eq!(checked.map(|checked| checked.count), Ok(around.values), "{around:?}");
            }
            let delta = AROUND[1].file(&label).pop();
            assert!(delta.is_some_and(|delta| (0x80..0xc0).contains(&delta)), "{delta:?}");
        }
    }
}
