//! "The strict manner is as before", and the tolerant one differs from it only if it is OVERLONG.

use std::fmt::Debug;

use reference::{body, body_place, check, depths, follow, item, lookup, read, skip, Error, ErrorKind, Mode};

use crate::random::Random;

/// Both modes of one question: how often they agreed, and how often only the strict one was OVERLONG.
#[derive(Debug, Default)]
struct Met {
    same: u32,
    overlong: u32,
}

impl Met {
    /// Asks in both modes with tables of these lengths. Answers and tables are the same if the strict answer is not OVERLONG.
    fn ask<T: PartialEq + Debug>(&mut self, words: [usize; 2], ask: impl Fn(Mode, &mut [u32], &mut [u32]) -> Result<T, Error>) {
        let is_overlong = |answer: &Result<T, Error>| answer.as_ref().is_err_and(|error| error.kind == ErrorKind::Overlong);
        let [strict, tolerant] = Mode::ALL.map(|mode| {
            let [mut starts, mut depths] = words.map(|words| vec![0xaaaa_aaaa; words]);
            (ask(mode, &mut starts, &mut depths), starts, depths)
        });
        assert!(!is_overlong(&tolerant.0));
        if is_overlong(&strict.0) {
            self.overlong += 1;
        } else {
            assert_eq!(strict, tolerant);
            self.same += 1;
        }
    }

    /// Everything that can be asked of a file: with full and with short tables, at its offsets and past them.
    fn ask_all(&mut self, file: &[u8]) {
        let length = file.len();
        for words in [0, 1, length / 4, length] {
            self.ask([words, 0], |mode, starts, _| check(file, mode, starts));
            self.ask([length, words], |mode, starts, words| depths(file, mode, starts, words));
            self.ask([words, length], |mode, starts, words| depths(file, mode, starts, words));
        }
        for at in (0..=length as u64).chain([u64::MAX]) {
            self.ask([0; 2], |mode, _, _| read(file, mode, at));
            self.ask([0; 2], |mode, _, _| skip(file, mode, at));
            self.ask([0; 2], |mode, _, _| follow(file, mode, at));
            self.ask([0; 2], |mode, _, _| body_place(file, mode, at).map(|place| (place, body(file, mode, at))));
            for index in [0, 1, 2, 7, u64::MAX] {
                self.ask([0; 2], |mode, _, _| item(file, mode, at, index));
            }
            for key in [&b""[..], b"a", b"name"] {
                self.ask([0; 2], |mode, _, _| lookup(file, mode, at, key));
            }
        }
    }
}

#[test]
fn written_padded_and_spoilt_files() {
    let mut random = Random::new(10);
    let [mut written, mut padded] = [Met::default(), Met::default()];
    for _ in 0..400 {
        let longest = 8 + random.below(80) as usize;
        let file = random.file(longest);
        written.ask_all(&file);
        let file = random.padded(&file);
        padded.ask_all(&file);
        for _ in 0..3 {
            padded.ask_all(&random.spoilt(&file));
        }
    }
    // In the middle of a value what is read may be padded by chance.
    assert!(written.overlong < written.same / 100, "{written:?}");
    assert!(padded.overlong > padded.same / 20 && padded.overlong > 1000, "{padded:?}");
}

/// Bytes of which many are headers with a number, go on with one, or end it.
#[test]
fn any_bytes() {
    let mut random = Random::new(11);
    let mut met = Met::default();
    for _ in 0..4000 {
        let mut file = random.bytes(30);
        for byte in &mut file {
            *byte = random.pick(&[*byte, *byte | 15, 0x80, 0x00]);
        }
        met.ask_all(&file);
    }
    assert!(met.same > 1000 && met.overlong > 1000, "{met:?}");
}
