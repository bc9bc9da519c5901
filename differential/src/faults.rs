//! Faults between the comparison and the archive, each of which has to be found.

mod prune;
mod runs;

use std::borrow::Cow;
use std::fmt::Debug;
use std::time::Duration;

use reference::{Call, Mode, Token};

use crate::compare::{Asked, Comparer};
use crate::ffi::{self, STATE, STRICT, TOLERANT};
use crate::labels;
use crate::make;
use crate::options::Options;
use crate::padded::SYSTEMATIC;
use crate::product::{Archive, Product};
use crate::random::Random;
use crate::sections::{self, Case};
use crate::{run, Failed, ENDS};

/// The archive with a fault.
#[derive(Clone, Copy, Debug, PartialEq, Eq)]
enum Fault {
    /// Check takes a file without a good entry for accepted.
    Answer,
    /// A fault's place is one byte off.
    Place,
    /// The word after the last start is not zeroed.
    Word,
    /// A depth is one too deep.
    Depth,
    /// The second number of an error is left as it was.
    Out,
    /// Item numbers lose their upper half.
    Index,
    /// A key that begins like the text is taken for it.
    Key,
    /// A refused call leaves 1 for any other word that is closed.
    Closed,
    /// An accepted call writes a byte after those that it should.
    Byte,
    /// A target is searched for in the whole table.
    Listed,
    /// The name of error 8 lacks its last letter.
    Name,
    /// Check has the place of a long list at its header.
    Header,
    /// Reading has the place of a long list of arguments before their count.
    Count,
    /// Reading takes a map of 2^63 pairs for an empty one.
    Doubled,
    /// Item access reports a long list as a long body.
    List,
    /// Skipping reports a long body of an item as cut.
    Skipped,
    /// Looking up reports a long body in the map as cut.
    LookedUp,
    /// Following reports a long list at the end of pointers as cut.
    Followed,
    /// The body reports a long body as cut, at its header.
    Body,
    /// Depths has the place of a long body at the end of the region.
    End,
    /// Check reports a length of 2^64 or more as a long body.
    Range,
    /// Check takes a surrogate for a character.
    Surrogate,
    /// Depths takes a surrogate for a character.
    SurrogateDeep,
    /// The writer takes a surrogate for a character, and check does not.
    SurrogateWritten,
    /// Check takes a long form of three bytes for a character.
    Long3,
    /// Check takes a long form of four bytes for a character.
    Long4,
    /// Check takes a number over 10FFFF for a character.
    Beyond,
    /// Check refuses the characters just before the surrogates.
    BeforeSurrogates,
    /// Check refuses the characters just after the surrogates.
    AfterSurrogates,
    /// The writer refuses the last characters.
    LastWritten,
    /// Check takes a text that is cut within its last character.
    Cut,
    /// Looking up does not find a key that is not a text.
    OddKey,
    /// The body of a text refuses bytes that are not one.
    OddBody,
    /// Check has the place of a bad text after its header.
    TextPlace,
    /// This call refuses padded numbers in the tolerant mode.
    Refusing(Asked),
    /// This call takes padded numbers in the strict mode.
    Taking(Asked),
    /// Every mode but strict is taken for the tolerant one.
    OtherMode,
    /// Only the lowest byte of the mode is looked at.
    LowMode,
    /// The tolerant mode reads a number of eleven bytes.
    Eleven,
    /// A tenth byte of 2 is taken, and its bit is lost.
    TenthTwo,
    /// The tolerant mode refuses a tenth byte of 0.
    TenthZero,
    /// Check takes padding only in the first number of a variant of many.
    FirstNumber,
    /// Check takes padding only in the second number of a variant of many.
    SecondNumber,
    /// A padded distance is from where the header would be if the number were not padded.
    Unpadded,
    /// Reading has a padded number's end where it would be if it were not padded.
    UnpaddedEnd,
    /// Looking up follows keys in the strict mode.
    StrictKeys,
    /// Depths looks for targets in the strict mode, and finds none in a value with a padded number.
    StrictTargets,
}

const TRUNC: u32 = 3;
const OVERLONG: u32 = 5;
const RANGE: u32 = 6;
const BAD_TEXT: u32 = 8;
const NO_ITEM: u32 = 13;
const LONG_BODY: u32 = 19;
const LONG_LIST: u32 = 20;

/// The header and the number of a map of 2^63 pairs.
const PAIRS: [u8; 10] = [0x7f, 0xf1, 0xff, 0xff, 0xff, 0xff, 0xff, 0xff, 0xff, 0x7f];

/// The kind of the value at an offset.
fn kind(file: &[u8], at: usize) -> Option<u8> {
    file.get(at).map(|header| header >> 4)
}

fn is_text(bytes: &[u8]) -> bool {
    std::str::from_utf8(bytes).is_ok()
}

impl Fault {
    /// Makes of a text what this fault takes it for.
    fn mistake(self, text: &mut [u8]) {
        for index in 1..text.len() {
            let taken_for = match (self, text[index - 1], text[index]) {
                (Self::Surrogate | Self::SurrogateDeep | Self::SurrogateWritten, 0xed, 0xa0..=0xbf) => 0x80,
                (Self::Long3, 0xe0, 0x80..=0x9f) => 0xa0,
                (Self::Long4, 0xf0, 0x80..=0x8f) => 0x90,
                (Self::Beyond, 0xf4, 0x90..=0xbf) => 0x80,
                (Self::BeforeSurrogates, 0xed, 0x9f) => 0xff,
                (Self::AfterSurrogates, 0xee, 0x80) => 0xff,
                (Self::LastWritten, 0xf4, 0x8f) => 0xff,
                _ => continue,
            };
            text[index] = taken_for;
        }
        if self == Self::Cut {
            let last = text.iter().rposition(|byte| *byte & 0xc0 != 0x80).unwrap_or(0);
            if std::str::from_utf8(&text[last..]).is_err_and(|error| error.error_len().is_none()) {
                text[last..].fill(b'?');
            }
        }
    }

    /// What a call takes a file for.
    fn seen(self, asked: Asked, file: &[u8]) -> Cow<'_, [u8]> {
        match (self, asked) {
            (
                Self::Surrogate
                | Self::Long3
                | Self::Long4
                | Self::Beyond
                | Self::BeforeSurrogates
                | Self::AfterSurrogates
                | Self::Cut,
                Asked::Check,
            )
            | (Self::SurrogateDeep, Asked::Depths) => with_texts(file, |text, _| self.mistake(text)).into(),
            (Self::TenthTwo, _) => without_tenth_twos(file).into(),
            (Self::Unpadded, _) => with_unpadded_distances(file).into(),
            _ => file.into(),
        }
    }

    /// The mode that a call goes by.
    fn mode(self, asked: Asked, mode: u32) -> u32 {
        match self {
            Self::Refusing(refusing) if refusing == asked => STRICT,
            Self::Taking(taking) if taking == asked => TOLERANT,
            Self::OtherMode if mode != STRICT => TOLERANT,
            Self::LowMode => mode & 0xff,
            _ => mode,
        }
    }

    /// Whether the tolerant mode refuses a token for its padding.
    fn refuses(self, file: &[u8], token: &Token) -> bool {
        let Token { at, kind, first, .. } = *token;
        let more = file[at + 1..].iter().take_while(|byte| **byte >= 0x80).count();
        // The end of the first number, if there is one.
        let end = if file[at] & 15 == 15 { at + 1 + more + 1 } else { at + 1 };
        match self {
            Self::FirstNumber => kind == 12 && padding(file, end, first) > 0,
            Self::SecondNumber => kind == 12 && padding(file, at + 1, end) > 0,
            Self::TenthZero => end == at + 11 && file[at + 10] == 0,
            _ => false,
        }
    }
}

/// The tokens of a file up to the first fault.
fn tokens(file: &[u8]) -> impl Iterator<Item = Token> + '_ {
    let region = file.split_last().map_or(file, |(_, region)| region);
    reference::tokens(region, Mode::Tolerant).map_while(Result::ok)
}

/// A file with each of its texts changed. `change` gets the bytes after the text too.
fn with_texts(file: &[u8], change: impl Fn(&mut [u8], &[u8])) -> Vec<u8> {
    let mut with = file.to_vec();
    for token in tokens(file).filter(|token| token.kind == 4) {
        change(&mut with[token.first..token.end], &file[token.end..]);
    }
    with
}

/// The writer's call for a text that is tested as if it were another of its length.
fn call_taking_for(state: &mut [u64; STATE], text: &[u8], other: &[u8], out: &mut [u8], starts: &mut [u32]) -> u32 {
    let number = ffi::call(state, Call::Text(other), out, starts);
    if number == 0 {
        out[state[0] as usize - text.len()..][..text.len()].copy_from_slice(text);
    }
    number
}

/// By how many bytes a number is padded: those zeros at its end that are not its first byte.
fn padding(file: &[u8], from: usize, end: usize) -> usize {
    file[(from + 1).min(end)..end].iter().rev().take_while(|byte| **byte & 0x7f == 0).count()
}

/// A file with 0 for each tenth byte of a number that is 2.
fn without_tenth_twos(file: &[u8]) -> Vec<u8> {
    let mut without = file.to_vec();
    for (header, bytes) in file.windows(11).enumerate() {
        if bytes[0] & 15 == 15 && bytes[1..10].iter().all(|byte| *byte >= 0x80) && bytes[10] == 2 {
            without[header + 10] = 0;
        }
    }
    without
}

/// A file with each padded distance less by the bytes of its padding.
fn with_unpadded_distances(file: &[u8]) -> Vec<u8> {
    let mut with = file.to_vec();
    for token in tokens(file).filter(|token| matches!(token.kind, 14 | 15)) {
        let number = token.at + 1..token.end;
        let more = padding(file, number.start, number.end) as u64;
        if let Some(less) = token.n.checked_sub(15 + more) {
            let mut bytes = Vec::new();
            make::number(&mut bytes, less, number.len());
            with[number].copy_from_slice(&bytes);
        }
    }
    with
}

impl Product for Fault {
    fn error_name(&self, number: u32, name: &mut [u8; ffi::NAME]) {
        ffi::error_name(number, name);
        if *self == Self::Name && number == 8 {
            name[7] = 0;
        }
    }

    fn check(&self, file: &[u8], mode: u32, starts: &mut [u32], out: &mut [u64; 2]) -> u32 {
        let mode = self.mode(Asked::Check, mode);
        let number = ffi::check(&self.seen(Asked::Check, file), mode, starts, out);
        match self {
            Self::Answer if number == 11 => 0,
            Self::Place if number == 9 => {
                out[0] += 1;
                number
            }
            Self::Word if number == 0 => {
                if let Some(word) = starts.get_mut(out[0] as usize) {
                    *word = 1;
                }
                number
            }
            Self::Header if number == LONG_LIST => {
                out[0] -= 1;
                number
            }
            Self::Range if number == RANGE && matches!(kind(file, out[0] as usize), Some(4 | 5)) => LONG_BODY,
            Self::TextPlace if number == BAD_TEXT => {
                out[0] += 1;
                number
            }
            Self::FirstNumber | Self::SecondNumber | Self::TenthZero if mode == TOLERANT => {
                match tokens(file).find(|token| self.refuses(file, token)) {
                    Some(token) if number == 0 || out[0] > token.at as u64 => {
                        starts.fill(0);
                        *out = [token.at as u64, 0];
                        OVERLONG
                    }
                    _ => number,
                }
            }
            _ => number,
        }
    }

    fn depths(&self, file: &[u8], mode: u32, starts: &mut [u32], depths: &mut [u32], out: &mut [u64; 2]) -> u32 {
        let mode = self.mode(Asked::Depths, mode);
        let number = ffi::depths(&self.seen(Asked::Depths, file), mode, starts, depths, out);
        match self {
            Self::Depth if number == 0 => depths[out[0] as usize - 1] += 1,
            Self::End if number == LONG_BODY => out[0] = file.len() as u64 - 1,
            Self::StrictTargets if number == 0 => {
                for (start, depth) in starts.iter().zip(depths).take(out[0] as usize) {
                    if ffi::skip(file, STRICT, *start as usize, &mut [0; 2]) == OVERLONG {
                        *depth = 1;
                    }
                }
            }
            _ => {}
        }
        number
    }

    fn read(&self, file: &[u8], mode: u32, at: usize, out: &mut [u64; 4]) -> u32 {
        let mode = self.mode(Asked::Read, mode);
        let number = ffi::read(&self.seen(Asked::Read, file), mode, at, out);
        match self {
            Self::Count if number == LONG_LIST && kind(file, at) == Some(12) => out[0] -= 1,
            Self::Doubled if number == LONG_LIST && file[at..].starts_with(&PAIRS) => {
                *out = [7, 1 << 63, out[0], 0];
                return 0;
            }
            Self::Eleven if number == RANGE && mode == TOLERANT && at + 12 < file.len() => {
                let (more, last) = (&file[at + 1..at + 11], file[at + 11]);
                if more.iter().all(|byte| *byte >= 0x80) && last == 0 {
                    *out = [u64::from(file[at] >> 4), 15, at as u64 + 12, 0];
                    return 0;
                }
            }
            Self::UnpaddedEnd if number == 0 && matches!(out[0], 1 | 2 | 10) => {
                out[2] -= padding(file, at + 1, out[2] as usize) as u64;
            }
            _ => {}
        }
        number
    }

    fn skip(&self, file: &[u8], mode: u32, at: usize, out: &mut [u64; 2]) -> u32 {
        let before = out[1];
        let number = ffi::skip(&self.seen(Asked::Skip, file), self.mode(Asked::Skip, mode), at, out);
        match self {
            Self::Out if number > 0 => out[1] = before,
            Self::Skipped if number == LONG_BODY && !matches!(kind(file, at), Some(4 | 5)) => return TRUNC,
            _ => {}
        }
        number
    }

    fn item(&self, file: &[u8], mode: u32, at: usize, index: usize, out: &mut [u64; 2]) -> u32 {
        let index = if *self == Self::Index { index as u32 as usize } else { index };
        let number = ffi::item(&self.seen(Asked::Item, file), self.mode(Asked::Item, mode), at, index, out);
        if *self == Self::List && number == LONG_LIST {
            return LONG_BODY;
        }
        number
    }

    fn follow(&self, file: &[u8], mode: u32, at: usize, out: &mut [u64; 2]) -> u32 {
        let number = ffi::follow(&self.seen(Asked::Follow, file), self.mode(Asked::Follow, mode), at, out);
        if *self == Self::Followed && number == LONG_LIST && kind(file, at) == Some(15) {
            return TRUNC;
        }
        number
    }

    fn lookup(&self, file: &[u8], mode: u32, at: usize, key: &[u8], out: &mut [u64; 2]) -> u32 {
        let mode = self.mode(Asked::Lookup, mode);
        let key = match key.split_last() {
            Some((_, shorter)) if *self == Self::Key => shorter,
            _ => key,
        };
        let number = ffi::lookup(&self.seen(Asked::Lookup, file), mode, at, key, out);
        match self {
            Self::LookedUp if number == LONG_BODY && kind(file, at) == Some(7) => TRUNC,
            Self::OddKey if number == 0 && !is_text(key) => {
                *out = [at as u64, 0];
                NO_ITEM
            }
            Self::StrictKeys if number == 0 && mode == TOLERANT => {
                // The key is a pointer before the value that is found, and leads to a padded text.
                let held = (at..out[0] as usize).rev().find(|held| kind(file, *held) == Some(15));
                let mut followed = [0; 2];
                match held.map(|held| ffi::follow(file, STRICT, held, &mut followed)) {
                    Some(OVERLONG) => {
                        *out = followed;
                        OVERLONG
                    }
                    _ => number,
                }
            }
            _ => number,
        }
    }

    fn body(&self, file: &[u8], mode: u32, at: usize, out: &mut [u64; 2]) -> u32 {
        let mode = self.mode(Asked::Body, mode);
        let number = ffi::body(&self.seen(Asked::Body, file), mode, at, out);
        match self {
            Self::Body if number == LONG_BODY => {
                out[0] -= 1;
                TRUNC
            }
            Self::OddBody if number == 0 && !is_text(&file[out[0] as usize..][..out[1] as usize]) => {
                let mut followed = [0; 2];
                ffi::follow(file, mode, at, &mut followed);
                if kind(file, followed[0] as usize) != Some(4) {
                    return number;
                }
                *out = [followed[0], 0];
                BAD_TEXT
            }
            _ => number,
        }
    }

    fn call(&self, state: &mut [u64; STATE], call: Call<'_>, out: &mut [u8], starts: &mut [u32]) -> u32 {
        if *self == Self::Listed && state[1] < starts.len() as u64 {
            state[1] += 1;
            let number = ffi::call(state, call, out, starts);
            state[1] -= 1;
            return number;
        }
        if let (Self::SurrogateWritten | Self::LastWritten, Call::Text(text)) = (self, call) {
            let mut mistaken = text.to_vec();
            self.mistake(&mut mistaken);
            return call_taking_for(state, text, &mistaken, out, starts);
        }
        let number = ffi::call(state, call, out, starts);
        match self {
            Self::Closed if number > 0 => state[4] = u64::from(state[4] != 0),
            Self::Byte if number == 0 => {
                if let Some(byte) = out.get_mut(state[0] as usize) {
                    *byte ^= 1;
                }
            }
            _ => {}
        }
        number
    }
}

/// Runs a section, or one case of it.
fn run_only<P: Product>(product: P, section: &str, seconds: u64, case: Option<u64>) -> Result<(), Failed> {
    let options = Options { seed: 1, time: Duration::from_secs(seconds), only: Some(section.into()), case };
    run(product, &options)
}

/// Runs a section until the fault is found, and then the case alone.
fn find_and_find_again(fault: impl Product + Copy + Debug, section: &str) {
    let Err(Failed { case }) = run_only(fault, section, 30, None) else {
        panic!("{fault:?} is not found");
    };
    assert_eq!(run_only(fault, section, 30, Some(case)), Err(Failed { case }), "{fault:?}");
}

#[test]
fn every_fault_is_found_and_found_again() {
    let faults = [
        (Fault::Answer, "short"),
        (Fault::Place, "short"),
        (Fault::Word, "written"),
        (Fault::Depth, "damaged"),
        (Fault::Out, "built"),
        (Fault::Index, "short"),
        (Fault::Key, "built"),
        (Fault::Closed, "states"),
        (Fault::Byte, "calls"),
        (Fault::Listed, "states"),
        (Fault::Name, "names"),
        (Fault::Header, "short"),
        (Fault::Header, "ends"),
        (Fault::Count, "built"),
        (Fault::Count, "ends"),
        (Fault::Doubled, "damaged"),
        (Fault::Doubled, "ends"),
        (Fault::List, "damaged"),
        (Fault::List, "ends"),
        (Fault::Skipped, "damaged"),
        (Fault::Skipped, "ends"),
        (Fault::LookedUp, "damaged"),
        (Fault::LookedUp, "ends"),
        (Fault::Followed, "damaged"),
        (Fault::Followed, "ends"),
        (Fault::Body, "short"),
        (Fault::Body, "ends"),
        (Fault::End, "built"),
        (Fault::End, "ends"),
        (Fault::Range, "built"),
        (Fault::Range, "ends"),
    ];
    for (fault, section) in faults {
        find_and_find_again(fault, section);
    }
}

#[test]
fn every_fault_of_texts_is_found_and_found_again() {
    let faults = [
        (Fault::Surrogate, "text"),
        (Fault::Surrogate, "built"),
        (Fault::SurrogateDeep, "text"),
        (Fault::SurrogateDeep, "built"),
        (Fault::SurrogateWritten, "text"),
        (Fault::SurrogateWritten, "calls"),
        (Fault::SurrogateWritten, "states"),
        (Fault::Long3, "text"),
        (Fault::Long3, "built"),
        (Fault::Long4, "text"),
        (Fault::Long4, "built"),
        (Fault::Beyond, "text"),
        (Fault::Beyond, "built"),
        (Fault::BeforeSurrogates, "text"),
        (Fault::BeforeSurrogates, "written"),
        (Fault::AfterSurrogates, "text"),
        (Fault::AfterSurrogates, "written"),
        (Fault::LastWritten, "text"),
        (Fault::LastWritten, "calls"),
        (Fault::Cut, "text"),
        (Fault::Cut, "built"),
        (Fault::OddKey, "text"),
        (Fault::OddKey, "built"),
        (Fault::OddBody, "text"),
        (Fault::OddBody, "built"),
        (Fault::TextPlace, "text"),
        (Fault::TextPlace, "damaged"),
    ];
    for (fault, section) in faults {
        find_and_find_again(fault, section);
    }
}

#[test]
fn every_fault_of_modes_is_found_and_found_again() {
    let of_calls = Asked::IN_MODES.into_iter().flat_map(|asked| [Fault::Refusing(asked), Fault::Taking(asked)]);
    for fault in of_calls {
        find_and_find_again(fault, "padded");
    }
    let faults = [
        (Fault::Refusing(Asked::Check), "built"),
        (Fault::Taking(Asked::Check), "damaged"),
        (Fault::OtherMode, "padded"),
        (Fault::OtherMode, "ends"),
        (Fault::LowMode, "padded"),
        (Fault::LowMode, "damaged"),
        (Fault::Eleven, "padded"),
        (Fault::Eleven, "built"),
        (Fault::TenthTwo, "padded"),
        (Fault::TenthTwo, "built"),
        (Fault::TenthZero, "padded"),
        (Fault::FirstNumber, "padded"),
        (Fault::FirstNumber, "ends"),
        (Fault::SecondNumber, "padded"),
        (Fault::SecondNumber, "ends"),
        (Fault::Unpadded, "padded"),
        (Fault::Unpadded, "ends"),
        (Fault::UnpaddedEnd, "padded"),
        (Fault::UnpaddedEnd, "built"),
        (Fault::StrictKeys, "padded"),
        (Fault::StrictTargets, "padded"),
    ];
    for (fault, section) in faults {
        find_and_find_again(fault, section);
    }
}

#[test]
fn the_archive_has_no_fault() {
    for section in ["names", "written", "built", "damaged", "ends", "prune", "calls", "states"] {
        assert_eq!(run_only(Archive, section, 1, None), Ok(()), "{section}");
    }
    // The first texts are those at the narrowed borders; all of them would take a debug build more than a minute.
    for case in 0..60 {
        assert_eq!(run_only(Archive, "text", 1, Some(case)), Ok(()), "text {case}");
    }
    // A few lengths and places, for the same reason.
    for case in (0..labels::CASES).step_by(37) {
        assert_eq!(run_only(Archive, "labels", 1, Some(case)), Ok(()), "labels {case}");
    }
}

/// What is met in some cases of a section.
fn comparer_of(name: &str, cases: impl Iterator<Item = u64>) -> Comparer<Archive> {
    let mut comparer = Comparer::new(Archive);
    let section = sections::all().into_iter().find(|section| section.name == name).expect("the section");
    for number in cases {
        let case = Case { number, random: Random::new(1, name, number) };
        assert_eq!((section.run)(&mut comparer, case), Ok(()), "case {number} of {name}");
    }
    comparer
}

/// "All reading calls .. take the choice": each of them meets numbers that only the tolerant mode reads, and often.
#[test]
fn every_call_meets_padded_numbers() {
    let of_each_part = (0..SYSTEMATIC).step_by(11).chain(SYSTEMATIC..SYSTEMATIC + 1000);
    let comparer = comparer_of("padded", of_each_part);
    for asked in Asked::IN_MODES {
        let met = comparer.padded_by(asked);
        assert!(met > 100, "{} {met} times", asked.name());
    }
}

/// "Every caller that passes a refusal on passes the new ones": each of them meets each end, and often.
#[test]
fn every_call_meets_every_end() {
    let comparer = comparer_of("ends", 0..200);
    for kind in ENDS {
        for asked in Asked::OF_FILES {
            let met = comparer.met_by(asked, kind.number().into());
            assert!(met > 100, "{kind} of {} {met} times", asked.name());
        }
    }
}
