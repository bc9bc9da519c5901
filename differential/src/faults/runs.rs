//! Faults of the test of text that takes eight plain bytes at once.

use reference::Call;

use super::{call_taking_for, find_and_find_again, with_texts};
use crate::compare::Asked;
use crate::ffi::{self, STATE};
use crate::product::Product;

/// The archive with a fault in check or in the writer's call for a text.
#[derive(Clone, Copy, Debug, PartialEq, Eq)]
struct Fault {
    asked: Asked,
    run: Run,
}

/// What goes wrong.
#[derive(Clone, Copy, Debug, PartialEq, Eq)]
enum Run {
    /// This one of the eight bytes of a word is not tested.
    Untested(usize),
    /// A word may have bytes of 80.
    Eighty,
    /// After a plain word, a word passes if it begins with a plain byte.
    GoesOn,
    /// The last word begins a byte too early, so that the last byte is not tested.
    EndsEarly,
    /// The last word has the last bytes of the word before it instead of those at the end.
    NoOverlap,
    /// The last word begins at the label's end.
    BeginsAtEnd,
    /// The last bytes, and those after the label up to eight, have to be plain.
    GoesPastEnd,
    /// Of four to seven bytes the first four are tested alone.
    FirstFour,
    /// Of four to seven bytes the last four are tested alone.
    LastFour,
}

/// A plain byte.
const PLAIN: u8 = b'?';

/// A byte that is in no text.
const NEVER: u8 = 0xff;

fn is_plain(bytes: &[u8]) -> bool {
    bytes.iter().all(|byte| *byte < 0x80)
}

/// How many bytes the character with this first byte has.
fn width(lead: u8) -> usize {
    match lead {
        0xc2..=0xdf => 2,
        0xe0..=0xef => 3,
        0xf0..=0xf4 => 4,
        _ => 1,
    }
}

impl Run {
    /// Whether a word passes for a plain one, after a plain one or not.
    fn passes(self, word: &[u8], is_after_plain: bool) -> bool {
        match self {
            Self::Untested(index) => is_plain(&word[..index]) && is_plain(&word[index + 1..]),
            Self::Eighty => word.iter().all(|byte| *byte <= 0x80),
            Self::GoesOn if is_after_plain => word[0] < 0x80,
            _ => is_plain(word),
        }
    }

    /// Makes of a text what this fault takes it for. It gets the bytes after the text too.
    fn mistake(self, text: &mut [u8], after: &[u8]) {
        let length = text.len();
        if length < 8 {
            let tested = match (self, length) {
                (Self::FirstFour, 4..) => &text[..4],
                (Self::LastFour, 4..) => &text[length - 4..],
                _ => return,
            };
            if is_plain(tested) {
                text.fill(PLAIN);
            }
            return;
        }
        let (mut at, mut is_after_plain) = (0, false);
        while at + 8 <= length {
            let next = at + 8;
            is_after_plain = self.passes(&text[at..next], is_after_plain);
            if is_after_plain {
                text[at..next].fill(PLAIN);
            }
            while at < next && at < length {
                at += width(text[at]);
            }
        }
        if at >= length {
            return;
        }
        let is_taken = match self {
            Self::EndsEarly => length > 8 && is_plain(&text[length - 9..length - 1]),
            Self::NoOverlap => is_plain(&text[at.saturating_sub(8)..at]),
            Self::BeginsAtEnd => after.get(..8).is_some_and(is_plain),
            _ => false,
        };
        if is_taken {
            text[at..].fill(PLAIN);
        }
        if self == Self::GoesPastEnd && !after.iter().take(at + 8 - length).all(|byte| *byte < 0x80) {
            text[length - 1] = NEVER;
        }
    }
}

impl Product for Fault {
    fn check(&self, file: &[u8], mode: u32, starts: &mut [u32], out: &mut [u64; 2]) -> u32 {
        if self.asked != Asked::Check {
            return ffi::check(file, mode, starts, out);
        }
        ffi::check(&with_texts(file, |text, after| self.run.mistake(text, after)), mode, starts, out)
    }

    fn call(&self, state: &mut [u64; STATE], call: Call<'_>, out: &mut [u8], starts: &mut [u32]) -> u32 {
        match call {
            Call::Text(text) if self.asked == Asked::Call => {
                let mut mistaken = text.to_vec();
                self.run.mistake(&mut mistaken, &[]);
                call_taking_for(state, text, &mistaken, out, starts)
            }
            _ => ffi::call(state, call, out, starts),
        }
    }
}

#[test]
fn every_fault_of_runs_is_found_and_found_again() {
    let of_both = [
        Run::Untested(0),
        Run::Untested(7),
        Run::Eighty,
        Run::GoesOn,
        Run::EndsEarly,
        Run::NoOverlap,
        Run::FirstFour,
        Run::LastFour,
    ];
    // A call is handed nothing after its text.
    let of_check = (1..7).map(Run::Untested).chain([Run::BeginsAtEnd, Run::GoesPastEnd]).chain(of_both);
    for run in of_check {
        find_and_find_again(Fault { asked: Asked::Check, run }, "labels");
    }
    for run in of_both {
        find_and_find_again(Fault { asked: Asked::Call, run }, "labels");
    }
    for (asked, run, section) in [
        (Asked::Check, Run::Untested(7), "text"),
        (Asked::Check, Run::Eighty, "text"),
        (Asked::Call, Run::EndsEarly, "text"),
        (Asked::Check, Run::GoesPastEnd, "text"),
        (Asked::Check, Run::GoesOn, "built"),
        (Asked::Call, Run::GoesOn, "calls"),
    ] {
        find_and_find_again(Fault { asked, run }, section);
    }
}
