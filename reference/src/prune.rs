//! Pruning a file: "Rows get rebuilt and dead frames stay in the file."

use std::mem;
use std::ops::Range;

use crate::call::Call;
use crate::check::check;
use crate::error::{Error, ErrorKind};
use crate::file;
use crate::leb128::Mode;
use crate::scan::Checked;
use crate::token::{self, Token};
use crate::writer::Writer;

/// "Told are the new file's length, count and entry."
#[derive(Clone, Copy, Debug, PartialEq, Eq)]
pub struct Pruned {
    /// The bytes of the new file.
    pub length: usize,
    /// The number of its values.
    pub count: usize,
    /// The offset of its entry.
    pub entry: usize,
}

/// Why a file is not pruned: "Check's refusals come first, then FULL and `NO_ROOM` as the writer gives them."
#[derive(Clone, Copy, Debug, PartialEq, Eq)]
pub enum Refusal {
    /// Check refuses the file, with a place.
    Check(Error),
    /// The writer refuses a call of the new file. "Writer refusals have no place."
    Writer(ErrorKind),
}

/// Prunes a file: "From an accepted file, write into a lent output exactly the values some descent from the entry reaches, each
/// once, in their old order, distances worked out anew, closed at the entry."
///
/// "A starts table for the old file and one for the new are lent, filled as by check. On refusal output and tables are all
/// zero; otherwise output past the new file is unchanged." "Strict manner only."
pub fn prune(file: &[u8], out: &mut [u8], old_starts: &mut [u32], new_starts: &mut [u32]) -> Result<Pruned, Refusal> {
    let answer = check(file, Mode::Strict, old_starts).map_err(Refusal::Check).and_then(|Checked { count, entry }| {
        write_reached(file, &old_starts[..count], entry, out, new_starts).map_err(Refusal::Writer)
    });
    if answer.is_err() {
        out.fill(0);
        old_starts.fill(0);
        new_starts.fill(0);
    }
    answer
}

/// Writes what the entry of an accepted file reaches. The first refused call decides, and then output and table hold what the
/// calls before it have left.
fn write_reached(file: &[u8], starts: &[u32], entry: usize, out: &mut [u8], new_starts: &mut [u32]) -> Result<Pruned, ErrorKind> {
    let row = Row::new(file, starts);
    let reached = row.reached(row.number(entry));
    // Where each value that is reached starts now.
    let mut moved = vec![0; starts.len()];
    let mut writer = Writer::new();
    for number in (0..starts.len()).filter(|number| reached[*number]) {
        moved[number] = writer.written;
        for token in row.tokens(number) {
            let call = match Call::of(file, Mode::Strict, token.at as u64).expect("check has read it") {
                Call::Reference(target) => Call::Reference(moved[row.number(target as usize)]),
                Call::Pointer(target) => Call::Pointer(moved[row.number(target as usize)]),
                call => call,
            };
            writer = after(writer, call, out, new_starts)?;
        }
    }
    writer = after(writer, Call::Close(moved[row.number(entry)]), out, new_starts)?;
    let length = writer.written as usize;
    // "The new file is accepted", and its table is "filled as by check".
    let Checked { count, entry } = check(&out[..length], Mode::Strict, new_starts).expect("the new file is accepted");
    Ok(Pruned { length, count, entry })
}

/// The state after a call, or its refusal.
#[inline(never)]
fn after(writer: Writer, call: Call<'_>, out: &mut [u8], starts: &mut [u32]) -> Result<Writer, ErrorKind> {
    let (answer, next) = writer.step(call, out, starts);
    answer.map(|()| next)
}

/// The values of an accepted file, by their numbers in the row.
struct Row<'f> {
    region: &'f [u8],
    starts: &'f [u32],
}

impl<'f> Row<'f> {
    fn new(file: &'f [u8], starts: &'f [u32]) -> Self {
        let (region, _) = file::split(file).expect("check has split it");
        Self { region, starts }
    }

    /// The number of the value that starts at an offset.
    fn number(&self, start: usize) -> usize {
        self.starts.binary_search(&(start as u32)).expect("a target or the entry is the start of a value")
    }

    /// The bytes of a value with its items.
    fn bytes(&self, number: usize) -> Range<usize> {
        let end = self.starts.get(number + 1).map_or(self.region.len(), |next| *next as usize);
        self.starts[number] as usize..end
    }

    /// The token of a value, and those of its items.
    fn tokens(&self, number: usize) -> impl Iterator<Item = Token> + '_ {
        let Range { start: mut at, end } = self.bytes(number);
        std::iter::from_fn(move || {
            let token = (at < end).then(|| token::read(self.region, Mode::Strict, at).expect("check has read it"))?;
            at = token.end;
            Some(token)
        })
    }

    /// Which values some descent from a value reaches, itself among them: "A descent goes from a value to any value targeted by
    /// a pointer or reference that it is or holds."
    fn reached(&self, from: usize) -> Vec<bool> {
        let mut reached = vec![false; self.starts.len()];
        let mut next = vec![from];
        while let Some(number) = next.pop() {
            if !mem::replace(&mut reached[number], true) {
                let targets = self.tokens(number).filter_map(|token| token.target());
                next.extend(targets.map(|target| self.number(target)).filter(|target| !reached[*target]));
            }
        }
        reached
    }
}

#[cfg(test)]
mod tests {
    use super::*;
    use crate::error::ErrorKind::*;
    use crate::testing::{hex, refusal, DOCUMENT_001, JUNK};

    const JUNK_BYTE: u8 = 0xaa;

    /// Prunes a file into junk of these lengths. Returns the answer with output and tables.
    fn pruned(file: &str, room: usize, words: [usize; 2]) -> (Result<Pruned, Refusal>, Vec<u8>, [Vec<u32>; 2]) {
        let mut out = vec![JUNK_BYTE; room];
        let [mut old, mut new] = words.map(|words| vec![JUNK; words]);
        let answer = prune(&hex(file), &mut out, &mut old, &mut new);
        (answer, out, [old, new])
    }

    /// A file and what pruning makes of it, with these starts: in just enough memory, and in more.
    fn becomes(file: &str, new: &str, starts: &[u32], entry: usize) {
        let bytes = hex(file);
        let mut old_starts = vec![0; bytes.len()];
        let old_count = check(&bytes, Mode::Strict, &mut old_starts).expect("an accepted file").count;
        let new = hex(new);
        for more in [0, 1, 9] {
            let (answer, out, [old_table, new_table]) = pruned(file, new.len() + more, [old_count + more, starts.len() + more]);
            assert_eq!(answer, Ok(Pruned { length: new.len(), count: starts.len(), entry }), "{file}");
            assert_eq!(out, [&new[..], &vec![JUNK_BYTE; more]].concat(), "{file}");
            assert_eq!(old_table, [&old_starts[..old_count], &vec![0; more]].concat(), "{file}");
            assert_eq!(new_table, [starts, &vec![0; more]].concat(), "{file}");
        }
        for room in 0..new.len() {
            refused(file, room, [old_count, starts.len()], Refusal::Writer(NoRoom));
        }
        for words in 0..starts.len() {
            refused(file, new.len(), [old_count, words], Refusal::Writer(Full));
        }
        for (words, start) in old_starts[..old_count].iter().enumerate() {
            let full = refusal(Full, u64::from(*start));
            refused(file, new.len(), [words, starts.len()], Refusal::Check(full));
        }
    }

    /// A refusal, after which all memory is zero.
    fn refused(file: &str, room: usize, words: [usize; 2], refusal: Refusal) {
        let (answer, out, tables) = pruned(file, room, words);
        assert_eq!(answer, Err(refusal), "{file} with {room} bytes and {words:?} words");
        assert!(out.iter().all(|byte| *byte == 0));
        assert!(tables.concat().iter().all(|word| *word == 0));
    }

    #[test]
    fn nothing_is_dead() {
        becomes("00 00", "00 00", &[0], 0);
        becomes(DOCUMENT_001, DOCUMENT_001, &[0, 6, 8, 11], 11);
        becomes("61 1f 1b 64 f3 11 12 13 04", "61 1f 1b 64 f3 11 12 13 04", &[0, 3], 3);
    }

    #[test]
    fn dead_values_before_between_and_after_the_entry() {
        becomes("10 11 00", "11 00", &[0], 0);
        becomes("10 11 01", "10 00", &[0], 0);
        becomes("10 11 f1 00", "10 f0 00", &[0, 1], 1);
        becomes("10 f0 11 12 02", "10 f0 00", &[0, 1], 1);
        // The arrays at 1 and at 5 are dead, although they lead to what is reached, and the one to the other.
        becomes("10 61 f1 12 f0 62 f4 f3 03", "12 f0 00", &[0, 1], 1);
        becomes("02 2f 0b 30 01 02 03 04 41 61 51 ff 61 10 71 10 11 80 10 a1 b0 10 c0 01 10 13 00", "13 00", &[0], 0);
    }

    #[test]
    fn references_reach_too() {
        becomes("10 11 e1 00", "10 e0 00", &[0, 1], 1);
        becomes("10 11 61 e2 f1 00", "10 61 e1 f1 00", &[0, 1, 3], 3);
        let every_kind = "10 80 e1 b0 e2 c0 01 e3 71 10 e4 02";
        becomes(every_kind, every_kind, &[0, 1, 3, 5, 8], 8);
    }

    #[test]
    fn a_value_is_written_once() {
        becomes("10 11 63 f2 e3 f4 62 f4 f7 02", "10 63 f1 e2 f3 62 f4 f6 02", &[0, 1, 5], 5);
    }

    #[test]
    fn a_shorter_distance_takes_fewer_bytes() {
        let label = format!("4f 05 {}", "61".repeat(20));
        becomes(&format!("10 {label} ff 07 01"), "10 f0 00", &[0, 1], 1);
        becomes(&format!("10 {label} 11 ff 08 01"), "10 f0 00", &[0, 1], 1);
        becomes(&format!("10 {label} 62 ff 08 10 03"), "10 62 f1 10 02", &[0, 1], 1);
        // The label is kept: the one distance is over it, and the other is to it.
        becomes(&format!("10 11 {label} 62 ff 09 ff 09 04"), &format!("10 {label} 62 ff 08 ff 09 04"), &[0, 1, 23], 23);
    }

    #[test]
    fn an_entry_of_256_bytes_and_a_pointer_to_it() {
        let long = format!("5f ee 01 {}", "ff".repeat(253));
        becomes(&format!("10 {long} ff"), &format!("{long} ff"), &[0], 0);
        becomes(&format!("11 {long} 10 ff f1 01 02"), &format!("{long} ff f0 01 02"), &[0, 256], 256);
    }

    #[test]
    fn the_first_refused_call_decides() {
        let file = "42 61 61 61 f3 01";
        for (room, kind) in [(0, NoRoom), (1, NoRoom), (2, NoRoom), (3, NoRoom), (4, Full), (5, Full), (6, Full), (99, Full)] {
            refused(file, room, [2, 1], Refusal::Writer(kind));
            refused(file, room, [2, 0], Refusal::Writer(Full));
        }
        refused(file, 5, [2, 2], Refusal::Writer(NoRoom));
        refused(file, 5, [9, 9], Refusal::Writer(NoRoom));
        refused(file, 99, [1, 9], Refusal::Check(refusal(Full, 3)));
        becomes(file, file, &[0, 3], 3);
    }

    #[test]
    fn refusals_of_check_come_first() {
        for (file, kind, place) in [
            ("", Empty, 0),
            ("00", BadEntry, 0),
            ("61 f0 01", BadTarget, 1),
            ("1f 80 00 02", Overlong, 0),
            ("10 1f 9b 80 80 80 00 06", Overlong, 1),
            ("61 61 00 02", Nested, 1),
            ("43 ed a0 80 03", BadText, 0),
            ("61 45 61 00", LongBody, 2),
            ("7f f1 ff ff ff ff ff ff ff 7f 00", LongList, 10),
            ("10 80 00", Trunc, 2),
            ("41 61 41 61 00", BadEntry, 4),
        ] {
            for (room, words) in [(0, 0), (1, 0), (0, 1), (40, 40)] {
                refused(file, room, [40, words], Refusal::Check(refusal(kind, place)));
            }
        }
        refused("10 11 00", 0, [0, 0], Refusal::Check(refusal(Full, 0)));
        refused("10 11 00", 0, [1, 0], Refusal::Check(refusal(Full, 1)));
        refused("10 11 00", 0, [2, 0], Refusal::Writer(Full));
        refused("10 11 00", 0, [2, 1], Refusal::Writer(NoRoom));
    }
}
