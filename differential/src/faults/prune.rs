//! Faults of prune.

use reference::{Call, Mode};

use super::find_and_find_again;
use crate::ffi::{self, STRICT, TOLERANT};
use crate::product::Product;

/// The archive with a fault in prune.
#[derive(Clone, Copy, Debug, PartialEq, Eq)]
enum Fault {
    /// References are not followed.
    References,
    /// A pointer that is a value itself is not followed.
    OwnPointer,
    /// If something is dead, all of it is kept.
    Kept,
    /// What comes after the entry is kept.
    AfterEntry,
    /// Distances are not worked out anew; here that of the delta byte, which is the old one.
    OldDelta,
    /// The entry is reported by its old offset.
    OldEntry,
    /// The output past the new file is zeroed.
    Past,
    /// On an error of the new file the output is left as it was.
    OutputLeft,
    /// On an error of check the output is left as it was.
    OutputLeftByCheck,
    /// On an error only as many bytes are zeroed as the file has.
    OutputTail,
    /// On an error of the new file the old table is left as check filled it.
    OldTableLeft,
    /// On an error of check the new table is left as it was.
    NewTableLeftByCheck,
    /// The word after the last start of the new table is not zeroed.
    NewWord,
    /// The old table has a mark left in the entry's word.
    Mark,
    /// FULL of the new table is reported as NO_ROOM.
    FullAsNoRoom,
    /// FULL of the new table comes with the place of the value without a word.
    FullPlace,
    /// FULL comes first whenever the new table is too short, and not by the first call that is refused.
    FullFirst,
    /// NO_ROOM comes before FULL whenever the output is too short.
    NoRoomFirst,
    /// The output has to be as long as the old file.
    RoomForOld,
    /// The new table has to have a word for each value of the old file.
    WordsForOld,
    /// FULL of the new table comes before the errors of check.
    FullBeforeCheck,
    /// Padded numbers are read.
    Padded,
    /// An error leaves the second number as it was.
    Told,
}

const OVERLONG: u32 = 5;
const FULL: u32 = 10;
const NO_ROOM: u32 = 15;

/// A file that was pruned with enough memory: what was reported, the new file and both tables.
struct Whole {
    told: [u64; 3],
    out: Vec<u8>,
    old: Vec<u32>,
    new: Vec<u32>,
}

impl Whole {
    /// None if check refuses the file.
    fn new(file: &[u8]) -> Option<Self> {
        let (mut out, mut old, mut new, mut told) = (vec![0; file.len()], vec![0; file.len()], vec![0; file.len()], [0; 3]);
        (ffi::prune(file, &mut out, &mut old, &mut new, &mut told) == 0).then_some(Self { told, out, old, new })
    }

    fn length(&self) -> usize {
        self.told[0] as usize
    }

    fn count(&self) -> usize {
        self.told[1] as usize
    }

    /// How many values the old file has.
    fn old_count(&self) -> usize {
        1 + self.old.iter().rposition(|start| *start > 0).unwrap_or(0)
    }

    /// Whether some value or item of the new file is a call of this kind.
    fn has(&self, is_such: impl Fn(Call<'_>, bool) -> bool) -> bool {
        let file = &self.out[..self.length()];
        super::tokens(file).any(|token| {
            let is_value = self.new[..self.count()].contains(&(token.at as u32));
            Call::of(file, Mode::Strict, token.at as u64).is_ok_and(|call| is_such(call, is_value))
        })
    }

    /// The old file as if it were the new one, if it fits.
    fn hand_back(&self, file: &[u8], out: &mut [u8], new_starts: &mut [u32], told: &mut [u64; 3]) {
        let (length, count) = (file.len(), self.old_count());
        if length <= out.len() && count <= new_starts.len() {
            out[..length].copy_from_slice(file);
            new_starts[..count].copy_from_slice(&self.old[..count]);
            *told = [length as u64, count as u64, (length - 1 - usize::from(file[length - 1]) - 1) as u64];
        }
    }
}

impl Product for Fault {
    fn prune(&self, file: &[u8], out: &mut [u8], old_starts: &mut [u32], new_starts: &mut [u32], told: &mut [u64; 3]) -> u32 {
        let (before, new_before, told_before) = (out.to_vec(), new_starts.to_vec(), *told);
        let number = ffi::prune(file, out, old_starts, new_starts, told);
        let whole = Whole::new(file);
        // Whether check, given the old table, refuses the file.
        let is_check = number > 0 && ffi::check(file, STRICT, &mut vec![0; old_starts.len()], &mut [0; 2]) > 0;
        let entry = file.len().wrapping_sub(2).wrapping_sub(file.last().copied().unwrap_or(0).into());
        let Some(whole) = whole.filter(|_| !is_check) else {
            match self {
                Self::OutputLeftByCheck => out.copy_from_slice(&before),
                Self::NewTableLeftByCheck => new_starts.copy_from_slice(&new_before),
                Self::OutputTail if out.len() > file.len() => out[file.len()..].copy_from_slice(&before[file.len()..]),
                Self::FullBeforeCheck if new_starts.is_empty() => {
                    *told = [0; 3];
                    return FULL;
                }
                Self::Padded
                    if number == OVERLONG && ffi::check(file, TOLERANT, &mut vec![0; old_starts.len()], &mut [0; 2]) == 0 =>
                {
                    return 0;
                }
                Self::Told => told[1] = told_before[1],
                _ => {}
            }
            return number;
        };
        let (length, count) = (whole.length(), whole.count());
        match (self, number) {
            (Self::References, 0) if whole.has(|call, _| matches!(call, Call::Reference(_))) => told[1] -= 1,
            (Self::OwnPointer, 0) if whole.has(|call, is_value| is_value && matches!(call, Call::Pointer(_))) => told[1] -= 1,
            (Self::Kept, 0) if count < whole.old_count() => whole.hand_back(file, out, new_starts, told),
            (Self::AfterEntry, 0) if count < whole.old_count() && whole.old[..count] == whole.new[..count] => {
                whole.hand_back(file, out, new_starts, told);
            }
            (Self::OldDelta, 0) => out[length - 1] = file[file.len() - 1],
            (Self::OldEntry, 0) => told[2] = entry as u64,
            (Self::Past, 0) => out[length..].fill(0),
            (Self::OutputLeft, 1..) => out.copy_from_slice(&before),
            (Self::OutputTail, 1..) if out.len() > file.len() => out[file.len()..].copy_from_slice(&before[file.len()..]),
            (Self::OldTableLeft, 1..) => {
                ffi::check(file, STRICT, old_starts, &mut [0; 2]);
            }
            (Self::NewWord, 0) if count < new_starts.len() => new_starts[count] = new_before[count],
            (Self::Mark, 0) => {
                let word = old_starts.iter_mut().find(|start| **start == entry as u32);
                word.into_iter().for_each(|word| *word |= 1);
            }
            (Self::FullAsNoRoom, FULL) => return NO_ROOM,
            (Self::FullPlace, FULL) => told[0] = whole.new[new_starts.len()].into(),
            (Self::FullFirst, NO_ROOM) if new_starts.len() < count => return FULL,
            (Self::NoRoomFirst, FULL) if out.len() < length => return NO_ROOM,
            (Self::RoomForOld, 0) if out.len() < file.len() => return refused(NO_ROOM, out, old_starts, new_starts, told),
            (Self::WordsForOld, 0) if new_starts.len() < whole.old_count() => {
                return refused(FULL, out, old_starts, new_starts, told);
            }
            (Self::Told, 1..) => told[1] = told_before[1],
            _ => {}
        }
        number
    }
}

/// An error of the new file.
fn refused(number: u32, out: &mut [u8], old_starts: &mut [u32], new_starts: &mut [u32], told: &mut [u64; 3]) -> u32 {
    out.fill(0);
    old_starts.fill(0);
    new_starts.fill(0);
    *told = [0; 3];
    number
}

#[test]
fn every_fault_of_prune_is_found_and_found_again() {
    let faults = [
        (Fault::References, "prune"),
        (Fault::References, "written"),
        (Fault::OwnPointer, "prune"),
        (Fault::OwnPointer, "built"),
        (Fault::Kept, "prune"),
        (Fault::Kept, "damaged"),
        (Fault::AfterEntry, "prune"),
        (Fault::AfterEntry, "built"),
        (Fault::OldDelta, "prune"),
        (Fault::OldEntry, "prune"),
        (Fault::OldEntry, "built"),
        (Fault::Past, "prune"),
        (Fault::Past, "written"),
        (Fault::OutputLeft, "prune"),
        (Fault::OutputLeftByCheck, "prune"),
        (Fault::OutputLeftByCheck, "damaged"),
        (Fault::OutputTail, "prune"),
        (Fault::OutputTail, "ends"),
        (Fault::OldTableLeft, "prune"),
        (Fault::NewTableLeftByCheck, "prune"),
        (Fault::NewTableLeftByCheck, "ends"),
        (Fault::NewWord, "prune"),
        (Fault::NewWord, "built"),
        (Fault::Mark, "prune"),
        (Fault::Mark, "written"),
        (Fault::FullAsNoRoom, "prune"),
        (Fault::FullPlace, "prune"),
        (Fault::FullFirst, "prune"),
        (Fault::NoRoomFirst, "prune"),
        (Fault::RoomForOld, "prune"),
        (Fault::WordsForOld, "prune"),
        (Fault::FullBeforeCheck, "prune"),
        (Fault::Padded, "prune"),
        (Fault::Padded, "padded"),
        (Fault::Told, "prune"),
        (Fault::Told, "short"),
    ];
    for (fault, section) in faults {
        find_and_find_again(fault, section);
    }
}
