//! The walk over a row that check and depths share.
//!
//! "Check goes left to right and the first fault wins." A value or item that is surely without fault, in either mode, is passed
//! quickly; all others are decided by their tokens in the order of document 01.

use crate::error::{Error, ErrorKind};
use crate::file::{self, MAX_LEN};
use crate::kind::{Class, HEADERS, TEXT};
use crate::leb128::{self, Mode};
use crate::token::{self, Token};
use crate::utf8;

/// The starts are counted by blocks of this many bytes of the file.
const BLOCK: usize = 4096;

/// Regions up to this length make do with a short table of blocks.
const SMALL: usize = 16 * BLOCK;

/// What is found in an accepted file.
#[derive(Clone, Copy, Debug, PartialEq, Eq)]
pub struct Checked {
    /// The number of values of the row.
    pub count: usize,
    /// The offset of the entry: "the value that starts at p - delta - 1".
    pub entry: usize,
}

/// What a walk notes besides the starts.
pub(crate) trait Note {
    /// The value that is walked over is, or holds, a pointer or reference to the value of this number.
    fn target(&mut self, number: usize);
    /// The value of this number is finished.
    fn finished(&mut self, number: usize);
}

/// Walks over a whole file. The starts of the values are put into the first words of `starts`; on a refusal those words hold
/// the starts found so far.
pub(crate) fn scan<N: Note>(file: &[u8], mode: Mode, starts: &mut [u32], note: &mut N) -> Result<Checked, Error> {
    let (region, delta) = file::split(file)?;
    if region.len() <= SMALL {
        let mut before = [0; SMALL / BLOCK + 1];
        walk(region, mode, delta, starts, &mut before, note)
    } else {
        scan_large(region, mode, delta, starts, note)
    }
}

#[inline(never)]
fn scan_large<N: Note>(region: &[u8], mode: Mode, delta: u8, starts: &mut [u32], note: &mut N) -> Result<Checked, Error> {
    let mut before = [0; MAX_LEN / BLOCK + 1];
    walk(region, mode, delta, starts, &mut before, note)
}

/// The starts of the finished values.
struct Row<'t> {
    /// The lent table.
    starts: &'t mut [u32],
    /// How many of its words are in use.
    count: usize,
    /// How many starts lie before each block; kept up to one after `block`.
    before: &'t mut [u32],
    /// The block of the last start.
    block: usize,
}

impl Row<'_> {
    /// Lists one more start, for which there is a word.
    #[inline(always)]
    fn list(&mut self, start: usize) {
        while self.block < start / BLOCK {
            self.block += 1;
            self.before[self.block + 1] = self.count as u32;
        }
        self.starts[self.count] = start as u32;
        self.count += 1;
        self.before[self.block + 1] = self.count as u32;
    }

    /// The number of the finished value that starts at `offset`, which is in the region.
    #[inline(always)]
    fn find(&self, offset: usize) -> Option<usize> {
        let block = offset / BLOCK;
        let from = self.before[block] as usize;
        let to = self.before[block + 1] as usize;
        // No range, if the block begins after the last start.
        let starts = self.starts.get(from..to)?;
        let index = starts.binary_search(&(offset as u32)).ok()?;
        Some(from + index)
    }
}

#[inline(never)]
fn walk<N: Note>(
    region: &[u8],
    mode: Mode,
    delta: u8,
    starts: &mut [u32],
    before: &mut [u32],
    note: &mut N,
) -> Result<Checked, Error> {
    let mut row = Row { starts, count: 0, before, block: 0 };
    let mut at = 0;
    while at < region.len() {
        if row.count == row.starts.len() {
            return Err(ErrorKind::Full.at(at));
        }
        let start = at;
        let (mut pending, end) = match quick_value(region, at, &row, note) {
            Some(found) => found,
            None => thorough(region, token::read(region, mode, at)?, &row, note)?,
        };
        at = end;
        while pending > 0 {
            at = match quick_immediate(region, at, &row, note) {
                Some(end) => end,
                None => thorough(region, token::read_item(region, mode, at)?, &row, note)?.1,
            };
            pending -= 1;
        }
        note.finished(row.count);
        row.list(start);
    }
    region
        .len()
        .checked_sub(usize::from(delta) + 1)
        .filter(|&entry| row.find(entry).is_some())
        .map(|entry| Checked { count: row.count, entry })
        .ok_or(ErrorKind::BadEntry.at(region.len()))
}

/// Passes the header of a value that is surely without fault: the items owed and where they begin.
#[inline(always)]
fn quick_value<N: Note>(region: &[u8], at: usize, row: &Row<'_>, note: &mut N) -> Option<(u64, usize)> {
    let header = HEADERS[usize::from(*region.get(at)?)];
    let (items, first) = match header.class {
        Class::Items => (usize::from(header.items), at + 1),
        Class::One => return Some((1, at + 1)),
        Class::Arguments => match *region.get(at + 1)? {
            count @ ..=0x7f => (usize::from(count), at + 2),
            _ => return None,
        },
        _ => return quick_immediate(region, at, row, note).map(|end| (0, end)),
    };
    (items <= region.len() - first).then_some((items as u64, first))
}

/// Passes an immediate that is surely without fault: where it ends.
#[inline(always)]
fn quick_immediate<N: Note>(region: &[u8], at: usize, row: &Row<'_>, note: &mut N) -> Option<usize> {
    let byte = *region.get(at)?;
    let header = HEADERS[usize::from(byte)];
    let end = match header.class {
        Class::Plain => {
            let next = region.get(at + 1..)?.first_chunk()?;
            if !utf8::begins_plain(next, header.text) {
                return None;
            }
            at + usize::from(header.size)
        }
        Class::Number => leb128::read_short(region, at + 1)?.1,
        Class::LongText => {
            let (length, first) = leb128::read_short(region, at + 1)?;
            let end = first + 15 + length as usize;
            if !utf8::is_text(region.get(first..end)?) {
                return None;
            }
            end
        }
        Class::LongBytes => {
            let (length, first) = leb128::read_short(region, at + 1)?;
            first + 15 + length as usize
        }
        Class::Near => {
            let target = at.checked_sub(usize::from(byte & 15) + 1)?;
            note.target(row.find(target)?);
            at + 1
        }
        Class::Far => {
            let (distance, end) = leb128::read_short(region, at + 1)?;
            let target = at.checked_sub(distance as usize + 16)?;
            note.target(row.find(target)?);
            end
        }
        Class::Items | Class::One | Class::Arguments | Class::Other => return None,
    };
    (end <= region.len()).then_some(end)
}

/// Ends the decision on a token: "`BAD_TEXT`, `BAD_TARGET`, then the items in order". Returns the items and where they begin.
#[inline(always)]
fn thorough<N: Note>(region: &[u8], token: Token, row: &Row<'_>, note: &mut N) -> Result<(u64, usize), Error> {
    if token.kind == TEXT && !utf8::is_text(&region[token.first..token.end]) {
        return Err(ErrorKind::BadText.at(token.at));
    }
    if let Some(target) = token.target() {
        // "The target must be the start of a value of the row (not of an item inside one) that ended before the value
        // holding the header began": one of those listed by now.
        match row.find(target) {
            Some(number) => note.target(number),
            None => return Err(ErrorKind::BadTarget.at(token.at)),
        }
    }
    Ok((token.items, token.end))
}
