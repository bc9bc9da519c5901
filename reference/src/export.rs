//! Files with padded numbers: "The firm we bought wrote lengths padded to five LEB128 bytes."

use crate::check::check;
use crate::error::Error;
use crate::file;
use crate::kind::{LONG, POINTER, VARIANT_N};
use crate::leb128::{self, Mode, MOST};
use crate::scan::Checked;
use crate::token::tokens;

/// The values of a well-formed file with their numbers padded, or the refusal of a file that the tolerant mode refuses.
///
/// `size` gets the fewest bytes of each number and returns how many it shall have: no fewer, and ten at most. Distances are those
/// between the longer values. The entry is the same value; if the delta byte does not reach it, a pointer to it is added, as by a
/// writer's close.
pub fn export(file: &[u8], size: impl FnMut(usize) -> usize) -> Result<Vec<u8>, Error> {
    let mut starts = vec![0; file.len()];
    let Checked { count, entry } = check(file, Mode::Tolerant, &mut starts)?;
    let (region, _) = file::split(file)?;
    let number_of = |start: usize| starts[..count].partition_point(|word| (*word as usize) < start);
    // The starts of the longer values.
    let mut moved = Vec::with_capacity(count);
    let mut output = Output { bytes: Vec::with_capacity(file.len()), size };
    for token in tokens(region, Mode::Tolerant) {
        let token = token?;
        let at = output.bytes.len();
        if starts[..count].get(moved.len()) == Some(&(token.at as u32)) {
            moved.push(at);
        }
        let n = token.target().map_or(token.n, |target| distance(at, moved[number_of(target)]));
        output.head(token.kind, n);
        if token.kind == VARIANT_N {
            output.number(token.items);
        }
        output.bytes.extend(&region[token.first..token.end]);
    }
    let mut entry = moved[number_of(entry)];
    let end = output.bytes.len();
    if distance(end, entry) > u8::MAX.into() {
        output.head(POINTER, distance(end, entry));
        entry = end;
    }
    output.bytes.push(distance(output.bytes.len(), entry) as u8);
    Ok(output.bytes)
}

/// The distance from a header, or from the delta byte, to a start.
fn distance(at: usize, start: usize) -> u64 {
    (at - start - 1) as u64
}

struct Output<S> {
    bytes: Vec<u8>,
    size: S,
}

impl<S: FnMut(usize) -> usize> Output<S> {
    /// A header and its number.
    fn head(&mut self, kind: u8, n: u64) {
        self.bytes.push(kind << 4 | n.min(LONG.into()) as u8);
        if let Some(rest) = n.checked_sub(LONG.into()) {
            self.number(rest);
        }
    }

    fn number(&mut self, number: u64) {
        let fewest = leb128::size(number);
        let size = (self.size)(fewest).clamp(fewest, MOST);
        let from = self.bytes.len();
        self.bytes.resize(from + size, 0);
        leb128::write(&mut self.bytes[from..], number);
    }
}

#[cfg(test)]
mod tests {
    use super::*;
    use crate::error::ErrorKind::{Overlong, Range};
    use crate::testing::{hex, refusal, DOCUMENT_001};

    fn exported(file: &str, size: usize) -> Result<Vec<u8>, Error> {
        export(&hex(file), |_| size)
    }

    #[test]
    fn numbers_have_as_many_bytes_as_asked_for() {
        assert_eq!(exported("1f 1b 01", 5), Ok(hex("1f 9b 80 80 80 00 05")));
        assert_eq!(exported("cf 00 01 10 03", 2), Ok(hex("cf 80 00 81 00 10 05")));
        assert_eq!(exported("2f f0 ff ff ff ff ff ff ff 7f 09", 99), Ok(hex("2f f0 ff ff ff ff ff ff ff ff 00 0a")));
        let padded = "1f 9b 80 80 80 00 e5 00";
        assert_eq!(exported(padded, 0), Ok(hex("1f 1b e1 00")), "the shortest form");
        for size in 0..=99 {
            assert_eq!(exported(DOCUMENT_001, size), Ok(hex(DOCUMENT_001)), "no number");
        }
    }

    #[test]
    fn distances_go_by_the_longer_values() {
        // A distance of 1 becomes one of 5, and one of 13 a number.
        assert_eq!(exported("1f 1b e1 00", 5), Ok(hex("1f 9b 80 80 80 00 e5 00")));
        let near = format!("1f 1b {} fd 00", "10".repeat(12));
        let far = format!("1f 9b 80 80 80 00 {} ff 82 80 80 80 00 05", "10".repeat(12));
        assert_eq!(exported(&near, 5), Ok(hex(&far)));
    }

    #[test]
    fn a_far_entry_gets_a_pointer() {
        let file = format!("10 1f 00 {} ff", "11".repeat(253));
        let longer = format!("10 1f 80 00 {} ff f1 01 02", "11".repeat(253));
        assert_eq!(exported(&file, 2), Ok(hex(&longer)));
    }

    #[test]
    fn other_files_are_refused() {
        assert_eq!(exported(&format!("1f {} 02 00", "80".repeat(9)), 5), Err(refusal(Range, 0)));
        let mut strict = [0; 4];
        assert_eq!(check(&hex("1f 80 00 02"), Mode::Strict, &mut strict), Err(refusal(Overlong, 0)));
        assert_eq!(exported("1f 80 00 02", 5), Ok(hex("1f 80 80 80 80 00 05")));
    }
}
