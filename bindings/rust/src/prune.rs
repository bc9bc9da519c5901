//! Pruning: a file without its dead values.

use crate::error::Error;
use crate::sys;

/// What [`prune_into`] says of the new file.
#[derive(Clone, Copy, Debug, PartialEq, Eq, Hash)]
pub struct Pruned {
    /// Its bytes: it is the first `length` bytes of the output.
    pub length: usize,
    /// How many values it has.
    pub count: usize,
    /// The offset of its entry.
    pub entry: usize,
}

/// Writes a file without its dead values into memory of the caller, and allocates none. [`File::prune`](crate::File::prune) says what is
/// dead, and is the same for a file that was checked.
///
/// Accepted: the output past the new file is as it was; `old_starts` has the offset of each value of the file, `new_starts` that of each
/// value of the new file, and both have 0 in every other word. The new file is never longer: an output of the old
/// file's length, and tables of one word less than that, are always enough.
///
/// Refused: the output and both tables are zeros. First come the errors of a check in strict mode, each with a place; FULL at a place means that `old_starts`
/// is too short. Then, without a place, FULL if `new_starts` is too short, or NO_ROOM if the output is: the first call of a
/// [`Writer`](crate::Writer) with that memory that would be refused decides.
///
/// ```
/// use twine::{prune_into, Error, ErrorKind, Pruned};
///
/// // the integers 0 and 1, and an array with a pointer to the first
/// let file = [0x10, 0x11, 0x61, 0xf2, 0x01];
/// let (mut out, mut old_starts, mut new_starts) = ([0xaa; 5], [0; 4], [0; 4]);
/// let pruned = prune_into(&file, &mut out, &mut old_starts, &mut new_starts)?;
/// assert_eq!(pruned, Pruned { length: 4, count: 2, entry: 1 });
/// assert_eq!(out, [0x10, 0x61, 0xf1, 0x01, 0xaa]);
/// assert_eq!((old_starts, new_starts), ([0, 1, 2, 0], [0, 1, 0, 0]));
///
/// let error = prune_into(&file, &mut out[..3], &mut old_starts, &mut new_starts).unwrap_err();
/// assert_eq!(error, Error { kind: ErrorKind::NoRoom, place: None });
/// assert_eq!((out, old_starts, new_starts), ([0, 0, 0, 0x01, 0xaa], [0; 4], [0; 4]));
/// # Ok::<(), twine::Error>(())
/// ```
pub fn prune_into(file: &[u8], out: &mut [u8], old_starts: &mut [u32], new_starts: &mut [u32]) -> Result<Pruned, Error> {
    let [length, count, entry] = sys::prune(file, out, old_starts, new_starts)?;
    Ok(Pruned { length: length as usize, count: count as usize, entry: entry as usize })
}
