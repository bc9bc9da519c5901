//! How the numbers of a file are read.

use crate::c;

/// Whether padded numbers are read, those that have more bytes than they need.
///
/// The exporter of the firm that we bought padded lengths to five bytes; [`Tolerant`](Mode::Tolerant) is for its files alone, and reads any
/// padded number in them. The mode changes nothing else: in both, a number has at most ten bytes and is within its bounds (RANGE), and what
/// is not OVERLONG in strict mode has the same answer in tolerant mode. [`Writer`](crate::Writer) never pads, so a padded file that is read
/// and written again has other bytes and offsets. [`File::prune`](crate::File::prune) has no mode: it is strict.
///
/// ```
/// use twine::{ErrorKind, File, Mode};
///
/// // a text whose length, 15 + 1, has five bytes after the header
/// let bytes = b"\x4f\x81\x80\x80\x80\x00north hall row 7\x15";
/// let error = File::check(bytes).unwrap_err();
/// assert_eq!((error.kind, error.place), (ErrorKind::Overlong, Some(0)));
///
/// let file = File::check_with(Mode::Tolerant, bytes)?;
/// assert_eq!(file.entry().body()?, b"north hall row 7");
/// # Ok::<(), twine::Error>(())
/// ```
#[derive(Clone, Copy, Debug, Default, PartialEq, Eq, Hash)]
#[repr(u32)]
pub enum Mode {
    /// A padded number is OVERLONG.
    #[default]
    Strict = c::STRICT,
    /// A padded number is read.
    Tolerant = c::TOLERANT,
}
