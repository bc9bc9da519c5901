//! Twine plan files, read and written by the verified library `libtwine.a` through its C interface.
//!
//! - [`File::check`] checks a whole file, and in one that it accepts every [`Text`] is UTF-8; a [`Node`] is a value or an item of it.
//! - [`Writer`] writes a file.
//! - [`File::prune`] leaves out what the entry does not reach; [`prune_into`] does so in given memory. Both are strict.
//! - [`query`] asks at any offset of any bytes, checked or not.
//! - [`Mode`] is for whoever reads files of the old exporter, whose numbers are padded.
//!
//! ```
//! use twine::{File, Value, Writer};
//!
//! let mut w = Writer::new();
//! let frame = w.open_map(1)?;
//! w.text("slots")?;
//! w.integer(24)?;
//! let row = w.open_map(1)?;
//! w.text("frame")?;
//! w.pointer(frame)?;
//! let bytes = w.close(row)?;
//!
//! let file = File::check(&bytes)?;
//! let frame = file.entry().lookup("frame")?.follow();
//! let Value::Integer(slots) = frame.lookup("slots")?.value() else { panic!("slots are no integer") };
//! assert_eq!(slots, 24);
//! # Ok::<(), twine::Error>(())
//! ```
//!
//! What the library answers is proved for every input. The crate itself is not: it hands slices over and names the answers. No bytes or
//! offsets make it panic, and of the calls only [`File::prune`], of a file that tolerant mode alone accepts; else only an archive that breaks
//! its contract, or a newer one that returns an error which [`ErrorKind`] does not have. An archive of another version does not link. Offsets that the archive returns are bounds-checked before they are used.

#[cfg(not(target_pointer_width = "64"))]
compile_error!("libtwine.a is for 64-bit targets");

mod c;
mod error;
mod file;
mod mode;
mod prune;
pub mod query;
mod sys;
mod text;
mod writer;

pub use error::{Error, ErrorKind};
pub use file::{File, Items, Node, Pairs, Value};
pub use mode::Mode;
pub use prune::{prune_into, Pruned};
pub use text::Text;
pub use writer::Writer;

/// The most bytes that a file may have.
pub const LIMIT: usize = 16_777_216;

/// Runs the README's example.
#[cfg(doctest)]
#[doc = include_str!("../README.md")]
struct Readme;
