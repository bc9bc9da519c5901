//! A second program for Twine plan files, written from the papers alone.
//!
//! Documents 000 and 001 describe the format; document 01, "Build requirements and exact rules for plan files", decides, and
//! document 02, "Requests from the first year", changes it. What is in quotation marks in this crate is a sentence of document
//! 01, or of the requests W-201 to W-204 of document 02; in `utf8` also of RFC 3629.
//!
//! Nothing but [`model`], [`export()`] and [`prune()`] takes memory of its own: files, outputs and tables are lent by the caller.

#![forbid(unsafe_code)]
#![warn(missing_docs)]

mod call;
mod check;
mod depths;
mod error;
mod export;
mod file;
pub mod kind;
mod leb128;
pub mod model;
mod prune;
pub mod query;
mod scan;
#[cfg(test)]
mod testing;
mod token;
mod utf8;
mod writer;

pub use call::Call;
pub use check::check;
pub use depths::depths;
pub use error::{Error, ErrorKind};
pub use export::export;
pub use file::MAX_LEN;
pub use kind::Scalar;
pub use leb128::Mode;
pub use prune::{prune, Pruned, Refusal};
pub use query::{body, body_place, follow, item, lookup, read, skip, Value};
pub use scan::Checked;
pub use token::{tokens, Token};
pub use writer::Writer;
