//! What is compared with the second program.

use crate::ffi::{self, NAME, STATE};
use reference::Call;

/// The functions of twine.h. A test puts faults between these and the archive.
pub trait Product {
    /// `twine_spell_error`.
    fn error_name(&self, number: u32, name: &mut [u8; NAME]) {
        ffi::error_name(number, name);
    }

    /// `twine_check`.
    fn check(&self, file: &[u8], mode: u32, starts: &mut [u32], out: &mut [u64; 2]) -> u32 {
        ffi::check(file, mode, starts, out)
    }

    /// `twine_depths`.
    fn depths(&self, file: &[u8], mode: u32, starts: &mut [u32], depths: &mut [u32], out: &mut [u64; 2]) -> u32 {
        ffi::depths(file, mode, starts, depths, out)
    }

    /// `twine_read`.
    fn read(&self, file: &[u8], mode: u32, at: usize, out: &mut [u64; 4]) -> u32 {
        ffi::read(file, mode, at, out)
    }

    /// `twine_skip`.
    fn skip(&self, file: &[u8], mode: u32, at: usize, out: &mut [u64; 2]) -> u32 {
        ffi::skip(file, mode, at, out)
    }

    /// `twine_item`.
    fn item(&self, file: &[u8], mode: u32, at: usize, index: usize, out: &mut [u64; 2]) -> u32 {
        ffi::item(file, mode, at, index, out)
    }

    /// `twine_follow`.
    fn follow(&self, file: &[u8], mode: u32, at: usize, out: &mut [u64; 2]) -> u32 {
        ffi::follow(file, mode, at, out)
    }

    /// `twine_lookup`.
    fn lookup(&self, file: &[u8], mode: u32, at: usize, key: &[u8], out: &mut [u64; 2]) -> u32 {
        ffi::lookup(file, mode, at, key, out)
    }

    /// `twine_body`.
    fn body(&self, file: &[u8], mode: u32, at: usize, out: &mut [u64; 2]) -> u32 {
        ffi::body(file, mode, at, out)
    }

    /// `twine_prune`.
    fn prune(&self, file: &[u8], out: &mut [u8], old_starts: &mut [u32], new_starts: &mut [u32], told: &mut [u64; 3]) -> u32 {
        ffi::prune(file, out, old_starts, new_starts, told)
    }

    /// `twine_writer_new`.
    fn writer_new(&self, state: &mut [u64; STATE]) -> u32 {
        ffi::writer_new(state)
    }

    /// The function of the writer for a call.
    fn call(&self, state: &mut [u64; STATE], call: Call<'_>, out: &mut [u8], starts: &mut [u32]) -> u32 {
        ffi::call(state, call, out, starts)
    }
}

/// libtwine.a itself.
#[derive(Clone, Copy, Debug)]
pub struct Archive;

impl Product for Archive {}
