//! The functions of libtwine.a (bindings/c/twine.h), as safe ones over slices and arrays. All `unsafe` of this crate is here; `differential` and `bench`
//! take this file too.
//!
//! What twine.h asks of a caller holds of every call below:
//!
//! - a pointer comes from a Rust slice or array, with its own length: not null even for length 0, aligned, all elements initialized;
//! - memory that a call writes comes from a `&mut`, so that it overlaps no other argument and nobody else writes there;
//! - an array has as many elements as twine.h says.
//!
//! "SAFETY: slices" below stands for these. Nothing is asked of the bytes, offsets, indexes and states themselves.
#![allow(unsafe_code)]

/// The words of a writer's state (TWINE_STATE): written, count, pending, start, closed.
pub const STATE: usize = 5;

/// The bytes of an error's name (TWINE_NAME), the 0 at its end included.
pub const NAME: usize = 11;

/// The mode that gives OVERLONG (TWINE_STRICT). So does every number but `TOLERANT`.
pub const STRICT: u32 = 0;

/// The mode that reads padded numbers (TWINE_TOLERANT).
pub const TOLERANT: u32 = 1;

#[rustfmt::skip]
mod declared {
    unsafe extern "C" {
        pub fn twine_abi_2() -> u32;

        pub fn twine_spell_error(number: u32, name: *mut u8) -> u32;

        pub fn twine_check(file: *const u8, len: usize, mode: u32, starts: *mut u32, words: usize, out: *mut u64) -> u32;
        pub fn twine_depths(
            file: *const u8, len: usize, mode: u32, starts: *mut u32, words: usize, depths: *mut u32, words2: usize, out: *mut u64,
        ) -> u32;

        pub fn twine_read(file: *const u8, len: usize, mode: u32, at: usize, out: *mut u64) -> u32;
        pub fn twine_skip(file: *const u8, len: usize, mode: u32, at: usize, out: *mut u64) -> u32;
        pub fn twine_item(file: *const u8, len: usize, mode: u32, at: usize, index: usize, out: *mut u64) -> u32;
        pub fn twine_follow(file: *const u8, len: usize, mode: u32, at: usize, out: *mut u64) -> u32;
        pub fn twine_lookup(file: *const u8, len: usize, mode: u32, at: usize, key: *const u8, key_len: usize, out: *mut u64) -> u32;
        pub fn twine_body(file: *const u8, len: usize, mode: u32, at: usize, out: *mut u64) -> u32;

        pub fn twine_writer_new(state: *mut u64) -> u32;
        pub fn twine_write_bool(state: *mut u64, value: bool, out: *mut u8, out_len: usize, starts: *mut u32, words: usize) -> u32;
        pub fn twine_write_null(state: *mut u64, out: *mut u8, out_len: usize, starts: *mut u32, words: usize) -> u32;
        pub fn twine_write_integer(state: *mut u64, value: i64, out: *mut u8, out_len: usize, starts: *mut u32, words: usize) -> u32;
        pub fn twine_write_float32(state: *mut u64, bits: u32, out: *mut u8, out_len: usize, starts: *mut u32, words: usize) -> u32;
        pub fn twine_write_float64(state: *mut u64, bits: u64, out: *mut u8, out_len: usize, starts: *mut u32, words: usize) -> u32;
        pub fn twine_write_text(
            state: *mut u64, text: *const u8, len: usize, out: *mut u8, out_len: usize, starts: *mut u32, words: usize,
        ) -> u32;
        pub fn twine_write_bytes(
            state: *mut u64, bytes: *const u8, len: usize, out: *mut u8, out_len: usize, starts: *mut u32, words: usize,
        ) -> u32;
        pub fn twine_write_variant(state: *mut u64, index: u32, out: *mut u8, out_len: usize, starts: *mut u32, words: usize) -> u32;
        pub fn twine_write_reference(state: *mut u64, at: usize, out: *mut u8, out_len: usize, starts: *mut u32, words: usize) -> u32;
        pub fn twine_write_pointer(state: *mut u64, at: usize, out: *mut u8, out_len: usize, starts: *mut u32, words: usize) -> u32;
        pub fn twine_open_array(state: *mut u64, items: u64, out: *mut u8, out_len: usize, starts: *mut u32, words: usize) -> u32;
        pub fn twine_open_map(state: *mut u64, pairs: u64, out: *mut u8, out_len: usize, starts: *mut u32, words: usize) -> u32;
        pub fn twine_open_tag(state: *mut u64, tag: u64, out: *mut u8, out_len: usize, starts: *mut u32, words: usize) -> u32;
        pub fn twine_open_variant1(state: *mut u64, index: u32, out: *mut u8, out_len: usize, starts: *mut u32, words: usize) -> u32;
        pub fn twine_open_variantn(
            state: *mut u64, index: u32, items: u64, out: *mut u8, out_len: usize, starts: *mut u32, words: usize,
        ) -> u32;
        pub fn twine_close(state: *mut u64, at: usize, out: *mut u8, out_len: usize, starts: *mut u32, words: usize) -> u32;

        pub fn twine_prune(
            file: *const u8, len: usize, out: *mut u8, out_len: usize,
            old_starts: *mut u32, old_words: usize, new_starts: *mut u32, new_words: usize, told: *mut u64,
        ) -> u32;
    }
}

/// The version of the interface. Whoever calls this does not link with an archive of another one.
pub fn version() -> u32 {
    // SAFETY: it takes nothing
    unsafe { declared::twine_abi_2() }
}

/// The letters of an error's name, and zeros after them.
#[allow(dead_code, reason = "the crate itself calls it in tests alone")]
pub fn error_name(number: u32, name: &mut [u8; NAME]) -> u32 {
    // SAFETY: slices
    unsafe { declared::twine_spell_error(number, name.as_mut_ptr()) }
}

/// The count of values and the offset of the entry.
pub fn check(file: &[u8], mode: u32, starts: &mut [u32], out: &mut [u64; 2]) -> u32 {
    // SAFETY: slices
    unsafe { declared::twine_check(file.as_ptr(), file.len(), mode, starts.as_mut_ptr(), starts.len(), out.as_mut_ptr()) }
}

/// As `check`, with the depths.
pub fn depths(file: &[u8], mode: u32, starts: &mut [u32], depths: &mut [u32], out: &mut [u64; 2]) -> u32 {
    let (list, words) = (starts.as_mut_ptr(), starts.len());
    let (deep, words2) = (depths.as_mut_ptr(), depths.len());
    // SAFETY: slices
    unsafe { declared::twine_depths(file.as_ptr(), file.len(), mode, list, words, deep, words2, out.as_mut_ptr()) }
}

/// Kind, number, first, count.
pub fn read(file: &[u8], mode: u32, at: usize, out: &mut [u64; 4]) -> u32 {
    // SAFETY: slices
    unsafe { declared::twine_read(file.as_ptr(), file.len(), mode, at, out.as_mut_ptr()) }
}

/// The offset just after the value, and 0.
pub fn skip(file: &[u8], mode: u32, at: usize, out: &mut [u64; 2]) -> u32 {
    // SAFETY: slices
    unsafe { declared::twine_skip(file.as_ptr(), file.len(), mode, at, out.as_mut_ptr()) }
}

/// The offset of the item, and 0.
pub fn item(file: &[u8], mode: u32, at: usize, index: usize, out: &mut [u64; 2]) -> u32 {
    // SAFETY: slices
    unsafe { declared::twine_item(file.as_ptr(), file.len(), mode, at, index, out.as_mut_ptr()) }
}

/// The offset of the value that is not a pointer, and the pointers met.
pub fn follow(file: &[u8], mode: u32, at: usize, out: &mut [u64; 2]) -> u32 {
    // SAFETY: slices
    unsafe { declared::twine_follow(file.as_ptr(), file.len(), mode, at, out.as_mut_ptr()) }
}

/// The offset of the key's value, and 0.
pub fn lookup(file: &[u8], mode: u32, at: usize, key: &[u8], out: &mut [u64; 2]) -> u32 {
    // SAFETY: slices
    unsafe { declared::twine_lookup(file.as_ptr(), file.len(), mode, at, key.as_ptr(), key.len(), out.as_mut_ptr()) }
}

/// The offset of the body's first byte, and its length.
pub fn body(file: &[u8], mode: u32, at: usize, out: &mut [u64; 2]) -> u32 {
    // SAFETY: slices
    unsafe { declared::twine_body(file.as_ptr(), file.len(), mode, at, out.as_mut_ptr()) }
}

/// The state of a writer that has written nothing.
pub fn writer_new(state: &mut [u64; STATE]) -> u32 {
    // SAFETY: slices
    unsafe { declared::twine_writer_new(state.as_mut_ptr()) }
}

/// The writer's functions: the state, what the call says, then the output and the table. After each, how that is handed to C.
macro_rules! writer {
    ($($name:ident is $function:ident($($argument:ident: $type:ty),*) of $($handed:expr),*;)*) => {$(
        #[inline(always)]
        pub fn $name(state: &mut [u64; STATE], $($argument: $type,)* out: &mut [u8], starts: &mut [u32]) -> u32 {
            let (to, room) = (out.as_mut_ptr(), out.len());
            let (list, words) = (starts.as_mut_ptr(), starts.len());
            // SAFETY: slices
            unsafe { declared::$function(state.as_mut_ptr(), $($handed,)* to, room, list, words) }
        }
    )*};
}

writer! {
    write_bool is twine_write_bool(value: bool) of value;
    write_null is twine_write_null() of;
    write_integer is twine_write_integer(value: i64) of value;
    write_float32 is twine_write_float32(bits: u32) of bits;
    write_float64 is twine_write_float64(bits: u64) of bits;
    write_text is twine_write_text(text: &[u8]) of text.as_ptr(), text.len();
    write_bytes is twine_write_bytes(bytes: &[u8]) of bytes.as_ptr(), bytes.len();
    write_variant is twine_write_variant(index: u32) of index;
    write_reference is twine_write_reference(at: usize) of at;
    write_pointer is twine_write_pointer(at: usize) of at;
    open_array is twine_open_array(items: u64) of items;
    open_map is twine_open_map(pairs: u64) of pairs;
    open_tag is twine_open_tag(tag: u64) of tag;
    open_variant1 is twine_open_variant1(index: u32) of index;
    open_variant_n is twine_open_variantn(index: u32, items: u64) of index, items;
    close is twine_close(at: usize) of at;
}

/// The length of the new file, the count of its values and the offset of its entry.
pub fn prune(file: &[u8], out: &mut [u8], old_starts: &mut [u32], new_starts: &mut [u32], told: &mut [u64; 3]) -> u32 {
    let (to, room) = (out.as_mut_ptr(), out.len());
    let (old, old_words) = (old_starts.as_mut_ptr(), old_starts.len());
    let (new, new_words) = (new_starts.as_mut_ptr(), new_starts.len());
    // SAFETY: slices
    unsafe { declared::twine_prune(file.as_ptr(), file.len(), to, room, old, old_words, new, new_words, told.as_mut_ptr()) }
}
