//! A file, read value by value and item by item and written again, by the library's own calls.

use crate::ffi::{self, STATE, STRICT};

/// Writes a checked file again, closed at the same entry. Returns whether every call was accepted.
pub fn rewrite(file: &[u8], entry: usize, out: &mut [u8], starts: &mut [u32]) -> bool {
    let mut state = [0; STATE];
    ffi::writer_new(&mut state);
    let mut at = 0;
    // A value comes after the value before it, and an item after its list's header or the item before it.
    while at + 1 < file.len() {
        let mut token = [0; 4];
        if ffi::read(file, STRICT, at, &mut token) != 0 {
            return false;
        }
        let [kind, number, first, count] = token;
        let first = first as usize;
        // A float, a text or a byte string ends after its body.
        let end = if matches!(kind, 3..=5) { first + count as usize } else { first };
        let answer = match kind {
            0 if number == 2 => ffi::write_null(&mut state, out, starts),
            0 => ffi::write_bool(&mut state, number == 1, out, starts),
            1 | 2 => ffi::write_integer(&mut state, number as i64, out, starts),
            3 if count == 4 => ffi::write_float32(&mut state, number as u32, out, starts),
            3 => ffi::write_float64(&mut state, number, out, starts),
            4 => ffi::write_text(&mut state, &file[first..end], out, starts),
            5 => ffi::write_bytes(&mut state, &file[first..end], out, starts),
            6 => ffi::open_array(&mut state, number, out, starts),
            7 => ffi::open_map(&mut state, number, out, starts),
            8 => ffi::open_tag(&mut state, number, out, starts),
            10 => ffi::write_variant(&mut state, number as u32, out, starts),
            11 => ffi::open_variant1(&mut state, number as u32, out, starts),
            12 => ffi::open_variant_n(&mut state, number as u32, count, out, starts),
            14 => ffi::write_reference(&mut state, number as usize, out, starts),
            _ => ffi::write_pointer(&mut state, number as usize, out, starts),
        };
        if answer != 0 {
            return false;
        }
        at = end;
    }
    ffi::close(&mut state, entry, out, starts) == 0
}
