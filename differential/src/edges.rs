//! Memory beside which nothing can be read: a call that reads past its end, or before its start, ends the program by a signal.
#![allow(unsafe_code)]

use std::slice;

/// Of Linux.
mod declared {
    use std::ffi::{c_int, c_long};

    pub const READ: c_int = 1;
    pub const WRITE: c_int = 2;
    pub const PRIVATE: c_int = 2;
    pub const ANONYMOUS: c_int = 0x20;

    unsafe extern "C" {
        pub fn mmap(at: *mut u8, length: usize, access: c_int, flags: c_int, file: c_int, offset: c_long) -> *mut u8;
        pub fn mprotect(at: *mut u8, length: usize, access: c_int) -> c_int;
        pub fn munmap(at: *mut u8, length: usize) -> c_int;
    }
}

/// The bytes of a part, a multiple of any page's.
const PART: usize = 1 << 16;

/// Three parts in a row, of which only the second can be read.
#[derive(Debug)]
pub struct Edges {
    first: *mut u8,
}

impl Edges {
    /// New memory.
    ///
    /// # Panics
    ///
    /// Panics if there is none.
    pub fn new() -> Self {
        let flags = declared::PRIVATE | declared::ANONYMOUS;
        // SAFETY: new pages, where the system chooses
        let first = unsafe { declared::mmap(std::ptr::null_mut(), 3 * PART, 0, flags, -1, 0) };
        assert_ne!(first.addr(), usize::MAX, "no memory");
        let edges = Self { first };
        // SAFETY: the second of the three parts
        let answer = unsafe { declared::mprotect(edges.second(), PART, declared::READ | declared::WRITE) };
        assert_eq!(answer, 0, "no memory");
        edges
    }

    fn second(&self) -> *mut u8 {
        self.first.wrapping_add(PART)
    }

    /// Two copies of at most 32,768 bytes: nothing can be read before the first, and nothing after the second.
    pub fn copies(&mut self, bytes: &[u8]) -> [&[u8]; 2] {
        // SAFETY: the second part has only bytes, zeros at first, and is borrowed as `self` is
        let part = unsafe { slice::from_raw_parts_mut(self.second(), PART) };
        let (before, after) = part.split_at_mut(PART / 2);
        let (first, _) = before.split_at_mut(bytes.len());
        let (_, last) = after.split_at_mut(PART / 2 - bytes.len());
        first.copy_from_slice(bytes);
        last.copy_from_slice(bytes);
        [first, last]
    }
}

impl Drop for Edges {
    fn drop(&mut self) {
        // SAFETY: the three parts, which nobody borrows any more
        unsafe { declared::munmap(self.first, 3 * PART) };
    }
}

#[cfg(test)]
mod tests {
    use super::*;
    use std::os::unix::process::ExitStatusExt;
    use std::process::Command;

    /// SIGSEGV.
    const NOT_READABLE: i32 = 11;

    #[test]
    fn copies() {
        let mut edges = Edges::new();
        for bytes in [&b""[..], b"a label", &[7; PART / 2]] {
            assert_eq!(edges.copies(bytes), [bytes; 2]);
        }
    }

    /// Runs itself again for each edge, to read there.
    #[test]
    fn a_byte_beside_a_copy_cannot_be_read() {
        const EDGE: &str = "DIFFERENTIAL_READS_AT_THE_EDGE";
        let mut edges = Edges::new();
        let [first, last] = edges.copies(b"a label").map(<[u8]>::as_ptr_range);
        let beside = match std::env::var(EDGE).as_deref() {
            Ok("inside") => first.start,
            Ok("before") => first.start.wrapping_sub(1),
            Ok("after") => last.end,
            _ => {
                for (edge, signal) in [("inside", None), ("before", Some(NOT_READABLE)), ("after", Some(NOT_READABLE))] {
                    let test = std::env::current_exe().expect("the path of this test");
                    let name = "edges::tests::a_byte_beside_a_copy_cannot_be_read";
                    let again = Command::new(test).args(["--exact", name]).env(EDGE, edge).output().expect("it runs again");
                    assert_eq!(again.status.signal(), signal, "{edge}: {again:?}");
                }
                return;
            }
        };
        // SAFETY: none, but for the byte inside; the signal comes first
        let byte = unsafe { beside.read_volatile() };
        assert_eq!(byte, b'a');
    }
}
