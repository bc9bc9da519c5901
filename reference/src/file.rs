//! The outer form of a file: the region and the delta byte after it.

use crate::error::{Error, ErrorKind};

/// The longest file: "files over 16,777,216 bytes" are not wanted.
pub const MAX_LEN: usize = 16_777_216;

/// Splits a file into its region and its delta byte.
///
/// "A file of L bytes is: values back to back from offset 0, filling bytes 0 to L-2, then one delta byte at p = L-1." "Bytes
/// 0 to L-2 are the region; nothing reads a value past it."
#[inline]
pub(crate) fn split(file: &[u8]) -> Result<(&[u8], u8), Error> {
    let Some((&delta, region)) = file.split_last() else {
        return Err(ErrorKind::Empty.at(0));
    };
    if file.len() > MAX_LEN {
        return Err(ErrorKind::TooLong.at(0));
    }
    Ok((region, delta))
}

#[cfg(test)]
mod tests {
    use super::*;

    #[test]
    fn the_last_byte_is_the_delta() {
        assert_eq!(split(&[0x10, 0x11, 7]), Ok((&[0x10, 0x11][..], 7)));
        assert_eq!(split(&[7]), Ok((&[][..], 7)));
    }

    #[test]
    fn lengths_that_are_refused() {
        assert_eq!(split(&[]), Err(ErrorKind::Empty.at(0)));
        let longest = vec![0; MAX_LEN];
        assert!(split(&longest).is_ok());
        let longer = vec![0; MAX_LEN + 1];
        assert_eq!(split(&longer), Err(ErrorKind::TooLong.at(0)));
    }
}
