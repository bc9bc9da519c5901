//! What is reported of a difference.

use std::fmt::{self, Debug, Display, Write};

use reference::ErrorKind;

/// A question that the two answer differently.
#[derive(Clone, Debug, PartialEq, Eq)]
pub struct Difference {
    /// What was asked, and of what.
    pub question: String,
    /// What libtwine.a answers.
    pub product: String,
    /// What the second program answers, or what should have been left alone.
    pub second: String,
}

impl Display for Difference {
    fn fmt(&self, f: &mut fmt::Formatter<'_>) -> fmt::Result {
        let Self { question, product, second } = self;
        write!(f, "{question}\n  libtwine.a: {product}\n  second:     {second}")
    }
}

/// The name of an answer's number.
pub fn name(number: u32) -> &'static str {
    let index = (number as usize).wrapping_sub(1);
    match ErrorKind::ALL.get(index) {
        Some(kind) => kind.name(),
        None if number == 0 => "OK",
        None => "no error's number",
    }
}

/// An answer as it is printed.
pub fn answer(number: u32, out: &[u64]) -> String {
    format!("{} ({number}) {out:?}", name(number))
}

/// Bytes as they are printed: in hex, of many only the first and the last.
pub fn hex(bytes: &[u8]) -> String {
    const SHOWN: usize = 4096;
    let mut text = format!("{} bytes", bytes.len());
    let (first, last) =
        if bytes.len() <= SHOWN { (bytes, &[][..]) } else { (&bytes[..SHOWN / 2], &bytes[bytes.len() - SHOWN / 2..]) };
    for (index, byte) in first.iter().enumerate() {
        // Writing to a string does not fail.
        let _ = write!(text, "{} {byte:02x}", if index == 0 { ":" } else { "" });
    }
    if !last.is_empty() {
        text.push_str(" ..");
        for byte in last {
            let _ = write!(text, " {byte:02x}");
        }
    }
    text
}

/// The first element in which two slices of one length differ, as it is printed of each.
pub fn first<T: PartialEq + Debug>(what: &str, product: &[T], second: &[T]) -> Option<(String, String)> {
    let index = product.iter().zip(second).position(|(one, other)| one != other)?;
    let shown = |slice: &[T]| format!("{what}[{index}] = {:?}", slice[index]);
    Some((shown(product), shown(second)))
}

#[cfg(test)]
mod tests {
    use super::*;

    #[test]
    fn names() {
        let past = ErrorKind::ALL.len() as u32 + 1;
        assert_eq!(past, 21);
        assert_eq!(["OK", "EMPTY", "BAD_TARGET", "LONG_BODY", "LONG_LIST"], [0, 1, 9, 19, 20].map(name));
        assert_eq!(name(past), "no error's number");
    }

    #[test]
    fn bytes() {
        assert_eq!(hex(&[]), "0 bytes");
        assert_eq!(hex(&[0x1f, 2]), "2 bytes: 1f 02");
        assert!(hex(&[0; 5000]).contains(" .. "));
    }

    #[test]
    fn elements() {
        assert_eq!(first("word", &[1, 2], &[1, 2]), None);
        let shown = first("word", &[1, 2], &[1, 3]);
        assert_eq!(shown, Some(("word[1] = 2".into(), "word[1] = 3".into())));
    }
}
