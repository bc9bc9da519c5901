//! Text.

use std::borrow::Cow;
use std::fmt;
use std::str::Utf8Error;

/// The bytes of a text.
///
/// In a checked file they are UTF-8, as RFC 3629 has it, and [`to_str`](Text::to_str) returns `Ok`: the library is proved to accept no
/// other text.
///
/// ```
/// use twine::{File, Value};
///
/// let bytes = [0x45, b'G', b'r', 0xc3, 0xa4, b'f', 0x05];
/// let Value::Text(text) = File::check(&bytes)?.entry().value() else { panic!("no text") };
/// assert_eq!(text.to_str(), Ok("Gräf"));
/// # Ok::<(), twine::Error>(())
/// ```
///
/// The [queries](crate::query) do not test the bytes of a text. In a file that was not checked they may be anything, and a `Text` made from
/// them is a `str` only if they are UTF-8. It can be compared and shown all the same.
///
/// ```
/// use twine::{query, File, Mode, Text};
///
/// // "a" and a surrogate, U+D800
/// let bytes = [0x44, b'a', 0xed, 0xa0, 0x80, 0x04];
/// assert_eq!(File::check(&bytes).unwrap_err().to_string(), "BAD_TEXT at 0");
/// let text = Text::from(query::body(&bytes, Mode::Strict, 0)?);
/// assert!(text.to_str().is_err());
/// assert_eq!(text.as_bytes(), [b'a', 0xed, 0xa0, 0x80]);
/// assert_eq!(format!("{text}"), "a\u{fffd}\u{fffd}\u{fffd}");
/// assert_eq!(format!("{text:?}"), r#""a\xed\xa0\x80""#);
/// # Ok::<(), twine::Error>(())
/// ```
#[derive(Clone, Copy, PartialEq, Eq, Hash, PartialOrd, Ord)]
pub struct Text<'a>(pub(crate) &'a [u8]);

impl<'a> Text<'a> {
    /// The bytes.
    pub fn as_bytes(self) -> &'a [u8] {
        self.0
    }

    /// The text as a `str`: `Ok` for every text of a checked file; an error if the bytes, from a query, are not UTF-8.
    pub fn to_str(self) -> Result<&'a str, Utf8Error> {
        std::str::from_utf8(self.0)
    }

    /// The text with U+FFFD for what is not UTF-8.
    pub fn to_string_lossy(self) -> Cow<'a, str> {
        String::from_utf8_lossy(self.0)
    }
}

/// Any bytes, as [`query::body`](crate::query::body) returns them; they need not be UTF-8.
impl<'a> From<&'a [u8]> for Text<'a> {
    fn from(bytes: &'a [u8]) -> Text<'a> {
        Text(bytes)
    }
}

impl<'a> From<&'a str> for Text<'a> {
    fn from(text: &'a str) -> Text<'a> {
        Text(text.as_bytes())
    }
}

impl AsRef<[u8]> for Text<'_> {
    fn as_ref(&self) -> &[u8] {
        self.0
    }
}

impl PartialEq<str> for Text<'_> {
    fn eq(&self, other: &str) -> bool {
        self.0 == other.as_bytes()
    }
}

impl PartialEq<&str> for Text<'_> {
    fn eq(&self, other: &&str) -> bool {
        self.0 == other.as_bytes()
    }
}

/// As `to_string_lossy`.
impl fmt::Display for Text<'_> {
    fn fmt(&self, f: &mut fmt::Formatter<'_>) -> fmt::Result {
        f.pad(&self.to_string_lossy())
    }
}

/// In quotes, as `str::escape_debug`; bytes that are not UTF-8 as `\xNN`.
impl fmt::Debug for Text<'_> {
    fn fmt(&self, f: &mut fmt::Formatter<'_>) -> fmt::Result {
        f.write_str("\"")?;
        for chunk in self.0.utf8_chunks() {
            write!(f, "{}", chunk.valid().escape_debug())?;
            write!(f, "{}", chunk.invalid().escape_ascii())?;
        }
        f.write_str("\"")
    }
}
