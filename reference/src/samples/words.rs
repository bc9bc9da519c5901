//! Numbers and bytes in a line.

use std::fmt::Write;

/// A decimal number; one over 2^64-1 counts as that.
pub fn number(word: &str) -> Option<u64> {
    if word.is_empty() || !word.bytes().all(|byte| byte.is_ascii_digit()) {
        return None;
    }
    Some(word.parse().unwrap_or(u64::MAX))
}

/// A decimal number that may be negative; one out of range counts as the nearest.
pub fn integer(word: &str) -> Option<i64> {
    match word.strip_prefix('-') {
        Some(digits) => {
            number(digits)?;
            Some(word.parse().unwrap_or(i64::MIN))
        }
        None => {
            number(word)?;
            Some(word.parse().unwrap_or(i64::MAX))
        }
    }
}

/// Bytes in hex, `-` for none of them.
pub fn bytes(word: &str) -> Option<Vec<u8>> {
    parse_hex(if word == "-" { "" } else { word })
}

/// Bytes in hex.
pub fn parse_hex(word: &str) -> Option<Vec<u8>> {
    let digits: Option<Vec<u8>> = word.chars().map(|digit| Some(digit.to_digit(16)? as u8)).collect();
    let (pairs, rest) = digits.as_ref()?.as_chunks::<2>();
    rest.is_empty().then(|| pairs.iter().map(|[high, low]| high << 4 | low).collect())
}

/// Bytes as hex after a space, if there are any.
pub fn hex(bytes: &[u8]) -> String {
    let mut hex = String::new();
    if !bytes.is_empty() {
        hex.push(' ');
    }
    for byte in bytes {
        // Writing into a string does not fail.
        let _ = write!(hex, "{byte:02x}");
    }
    hex
}

#[cfg(test)]
mod tests {
    use super::*;

    #[test]
    fn numbers_out_of_range_count_as_the_nearest() {
        assert_eq!(number("18446744073709551615"), Some(u64::MAX));
        assert_eq!(number("99999999999999999999999"), Some(u64::MAX));
        assert_eq!(integer("9223372036854775808"), Some(i64::MAX));
        assert_eq!(integer("-9223372036854775809"), Some(i64::MIN));
        assert_eq!(integer("-12"), Some(-12));
    }

    #[test]
    fn words_that_are_no_numbers() {
        for word in ["", "-", "+1", "1 ", "0x1", "--1"] {
            assert_eq!(number(word), None);
            assert_eq!(integer(word), None);
        }
    }

    #[test]
    fn bytes_there_and_back() {
        assert_eq!(bytes("-"), Some(vec![]));
        assert_eq!(parse_hex("-"), None);
        assert_eq!(parse_hex("1f0"), None);
        assert_eq!(parse_hex("1F1b"), Some(vec![0x1f, 0x1b]));
        assert_eq!(hex(&[0x1f, 0x0b]), " 1f0b");
        assert_eq!(hex(&[]), "");
    }
}
