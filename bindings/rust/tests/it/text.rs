//! Text: for check and for the writer exactly UTF-8; for the queries any bytes.

use twine::ErrorKind::*;
use twine::{query, File, Mode::Strict, Text, Value, Writer};

use crate::{error, hex, refused};

/// Whether bytes, fewer than 15, are text. Check and the writer agree; a refusal is BAD_TEXT, for check at the header, and changes nothing.
fn is_text(bytes: &[u8]) -> bool {
    let len = bytes.len() as u8;
    let file = [&[0x40 + len], bytes, &[len]].concat();
    let mut w = Writer::new();
    let written = w.text_bytes(bytes);
    match File::check(&file) {
        Ok(checked) => {
            assert_eq!(written, Ok(0), "{bytes:x?}");
            assert_eq!(w.close(0), Ok(file.clone()));
            let Value::Text(text) = checked.entry().value() else { panic!("{bytes:x?}") };
            assert_eq!(text.to_str().map(str::as_bytes), Ok(bytes));
            true
        }
        Err(refusal) => {
            assert_eq!(refusal, error(BadText, 0), "{bytes:x?}");
            assert_eq!(written, Err(refused(BadText)), "{bytes:x?}");
            assert_eq!((w.written(), w.count(), w.pending()), (&[][..], 0, 0));
            false
        }
    }
}

/// The first and the last character of each line of RFC 3629's grammar (section 4).
const RANGES: [[&str; 2]; 9] = [
    ["00", "7f"],
    ["c2 80", "df bf"],
    ["e0 a0 80", "e0 bf bf"],
    ["e1 80 80", "ec bf bf"],
    ["ed 80 80", "ed 9f bf"],
    ["ee 80 80", "ef bf bf"],
    ["f0 90 80 80", "f0 bf bf bf"],
    ["f1 80 80 80", "f3 bf bf bf"],
    ["f4 80 80 80", "f4 8f bf bf"],
];

#[test]
fn the_ends_of_each_range() {
    for row in RANGES.as_flattened() {
        assert!(is_text(&hex(row)), "{row}");
    }
    // just outside, by the second byte: longer than need be, a surrogate, over U+10FFFF, or not from 80 to BF
    let outside = ["e0 9f bf", "e0 c0 80", "ed 7f bf", "ed a0 80", "f0 8f bf bf", "f0 c0 80 80", "f4 7f bf bf", "f4 90 80 80"];
    for row in outside {
        assert!(!is_text(&hex(row)), "{row}");
    }
    // and by the first
    for row in ["80", "bf", "c0 80", "c1 bf", "f5 80 80 80", "ff"] {
        assert!(!is_text(&hex(row)), "{row}");
    }
    // U+1F5C4, and the same as two surrogates
    assert!(is_text(&hex("f0 9f 97 84")));
    assert!(!is_text(&hex("ed a0 bd ed b7 84")));
}

/// BAD_TEXT, and never TRUNC, even if the bytes after the text would complete the character.
#[test]
fn cut_characters() {
    for row in RANGES.as_flattened() {
        let character = hex(row);
        for len in 1..character.len() {
            let cut = &character[..len];
            assert!(!is_text(cut), "{cut:x?}");
            assert!(!is_text(&[b"ab", cut].concat()), "{cut:x?}");
            assert!(!is_text(&[cut, b"ab"].concat()), "{cut:x?}");
            assert!(!is_text(&[cut, &character].concat()), "{cut:x?}");
        }
    }
    assert_eq!(File::check(&hex("42 e2 82 ac 00")).unwrap_err(), error(BadText, 0));
    assert_eq!(File::check(&hex("62 42 e2 82 ac 04")).unwrap_err(), error(BadText, 1));
}

/// Every two bytes, alone and with the ends of 80 to BF and their neighbours after them, compared with Rust's own decision.
#[test]
fn text_is_what_rust_takes_for_utf8() {
    let ends = [0x7f, 0x80, 0xbf, 0xc0];
    let compare = |bytes: &[u8]| assert_eq!(is_text(bytes), std::str::from_utf8(bytes).is_ok(), "{bytes:x?}");
    for first in 0..=255 {
        compare(&[first]);
        for second in 0..=255 {
            compare(&[first, second]);
            for third in ends {
                compare(&[first, second, third]);
                for fourth in ends {
                    compare(&[first, second, third, fourth]);
                }
            }
        }
    }
}

/// All of them in one text, and each in its own.
#[test]
fn every_character_is_read_back() {
    let all: String = ('\0'..=char::MAX).collect();
    let mut w = Writer::new();
    let mut last = w.text(&all).unwrap();
    for character in all.chars() {
        last = w.text(character.encode_utf8(&mut [0; 4])).unwrap();
    }
    let bytes = w.close(last).unwrap();

    let file = File::check(&bytes).unwrap();
    assert_eq!(file.count(), 1 + 0x11_0000 - 0x800);
    let mut texts = file.values().map(|value| match value.value() {
        Value::Text(text) => text.to_str().unwrap(),
        other => panic!("{other:?}"),
    });
    assert!(texts.next() == Some(&all[..]));
    assert!(texts.eq(all.split_inclusive(|_| true)));
}

#[test]
fn what_is_not_utf8_is_only_queried() {
    let bytes = b"a\xed\xa0\x80\"\n";
    assert!(!is_text(bytes));
    let file = [&[0x46], &bytes[..], &[0x00]].concat();
    let text = Text::from(query::body(&file, Strict, 0).unwrap());
    assert_eq!(text.as_bytes(), bytes);
    assert!(text.to_str().is_err());
    assert_eq!(text.to_string_lossy(), "a\u{fffd}\u{fffd}\u{fffd}\"\n");
    assert_eq!(format!("{text:>7}"), " a\u{fffd}\u{fffd}\u{fffd}\"\n");
    assert_eq!(format!("{text:?}"), r#""a\xed\xa0\x80\"\n""#);
    assert_ne!(text, "a");
    assert_eq!(text, Text::from(&bytes[..]));
    assert_eq!(Text::from("Gräf").to_str(), Ok("Gräf"));

    // a key, itself and followed
    let map = hex("43 ed a0 80 72 41 ff 11 f7 12 05");
    assert_eq!(query::lookup(&map, Strict, 4, [0xff]), Ok(7));
    assert_eq!(query::lookup(&map, Strict, 4, [0xed, 0xa0, 0x80]), Ok(9));
    assert_eq!(query::lookup(&map, Strict, 4, "\u{d7ff}"), Err(error(NoItem, 4)));
    assert_eq!(query::body(&map, Strict, 8), Ok(&[0xed, 0xa0, 0x80][..]));
    assert_eq!(query::skip(&map, Strict, 4), Ok(10));
    assert_eq!(File::check(&map).unwrap_err(), error(BadText, 0));
}
