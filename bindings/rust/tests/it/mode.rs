//! Padded numbers: OVERLONG in strict mode, read in tolerant mode.

use std::fmt::Debug;

use twine::query::{self, Kind, Token};
use twine::ErrorKind::{self, *};
use twine::{Error, File, Mode};

use crate::{both, error, hex, parts, Part};

/// OVERLONG at `place` in strict mode; in tolerant mode these values and items, each with its offset, of these depths.
fn padded(row: &str, place: usize, want: &[(usize, Part)], depths: &[u32]) {
    let bytes = hex(row);
    assert_eq!(File::check(&bytes).unwrap_err(), error(Overlong, place), "{row}");
    let file = File::check_with(Mode::Tolerant, &bytes).expect(row);
    assert_eq!(parts(&file), want, "{row}");
    assert_eq!(file.depths(), depths, "{row}");
}

/// OVERLONG at `place` in strict mode, and another error in tolerant mode.
fn padded_wrong(row: &str, place: usize, kind: ErrorKind, other: usize) {
    let bytes = hex(row);
    let checked = both(|mode| File::check_with(mode, &bytes).map(|file| file.count()));
    assert_eq!(checked, [Err(error(Overlong, place)), Err(error(kind, other))], "{row}");
}

/// The same error in both modes.
fn wrong(row: &str, kind: ErrorKind, place: usize) {
    for mode in [Mode::Strict, Mode::Tolerant] {
        assert_eq!(File::check_with(mode, &hex(row)).unwrap_err(), error(kind, place), "{row}");
    }
}

/// Nine bytes of LEB128 that a tenth has to follow.
const NINE: &str = "80 80 80 80 80 80 80 80 80";

#[test]
fn checked() {
    padded("1f 80 00 02", 0, &[(0, Part::Integer(15))], &[1]);
    padded("2f 9b 80 80 80 00 05", 0, &[(0, Part::Integer(-43))], &[1]);
    padded("10 af 80 00 02", 1, &[(0, Part::Integer(0)), (1, Part::Variant(15))], &[1, 1]);

    // both numbers of a variant of many, and each alone
    let items = [(6, Part::Null), (7, Part::Null)];
    padded("cf 80 00 82 80 00 02 02 07", 0, &[&[(0, Part::VariantN(15, 2))], &items[..]].concat(), &[1]);
    padded("cf 80 80 80 00 00 05", 0, &[(0, Part::VariantN(15, 0))], &[1]);
    padded("c1 80 00 02", 0, &[(0, Part::VariantN(1, 0))], &[1]);

    // a text of 15 letters, an array with a pointer and a reference to it
    let text = (0, Part::Text(b"123456789012345".to_vec()));
    let row = "4f 80 80 80 80 00 31 32 33 34 35 36 37 38 39 30 31 32 33 34 35 62 ff 86 80 00 ef 8a 00 07";
    padded(row, 0, &[text, (21, Part::Array(2)), (22, Part::Pointer(0)), (26, Part::Reference(0))], &[1, 2]);
}

#[test]
fn at_most_ten_bytes() {
    padded(&format!("1f {NINE} 00 0a"), 0, &[(0, Part::Integer(15))], &[1]);
    // the tenth byte is over 1, or makes a number over the kind's bound
    wrong(&format!("1f {NINE} 02 0a"), Range, 0);
    wrong(&format!("1f {NINE} 80 00 0b"), Range, 0);
    wrong(&format!("1f {NINE} 01 0a"), Range, 0);
    wrong(&format!("1f {NINE} 00"), Trunc, 0);
    padded_wrong("af 80 80 80 80 90 00 06", 0, Range, 0);
    padded_wrong(&format!("cf 80 00 {NINE} 02 00"), 0, Range, 0);
}

#[test]
fn other_errors() {
    // before OVERLONG
    wrong("61 6f 80 00 02", Nested, 1);
    wrong("9f 80 00 02", Reserved, 0);
    // after it
    padded_wrong("4f 80 80 80 80 00 61 00", 0, LongBody, 6);
    padded_wrong("6f 80 00 10 00", 0, LongList, 3);
    padded_wrong("00 ff 80 00 03", 1, BadTarget, 1);
    padded_wrong("1f 80 00 90 00", 0, Reserved, 3);
    padded_wrong("1f 80 00 03", 0, BadEntry, 3);
    padded_wrong("4f 80 00 31 32 33 34 35 36 37 38 39 30 31 32 33 34 ff 11", 0, BadText, 0);
}

/// OVERLONG at `place` in strict mode, and an answer in tolerant mode.
fn asked<T: Debug + PartialEq>(ask: impl Fn(Mode) -> Result<T, Error>, place: usize, want: Result<T, Error>) {
    assert_eq!(both(ask), [Err(error(Overlong, place)), want]);
}

#[test]
fn queries() {
    // a label; at 22 a map of one pair, a padded pointer to the label and, at 29, the integer 24; at 32 a pointer to the map
    let file = b"\x4f\x81\x80\x80\x80\x00north hall row 7\x71\xff\x87\x80\x80\x80\x00\x1f\x89\x00\xf9\x00";
    let key = "north hall row 7";
    asked(|mode| query::read(file, mode, 0), 0, Ok(Token { kind: Kind::Text, number: 16, first: 6, count: 16 }));
    asked(|mode| query::read(file, mode, 23), 23, Ok(Token { kind: Kind::Pointer, number: 0, first: 29, count: 0 }));
    asked(|mode| query::skip(file, mode, 22), 23, Ok(32));
    asked(|mode| query::item(file, mode, 22, 1), 23, Ok(29));
    asked(|mode| query::follow(file, mode, 23), 23, Ok((0, 1)));
    asked(|mode| query::lookup(file, mode, 22, key), 23, Ok(29));
    asked(|mode| query::lookup(file, mode, 22, "slots"), 23, Err(error(NoItem, 22)));
    asked(|mode| query::body(file, mode, 0), 0, Ok(key.as_bytes()));
    asked(|mode| query::body(file, mode, 23), 23, Ok(key.as_bytes()));

    // a padded number that is not read changes nothing
    assert_eq!(both(|mode| query::item(file, mode, 22, 0)), [Ok(23); 2]);
    assert_eq!(both(|mode| query::follow(file, mode, 32)), [Ok((22, 1)); 2]);
    assert_eq!(both(|mode| query::lookup(&hex("71 41 61 1f 80 00 00"), mode, 0, "a")), [Ok(3); 2]);
}

#[test]
fn the_mode_goes_with_the_file() {
    assert_eq!(Mode::default(), Mode::Strict);
    // an array of two padded integers, a map of the key "a" and a padded pointer to the array, and a pointer to the map
    let bytes = hex("62 1f 80 80 80 80 00 1f 81 80 80 80 00 71 41 61 ff 80 80 00 f6 00");
    let file = File::check_with(Mode::Tolerant, &bytes).unwrap();
    assert_eq!((file.mode(), file.clone().mode()), (Mode::Tolerant, Mode::Tolerant));
    let want = [
        (0, Part::Array(2)),
        (1, Part::Integer(15)),
        (7, Part::Integer(16)),
        (13, Part::Map(1)),
        (14, Part::Text(b"a".to_vec())),
        (16, Part::Pointer(0)),
        (20, Part::Pointer(13)),
    ];
    assert_eq!(parts(&file), want);
    assert_eq!(file.depths(), [1, 2, 3]);
    let list = file.entry().follow().lookup("a").unwrap().follow();
    assert_eq!(list.items().unwrap().map(|item| item.offset()).collect::<Vec<_>>(), [1, 7]);
    assert_eq!(file.value_at(0).unwrap().item(1).unwrap().offset(), 7);
}
