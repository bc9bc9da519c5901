//! The samples of document 01, and the example files of the repository.

use twine::ErrorKind::{self, *};
use twine::{File, Mode, Node, Value, Writer, LIMIT};

use crate::{error, hex, parts, Part};

/// Both modes accept it.
fn accepted(row: &str, starts: &[usize], entry: usize, depths: &[u32]) {
    let bytes = hex(row);
    let [strict, tolerant] = [Mode::Strict, Mode::Tolerant].map(|mode| File::check_with(mode, &bytes).expect(row));
    for file in [&strict, &tolerant] {
        assert_eq!(file.values().map(|value| value.offset()).collect::<Vec<_>>(), starts, "{row}");
        assert_eq!(file.count(), starts.len(), "{row}");
        assert_eq!(file.entry().offset(), entry, "{row}");
        assert_eq!(file.depths(), depths, "{row}");
        for at in 0..=bytes.len() {
            assert_eq!(file.value_at(at).map(|value| value.offset()), starts.contains(&at).then_some(at));
        }
        assert!(file.value_at(usize::MAX).is_none());
    }
    assert_eq!(parts(&strict), parts(&tolerant));
}

/// Both modes refuse it.
fn wrong(row: &str, kind: ErrorKind, place: usize) {
    for mode in [Mode::Strict, Mode::Tolerant] {
        assert_eq!(File::check_with(mode, &hex(row)).unwrap_err(), error(kind, place), "{row}");
    }
}

#[test]
fn checked() {
    wrong("", Empty, 0);
    wrong("00", BadEntry, 0);
    accepted("00 00", &[0], 0, &[1]);
    accepted("45 68 65 6c 6c 6f 61 f6 62 f8 f3 72 41 61 f5 41 78 01 06", &[0, 6, 8, 11], 11, &[1, 2, 3, 4]);
    accepted("61 1f 1b 64 f3 11 12 13 04", &[0, 3], 3, &[1, 2]);
    wrong("61 f0 01", BadTarget, 1);
    accepted("1f 1b e1 00", &[0, 2], 2, &[1, 2]);
    wrong("61 61 00 02", Nested, 1);
    wrong("7f f1 ff ff ff ff ff ff ff 7f 00", LongList, 10);
    accepted("2f f0 ff ff ff ff ff ff ff 7f 09", &[0], 0, &[1]);
    wrong("1f f1 ff ff ff ff ff ff ff 7f 09", Range, 0);
    wrong("42 c3 28 02", BadText, 0);
    wrong("43 ed a0 80 03", BadText, 0);
    wrong("41 61 41 61 00", BadEntry, 4);
    wrong("41 61 41 61 05", BadEntry, 4);
    wrong("90 00", Reserved, 0);
}

#[test]
fn past_the_regions_end() {
    // a length: just after the numbers, even if the region ends there; RANGE comes before it, BAD_TEXT after it
    wrong("45 61 00", LongBody, 1);
    wrong("52 61 00", LongBody, 1);
    wrong("41 00", LongBody, 1);
    wrong("61 45 61 00", LongBody, 2);
    wrong("5f 01 61 00", LongBody, 2);
    wrong("4f f1 ff ff ff ff ff ff ff ff 01 00", Range, 0);
    wrong("4f f0 ff ff ff ff ff ff ff ff 01 00", LongBody, 11);
    wrong("43 c3 28 00", LongBody, 1);
    accepted("41 61 01", &[0], 0, &[1]);

    // a count of items or arguments, and one of pairs; NESTED comes before it, the errors of the items after it
    wrong("62 10 00", LongList, 1);
    wrong("61 00", LongList, 1);
    wrong("6f 01 10 00", LongList, 2);
    wrong("c0 02 10 00", LongList, 2);
    wrong("cf 00 02 10 00", LongList, 3);
    wrong("71 10 00", LongList, 1);
    wrong("72 10 10 10 00", LongList, 1);
    wrong("61 63 00", Nested, 1);
    wrong("63 90 90 00", LongList, 1);
    accepted("71 10 10 02", &[0], 0, &[1]);
    accepted("c0 01 10 02", &[0], 0, &[1]);

    // a number, a float, and an item
    wrong("1f 80 00", Trunc, 0);
    wrong("4f 00", Trunc, 0);
    wrong("c0 00", Trunc, 0);
    wrong("61 1f 00", Trunc, 1);
    wrong("30 01 02 03 00", Trunc, 0);
    wrong("61 31 01 00", Trunc, 1);
    wrong("62 41 61 00", Trunc, 3);
    wrong("80 00", Trunc, 1);
    wrong("b0 00", Trunc, 1);
}

#[test]
fn the_file_of_document_001() {
    let bytes = hex("45 68 65 6c 6c 6f 61 f6 62 f8 f3 72 41 61 f5 41 78 01 06");
    let file = File::check(&bytes).unwrap();
    let want = [
        (0, Part::Text(b"hello".to_vec())),
        (6, Part::Array(1)),
        (7, Part::Pointer(0)),
        (8, Part::Array(2)),
        (9, Part::Pointer(0)),
        (10, Part::Pointer(6)),
        (11, Part::Map(2)),
        (12, Part::Text(b"a".to_vec())),
        (14, Part::Pointer(8)),
        (15, Part::Text(b"x".to_vec())),
        (17, Part::Bool(true)),
    ];
    assert_eq!(parts(&file), want);
    let map = file.entry();
    let list = map.get("a").unwrap();
    assert_eq!(list.offset(), 14);
    assert_eq!(list.follow().offset(), 8);
    assert_eq!(list.follow().item(0).unwrap().body().unwrap(), b"hello");
    assert!(matches!(map.lookup(b"x").unwrap().value(), Value::Bool(true)));
    assert_eq!(map.lookup("y").unwrap_err(), error(NoItem, 11));
    assert!(map.get("y").is_none());
    assert_eq!(list.lookup("a").unwrap_err(), error(WrongKind, 14));
    assert!(list.get("a").is_none());
    assert_eq!(map.body().unwrap_err(), error(WrongKind, 11));
    assert_eq!(format!("{:?} {map:?}", file), "File { bytes: 19, mode: Strict, count: 4, entry: 11 } Node(11)");
}

#[test]
fn items_and_integers() {
    let bytes = hex("61 1f 1b 64 f3 11 12 13 04");
    let value = File::check(&bytes).unwrap().entry();
    assert_eq!(value.item(3).unwrap().offset(), 7);
    assert_eq!(value.item(4).unwrap_err(), error(NoItem, 3));
    assert_eq!(value.item(usize::MAX).unwrap_err(), error(NoItem, 3));
    let bytes = hex("2f f0 ff ff ff ff ff ff ff 7f 09");
    assert!(matches!(File::check(&bytes).unwrap().entry().value(), Value::Integer(i64::MIN)));
}

#[test]
fn the_delta_reaches_back_256_bytes() {
    for (written, entry) in [(256, 0), (257, 257)] {
        let mut w = Writer::new();
        let text = w.text_bytes(&vec![b'a'; written - 3]).unwrap();
        assert_eq!(w.written().len(), written);
        let bytes = w.close(text).unwrap();
        let file = File::check(&bytes).unwrap();
        assert_eq!(file.entry().offset(), entry);
        assert_eq!(file.entry().follow().offset(), 0);
        // a pointer over 257 bytes has three, so that the delta is 2
        assert_eq!(bytes[bytes.len() - 1], if entry == 0 { 255 } else { 2 });
    }
}

#[test]
fn over_the_limit() {
    let bytes = vec![0; LIMIT + 1];
    assert_eq!(File::check(&bytes).unwrap_err(), error(TooLong, 0));
    let file = File::check(&bytes[..LIMIT]).unwrap();
    assert_eq!((file.count(), file.entry().offset()), (LIMIT - 1, LIMIT - 2));
}

#[test]
fn example_files() {
    let examples = std::path::Path::new(env!("CARGO_MANIFEST_DIR")).join("../../examples");
    let expected = std::fs::read_to_string(examples.join("expected")).unwrap();
    for line in expected.lines() {
        let (name, answer) = line.split_once(": ").unwrap();
        let bytes = std::fs::read(examples.join(name.strip_prefix("examples/").unwrap())).unwrap();
        let returned = match File::check(&bytes) {
            Ok(file) => format!("ok {} {}", file.count(), file.entry().offset()),
            Err(error) => format!("{} {}", error.kind, error.place.unwrap()),
        };
        assert_eq!(returned, answer, "{name}");
    }

    for (name, mode) in [("row.twine", Mode::Strict), ("row.twine", Mode::Tolerant), ("old-exporter.twine", Mode::Tolerant)] {
        let bytes = std::fs::read(examples.join(name)).unwrap();
        let file = File::check_with(mode, &bytes).unwrap();
        let integers = |values: Vec<Node<'_>>| -> Vec<i64> {
            let integer = |value: Node<'_>| match value.value() {
                Value::Integer(n) => n,
                other => panic!("{other:?}"),
            };
            values.into_iter().map(integer).collect()
        };
        let frames = file.entry().get("frames").unwrap().follow();
        let slots = frames.items().unwrap().map(|frame| frame.follow().get("slots").unwrap()).collect();
        assert_eq!(integers(slots), [24, 40, 40, 40, 40, 40, 400, 40, 40, 40, 40, 24]);
        let drives = file.entry().get("drives").unwrap().follow();
        let drives: Vec<_> = drives.items().unwrap().map(|drive| integers(drive.follow().items().unwrap().collect())).collect();
        assert_eq!(drives, [[5, 0, 23], [200, 6, 399]]);
    }
}
