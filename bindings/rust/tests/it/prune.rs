//! Prune: samples, the examples, errors and memory of any length.

use twine::ErrorKind::{self, *};
use twine::{prune_into, Error, File, Mode, Pruned};

use crate::{error, hex, refused};

/// A file and what prune makes of it, by both ways.
fn becomes(row: &str, new: &str, count: usize, entry: usize) {
    let (bytes, new) = (hex(row), hex(new));
    assert_eq!(File::check(&bytes).unwrap().prune(), new, "{row}");
    let mut out = vec![0xaa; bytes.len()];
    let mut tables = [(); 2].map(|()| vec![0xaaaa_aaaa; bytes.len() - 1]);
    let [old_starts, new_starts] = &mut tables;
    assert_eq!(prune_into(&bytes, &mut out, old_starts, new_starts), Ok(Pruned { length: new.len(), count, entry }), "{row}");
    assert_eq!(out[..new.len()], new, "{row}");
    assert!(out[new.len()..].iter().all(|byte| *byte == 0xaa), "{row}");
    for (file, starts) in [(&bytes, &tables[0]), (&new, &tables[1])] {
        let file = File::check(file).unwrap();
        let (listed, rest) = starts.split_at(file.count());
        assert!(file.values().map(|value| value.offset() as u32).eq(listed.iter().copied()), "{row}");
        assert!(rest.iter().all(|word| *word == 0), "{row}");
    }
}

/// An error, after which all memory is zeros.
fn fails(row: &str, room: usize, words: [usize; 2], want: Error) {
    let mut out = vec![0xaa; room];
    let mut tables = words.map(|words| vec![0xaaaa_aaaa; words]);
    let [old_starts, new_starts] = &mut tables;
    assert_eq!(prune_into(&hex(row), &mut out, old_starts, new_starts), Err(want), "{row}, {room} bytes, {words:?} words");
    assert!(out.iter().all(|byte| *byte == 0), "{row}");
    assert!(tables.concat().iter().all(|word| *word == 0), "{row}");
}

const HELLO: &str = "45 68 65 6c 6c 6f 61 f6 62 f8 f3 72 41 61 f5 41 78 01 06";

#[test]
fn dead_values() {
    becomes(HELLO, HELLO, 4, 11);
    becomes("00 00", "00 00", 1, 0);
    // before the entry, between what it reaches, and after it
    becomes("10 11 00", "11 00", 1, 0);
    becomes("10 11 f1 00", "10 f0 00", 2, 1);
    becomes("10 f0 11 12 02", "10 f0 00", 2, 1);
    // dead, although they lead to what is not
    becomes("10 61 f1 12 f0 62 f4 f3 03", "12 f0 00", 2, 1);
}

#[test]
fn references_are_followed() {
    becomes("10 11 e1 00", "10 e0 00", 2, 1);
    becomes("10 11 61 e2 f1 00", "10 61 e1 f1 00", 3, 3);
}

#[test]
fn a_distance_in_fewer_bytes() {
    let label = "4f 05 61 61 61 61 61 61 61 61 61 61 61 61 61 61 61 61 61 61 61 61";
    becomes(&format!("10 {label} ff 07 01"), "10 f0 00", 2, 1);
    becomes(&format!("10 11 {label} 62 ff 09 ff 09 04"), &format!("10 {label} 62 ff 08 ff 09 04"), 3, 23);
}

#[test]
fn a_rebuilt_plan() {
    let rebuilt = include_bytes!("../../../../examples/rebuilt.twine");
    let file = File::check(rebuilt).unwrap();
    assert_eq!(file.prune(), include_bytes!("../../../../examples/pruned.twine"));
    let row = include_bytes!("../../../../examples/row.twine");
    assert_eq!(File::check(row).unwrap().prune(), row);
}

#[test]
fn errors_of_check_come_first() {
    for (row, kind, place) in [
        ("", Empty, 0),
        ("00", BadEntry, 0),
        ("61 f0 01", BadTarget, 1),
        ("1f 80 00 02", Overlong, 0),
        ("61 45 61 00", LongBody, 2),
        ("41 61 41 61 05", BadEntry, 4),
    ] {
        for (room, words) in [(0, [9, 0]), (9, [9, 9]), (0, [9, 9]), (9, [9, 0])] {
            fails(row, room, words, error(kind, place));
        }
    }
    fails("10 11 00", 9, [0, 9], error(Full, 0));
    fails("10 11 00", 9, [1, 9], error(Full, 1));
}

#[test]
fn too_little_memory() {
    // two bytes of text, and an array with a pointer to it: the first call that is refused decides
    let row = "42 61 61 61 f3 01";
    let answers: [ErrorKind; 8] = [NoRoom, NoRoom, NoRoom, NoRoom, Full, Full, Full, Full];
    for (room, kind) in answers.into_iter().enumerate() {
        fails(row, room, [2, 1], refused(kind));
        fails(row, room, [2, 0], refused(Full));
    }
    for room in 0..6 {
        fails(row, room, [2, 2], refused(NoRoom));
    }
    becomes(row, row, 2, 3);
}

#[test]
fn a_padded_file_is_overlong() {
    let padded = hex("10 1f 80 00 f3 00");
    let file = File::check_with(Mode::Tolerant, &padded).unwrap();
    assert_eq!(file.try_prune(), Err(error(Overlong, 1)));
    // not padded, and so the same in both modes
    let shortest = hex("10 1f 00 f2 00");
    let file = File::check_with(Mode::Tolerant, &shortest).unwrap();
    assert_eq!(file.try_prune(), Ok(hex("10 f0 00")));
}
