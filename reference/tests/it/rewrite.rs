//! A well-formed file, read value by value and written again, has the same bytes.

use reference::{check, depths, export, item, Call, ErrorKind, Mode, Writer};

use crate::random::Random;

/// The calls that write the values of a well-formed file, found by the questions at an offset. Targets are those in the file.
pub fn calls_of(file: &[u8], mode: Mode) -> Vec<Call<'_>> {
    let mut starts = vec![0; file.len()];
    let checked = check(file, mode, &mut starts).expect("a well-formed file");
    let mut calls = Vec::new();
    for start in &starts[..checked.count] {
        let start = u64::from(*start);
        let call = Call::of(file, mode, start).expect("a value");
        calls.push(call);
        for index in 0..call.items() as u64 {
            let offset = item(file, mode, start, index).expect("an item");
            calls.push(Call::of(file, mode, offset as u64).expect("an item"));
        }
    }
    calls.push(Call::Close(checked.entry as u64));
    calls
}

/// Writes a well-formed file again, with just enough room and words.
fn assert_rewritten(file: &[u8]) {
    let mut starts = vec![0; file.len()];
    let count = check(file, Mode::Strict, &mut starts).expect("a well-formed file").count;
    let mut out = vec![0; file.len()];
    let mut starts = vec![0; count];
    let mut writer = Writer::new();
    for call in calls_of(file, Mode::Strict) {
        let answer;
        (answer, writer) = writer.step(call, &mut out, &mut starts);
        assert_eq!(answer, Ok(()), "{call:?}");
    }
    assert!(writer.closed);
    assert_eq!(writer.written as usize, file.len());
    assert_eq!(out, file);
}

#[test]
fn samples_of_the_papers() {
    let files: [&[u8]; 6] = [
        &[0x00, 0x00],
        &[0x45, 0x68, 0x65, 0x6c, 0x6c, 0x6f, 0x61, 0xf6, 0x62, 0xf8, 0xf3, 0x72, 0x41, 0x61, 0xf5, 0x41, 0x78, 0x01, 0x06],
        &[0x61, 0x1f, 0x1b, 0x64, 0xf3, 0x11, 0x12, 0x13, 0x04],
        &[0x1f, 0x1b, 0xe1, 0x00],
        &[0x2f, 0xf0, 0xff, 0xff, 0xff, 0xff, 0xff, 0xff, 0xff, 0x7f, 0x09],
        &[0xc5, 0x00, 0xc5, 0x01, 0x10, 0x82, 0x10, 0x31, 1, 2, 3, 4, 5, 6, 7, 8, 0x0a],
    ];
    for file in files {
        assert_rewritten(file);
    }
}

#[test]
fn written_files() {
    let mut random = Random::new(3);
    for _ in 0..1500 {
        let longest = 8 + random.below(900) as usize;
        let file = random.file(longest);
        assert_rewritten(&file);
    }
}

#[test]
fn spoilt_files_that_are_still_well_formed() {
    let mut random = Random::new(4);
    let mut accepted = 0;
    for _ in 0..20_000 {
        let longest = 8 + random.below(60) as usize;
        let file = random.file(longest);
        let file = random.spoilt(&file);
        if check(&file, Mode::Strict, &mut vec![0; file.len()]).is_ok() {
            assert_rewritten(&file);
            accepted += 1;
        }
    }
    assert!(accepted > 1000, "{accepted} files");
}

/// The calls that write the values of a well-formed file, with each target as the number of the value that starts there, and
/// the depths of the values.
pub fn numbered(file: &[u8], mode: Mode) -> (Vec<Call<'_>>, Vec<u32>) {
    let mut starts = vec![0; file.len()];
    let mut words = starts.clone();
    let count = depths(file, mode, &mut starts, &mut words).expect("a well-formed file").count;
    words.truncate(count);
    let number = |at: u64| starts[..count].partition_point(|start| u64::from(*start) < at) as u64;
    let calls = calls_of(file, mode).into_iter().map(|call| match call {
        Call::Reference(at) => Call::Reference(number(at)),
        Call::Pointer(at) => Call::Pointer(number(at)),
        Call::Close(at) => Call::Close(number(at)),
        call => call,
    });
    (calls.collect(), words)
}

/// A file with padded numbers holds the same values, and has the same bytes once its numbers are in their shortest form.
#[test]
fn padded_files() {
    let mut random = Random::new(12);
    let mut overlong = 0;
    for _ in 0..1500 {
        let longest = 8 + random.below(400) as usize;
        let file = random.file(longest);
        let padded = random.padded(&file);
        let answer = check(&padded, Mode::Strict, &mut vec![0; padded.len()]);
        if padded == file {
            assert!(answer.is_ok());
            continue;
        }
        assert_eq!(answer.map_err(|error| error.kind), Err(ErrorKind::Overlong));
        overlong += 1;
        let (calls, depths) = numbered(&file, Mode::Strict);
        let (mut padded_calls, mut padded_depths) = numbered(&padded, Mode::Tolerant);
        if padded_depths.len() > depths.len() {
            // The entry is out of the delta byte's reach, and the last value leads to it.
            let [.., Call::Pointer(entry), Call::Close(_)] = padded_calls[..] else {
                panic!("no pointer to the entry: {padded_calls:?}");
            };
            padded_calls.truncate(padded_calls.len() - 2);
            padded_calls.push(Call::Close(entry));
            padded_depths.pop();
        } else {
            assert_eq!(export(&padded, |fewest| fewest), Ok(file.clone()));
        }
        assert_eq!((padded_calls, padded_depths), (calls, depths));
    }
    assert!(overlong > 1000, "{overlong} files");
}
