//! The writer against the reference model, call by call.

use reference::model::Model;
use reference::{check, Call, ErrorKind, Mode, Writer};

use crate::random::Random;
use crate::rewrite::calls_of;

const JUNK_BYTE: u8 = 0xaa;
const JUNK_WORD: u32 = 0xaaaa_aaaa;

/// Feeds both the same calls, and returns the refusals met.
fn compare(random: &mut Random, room: usize, words: usize, calls: usize) -> Vec<ErrorKind> {
    let mut out = vec![JUNK_BYTE; room];
    let mut starts = vec![JUNK_WORD; words];
    let mut writer = Writer::new();
    let mut model = Model::new(room, words);
    let mut accepted = Vec::new();
    let mut refused = Vec::new();
    for _ in 0..calls {
        let call = random.call(&starts[..writer.count as usize], writer.pending > 0);
        let (old_out, old_starts, old) = (out.clone(), starts.clone(), writer);
        let answer;
        (answer, writer) = old.step(call, &mut out, &mut starts);
        assert_eq!(answer, model.call(call), "{call:?}");

        let (from, to) = (old.written as usize, writer.written as usize);
        assert_eq!(out[..from], old_out[..from]);
        assert_eq!(out[to..], old_out[to..]);
        let (from, to) = (old.count as usize, writer.count as usize);
        assert!(to - from <= 1);
        assert_eq!(starts[..from], old_starts[..from]);
        assert_eq!(starts[to..], old_starts[to..]);
        match answer {
            Ok(()) => accepted.push(call),
            Err(kind) => {
                refused.push(kind);
                assert_eq!(writer, old);
            }
        }

        assert_eq!(out[..writer.written as usize], model.bytes());
        let listed: Vec<u64> = starts[..to].iter().copied().map(u64::from).collect();
        assert_eq!(listed, model.starts());
        assert_eq!(u128::from(writer.pending), model.pending());
        assert_eq!(writer.closed, model.is_closed());
    }
    if writer.closed {
        read_back(&out[..writer.written as usize], &starts, &accepted);
    }
    refused
}

/// A closed file is accepted by check, with the writer's starts, and holds what was written.
fn read_back(file: &[u8], listed: &[u32], accepted: &[Call<'_>]) {
    let mut starts = vec![JUNK_WORD; file.len()];
    let checked = check(file, Mode::Strict, &mut starts).expect("a closed file is well-formed");
    assert_eq!(starts[..checked.count], listed[..checked.count]);

    let Some((Call::Close(entry), values)) = accepted.split_last() else {
        panic!("the last accepted call is the close");
    };
    let mut read = calls_of(file, Mode::Strict);
    assert_eq!(read.pop(), Some(Call::Close(checked.entry as u64)));
    if checked.entry as u64 != *entry {
        assert_eq!(read.pop(), Some(Call::Pointer(*entry)));
    }
    assert_eq!(read, values);
}

#[test]
fn short_outputs_and_tables() {
    let mut random = Random::new(1);
    let mut refused = Vec::new();
    for _ in 0..6000 {
        let room = random.below(40) as usize;
        let words = random.below(8) as usize;
        refused.extend(compare(&mut random, room, words, 30));
    }
    for kind in [ErrorKind::BadText, ErrorKind::BadTarget, ErrorKind::Full, ErrorKind::NoRoom, ErrorKind::Owed, ErrorKind::Closed]
    {
        assert!(refused.contains(&kind), "{kind}");
    }
    assert!(!refused.contains(&ErrorKind::BadState));
}

#[test]
fn longer_outputs_and_tables() {
    let mut random = Random::new(2);
    for _ in 0..400 {
        let room = random.below(1500) as usize;
        let words = random.below(80) as usize;
        compare(&mut random, room, words, 120);
    }
}
