//! The writer in any state, lent any table, against the rules in unbounded numbers.

use reference::ErrorKind::{self, *};
use reference::{Call, Writer, MAX_LEN};

use crate::random::Random;

/// What an accepted call writes: its bytes, the next state, and the word listed if any.
type Accepted = (Vec<u8>, Writer, Option<u32>);

/// A header and its number.
fn head(kind: u8, n: i128) -> Vec<u8> {
    let mut bytes = vec![kind * 16 + n.min(15) as u8];
    if n >= 15 {
        number(&mut bytes, n - 15);
    }
    bytes
}

fn number(bytes: &mut Vec<u8>, mut n: i128) {
    while n > 127 {
        bytes.push(128 + (n % 128) as u8);
        n /= 128;
    }
    bytes.push(n as u8);
}

fn with(mut bytes: Vec<u8>, body: &[u8]) -> Vec<u8> {
    bytes.extend(body);
    bytes
}

/// The rules of document 01's section on the writer.
fn plain(writer: Writer, call: Call<'_>, room: usize, starts: &[u32]) -> Result<Accepted, ErrorKind> {
    let [w, count, pending, start] = [writer.written, writer.count, writer.pending, writer.start].map(i128::from);
    let words = starts.len() as i128;
    let longest = room.min(MAX_LEN) as i128;
    if w > room as i128 || w > MAX_LEN as i128 || count > words {
        return Err(BadState);
    }
    if pending > 0 && (count == words || start >= w) {
        return Err(BadState);
    }
    if writer.closed {
        return Err(Closed);
    }
    let listed = &starts[..count as usize];
    let distance = |target: u64| {
        let is_listed = listed.iter().any(|word| u64::from(*word) == target);
        if is_listed && i128::from(target) < w {
            Ok(w - i128::from(target) - 1)
        } else {
            Err(BadTarget)
        }
    };
    // The bytes, and the items that an opening has.
    let (bytes, items) = match call {
        Call::Scalar(scalar) => (head(0, scalar as i128), None),
        Call::Integer(integer) if integer >= 0 => (head(1, integer.into()), None),
        Call::Integer(integer) => (head(2, -1 - i128::from(integer)), None),
        Call::Float32(bits) => (with(vec![0x30], &bits.to_le_bytes()), None),
        Call::Float64(bits) => (with(vec![0x31], &bits.to_le_bytes()), None),
        Call::Text(text) => {
            if std::str::from_utf8(text).is_err() {
                return Err(BadText);
            }
            (with(head(4, text.len() as i128), text), None)
        }
        Call::Bytes(bytes) => (with(head(5, bytes.len() as i128), bytes), None),
        Call::Variant0(index) => (head(10, index.into()), None),
        Call::Reference(target) => (head(14, distance(target)?), None),
        Call::Pointer(target) => (head(15, distance(target)?), None),
        Call::Array(n) => (head(6, n.into()), Some(i128::from(n))),
        Call::Map(n) => (head(7, n.into()), Some(2 * i128::from(n))),
        Call::Tag(tag) => (head(8, tag.into()), Some(1)),
        Call::Variant1(index) => (head(11, index.into()), Some(1)),
        Call::VariantN(index, n) => {
            let mut bytes = head(12, index.into());
            number(&mut bytes, n.into());
            (bytes, Some(n.into()))
        }
        Call::Close(_) if pending > 0 => return Err(Owed),
        Call::Close(entry) => {
            let delta = distance(entry)?;
            if delta <= 255 {
                if w + 1 > longest {
                    return Err(NoRoom);
                }
                let next = Writer { written: writer.written + 1, closed: true, ..writer };
                return Ok((vec![delta as u8], next, None));
            }
            let mut bytes = head(15, delta);
            let size = bytes.len();
            if count == words {
                return Err(Full);
            }
            if w + size as i128 + 1 > longest {
                return Err(NoRoom);
            }
            bytes.push(size as u8 - 1);
            let next = Writer {
                written: writer.written + size as u64 + 1,
                count: writer.count + 1,
                pending: 0,
                start: writer.written,
                closed: true,
            };
            return Ok((bytes, next, Some(w as u32)));
        }
    };
    if items.is_some() && pending > 0 {
        return Err(Owed);
    }
    if pending == 0 && count == words {
        return Err(Full);
    }
    let left = items.unwrap_or((pending - 1).max(0));
    if bytes.len() as i128 + left > (longest - 1 - w).max(0) {
        return Err(NoRoom);
    }
    let start = if pending > 0 { writer.start } else { writer.written };
    let next = Writer {
        written: writer.written + bytes.len() as u64,
        count: writer.count + u64::from(left == 0),
        pending: left as u64,
        start,
        closed: false,
    };
    Ok((bytes, next, (left == 0).then_some(start as u32)))
}

/// A state that fits what is lent, or nearly fits it.
fn state(random: &mut Random, room: usize, words: usize) -> Writer {
    let mut near = |bound: usize| match random.below(12) {
        0 => random.number(),
        1 => (bound as u64 + random.below(3)).saturating_sub(1),
        _ => random.below(bound as u64 + 1),
    };
    let [written, count, start] = [near(room), near(words), near(room)];
    Writer { written, count, pending: if random.one_in(2) { 0 } else { random.number() }, start, closed: random.one_in(12) }
}

fn compare(writer: Writer, call: Call<'_>, out: &mut [u8], starts: &mut [u32]) -> Option<ErrorKind> {
    let expected = plain(writer, call, out.len(), starts);
    let (mut new_out, mut new_starts) = (out.to_vec(), starts.to_vec());
    let (answer, next) = writer.step(call, out, starts);
    let state = match &expected {
        Ok((bytes, state, word)) => {
            new_out[writer.written as usize..][..bytes.len()].copy_from_slice(bytes);
            if let Some(word) = word {
                new_starts[writer.count as usize] = *word;
            }
            *state
        }
        Err(_) => writer,
    };
    assert_eq!(answer.err(), expected.err(), "{writer:?} {call:?}");
    assert_eq!(next, state, "{writer:?} {call:?}");
    assert_eq!(out, new_out);
    assert_eq!(starts, new_starts);
    answer.err()
}

#[test]
fn any_state() {
    let mut random = Random::new(8);
    let mut refused = Vec::new();
    for _ in 0..200_000 {
        let room = random.pick(&[0, 1, 9, 40, 300, 700]);
        let words = random.below(9) as usize;
        let mut out = vec![0xaa; room];
        let mut starts: Vec<u32> = (0..words).map(|_| random.below(room as u64 + 2) as u32).collect();
        if random.one_in(2) {
            starts.sort_unstable();
        }
        let writer = state(&mut random, room, words);
        let call = random.call(&starts.clone(), false);
        refused.push(compare(writer, call, &mut out, &mut starts));
    }
    for kind in [BadText, BadTarget, Full, NoRoom, Owed, Closed, BadState] {
        assert!(refused.contains(&Some(kind)), "{kind}");
    }
    assert!(refused.contains(&None));
}

#[test]
fn states_at_the_longest_output() {
    let mut random = Random::new(9);
    for room in [MAX_LEN - 1, MAX_LEN, MAX_LEN + 1, MAX_LEN + 20] {
        let mut out = vec![0xaa; room];
        for _ in 0..40 {
            let written = (MAX_LEN as u64 + 3) - random.below(12);
            let mut starts = [0, written as u32 - 9, written as u32 - 2, 7];
            let writer = Writer {
                written,
                count: random.below(4),
                pending: random.below(3),
                start: written - 1 - random.below(2),
                closed: false,
            };
            let call = random.call(&starts.clone(), false);
            // The whole output is too long to be looked at each time.
            let expected = plain(writer, call, room, &starts);
            let (answer, next) = writer.step(call, &mut out, &mut starts);
            assert_eq!(answer.err(), expected.as_ref().err().copied());
            assert_eq!(next, expected.map_or(writer, |(_, next, _)| next));
        }
    }
}
