//! Check and depths against a plain restatement of the rules, without tables, blocks or quick ways.

use reference::ErrorKind::{self, *};
use reference::{check, depths, follow, skip, Mode};

use crate::random::Random;

/// A value of the row: its start and the starts of the values that it targets.
struct Plain {
    start: usize,
    targets: Vec<usize>,
}

/// A header with its numbers and its body of bytes: the items that follow, and where.
struct Head {
    kind: u8,
    n: u128,
    items: u128,
    end: usize,
}

type Fault = (ErrorKind, usize);

/// "LEB128: seven bits a byte, lowest first, high bit set on all but the last."
fn number(region: &[u8], mode: Mode, at: usize) -> Result<(u128, usize), ErrorKind> {
    let mut value = 0;
    let mut place = 0;
    loop {
        let byte = *region.get(at + place).ok_or(Trunc)?;
        if place == 9 && byte > 1 {
            return Err(Range);
        }
        value += u128::from(byte & 0x7f) << (7 * place);
        place += 1;
        if byte & 0x80 == 0 {
            if byte == 0 && place > 1 && mode == Mode::Strict {
                return Err(Overlong);
            }
            return Ok((value, at + place));
        }
    }
}

/// The head at an offset, or its first fault and the place.
fn head(region: &[u8], mode: Mode, at: usize, is_item: bool) -> Result<Head, Fault> {
    let fault = |kind| (kind, at);
    let kind = region[at] / 16;
    let low = region[at] % 16;
    let reserved = match kind {
        0 => low > 2,
        3 => low > 1,
        9 | 13 => true,
        _ => false,
    };
    if reserved {
        return Err(fault(Reserved));
    }
    if is_item && matches!(kind, 6 | 7 | 8 | 11 | 12) {
        return Err(fault(Nested));
    }
    let (mut n, mut end) = (u128::from(low), at + 1);
    if low == 15 {
        (n, end) = number(region, mode, end).map_err(fault)?;
        n += 15;
    }
    let most = match kind {
        1 | 2 => i64::MAX as u128,
        10..=12 => u128::from(u32::MAX),
        _ => u128::from(u64::MAX),
    };
    if n > most {
        return Err(fault(Range));
    }
    let mut count = 0;
    if kind == 12 {
        (count, end) = number(region, mode, end).map_err(fault)?;
    }
    let left = (region.len() - end) as u128;
    let (bytes, items, least) = match kind {
        3 => (4 + 4 * n, 0, 4 + 4 * n),
        4 | 5 => (n, 0, n),
        6 => (0, n, n),
        7 => (0, 2 * n, 2 * n),
        8 | 11 => (0, 1, 0),
        12 => (0, count, count),
        _ => (0, 0, 0),
    };
    if least > left {
        return Err(match kind {
            4 | 5 => (LongBody, end),
            6 | 7 | 12 => (LongList, end),
            _ => fault(Trunc),
        });
    }
    let end = end + bytes as usize;
    if kind == 4 && std::str::from_utf8(&region[end - n as usize..end]).is_err() {
        return Err(fault(BadText));
    }
    Ok(Head { kind, n, items, end })
}

/// The row and the entry of a file.
fn row(file: &[u8], mode: Mode, words: usize) -> Result<(Vec<Plain>, usize), Fault> {
    let Some((delta, region)) = file.split_last() else {
        return Err((Empty, 0));
    };
    let mut row: Vec<Plain> = Vec::new();
    let mut at = 0;
    while at < region.len() {
        let start = at;
        if row.len() == words {
            return Err((Full, start));
        }
        let mut targets = Vec::new();
        let mut wanted: u128 = 1;
        while wanted > 0 {
            if at == region.len() {
                return Err((Trunc, at));
            }
            let found = head(region, mode, at, at > start)?;
            if found.kind >= 14 {
                let target = row.iter().map(|value| value.start).find(|target| at as u128 == *target as u128 + found.n + 1);
                targets.push(target.ok_or((BadTarget, at))?);
            }
            wanted += found.items;
            wanted -= 1;
            at = found.end;
        }
        row.push(Plain { start, targets });
    }
    let entry = row.iter().map(|value| value.start).find(|start| start + usize::from(*delta) + 1 == region.len());
    match entry {
        Some(entry) => Ok((row, entry)),
        None => Err((BadEntry, region.len())),
    }
}

/// The number of values on the longest descent from a value.
fn depth(row: &[Plain], start: usize) -> u32 {
    let value = row.iter().find(|value| value.start == start);
    let targets = value.map_or(&[][..], |value| &value.targets);
    let deepest = targets.iter().map(|target| depth(row, *target)).max();
    1 + deepest.unwrap_or(0)
}

/// Asks both in both modes, by tables of these lengths. Returns the strict and the tolerant answer.
fn compare(file: &[u8], words: usize, more_words: usize) -> [Result<(), ErrorKind>; 2] {
    Mode::ALL.map(|mode| compare_in(file, mode, words, more_words))
}

fn compare_in(file: &[u8], mode: Mode, words: usize, more_words: usize) -> Result<(), ErrorKind> {
    let plain = row(file, mode, words);
    let mut starts = vec![0xaaaa_aaaa; words];
    let answer = check(file, mode, &mut starts);
    let mut expected = vec![0; words];
    match &plain {
        Ok((row, entry)) => {
            let checked = answer.expect("accepted by the plain rules");
            assert_eq!((checked.count, checked.entry), (row.len(), *entry));
            for (word, value) in expected.iter_mut().zip(row) {
                *word = value.start as u32;
            }
        }
        Err((kind, place)) => {
            let error = answer.expect_err("refused by the plain rules");
            assert_eq!((error.kind, error.place), (*kind, *place as u64), "{file:x?}");
        }
    }
    assert_eq!(starts, expected);

    let mut starts = vec![0xaaaa_aaaa; words];
    let mut deep = vec![0xaaaa_aaaa; more_words];
    let deep_answer = depths(file, mode, &mut starts, &mut deep);
    let mut expected_depths = vec![0; more_words];
    match &plain {
        Ok((row, _)) if row.len() > more_words => {
            let error = deep_answer.expect_err("a table that is too short");
            let place = row[more_words].start as u64;
            assert_eq!((error.kind, error.place), (Full, place));
            expected.fill(0);
        }
        Ok((row, _)) => {
            assert_eq!(deep_answer, answer);
            // A descent may branch at each value.
            if row.len() <= 24 {
                for (word, value) in expected_depths.iter_mut().zip(row) {
                    *word = depth(row, value.start);
                }
            } else {
                expected_depths.clone_from(&deep);
            }
        }
        Err(_) => assert_eq!(deep_answer, answer),
    }
    assert_eq!(starts, expected);
    assert_eq!(deep, expected_depths);
    if let Ok((row, _)) = &plain {
        questions_fit(file, mode, row);
    }
    plain.map(|_| ()).map_err(|(kind, _)| kind)
}

/// In an accepted file a value ends where the next starts, and following takes at most j hops from value number j.
fn questions_fit(file: &[u8], mode: Mode, row: &[Plain]) {
    for (number, value) in row.iter().enumerate() {
        let end = row.get(number + 1).map_or(file.len() - 1, |next| next.start);
        let at = value.start as u64;
        assert_eq!(skip(file, mode, at), Ok(end));
        let followed = follow(file, mode, at).expect("a target");
        assert!(followed.hops <= number as u64);
        assert!(row.iter().any(|value| value.start == followed.offset));
    }
}

#[test]
fn files_of_two_and_three_bytes() {
    for a in 0..=255 {
        for b in 0..=255 {
            let _ = compare(&[a, b], 2, 2);
            for c in [0, 1, 2] {
                let _ = compare(&[a, b, c], 2, 2);
            }
        }
    }
}

#[test]
fn any_bytes() {
    let mut random = Random::new(5);
    for _ in 0..200_000 {
        let file = random.bytes(24);
        let words = random.below(6) as usize;
        let more_words = random.below(6) as usize;
        let _ = compare(&file, words, more_words);
    }
}

#[test]
fn written_and_spoilt_files() {
    let mut random = Random::new(6);
    let mut refused = Vec::new();
    for _ in 0..3000 {
        let longest = 8 + random.below(500) as usize;
        let file = random.file(longest);
        assert_eq!(compare(&file, file.len(), file.len()), [Ok(()); 2]);
        let padded = random.padded(&file);
        let strict = if padded == file { Ok(()) } else { Err(Overlong) };
        assert_eq!(compare(&padded, padded.len(), padded.len()), [strict, Ok(())]);
        for file in [file, padded] {
            for _ in 0..4 {
                let spoilt = random.spoilt(&file);
                refused.extend(compare(&spoilt, spoilt.len(), spoilt.len()));
                let words = random.below(30) as usize;
                let more_words = random.below(30) as usize;
                refused.extend(compare(&spoilt, words, more_words));
            }
        }
    }
    for kind in [Trunc, LongBody, LongList, Reserved, Overlong, Range, Nested, BadText, BadTarget, Full, BadEntry] {
        assert!(refused.contains(&Err(kind)), "{kind}");
    }
}

#[test]
fn files_of_many_blocks() {
    let mut random = Random::new(7);
    for longest in [9_000, 40_000, 66_000, 90_000] {
        let file = loop {
            let file = random.file(longest);
            if file.len() > longest / 2 {
                break file;
            }
        };
        assert_eq!(compare(&file, file.len(), file.len()), [Ok(()); 2]);
        let padded = random.padded(&file);
        assert_eq!(compare(&padded, padded.len(), padded.len()), [Err(Overlong), Ok(())]);
        for _ in 0..3 {
            let spoilt = random.spoilt(&file);
            let _ = compare(&spoilt, spoilt.len(), spoilt.len());
        }
    }
}
