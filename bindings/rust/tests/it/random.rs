//! Random lists of calls and random bytes: an answer or an error, never a panic.

use std::collections::{BTreeMap, BTreeSet};

use twine::query::{self, Kind};
use twine::{prune_into, Error, ErrorKind, File, Mode, Pruned, Text, Writer};

use crate::{both, error, parts, Part};

/// Characters at the borders of UTF-8.
const AT_BORDERS: [&str; 10] =
    ["\0", "\u{7f}", "\u{80}", "\u{7ff}", "\u{800}", "\u{d7ff}", "\u{e000}", "\u{ffff}", "\u{10000}", "\u{10ffff}"];

/// Just over the borders: longer forms than need be, surrogates, over U+10FFFF, bytes that begin nothing, and characters that are cut.
const NOT_UTF8: [&[u8]; 16] = [
    b"\xc0\x80",
    b"\xc1\xbf",
    b"\xe0\x80\x80",
    b"\xe0\x9f\xbf",
    b"\xf0\x80\x80\x80",
    b"\xf0\x8f\xbf\xbf",
    b"\xed\xa0\x80",
    b"\xed\xbf\xbf",
    b"\xf4\x90\x80\x80",
    b"\xf5\x80\x80\x80",
    b"\x80",
    b"\xff",
    b"\xc2",
    b"\xe0\xa0",
    b"\xed\x9f",
    b"\xf4\x8f\xbf",
];

/// Xorshift of 64 bits.
struct Random(u64);

impl Random {
    fn next(&mut self) -> u64 {
        self.0 ^= self.0 << 13;
        self.0 ^= self.0 >> 7;
        self.0 ^= self.0 << 17;
        self.0
    }

    fn below(&mut self, n: usize) -> usize {
        (self.next() % n as u64) as usize
    }

    /// A number of any size, the small ones often.
    fn number(&mut self) -> u64 {
        let shift = self.below(64);
        self.next() >> shift
    }

    /// A count that is mostly small.
    fn count(&mut self) -> u64 {
        if self.below(20) == 0 {
            self.number()
        } else {
            self.below(5) as u64
        }
    }

    fn bytes(&mut self) -> Vec<u8> {
        let len = if self.below(8) == 0 { self.below(300) } else { self.below(6) };
        let text = self.below(3) > 0;
        (0..len).map(|_| if text { b'a' + self.below(3) as u8 } else { self.next() as u8 }).collect()
    }

    /// Characters, those at the borders among them; in one of three texts also what is not UTF-8.
    fn text(&mut self) -> Vec<u8> {
        let len = if self.below(8) == 0 { self.below(100) } else { self.below(6) };
        let hostile = self.below(3) == 0;
        let mut text = Vec::new();
        for _ in 0..len {
            match self.below(4) {
                0 if hostile => text.extend(NOT_UTF8[self.below(NOT_UTF8.len())]),
                1 => text.extend(AT_BORDERS[self.below(AT_BORDERS.len())].bytes()),
                _ => text.push(b'a' + self.below(3) as u8),
            }
        }
        text
    }

    /// An offset, mostly of the list.
    fn target(&mut self, offsets: &[usize]) -> usize {
        match self.below(10) {
            0 => self.number() as usize,
            1 => self.below(100),
            _ if offsets.is_empty() => 0,
            _ => offsets[self.below(offsets.len())],
        }
    }

    fn part(&mut self, offsets: &[usize]) -> Part {
        match self.below(15) {
            0 => Part::Null,
            1 => Part::Bool(self.below(2) == 1),
            2 => Part::Integer(self.number() as i64),
            3 => Part::Float32(self.next() as u32),
            4 => Part::Float64(self.next()),
            5 => Part::Text(self.text()),
            6 => Part::Bytes(self.bytes()),
            7 => Part::Array(self.count()),
            8 => Part::Map(self.count()),
            9 => Part::Tag(self.number()),
            10 => Part::Variant(self.number() as u32),
            11 => Part::Variant1(self.number() as u32),
            12 => Part::VariantN(self.number() as u32, self.count()),
            13 => Part::Reference(self.target(offsets)),
            _ => Part::Pointer(self.target(offsets)),
        }
    }
}

/// Whether it is a text that is not UTF-8.
fn is_bad_text(part: &Part) -> bool {
    matches!(part, Part::Text(bytes) if std::str::from_utf8(bytes).is_err())
}

fn write(w: &mut Writer, part: &Part) -> Result<usize, Error> {
    match part {
        Part::Null => w.null(),
        Part::Bool(value) => w.bool(*value),
        Part::Integer(value) => w.integer(*value),
        Part::Float32(bits) => w.float32_bits(*bits),
        Part::Float64(bits) => w.float64_bits(*bits),
        Part::Text(bytes) => w.text_bytes(bytes),
        Part::Bytes(bytes) => w.bytes(bytes),
        Part::Array(items) => w.open_array(*items),
        Part::Map(pairs) => w.open_map(*pairs),
        Part::Tag(tag) => w.open_tag(*tag),
        Part::Variant(index) => w.variant(*index),
        Part::Variant1(index) => w.open_variant1(*index),
        Part::VariantN(index, items) => w.open_variant_n(*index, *items),
        Part::Reference(target) => w.reference(*target),
        Part::Pointer(target) => w.pointer(*target),
    }
}

/// What a writer shows of itself.
fn shown(w: &Writer) -> (Vec<u8>, usize, u64, bool) {
    (w.written().to_vec(), w.count(), w.pending(), w.is_closed())
}

/// Makes calls, closes, and reads back what was accepted.
fn write_some(random: &mut Random, mut w: Writer, calls: usize) -> Vec<u8> {
    let mut accepted = Vec::new();
    let mut starts = Vec::new();
    let mut offsets = Vec::new();
    for _ in 0..calls {
        let part = random.part(&offsets);
        // an opening of more items than the test is willing to write
        if matches!(part, Part::Array(n) | Part::Map(n) | Part::VariantN(_, n) if (1000..1 << 24).contains(&n)) {
            continue;
        }
        let before = shown(&w);
        match write(&mut w, &part) {
            Ok(at) => {
                assert!(!is_bad_text(&part));
                assert_eq!(at, before.0.len());
                assert_eq!(w.written()[..at], before.0);
                if before.2 == 0 {
                    starts.push(at);
                }
                offsets.push(at);
                accepted.push((at, part));
            }
            Err(error) => {
                assert_eq!(error.place, None);
                assert_ne!(error.kind, ErrorKind::BadState);
                // before FULL and NO_ROOM
                assert_eq!(error.kind == ErrorKind::BadText, is_bad_text(&part));
                assert_eq!(shown(&w), before);
            }
        }
        if random.below(50) == 0 && w.pending() > 0 {
            assert_eq!(w.close(0).unwrap_err().kind, ErrorKind::Owed);
        }
    }
    while w.pending() > 0 {
        accepted.push((w.null().expect("an open value can be finished"), Part::Null));
    }
    let Some(last) = starts.last().copied() else { return Vec::new() };
    let mut entry = starts[random.below(starts.len())];
    let before = shown(&w);
    let bytes = w.close(entry).or_else(|error| {
        // a fixed writer may have no word or room for the pointer; the last value may be out of reach as well
        assert!(matches!(error.kind, ErrorKind::Full | ErrorKind::NoRoom), "{error}");
        assert_eq!(shown(&w), before);
        entry = last;
        w.close(last)
    });
    let Ok(bytes) = bytes else { return Vec::new() };
    assert_eq!(w.null().unwrap_err().kind, ErrorKind::Closed);

    let file = File::check(&bytes).unwrap();
    let mut read = parts(&file);
    if file.entry().offset() != entry {
        assert_eq!(read.pop(), Some((file.entry().offset(), Part::Pointer(entry))));
    }
    assert_eq!(read, accepted);
    for (value, depth) in file.values().zip(file.depths()) {
        assert!(depth >= 1);
        let _ = (value.follow().value(), value.get("a"), value.body());
    }
    bytes
}

#[test]
fn calls() {
    let mut random = Random(0x9e37_79b9_7f4a_7c15);
    for round in 0..300 {
        write_some(&mut random, Writer::new(), 1 + round);
        let fixed = Writer::fixed(random.below(400), random.below(100));
        write_some(&mut random, fixed, 1 + round);
    }
}

/// A number in LEB128, in at least `len` bytes.
fn leb128(mut n: u64, len: usize) -> Vec<u8> {
    let mut bytes = Vec::new();
    while n > 0x7f || bytes.len() + 1 < len {
        bytes.push(n as u8 | 0x80);
        n >>= 7;
    }
    bytes.push(n as u8);
    bytes
}

/// A file whose numbers are padded at random, some of them.
struct Padded {
    bytes: Vec<u8>,
    /// What is to be read from it.
    parts: Vec<(usize, Part)>,
    /// The offset of the first header with a padded number.
    first: Option<usize>,
}

/// Writes the values and items of a file again, and after them a null, which is the entry. Each distance reaches the same target as before.
fn pad(random: &mut Random, of: &[(usize, Part)]) -> Padded {
    let mut padded = Padded { bytes: vec![], parts: vec![], first: None };
    // where each value or item of the file is now
    let mut moved = BTreeMap::new();
    for (old, part) in of {
        let at = padded.bytes.len();
        moved.insert(*old, at);
        let part = match part {
            Part::Reference(target) => Part::Reference(moved[target]),
            Part::Pointer(target) => Part::Pointer(moved[target]),
            other => other.clone(),
        };
        let (kind, n, body) = match &part {
            Part::Null => (0, 2, vec![]),
            Part::Bool(value) => (0, u64::from(*value), vec![]),
            Part::Integer(value @ 0..) => (1, *value as u64, vec![]),
            Part::Integer(value) => (2, !*value as u64, vec![]),
            Part::Float32(bits) => (3, 0, bits.to_le_bytes().to_vec()),
            Part::Float64(bits) => (3, 1, bits.to_le_bytes().to_vec()),
            Part::Text(bytes) => (4, bytes.len() as u64, bytes.clone()),
            Part::Bytes(bytes) => (5, bytes.len() as u64, bytes.clone()),
            Part::Array(items) => (6, *items, vec![]),
            Part::Map(pairs) => (7, *pairs, vec![]),
            Part::Tag(tag) => (8, *tag, vec![]),
            Part::Variant(index) => (10, u64::from(*index), vec![]),
            Part::Variant1(index) => (11, u64::from(*index), vec![]),
            Part::VariantN(index, _) => (12, u64::from(*index), vec![]),
            Part::Reference(target) => (14, (at - target - 1) as u64, vec![]),
            Part::Pointer(target) => (15, (at - target - 1) as u64, vec![]),
        };
        let second = if let Part::VariantN(_, items) = part { Some(items) } else { None };
        padded.bytes.push(kind << 4 | n.min(15) as u8);
        for number in n.checked_sub(15).into_iter().chain(second) {
            let shortest = leb128(number, 1);
            let bytes = leb128(number, if random.below(4) == 0 { 1 + random.below(10) } else { 1 });
            if bytes != shortest {
                padded.first.get_or_insert(at);
            }
            padded.bytes.extend(bytes);
        }
        padded.bytes.extend(body);
        padded.parts.push((at, part));
    }
    padded.parts.push((padded.bytes.len(), Part::Null));
    padded.bytes.extend([0x02, 0x00]);
    padded
}

/// Strict mode refuses the first padded number, tolerant mode reads what was padded.
#[test]
fn padded() {
    let mut random = Random(0x5851_f42d_4c95_7f2d);
    let (mut refused, mut alike) = (0, 0);
    for round in 0..600 {
        let bytes = write_some(&mut random, Writer::new(), 1 + round / 10);
        let Ok(file) = File::check(&bytes) else { continue };
        let padded = pad(&mut random, &parts(&file));
        let read = File::check_with(Mode::Tolerant, &padded.bytes).unwrap();
        assert_eq!(parts(&read), padded.parts);
        assert_eq!(read.depths(), [file.depths(), vec![1]].concat());
        match (padded.first, File::check(&padded.bytes)) {
            (None, Ok(strict)) => {
                alike += 1;
                assert_eq!(parts(&strict), padded.parts);
            }
            (Some(at), Err(refusal)) => {
                refused += 1;
                assert_eq!(refusal, error(ErrorKind::Overlong, at));
            }
            other => panic!("{other:?}"),
        }
    }
    assert!(refused > 200 && alike > 20, "{refused} refused, {alike} alike");
}

/// What a file is refused for if it is cut to `len` bytes, by its first token that goes past the region's end; none if all values that
/// begin in the region end there.
fn cut(file: &File<'_>, tokens: &[(usize, Part)], len: usize) -> Option<Error> {
    let end = len - 1;
    for at in tokens.iter().map(|(at, _)| *at) {
        if at >= end {
            return file.value_at(at).is_none().then(|| error(ErrorKind::Trunc, end));
        }
        let token = query::read(file.bytes(), file.mode(), at).unwrap();
        if token.first > end {
            return Some(error(ErrorKind::Trunc, at));
        }
        if token.count > end - token.first {
            match token.kind {
                Kind::Float => return Some(error(ErrorKind::Trunc, at)),
                Kind::Text | Kind::Bytes => return Some(error(ErrorKind::LongBody, token.first)),
                Kind::Array | Kind::Map | Kind::VariantN => return Some(error(ErrorKind::LongList, token.first)),
                _ => {}
            }
        }
    }
    None
}

#[test]
fn cuts() {
    let mut random = Random(0xd1b5_4a32_d192_ed03);
    let (mut truncated, mut long_bodies, mut long_lists) = (0, 0, 0);
    for round in 0..300 {
        let calls = 1 + random.below(30);
        let (bytes, mode) = match write_some(&mut random, Writer::new(), calls) {
            written if written.is_empty() => continue,
            written if round % 3 > 0 => (written, Mode::Strict),
            written => (pad(&mut random, &parts(&File::check(&written).unwrap())).bytes, Mode::Tolerant),
        };
        let file = File::check_with(mode, &bytes).unwrap();
        let tokens = parts(&file);
        for len in 1..bytes.len() {
            let checked = File::check_with(mode, &bytes[..len]);
            match cut(&file, &tokens, len) {
                Some(want) => {
                    assert_eq!(checked.unwrap_err(), want, "{:x?}", &bytes[..len]);
                    match want.kind {
                        ErrorKind::Trunc => truncated += 1,
                        ErrorKind::LongBody => long_bodies += 1,
                        _ => long_lists += 1,
                    }
                }
                // the last byte may name a value or not
                None => assert!(checked.map_or_else(|refused| refused == error(ErrorKind::BadEntry, len - 1), |_| true)),
            }
        }
    }
    assert!(truncated > 500 && long_bodies > 500 && long_lists > 500, "{truncated}, {long_bodies}, {long_lists}");
}

/// Asks everything at an offset, in both modes; what is returned is looked at in one of them.
fn ask(file: &[u8], at: usize, random: &mut Random) {
    let (mode, index) = (random.below(2), random.below(4));
    let read = both(|mode| query::read(file, mode, at))[mode];
    let skip = both(|mode| query::skip(file, mode, at))[mode];
    assert!(read.is_ok() || skip.is_err());
    if let Err(Error { kind: ErrorKind::LongBody | ErrorKind::LongList, place }) = read {
        assert!(place.is_some_and(|place| at < place && place < file.len()));
    }
    if let Ok(end) = skip {
        assert!(at < end && end < file.len());
    }
    if let Ok(item) = both(|mode| query::item(file, mode, at, index))[mode] {
        assert!(at < item && item < file.len());
    }
    if let Ok((end, met)) = both(|mode| query::follow(file, mode, at))[mode] {
        assert!(end <= at && met <= at);
    }
    if let Ok(value) = both(|mode| query::lookup(file, mode, at, "a"))[mode] {
        assert!(at < value && value < file.len());
    }
    if let Ok(body) = both(|mode| query::body(file, mode, at))[mode] {
        assert!(body.len() < file.len());
        let text = Text::from(body);
        assert_eq!(text.to_str().is_ok(), text.to_string().as_bytes() == body);
        let _ = format!("{text:?}");
    }
}

/// The entry, the depths, and the values and items of a checked file.
fn all(file: &File<'_>) -> (usize, Vec<u32>, Vec<(usize, Part)>) {
    for value in file.values() {
        assert!(value.follow().offset() <= value.offset());
        let _ = (value.get("a"), value.lookup("b"), value.body());
    }
    let depths = file.depths();
    assert_eq!(depths.len(), file.count());
    (file.entry().offset(), depths, parts(file))
}

#[test]
fn bytes() {
    let mut random = Random(0x2545_f491_4f6c_dd1d);
    let (mut good, mut bad, mut bad_texts, mut overlong) = (0, 0, 0, 0);
    for round in 0..3000 {
        let mut file = if round % 3 == 0 {
            (0..random.below(40)).map(|_| random.next() as u8).collect()
        } else {
            let calls = 1 + random.below(30);
            write_some(&mut random, Writer::new(), calls)
        };
        if let (2, Ok(written)) = (round % 3, File::check(&file)) {
            file = pad(&mut random, &parts(&written)).bytes;
        }
        // some bytes changed, or the end lost
        for _ in 0..random.below(3) {
            if !file.is_empty() {
                let at = random.below(file.len());
                file[at] = random.next() as u8;
            }
        }
        if random.below(8) == 0 {
            file.truncate(random.below(file.len() + 1));
        }
        let [strict, tolerant] = both(|mode| File::check_with(mode, &file).map(|checked| all(&checked)));
        overlong += usize::from(strict != tolerant);
        match tolerant {
            Ok(_) => good += 1,
            Err(error) => {
                bad += 1;
                let place = error.place.unwrap();
                assert!(place <= file.len());
                if error.kind == ErrorKind::BadText {
                    bad_texts += 1;
                    assert_eq!(query::read(&file, Mode::Tolerant, place).unwrap().kind, Kind::Text);
                    assert!(Text::from(query::body(&file, Mode::Tolerant, place).unwrap()).to_str().is_err());
                }
            }
        }
        for at in 0..file.len() + 2 {
            ask(&file, at, &mut random);
        }
        ask(&file, random.next() as usize, &mut random);
    }
    assert!(good > 500 && bad > 500, "{good} accepted, {bad} refused");
    assert!(bad_texts > 50 && overlong > 200, "{bad_texts} for a text, {overlong} for a padded number");
}

/// The values that a file's entry reaches, written again call by call.
fn rewritten(file: &File<'_>) -> Vec<u8> {
    let all = parts(file);
    let of_value = |start: usize| {
        let end = file.value_at(start).expect("a value").end();
        all.iter().filter(move |(at, _)| (start..end).contains(at))
    };
    let mut reached = BTreeSet::new();
    let mut next = vec![file.entry().offset()];
    while let Some(start) = next.pop() {
        if reached.insert(start) {
            next.extend(of_value(start).filter_map(|(_, part)| match part {
                Part::Reference(target) | Part::Pointer(target) => Some(*target),
                _ => None,
            }));
        }
    }
    let mut w = Writer::new();
    let mut moved = BTreeMap::new();
    for (old, part) in reached.into_iter().flat_map(of_value) {
        let part = match part {
            Part::Reference(target) => Part::Reference(moved[target]),
            Part::Pointer(target) => Part::Pointer(moved[target]),
            other => other.clone(),
        };
        moved.insert(*old, write(&mut w, &part).unwrap());
    }
    w.close(moved[&file.entry().offset()]).unwrap()
}

/// A pruned file is what the writer makes of the values that the entry reaches, and is the same if it is pruned again.
#[test]
fn pruned() {
    let mut random = Random(0x6c62_272e_07bb_0142);
    let mut kept = 0;
    for round in 0..600 {
        let bytes = write_some(&mut random, Writer::new(), 1 + round / 4);
        let Ok(file) = File::check(&bytes) else { continue };
        let new = file.prune();
        assert_eq!(new, rewritten(&file));
        assert!(new.len() <= bytes.len());
        let again = File::check(&new).unwrap();
        assert_eq!(again.prune(), new);
        kept += usize::from(1 < again.count() && again.count() < file.count());

        let padded = pad(&mut random, &parts(&file));
        let read = File::check_with(Mode::Tolerant, &padded.bytes).unwrap();
        // the entry is the null at its end
        let want = padded.first.map_or(Ok(vec![0x02, 0x00]), |at| Err(error(ErrorKind::Overlong, at)));
        assert_eq!(read.try_prune(), want);
    }
    assert!(kept > 100, "more than the entry, and not all, is kept in {kept}");
}

/// Memory of any length, for files, damaged ones and any bytes: the new file, or an error and zeros.
#[test]
fn pruned_into() {
    let mut random = Random(0x27d4_eb2f_1656_67c5);
    let mut met = BTreeMap::new();
    for round in 0..6000 {
        let calls = 1 + random.below(20);
        let mut file =
            if round % 6 == 0 { random.bytes() } else { write_some(&mut random, Writer::fixed(60 + calls, 40), calls) };
        if round % 3 == 0 && !file.is_empty() {
            let at = random.below(file.len());
            file[at] = random.next() as u8;
        }
        let mut out = vec![0xaa; random.below(file.len() + 9)];
        let mut old_starts = vec![0xaaaa_aaaa; if random.below(4) == 0 { random.below(file.len() + 2) } else { file.len() }];
        let mut new_starts = vec![0xaaaa_aaaa; random.below(9) * random.below(9)];
        let checked = File::check(&file);
        let answer = prune_into(&file, &mut out, &mut old_starts, &mut new_starts);
        *met.entry(answer.map_err(|error| (error.kind, error.place.is_some())).err()).or_insert(0) += 1;
        match answer {
            Ok(Pruned { length, count, entry }) => {
                let old = checked.unwrap();
                assert_eq!(out[..length], old.prune());
                assert!(out[length..].iter().all(|byte| *byte == 0xaa));
                let new = File::check(&out[..length]).unwrap();
                assert_eq!((count, entry), (new.count(), new.entry().offset()));
                for (file, starts) in [(&old, &old_starts), (&new, &new_starts)] {
                    let listed = file.values().map(|value| value.offset() as u32).chain([0].into_iter().cycle());
                    assert_eq!(*starts, listed.take(starts.len()).collect::<Vec<_>>());
                }
            }
            Err(error) => {
                assert!(out.iter().all(|byte| *byte == 0));
                assert!(old_starts.iter().chain(&new_starts).all(|word| *word == 0));
                match checked {
                    Err(refused) if error.kind != ErrorKind::Full => assert_eq!(error, refused),
                    Err(_) => assert!(error.place.is_some()),
                    // the table for the old file, or the memory for the new one
                    Ok(old) if error.place.is_some() => {
                        let without = old.values().nth(old_starts.len()).map(|value| value.offset());
                        assert_eq!((error.kind, error.place), (ErrorKind::Full, without));
                    }
                    Ok(old) => {
                        let new = old.prune();
                        let count = File::check(&new).unwrap().count();
                        assert!(out.len() < new.len() || new_starts.len() < count);
                        assert!(error.kind == ErrorKind::NoRoom || error.kind == ErrorKind::Full && new_starts.len() < count);
                    }
                }
            }
        }
    }
    let often = [None, Some((ErrorKind::Full, true)), Some((ErrorKind::Full, false)), Some((ErrorKind::NoRoom, false))];
    assert!(often.iter().all(|answer| met.get(answer).is_some_and(|times| *times > 100)), "{met:?}");
}
