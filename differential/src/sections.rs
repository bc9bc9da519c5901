//! The sections: what a case of each is.

use reference::model::Model;
use reference::{Call, Scalar, MAX_LEN};

use crate::compare::{Comparer, Writing};
use crate::difference::{self, Difference};
use crate::ffi::STATE;
use crate::labels;
use crate::make::{self, Padding};
use crate::padded;
use crate::product::Product;
use crate::prune;
use crate::random::Random;
use crate::text;

/// A section of the comparison.
#[derive(Debug)]
pub struct Section<P> {
    /// Its name, for `--only`.
    pub name: &'static str,
    /// How many cases there are, if they come to an end.
    pub cases: Option<u64>,
    /// How many cases are run, however long they take.
    pub least: u64,
    /// Its part of the time, beside the parts of the others.
    pub share: u32,
    /// Compares a case.
    pub run: fn(&mut Comparer<P>, Case) -> Result<(), Difference>,
}

/// A case of a section.
#[derive(Clone, Debug)]
pub struct Case {
    /// Its number.
    pub number: u64,
    /// Its made-up numbers.
    pub random: Random,
}

/// The files of no to three bytes.
const SHORT: u64 = 1 + (1 << 8) + (1 << 16) + (1 << 24);

/// All sections in their order.
pub fn all<P: Product>() -> [Section<P>; 14] {
    let section = |name, share, run| Section { name, cases: None, least: 1, share, run };
    [
        Section { cases: Some(40), ..section("names", 1, names) },
        // These four take some seconds at least: three always end, the last goes on with made-up files.
        Section { cases: Some(SHORT), least: SHORT, ..section("short", 70, short) },
        Section { cases: Some(text::CASES), least: text::CASES, ..section("text", 20, text::text) },
        Section { cases: Some(labels::CASES), least: labels::CASES, ..section("labels", 10, labels::labels) },
        Section { least: padded::SYSTEMATIC, ..section("padded", 20, padded::padded) },
        section("written", 15, written),
        section("built", 15, built),
        section("damaged", 20, damaged),
        section("ends", 15, ends),
        section("prune", 20, prune::prune),
        section("calls", 12, calls),
        section("states", 12, states),
        section("edge", 6, edge),
        section("long", 20, long),
    ]
}

/// The names of errors, also of numbers that none has.
fn names<P: Product>(comparer: &mut Comparer<P>, case: Case) -> Result<(), Difference> {
    let number = case.number as u32;
    comparer.error_name(number)?;
    comparer.error_name(number << 8)?;
    comparer.error_name(number.wrapping_neg())
}

/// Every file of no to three bytes: check with every table, depths, and every query at every offset. Queries do not read the
/// delta byte; of files of three bytes they are asked with five of the 256.
fn short<P: Product>(comparer: &mut Comparer<P>, mut case: Case) -> Result<(), Difference> {
    let mut rest = case.number % SHORT;
    let mut length = 0;
    while rest >= 1 << (8 * length) {
        rest -= 1 << (8 * length);
        length += 1;
    }
    // Times an odd number: if there is no time for all files of this length, those asked for are spread over them.
    rest = rest * 0x9e37_79b1 % (1 << (8 * length));
    let bytes = (rest as u32).to_be_bytes();
    let file = &bytes[4 - length..];
    let guard = [0x10, 0x00, 0x80, 0xff, 0x41][rest as usize % 5];
    let other_mode = make::other_mode(&mut case.random);
    comparer.of_file(file, guard, other_mode, |comparer| {
        let most = length.saturating_sub(1);
        for words in 0..=most + 1 {
            comparer.check(words)?;
        }
        comparer.depths(most, most + 1)?;
        comparer.depths(most, most.saturating_sub(1))?;
        let [room, old_words, new_words] =
            [[length, most, most], [length, most + 1, 1], [2, most, 2], [3, most, 1]][rest as usize % 4];
        comparer.prune(&[guard, 0x5a, !guard][..room], [old_words, new_words])?;
        if length == 3 && !matches!(bytes[3], 0 | 1 | 0x41 | 0x80 | 0xff) {
            return Ok(());
        }
        let keys = [&b""[..], &file[length.min(1)..], &file[..length.min(1)]];
        for at in (0..=length as u64 + 1).chain([u64::MAX]) {
            queries(comparer, at, &keys)?;
        }
        Ok(())
    })
}

/// Well-formed files that the second program's writer wrote.
fn written<P: Product>(comparer: &mut Comparer<P>, mut case: Case) -> Result<(), Difference> {
    let random = &mut case.random;
    let file = small_or_not(random, make::written);
    whole(comparer, random, &file)
}

/// Files that are built byte by byte, well-formed and odd ones.
fn built<P: Product>(comparer: &mut Comparer<P>, mut case: Case) -> Result<(), Difference> {
    let random = &mut case.random;
    let odd = random.pick(&[0, 60, 20, 6]);
    let file = small_or_not(random, |random, length| make::built(random, length, odd, Padding::None));
    whole(comparer, random, &file)
}

/// Damaged files.
fn damaged<P: Product>(comparer: &mut Comparer<P>, mut case: Case) -> Result<(), Difference> {
    let random = &mut case.random;
    let file = if random.one_in(2) {
        small_or_not(random, make::written)
    } else {
        small_or_not(random, |random, length| make::built(random, length, 0, Padding::None))
    };
    let file = make::damaged(random, &file);
    whole(comparer, random, &file)
}

/// Files that announce more than they have: well-formed ones cut at every byte, and lengths and counts that are too great.
fn ends<P: Product>(comparer: &mut Comparer<P>, mut case: Case) -> Result<(), Difference> {
    let random = &mut case.random;
    if !case.number.is_multiple_of(16) {
        let file = make::overstated(random);
        return whole(comparer, random, &file);
    }
    let padding = random.pick(&[Padding::None, Padding::Five, Padding::Any]);
    let mut file = make::cuttable(random, padding);
    // The last byte that is left is the delta.
    while file.pop().is_some() {
        whole(comparer, random, &file)?;
    }
    Ok(())
}

/// A file, of a length for all queries most often.
pub fn small_or_not(random: &mut Random, make: impl FnOnce(&mut Random, usize) -> Vec<u8>) -> Vec<u8> {
    let length = match random.below(64) {
        0 => random.index(20_000),
        1..=5 => random.index(1_500),
        6..=20 => random.index(250),
        _ => random.index(50),
    };
    make(random, length)
}

/// Check and depths with tables of many lengths, and queries at many offsets: all of them, if the file is small.
pub fn whole<P: Product>(comparer: &mut Comparer<P>, random: &mut Random, file: &[u8]) -> Result<(), Difference> {
    let guard = random.pick(&[0x00, 0x10, 0x41, 0x80, 0xf0, 0xff]);
    let other_mode = make::other_mode(random);
    comparer.of_file(file, guard, other_mode, |comparer| {
        let count = comparer.check(file.len())?;
        tables(comparer, random, count.unwrap_or(file.len() / 2))?;
        prune::once(comparer, random, file.len())?;
        offsets(comparer, random, file, 40)
    })
}

/// Check and depths with tables from no words to two more than `count`; if those are many, with some of them.
fn tables<P: Product>(comparer: &mut Comparer<P>, random: &mut Random, count: usize) -> Result<(), Difference> {
    if count <= 8 {
        for words in 0..=count + 2 {
            comparer.check(words)?;
            comparer.depths(count + 1, words)?;
            comparer.depths(words, count)?;
        }
        return Ok(());
    }
    for words in [0, random.index(count), count - 1, count, count + 1, count + 2] {
        comparer.check(words)?;
    }
    for [words, words2] in [[count, count], [count, count - 1], [count - 1, count], [count + 9, count + 2]] {
        comparer.depths(words, words2)?;
    }
    comparer.depths(random.index(count + 2), random.index(count + 2))?;
    comparer.depths(count, random.index(count))
}

/// The queries at offsets of a file: at all of them and past them if it is small, else at some.
fn offsets<P: Product>(comparer: &mut Comparer<P>, random: &mut Random, file: &[u8], some: usize) -> Result<(), Difference> {
    let length = file.len() as u64;
    let mut offsets: Vec<u64> = if length <= 100 {
        (0..=length + 1).collect()
    } else {
        (0..some).map(|_| random.below(length)).chain([0, length - 2, length - 1, length]).collect()
    };
    let any = random.number();
    offsets.extend([u64::MAX, 1 << 63, 1 << 32, (1 << 32) + random.below(length + 1), any]);

    let mut texts: Vec<&[u8]> = Vec::new();
    for &at in &offsets {
        let text = comparer.read(at)?.and_then(|read| read.text);
        if let Some(body) = text {
            let text = &file[body.first..body.first + body.length];
            if texts.len() < 6 && text.len() <= 40 && !texts.contains(&text) {
                texts.push(text);
            }
        }
    }
    if let Some(text) = texts.first().filter(|text| text.len() > 1) {
        texts.push(&text[..text.len() - 1]);
    }
    texts.extend([&b""[..], b"absent"]);
    offsets.into_iter().try_for_each(|at| queries(comparer, at, &texts))
}

/// All queries at an offset; a lookup for each of the keys if there is a map.
pub fn queries<P: Product>(comparer: &mut Comparer<P>, at: u64, keys: &[&[u8]]) -> Result<(), Difference> {
    let read = comparer.read(at)?;
    comparer.skip(at)?;
    comparer.follow(at)?;
    comparer.body(at)?;
    let items = read.map_or(0, |read| read.items);
    if items <= 16 {
        for index in 0..=items + 1 {
            comparer.item(at, index)?;
        }
    } else {
        for index in [0, 1, items / 2, items - 1, items, items + 1] {
            comparer.item(at, index)?;
        }
    }
    for index in [u64::MAX, 1 << 63, 1 << 32] {
        comparer.item(at, index)?;
    }
    let is_map = read.is_some_and(|read| read.is_map);
    let asked = if is_map { keys.len() } else { 1 };
    keys.iter().take(asked).try_for_each(|key| comparer.lookup(at, key))
}

/// Files of up to 16,777,217 bytes.
fn long<P: Product>(comparer: &mut Comparer<P>, mut case: Case) -> Result<(), Difference> {
    let random = &mut case.random;
    // The first cases are of the greatest length, the one over it among them.
    let length = match case.number {
        0 => MAX_LEN,
        1 => MAX_LEN + 1,
        2 => MAX_LEN - 1,
        _ if random.one_in(16) => MAX_LEN - random.index(1 << 23),
        _ => 70_000 + random.index(1 << 20),
    };
    let file = long_file(random, length);
    let other_mode = make::other_mode(random);
    comparer.of_file(&file, 0x10, other_mode, |comparer| {
        let count = comparer.check(file.len())?;
        let count = count.unwrap_or(file.len() / 2);
        for words in [count, count - 1] {
            comparer.check(words)?;
        }
        comparer.depths(count, count)?;
        comparer.depths(count, random.index(count))?;
        prune::once(comparer, random, file.len())?;
        // Each may go over the whole file, in each mode.
        let some = if length > 1 << 21 { 3 } else { 15 };
        offsets(comparer, random, &file, some)
    })
}

/// A file of exactly `length` bytes.
fn long_file(random: &mut Random, length: usize) -> Vec<u8> {
    // Two bytes after the long part: a value, and the delta.
    let (region, part) = (length - 2, length - 40);
    let mut file = Vec::with_capacity(length);
    let shape = random.below(8);
    let padding = random.pick(&[Padding::None, Padding::None, Padding::Five, Padding::Any]);
    let size = padding.size(random);
    let head = |file: &mut Vec<u8>, kind: u8, n: usize| make::head(file, kind, n as u64, size);
    match shape {
        0 => {
            // Pointers one after the other.
            file.push(0x10);
            file.resize(part, 0xf0);
        }
        1 => {
            head(&mut file, 6, part / 2);
            file.resize(region, 0x11);
        }
        2 => {
            // A map whose keys are pointers to the one text before it.
            file.extend(b"\x43key");
            let pairs = part / 16;
            head(&mut file, 7, pairs);
            for _ in 0..pairs {
                let distance = file.len() - 1;
                head(&mut file, 15, distance);
                file.push(0x02);
            }
        }
        3 => {
            head(&mut file, 4, part);
            let first = file.len();
            let unit = "ä€😀a";
            while file.len() + 8 < part {
                file.extend(unit.as_bytes());
            }
            let units = (file.len() - first) / unit.len();
            let end = file.len() + part;
            file.resize(end.min(region), b' ');
            match random.below(4) {
                0 => {
                    let place = random.index(file.len());
                    file[place] ^= 0x80;
                }
                1 => {
                    // One of the € or 😀 becomes what is not a character.
                    let (character, length) = random.pick(&[("€", 3), ("😀", 4)]);
                    let odd: Vec<&[u8]> = make::NOT_CHARACTERS.into_iter().filter(|odd| odd.len() == length).collect();
                    let place = first + random.index(units) * unit.len() + unit.find(character).unwrap_or(0);
                    file[place..place + length].copy_from_slice(random.pick(&odd));
                }
                _ => {}
            }
        }
        4 => {
            // A length or count of about the bytes left, or half of them.
            let kind = random.pick(&[4, 5, 6, 7, 12]);
            let with = |n: usize| {
                let mut numbers = Vec::new();
                if kind == 12 {
                    numbers.push(0xc3);
                    make::number(&mut numbers, n as u64, size);
                } else {
                    head(&mut numbers, kind, n);
                }
                numbers
            };
            // What is left depends on how many bytes the number takes.
            let most = (0..3).fold(part, |n, _| (length - 1 - with(n).len()) / if kind == 7 { 2 } else { 1 });
            file = with(most + random.index(3) - 1);
        }
        shape => {
            let odd = if shape == 5 { 100_000 } else { 0 };
            file = make::built(random, part - 1000, odd, padding);
            file.pop();
        }
    }
    file.truncate(region);
    file.resize(length - 1, 0x10);
    file.push(0);
    if random.one_in(3) {
        let place = random.index(length);
        file[place] ^= 1 << random.below(8);
    }
    file
}

/// Runs of calls from a new writer with an output and a table of fixed lengths, also against the model.
fn calls<P: Product>(comparer: &mut Comparer<P>, mut case: Case) -> Result<(), Difference> {
    let random = &mut case.random;
    let length = random.pick(&[0, 1, 2, 3, 9, 40, 300, 600, 900]);
    let length = length + random.index(1 + length / 2);
    let words = random.pick(&[0, 1, 2, 9, length, length]) + random.index(3);
    let mut memory = Writing::new(comparer.writer_new()?, &junk(random, length), &listed(random, length, words));
    let mut model = Model::new(length, words);
    let number = random.index(60);
    for index in 0..number + 8 {
        let &[_, count, pending, ..] = memory.state();
        let starts = &memory.starts.slice()[..count as usize];
        // The last calls finish the open value, close the file and find it closed.
        let call = match (index < number, starts.last()) {
            (true, _) => match make::call(random, starts, pending > 0) {
                Call::Close(at) if !random.one_in(8) => Call::Pointer(at),
                call => call,
            },
            (false, Some(_)) if pending == 0 => Call::Close(random.pick(starts).into()),
            (false, _) => Call::Scalar(Scalar::Null),
        };
        let answer = comparer.call(&mut memory, call)?;
        let expected = model.call(call).map_or_else(|kind| kind.number().into(), |()| 0_u32);
        let is_last = index + 1 == number + 8;
        if answer != expected || ((is_last || random.one_in(8)) && !is_in(&model, &memory)) {
            let product = format!("{} {:?}", difference::answer(answer, memory.state()), memory.out.slice());
            let question = format!("{call:?}, call {index} of a new writer with {length} bytes and {words} words");
            let second = format!("{} {model:?}", difference::answer(expected, &[]));
            return Err(Difference { question, product, second });
        }
    }
    let &[written, count, _, _, closed] = memory.state();
    if closed == 0 {
        return Ok(());
    }
    let file = &memory.out.slice()[..written as usize];
    comparer.of_file(file, 0xff, None, |comparer| {
        let checked = comparer.check(words)?;
        if checked == Some(count as usize) {
            return Ok(());
        }
        Err(Difference {
            question: format!("check of the closed file of {}", difference::hex(file)),
            product: format!("{checked:?} values"),
            second: format!("{count} values written"),
        })
    })
}

/// Whether a model has what a writer has left.
fn is_in(model: &Model, memory: &Writing) -> bool {
    let &[written, count, pending, _, closed] = memory.state();
    let starts = memory.starts.slice()[..count as usize].iter().map(|start| u64::from(*start));
    model.bytes() == memory.out.slice()[..written as usize]
        && model.starts().into_iter().eq(starts)
        && model.pending() == u128::from(pending)
        && model.is_closed() == (closed != 0)
}

/// Calls in any states, with any tables, whose lengths change from call to call.
fn states<P: Product>(comparer: &mut Comparer<P>, mut case: Case) -> Result<(), Difference> {
    let random = &mut case.random;
    let most = random.pick(&[0, 1, 2, 9, 40, 300, 700]);
    let length = most + random.index(1 + most / 8);
    let words = if random.one_in(40) { 4000 } else { 12 };
    let words = random.index(words);
    let first = state(random, length, words);
    let mut memory = Writing::new(first, &junk(random, length), &listed(random, length, words));
    for _ in 0..1 + random.index(8) {
        if random.one_in(4) {
            let length = nearly(random, memory.out.slice().len());
            let words = nearly(random, memory.starts.slice().len());
            let word = random.below(length as u64 + 2) as u32;
            memory.resize(length, words, random.next() as u8, word);
        }
        if random.one_in(4) {
            let (length, words) = (memory.out.slice().len(), memory.starts.slice().len());
            memory.set_state(state(random, length, words));
        }
        let is_open = memory.state()[2] > 0;
        let call = make::call(random, memory.starts.slice(), is_open);
        comparer.call(&mut memory, call)?;
    }
    Ok(())
}

/// A length that is longer most often, or shorter by a few, or none.
fn nearly(random: &mut Random, length: usize) -> usize {
    match random.below(12) {
        0 => 0,
        1..=3 => length.saturating_sub(random.index(4)),
        _ => length + random.index(20),
    }
}

/// Calls in states around 16,777,216 bytes.
fn edge<P: Product>(comparer: &mut Comparer<P>, mut case: Case) -> Result<(), Difference> {
    let random = &mut case.random;
    let length = MAX_LEN + random.pick(&[0, 0, 1, 20]) - random.pick(&[0, 0, 1, 2]);
    let byte = random.next() as u8;
    let mut memory = Writing::new([0; STATE], &vec![byte; length], &[0; 4]);
    for _ in 0..12 {
        let back = random.pick(&[0, 1, 2, 3, 4, 5, 6, 7, 8, 9, 12, 15, 20, 30, 300, 400]);
        let written = MAX_LEN as u64 + 1 - back;
        let near = written as u32 - random.pick(&[1, 2, 9, 255, 256, 257, 258]);
        let starts = [random.next() as u32 >> 8, near, written as u32, near - 1];
        memory.resize(length, 0, byte, 0);
        for (index, start) in starts.iter().enumerate() {
            memory.resize(length, index + 1, byte, *start);
        }
        let pending = random.pick(&[0, 0, 0, 1, 2, 3, u64::MAX]);
        let start = written - random.pick(&[0, 1, 1, 1, 2, 3]);
        memory.set_state([written, random.below(5), pending, start, random.pick(&[0, 0, 0, 0, 0, 7])]);
        let call = make::call(random, &starts, pending > 0);
        comparer.call(&mut memory, call)?;
    }
    Ok(())
}

/// A state that fits an output and a table, or nearly fits them, or any state.
fn state(random: &mut Random, length: usize, words: usize) -> [u64; STATE] {
    let mut near = |bound: usize| match random.below(16) {
        0 if random.one_in(3) => random.number(),
        0 => bound as u64 + 1,
        1 => bound as u64,
        2 => (bound as u64).saturating_sub(1),
        _ => random.below(bound as u64 + 1),
    };
    let [written, count] = [near(length), near(words)];
    let start = near(written.clamp(1, 1 << 30) as usize - 1);
    let pending = match random.below(8) {
        0..=3 => 0,
        4..=5 => 1,
        6 => random.below(9),
        _ => random.number(),
    };
    let closed = match random.below(24) {
        0 => 1,
        1 => random.pick(&[2, 256, 1 << 32, 1 << 63, u64::MAX]),
        _ => 0,
    };
    [written, count, pending, start, closed]
}

/// Any bytes.
pub fn junk(random: &mut Random, length: usize) -> Vec<u8> {
    let mut bytes = Vec::with_capacity(length + 8);
    while bytes.len() < length {
        bytes.extend(random.next().to_le_bytes());
    }
    bytes.truncate(length);
    bytes
}

/// A table of offsets: in rising order, in any order, with some repeated, or of any words.
fn listed(random: &mut Random, length: usize, words: usize) -> Vec<u32> {
    let order = random.below(5);
    let bound = if order == 0 { length as u64 / 8 + 1 } else { length as u64 + 2 };
    let mut starts: Vec<u32> = (0..words).map(|_| random.below(bound) as u32).collect();
    match order {
        1 | 2 => starts.sort_unstable(),
        3 => starts.fill_with(|| random.number() as u32),
        _ => {}
    }
    starts
}

#[cfg(test)]
mod tests {
    use super::*;
    use reference::{ErrorKind, Mode};

    #[test]
    fn some_long_files_announce_more_than_they_have() {
        let kinds = (0..300).filter_map(|case| {
            let mut random = Random::new(1, "long", case);
            let length = 70_000 + random.index(1 << 12);
            let file = long_file(&mut random, length);
            reference::check(&file, Mode::Tolerant, &mut vec![0; length]).err().map(|error| error.kind)
        });
        let kinds: Vec<ErrorKind> = kinds.collect();
        for kind in [ErrorKind::LongBody, ErrorKind::LongList] {
            assert!(kinds.iter().filter(|met| **met == kind).count() >= 3, "{kind}");
        }
    }
}
