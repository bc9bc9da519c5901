//! Made-up calls and files.

use std::sync::LazyLock;

use reference::{export, Call, ErrorKind, Scalar, Writer};

use crate::random::Random;

/// What texts are cut from; what is cut within a character is not a text.
const LETTERS: &str = "frames drives ä€😀 slot 0123456789 address \u{0}\u{7f}\u{80}\u{7ff}\u{800}\u{ffff}\u{10ffff} \
    a text of more than fifteen bytes, äöüß, with a tail that goes on for a while so that lengths take two bytes: \
    0123456789abcdefghijklmnopqrstuvwxyz";

/// The characters of RFC 3629 at its borders: the first and the last of each range of leads, and of each lead whose second byte is
/// narrowed.
pub const CHARACTERS: [char; 18] = [
    '\0',
    '\u{7f}',
    '\u{80}',
    '\u{7ff}',
    '\u{800}',
    '\u{fff}',
    '\u{1000}',
    '\u{cfff}',
    '\u{d000}',
    '\u{d7ff}',
    '\u{e000}',
    '\u{ffff}',
    '\u{10000}',
    '\u{3ffff}',
    '\u{40000}',
    '\u{fffff}',
    '\u{100000}',
    '\u{10ffff}',
];

/// What is not a character: bytes that begin none, long forms, surrogates, numbers over 10FFFF, and characters that are cut.
pub const NOT_CHARACTERS: [&[u8]; 20] = [
    &[0x80],
    &[0xff],
    &[0xc0, 0x80],
    &[0xc1, 0xbf],
    &[0xe0, 0x80, 0x80],
    &[0xe0, 0x9f, 0xbf],
    &[0xf0, 0x80, 0x80, 0x80],
    &[0xf0, 0x8f, 0xbf, 0xbf],
    &[0xed, 0xa0, 0x80],
    &[0xed, 0xbf, 0xbf],
    &[0xed, 0xa1, 0x81, 0xed, 0xb1, 0x81],
    &[0xf4, 0x90, 0x80, 0x80],
    &[0xf4, 0xbf, 0xbf, 0xbf],
    &[0xf5, 0x80, 0x80, 0x80],
    &[0xc2],
    &[0xc2, 0x7f],
    &[0xe2, 0x82],
    &[0xef, 0xbf],
    &[0xf0, 0x9f, 0x98],
    &[0xf4, 0x8f, 0xbf],
];

/// Bytes between letters, from which a text that holds them is cut.
#[derive(Debug)]
struct Surrounded {
    bytes: Vec<u8>,
    /// Where the bytes begin and end.
    first: usize,
    end: usize,
}

impl Surrounded {
    fn new(bytes: &[u8]) -> Self {
        let [before, after] = ["the letters before, ä and others ", " and those after it: frames, drives"];
        let first = before.len();
        Self { bytes: [before.as_bytes(), bytes, after.as_bytes()].concat(), first, end: first + bytes.len() }
    }

    /// The bytes with no, some or all of the letters before and after them.
    fn cut(&self, random: &mut Random) -> &[u8] {
        let most = random.pick(&[0, 7, 14, self.bytes.len()]);
        let first = self.first - random.index(self.first.min(most) + 1);
        let end = self.end + random.index((self.bytes.len() - self.end).min(most) + 1);
        &self.bytes[first..end]
    }
}

/// The characters at the borders, between letters.
static IN_TEXTS: LazyLock<[Surrounded; CHARACTERS.len()]> =
    LazyLock::new(|| CHARACTERS.map(|character| Surrounded::new(character.to_string().as_bytes())));

/// What is not a character, between letters.
static NOT_IN_TEXTS: LazyLock<[Surrounded; NOT_CHARACTERS.len()]> = LazyLock::new(|| NOT_CHARACTERS.map(Surrounded::new));

/// Byte strings are cut from these.
static BYTES: [u8; 400] = {
    let mut bytes = [0; 400];
    let mut index = 0;
    while index < bytes.len() {
        bytes[index] = (index * 167 + index / 3) as u8;
        index += 1;
    }
    bytes
};

/// The greatest LEB128 numbers that matter: around the bounds of kinds, of 32 and of 64 bits.
const BOUNDS: [u64; 17] = [
    0,
    127,
    128,
    (1 << 14) - 1,
    1 << 14,
    u32::MAX as u64 - 15,
    u32::MAX as u64 - 14,
    (1 << 62) - 16,
    (1 << 62) - 15,
    1 << 62,
    (1 << 63) - 16,
    (1 << 63) - 15,
    (1 << 63) - 1,
    1 << 63,
    u64::MAX - 15,
    u64::MAX - 14,
    u64::MAX,
];

/// Great lengths and counts: some are 0 or small when they are doubled, or when 15 is added, in 64 bits.
const GREAT: [u64; 12] = [
    1 << 16,
    1 << 24,
    1 << 31,
    1 << 32,
    1 << 62,
    (1 << 62) + 1,
    (1 << 63) - 1,
    1 << 63,
    (1 << 63) + 1,
    u64::MAX - 15,
    u64::MAX - 14,
    u64::MAX,
];

/// A text, seldom bytes that are not one.
pub fn text(random: &mut Random) -> &'static [u8] {
    match random.below(8) {
        0 => return NOT_IN_TEXTS[random.index(NOT_IN_TEXTS.len())].cut(random),
        1..=2 => return IN_TEXTS[random.index(IN_TEXTS.len())].cut(random),
        _ => {}
    }
    let letters = LETTERS.as_bytes();
    let most = random.pick(&[3, 14, 15, 16, 40, letters.len()]);
    let length = random.index(most + 1);
    let first = random.index(letters.len() - length + 1);
    &letters[first..first + length]
}

/// A byte string.
pub fn bytes(random: &mut Random) -> &'static [u8] {
    let most = random.pick(&[2, 14, 16, 150, BYTES.len()]);
    let length = random.index(most + 1);
    let first = random.index(BYTES.len() - length + 1);
    &BYTES[first..first + length]
}

/// A number of items: small, seldom any.
fn items(random: &mut Random) -> u64 {
    match random.below(16) {
        0 => random.number(),
        1 => random.pick(&[1 << 63, u64::MAX, u64::MAX / 2, u64::MAX - 9]),
        _ => random.below(6),
    }
}

/// One of the listed starts, seldom another offset.
fn target(random: &mut Random, starts: &[u32]) -> u64 {
    if starts.is_empty() || random.one_in(8) {
        return random.number();
    }
    let start = u64::from(random.pick(starts));
    match random.below(24) {
        0 => start + (1 << 32),
        1 => start + 1,
        _ => start,
    }
}

/// A call for a writer with these listed starts; with an open value seldom an opening or a close.
pub fn call(random: &mut Random, starts: &[u32], is_open: bool) -> Call<'static> {
    match random.below(if is_open { 18 } else { 28 }) {
        0..=1 => Call::Scalar(random.pick(&[Scalar::False, Scalar::True, Scalar::Null])),
        2..=3 => Call::Integer(random.number() as i64),
        4 => Call::Integer(!(random.number() as i64)),
        5 => Call::Float32(random.next() as u32),
        6 => Call::Float64(random.next()),
        7..=9 => Call::Text(text(random)),
        10 => Call::Bytes(bytes(random)),
        11 => Call::Variant0(random.number() as u32),
        12..=13 => Call::Reference(target(random, starts)),
        14..=16 => Call::Pointer(target(random, starts)),
        _ => match random.below(17) {
            0..=4 => Call::Array(items(random)),
            5..=8 => Call::Map(items(random)),
            9..=10 => Call::Tag(random.number()),
            11..=12 => Call::Variant1(random.number() as u32),
            13..=14 => Call::VariantN(random.number() as u32, items(random)),
            _ => Call::Close(target(random, starts)),
        },
    }
}

/// A call of the second program's writer, which would be compiled anew, and slowly, at each place that makes it.
#[inline(never)]
pub fn step(writer: Writer, call: Call<'_>, out: &mut [u8], starts: &mut [u32]) -> (Result<(), ErrorKind>, Writer) {
    writer.step(call, out, starts)
}

/// The most bytes of a pointer and a delta.
const CLOSE: usize = 6;

/// A well-formed file of at most `longest` bytes and those of a close, by the second program's writer.
pub fn written(random: &mut Random, longest: usize) -> Vec<u8> {
    let longest = longest.max(2);
    let mut out = vec![0; longest + CLOSE];
    let mut starts = vec![0; longest + CLOSE];
    let mut writer = Writer::new();
    for _ in 0..random.index(longest) {
        let call = match call(random, &starts[..writer.count as usize], writer.pending > 0) {
            Call::Close(at) => Call::Pointer(at),
            call => call,
        };
        writer = step(writer, call, &mut out[..longest], &mut starts).1;
    }
    while writer.pending > 0 || writer.count == 0 {
        let null = Call::Scalar(Scalar::Null);
        writer = step(writer, null, &mut out[..longest], &mut starts).1;
    }
    // A far entry is one by a pointer.
    let entry = starts[random.index(writer.count as usize)];
    writer = step(writer, Call::Close(entry.into()), &mut out, &mut starts).1;
    out.truncate(writer.written as usize);
    out
}

/// How many values to which nothing leads there may be, before one that leads to all of them.
const LOOSE: usize = 12;

/// A well-formed file of about `length` bytes, by the second program's writer, in which the entry reaches a value with a chance of
/// `live` in 16. Only references lead to values, or only pointers, or both.
pub fn rebuilt(random: &mut Random, length: usize, live: u64) -> Vec<u8> {
    // A value begins before the length, and is no longer than the room after it; then come the last holder, the entry, and what is
    // after it.
    let mut rebuilding = Rebuilding {
        writer: Writer::new(),
        out: vec![0; length + 1000],
        starts: vec![0; length + 1000],
        live: Vec::new(),
        loose: Vec::new(),
        references: random.pick(&[0, 8, 16]),
    };
    while (rebuilding.writer.written as usize) < length {
        let is_live = random.below(16) < live;
        rebuilding.value(random, is_live);
        let is_loose = !rebuilding.loose.is_empty();
        if rebuilding.loose.len() == LOOSE || is_loose && random.one_in(12) {
            rebuilding.hold(random);
        }
    }
    rebuilding.finish(random)
}

/// A file that [`rebuilt`] makes.
struct Rebuilding {
    writer: Writer,
    out: Vec<u8>,
    starts: Vec<u32>,
    /// The values that the entry is to reach.
    live: Vec<u32>,
    /// Those of them to which no other leads.
    loose: Vec<u32>,
    /// The chance in 16 that a target has a reference.
    references: u64,
}

impl Rebuilding {
    /// Makes a call; the target of a reference or pointer is not loose any more if what leads to it is live.
    fn call(&mut self, call: Call<'_>, is_live: bool) -> Result<(), ErrorKind> {
        let answer;
        (answer, self.writer) = step(self.writer, call, &mut self.out, &mut self.starts);
        if let (true, Ok(()), Call::Reference(at) | Call::Pointer(at)) = (is_live, answer, call) {
            self.loose.retain(|start| u64::from(*start) != at);
        }
        answer
    }

    /// A reference or a pointer.
    fn lead(&self, random: &mut Random, start: u32) -> Call<'static> {
        if random.below(16) < self.references {
            Call::Reference(start.into())
        } else {
            Call::Pointer(start.into())
        }
    }

    /// A value with its items. A live one leads to live ones alone.
    fn value(&mut self, random: &mut Random, is_live: bool) {
        let start = self.writer.written as u32;
        while self.writer.written as u32 == start || self.writer.pending > 0 {
            let listed = if is_live { &self.live } else { &self.starts[..self.writer.count as usize] };
            let call = match call(random, listed, self.writer.pending > 0) {
                Call::Reference(at) | Call::Pointer(at) if listed.iter().any(|start| u64::from(*start) == at) => {
                    self.lead(random, at as u32)
                }
                Call::Reference(_) | Call::Pointer(_) | Call::Close(_) => Call::Scalar(Scalar::True),
                // Small enough for the room.
                Call::Array(items) => Call::Array(items % 20),
                Call::Map(pairs) => Call::Map(pairs % 10),
                Call::VariantN(index, items) => Call::VariantN(index, items % 20),
                Call::Text(text) => Call::Text(&text[..text.len().min(20)]),
                Call::Bytes(bytes) => Call::Bytes(&bytes[..bytes.len().min(20)]),
                call => call,
            };
            // What is not a text is refused, and so is an opening among items.
            let _ = self.call(call, is_live);
        }
        if is_live {
            self.live.push(start);
            self.loose.push(start);
        }
    }

    /// A live value that leads to every loose one.
    fn hold(&mut self, random: &mut Random) {
        let start = self.writer.written as u32;
        let held = std::mem::take(&mut self.loose);
        let items = held.len() as u64;
        let opening = match random.below(8) {
            0 if items == 1 => Some(Call::Tag(random.number())),
            1 if items == 1 => Some(Call::Variant1(random.number() as u32)),
            2 if items == 1 => None,
            3 if items.is_multiple_of(2) => Some(Call::Map(items / 2)),
            4 => Some(Call::VariantN(random.number() as u32, items)),
            _ => Some(Call::Array(items)),
        };
        let leads: Vec<Call<'_>> = held.iter().map(|start| self.lead(random, *start)).collect();
        for call in opening.into_iter().chain(leads) {
            self.call(call, true).expect("room for a list of leads");
        }
        self.live.push(start);
        self.loose.push(start);
    }

    /// The entry, which is a pointer or a reference at times, dead values after it at times, and the close.
    fn finish(mut self, random: &mut Random) -> Vec<u8> {
        match self.loose.len() {
            0 => self.value(random, true),
            1 => {}
            _ => self.hold(random),
        }
        while random.one_in(4) {
            let lead = self.lead(random, self.loose[0]);
            let start = self.writer.written as u32;
            self.call(lead, true).expect("room for a lead");
            self.loose.push(start);
        }
        let entry = self.loose[0];
        if random.one_in(3) {
            for _ in 0..1 + random.index(4) {
                let start = self.starts[random.index(self.writer.count as usize)];
                let call = match random.below(3) {
                    0 => self.lead(random, start),
                    1 => Call::Array(0),
                    _ => Call::Integer(random.number() as i64),
                };
                self.call(call, false).expect("room for a small value");
            }
        }
        self.call(Call::Close(entry.into()), false).expect("room for a close");
        self.out.truncate(self.writer.written as usize);
        self.out
    }
}

/// Appends a LEB128 number in at least `size` bytes.
pub fn number(bytes: &mut Vec<u8>, n: u64, size: usize) {
    let end = bytes.len() + size;
    let mut rest = n;
    while rest > 0x7f || bytes.len() + 1 < end {
        bytes.push(rest as u8 | 0x80);
        rest >>= 7;
    }
    bytes.push(rest as u8);
}

/// Appends a header and its number, which has at least `size` bytes if it has one.
pub fn head(bytes: &mut Vec<u8>, kind: u8, n: u64, size: usize) {
    if n < 15 {
        bytes.push(kind << 4 | n as u8);
    } else {
        bytes.push(kind << 4 | 15);
        number(bytes, n - 15, size);
    }
}

/// How many bytes the numbers of a file have.
#[derive(Clone, Copy, Debug, PartialEq, Eq)]
pub enum Padding {
    /// No more than they need.
    None,
    /// Five, or more if they need more: as by the old exporter.
    Five,
    /// Each as many as it happens to get, up to ten.
    Any,
}

impl Padding {
    /// The least bytes of the next number.
    pub fn size(self, random: &mut Random) -> usize {
        match self {
            Self::None => 1,
            Self::Five => 5,
            Self::Any => 1 + random.index(10),
        }
    }
}

/// The values of a well-formed file with their numbers padded.
pub fn padded(random: &mut Random, file: &[u8], padding: Padding) -> Vec<u8> {
    export(file, |_| padding.size(random)).expect("a well-formed file")
}

/// A number of neither mode, for one in eight files: the next, the greatest, one whose lowest byte is the tolerant mode's, or any.
pub fn other_mode(random: &mut Random) -> Option<u32> {
    let any = (random.next() as u32).max(2);
    let tolerant = 1 | 0x100 << random.below(24);
    random.one_in(8).then(|| random.pick(&[2, 3, u32::MAX, tolerant, any]))
}

/// A file that is built byte by byte, without a writer.
#[derive(Debug)]
struct Builder<'r> {
    random: &'r mut Random,
    bytes: Vec<u8>,
    starts: Vec<usize>,
    /// One in this many tokens is made odd; none if it is 0.
    odd: u64,
    padding: Padding,
}

/// A file of about `length` bytes, built byte by byte, with its numbers padded. One in `odd` tokens is odd, most of them not
/// well-formed; none if `odd` is 0.
pub fn built(random: &mut Random, length: usize, odd: u64, padding: Padding) -> Vec<u8> {
    let mut builder = Builder { random, bytes: Vec::new(), starts: Vec::new(), odd, padding };
    while builder.bytes.len() < length.max(1) {
        builder.value();
    }
    builder.finish()
}

impl Builder<'_> {
    fn is_odd(&mut self) -> bool {
        self.odd > 0 && self.random.one_in(self.odd)
    }

    /// A header and its number.
    fn head(&mut self, kind: u8, n: u64) {
        if n < 15 {
            self.bytes.push(kind << 4 | n as u8);
        } else {
            self.bytes.push(kind << 4 | 15);
            self.number(n - 15);
        }
    }

    /// A LEB128 number; an odd one is padded, too long or too large.
    fn number(&mut self, n: u64) {
        let size = self.padding.size(self.random);
        if !self.is_odd() {
            return number(&mut self.bytes, n, size);
        }
        match self.random.below(4) {
            0 => {
                let size = 1 + self.random.index(11);
                number(&mut self.bytes, n, size);
            }
            1 => {
                // Most often of nine or ten bytes.
                let any = self.random.index(12);
                let long = self.random.pick(&[8, 9, 9, any]);
                let byte = self.random.pick(&[0x80, 0xff]);
                let last = self.random.pick(&[0, 1, 2, 0x7f, 0x80, 0x81]);
                self.bytes.extend(std::iter::repeat_n(byte, long));
                self.bytes.push(last);
            }
            _ => {
                let bound = self.random.pick(&BOUNDS);
                number(&mut self.bytes, bound, size);
            }
        }
    }

    fn value(&mut self) {
        let start = self.bytes.len();
        let kind = self.random.pick(&[0, 1, 2, 3, 4, 5, 6, 6, 7, 7, 8, 10, 11, 12, 14, 15]);
        match kind {
            6 => {
                let items = self.random.below(20);
                self.head(6, items);
                self.items(items);
            }
            7 => {
                let pairs = self.random.below(8);
                self.head(7, pairs);
                for _ in 0..pairs {
                    let kind = self.random.pick(&[4, 4, 4, 15, 1]);
                    self.immediate(kind);
                    self.item();
                }
            }
            8 => {
                let tag = self.random.number();
                self.head(8, tag);
                self.items(1);
            }
            11 => {
                let index = self.random.number() as u32;
                self.head(11, index.into());
                self.items(1);
            }
            12 => {
                let index = self.random.number() as u32;
                let items = self.random.below(20);
                self.head(12, index.into());
                self.number(items);
                self.items(items);
            }
            kind => self.immediate(kind),
        }
        self.starts.push(start);
    }

    fn items(&mut self, count: u64) {
        let count = if self.is_odd() { self.random.below(count + 2) } else { count };
        for _ in 0..count {
            self.item();
        }
    }

    fn item(&mut self) {
        if self.is_odd() {
            let header = self.random.next() as u8;
            return self.bytes.push(header);
        }
        let kind = self.random.pick(&[0, 1, 2, 3, 4, 5, 10, 14, 15, 15]);
        self.immediate(kind);
    }

    fn immediate(&mut self, kind: u8) {
        if self.is_odd() {
            let header = self.random.pick(&[0x03, 0x0f, 0x32, 0x3f, 0x90, 0x9f, 0xd0, 0xdf]);
            return self.bytes.push(header);
        }
        match kind {
            0 => {
                let low = self.random.below(3) as u8;
                self.bytes.push(low);
            }
            1 | 2 => {
                let n = self.random.number() >> 1;
                self.head(kind, n);
            }
            3 => {
                let low = self.random.below(2) as u8;
                self.bytes.push(0x30 | low);
                let bits = self.random.next().to_le_bytes();
                self.bytes.extend(&bits[..4 + 4 * usize::from(low)]);
            }
            4 | 5 => {
                let body = if kind == 5 { bytes(self.random) } else { text(self.random) };
                let is_well_formed = kind == 5 || std::str::from_utf8(body).is_ok();
                let body = if is_well_formed || self.odd > 0 { body } else { b"key" };
                self.head(kind, body.len() as u64);
                self.bytes.extend(body);
            }
            10 => {
                let index = self.random.number() as u32;
                self.head(10, index.into());
            }
            14 | 15 if !self.starts.is_empty() => {
                let near = self.starts.len().min(self.random.pick(&[2, 9, usize::MAX]));
                let start = self.starts[self.starts.len() - 1 - self.random.index(near)];
                let distance = (self.bytes.len() - start - 1) as u64;
                let distance = if self.is_odd() { self.random.number() } else { distance };
                self.head(kind, distance);
            }
            _ => self.bytes.push(0x10),
        }
    }

    /// The delta byte, of a value that it reaches.
    fn finish(mut self) -> Vec<u8> {
        let end = self.bytes.len();
        let reached = self.starts.iter().filter(|start| end - **start <= 256).count();
        let delta = if reached == 0 {
            self.random.next() as u8
        } else {
            let entry = self.starts[self.starts.len() - 1 - self.random.index(reached)];
            (end - entry - 1) as u8
        };
        self.bytes.push(delta);
        self.bytes
    }
}

/// A well-formed file, with its numbers padded, that is to be cut at each of its bytes: of at most 100 bytes, or with a list whose
/// count takes two or more.
pub fn cuttable(random: &mut Random, padding: Padding) -> Vec<u8> {
    match random.below(8) {
        0 => {
            let mut file = b"\x41k".to_vec();
            let count = 128 + 15 + random.below(60);
            let kind = random.pick(&[6, 7, 12]);
            let size = padding.size(random);
            if kind == 12 {
                let index = random.number() as u32;
                head(&mut file, 12, index.into(), size);
                number(&mut file, count, size);
            } else {
                head(&mut file, kind, count, size);
            }
            let items = if kind == 7 { 2 * count } else { count };
            for _ in 0..items {
                file.extend(random.pick(&[&[0x10][..], &[0x10], &[0x01], &[0xa1], b"\x41k", &[0x1f, 0x1b]]));
            }
            // The delta leads to the value after the list.
            file.extend([0x02, 0x00]);
            file
        }
        1..=3 => {
            let length = random.index(70);
            let file = built(random, length, 0, padding);
            if file.len() <= 100 {
                file
            } else {
                written(random, 90)
            }
        }
        _ => {
            let longest = 20 + random.index(75);
            let file = written(random, longest);
            let longer = padded(random, &file, padding);
            if longer.len() <= 100 {
                longer
            } else {
                file
            }
        }
    }
}

/// A file of fewer than 100 bytes in which a text, a byte string or a list has a length or count that is about, or far more
/// than, what the bytes left allow. It is a value or, if it may be one, an item; pointers and keys after it lead to it.
pub fn overstated(random: &mut Random) -> Vec<u8> {
    let mut file = Vec::new();
    for _ in 0..random.below(4) {
        file.extend(random.pick(&[&[0x10][..], b"\x41k", &[0xa3], &[0x62, 0x11, 0x12], &[0x30, 1, 2, 3, 4]]));
    }
    let kind = random.pick(&[4, 5, 4, 5, 6, 7, 7, 12]);
    let left: u64 = random.pick(&[0, 1, 2, 3, 4, 5, 9, 14, 15, 16, 17, 30, 31]);
    // A list in a list is NESTED, whatever its count is.
    if kind < 6 && random.one_in(2) {
        let holder =
            random.pick(&[&[0x61][..], &[0x63, 0x10, 0x11], &[0x71], &[0x71, 0x41, b'k'], &[0x80], &[0xb0], &[0xc0, 0x01]]);
        file.extend(holder);
    }
    let at = file.len();
    let most = if kind == 7 { left / 2 } else { left };
    let n = match random.below(8) {
        0 => most,
        1 => most.saturating_sub(1),
        2..=3 => most + 1,
        4 => most + 1 + random.below(200),
        _ => random.pick(&GREAT),
    };
    let size = random.pick(&[Padding::None, Padding::None, Padding::Five, Padding::Any]).size(random);
    if kind == 12 {
        let index = random.pick(&[0, 14, 15, 142, 143, 1 << 20, u32::MAX.into()]);
        head(&mut file, 12, index, size);
        number(&mut file, n, size);
    } else if n > u64::MAX - 15 || random.one_in(8) {
        // The number itself is so great, and 15 more may be too great.
        file.push(kind << 4 | 15);
        number(&mut file, n, size);
    } else {
        head(&mut file, kind, n, size);
    }
    let end = file.len() + left as usize;
    while file.len() < end {
        if random.one_in(4) {
            file.push(0x71);
        }
        match random.below(4) {
            0 => file.extend(b"\x41k"),
            1 => file.push(0x02),
            _ => {
                let distance = file.len() - at - 1;
                head(&mut file, 15, distance as u64, 1);
            }
        }
    }
    file.truncate(end);
    file.push(random.below(4) as u8);
    file
}

/// A file with a few damages.
pub fn damaged(random: &mut Random, file: &[u8]) -> Vec<u8> {
    let mut file = file.to_vec();
    for _ in 0..=random.below(3) {
        damage(random, &mut file);
    }
    file
}

fn damage(random: &mut Random, file: &mut Vec<u8>) {
    if file.is_empty() {
        return file.push(random.next() as u8);
    }
    let last = file.len() - 1;
    let place = random.index(file.len());
    match random.below(12) {
        0..=1 => file[place] ^= 1 << random.below(8),
        2 => file[place] = random.next() as u8,
        3 => file[place] = random.pick(&[0x00, 0x0f, 0x1f, 0x6f, 0x7f, 0x80, 0x90, 0xcf, 0xff]),
        4 => file.truncate(place),
        5 => file.insert(place, random.next() as u8),
        6 => {
            file.remove(place);
        }
        7 => {
            let to = place + random.index(file.len() - place + 1).min(9);
            let part = file[place..to].to_vec();
            let at = random.index(file.len() + 1);
            file.splice(at..at, part);
        }
        8 => file[last] = random.pick(&[0, 1, file[last].wrapping_add(1), file[last].wrapping_sub(1), 0xff]),
        9 => {
            // A number after a header of low 15 is padded by some bytes.
            let header = file.iter().skip(place).position(|byte| byte & 15 == 15);
            let number = place + header.unwrap_or(0) + 1;
            let length = file.iter().skip(number).position(|byte| *byte < 0x80);
            if let Some(last) = length.map(|length| number + length) {
                file[last] |= 0x80;
                let more = random.index(9);
                file.splice(last + 1..last + 1, std::iter::repeat_n(0x80, more).chain([0]));
            }
        }
        10 => {
            // A value's number becomes one of the great ones.
            file[place] |= 15;
            let mut bound = Vec::new();
            number(&mut bound, random.pick(&BOUNDS), 1);
            file.splice(place + 1..place + 1, bound);
        }
        _ => {
            file[place] = random.pick(&[0x90, 0x9f, 0xd0, 0xdf, 0x03, 0x0e, 0x32, 0x3f]);
        }
    }
}

#[cfg(test)]
mod tests {
    use super::*;
    use reference::{Checked, Mode};

    fn check(file: &[u8], mode: Mode) -> Result<Checked, ErrorKind> {
        reference::check(file, mode, &mut vec![0; file.len()]).map_err(|error| error.kind)
    }

    fn is_accepted(file: &[u8]) -> bool {
        check(file, Mode::Strict).is_ok()
    }

    #[test]
    fn files_are_well_formed() {
        for case in 0..2000 {
            let mut random = Random::new(1, "make", case);
            let length = random.pick(&[1, 2, 9, 40, 300, 700]);
            assert!(is_accepted(&written(&mut random, length)), "written {case}");
            // A last value of more than 256 bytes is out of a delta's reach.
            let file = built(&mut random, length.min(40), 0, Padding::None);
            let answer = check(&file, Mode::Strict);
            assert!(matches!(answer, Ok(_) | Err(ErrorKind::BadEntry)), "built {case}: {answer:?}");
        }
    }

    #[test]
    fn padded_files_are_well_formed_in_the_tolerant_mode() {
        for padding in [Padding::Five, Padding::Any] {
            let mut overlong = 0;
            for case in 0..1000 {
                let mut random = Random::new(1, "make", case);
                let file = written(&mut random, 300);
                let file = padded(&mut random, &file, padding);
                assert!(check(&file, Mode::Tolerant).is_ok(), "written {case}");
                overlong += u32::from(check(&file, Mode::Strict) == Err(ErrorKind::Overlong));
                let file = built(&mut random, 60, 0, padding);
                let answer = check(&file, Mode::Tolerant);
                assert!(matches!(answer, Ok(_) | Err(ErrorKind::BadEntry)), "built {case}: {answer:?}");
                overlong += u32::from(check(&file, Mode::Strict) == Err(ErrorKind::Overlong));
            }
            assert!(overlong > 1500, "{overlong} of 2000");
        }
    }

    #[test]
    fn other_modes_are_neither() {
        let modes: Vec<Option<u32>> = (0..4000).map(|case| other_mode(&mut Random::new(1, "make", case))).collect();
        assert!(modes.iter().flatten().all(|mode| *mode > 1));
        for mode in [2, 3, 0x101, u32::MAX] {
            assert!(modes.contains(&Some(mode)), "{mode}");
        }
        assert!((400..600).contains(&modes.iter().flatten().count()));
    }

    #[test]
    fn damages_and_odd_tokens_are_mostly_refused() {
        let mut accepted = [0, 0];
        for case in 0..2000 {
            let mut random = Random::new(1, "make", case);
            let file = written(&mut random, 60);
            accepted[0] += u32::from(is_accepted(&damaged(&mut random, &file)));
            accepted[1] += u32::from(is_accepted(&built(&mut random, 60, 20, Padding::None)));
        }
        assert!(accepted.iter().all(|accepted| (20..1500).contains(accepted)), "{accepted:?}");
    }

    #[test]
    fn texts_hold_every_border_at_any_place() {
        // How often each was met at each place of a run of eight bytes.
        let mut met = [[0; 8]; CHARACTERS.len() + NOT_CHARACTERS.len()];
        let mut texts = 0;
        let sequences: Vec<Vec<u8>> = CHARACTERS
            .map(|character| character.to_string().into_bytes())
            .into_iter()
            .chain(NOT_CHARACTERS.map(<[u8]>::to_vec))
            .collect();
        for case in 0..20_000 {
            let text = text(&mut Random::new(1, "make", case));
            texts += usize::from(std::str::from_utf8(text).is_ok());
            for (sequence, met) in sequences.iter().zip(&mut met) {
                let places = text.windows(sequence.len()).enumerate().filter(|(_, window)| window == sequence);
                places.for_each(|(place, _)| met[place % 8] += 1);
            }
        }
        assert!((14_000..18_000).contains(&texts), "{texts}");
        for (sequence, met) in sequences.iter().zip(met) {
            assert!(met.iter().all(|times| *times > 2), "{sequence:x?}: {met:?}");
        }
    }

    /// A header and its number that a file is refused for.
    #[derive(Debug)]
    struct Refused {
        error: reference::Error,
        /// Its own offset.
        at: usize,
        kind: u8,
        is_item: bool,
        /// The length of the region.
        end: usize,
    }

    /// What check refuses a file for in the tolerant mode, if that is one of its tokens.
    fn refused(file: &[u8]) -> Option<Refused> {
        let (_, region) = file.split_last()?;
        let (mut at, mut pending) = (0, 0);
        for token in reference::tokens(region, Mode::Tolerant) {
            match token {
                Ok(token) => {
                    pending = if pending == 0 { token.items } else { pending - 1 };
                    at = token.end;
                }
                Err(error) => {
                    let kind = region.get(at).copied().unwrap_or_default() >> 4;
                    return Some(Refused { error, at, kind, is_item: pending > 0, end: region.len() });
                }
            }
        }
        None
    }

    #[test]
    fn lengths_and_counts_are_overstated_in_every_kind() {
        let refused: Vec<Refused> =
            (0..4000).filter_map(|case| refused(&overstated(&mut Random::new(1, "make", case)))).collect();
        let times = |error: ErrorKind, is_such: &dyn Fn(&Refused) -> bool| {
            refused.iter().filter(|refused| refused.error.kind == error && is_such(refused)).count()
        };
        for is_item in [false, true] {
            for kind in [4, 5] {
                assert!(times(ErrorKind::LongBody, &|refused| (refused.kind, refused.is_item) == (kind, is_item)) > 100);
            }
            assert!(times(ErrorKind::Range, &|refused| refused.is_item == is_item) > 20);
        }
        for kind in [6, 7, 12] {
            assert!(times(ErrorKind::LongList, &|refused| refused.kind == kind) > 100);
        }
        for error in [ErrorKind::LongBody, ErrorKind::LongList] {
            let numbers = |refused: &Refused| refused.error.place as usize - refused.at;
            for bytes in [1, 2, 3, 6, 10, 11] {
                assert!(times(error, &|refused| numbers(refused) == bytes) > 10, "{error} after {bytes} bytes");
            }
            assert!(times(error, &|refused| refused.error.place as usize == refused.end) > 50, "{error} at the end");
        }
        for odd in [0, 1] {
            let left = |refused: &Refused| refused.end - refused.error.place as usize;
            assert!(times(ErrorKind::LongList, &|refused| refused.kind == 7 && left(refused) % 2 == odd) > 50);
        }
        assert!(times(ErrorKind::LongList, &|refused| refused.kind == 12 && refused.error.place as usize - refused.at > 11) > 10);
    }

    #[test]
    fn files_that_are_cut_were_well_formed() {
        let mut ends = [[0; 2]; 3];
        let paddings = [Padding::None, Padding::Five, Padding::Any];
        for (case, padding) in (0..100).flat_map(|case| paddings.map(|padding| (case, padding))) {
            let mut file = cuttable(&mut Random::new(1, "make", case), padding);
            assert!(check(&file, Mode::Tolerant).is_ok(), "{case}");
            assert!(padding != Padding::None || is_accepted(&file), "{case}");
            while file.pop().is_some() {
                if let Some(Refused { error, is_item, .. }) = refused(&file) {
                    let end = crate::ENDS.iter().position(|end| *end == error.kind);
                    ends[end.expect("an end")][usize::from(is_item)] += 1;
                }
            }
        }
        // A list is not an item.
        assert_eq!(ends[2][1], 0);
        ends[2][1] = ends[2][0];
        assert!(ends.as_flattened().iter().all(|times| *times > 100), "{ends:?}");
    }
}
