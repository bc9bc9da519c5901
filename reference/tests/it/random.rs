//! Made-up numbers, calls and files; the same ones in each run.

use reference::{export, Call, Scalar, Writer};

/// Texts that a made-up call may hold, and bytes that are not a text.
const TEXTS: [&[u8]; 20] = [
    b"",
    b"a",
    b"name",
    b"a longer text of 26 bytes.",
    "\u{e4}\u{20ac}\u{1f600}".as_bytes(),
    "\u{7f}\u{80}\u{7ff}\u{800}\u{fff}\u{1000}".as_bytes(),
    "\u{cfff}\u{d000}\u{d7ff}\u{e000}\u{ffff}".as_bytes(),
    "\u{10000}\u{3ffff}\u{40000}".as_bytes(),
    "a longer text to \u{fffff}\u{100000}\u{10ffff}".as_bytes(),
    &[0xed, 0xa0, 0x80],
    &[0xe0, 0x9f, 0xbf],
    b"a longer text \xf0\x8f\xbf\xbf of 25",
    &[0xf4, 0x90, 0x80, 0x80],
    &[b'x'; 200],
    &[0xff],
    &[b'a', 0xc3],
    &[0xef, 0xbf],
    &[0xc1, 0xbf],
    b"fourteen bytes",
    b"fifteen bytes..",
];

/// Byte strings that a made-up call may hold.
const BYTES: [&[u8]; 6] = [b"", &[0], &[0xff; 14], &[0xf0; 15], &[0x61; 100], &[0; 300]];

/// A xorshift generator.
pub struct Random(u64);

impl Random {
    pub fn new(seed: u64) -> Self {
        Self(seed.wrapping_mul(0x9e37_79b9_7f4a_7c15) | 1)
    }

    pub fn next(&mut self) -> u64 {
        self.0 ^= self.0 << 13;
        self.0 ^= self.0 >> 7;
        self.0 ^= self.0 << 17;
        self.0
    }

    pub fn below(&mut self, bound: u64) -> u64 {
        // The low bits of a xorshift are the weaker ones.
        (self.next() >> 16) % bound.max(1)
    }

    pub fn one_in(&mut self, times: u64) -> bool {
        self.below(times) == 0
    }

    pub fn pick<T: Copy>(&mut self, choice: &[T]) -> T {
        choice[self.below(choice.len() as u64) as usize]
    }

    /// A number of any size, small ones most often, those around a power of two too.
    pub fn number(&mut self) -> u64 {
        match self.below(8) {
            0..=4 => self.below(20),
            5 => self.below(300),
            6 => {
                let power = 1u64 << self.below(64);
                power.wrapping_add(self.below(5)).wrapping_sub(2)
            }
            _ => {
                let bits = self.below(64);
                self.next() >> bits
            }
        }
    }

    /// A small number of items, seldom a large one.
    fn items(&mut self) -> u64 {
        if self.one_in(12) {
            self.number()
        } else {
            self.below(5)
        }
    }

    /// The start of one of the listed values, seldom another offset.
    fn target(&mut self, starts: &[u32]) -> u64 {
        if starts.is_empty() || self.one_in(8) {
            self.number()
        } else {
            self.pick(starts).into()
        }
    }

    /// A call that fits a writer with these listed starts, or nearly fits it; with an open value seldom an opening.
    pub fn call(&mut self, starts: &[u32], is_open: bool) -> Call<'static> {
        match self.below(if is_open { 16 } else { 24 }) {
            0..=1 => Call::Scalar(self.pick(&[Scalar::False, Scalar::True, Scalar::Null])),
            2 => Call::Integer(self.number() as i64),
            3 => Call::Integer(!(self.number() as i64)),
            4 => Call::Float32(self.next() as u32),
            5 => Call::Float64(self.next()),
            6..=7 => Call::Text(self.pick(&TEXTS)),
            8 => Call::Bytes(self.pick(&BYTES)),
            9 => Call::Variant0(self.number() as u32),
            10..=11 => Call::Reference(self.target(starts)),
            12..=14 => Call::Pointer(self.target(starts)),
            _ => self.opening(starts),
        }
    }

    fn opening(&mut self, starts: &[u32]) -> Call<'static> {
        match self.below(16) {
            0..=4 => Call::Array(self.items()),
            5..=8 => Call::Map(self.items()),
            9..=10 => Call::Tag(self.number()),
            11..=12 => Call::Variant1(self.number() as u32),
            13..=14 => Call::VariantN(self.number() as u32, self.items()),
            _ => Call::Close(self.target(starts)),
        }
    }

    /// A well-formed file of at most `longest` bytes.
    pub fn file(&mut self, longest: usize) -> Vec<u8> {
        let mut out = vec![0; longest.max(8)];
        let mut starts = vec![0; longest.max(8)];
        let mut writer = Writer::new();
        let mut calls = self.below(longest as u64 / 2);
        while !writer.closed {
            let listed = &starts[..writer.count as usize];
            let call = if writer.pending > 0 && (calls == 0 || self.one_in(3)) {
                Call::Scalar(Scalar::Null)
            } else if calls == 0 {
                match listed.last() {
                    Some(&last) => Call::Close(last.into()),
                    None => Call::Integer(7),
                }
            } else {
                calls -= 1;
                match self.call(listed, writer.pending > 0) {
                    // Closed only when the calls are at their end.
                    Call::Close(target) => Call::Pointer(target),
                    call => call,
                }
            };
            let answer;
            (answer, writer) = writer.step(call, &mut out, &mut starts);
            if calls == 0 && answer.is_err() {
                // Too full for a closing pointer: a shorter file.
                return self.file(longest);
            }
        }
        out.truncate(writer.written as usize);
        out
    }

    /// The values of a well-formed file with their numbers padded: to five bytes, or each by any number of them.
    pub fn padded(&mut self, file: &[u8]) -> Vec<u8> {
        let is_five = self.one_in(2);
        let size = |size| if is_five { 5 } else { size + self.below(10) as usize };
        export(file, size).expect("a well-formed file")
    }

    /// Any bytes, fewer than `bound`.
    pub fn bytes(&mut self, bound: u64) -> Vec<u8> {
        (0..self.below(bound)).map(|_| self.next() as u8).collect()
    }

    /// A file with a few bytes changed, put in or taken out.
    pub fn spoilt(&mut self, file: &[u8]) -> Vec<u8> {
        let mut file = file.to_vec();
        for _ in 0..=self.below(3) {
            let place = self.below(file.len() as u64) as usize;
            match self.below(5) {
                0 => file.insert(place, self.next() as u8),
                1 if file.len() > 1 => {
                    file.remove(place);
                }
                2 => file[place] ^= 1 << self.below(8),
                3 => file[place] = self.pick(&[0x00, 0x0f, 0x1f, 0x6f, 0x7f, 0x80, 0xff]),
                _ => file[place] = self.next() as u8,
            }
        }
        file
    }
}
