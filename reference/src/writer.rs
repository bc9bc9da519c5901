//! The writer.

use crate::call::Call;
use crate::error::ErrorKind;
use crate::file::MAX_LEN;
use crate::kind::{
    ARRAY, BYTES, FLOAT, LONG, MAP, NEGATIVE, POINTER, POSITIVE, REFERENCE, SCALAR, TAG, TEXT, VARIANT0, VARIANT1, VARIANT_N,
};
use crate::leb128;
use crate::utf8;

/// "A writer's state goes in with each call and comes back as the next state; output and starts table are lent each time."
///
/// A new writer is the default one. Any contents of the fields are dealt with: those that do not fit the lent output and
/// table are `BAD_STATE`.
#[derive(Clone, Copy, Debug, Default, PartialEq, Eq)]
pub struct Writer {
    /// The bytes written.
    pub written: u64,
    /// The starts listed in the table.
    pub count: u64,
    /// The items that the open value owes.
    pub pending: u64,
    /// The start of the open value, while items are owed; else that of the value written last.
    pub start: u64,
    /// Whether the delta byte is written.
    pub closed: bool,
}

impl Writer {
    /// A new writer, which "has no bytes, starts, owed items or close".
    #[must_use]
    pub const fn new() -> Self {
        Self { written: 0, count: 0, pending: 0, start: 0, closed: false }
    }

    /// Makes a call and returns the next state; "a refused call changes nothing".
    ///
    /// The refusals come in the order "`BAD_STATE`, CLOSED, OWED (opening or closing while items are owed), `BAD_TEXT`,
    /// `BAD_TARGET`, FULL (a new value only), `NO_ROOM`". "Accepted calls change only the bytes from old to new w and the
    /// one table word."
    #[inline(always)]
    pub fn step(self, call: Call<'_>, out: &mut [u8], starts: &mut [u32]) -> (Result<(), ErrorKind>, Self) {
        match self.next(call, out, starts) {
            Ok(next) => (Ok(()), next),
            Err(kind) => (Err(kind), self),
        }
    }

    #[inline(always)]
    fn next(self, call: Call<'_>, out: &mut [u8], starts: &mut [u32]) -> Result<Self, ErrorKind> {
        if !self.fits(out, starts) {
            return Err(ErrorKind::BadState);
        }
        if self.closed {
            return Err(ErrorKind::Closed);
        }
        match call {
            Call::Scalar(scalar) => self.immediate(SCALAR, scalar as u64, &[], out, starts),
            Call::Integer(integer) => match u64::try_from(integer) {
                Ok(n) => self.immediate(POSITIVE, n, &[], out, starts),
                Err(_) => self.immediate(NEGATIVE, !integer as u64, &[], out, starts),
            },
            Call::Float32(bits) => self.immediate(FLOAT, 0, &bits.to_le_bytes(), out, starts),
            Call::Float64(bits) => self.immediate(FLOAT, 1, &bits.to_le_bytes(), out, starts),
            Call::Text(text) => {
                if !utf8::is_text(text) {
                    return Err(ErrorKind::BadText);
                }
                self.immediate(TEXT, text.len() as u64, text, out, starts)
            }
            Call::Bytes(bytes) => self.immediate(BYTES, bytes.len() as u64, bytes, out, starts),
            Call::Variant0(index) => self.immediate(VARIANT0, index.into(), &[], out, starts),
            Call::Reference(target) => {
                let distance = self.distance(target, starts)?;
                self.immediate(REFERENCE, distance, &[], out, starts)
            }
            Call::Pointer(target) => {
                let distance = self.distance(target, starts)?;
                self.immediate(POINTER, distance, &[], out, starts)
            }
            Call::Array(n) => self.open(ARRAY, n, None, Some(n), out, starts),
            Call::Map(n) => self.open(MAP, n, None, n.checked_mul(2), out, starts),
            Call::Tag(tag) => self.open(TAG, tag, None, Some(1), out, starts),
            Call::Variant1(index) => self.open(VARIANT1, index.into(), None, Some(1), out, starts),
            Call::VariantN(index, n) => self.open(VARIANT_N, index.into(), Some(n), Some(n), out, starts),
            Call::Close(entry) => self.close(entry, out, starts),
        }
    }

    /// "`BAD_STATE`: w over the output or over 16,777,216; count over the table; items owed with no free word, or with an
    /// open start not below w."
    #[inline(always)]
    fn fits(&self, out: &[u8], starts: &[u32]) -> bool {
        let words = starts.len() as u64;
        self.written <= out.len() as u64
            && self.written <= MAX_LEN as u64
            && self.count <= words
            && (self.pending == 0 || self.count < words && self.start < self.written)
    }

    /// "Room is the smaller of output length and 16,777,216, less 1, less the bytes written, and 0 if that is negative."
    #[inline(always)]
    fn room(&self, out: &[u8]) -> u64 {
        let most = out.len().min(MAX_LEN) as u64;
        most.saturating_sub(1).saturating_sub(self.written)
    }

    /// The distance of a target from the next header.
    ///
    /// "A target or close offset must be among the listed words and below w."
    #[inline(always)]
    fn distance(&self, target: u64, starts: &[u32]) -> Result<u64, ErrorKind> {
        if target < self.written && is_listed(&starts[..self.count as usize], target) {
            Ok(self.written - target - 1)
        } else {
            Err(ErrorKind::BadTarget)
        }
    }

    /// Writes an immediate, as a value of the row or as an item of the open value.
    #[inline(always)]
    fn immediate(self, kind: u8, n: u64, body: &[u8], out: &mut [u8], starts: &mut [u32]) -> Result<Self, ErrorKind> {
        let is_item = self.pending > 0;
        if !is_item && self.count == starts.len() as u64 {
            return Err(ErrorKind::Full);
        }
        let pending = self.pending.saturating_sub(1);
        let head = head_size(n);
        let size = head + body.len();
        self.keep_room(size, Some(pending), out)?;
        let (head, rest) = field(out, self.written, size).split_at_mut(head);
        write_head(head, kind, n);
        rest.copy_from_slice(body);
        let start = if is_item { self.start } else { self.written };
        Ok(self.advance(size, start, pending, starts))
    }

    /// Opens a value that owes `items`; `None` stands for more than 64 bits can count.
    #[inline(always)]
    fn open(
        self,
        kind: u8,
        n: u64,
        arguments: Option<u64>,
        items: Option<u64>,
        out: &mut [u8],
        starts: &mut [u32],
    ) -> Result<Self, ErrorKind> {
        if self.pending > 0 {
            return Err(ErrorKind::Owed);
        }
        if self.count == starts.len() as u64 {
            return Err(ErrorKind::Full);
        }
        let head = head_size(n);
        let size = head + arguments.map_or(0, leb128::size);
        let items = self.keep_room(size, items, out)?;
        let (head, rest) = field(out, self.written, size).split_at_mut(head);
        write_head(head, kind, n);
        if let Some(arguments) = arguments {
            leb128::write(rest, arguments);
        }
        Ok(self.advance(size, self.written, items, starts))
    }

    /// "Close at e with w bytes written: if w-e-1 is at most 255 it is the delta byte; else a pointer to e is added as one
    /// more value (FULL, `NO_ROOM`), and its delta follows. A delta with no byte left, in the output or within 16,777,216,
    /// is `NO_ROOM`."
    #[inline]
    fn close(self, entry: u64, out: &mut [u8], starts: &mut [u32]) -> Result<Self, ErrorKind> {
        if self.pending > 0 {
            return Err(ErrorKind::Owed);
        }
        let distance = self.distance(entry, starts)?;
        let (last, delta) = match u8::try_from(distance) {
            Ok(delta) => (self, delta),
            Err(_) => {
                let pointer = self.immediate(POINTER, distance, &[], out, starts)?;
                (pointer, (pointer.written - self.written - 1) as u8)
            }
        };
        // The room for a pointer has left a byte for its delta.
        if last.written >= out.len().min(MAX_LEN) as u64 {
            return Err(ErrorKind::NoRoom);
        }
        out[last.written as usize] = delta;
        Ok(Self { written: last.written + 1, closed: true, ..last })
    }

    /// The items owed, if they and `size` bytes find room: "an opening is `NO_ROOM` if its bytes plus items owed
    /// exceed the room; an immediate if its bytes plus the items owed after it do."
    #[inline(always)]
    fn keep_room(&self, size: usize, items: Option<u64>, out: &[u8]) -> Result<u64, ErrorKind> {
        let items = items.ok_or(ErrorKind::NoRoom)?;
        match items.checked_add(size as u64) {
            Some(all) if all <= self.room(out) => Ok(items),
            _ => Err(ErrorKind::NoRoom),
        }
    }

    /// The state after `size` more bytes of the value at `start`: "the start is listed when the value is finished, at once
    /// if it owes none; the table changes in no other word."
    #[inline(always)]
    fn advance(self, size: usize, start: u64, pending: u64, starts: &mut [u32]) -> Self {
        let finished = pending == 0;
        if finished {
            starts[self.count as usize] = start as u32;
        }
        Self { written: self.written + size as u64, count: self.count + u64::from(finished), pending, start, closed: false }
    }
}

/// Whether an offset below 16,777,216 is among the listed words.
///
/// In a table in rising order, as runs from a new writer have it, a word is found by bisection, near the end first: most
/// targets are near. That no word is found so means nothing in another table; then all of them are looked at.
#[inline(always)]
fn is_listed(words: &[u32], offset: u64) -> bool {
    let offset = offset as u32;
    let (mut from, mut to) = (words.len(), words.len());
    let mut reach = 64;
    while from > 0 && (from == words.len() || words[from] > offset) {
        to = from;
        from = words.len().saturating_sub(reach);
        reach *= 16;
    }
    words[from..to].binary_search(&offset).is_ok() || is_listed_anywhere(words, offset)
}

#[cold]
#[inline(never)]
fn is_listed_anywhere(words: &[u32], offset: u32) -> bool {
    words.contains(&offset)
}

/// The next bytes of the output: "each field is written into the unwritten rest of the output, so it can't touch finished
/// bytes."
#[inline(always)]
fn field(out: &mut [u8], written: u64, size: usize) -> &mut [u8] {
    &mut out[written as usize..][..size]
}

/// The bytes of a header and its number.
#[inline(always)]
const fn head_size(n: u64) -> usize {
    if n < LONG as u64 {
        1
    } else {
        1 + leb128::size(n - LONG as u64)
    }
}

/// Writes a header and its number into as many bytes as [`head_size`] returns.
#[inline(always)]
fn write_head(head: &mut [u8], kind: u8, n: u64) {
    match head {
        [header] => *header = kind << 4 | n as u8,
        [header, rest @ ..] => {
            *header = kind << 4 | LONG;
            leb128::write(rest, n - u64::from(LONG));
        }
        [] => {}
    }
}

#[cfg(test)]
mod tests {
    use super::*;
    use crate::error::ErrorKind::*;
    use crate::kind::Scalar;
    use crate::testing::{hex, DOCUMENT_001, JUNK, WRITES_DOCUMENT_001};

    const FALSE: Call<'_> = Call::Scalar(Scalar::False);

    /// A writer with what it is lent.
    struct Memory {
        writer: Writer,
        out: Vec<u8>,
        starts: Vec<u32>,
    }

    impl Memory {
        fn new(room: usize, words: usize) -> Self {
            Self { writer: Writer::new(), out: vec![0xaa; room], starts: vec![JUNK; words] }
        }

        fn call(&mut self, call: Call<'_>) -> Result<(), ErrorKind> {
            let old = self.writer;
            let answer;
            (answer, self.writer) = old.step(call, &mut self.out, &mut self.starts);
            if answer.is_err() {
                assert_eq!(self.writer, old);
            }
            answer
        }

        fn calls(&mut self, calls: &[Call<'_>]) {
            for call in calls {
                assert_eq!(self.call(*call), Ok(()), "{call:?}");
            }
        }

        fn written(&self) -> &[u8] {
            let (written, rest) = self.out.split_at(self.writer.written as usize);
            assert!(rest.iter().all(|byte| *byte == 0xaa));
            written
        }

        fn listed(&self) -> &[u32] {
            let (listed, rest) = self.starts.split_at(self.writer.count as usize);
            assert!(rest.iter().all(|word| *word == JUNK));
            listed
        }
    }

    #[test]
    fn the_file_of_document_001() {
        let mut memory = Memory::new(19, 4);
        memory.calls(&WRITES_DOCUMENT_001);
        assert_eq!(memory.written(), hex(DOCUMENT_001));
        assert_eq!(memory.listed(), [0, 6, 8, 11]);
        assert!(memory.writer.closed);
    }

    #[test]
    fn values_of_each_kind() {
        let cases: [(&[Call<'_>], &str); 16] = [
            (&[Call::Scalar(Scalar::Null)], "02"),
            (&[Call::Integer(42)], "1f 1b"),
            (&[Call::Integer(-27)], "2f 0b"),
            (&[Call::Integer(i64::MAX)], "1f f0 ff ff ff ff ff ff ff 7f"),
            (&[Call::Integer(i64::MIN)], "2f f0 ff ff ff ff ff ff ff 7f"),
            (&[Call::Float32(0x3f80_0000)], "30 00 00 80 3f"),
            (&[Call::Float64(0x4045_4000_0000_0000)], "31 00 00 00 00 00 40 45 40"),
            (&[Call::Text("hello world! 😁".as_bytes())], "4f 02 68 65 6c 6c 6f 20 77 6f 72 6c 64 21 20 f0 9f 98 81"),
            (&[Call::Bytes(&[0, 255])], "52 00 ff"),
            (&[Call::Variant0(u32::MAX)], "af f0 ff ff ff 0f"),
            (&[Call::Array(0)], "60"),
            (&[Call::Map(0)], "70"),
            (&[Call::Tag(u64::MAX), FALSE], "8f f0 ff ff ff ff ff ff ff ff 01 00"),
            (&[Call::Variant1(15), FALSE], "bf 00 00"),
            (&[Call::VariantN(14, 0)], "ce 00"),
            (&[Call::VariantN(15, 1), FALSE], "cf 00 01 00"),
        ];
        for (calls, bytes) in cases {
            let mut memory = Memory::new(64, 1);
            memory.calls(calls);
            assert_eq!(memory.written(), hex(bytes));
            assert_eq!(memory.listed(), [0]);
        }
    }

    #[test]
    fn a_delta_of_255_and_a_pointer() {
        let mut memory = Memory::new(257, 2);
        memory.calls(&[Call::Bytes(&[0; 253])]);
        assert_eq!(memory.writer.written, 256);
        assert_eq!(memory.call(FALSE), Err(NoRoom));
        memory.calls(&[Call::Close(0)]);
        assert_eq!(memory.written()[256], 255);
        assert_eq!(memory.listed(), [0]);

        let mut memory = Memory::new(261, 2);
        memory.calls(&[Call::Bytes(&[0; 254]), Call::Close(0)]);
        assert_eq!(memory.written()[257..], hex("ff f1 01 02"));
        assert_eq!(memory.listed(), [0, 257]);
        let closed = Writer { written: 261, count: 2, pending: 0, start: 257, closed: true };
        assert_eq!(memory.writer, closed);
    }

    #[test]
    fn a_refused_closing_pointer_leaves_nothing_behind() {
        for (room, words, refusal) in [(261, 1, Full), (260, 2, NoRoom), (258, 1, Full)] {
            let mut memory = Memory::new(room, words);
            memory.calls(&[Call::Bytes(&[0; 254])]);
            assert_eq!(memory.call(Call::Close(1)), Err(BadTarget));
            assert_eq!(memory.call(Call::Close(0)), Err(refusal));
            assert_eq!(memory.written().len(), 257);
            assert_eq!(memory.listed(), [0]);
        }
    }

    #[test]
    fn the_start_of_the_value_written_to() {
        let mut memory = Memory::new(32, 9);
        memory.calls(&[FALSE, FALSE]);
        assert_eq!(memory.writer.start, 1);
        memory.calls(&[Call::Array(2)]);
        assert_eq!((memory.writer.start, memory.writer.pending), (2, 2));
        memory.calls(&[FALSE, FALSE]);
        assert_eq!((memory.writer.start, memory.writer.pending), (2, 0));
        let before = memory.writer;
        memory.calls(&[Call::Close(0)]);
        let closed = Writer { written: before.written + 1, closed: true, ..before };
        assert_eq!(memory.writer, closed);
    }

    #[test]
    fn items_owed_have_their_bytes_kept() {
        let mut memory = Memory::new(5, 4);
        assert_eq!(memory.call(Call::Array(4)), Err(NoRoom));
        memory.calls(&[Call::Array(3)]);
        assert_eq!(memory.call(Call::Integer(15)), Err(NoRoom));
        memory.calls(&[FALSE, Call::Integer(14), FALSE]);
        assert_eq!(memory.call(FALSE), Err(NoRoom));
        memory.calls(&[Call::Close(0)]);
        assert_eq!(memory.written(), hex("63 00 1e 00 03"));
    }

    #[test]
    fn more_items_than_64_bits_count() {
        let mut memory = Memory::new(600, 4);
        for pairs in [1 << 63, (1 << 63) - 1, u64::MAX] {
            assert_eq!(memory.call(Call::Map(pairs)), Err(NoRoom));
        }
        assert_eq!(memory.call(Call::Array(u64::MAX)), Err(NoRoom));
        assert_eq!(memory.call(Call::VariantN(0, u64::MAX)), Err(NoRoom));
        memory.calls(&[FALSE]);
    }

    #[test]
    fn openings_while_items_are_owed() {
        let mut memory = Memory::new(600, 4);
        memory.calls(&[Call::Array(1)]);
        for call in [
            Call::Array(0),
            Call::Map(u64::MAX),
            Call::Tag(0),
            Call::Variant1(0),
            Call::VariantN(0, 0),
            Call::Close(0),
            Call::Close(9),
        ] {
            assert_eq!(memory.call(call), Err(Owed), "{call:?}");
        }
    }

    #[test]
    fn an_open_value_is_no_target() {
        let mut memory = Memory::new(600, 4);
        memory.calls(&[FALSE, Call::Array(2)]);
        for target in [1, 2, u64::MAX] {
            assert_eq!(memory.call(Call::Pointer(target)), Err(BadTarget));
            assert_eq!(memory.call(Call::Reference(target)), Err(BadTarget));
        }
        memory.calls(&[Call::Reference(0), Call::Pointer(0), Call::Pointer(1)]);
        assert_eq!(memory.written(), hex("00 62 e1 f2 f2"));
    }

    #[test]
    fn texts() {
        let mut memory = Memory::new(600, 9);
        for bytes in ["ed a0 80", "e0 9f bf", "f0 8f bf bf", "f4 90 80 80", "61 e2 82", "c2"] {
            assert_eq!(memory.call(Call::Text(&hex(bytes))), Err(BadText), "{bytes}");
        }
        for bytes in ["ed 9f bf", "e0 a0 80", "f0 90 80 80", "f4 8f bf bf", ""] {
            memory.calls(&[Call::Text(&hex(bytes))]);
        }
        assert_eq!(memory.written(), hex("43 ed 9f bf 43 e0 a0 80 44 f0 90 80 80 44 f4 8f bf bf 40"));
    }

    #[test]
    fn the_order_of_refusals() {
        let mut memory = Memory::new(2, 1);
        assert_eq!(memory.call(Call::Text(&[0xff; 999])), Err(BadText));
        assert_eq!(memory.call(Call::Bytes(&[0; 9])), Err(NoRoom));
        assert_eq!(memory.call(Call::Close(0)), Err(BadTarget));
        memory.calls(&[FALSE]);
        assert_eq!(memory.call(Call::Text(&[0xff])), Err(BadText));
        assert_eq!(memory.call(Call::Pointer(9)), Err(BadTarget));
        assert_eq!(memory.call(Call::Bytes(&[0; 9])), Err(Full));
        assert_eq!(memory.call(Call::Array(9)), Err(Full));
        memory.calls(&[Call::Close(0)]);
        assert_eq!(memory.call(Call::Text(&[0xff])), Err(Closed));
        assert_eq!(memory.call(Call::Close(9)), Err(Closed));
    }

    /// A call of a writer in any state.
    fn step(writer: Writer, call: Call<'_>, room: usize, starts: &mut [u32]) -> Result<Writer, ErrorKind> {
        let (answer, next) = writer.step(call, &mut vec![0xaa; room], starts);
        if answer.is_err() {
            assert_eq!(next, writer);
        }
        answer.map(|()| next)
    }

    #[test]
    fn states_that_do_not_fit() {
        let fits = Writer { written: 4, count: 1, pending: 1, start: 3, closed: false };
        assert!(step(fits, FALSE, 6, &mut [0, 0]).is_ok());
        assert_eq!(step(fits, FALSE, 5, &mut [0, 0]), Err(NoRoom));
        assert_eq!(step(fits, FALSE, 3, &mut [0, 0]), Err(BadState));
        assert_eq!(step(fits, FALSE, 6, &mut [0]), Err(BadState));
        assert_eq!(step(fits, FALSE, 6, &mut []), Err(BadState));
        let start = Writer { start: 4, ..fits };
        assert_eq!(step(start, FALSE, 6, &mut [0, 0]), Err(BadState));
        let idle = Writer { pending: 0, ..start };
        assert_eq!(step(idle, FALSE, 6, &mut [0, 0]).map(|next| next.start), Ok(4));
        assert_eq!(step(idle, FALSE, 6, &mut [0]), Err(Full));
        let closed = Writer { closed: true, ..idle };
        assert_eq!(step(closed, FALSE, 4, &mut [0]), Err(Closed));
        assert_eq!(step(closed, FALSE, 3, &mut [0]), Err(BadState));
        let many = Writer { pending: u64::MAX, ..fits };
        assert_eq!(step(many, FALSE, 999, &mut [0, 0]), Err(NoRoom));
        assert_eq!(step(many, Call::Array(0), 999, &mut [0, 0]), Err(Owed));
    }

    #[test]
    fn the_longest_output() {
        let room = MAX_LEN + 9;
        let at = |written| Writer { written: written as u64, count: 1, ..Writer::new() };
        let mut starts = [MAX_LEN as u32 - 2, 0];
        let close = Call::Close(MAX_LEN as u64 - 2);
        assert_eq!(step(at(MAX_LEN + 1), FALSE, room, &mut starts), Err(BadState));
        assert_eq!(step(at(MAX_LEN), FALSE, room, &mut starts), Err(NoRoom));
        assert_eq!(step(at(MAX_LEN), close, room, &mut starts), Err(NoRoom));
        assert_eq!(step(at(MAX_LEN - 1), FALSE, room, &mut starts), Err(NoRoom));
        assert!(step(at(MAX_LEN - 2), FALSE, room, &mut starts).is_ok());
        let closed = step(at(MAX_LEN - 1), close, room, &mut starts);
        assert_eq!(closed.map(|closed| closed.written), Ok(MAX_LEN as u64));
    }

    #[test]
    fn listed_words_in_any_order() {
        let writer = Writer { written: 100, count: 4, ..Writer::new() };
        let mut starts = [90, 5, 200, 5, 7];
        for target in [90, 5] {
            assert!(step(writer, Call::Pointer(target), 200, &mut starts.clone()).is_ok());
        }
        for target in [7, 200, 6, 5 + (1 << 32)] {
            let answer = step(writer, Call::Pointer(target), 200, &mut starts);
            assert_eq!(answer, Err(BadTarget), "{target}");
        }
        // In a long table too, at each place.
        let long: Vec<u32> = (0..3000).rev().collect();
        let writer = Writer { written: 5000, count: 3000, ..Writer::new() };
        for target in 0..3000 {
            let mut starts = long.clone();
            starts.push(0);
            assert!(step(writer, Call::Pointer(target), 6000, &mut starts).is_ok());
        }
    }

    #[test]
    fn a_word_found_near_and_far() {
        let words: Vec<u32> = (0..70_000).map(|word| 2 * word).collect();
        for length in [0, 1, 63, 64, 65, 1023, 1024, 1025, 16_384, 70_000] {
            let words = &words[..length];
            for word in words.iter().step_by(1 + length / 500) {
                assert!(words.contains(word) && is_listed(words, u64::from(*word)));
            }
            for place in [0, length / 2, length] {
                assert!(!is_listed(words, 2 * place as u64 + 1));
            }
            assert!(!is_listed(words, 2 * length as u64));
        }
    }
}
