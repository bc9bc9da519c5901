//! The reference model, document 01's "plain book": what a writer's calls mean, stated without a state of offsets.
//!
//! "Demand 3's plain book is fed the calls with their arguments, and told beforehand only the lengths of output and table; it
//! refuses by the order above, judged by its own bytes, starts, owed items and close." Bytes and starts are derived from the
//! values each time they are asked for. None of the writer's code is used.

use crate::call::Call;
use crate::error::ErrorKind;

/// The longest file.
const LONGEST: u128 = 16_777_216;

/// The values that were written.
#[derive(Clone, Debug)]
pub struct Model {
    /// The length of the output.
    output: usize,
    /// The words of the table.
    table: usize,
    /// The finished values in their order.
    finished: Vec<Value>,
    /// The value that still owes items.
    open: Option<Value>,
    /// The delta byte, once the file is closed.
    delta: Option<u8>,
}

/// A value of the row: "one that owes items takes the next immediates and is finished when it owes none".
#[derive(Clone, Debug)]
struct Value {
    head: Token,
    items: Vec<Token>,
}

/// An immediate or the opening of a value. "Targets are the offsets handed in."
#[derive(Clone, Debug)]
enum Token {
    Scalar(u8),
    Integer(i64),
    Float32(u32),
    Float64(u64),
    Text(Vec<u8>),
    Bytes(Vec<u8>),
    Variant0(u32),
    Reference(u64),
    Pointer(u64),
    Array(u64),
    Map(u64),
    Tag(u64),
    Variant1(u32),
    VariantN(u32, u64),
}

impl Model {
    /// A model without bytes, starts, owed items or close, for an output and a table of these lengths.
    #[must_use]
    pub fn new(output: usize, table: usize) -> Self {
        Self { output, table, finished: Vec::new(), open: None, delta: None }
    }

    /// "The bytes are the values' in order, in the row's form, an open one's as far as it got, then the delta."
    #[must_use]
    pub fn bytes(&self) -> Vec<u8> {
        let mut bytes = Vec::new();
        for value in self.finished.iter().chain(&self.open) {
            value.append_to(&mut bytes);
        }
        bytes.extend(self.delta);
        bytes
    }

    /// "A start is listed when its value is finished, and counts the bytes before it."
    #[must_use]
    pub fn starts(&self) -> Vec<u64> {
        let mut starts = Vec::new();
        let mut bytes = Vec::new();
        for value in &self.finished {
            starts.push(bytes.len() as u64);
            value.append_to(&mut bytes);
        }
        starts
    }

    /// The items that the open value still owes.
    #[must_use]
    pub fn pending(&self) -> u128 {
        self.open.as_ref().map_or(0, Value::pending)
    }

    /// Whether the file is closed.
    #[must_use]
    pub fn is_closed(&self) -> bool {
        self.delta.is_some()
    }

    /// Makes a call. "A refused call changes nothing."
    pub fn call(&mut self, call: Call<'_>) -> Result<(), ErrorKind> {
        if self.is_closed() {
            return Err(ErrorKind::Closed);
        }
        match Token::of(call) {
            Ok(token) => self.add(token),
            Err(entry) => self.close(entry),
        }
    }

    /// "An opening, or with none owed an immediate, is a new value of the row; one that owes items takes the next
    /// immediates and is finished when it owes none."
    fn add(&mut self, token: Token) -> Result<(), ErrorKind> {
        let pending = self.pending();
        if token.is_opening() && pending > 0 {
            return Err(ErrorKind::Owed);
        }
        if let Token::Text(text) = &token {
            if !is_text(text) {
                return Err(ErrorKind::BadText);
            }
        }
        if let Token::Reference(target) | Token::Pointer(target) = token {
            self.require_start(target)?;
        }
        if pending == 0 {
            self.require_word()?;
        }
        let owed_after = if token.is_opening() { token.items() } else { pending.saturating_sub(1) };
        self.require_room(&token, owed_after)?;

        let value = match self.open.take() {
            Some(mut value) => {
                value.items.push(token);
                value
            }
            None => Value { head: token, items: Vec::new() },
        };
        if value.pending() > 0 {
            self.open = Some(value);
        } else {
            self.finished.push(value);
        }
        Ok(())
    }

    /// "A close adds the pointer, if one is needed, as the last finished value, then the delta byte."
    fn close(&mut self, entry: u64) -> Result<(), ErrorKind> {
        if self.pending() > 0 {
            return Err(ErrorKind::Owed);
        }
        self.require_start(entry)?;
        let written = self.bytes().len() as u64;
        let distance = written - entry - 1;
        if distance <= 255 {
            if u128::from(written) >= self.longest() {
                return Err(ErrorKind::NoRoom);
            }
            self.delta = Some(distance as u8);
        } else {
            let pointer = Token::Pointer(entry);
            self.require_word()?;
            self.require_room(&pointer, 0)?;
            let size = pointer.bytes(written as usize).len();
            self.finished.push(Value { head: pointer, items: Vec::new() });
            self.delta = Some((size - 1) as u8);
        }
        Ok(())
    }

    /// "A target or close offset must be among the listed words."
    fn require_start(&self, offset: u64) -> Result<(), ErrorKind> {
        if self.starts().contains(&offset) {
            Ok(())
        } else {
            Err(ErrorKind::BadTarget)
        }
    }

    /// FULL: "one value more than the table has words".
    fn require_word(&self) -> Result<(), ErrorKind> {
        if self.finished.len() < self.table {
            Ok(())
        } else {
            Err(ErrorKind::Full)
        }
    }

    /// `NO_ROOM` "if its bytes plus items owed exceed the room".
    fn require_room(&self, token: &Token, pending: u128) -> Result<(), ErrorKind> {
        let written = self.bytes().len();
        let size = token.bytes(written).len() as u128;
        let room = self.longest().saturating_sub(1 + written as u128);
        if size + pending <= room {
            Ok(())
        } else {
            Err(ErrorKind::NoRoom)
        }
    }

    /// "The smaller of output length and 16,777,216".
    fn longest(&self) -> u128 {
        LONGEST.min(self.output as u128)
    }
}

impl Value {
    fn pending(&self) -> u128 {
        self.head.items() - self.items.len() as u128
    }

    /// Appends the value's bytes after those of the values before it.
    fn append_to(&self, bytes: &mut Vec<u8>) {
        for token in std::iter::once(&self.head).chain(&self.items) {
            bytes.extend(token.bytes(bytes.len()));
        }
    }
}

impl Token {
    /// The token of a call, or the offset of a close.
    fn of(call: Call<'_>) -> Result<Self, u64> {
        Ok(match call {
            Call::Scalar(scalar) => Self::Scalar(scalar as u8),
            Call::Integer(integer) => Self::Integer(integer),
            Call::Float32(bits) => Self::Float32(bits),
            Call::Float64(bits) => Self::Float64(bits),
            Call::Text(text) => Self::Text(text.to_vec()),
            Call::Bytes(bytes) => Self::Bytes(bytes.to_vec()),
            Call::Variant0(index) => Self::Variant0(index),
            Call::Reference(target) => Self::Reference(target),
            Call::Pointer(target) => Self::Pointer(target),
            Call::Array(items) => Self::Array(items),
            Call::Map(pairs) => Self::Map(pairs),
            Call::Tag(tag) => Self::Tag(tag),
            Call::Variant1(index) => Self::Variant1(index),
            Call::VariantN(index, arguments) => Self::VariantN(index, arguments),
            Call::Close(entry) => return Err(entry),
        })
    }

    fn is_opening(&self) -> bool {
        matches!(self, Self::Array(_) | Self::Map(_) | Self::Tag(_) | Self::Variant1(_) | Self::VariantN(..))
    }

    /// The items that it owes when it is written.
    fn items(&self) -> u128 {
        match *self {
            Self::Array(items) => items.into(),
            Self::Map(pairs) => 2 * u128::from(pairs),
            Self::Tag(_) | Self::Variant1(_) => 1,
            Self::VariantN(_, arguments) => arguments.into(),
            _ => 0,
        }
    }

    /// Its bytes "in the row's form", with its header at `at`.
    fn bytes(&self, at: usize) -> Vec<u8> {
        match self {
            Self::Scalar(low) => header(0, (*low).into()),
            Self::Integer(integer) if *integer >= 0 => header(1, *integer as u128),
            Self::Integer(integer) => header(2, (-1 - i128::from(*integer)) as u128),
            Self::Float32(bits) => [header(3, 0), bits.to_le_bytes().to_vec()].concat(),
            Self::Float64(bits) => [header(3, 1), bits.to_le_bytes().to_vec()].concat(),
            Self::Text(text) => [header(4, text.len() as u128), text.clone()].concat(),
            Self::Bytes(bytes) => [header(5, bytes.len() as u128), bytes.clone()].concat(),
            Self::Array(items) => header(6, (*items).into()),
            Self::Map(pairs) => header(7, (*pairs).into()),
            Self::Tag(tag) => header(8, (*tag).into()),
            Self::Variant0(index) => header(10, (*index).into()),
            Self::Variant1(index) => header(11, (*index).into()),
            Self::VariantN(index, arguments) => [header(12, (*index).into()), number((*arguments).into())].concat(),
            Self::Reference(target) => header(14, at as u128 - u128::from(*target) - 1),
            Self::Pointer(target) => header(15, at as u128 - u128::from(*target) - 1),
        }
    }
}

/// A header: "n = low below 15; at low 15 a LEB128 number follows the header and n = 15 + that number".
fn header(kind: u8, n: u128) -> Vec<u8> {
    if n < 15 {
        vec![16 * kind + n as u8]
    } else {
        [vec![16 * kind + 15], number(n - 15)].concat()
    }
}

/// "LEB128: seven bits a byte, lowest first, high bit set on all but the last."
fn number(n: u128) -> Vec<u8> {
    let mut bytes = Vec::new();
    let mut rest = n;
    while rest >= 128 {
        bytes.push((rest % 128) as u8 + 128);
        rest /= 128;
    }
    bytes.push(rest as u8);
    bytes
}

/// "Bytes 00-7F alone; lead C2-DF with one, E0-EF with two, F0-F4 with three bytes from 80-BF", and "RFC 3629 also narrows the
/// second byte: A0-BF after E0, 80-9F after ED, 90-BF after F0, 80-8F after F4."
fn is_text(text: &[u8]) -> bool {
    let mut bytes = text.iter();
    while let Some(lead) = bytes.next() {
        let following = match lead {
            0x00..=0x7f => 0,
            0xc2..=0xdf => 1,
            0xe0..=0xef => 2,
            0xf0..=0xf4 => 3,
            _ => return false,
        };
        let mut allowed = match lead {
            0xe0 => 0xa0..=0xbf,
            0xed => 0x80..=0x9f,
            0xf0 => 0x90..=0xbf,
            0xf4 => 0x80..=0x8f,
            _ => 0x80..=0xbf,
        };
        for _ in 0..following {
            if !bytes.next().is_some_and(|byte| allowed.contains(byte)) {
                return false;
            }
            allowed = 0x80..=0xbf;
        }
    }
    true
}

#[cfg(test)]
mod tests {
    use super::*;
    use crate::error::ErrorKind::*;
    use crate::testing::{border_bytes, hex, DOCUMENT_001, WRITES_DOCUMENT_001};

    fn fed(output: usize, table: usize, calls: &[Call<'_>]) -> Model {
        let mut model = Model::new(output, table);
        for call in calls {
            assert_eq!(model.call(*call), Ok(()), "{call:?}");
        }
        model
    }

    #[test]
    fn a_fresh_model_is_empty() {
        let model = Model::new(9, 9);
        assert_eq!(model.bytes(), []);
        assert_eq!(model.starts(), []);
        assert_eq!(model.pending(), 0);
        assert!(!model.is_closed());
    }

    #[test]
    fn the_file_of_document_001() {
        let mut model = fed(19, 4, &WRITES_DOCUMENT_001);
        assert_eq!(model.bytes(), hex(DOCUMENT_001));
        assert_eq!(model.starts(), [0, 6, 8, 11]);
        assert_eq!(model.call(Call::Integer(1)), Err(Closed));
    }

    #[test]
    fn a_start_is_listed_when_its_value_is_finished() {
        let mut model = fed(99, 9, &[Call::Array(2), Call::Integer(1)]);
        assert_eq!(model.pending(), 1);
        assert_eq!(model.bytes(), hex("62 11"));
        assert_eq!(model.starts(), []);
        assert_eq!(model.call(Call::Pointer(0)), Err(BadTarget));
        assert_eq!(model.call(Call::Array(0)), Err(Owed));
        assert_eq!(model.call(Call::Close(0)), Err(Owed));
        assert_eq!(model.call(Call::Integer(2)), Ok(()));
        assert_eq!(model.starts(), [0]);
    }

    #[test]
    fn a_delta_of_255_and_a_pointer() {
        let direct = fed(257, 1, &[Call::Bytes(&[0; 253]), Call::Close(0)]);
        assert_eq!(direct.bytes()[256..], [255]);
        let pointer = fed(261, 2, &[Call::Bytes(&[0; 254]), Call::Close(0)]);
        assert_eq!(pointer.bytes()[257..], hex("ff f1 01 02"));
        assert_eq!(pointer.starts(), [0, 257]);
        for (output, table, refusal) in [(261, 1, Full), (260, 2, NoRoom)] {
            let mut model = fed(output, table, &[Call::Bytes(&[0; 254])]);
            assert_eq!(model.call(Call::Close(0)), Err(refusal));
            assert_eq!(model.starts(), [0]);
        }
    }

    #[test]
    fn refusals_in_their_order() {
        let mut model = Model::new(2, 1);
        assert_eq!(model.call(Call::Text(&[0xff; 9])), Err(BadText));
        assert_eq!(model.call(Call::Map(1 << 63)), Err(NoRoom));
        assert_eq!(model.call(Call::Close(0)), Err(BadTarget));
        assert_eq!(model.call(Call::Integer(0)), Ok(()));
        assert_eq!(model.call(Call::Text(&[0x80])), Err(BadText));
        assert_eq!(model.call(Call::Reference(1)), Err(BadTarget));
        assert_eq!(model.call(Call::Tag(0)), Err(Full));
        assert_eq!(model.call(Call::Close(0)), Ok(()));
        assert_eq!(model.bytes(), hex("10 00"));
    }

    #[test]
    fn texts_of_up_to_four_bytes_each_at_a_border() {
        let bytes = border_bytes();
        let compare = |text: &[u8]| assert_eq!(is_text(text), std::str::from_utf8(text).is_ok(), "{text:x?}");
        compare(&[]);
        for &a in &bytes {
            compare(&[a]);
            for &b in &bytes {
                compare(&[a, b]);
                for &c in &bytes {
                    compare(&[a, b, c]);
                    for &d in &bytes {
                        compare(&[a, b, c, d]);
                    }
                }
            }
        }
    }
}
