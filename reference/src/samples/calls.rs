//! The calls of a line that begins with `write`.
//!
//! A call is a letter and its arguments: `f` `t` `n` (false, true, null); `iZ` `sBITS` `dBITS` (an integer, the bits of a
//! float32 and of a float64); `"HEX` `#HEX` `zN` (a text, bytes, N zero bytes); `vINDEX` `rAT` `pAT` (a variant without an
//! argument, a reference, a pointer); `aN` `mN` `gTAG` `oINDEX` `xINDEX,N` (open an array, a map, a tag, a variant of one and
//! of N); `cAT` (close). With `@ROOM,WORDS` after it a call is lent no more than those bytes and words.

use reference::{check, Call, Scalar, Writer};

use super::words::{hex, integer, number, parse_hex};
use super::{list, verdict, JUNK_WORD, MODE, MOST_WORDS};

/// The bytes of an output at most, and those of a byte string of zeros.
const MOST_BYTES: u64 = 1024;

/// What each byte of an output holds before the first call.
const JUNK_BYTE: u8 = 0xaa;

/// The answers of a new writer's calls, then what it has written and listed, and what check says of a closed file.
pub fn answer(room: u64, words: usize, calls: &[&str]) -> String {
    let mut memory =
        Memory { out: vec![JUNK_BYTE; room.min(MOST_BYTES) as usize], starts: vec![JUNK_WORD; words], strayed: (false, false) };
    let mut writer = Writer::new();
    let mut answers = String::new();
    for word in calls {
        answers += &match Request::parse(word) {
            Some(request) => memory.make(&request, &mut writer),
            None => "?".to_owned(),
        };
        answers.push(' ');
    }
    let bytes = &memory.out[..writer.written as usize];
    let starts = &memory.starts[..writer.count as usize];
    let mark = |strayed| if strayed { " !" } else { "" };
    let mut answer = format!("{answers}={}{} /{}{}", hex(bytes), mark(memory.strayed.0), list(starts), mark(memory.strayed.1));
    if writer.closed {
        let mut table = [JUNK_WORD; MOST_WORDS as usize];
        answer += " / ";
        answer += &verdict(check(bytes, MODE, &mut table));
    }
    answer
}

/// What a writer is lent.
struct Memory {
    out: Vec<u8>,
    starts: Vec<u32>,
    /// Whether a byte or a word was changed that a call had not to change.
    strayed: (bool, bool),
}

impl Memory {
    fn make(&mut self, request: &Request, writer: &mut Writer) -> String {
        let (old_out, old_starts) = (self.out.clone(), self.starts.clone());
        let room = request.room.min(self.out.len());
        let words = request.words.min(self.starts.len());
        let old = *writer;
        let answer;
        (answer, *writer) = old.step(request.call.as_call(), &mut self.out[..room], &mut self.starts[..words]);
        self.strayed.0 |= has_strayed(&old_out, &self.out, old.written, writer.written);
        self.strayed.1 |= has_strayed(&old_starts, &self.starts, old.count, writer.count);
        match answer {
            Ok(()) => "ok".to_owned(),
            Err(kind) => kind.to_string(),
        }
    }
}

/// Whether anything but the part from one offset to another has changed.
fn has_strayed<T: PartialEq>(old: &[T], new: &[T], from: u64, to: u64) -> bool {
    let (from, to) = (from as usize, to as usize);
    old[..from] != new[..from] || old[to..] != new[to..]
}

/// A call of the line, and what it is lent of the output and the table.
struct Request {
    call: OwnedCall,
    room: usize,
    words: usize,
}

/// A call that owns its bytes.
enum OwnedCall {
    Text(Vec<u8>),
    Bytes(Vec<u8>),
    Other(Call<'static>),
}

impl OwnedCall {
    fn as_call(&self) -> Call<'_> {
        match self {
            Self::Text(text) => Call::Text(text),
            Self::Bytes(bytes) => Call::Bytes(bytes),
            Self::Other(call) => *call,
        }
    }
}

impl Request {
    fn parse(word: &str) -> Option<Self> {
        let (call, room, words) = match word.split_once('@') {
            Some((call, memory)) => {
                let (room, words) = memory.split_once(',')?;
                (call, number(room)?, number(words)?)
            }
            None => (word, u64::MAX, u64::MAX),
        };
        Some(Self { call: parse_call(call)?, room: room.min(MOST_BYTES) as usize, words: words.min(MOST_WORDS) as usize })
    }
}

fn parse_call(word: &str) -> Option<OwnedCall> {
    let mut rest = word.chars();
    let letter = rest.next()?;
    let rest = rest.as_str();
    let call = match letter {
        'f' if rest.is_empty() => Call::Scalar(Scalar::False),
        't' if rest.is_empty() => Call::Scalar(Scalar::True),
        'n' if rest.is_empty() => Call::Scalar(Scalar::Null),
        'i' => Call::Integer(integer(rest)?),
        's' => Call::Float32(short(rest)?),
        'd' => Call::Float64(number(rest)?),
        '"' => return Some(OwnedCall::Text(parse_hex(rest)?)),
        '#' => return Some(OwnedCall::Bytes(parse_hex(rest)?)),
        'z' => {
            let zeros = number(rest)?.min(MOST_BYTES) as usize;
            return Some(OwnedCall::Bytes(vec![0; zeros]));
        }
        'v' => Call::Variant0(short(rest)?),
        'r' => Call::Reference(number(rest)?),
        'p' => Call::Pointer(number(rest)?),
        'a' => Call::Array(number(rest)?),
        'm' => Call::Map(number(rest)?),
        'g' => Call::Tag(number(rest)?),
        'o' => Call::Variant1(short(rest)?),
        'x' => {
            let (index, arguments) = rest.split_once(',')?;
            Call::VariantN(short(index)?, number(arguments)?)
        }
        'c' => Call::Close(number(rest)?),
        _ => return None,
    };
    Some(OwnedCall::Other(call))
}

/// A decimal number; one over 2^32-1 counts as that.
fn short(word: &str) -> Option<u32> {
    Some(u32::try_from(number(word)?).unwrap_or(u32::MAX))
}
