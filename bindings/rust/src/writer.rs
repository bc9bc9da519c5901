//! The writer.

use std::fmt;
use std::mem;

use crate::error::{Error, ErrorKind};
use crate::sys::{self, Call, State};
use crate::LIMIT;

/// Writes a file, value by value.
///
/// A call writes an immediate (a scalar, integer, float, text, byte string, variant without arguments, reference or pointer) or opens a
/// value with items (an array, map, tag or variant with arguments). The items are the next immediates, as many as said; immediates outside
/// are values of their own. Each call returns the offset at which it wrote.
///
/// A reference or pointer takes the offset of a finished value; so does [`close`](Writer::close), which ends the file. Offsets of items are
/// not targets.
///
/// A refused call changes nothing, and the writer can be used further. Its errors have no place.
///
/// ```
/// use twine::{ErrorKind, File, Writer};
///
/// let mut w = Writer::new();
/// let slots = w.text("slots")?;
/// let frame = w.open_map(1)?; // { slots: 24 }
/// w.pointer(slots)?;
/// w.integer(24)?;
/// let frames = w.open_array(2)?; // two frames alike
/// w.pointer(frame)?;
/// assert_eq!(w.close(frame).unwrap_err().kind, ErrorKind::Owed); // an item is still pending
/// w.pointer(frame)?;
/// let bytes = w.close(frames)?;
///
/// let file = File::check(&bytes)?;
/// assert_eq!(file.entry().offset(), frames);
/// # Ok::<(), twine::Error>(())
/// ```
#[derive(Clone)]
pub struct Writer {
    state: State,
    out: Vec<u8>,
    starts: Vec<u32>,
    grows: bool,
}

impl Writer {
    /// A writer whose memory grows with the file, up to [`LIMIT`] bytes. Past that a call is NO_ROOM.
    pub fn new() -> Writer {
        Writer { state: sys::new_state(), out: Vec::new(), starts: Vec::new(), grows: true }
    }

    /// A writer of a file of at most `bytes` bytes and `words` values, whose memory is allocated now. Past that a call is NO_ROOM or FULL.
    ///
    /// One byte is held back for the close, and one for each item pending, so that an open value can always be finished.
    pub fn fixed(bytes: usize, words: usize) -> Writer {
        let out = vec![0; bytes.min(LIMIT)];
        let starts = vec![0; words.min(LIMIT)];
        Writer { state: sys::new_state(), out, starts, grows: false }
    }

    /// Writes null.
    pub fn null(&mut self) -> Result<usize, Error> {
        self.call(Call::Null)
    }

    /// Writes false or true.
    pub fn bool(&mut self, value: bool) -> Result<usize, Error> {
        self.call(Call::Bool(value))
    }

    /// Writes an integer.
    pub fn integer(&mut self, value: i64) -> Result<usize, Error> {
        self.call(Call::Integer(value))
    }

    /// Writes a float of 32 bits.
    pub fn float32(&mut self, value: f32) -> Result<usize, Error> {
        self.float32_bits(value.to_bits())
    }

    /// Writes a float of 32 bits, by its bits.
    pub fn float32_bits(&mut self, bits: u32) -> Result<usize, Error> {
        self.call(Call::Float32(bits))
    }

    /// Writes a float of 64 bits.
    pub fn float64(&mut self, value: f64) -> Result<usize, Error> {
        self.float64_bits(value.to_bits())
    }

    /// Writes a float of 64 bits, by its bits.
    pub fn float64_bits(&mut self, bits: u64) -> Result<usize, Error> {
        self.call(Call::Float64(bits))
    }

    /// Writes a text. It is never BAD_TEXT, since a `str` is UTF-8.
    pub fn text(&mut self, text: &str) -> Result<usize, Error> {
        self.text_bytes(text.as_bytes())
    }

    /// Writes a text, by its bytes. BAD_TEXT if they are not UTF-8; see [`Text`](crate::Text).
    pub fn text_bytes(&mut self, text: &[u8]) -> Result<usize, Error> {
        self.call(Call::Text(text))
    }

    /// Writes a byte string.
    pub fn bytes(&mut self, bytes: &[u8]) -> Result<usize, Error> {
        self.call(Call::Bytes(bytes))
    }

    /// Writes a variant without arguments.
    pub fn variant(&mut self, index: u32) -> Result<usize, Error> {
        self.call(Call::Variant(index))
    }

    /// Writes a reference to a finished value. BAD_TARGET if none starts at `target`.
    pub fn reference(&mut self, target: usize) -> Result<usize, Error> {
        self.call(Call::Reference(target))
    }

    /// Writes a pointer to a finished value. BAD_TARGET if none starts at `target`.
    pub fn pointer(&mut self, target: usize) -> Result<usize, Error> {
        self.call(Call::Pointer(target))
    }

    /// Opens an array. OWED while items are pending, as with every opening.
    pub fn open_array(&mut self, items: u64) -> Result<usize, Error> {
        self.call(Call::OpenArray(items))
    }

    /// Opens a map. Its items are two for each pair, keys and values alternating.
    pub fn open_map(&mut self, pairs: u64) -> Result<usize, Error> {
        self.call(Call::OpenMap(pairs))
    }

    /// Opens a tag, of one item.
    pub fn open_tag(&mut self, tag: u64) -> Result<usize, Error> {
        self.call(Call::OpenTag(tag))
    }

    /// Opens a variant of one argument.
    pub fn open_variant1(&mut self, index: u32) -> Result<usize, Error> {
        self.call(Call::OpenVariant1(index))
    }

    /// Opens a variant of many arguments; one or none are many too.
    pub fn open_variant_n(&mut self, index: u32, items: u64) -> Result<usize, Error> {
        self.call(Call::OpenVariantN(index, items))
    }

    /// Ends the file and hands out its bytes. The entry is the finished value that starts at `entry`, or a pointer to it, which is added
    /// if the last byte does not reach back to it.
    ///
    /// OWED while items are pending, BAD_TARGET if no finished value starts at `entry`. Every later call is CLOSED.
    pub fn close(&mut self, entry: usize) -> Result<Vec<u8>, Error> {
        self.call(Call::Close(entry))?;
        let mut file = mem::take(&mut self.out);
        file.truncate(self.state[0] as usize);
        file.shrink_to_fit();
        // a closed writer without bytes, to go with the memory that is gone
        self.starts = Vec::new();
        self.state = [0, 0, 0, 0, 1];
        Ok(file)
    }

    /// The bytes written so far; none after the close.
    pub fn written(&self) -> &[u8] {
        &self.out[..self.state[0] as usize]
    }

    /// How many values are finished; 0 after the close.
    pub fn count(&self) -> usize {
        self.state[1] as usize
    }

    /// How many items the open value still has to get, 0 if none is open.
    pub fn pending(&self) -> u64 {
        self.state[2]
    }

    /// Whether the file was closed.
    pub fn is_closed(&self) -> bool {
        self.state[4] != 0
    }

    /// Makes a call, and again with more memory if it had too little: a refused call has changed nothing, the memory is added after all
    /// that the writer has written, and longer memory changes no other answer (`step-longer` in docs/GUARANTEES.md).
    fn call(&mut self, call: Call<'_>) -> Result<usize, Error> {
        let at = self.state[0] as usize;
        loop {
            let Some(kind) = sys::call(&mut self.state, call, &mut self.out, &mut self.starts) else { return Ok(at) };
            let grown = self.grows
                && match kind {
                    // a call that is over the limit stays NO_ROOM with all memory that there may be
                    ErrorKind::NoRoom => room(call) < LIMIT - at && grow(&mut self.out, room(call)),
                    ErrorKind::Full => grow(&mut self.starts, 1),
                    _ => false,
                };
            if !grown {
                return Err(Error { kind, place: None });
            }
        }
    }
}

/// Bytes that a call surely needs; it may need a few more.
fn room(call: Call<'_>) -> usize {
    match call {
        Call::Text(bytes) | Call::Bytes(bytes) => bytes.len(),
        Call::OpenArray(items) | Call::OpenVariantN(_, items) => items as usize,
        Call::OpenMap(pairs) => (pairs as usize).saturating_mul(2),
        _ => 1,
    }
}

/// Makes a memory at least twice as long, and longer by `more`, as far as the limit lets; false if it is at the limit already.
fn grow<T: Clone + Default>(memory: &mut Vec<T>, more: usize) -> bool {
    let len = memory.len();
    let wanted = len.max(32).saturating_mul(2).max(len.saturating_add(more));
    memory.resize(wanted.min(LIMIT).max(len), T::default());
    memory.len() > len
}

impl Default for Writer {
    fn default() -> Writer {
        Writer::new()
    }
}

impl fmt::Debug for Writer {
    fn fmt(&self, f: &mut fmt::Formatter<'_>) -> fmt::Result {
        f.debug_struct("Writer")
            .field("written", &self.state[0])
            .field("count", &self.state[1])
            .field("pending", &self.state[2])
            .field("closed", &self.is_closed())
            .finish()
    }
}
