//! Checked files: their values and items.

use std::fmt;
use std::iter::FusedIterator;

use crate::error::{Error, ErrorKind};
use crate::mode::Mode;
use crate::prune::{prune_into, Pruned};
use crate::query::{self, Kind};
use crate::sys;
use crate::text::Text;
use crate::LIMIT;

/// The answer to a query that a checked file always answers.
fn always<T>(answer: Result<T, Error>) -> T {
    answer.unwrap_or_else(|error| unreachable!("libtwine.a refuses a value of a file that it accepted: {error}"))
}

/// A file that was checked: every value and item in it can be read, every text is UTF-8, and no pointer leads astray or around in a loop.
///
/// It borrows the bytes and owns the list of the offsets at which the values start. It is read in the mode in which it was checked;
/// [`prune`](File::prune) alone is always strict.
#[derive(Clone)]
pub struct File<'a> {
    bytes: &'a [u8],
    mode: Mode,
    starts: Vec<u32>,
    entry: usize,
}

impl<'a> File<'a> {
    /// Checks a file in strict mode, or returns the first error from the left. While it checks, it takes four bytes of memory for each byte
    /// of the file, and keeps four for each value.
    ///
    /// ```
    /// use twine::{ErrorKind, File};
    ///
    /// let file = File::check(&[0x1f, 0x1b, 0xe1, 0x00])?;
    /// assert_eq!(file.count(), 2);
    /// assert_eq!(file.entry().offset(), 2);
    ///
    /// // an array with a pointer to itself
    /// let error = File::check(&[0x61, 0xf0, 0x01]).unwrap_err();
    /// assert_eq!((error.kind, error.place), (ErrorKind::BadTarget, Some(1)));
    ///
    /// // a label of six letters, of which three are left
    /// let error = File::check(&[0x46, b'f', b'r', b'a', 0x00]).unwrap_err();
    /// assert_eq!((error.kind, error.place), (ErrorKind::LongBody, Some(1)));
    /// # Ok::<(), twine::Error>(())
    /// ```
    pub fn check(bytes: &'a [u8]) -> Result<File<'a>, Error> {
        File::check_with(Mode::Strict, bytes)
    }

    /// As [`check`](File::check), in a mode, which goes with the file: its values and items are read in it too. The mode comes first here; in
    /// the functions of [`query`](crate::query), as in C, it comes after the bytes.
    ///
    /// ```
    /// use twine::{File, Mode, Value};
    ///
    /// // the integer 15 + 9, whose 9 is padded to five bytes, and an array with a pointer to it
    /// let bytes = [0x1f, 0x89, 0x80, 0x80, 0x80, 0x00, 0x61, 0xf6, 0x01];
    /// let file = File::check_with(Mode::Tolerant, &bytes)?;
    /// assert_eq!(file.mode(), Mode::Tolerant);
    /// assert!(matches!(file.entry().item(0)?.follow().value(), Value::Integer(24)));
    /// assert!(File::check(&bytes).is_err());
    /// # Ok::<(), twine::Error>(())
    /// ```
    pub fn check_with(mode: Mode, bytes: &'a [u8]) -> Result<File<'a>, Error> {
        // a value has at least one byte, and the last byte is none's; a file over the limit is refused without a table
        let words = if bytes.len() <= LIMIT { bytes.len().saturating_sub(1) } else { 0 };
        let mut starts = vec![0; words];
        let [count, entry] = sys::check(bytes, mode, &mut starts)?;
        starts.truncate(count as usize);
        starts.shrink_to_fit();
        Ok(File { bytes, mode, starts, entry: entry as usize })
    }

    /// The bytes of the file.
    pub fn bytes(&self) -> &'a [u8] {
        self.bytes
    }

    /// The mode in which it was checked, and is read.
    pub fn mode(&self) -> Mode {
        self.mode
    }

    /// How many values it has, items not counted. At least 1.
    pub fn count(&self) -> usize {
        self.starts.len()
    }

    /// The value at which a reader starts.
    pub fn entry(&self) -> Node<'a> {
        self.node(self.entry)
    }

    /// The values in file order.
    pub fn values(&self) -> impl DoubleEndedIterator<Item = Node<'a>> + ExactSizeIterator + Clone + '_ {
        self.starts.iter().map(|start| self.node(*start as usize))
    }

    /// The value that starts at an offset, or none if none does. An item is not a value of its own.
    pub fn value_at(&self, offset: usize) -> Option<Node<'a>> {
        let start = u32::try_from(offset).ok()?;
        self.starts.binary_search(&start).ok()?;
        Some(self.node(offset))
    }

    /// How deep each value is, in file order: the number of values on the longest path from it along pointers and references, itself
    /// counted.
    ///
    /// ```
    /// // a text, an array with a pointer to it, and a pointer to the array
    /// let file = twine::File::check(&[0x41, b'a', 0x61, 0xf2, 0xf1, 0x00])?;
    /// assert_eq!(file.depths(), [1, 2, 3]);
    /// # Ok::<(), twine::Error>(())
    /// ```
    pub fn depths(&self) -> Vec<u32> {
        let mut starts = vec![0; self.count()];
        let mut depths = vec![0; self.count()];
        always(sys::depths(self.bytes, self.mode, &mut starts, &mut depths));
        depths
    }

    /// The file without its dead values: those to which no path along pointers and references leads from the entry. A file whose plan was
    /// rebuilt may have many.
    ///
    /// The others are in the new file each once, in their old order, and hold the same things; offsets may be other ones. The entry is the same
    /// value. The new file is never longer, and pruned again it is the same.
    ///
    /// # Panics
    ///
    /// If the file was checked in tolerant mode and has a padded number: prune is strict, and such a file has to be written anew first.
    /// [`File::try_prune`] returns this as an error. A file that was checked in strict mode has none.
    ///
    /// ```
    /// use twine::{File, Writer};
    ///
    /// let mut w = Writer::new();
    /// let small = w.integer(24)?;
    /// let large = w.integer(400)?;
    /// w.open_array(2)?; // the row as it was
    /// w.pointer(small)?;
    /// w.pointer(large)?;
    /// let row = w.open_array(1)?; // rebuilt, without the large one
    /// w.pointer(small)?;
    /// let bytes = w.close(row)?;
    ///
    /// let file = File::check(&bytes)?;
    /// let pruned = file.prune();
    /// let new = File::check(&pruned)?;
    /// assert_eq!((file.count(), new.count()), (4, 2));
    /// assert_eq!(new.entry().item(0)?.follow().offset(), 0);
    /// # Ok::<(), twine::Error>(())
    /// ```
    #[must_use]
    pub fn prune(&self) -> Vec<u8> {
        self.try_prune().unwrap_or_else(|error| {
            panic!("prune is strict, and the file was checked in tolerant mode (try_prune returns this error): {error}")
        })
    }

    /// The same as [`File::prune`], without a panic.
    ///
    /// # Errors
    ///
    /// OVERLONG, with its place, if the file was checked in tolerant mode and has a padded number, also in a dead value.
    ///
    /// ```
    /// use twine::{ErrorKind, File, Mode};
    ///
    /// let file = File::check_with(Mode::Tolerant, &[0x1f, 0x80, 0x00, 0x02])?;
    /// assert_eq!(file.try_prune().unwrap_err().kind, ErrorKind::Overlong);
    /// # Ok::<(), twine::Error>(())
    /// ```
    pub fn try_prune(&self) -> Result<Vec<u8>, Error> {
        let mut out = vec![0; self.bytes.len()];
        let mut old_starts = vec![0; self.count()];
        let mut new_starts = vec![0; self.count()];
        let Pruned { length, .. } = prune_into(self.bytes, &mut out, &mut old_starts, &mut new_starts)?;
        out.truncate(length);
        out.shrink_to_fit();
        Ok(out)
    }

    fn node(&self, at: usize) -> Node<'a> {
        Node { file: self.bytes, mode: self.mode, at }
    }
}

impl fmt::Debug for File<'_> {
    fn fmt(&self, f: &mut fmt::Formatter<'_>) -> fmt::Result {
        f.debug_struct("File")
            .field("bytes", &self.bytes.len())
            .field("mode", &self.mode)
            .field("count", &self.count())
            .field("entry", &self.entry)
            .finish()
    }
}

/// A value or an item of a checked file.
///
/// It is an offset, the borrowed bytes and their mode, and can be copied freely. A query that does not fit is NO_ITEM or WRONG_KIND; nothing
/// else can be wrong.
#[derive(Clone, Copy)]
pub struct Node<'a> {
    file: &'a [u8],
    mode: Mode,
    at: usize,
}

impl<'a> Node<'a> {
    /// The offset in the file.
    pub fn offset(self) -> usize {
        self.at
    }

    /// What it is.
    pub fn value(self) -> Value<'a> {
        let token = always(query::read(self.file, self.mode, self.at));
        let body = || &self.file[token.first..][..token.count];
        let first = self.to(token.first);
        let items = Items { next: first, left: token.count };
        match token.kind {
            Kind::Scalar if token.number == 2 => Value::Null,
            Kind::Scalar => Value::Bool(token.number == 1),
            Kind::Integer | Kind::Negative => Value::Integer(token.number as i64),
            Kind::Float if token.count == 4 => Value::Float32(f32::from_bits(token.number as u32)),
            Kind::Float => Value::Float64(f64::from_bits(token.number)),
            Kind::Text => Value::Text(Text(body())),
            Kind::Bytes => Value::Bytes(body()),
            Kind::Array => Value::Array(items),
            Kind::Map => Value::Map(Pairs(items)),
            Kind::Tag => Value::Tag(token.number, first),
            Kind::Variant => Value::Variant(token.number as u32),
            Kind::Variant1 => Value::Variant1(token.number as u32, first),
            Kind::VariantN => Value::VariantN(token.number as u32, items),
            Kind::Reference => Value::Reference(self.to(token.number as usize)),
            Kind::Pointer => Value::Pointer(self.to(token.number as usize)),
        }
    }

    /// The value that it is or that pointers lead to. References are not followed.
    pub fn follow(self) -> Node<'a> {
        self.to(always(query::follow(self.file, self.mode, self.at)).0)
    }

    /// Its items; for a map, keys and values alternate. Going through all of them takes time in proportion to their bytes.
    ///
    /// WRONG_KIND if its kind has none. It is not followed.
    pub fn items(self) -> Result<Items<'a>, Error> {
        let token = query::read(self.file, self.mode, self.at)?;
        if token.kind.has_items() {
            Ok(Items { next: self.to(token.first), left: token.count })
        } else {
            Err(Error { kind: ErrorKind::WrongKind, place: Some(self.at) })
        }
    }

    /// An item by its index. Its time grows with the items before it; [`items`](Node::items) is better for all.
    ///
    /// NO_ITEM at or past the count, WRONG_KIND if its kind has none. It is not followed.
    pub fn item(self, index: usize) -> Result<Node<'a>, Error> {
        Ok(self.to(query::item(self.file, self.mode, self.at, index)?))
    }

    /// The value of a key in a map: that of the first pair whose key, followed, is a text of these bytes.
    ///
    /// NO_ITEM if there is no such key, WRONG_KIND if this is not a map. It is not followed.
    pub fn lookup(self, key: impl AsRef<[u8]>) -> Result<Node<'a>, Error> {
        Ok(self.to(query::lookup(self.file, self.mode, self.at, key)?))
    }

    /// As [`lookup`](Node::lookup), with none for every error.
    ///
    /// ```
    /// let file = twine::File::check(&[0x71, 0x41, b'a', 0x17, 0x03])?;
    /// assert_eq!(file.entry().get("a").unwrap().offset(), 3);
    /// assert!(file.entry().get("b").is_none());
    /// # Ok::<(), twine::Error>(())
    /// ```
    pub fn get(self, key: impl AsRef<[u8]>) -> Option<Node<'a>> {
        self.lookup(key).ok()
    }

    /// The bytes of the text or byte string that it is or that pointers lead to. Those of a text are UTF-8.
    ///
    /// WRONG_KIND for another kind.
    pub fn body(self) -> Result<&'a [u8], Error> {
        query::body(self.file, self.mode, self.at)
    }

    /// The offset just after it and its items.
    pub fn end(self) -> usize {
        always(query::skip(self.file, self.mode, self.at))
    }

    fn to(self, at: usize) -> Node<'a> {
        Node { at, ..self }
    }
}

impl fmt::Debug for Node<'_> {
    fn fmt(&self, f: &mut fmt::Formatter<'_>) -> fmt::Result {
        f.debug_tuple("Node").field(&self.at).finish()
    }
}

/// What a value or an item is.
#[derive(Clone, Debug)]
pub enum Value<'a> {
    /// Null.
    Null,
    /// False or true.
    Bool(bool),
    /// An integer.
    Integer(i64),
    /// A float of 32 bits. `to_bits` gives the very bits of the file, those of a NaN too.
    Float32(f32),
    /// A float of 64 bits. `to_bits` gives the very bits of the file, those of a NaN too.
    Float64(f64),
    /// A text, which is UTF-8.
    Text(Text<'a>),
    /// A byte string.
    Bytes(&'a [u8]),
    /// An array: its items.
    Array(Items<'a>),
    /// A map: its pairs of key and value, in file order. A key may be there more than once.
    Map(Pairs<'a>),
    /// A tag and its item.
    Tag(u64, Node<'a>),
    /// The index of a variant without arguments.
    Variant(u32),
    /// The index and the argument of a variant of one.
    Variant1(u32, Node<'a>),
    /// The index and the arguments of a variant of many, which may have one or none.
    VariantN(u32, Items<'a>),
    /// A reference: its target, an earlier value.
    Reference(Node<'a>),
    /// A pointer: its target, an earlier value.
    Pointer(Node<'a>),
}

/// The items of a value, in order.
#[derive(Clone, Debug)]
pub struct Items<'a> {
    /// The next item; without meaning if none is left.
    next: Node<'a>,
    left: usize,
}

impl<'a> Iterator for Items<'a> {
    type Item = Node<'a>;

    fn next(&mut self) -> Option<Node<'a>> {
        self.left = self.left.checked_sub(1)?;
        let item = self.next;
        if self.left > 0 {
            self.next = item.to(item.end());
        }
        Some(item)
    }

    fn size_hint(&self) -> (usize, Option<usize>) {
        (self.left, Some(self.left))
    }
}

impl ExactSizeIterator for Items<'_> {}
impl FusedIterator for Items<'_> {}

/// The pairs of a map, each its key and its value, in order.
#[derive(Clone, Debug)]
pub struct Pairs<'a>(Items<'a>);

impl<'a> Iterator for Pairs<'a> {
    type Item = (Node<'a>, Node<'a>);

    fn next(&mut self) -> Option<(Node<'a>, Node<'a>)> {
        Some((self.0.next()?, self.0.next()?))
    }

    fn size_hint(&self) -> (usize, Option<usize>) {
        (self.0.left / 2, Some(self.0.left / 2))
    }
}

impl ExactSizeIterator for Pairs<'_> {}
impl FusedIterator for Pairs<'_> {}
