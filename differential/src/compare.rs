//! Asks both programs the same, and compares all that they answer and leave in what they are lent.

use reference::query::{Body, Followed};
use reference::{kind, Call, Checked, Error, ErrorKind, Mode, Pruned, Refusal, Value, Writer};

use crate::difference::{self, Difference};
use crate::edges::Edges;
use crate::ffi::{self, NAME, STATE};
use crate::guarded::Guarded;
use crate::make;
use crate::product::Product;

/// What tables hold before a call.
const JUNK: u32 = 0xdead_beef;

/// What an out array holds before a call.
const JUNK_OUT: u64 = 0x5a5a_5a5a_a5a5_a5a5;

/// The numbers of answers, OK among them.
pub const ANSWERS: usize = 1 + ErrorKind::ALL.len();

const OVERLONG: u32 = ErrorKind::Overlong as u32;

/// What is asked, for the counts of answers.
#[derive(Clone, Copy, Debug, PartialEq, Eq)]
pub enum Asked {
    /// `twine_check`.
    Check,
    /// `twine_depths`.
    Depths,
    /// `twine_read`.
    Read,
    /// `twine_skip`.
    Skip,
    /// `twine_item`.
    Item,
    /// `twine_follow`.
    Follow,
    /// `twine_lookup`.
    Lookup,
    /// `twine_body`.
    Body,
    /// `twine_prune`.
    Prune,
    /// A call of the writer.
    Call,
}

impl Asked {
    /// What is asked of a file, in a mode.
    pub const IN_MODES: [Self; 8] =
        [Self::Check, Self::Depths, Self::Read, Self::Skip, Self::Item, Self::Follow, Self::Lookup, Self::Body];

    /// What is asked of a file.
    pub const OF_FILES: [Self; 9] = {
        let [check, depths, read, skip, item, follow, lookup, body] = Self::IN_MODES;
        [check, depths, read, skip, item, follow, lookup, body, Self::Prune]
    };

    /// The name as it is printed.
    pub const fn name(self) -> &'static str {
        match self {
            Self::Check => "check",
            Self::Depths => "depths",
            Self::Read => "read",
            Self::Skip => "skip",
            Self::Item => "item",
            Self::Follow => "follow",
            Self::Lookup => "lookup",
            Self::Body => "body",
            Self::Prune => "prune",
            Self::Call => "call",
        }
    }
}

/// An answer's number and its out array.
type Answer<const N: usize> = (u32, [u64; N]);

/// What a question hands to the product.
struct Handed<'h, const N: usize> {
    file: &'h [u8],
    mode: u32,
    /// The key of a lookup.
    key: &'h [u8],
    starts: &'h mut [u32],
    depths: &'h mut [u32],
    out: &'h mut [u64; N],
}

/// The product's answer, and what it left in the memory that it was lent.
#[derive(Debug, PartialEq)]
struct Left {
    number: u32,
    out: Guarded<u64>,
    starts: Guarded<u32>,
    depths: Guarded<u32>,
}

impl Left {
    fn new() -> Self {
        Self {
            number: 0,
            out: Guarded::new(0x0bad_0bad_0bad_0bad),
            starts: Guarded::new(0x0bad_cafe),
            depths: Guarded::new(0x0bad_f00d),
        }
    }

    /// Fills memory of these lengths with junk.
    fn refill(&mut self, out: usize, [starts, depths]: [usize; 2]) {
        self.out.fill(out, JUNK_OUT);
        self.starts.fill(starts, JUNK);
        self.depths.fill(depths, JUNK);
    }

    fn is_guarded(&self) -> bool {
        self.out.is_guarded() && self.starts.is_guarded() && self.depths.is_guarded()
    }

    /// Whether this may be what the tolerant mode left after `strict`: if that is not OVERLONG, only the same.
    fn may_follow(&self, strict: &Self) -> bool {
        strict.number == OVERLONG || self == strict
    }

    fn answer(&self) -> String {
        difference::answer(self.number, self.out.slice())
    }
}

/// Puts questions to both programs.
#[derive(Debug)]
pub struct Comparer<P> {
    product: P,
    /// How often each answer was met, by what was asked.
    met: [[u64; ANSWERS]; Asked::Call as usize + 1],
    /// How often an answer that is OVERLONG in the strict mode was OK in the tolerant one, by what was asked.
    padded: [u64; Asked::Call as usize + 1],
    file: Guarded<u8>,
    /// A number of neither mode that the file is asked with too.
    other_mode: Option<u32>,
    /// A key, or the bytes of a writer's call.
    argument: Guarded<u8>,
    left: Left,
    /// What the strict mode left, when the tolerant one is asked.
    strict: Left,
    /// The output of prune.
    output: Guarded<u8>,
    expected_starts: Vec<u32>,
    expected_depths: Vec<u32>,
    expected_output: Vec<u8>,
}

impl<P: Product> Comparer<P> {
    /// A comparer that has asked nothing.
    pub fn new(product: P) -> Self {
        Self {
            product,
            met: [[0; ANSWERS]; Asked::Call as usize + 1],
            padded: [0; Asked::Call as usize + 1],
            file: Guarded::new(0),
            other_mode: None,
            argument: Guarded::new(0x41),
            left: Left::new(),
            strict: Left::new(),
            output: Guarded::new(0xc3),
            expected_starts: Vec::new(),
            expected_depths: Vec::new(),
            expected_output: Vec::new(),
        }
    }

    /// How often an answer was met when this was asked.
    pub fn met_by(&self, asked: Asked, number: u32) -> u64 {
        self.met[asked as usize][number as usize]
    }

    /// How often an answer was met.
    pub fn met(&self, number: u32) -> u64 {
        self.met.iter().map(|met| met[number as usize]).sum()
    }

    /// How often an answer to this was OVERLONG in the strict mode and OK in the tolerant one.
    pub fn padded_by(&self, asked: Asked) -> u64 {
        self.padded[asked as usize]
    }

    /// Asks something of a file, and then checks that it is as it was. `guard` is the byte around the file, which must not
    /// matter; `other_mode` is a number of neither mode, with which it is asked too, as strict.
    pub fn of_file(
        &mut self,
        file: &[u8],
        guard: u8,
        other_mode: Option<u32>,
        ask: impl FnOnce(&mut Self) -> Result<(), Difference>,
    ) -> Result<(), Difference> {
        self.other_mode = other_mode;
        self.file.guard_with(guard);
        self.file.copy_from(file);
        ask(self)?;
        if self.file.is_guarded() && self.file.slice() == file {
            Ok(())
        } else {
            Err(Difference {
                question: format!("queries of {}", difference::hex(file)),
                product: "the file, or a byte beside it, was written to".into(),
                second: "left alone".into(),
            })
        }
    }

    /// `twine_check`, with a table of this length. Returns the count of a file that the tolerant mode accepts.
    pub fn check(&mut self, words: usize) -> Result<Option<usize>, Difference> {
        let (number, [count, _]) = self.ask(
            Asked::Check,
            [words, 0],
            || format!("check with {words} words"),
            |product, handed| product.check(handed.file, handed.mode, handed.starts, handed.out),
            |file, mode, [starts, _]| checked(reference::check(file, mode, starts)),
        )?;
        Ok((number == 0).then_some(count as usize))
    }

    /// The last check once more, in the tolerant mode, of copies of the file at the edges of what can be read.
    pub fn check_again(&mut self, edges: &mut Edges) -> Result<(), Difference> {
        let words = self.left.starts.slice().len();
        for copy in edges.copies(self.file.slice()) {
            // The strict mode's memory is free by now.
            self.strict.refill(2, [words, 0]);
            let Left { number, out, starts, .. } = &mut self.strict;
            *number = self.product.check(copy, ffi::TOLERANT, starts.slice_mut(), array(out.slice_mut()));
            if self.strict != self.left || copy != self.file.slice() {
                return Err(Difference {
                    question: format!(
                        "check with {words} words at an edge, of the file of {}",
                        difference::hex(self.file.slice())
                    ),
                    product: self.strict.answer(),
                    second: format!("{}, as elsewhere, and the same memory", self.left.answer()),
                });
            }
        }
        Ok(())
    }

    /// `twine_depths`, with tables of these lengths.
    pub fn depths(&mut self, words: usize, words2: usize) -> Result<(), Difference> {
        self.ask(
            Asked::Depths,
            [words, words2],
            || format!("depths with {words} and {words2} words"),
            |product, handed| product.depths(handed.file, handed.mode, handed.starts, handed.depths, handed.out),
            |file, mode, [starts, depths]| checked(reference::depths(file, mode, starts, depths)),
        )?;
        Ok(())
    }

    /// `twine_read`. Returns what the value is if the tolerant mode reads it.
    pub fn read(&mut self, at: u64) -> Result<Option<Read>, Difference> {
        let (number, out) = self.ask(
            Asked::Read,
            [0; 2],
            || format!("read at {at}"),
            |product, handed| product.read(handed.file, handed.mode, at as usize, handed.out),
            |file, mode, _| read(reference::read(file, mode, at), at, reference::skip(file, mode, at)),
        )?;
        Ok((number == 0).then(|| Read::of(out)))
    }

    /// `twine_skip`.
    pub fn skip(&mut self, at: u64) -> Result<(), Difference> {
        self.ask(
            Asked::Skip,
            [0; 2],
            || format!("skip at {at}"),
            |product, handed| product.skip(handed.file, handed.mode, at as usize, handed.out),
            |file, mode, _| offset(reference::skip(file, mode, at)),
        )?;
        Ok(())
    }

    /// `twine_item`.
    pub fn item(&mut self, at: u64, index: u64) -> Result<(), Difference> {
        self.ask(
            Asked::Item,
            [0; 2],
            || format!("item {index} at {at}"),
            |product, handed| product.item(handed.file, handed.mode, at as usize, index as usize, handed.out),
            |file, mode, _| offset(reference::item(file, mode, at, index)),
        )?;
        Ok(())
    }

    /// `twine_follow`.
    pub fn follow(&mut self, at: u64) -> Result<(), Difference> {
        self.ask(
            Asked::Follow,
            [0; 2],
            || format!("follow at {at}"),
            |product, handed| product.follow(handed.file, handed.mode, at as usize, handed.out),
            |file, mode, _| answer_of(reference::follow(file, mode, at), |Followed { offset, hops }| [offset as u64, hops]),
        )?;
        Ok(())
    }

    /// `twine_lookup`.
    pub fn lookup(&mut self, at: u64, key: &[u8]) -> Result<(), Difference> {
        let question = || format!("lookup at {at} of the key of {}", difference::hex(key));
        self.argument.copy_from(key);
        self.ask(
            Asked::Lookup,
            [0; 2],
            question,
            |product, handed| product.lookup(handed.file, handed.mode, at as usize, handed.key, handed.out),
            |file, mode, _| offset(reference::lookup(file, mode, at, key)),
        )?;
        if self.argument.slice() != key || !self.argument.is_guarded() {
            return Err(self.touched("the key", question()));
        }
        Ok(())
    }

    /// `twine_body`. That the part of the file which it returns is the body follows from the two numbers.
    pub fn body(&mut self, at: u64) -> Result<(), Difference> {
        self.ask(
            Asked::Body,
            [0; 2],
            || format!("body at {at}"),
            |product, handed| product.body(handed.file, handed.mode, at as usize, handed.out),
            |file, mode, _| {
                answer_of(reference::body_place(file, mode, at), |Body { first, length }| [first as u64, length as u64])
            },
        )?;
        Ok(())
    }

    /// `twine_prune`, with this output and tables of these lengths, for the old file and for the new one. Returns the length of the
    /// new file and the count of its values, if there is one; [`Self::output`] has it.
    pub fn prune(&mut self, output: &[u8], words: [usize; 2]) -> Result<Option<[usize; 2]>, Difference> {
        self.output.copy_from(output);
        self.left.refill(3, words);
        // The two tables are in the places of starts and depths.
        let Left { number, out, starts, depths } = &mut self.left;
        let (old, new) = (starts.slice_mut(), depths.slice_mut());
        *number = self.product.prune(self.file.slice(), self.output.slice_mut(), old, new, array(out.slice_mut()));
        self.expected_output.clear();
        self.expected_output.extend(output);
        let [old, new] = words;
        let tables = [refill(&mut self.expected_starts, old), refill(&mut self.expected_depths, new)];
        let answer = pruned(self.file.slice(), &mut self.expected_output, tables);
        let question = || format!("prune with {} bytes, {old} and {new} words", output.len());
        let (number, [length, count, _]) = self.compare(Asked::Prune, answer, question)?;
        if self.output.slice() != self.expected_output || !self.output.is_guarded() {
            return Err(self.other_output(question()));
        }
        Ok((number == 0).then_some([length as usize, count as usize]))
    }

    /// What prune has left in its output.
    pub fn output(&self) -> &[u8] {
        self.output.slice()
    }

    /// `twine_spell_error`.
    pub fn error_name(&mut self, number: u32) -> Result<(), Difference> {
        let mut name = Guarded::new(0x7e_u8);
        name.fill(NAME, 0x7f);
        self.product.error_name(number, array(name.slice_mut()));
        let mut expected = [0; NAME];
        if (1..ANSWERS as u32).contains(&number) {
            let letters = difference::name(number).as_bytes();
            expected[..letters.len()].copy_from_slice(letters);
        }
        if name.slice() == expected && name.is_guarded() {
            return Ok(());
        }
        Err(Difference {
            question: format!("the name of error {number}"),
            product: format!("{name:x?}"),
            second: format!("{expected:x?} between guards"),
        })
    }

    /// Puts a question to both programs in each mode, with tables of these lengths, and compares answers and memory. If the
    /// product's strict answer is not OVERLONG, its tolerant one has to be the same. Returns the tolerant answer.
    fn ask<const N: usize>(
        &mut self,
        asked: Asked,
        tables: [usize; 2],
        question: impl Fn() -> String,
        product: impl Fn(&P, Handed<'_, N>) -> u32,
        second: impl Fn(&[u8], Mode, [&mut [u32]; 2]) -> Answer<N>,
    ) -> Result<Answer<N>, Difference> {
        let in_mode = |comparer: &mut Self, mode: u32| {
            comparer.left.refill(N, tables);
            let Left { number, out, starts, depths } = &mut comparer.left;
            let handed = Handed {
                file: comparer.file.slice(),
                mode,
                key: comparer.argument.slice(),
                starts: starts.slice_mut(),
                depths: depths.slice_mut(),
                out: array(out.slice_mut()),
            };
            *number = product(&comparer.product, handed);
            let [words, words2] = tables;
            let expected = [refill(&mut comparer.expected_starts, words), refill(&mut comparer.expected_depths, words2)];
            let answer = second(comparer.file.slice(), ffi::mode(mode), expected);
            comparer.compare(asked, answer, || format!("{}, mode {mode}", question()))
        };
        if let Some(other) = self.other_mode {
            in_mode(self, other)?;
        }
        in_mode(self, ffi::STRICT)?;
        std::mem::swap(&mut self.left, &mut self.strict);
        let answer = in_mode(self, ffi::TOLERANT)?;
        if self.strict.number == OVERLONG && self.left.number == 0 {
            self.padded[asked as usize] += 1;
        }
        if !self.left.may_follow(&self.strict) {
            return Err(self.divided(question()));
        }
        Ok(answer)
    }

    /// Compares what the product answered and left with what it should have, and looks at the guards.
    #[inline]
    fn compare<const N: usize>(
        &mut self,
        asked: Asked,
        answer: Answer<N>,
        question: impl FnOnce() -> String,
    ) -> Result<Answer<N>, Difference> {
        let (expected, out) = answer;
        self.met[asked as usize][expected as usize] += 1;
        let Left { number, out: left_out, starts, depths } = &self.left;
        let is_same = *number == expected
            && left_out.slice().first_chunk() == Some(&out)
            && starts.slice() == self.expected_starts
            && depths.slice() == self.expected_depths;
        if is_same && self.left.is_guarded() && self.file.is_guarded() {
            return Ok(answer);
        }
        Err(self.difference(asked, expected, &out, question()))
    }

    #[cold]
    fn difference(&self, asked: Asked, expected: u32, out: &[u64], question: String) -> Difference {
        let mut product = self.left.answer();
        let mut second = difference::answer(expected, out);
        let Left { out, starts, depths, .. } = &self.left;
        let names = if asked == Asked::Prune { ["old starts", "new starts"] } else { ["starts", "depths"] };
        for (table, words, expected) in
            [(names[0], starts.slice(), &self.expected_starts), (names[1], depths.slice(), &self.expected_depths)]
        {
            if let Some((one, other)) = difference::first(table, words, expected) {
                product += &format!(", {table} of {} words: {one}", words.len());
                second += &format!(", {other}");
            }
        }
        for (table, is_guarded) in [
            ("the file", self.file.is_guarded()),
            ("out", out.is_guarded()),
            (names[0], starts.is_guarded()),
            (names[1], depths.is_guarded()),
        ] {
            if !is_guarded {
                product += &format!(", memory beside {table} was written to");
            }
        }
        let question = format!("{question}, of the file of {}", difference::hex(self.file.slice()));
        Difference { question, product, second }
    }

    /// The answers to prune are the same, and the outputs are not.
    #[cold]
    fn other_output(&self, question: String) -> Difference {
        let (one, other) = difference::first("output", self.output.slice(), &self.expected_output)
            .unwrap_or(("memory beside the output was written to".into(), "left alone".into()));
        Difference {
            question: format!("{question}, of the file of {}", difference::hex(self.file.slice())),
            product: format!("{}, {one}", self.left.answer()),
            second: other,
        }
    }

    /// The modes differ although strict is not OVERLONG.
    #[cold]
    fn divided(&self, question: String) -> Difference {
        Difference {
            question: format!("{question}, in both modes, of the file of {}", difference::hex(self.file.slice())),
            product: format!("strict {}, tolerant {}", self.strict.answer(), self.left.answer()),
            second: "the same, tables included, unless strict is OVERLONG".into(),
        }
    }

    #[cold]
    fn touched(&self, what: &str, question: String) -> Difference {
        Difference {
            question: format!("{question} of the file of {}", difference::hex(self.file.slice())),
            product: format!("{what}, or memory beside it, was written to"),
            second: "left alone".into(),
        }
    }

    /// The state that `twine_writer_new` makes.
    pub fn writer_new(&mut self) -> Result<[u64; STATE], Difference> {
        let mut state = Guarded::new(JUNK_OUT);
        state.fill(STATE, 77);
        let number = self.product.writer_new(array(state.slice_mut()));
        if number == 0 && state.slice() == words(Writer::new()) && state.is_guarded() {
            return Ok(words(Writer::new()));
        }
        Err(Difference {
            question: "a new writer".into(),
            product: format!("{}, {state:?}", difference::answer(number, &[])),
            second: format!("{}, {:?}", difference::answer(0, &[]), words(Writer::new())),
        })
    }

    /// A call of the writer. Both get the same state, output and table, and leave theirs in `lent`.
    pub fn call(&mut self, memory: &mut Writing, call: Call<'_>) -> Result<u32, Difference> {
        self.argument.copy_from(bytes(call));
        let argument = self.argument.slice();
        let own = match call {
            Call::Text(_) => Call::Text(argument),
            Call::Bytes(_) => Call::Bytes(argument),
            call => call,
        };
        let number = self.call_with(memory, call, own)?;
        self.met[Asked::Call as usize][number as usize] += 1;
        Ok(number)
    }

    /// The same; what the product is handed has its bytes somewhere else.
    pub fn call_with(&self, memory: &mut Writing, call: Call<'_>, own: Call<'_>) -> Result<u32, Difference> {
        let before = *memory.state();
        let (answer, next) = make::step(writer(&before), call, &mut memory.second_out, &mut memory.second_starts);
        let expected = answer.map_or_else(|kind| kind.number().into(), |()| 0);
        // A refused call hands back the very same words; an accepted one leaves 0 or 1 for whether it is closed.
        let state = if expected == 0 { words(next) } else { before };

        let number = memory.with_product(|state, out, starts| self.product.call(state, own, out, starts));
        let is_guarded = memory.is_guarded() && self.argument.is_guarded() && bytes(own) == bytes(call);
        if number == expected && *memory.state() == state && memory.is_same() && is_guarded {
            return Ok(number);
        }
        let mut product = difference::answer(number, memory.state());
        let mut second = difference::answer(expected, &state);
        if let Some((one, other)) = difference::first("out", memory.out.slice(), &memory.second_out) {
            product += &format!(", {one}");
            second += &format!(", {other}");
        }
        if let Some((one, other)) = difference::first("starts", memory.starts.slice(), &memory.second_starts) {
            product += &format!(", {one}");
            second += &format!(", {other}");
        }
        if !is_guarded {
            product += ", memory that is not to be written was written to";
        }
        let (length, words) = (memory.second_out.len(), memory.second_starts.len());
        let first = &memory.second_starts[..words.min(64)];
        Err(Difference {
            question: format!(
                "{call:?} in the state {before:?}, with an output of {length} bytes and a table of {words} words, \
                 after the call {first:?}"
            ),
            product,
            second,
        })
    }
}

/// The bytes of a writer's call.
fn bytes(call: Call<'_>) -> &[u8] {
    match call {
        Call::Text(bytes) | Call::Bytes(bytes) => bytes,
        _ => &[],
    }
}

/// What reading returns that other questions are made from.
#[derive(Clone, Copy, Debug, PartialEq, Eq)]
pub struct Read {
    /// How many items the value has.
    pub items: u64,
    /// Whether it is a map.
    pub is_map: bool,
    /// The body of a text.
    pub text: Option<Body>,
}

impl Read {
    /// Of the words that `twine_read` leaves.
    fn of([kind, _, first, count]: [u64; 4]) -> Self {
        let kind = kind as u8;
        let text = (kind == kind::TEXT).then_some(Body { first: first as usize, length: count as usize });
        let has_items = matches!(kind, kind::ARRAY | kind::MAP | kind::TAG | kind::VARIANT1 | kind::VARIANT_N);
        Self { items: if has_items { count } else { 0 }, is_map: kind == kind::MAP, text }
    }
}

/// A writer's state, output and table, of which each program has its own.
#[derive(Debug)]
pub struct Writing {
    state: Guarded<u64>,
    /// The product's output.
    pub out: Guarded<u8>,
    /// The product's table.
    pub starts: Guarded<u32>,
    second_out: Vec<u8>,
    second_starts: Vec<u32>,
}

impl Writing {
    /// A state with an output and a table.
    pub fn new(state: [u64; STATE], out: &[u8], starts: &[u32]) -> Self {
        let mut writing = Self {
            state: Guarded::new(JUNK_OUT),
            out: Guarded::new(0xc3),
            starts: Guarded::new(0x0bad_cafe),
            second_out: out.to_vec(),
            second_starts: starts.to_vec(),
        };
        writing.state.copy_from(&state);
        writing.out.copy_from(out);
        writing.starts.copy_from(starts);
        writing
    }

    /// The state, which is the same for both.
    pub fn state(&self) -> &[u64; STATE] {
        self.state.slice().first_chunk().expect("a state has five words")
    }

    /// Puts another state in.
    pub fn set_state(&mut self, state: [u64; STATE]) {
        self.state.copy_from(&state);
    }

    /// Lends an output and a table of other lengths from now on.
    pub fn resize(&mut self, out: usize, words: usize, byte: u8, word: u32) {
        self.out.resize(out, byte);
        self.second_out.resize(out, byte);
        self.starts.resize(words, word);
        self.second_starts.resize(words, word);
    }

    fn with_product<T>(&mut self, call: impl FnOnce(&mut [u64; STATE], &mut [u8], &mut [u32]) -> T) -> T {
        call(array(self.state.slice_mut()), self.out.slice_mut(), self.starts.slice_mut())
    }

    fn is_same(&self) -> bool {
        self.out.slice() == self.second_out && self.starts.slice() == self.second_starts
    }

    fn is_guarded(&self) -> bool {
        self.state.is_guarded() && self.out.is_guarded() && self.starts.is_guarded()
    }
}

/// A state of the product as the second program has it: any other word than 0 is closed.
fn writer(&[written, count, pending, start, closed]: &[u64; STATE]) -> Writer {
    Writer { written, count, pending, start, closed: closed != 0 }
}

/// A state of the second program as the product has it.
fn words(writer: Writer) -> [u64; STATE] {
    let Writer { written, count, pending, start, closed } = writer;
    [written, count, pending, start, closed.into()]
}

/// A table of that many words of junk.
fn refill(table: &mut Vec<u32>, words: usize) -> &mut [u32] {
    table.clear();
    table.resize(words, JUNK);
    table
}

/// A slice that was made with this many elements.
fn array<T, const N: usize>(slice: &mut [T]) -> &mut [T; N] {
    slice.first_chunk_mut().expect("the length that was filled in")
}

/// The number and the out array of an answer.
fn answer_of<T, const N: usize>(answer: Result<T, Error>, out: impl FnOnce(T) -> [u64; N]) -> Answer<N> {
    match answer {
        Ok(value) => (0, out(value)),
        Err(Error { kind, place }) => {
            let mut out = [0; N];
            out[0] = place;
            (kind.number().into(), out)
        }
    }
}

fn checked(answer: Result<Checked, Error>) -> Answer<2> {
    answer_of(answer, |Checked { count, entry }| [count as u64, entry as u64])
}

/// Prune by the second program. The writer's refusals have no place, and C gets 0 for it.
fn pruned(file: &[u8], output: &mut [u8], [old_starts, new_starts]: [&mut [u32]; 2]) -> Answer<3> {
    let answer = reference::prune(file, output, old_starts, new_starts).map_err(|refusal| match refusal {
        Refusal::Check(error) => error,
        Refusal::Writer(kind) => Error { kind, place: 0 },
    });
    answer_of(answer, |Pruned { length, count, entry }| [length, count, entry].map(|number| number as u64))
}

fn offset(answer: Result<usize, Error>) -> Answer<2> {
    answer_of(answer, |offset| [offset as u64, 0])
}

/// What `twine_read` returns for a value whose end `skip` returns: kind, number, offset after the numbers, count.
fn read(answer: Result<Value, Error>, at: u64, end: Result<usize, Error>) -> Answer<4> {
    // A value without body and items ends after its numbers, and can be skipped if it can be read.
    let end = end.map_or(u64::MAX, |end| end as u64);
    answer_of(answer, |value| match value {
        Value::Scalar(scalar) => [0, scalar as u64, end, 0],
        Value::Integer(integer) => [if integer < 0 { 2 } else { 1 }, integer as u64, end, 0],
        Value::Float32(bits) => [3, bits.into(), at + 1, 4],
        Value::Float64(bits) => [3, bits, at + 1, 8],
        Value::Text(Body { first, length }) => [4, length as u64, first as u64, length as u64],
        Value::Bytes(Body { first, length }) => [5, length as u64, first as u64, length as u64],
        Value::Array { items, first } => [6, items, first as u64, items],
        Value::Map { pairs, first } => [7, pairs, first as u64, 2 * pairs],
        Value::Tag { tag, first } => [8, tag, first as u64, 1],
        Value::Variant0 { index } => [10, index.into(), end, 0],
        Value::Variant1 { index, first } => [11, index.into(), first as u64, 1],
        Value::VariantN { index, arguments, first } => [12, index.into(), first as u64, arguments],
        Value::Reference { target } => [14, target as u64, end, 0],
        Value::Pointer { target } => [15, target as u64, end, 0],
    })
}

#[cfg(test)]
mod tests {
    use super::*;

    #[test]
    fn the_tolerant_mode_may_differ_after_overlong_alone() {
        let left = |number, start| {
            let mut left = Left::new();
            left.refill(2, [1, 0]);
            left.number = number;
            left.starts.slice_mut()[0] = start;
            left
        };
        assert!(left(0, 7).may_follow(&left(0, 7)));
        assert!(left(0, 7).may_follow(&left(OVERLONG, 0)));
        for (strict, tolerant) in [((0, 7), (0, 8)), ((0, 7), (6, 7)), ((6, 0), (0, 0)), ((6, 0), (OVERLONG, 0))] {
            assert!(!left(tolerant.0, tolerant.1).may_follow(&left(strict.0, strict.1)), "{strict:?} {tolerant:?}");
        }
    }
}
