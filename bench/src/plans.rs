//! Made-up files of four shapes, and of labels alone.

use reference::{Call, Mode, Scalar, Writer};

/// What a file is mostly made of.
#[derive(Clone, Copy, Debug, PartialEq, Eq)]
pub enum Shape {
    /// Maps with text keys, arrays, integers, texts, tags and variants, near and far targets.
    Plan,
    /// Texts of 20 to 199 bytes, one in eight with letters beyond ASCII.
    Text,
    /// Arrays of integers of one to seven bytes.
    Integer,
    /// Arrays of pointers and references, three of four to one of the last 64 values, the rest to any.
    Pointer,
}

impl Shape {
    /// All shapes.
    pub const ALL: [Self; 4] = [Self::Plan, Self::Text, Self::Integer, Self::Pointer];

    /// Its name in a table.
    pub const fn name(self) -> &'static str {
        match self {
            Self::Plan => "plan-like",
            Self::Text => "text-heavy",
            Self::Integer => "integer-heavy",
            Self::Pointer => "pointer-heavy",
        }
    }
}

/// How many values of a file are dead: its entry does not reach them.
#[derive(Clone, Copy, Debug, PartialEq, Eq)]
pub enum Dead {
    /// None.
    Nothing,
    /// One in two.
    Half,
    /// 31 of 32.
    NearlyAll,
}

impl Dead {
    /// All shares.
    pub const ALL: [Self; 3] = [Self::Nothing, Self::Half, Self::NearlyAll];

    /// Its name in a table.
    pub const fn name(self) -> &'static str {
        match self {
            Self::Nothing => "nothing dead",
            Self::Half => "half dead",
            Self::NearlyAll => "nearly all dead",
        }
    }

    /// The chance in 32 that a value is dead.
    const fn chance(self) -> u64 {
        match self {
            Self::Nothing => 0,
            Self::Half => 16,
            Self::NearlyAll => 31,
        }
    }
}

/// What labels are made of.
#[derive(Clone, Copy, Debug, PartialEq, Eq)]
pub enum Letters {
    /// Letters of one byte.
    Plain,
    /// Those, and in each sixteen bytes a letter of two bytes.
    Mixed,
    /// Letters of two bytes.
    Wide,
}

impl Letters {
    /// Their name in a table.
    pub const fn name(self) -> &'static str {
        match self {
            Self::Plain => "plain",
            Self::Mixed => "some letters beyond ASCII",
            Self::Wide => "only letters beyond ASCII",
        }
    }
}

/// A file, its starts, and the calls that write it.
#[derive(Debug)]
pub struct Plan {
    /// The file.
    pub file: Vec<u8>,
    /// The starts of its values.
    pub starts: Vec<u32>,
    /// The calls.
    pub calls: Vec<Said>,
}

/// A call that owns its bytes.
#[derive(Debug)]
pub enum Said {
    /// A text.
    Text(Box<[u8]>),
    /// Any other call.
    Other(Call<'static>),
}

impl Said {
    /// The call.
    #[inline(always)]
    pub fn as_call(&self) -> Call<'_> {
        match self {
            Self::Text(text) => Call::Text(text),
            Self::Other(call) => *call,
        }
    }
}

/// A file of a shape that fills `length` bytes but for the last value. Other seeds make other files.
pub fn make(shape: Shape, length: usize, seed: u64) -> Plan {
    let mut maker = Maker::new(length, seed);
    while maker.has_room(LONGEST) {
        maker.value(shape);
    }
    let last = maker.starts[maker.writer.count as usize - 1];
    maker.close(last)
}

/// A file of a shape, of which as much is dead as said. A value is dead or live by chance; a live one leads to live ones alone. Whenever there
/// are twelve live values to which no other live one leads, an array of pointers to them follows, which is live; the last of these arrays is the
/// entry.
pub fn rebuilt(shape: Shape, dead: Dead, length: usize, seed: u64) -> Plan {
    let mut maker = Maker::new(length, seed);
    while maker.has_room(LONGEST + 2 * HOLDER) {
        maker.is_live = maker.random.below(32) >= dead.chance();
        let start = maker.writer.written as u32;
        maker.value(shape);
        if maker.is_live {
            maker.list(start);
        }
        if maker.loose.len() == HELD {
            maker.hold();
        }
    }
    let entry = maker.hold();
    maker.close(entry)
}

/// How many labels a file of labels has.
pub const LABELS: usize = 64;

/// A file of labels of this length, and, if they are long, of the pointer that its close adds.
pub fn labels(letters: Letters, length: usize, seed: u64) -> Plan {
    let mut maker = Maker::new(LABELS * (length + 4) + 8, seed);
    for _ in 0..LABELS {
        maker.label(letters, length);
    }
    let last = maker.starts[LABELS - 1];
    maker.close(last)
}

/// No value is longer than this, with the delta.
const LONGEST: usize = 260;

/// How many values are held by one array.
const HELD: usize = 12;

/// An array of that many pointers is no longer than this.
const HOLDER: usize = 1 + 5 * HELD;

/// The values of a file with each number in five bytes, or more if it needs them. No call writes them.
pub fn padded(plan: &Plan) -> Plan {
    let file = reference::export(&plan.file, |_| 5).expect("what was written is well-formed");
    let mut starts = vec![0; file.len()];
    let checked = reference::check(&file, Mode::Tolerant, &mut starts).expect("padded numbers are tolerated");
    starts.truncate(checked.count);
    Plan { file, starts, calls: Vec::new() }
}

/// A file that is being written.
struct Maker {
    random: Random,
    writer: Writer,
    out: Vec<u8>,
    starts: Vec<u32>,
    calls: Vec<Said>,
    /// Whether the value that is being written leads to live ones alone.
    is_live: bool,
    /// The starts of the live values.
    live: Vec<u32>,
    /// Those to which no live value leads yet.
    loose: Vec<u32>,
}

impl Maker {
    fn new(length: usize, seed: u64) -> Self {
        Self {
            random: Random(seed),
            writer: Writer::new(),
            out: vec![0; length],
            starts: vec![0; length],
            calls: Vec::new(),
            is_live: false,
            live: Vec::new(),
            loose: Vec::new(),
        }
    }

    fn has_room(&self, bytes: usize) -> bool {
        self.writer.written as usize + bytes < self.out.len()
    }

    fn call(&mut self, call: Said) {
        let answer;
        (answer, self.writer) = self.writer.step(call.as_call(), &mut self.out, &mut self.starts);
        assert_eq!(answer, Ok(()), "{call:?}");
        self.calls.push(call);
    }

    fn close(mut self, entry: u32) -> Plan {
        self.call(Said::Other(Call::Close(entry.into())));
        let Self { writer, mut out, mut starts, calls, .. } = self;
        out.truncate(writer.written as usize);
        starts.truncate(writer.count as usize);
        Plan { file: out, starts, calls }
    }

    /// A value of a shape.
    fn value(&mut self, shape: Shape) {
        match shape {
            Shape::Plan => self.plan(),
            Shape::Text => self.text(20, 200),
            Shape::Integer => self.array(12, Self::integer),
            Shape::Pointer => self.array(12, Self::target),
        }
    }

    /// Lists a live value, to which no live one leads yet.
    fn list(&mut self, start: u32) {
        self.live.push(start);
        self.loose.push(start);
    }

    /// An array of pointers to what is loose, live itself. Returns its start.
    fn hold(&mut self) -> u32 {
        let start = self.writer.written as u32;
        let held = std::mem::take(&mut self.loose);
        self.call(Said::Other(Call::Array(held.len() as u64)));
        for held in held {
            self.call(Said::Other(Call::Pointer(held.into())));
        }
        self.list(start);
        start
    }

    /// A value as plans have it.
    fn plan(&mut self) {
        match self.random.below(16) {
            0..=5 => {
                let pairs = 2 + self.random.below(5);
                self.call(Said::Other(Call::Map(pairs)));
                for _ in 0..pairs {
                    self.text(3, 10);
                    self.item();
                }
            }
            6..=10 => self.array(8, Self::item),
            11..=12 => self.text(4, 24),
            13 => {
                let (index, items) = (self.random.below(40) as u32, self.random.below(4));
                self.call(Said::Other(Call::VariantN(index, items)));
                for _ in 0..items {
                    self.item();
                }
            }
            14 => {
                let tag = self.random.below(100);
                self.call(Said::Other(Call::Tag(tag)));
                self.item();
            }
            _ => self.item(),
        }
    }

    fn array(&mut self, most: u64, item: fn(&mut Self)) {
        let items = 1 + self.random.below(most);
        self.call(Said::Other(Call::Array(items)));
        for _ in 0..items {
            item(self);
        }
    }

    fn item(&mut self) {
        match self.random.below(16) {
            0..=5 => self.integer(),
            6..=11 => self.target(),
            12..=13 => self.text(1, 16),
            14 => {
                let scalar = [Scalar::False, Scalar::True, Scalar::Null][self.random.below(3) as usize];
                self.call(Said::Other(Call::Scalar(scalar)));
            }
            _ => {
                let bits = self.random.next();
                self.call(Said::Other(Call::Float64(bits)));
            }
        }
    }

    fn integer(&mut self) {
        let bits = 1 + self.random.below(40);
        let integer = (self.random.next() >> (64 - bits)) as i64;
        let is_negative = self.random.below(4) == 0;
        self.call(Said::Other(Call::Integer(if is_negative { !integer } else { integer })));
    }

    fn target(&mut self) {
        let count = if self.is_live { self.live.len() as u64 } else { self.writer.count };
        if count == 0 {
            return self.integer();
        }
        let near = if self.random.below(4) < 3 { count.min(64) } else { count };
        let number = (count - 1 - self.random.below(near)) as usize;
        let start = if self.is_live { self.live[number] } else { self.starts[number] };
        if self.is_live {
            self.loose.retain(|loose| *loose != start);
        }
        let start = start.into();
        let is_reference = self.random.below(4) == 0;
        self.call(Said::Other(if is_reference { Call::Reference(start) } else { Call::Pointer(start) }));
    }

    fn text(&mut self, least: u64, most: u64) {
        let length = (least + self.random.below(most - least)) as usize;
        let mut text = Vec::with_capacity(length);
        let is_plain = self.random.below(8) > 0;
        while text.len() < length {
            if is_plain || length - text.len() < 3 {
                text.push(b'a' + self.random.below(26) as u8);
            } else {
                text.extend("ä".as_bytes());
                text.push(b' ');
            }
        }
        self.call(Said::Text(text.into()));
    }

    fn label(&mut self, letters: Letters, length: usize) {
        let mut text: Vec<u8> = (0..length).map(|_| b'a' + self.random.below(26) as u8).collect();
        // Each part of this many bytes gets a letter of two bytes.
        let part = match letters {
            Letters::Plain => usize::MAX,
            Letters::Mixed => 16,
            Letters::Wide => 2,
        };
        for part in text.chunks_exact_mut(part) {
            let place = self.random.below(part.len() as u64 - 1) as usize;
            part[place..place + 2].copy_from_slice(&[0xc3, 0x80 + self.random.below(64) as u8]);
        }
        self.call(Said::Text(text.into()));
    }
}

/// A generator of numbers: splitmix64.
struct Random(u64);

impl Random {
    fn next(&mut self) -> u64 {
        self.0 = self.0.wrapping_add(0x9e37_79b9_7f4a_7c15);
        let mut z = self.0;
        z = (z ^ (z >> 30)).wrapping_mul(0xbf58_476d_1ce4_e5b9);
        z = (z ^ (z >> 27)).wrapping_mul(0x94d0_49bb_1331_11eb);
        z ^ (z >> 31)
    }

    fn below(&mut self, bound: u64) -> u64 {
        ((u128::from(self.next()) * u128::from(bound)) >> 64) as u64
    }
}
