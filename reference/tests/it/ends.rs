//! Files that end before something that they announce: which refusal, and where.
//!
//! The expected refusal comes from where the parts of a file were put, by W-201 alone: no byte of the file is looked at. Numbers
//! are in their shortest form for the strict mode, and padded for the tolerant one.

use reference::ErrorKind::{self, *};
use reference::{body, body_place, check, depths, follow, item, lookup, read, skip, Mode};

/// What a header announces.
#[derive(Clone, Copy, Debug, PartialEq, Eq)]
enum Announced {
    /// Nothing but its own numbers, or one item.
    Nothing,
    /// A float of that many bytes.
    Fixed(usize),
    /// The bytes of a text or byte string.
    Body(usize),
    /// That many items or arguments, of at least a byte each; a pair is two.
    List(usize),
}

/// A header, its numbers and its body of bytes, and where they were put.
#[derive(Clone, Copy, Debug)]
struct Part {
    header: usize,
    /// The offset just after the numbers.
    first: usize,
    /// The offset after the body.
    end: usize,
    announced: Announced,
}

/// A value: its own part and those of its items.
#[derive(Clone, Debug)]
struct Laid {
    own: Part,
    items: Vec<Part>,
    /// The start of the value that pointers lead to, and the pointers met.
    followed: (usize, u64),
}

impl Laid {
    fn end(&self) -> usize {
        self.items.last().map_or(self.own.end, |item| item.end)
    }
}

/// A region that is put together, and where its values are.
#[derive(Clone, Debug)]
struct Layout {
    /// The mode that it is for.
    mode: Mode,
    bytes: Vec<u8>,
    values: Vec<Laid>,
}

/// The number of items, and the announcement, of a value's header.
struct Opening {
    header: Vec<u8>,
    items: usize,
    announced: Announced,
}

/// The bytes of a number whose shortest form has `size`.
fn padded(mode: Mode, size: usize) -> usize {
    match mode {
        Mode::Strict => size,
        Mode::Tolerant => (size + 4).min(10),
    }
}

/// A LEB128 number whose shortest form has `size` bytes.
fn number(mode: Mode, size: usize, n: u64) -> Vec<u8> {
    let byte = |index: usize| n.checked_shr(7 * index as u32).unwrap_or(0) as u8;
    assert!(size == 1 || byte(size - 1) > 0 && byte(size) == 0, "{n} in {size} bytes");
    let mut bytes: Vec<u8> = (0..padded(mode, size)).map(|index| byte(index) | 0x80).collect();
    if let Some(last) = bytes.last_mut() {
        *last &= 0x7f;
    }
    bytes
}

/// A header with low 15 and a number whose shortest form has `size` bytes.
fn long(mode: Mode, kind: u8, size: usize, n: u64) -> Vec<u8> {
    [vec![kind << 4 | 15], number(mode, size, n - 15)].concat()
}

/// An immediate: header and numbers, and its body.
type Immediate = (Vec<u8>, Vec<u8>);

/// Immediates of every kind; bodies of short and of long lengths, some of them empty. None has a target.
fn immediates(mode: Mode) -> Vec<(Immediate, Announced)> {
    use Announced::*;
    let body = |header: Vec<u8>, length: usize| ((header, vec![b'k'; length]), Body(length));
    vec![
        ((vec![0x02], vec![]), Nothing),
        ((vec![0x1e], vec![]), Nothing),
        ((long(mode, 1, 9, i64::MAX as u64), vec![]), Nothing),
        ((long(mode, 2, 3, 20_000), vec![]), Nothing),
        ((vec![0x30], vec![0x10; 4]), Fixed(4)),
        ((vec![0x31], vec![0x10; 8]), Fixed(8)),
        body(vec![0x40], 0),
        body(vec![0x41], 1),
        body(vec![0x4e], 14),
        body(long(mode, 4, 1, 15), 15),
        body(long(mode, 4, 2, 143), 143),
        body(vec![0x50], 0),
        body(vec![0x53], 3),
        body(long(mode, 5, 1, 142), 142),
        body(long(mode, 5, 2, 300), 300),
        ((vec![0xa4], vec![]), Nothing),
        ((long(mode, 10, 5, u32::MAX.into()), vec![]), Nothing),
    ]
}

/// Openings of every kind: with no, some and many items, with short and long numbers.
fn openings(mode: Mode) -> Vec<Opening> {
    use Announced::*;
    let opening = |header: Vec<u8>, items: usize, announced: Announced| Opening { header, items, announced };
    let list = |header: Vec<u8>, items: usize| Opening { header, items, announced: List(items) };
    vec![
        list(vec![0x60], 0),
        list(vec![0x63], 3),
        list(long(mode, 6, 1, 20), 20),
        list(long(mode, 6, 2, 150), 150),
        list(vec![0x70], 0),
        list(vec![0x72], 4),
        list(long(mode, 7, 1, 17), 34),
        list(long(mode, 7, 2, 160), 320),
        opening(vec![0x8e], 1, Nothing),
        opening(long(mode, 8, 10, u64::MAX), 1, Nothing),
        opening(vec![0xb0], 1, Nothing),
        opening(long(mode, 11, 5, u32::MAX.into()), 1, Nothing),
        list(vec![0xc1, 0x00], 0),
        list(vec![0xc1, 0x01], 1),
        list([vec![0xce], number(mode, 1, 127)].concat(), 127),
        list([long(mode, 12, 5, u32::MAX.into()), number(mode, 2, 130)].concat(), 130),
    ]
}

impl Layout {
    fn new(mode: Mode) -> Self {
        Self { mode, bytes: Vec::new(), values: Vec::new() }
    }

    fn part(&mut self, header: &[u8], body: &[u8], announced: Announced) -> Part {
        let from = self.bytes.len();
        self.bytes.extend(header);
        let first = self.bytes.len();
        self.bytes.extend(body);
        Part { header: from, first, end: self.bytes.len(), announced }
    }

    fn immediate(&mut self, ((header, body), announced): &(Immediate, Announced)) -> Part {
        self.part(header, body, *announced)
    }

    /// A value that is an immediate.
    fn alone(&mut self, immediate: &(Immediate, Announced)) {
        let own = self.immediate(immediate);
        self.values.push(Laid { own, items: Vec::new(), followed: (own.header, 0) });
    }

    /// A value of items, which are taken from a ring.
    fn holding(&mut self, opening: &Opening, ring: &[(Immediate, Announced)]) {
        let own = self.part(&opening.header, &[], opening.announced);
        let items = ring.iter().cycle().take(opening.items).map(|item| self.immediate(item)).collect();
        self.values.push(Laid { own, items, followed: (own.header, 0) });
    }

    /// A reference or pointer to a value without a body.
    fn targeting(&mut self, kind: u8, number: usize) {
        let at = self.bytes.len();
        let distance = (at - self.values[number].own.header - 1) as u64;
        let header = match distance {
            0..15 => vec![kind << 4 | distance as u8],
            15..143 => long(self.mode, kind, 1, distance),
            _ => long(self.mode, kind, 2, distance),
        };
        let own = self.part(&header, &[], Announced::Nothing);
        let (last, hops) = self.values[number].followed;
        let followed = if kind == 15 { (last, hops + 1) } else { (own.header, 0) };
        self.values.push(Laid { own, items: Vec::new(), followed });
    }

    /// The file that ends after `cut` bytes of the region; its entry is the last value that is whole.
    fn cut(&self, cut: usize) -> Vec<u8> {
        let mut file = self.bytes[..cut].to_vec();
        let whole = self.values.iter().rev().find(|value| value.end() <= cut);
        let delta = whole.map_or(0, |value| (cut - value.own.header - 1).min(255));
        file.push(delta as u8);
        file
    }
}

/// A refusal and its place.
type Fault = (ErrorKind, usize);

/// What is at fault with a part in a region of `cut` bytes, in which it is wanted.
fn fault_of(part: &Part, cut: usize) -> Option<Fault> {
    if cut <= part.header {
        // "an item wanted there"
        return Some((Trunc, cut));
    }
    if cut < part.first {
        // "a number .. cut by the region's end"
        return Some((Trunc, part.header));
    }
    let left = cut - part.first;
    match part.announced {
        Announced::Fixed(bytes) if bytes > left => Some((Trunc, part.header)),
        Announced::Body(bytes) if bytes > left => Some((LongBody, part.first)),
        Announced::List(items) if items > left => Some((LongList, part.first)),
        _ => None,
    }
}

/// What is at fault with a value that starts in a region of `cut` bytes: the first fault of its parts.
fn fault_in(value: &Laid, cut: usize) -> Option<Fault> {
    [&value.own].into_iter().chain(&value.items).find_map(|part| fault_of(part, cut))
}

fn error<T>(answer: Result<T, reference::Error>) -> Result<T, Fault> {
    answer.map_err(|error| (error.kind, error.place as usize))
}

/// Asks everything of the value at its start, in a file that ends after `cut` bytes of the region.
fn assert_questions(file: &[u8], mode: Mode, value: &Laid, cut: usize) {
    let start = value.own.header;
    let at = start as u64;
    let own = fault_of(&value.own, cut);
    let whole = fault_in(value, cut);
    assert_eq!(error(read(file, mode, at).map(|_| ())).err(), own, "read at {start}, cut {cut}");
    let followed = error(follow(file, mode, at).map(|met| (met.offset, met.hops)));
    assert_eq!(followed, own.map_or(Ok(value.followed), Err), "follow at {start}, cut {cut}");
    assert_eq!(error(skip(file, mode, at)), whole.map_or(Ok(value.end()), Err), "skip at {start}, cut {cut}");

    // The part handed back is empty exactly if the question is refused, or the body is.
    let place = error(body_place(file, mode, at).map(|body| (body.first, body.length)));
    let expected = match (own, value.own.announced) {
        (Some(fault), _) => Err(fault),
        (None, Announced::Body(length)) => Ok((value.own.first, length)),
        (None, _) => Err((WrongKind, value.followed.0)),
    };
    assert_eq!(place, expected, "body at {start}, cut {cut}");
    assert_eq!(body(file, mode, at).len(), place.map_or(0, |(_, length)| length));

    for index in [0, 1, value.items.len() / 2, value.items.len().saturating_sub(1), value.items.len(), usize::MAX] {
        let answer = error(item(file, mode, at, index as u64));
        let has_items = matches!(value.own.announced, Announced::List(_)) || !value.items.is_empty();
        let expected = match (own, value.items.get(index)) {
            (Some(fault), _) => Err(fault),
            (None, None) => Err((if has_items { NoItem } else { WrongKind }, start)),
            (None, Some(asked)) => {
                let before = value.items[..index].iter().find_map(|item| fault_of(item, cut));
                let wanted = (cut <= asked.header).then_some((Trunc, cut));
                before.or(wanted).map_or(Ok(asked.header), Err)
            }
        };
        assert_eq!(answer, expected, "item {index} at {start}, cut {cut}");
    }
}

/// Check and depths, and everything of each value, at every cut. Returns the refusals met.
fn assert_cuts(layout: &Layout) -> Vec<Fault> {
    let mode = layout.mode;
    let mut met = Vec::new();
    for cut in 0..=layout.bytes.len() {
        let file = layout.cut(cut);
        let started = layout.values.iter().take_while(|value| value.own.header < cut);
        let started: Vec<&Laid> = started.collect();
        let fault = started.last().and_then(|value| fault_in(value, cut));
        let entry = started.last().map(|value| value.own.header).filter(|start| cut - start <= 256);
        let expected = match (fault, entry) {
            (Some(fault), _) => Err(fault),
            (None, Some(entry)) => Ok((started.len(), entry)),
            (None, None) => Err((BadEntry, cut)),
        };
        let mut starts = vec![7; layout.values.len() + 1];
        let mut words = starts.clone();
        let answer = error(check(&file, mode, &mut starts).map(|checked| (checked.count, checked.entry)));
        assert_eq!(answer, expected, "check, cut {cut}");
        if expected.is_err() {
            assert!(starts.iter().all(|word| *word == 0));
        }
        let answer = error(depths(&file, mode, &mut starts, &mut words).map(|checked| (checked.count, checked.entry)));
        assert_eq!(answer, expected, "depths, cut {cut}");
        if expected.is_err() {
            assert!(starts.iter().chain(&words).all(|word| *word == 0));
        }
        met.extend(fault);
        // The value that is cut, and the one before it, which is not.
        for value in started.iter().rev().take(2) {
            assert_questions(&file, mode, value, cut);
        }
    }
    met
}

fn count(met: &[Fault], kind: ErrorKind) -> usize {
    met.iter().filter(|fault| fault.0 == kind).count()
}

#[test]
fn immediates_cut_at_every_byte() {
    for mode in Mode::ALL {
        let immediates = immediates(mode);
        let mut layout = Layout::new(mode);
        for immediate in &immediates {
            layout.alone(immediate);
        }
        layout.targeting(15, 0);
        layout.targeting(15, immediates.len());
        layout.targeting(14, immediates.len());
        layout.targeting(14, 0);
        let met = assert_cuts(&layout);
        // A body of that many bytes is cut after its numbers, and after each of its bytes but the last.
        assert_eq!(count(&met, LongBody), 1 + 14 + 15 + 143 + 3 + 142 + 300);
        // A float or a number of that many bytes is cut after the header, and after each of its bytes but the last.
        let numbers = [9, 3, 1, 2, 1, 2, 5, 2, 2].map(|size| padded(mode, size));
        assert_eq!(count(&met, Trunc), 4 + 8 + numbers.iter().sum::<usize>());
        assert_eq!(count(&met, LongList), 0);
    }
}

#[test]
fn values_of_items_cut_at_every_byte() {
    // In rings that begin with a short item, a long one, a float, and a byte string.
    for (mode, turn) in Mode::ALL.into_iter().flat_map(|mode| [0, 4, 9, 14].map(|turn| (mode, turn))) {
        let immediates = immediates(mode);
        let mut ring = immediates.clone();
        ring.rotate_left(turn);
        let short = ring.iter().filter(|((_, body), _)| body.len() < 9);
        let short: Vec<(Immediate, Announced)> = short.cloned().collect();
        let mut layout = Layout::new(mode);
        layout.alone(&immediates[1]);
        for opening in openings(mode) {
            // Those of many items hold short ones, so that the file can be cut at each of its bytes.
            layout.holding(&opening, if opening.items > 40 { &short } else { &ring });
        }
        let met = assert_cuts(&layout);
        for kind in [Trunc, LongBody, LongList] {
            assert!(count(&met, kind) > 100, "{kind} {} times in the ring of {turn}", count(&met, kind));
        }
    }
}

/// With items of one byte each a list is either too long, or whole.
#[test]
fn lists_of_short_items_are_long_at_every_cut() {
    for mode in Mode::ALL {
        let null = &immediates(mode)[..1];
        for opening in openings(mode) {
            let mut layout = Layout::new(mode);
            layout.holding(&opening, null);
            let met = assert_cuts(&layout);
            let numbers = opening.header.len();
            match opening.announced {
                Announced::List(items) => {
                    assert_eq!((count(&met, Trunc), count(&met, LongList)), (numbers - 1, items));
                    assert!(met.iter().all(|(kind, place)| *place == if *kind == LongList { numbers } else { 0 }));
                }
                // "TRUNC .. for an item wanted there", after its numbers.
                _ => assert_eq!((met.len(), met.last()), (numbers, Some(&(Trunc, numbers)))),
            }
        }
    }
}

/// A map of two pairs, the first of them with each immediate as its key and each as its value: looked up at every cut.
#[test]
fn lookups_at_every_cut() {
    for mode in Mode::ALL {
        let immediates = immediates(mode);
        let one = &immediates[0];
        for (key, value) in immediates.iter().flat_map(|key| immediates.iter().map(move |value| (key, value))) {
            let mut layout = Layout::new(mode);
            let opening = Opening { header: vec![0x72], items: 4, announced: Announced::List(4) };
            layout.holding(&opening, &[key.clone(), value.clone(), one.clone(), one.clone()]);
            let map = layout.values[0].clone();
            let wanted = vec![b'k'; map.items[0].end - map.items[0].first];
            let is_found = matches!(key.1, Announced::Body(_)) && key.0 .0[0] >> 4 == 4;
            for cut in 1..=layout.bytes.len() {
                let file = layout.cut(cut);
                // The wanted value only has to start; of another key every item is examined.
                let found = fault_of(&map.own, cut)
                    .or(fault_of(&map.items[0], cut))
                    .or((cut <= map.items[1].header).then_some((Trunc, cut)));
                let other = fault_in(&map, cut).unwrap_or((NoItem, 0));
                let expected = if is_found { found.map_or(Ok(map.items[1].header), Err) } else { Err(other) };
                assert_eq!(error(lookup(&file, mode, 0, &wanted)), expected, "{key:?} {value:?}, cut {cut}");
                assert_eq!(error(lookup(&file, mode, 0, b"absent")), Err(other), "{key:?} {value:?}, cut {cut}");
            }
        }
    }
}

/// Pointers to a text or list that announces more than there is, from a value and from a key of a map.
#[test]
fn long_bodies_and_lists_after_following() {
    for n in [150, 1 << 62, (1 << 62) + 1, (1 << 63) - 1, 1 << 63, u64::MAX] {
        for (mode, kind) in Mode::ALL.into_iter().flat_map(|mode| [4, 5, 6, 7, 12].map(|kind| (mode, kind))) {
            let mut file = vec![0x10];
            let size = if kind == 12 { 5 } else { (1..=10).find(|size| (n - 15) >> (7 * size).min(63) == 0).unwrap_or(10) };
            file.extend(long(mode, kind, size, if kind == 12 { u32::MAX.into() } else { n }));
            if kind == 12 {
                let size = (1..=10).find(|size| n >> (7 * size).min(63) == 0).unwrap_or(10);
                file.extend(number(mode, size, n));
            }
            let first = file.len();
            let expected = (if kind < 6 { LongBody } else { LongList }, first);
            let pointer = |file: &mut Vec<u8>, to: usize| {
                let distance = file.len() - to - 1;
                if distance < 15 {
                    file.push(0xf0 | distance as u8);
                } else {
                    file.extend(long(mode, 15, 1, distance as u64));
                }
            };
            let near = file.len();
            pointer(&mut file, 1);
            let far = file.len();
            pointer(&mut file, near);
            let map = file.len();
            file.push(0x71);
            pointer(&mut file, far);
            file.extend([0x02, 0x00]);
            for at in [1, near, far, map + 1] {
                let at = at as u64;
                assert_eq!(error(follow(&file, mode, at)).err(), Some(expected), "kind {kind}, number {n}");
                assert_eq!(error(body_place(&file, mode, at)).err(), Some(expected), "kind {kind}, number {n}");
                assert!(body(&file, mode, at).is_empty());
            }
            assert_eq!(error(lookup(&file, mode, map as u64, b"k")).err(), Some(expected), "kind {kind}, number {n}");
            assert_eq!(error(skip(&file, mode, map as u64)), Ok(file.len() - 1), "items are not followed");
            assert_eq!(error(check(&file, mode, &mut [0; 9])).err(), Some(expected), "kind {kind}, number {n}");
            assert_eq!(error(depths(&file, mode, &mut [0; 9], &mut [])).err(), Some(expected), "kind {kind}, number {n}");
            assert_eq!(error(check(&file, mode, &mut [0; 1])).err(), Some((Full, 1)));
        }
    }
}
