//! The section `padded`: numbers in more bytes than they need (W-203). Its first cases have every kind that has a number, and then every
//! header, before numbers of one to eleven bytes; the others are made up.

use crate::compare::Comparer;
use crate::difference::Difference;
use crate::make::{self, Padding};
use crate::product::Product;
use crate::random::Random;
use crate::sections::{self, Case};

/// The most bytes of a number.
const MOST: usize = 10;

/// A header, and which of its numbers is padded.
#[derive(Clone, Copy, Debug, PartialEq, Eq)]
enum Form {
    /// The one after a header of this kind.
    Kind(u8),
    /// The argument count of a variant that begins with these bytes.
    Count(&'static [u8]),
    /// Both numbers of a variant of many.
    Both,
}

const FORMS: [Form; 15] = [
    Form::Kind(1),
    Form::Kind(2),
    Form::Kind(4),
    Form::Kind(5),
    Form::Kind(6),
    Form::Kind(7),
    Form::Kind(8),
    Form::Kind(10),
    Form::Kind(11),
    Form::Kind(12),
    Form::Count(&[0xc3]),
    Form::Count(&[0xcf, 0x00]),
    Form::Both,
    Form::Kind(14),
    Form::Kind(15),
];

/// Numbers of each size up to ten bytes, those around bounds of n among them.
const NUMBERS: [u64; 14] = [
    0,
    5,
    128,
    1 << 14,
    1 << 21,
    u32::MAX as u64 - 15,
    u32::MAX as u64 - 14,
    1 << 35,
    1 << 42,
    1 << 49,
    (1 << 63) - 16,
    (1 << 63) - 15,
    u64::MAX - 15,
    u64::MAX,
];

/// What may hold an immediate: the bytes before and after it. The last one has a padded count itself.
const HOLDERS: [(&[u8], &[u8]); 6] =
    [(&[0x62, 0x10], &[]), (&[0x71], &[0x02]), (b"\x71\x41k", &[]), (&[0x80], &[]), (&[0xb0], &[]), (&[0xc0, 0x81, 0x00], &[])];

/// The cases of forms: every one padded by one to ten bytes, of which ten stand for none.
const OF_FORMS: u64 = (FORMS.len() * MOST) as u64;

/// The cases that are not made up: those of forms, and one for each header.
pub const SYSTEMATIC: u64 = OF_FORMS + 256;

/// The files of a case.
pub fn padded<P: Product>(comparer: &mut Comparer<P>, mut case: Case) -> Result<(), Difference> {
    let random = &mut case.random;
    let files = if case.number < OF_FORMS {
        let number = case.number as usize;
        of_form(FORMS[number % FORMS.len()], (1 + number / FORMS.len()) % MOST)
    } else if case.number < SYSTEMATIC {
        of_header((case.number - OF_FORMS) as u8)
    } else {
        made_up(random)
    };
    files.iter().try_for_each(|file| sections::whole(comparer, random, file))
}

impl Form {
    /// The header and its numbers, of which the padded ones are this one.
    fn head(self, number: &[u8]) -> Vec<u8> {
        match self {
            Self::Kind(12) => [&[0xcf], number, &[2]].concat(),
            Self::Kind(kind) => [&[kind << 4 | 15], number].concat(),
            Self::Count(index) => [index, number].concat(),
            Self::Both => [&[0xcf], number, number].concat(),
        }
    }

    /// What the header announces; of a great body or list only a part.
    fn body(self, number: u64) -> Vec<u8> {
        let count = number.min(200) as usize;
        match self {
            Self::Kind(4 | 5) => vec![b'k'; 15 + count],
            Self::Kind(6) => vec![0x10; 15 + count],
            Self::Kind(7) => b"\x41k\x11".repeat(15 + count),
            Self::Kind(8 | 11) => vec![0x10],
            Self::Kind(12) => vec![0x10; 2],
            Self::Kind(_) => Vec::new(),
            Self::Count(_) | Self::Both => vec![0x10; count],
        }
    }

    /// Where the header may be in a file that begins with a text: if it has a target, so that this is the text, a byte of it,
    /// or below 0.
    fn places(self, number: u64) -> Vec<usize> {
        match self {
            Self::Kind(14 | 15) if number <= 200 => [16, 17, 15].map(|place| place + number as usize).to_vec(),
            _ => vec![20],
        }
    }

    fn is_immediate(self) -> bool {
        matches!(self, Self::Kind(1 | 2 | 4 | 5 | 10 | 14 | 15))
    }
}

/// A number in `size` bytes; if that is as many as there may be, also with other last bytes, and with one more.
fn spellings(n: u64, size: usize) -> Vec<Vec<u8>> {
    let mut number = Vec::new();
    make::number(&mut number, n, size);
    let mut all = vec![number.clone()];
    if size == MOST {
        for last in [&[0x00][..], &[0x01], &[0x02], &[0x7f], &[0x80, 0x00], &[0x81, 0x01]] {
            all.push([&number[..MOST - 1], last].concat());
        }
    }
    all
}

/// Files with a number of this form that is padded by `more` bytes: as a value, to which pointers lead, and in what may hold it.
fn of_form(form: Form, more: usize) -> Vec<Vec<u8>> {
    let mut files = Vec::new();
    for n in NUMBERS {
        let size = spellings(n, 1)[0].len() + more;
        if size > MOST {
            continue;
        }
        let body = form.body(n);
        for (index, number) in spellings(n, size).iter().enumerate() {
            let head = form.head(number);
            for place in form.places(n) {
                files.push(file(place, &[], &head, &body));
            }
            let place = form.places(n)[0];
            let holders = if !form.is_immediate() || index > 0 { &HOLDERS[..1] } else { &HOLDERS };
            files.extend(holders.iter().map(|(holder, after)| file(place, holder, &head, &[&body[..], after].concat())));
            if index == 0 {
                // Cut within the numbers, and after them.
                files.extend((1..=head.len()).map(|cut| [&up_to(place, &[]), &head[..cut], &[0]].concat()));
            }
        }
    }
    files
}

/// A text and integers, then a holder, up to a header at this place.
fn up_to(place: usize, holder: &[u8]) -> Vec<u8> {
    let mut bytes = b"\x41k".to_vec();
    bytes.resize(place - holder.len(), 0x10);
    bytes.extend(holder);
    bytes
}

/// A file with a header at this place. Two values follow: a pointer to it, or to what holds it, and a map with that as its key.
fn file(place: usize, holder: &[u8], head: &[u8], body: &[u8]) -> Vec<u8> {
    let start = place - holder.len();
    let mut file = [&up_to(place, holder), head, body].concat();
    let point = |file: &mut Vec<u8>| {
        let distance = file.len() - start - 1;
        make::head(file, 15, distance as u64, 1);
    };
    point(&mut file);
    let map = file.len();
    file.push(0x71);
    point(&mut file);
    file.push(0x02);
    file.push((file.len() - map - 1) as u8);
    file
}

/// Files with this header before one or two padded numbers: as a value, and as an item.
fn of_header(header: u8) -> Vec<Vec<u8>> {
    let mut files = Vec::new();
    for before in [&[][..], &[0x10], &[0x61]] {
        for numbers in [&[0x80, 0x00][..], &[0x83, 0x80, 0x00], &[0x00, 0x80, 0x00], &[0x80, 0x00, 0x81, 0x00]] {
            for after in [&[][..], &[0x10; 18]] {
                let mut file = [before, &[header], numbers, after].concat();
                let start = usize::from(before == [0x10]);
                file.push((file.len() - start - 1) as u8);
                files.push(file);
            }
        }
    }
    files
}

/// A made-up file with padded numbers, well-formed in the tolerant mode, odd, or with a byte changed: of a small one, each in turn.
fn made_up(random: &mut Random) -> Vec<Vec<u8>> {
    let padding = random.pick(&[Padding::Five, Padding::Any]);
    let file = sections::small_or_not(random, |random, length| {
        if random.one_in(2) {
            let file = make::written(random, length);
            return make::padded(random, &file, padding);
        }
        let odd = random.pick(&[0, 0, 60, 20, 6]);
        make::built(random, length, odd, padding)
    });
    match random.below(16) {
        0 if file.len() <= 60 => (0..file.len()).map(|place| changed(random, &file, place)).collect(),
        0..=4 => {
            let place = random.index(file.len());
            vec![changed(random, &file, place)]
        }
        5 => vec![make::damaged(random, &file)],
        _ => vec![file],
    }
}

/// A file with one byte changed: in a bit, to one that ends a number or goes on with it, or to any.
fn changed(random: &mut Random, file: &[u8], place: usize) -> Vec<u8> {
    let mut file = file.to_vec();
    let any = random.next() as u8;
    let flipped = file[place] ^ 1 << random.below(8);
    file[place] = random.pick(&[flipped, flipped, file[place] ^ 0x80, 0x00, 0x01, 0x80, any]);
    file
}

#[cfg(test)]
mod tests {
    use super::*;
    use reference::{ErrorKind, Mode};

    /// What check answers in the strict and in the tolerant mode.
    fn answers(file: &[u8]) -> [Result<(), ErrorKind>; 2] {
        Mode::ALL.map(|mode| reference::check(file, mode, &mut vec![0; file.len()]).map(|_| ()).map_err(|error| error.kind))
    }

    #[test]
    fn every_form_is_accepted_with_any_padding_in_the_tolerant_mode() {
        for form in FORMS {
            for more in 0..MOST {
                let met: Vec<_> = of_form(form, more).iter().map(|file| answers(file)).collect();
                let strict = if more == 0 { Ok(()) } else { Err(ErrorKind::Overlong) };
                let count = met.iter().filter(|answers| **answers == [strict, Ok(())]).count();
                let holders = if form.is_immediate() { HOLDERS.len() - 1 } else { 0 };
                assert!(count > holders, "{form:?} padded by {more}: {count}");
                for kind in [ErrorKind::Range, ErrorKind::Trunc] {
                    assert!(met.contains(&[Err(kind); 2]), "{kind} of {form:?} padded by {more}");
                }
            }
        }
    }

    #[test]
    fn what_comes_after_a_padded_number_is_met() {
        let kinds = [ErrorKind::LongBody, ErrorKind::LongList, ErrorKind::Range, ErrorKind::BadTarget, ErrorKind::Trunc];
        let mut met = [0; 5];
        for form in FORMS {
            for [strict, tolerant] in (1..MOST).flat_map(|more| of_form(form, more)).map(|file| answers(&file)) {
                let kind = kinds.iter().position(|kind| (strict, tolerant) == (Err(ErrorKind::Overlong), Err(*kind)));
                kind.into_iter().for_each(|kind| met[kind] += 1);
            }
        }
        assert!(met.iter().all(|times| *times > 10), "{met:?}");
    }

    #[test]
    fn headers_and_made_up_files() {
        let headers: Vec<_> = (0..=255).flat_map(of_header).map(|file| answers(&file)).collect();
        let mut made_up_files = Vec::new();
        for case in 0..2000 {
            let mut random = Random::new(1, "padded", case);
            made_up_files.extend(made_up(&mut random).iter().map(|file| answers(file)));
        }
        for met in [headers, made_up_files] {
            let times = |answers: [Result<(), ErrorKind>; 2]| met.iter().filter(|met| **met == answers).count();
            assert!(times([Err(ErrorKind::Overlong), Ok(())]) > 10, "{met:?}");
            assert!(times([Ok(()); 2]) > 10, "{met:?}");
        }
    }
}
