//! The rows of the tables: what is timed.

use std::hint::black_box;

use reference::{Mode, Pruned, Value, Writer};

use crate::ffi;
use crate::plans::{self, Dead, Letters, Plan, Said, Shape, LABELS};
use crate::rewrite::rewrite;
use crate::timing::Clock;

/// What both programs take for the same work: libtwine.a first.
#[derive(Clone, Copy, Debug)]
pub struct Row {
    /// The values, queries or calls.
    pub units: usize,
    /// The bytes gone over, if they count.
    pub bytes: usize,
    /// The nanoseconds of all units.
    pub nanoseconds: [f64; 2],
}

impl Row {
    /// The nanoseconds for a byte.
    pub fn per_byte(&self, program: usize) -> f64 {
        self.nanoseconds[program] / self.bytes as f64
    }
}

/// Different files of 16 KB.
pub fn files(shape: Shape, count: usize) -> Vec<Plan> {
    (1..=count as u64).map(|seed| plans::make(shape, 16 << 10, seed)).collect()
}

/// The same files with their numbers padded.
pub fn padded_files(shape: Shape, count: usize) -> Vec<Plan> {
    files(shape, count).iter().map(plans::padded).collect()
}

/// Different files of 16 KB with dead values.
pub fn rebuilt_files(shape: Shape, dead: Dead, count: usize) -> Vec<Plan> {
    (1..=count as u64).map(|seed| plans::rebuilt(shape, dead, 16 << 10, seed)).collect()
}

/// Different files of labels of this length, as many as have 256 KB of labels.
pub fn label_files(letters: Letters, length: usize) -> Vec<Plan> {
    let count = (256 << 10) / (LABELS * length);
    (1..=count as u64).map(|seed| plans::labels(letters, length, seed)).collect()
}

/// The values and the bytes of files.
fn size(plans: &[Plan]) -> (usize, usize) {
    let values = plans.iter().map(|plan| plan.starts.len()).sum();
    let bytes = plans.iter().map(|plan| plan.file.len()).sum();
    (values, bytes)
}

/// A table for the values of any of these files.
fn table(plans: &[Plan]) -> Vec<u32> {
    let most = plans.iter().map(|plan| plan.starts.len()).max();
    vec![0; most.unwrap_or(0)]
}

/// Check of one file after the other, in this mode. All other rows are strict.
pub fn check(clock: &Clock, mode: u32, plans: &[Plan]) -> Row {
    let (mut starts, mut starts2) = (table(plans), table(plans));
    let nanoseconds = clock.race([
        &mut || {
            let mut out = [0; 2];
            plans.iter().all(|plan| ffi::check(black_box(&plan.file), mode, &mut starts[..plan.starts.len()], &mut out) == 0)
        },
        &mut || {
            plans
                .iter()
                .all(|plan| reference::check(black_box(&plan.file), ffi::mode(mode), &mut starts2[..plan.starts.len()]).is_ok())
        },
    ]);
    assert_eq!(starts, starts2);
    let (units, bytes) = size(plans);
    Row { units, bytes, nanoseconds }
}

/// Depths of one file after the other.
pub fn depths(clock: &Clock, plans: &[Plan]) -> Row {
    let (mut starts, mut depths) = (table(plans), table(plans));
    let (mut starts2, mut depths2) = (table(plans), table(plans));
    let nanoseconds = clock.race([
        &mut || {
            let mut out = [0; 2];
            plans.iter().all(|plan| {
                let count = plan.starts.len();
                ffi::depths(black_box(&plan.file), ffi::STRICT, &mut starts[..count], &mut depths[..count], &mut out) == 0
            })
        },
        &mut || {
            plans.iter().all(|plan| {
                let count = plan.starts.len();
                reference::depths(black_box(&plan.file), Mode::Strict, &mut starts2[..count], &mut depths2[..count]).is_ok()
            })
        },
    ]);
    assert_eq!((starts, depths), (starts2, depths2));
    let (units, bytes) = size(plans);
    Row { units, bytes, nanoseconds }
}

/// Each item of each value.
pub fn items(clock: &Clock, plan: &Plan) -> Row {
    let file = &plan.file;
    let questions: Vec<(usize, usize)> = plan
        .starts
        .iter()
        .flat_map(|&start| {
            let items = match reference::read(file, Mode::Strict, start.into()) {
                Ok(Value::Array { items, .. }) => items,
                Ok(Value::Map { pairs, .. }) => 2 * pairs,
                Ok(Value::Tag { .. } | Value::Variant1 { .. }) => 1,
                Ok(Value::VariantN { arguments, .. }) => arguments,
                _ => 0,
            };
            (0..items as usize).map(move |index| (start as usize, index))
        })
        .collect();
    items_of(clock, file, &questions)
}

/// The last of many integers in an array; the units are the items.
pub fn last_item(clock: &Clock, items: usize) -> Row {
    let mut calls = vec![reference::Call::Array(items as u64)];
    calls.extend((0..items as i64).map(|n| reference::Call::Integer(n * n % 7919)));
    calls.push(reference::Call::Close(0));
    let mut file = vec![0; 4 * items];
    let mut writer = Writer::new();
    for call in calls {
        (_, writer) = writer.step(call, &mut file, &mut [0; 2]);
    }
    file.truncate(writer.written as usize);
    Row { units: items, ..items_of(clock, &file, &[(0, items - 1)]) }
}

fn items_of(clock: &Clock, file: &[u8], questions: &[(usize, usize)]) -> Row {
    let nanoseconds = clock.race([
        &mut || {
            let mut out = [0; 2];
            questions.iter().all(|&(at, index)| ffi::item(black_box(file), ffi::STRICT, at, index, &mut out) == 0)
        },
        &mut || {
            questions.iter().all(|&(at, index)| reference::item(black_box(file), Mode::Strict, at as u64, index as u64).is_ok())
        },
    ]);
    Row { units: questions.len(), bytes: 0, nanoseconds }
}

/// Each key of each map, or a key that is in none for each of them.
pub fn lookups(clock: &Clock, plan: &Plan, is_present: bool) -> Row {
    let file = &plan.file;
    let mut questions: Vec<(usize, &[u8])> = Vec::new();
    for &start in &plan.starts {
        let Ok(Value::Map { pairs, .. }) = reference::read(file, Mode::Strict, start.into()) else {
            continue;
        };
        for pair in 0..pairs {
            let key = reference::item(file, Mode::Strict, start.into(), 2 * pair).expect("a pair has a key");
            let key = if is_present { reference::body(file, Mode::Strict, key as u64) } else { b"nowhere" };
            questions.push((start as usize, key));
        }
    }
    let nanoseconds = clock.race([
        &mut || {
            let mut out = [0; 2];
            questions.iter().all(|&(at, key)| (ffi::lookup(black_box(file), ffi::STRICT, at, key, &mut out) == 0) == is_present)
        },
        &mut || {
            questions
                .iter()
                .all(|&(at, key)| reference::lookup(black_box(file), Mode::Strict, at as u64, key).is_ok() == is_present)
        },
    ]);
    Row { units: questions.len(), bytes: 0, nanoseconds }
}

/// The calls of one file after the other.
pub fn writes(clock: &Clock, plans: &[Plan]) -> Row {
    let longest = plans.iter().map(|plan| plan.file.len()).max().unwrap_or(0);
    let (mut out, mut starts) = (vec![0; longest], table(plans));
    let (mut out2, mut starts2) = (vec![0; longest], table(plans));
    let nanoseconds = clock.race([
        &mut || {
            plans.iter().all(|plan| {
                let mut state = [0; ffi::STATE];
                ffi::writer_new(&mut state);
                black_box(&plan.calls).iter().all(|call| ffi::call(&mut state, call.as_call(), &mut out, &mut starts) == 0)
            })
        },
        &mut || {
            plans.iter().all(|plan| {
                let mut writer = Writer::new();
                black_box(&plan.calls).iter().map(Said::as_call).all(|call| {
                    let answer;
                    (answer, writer) = writer.step(call, &mut out2, &mut starts2);
                    answer.is_ok()
                })
            })
        },
    ]);
    assert_eq!((out, starts), (out2, starts2));
    let (_, bytes) = size(plans);
    Row { units: plans.iter().map(|plan| plan.calls.len()).sum(), bytes, nanoseconds }
}

/// Prune of one file after the other, and, as the other program, check and rewriting of the same files by the library's own calls.
/// Returns also how many of the values are dead, from 0 to 1.
pub fn prunes(clock: &Clock, plans: &[Plan]) -> (Row, f64) {
    let longest = plans.iter().map(|plan| plan.file.len()).max().unwrap_or(0);
    let (mut out, mut old, mut new) = (vec![0; longest], table(plans), table(plans));
    let (mut out2, mut starts2, mut table2) = (vec![0; longest], table(plans), table(plans));
    let mut live = 0;
    for plan in plans {
        let count = plan.starts.len();
        let second = reference::prune(&plan.file, &mut out2, &mut starts2[..count], &mut table2[..count]);
        let Pruned { length, count: kept, entry } = second.expect("what was written is well-formed");
        let mut told = [0; 3];
        assert_eq!(ffi::prune(&plan.file, &mut out, &mut old[..count], &mut new[..count], &mut told), 0);
        assert_eq!(told, [length, kept, entry].map(|number| number as u64));
        assert!(out[..length] == out2[..length] && old[..count] == starts2[..count] && new[..count] == table2[..count]);
        live += kept;
    }
    let nanoseconds = clock.race([
        &mut || {
            let mut told = [0; 3];
            plans.iter().all(|plan| {
                let count = plan.starts.len();
                ffi::prune(black_box(&plan.file), &mut out, &mut old[..count], &mut new[..count], &mut told) == 0
            })
        },
        &mut || {
            let mut checked = [0; 2];
            plans.iter().all(|plan| {
                let (file, count) = (black_box(&plan.file), plan.starts.len());
                ffi::check(file, ffi::STRICT, &mut starts2[..count], &mut checked) == 0
                    && rewrite(file, checked[1] as usize, &mut out2, &mut table2[..count])
            })
        },
    ]);
    if let Some(last) = plans.last() {
        assert!(out2[..last.file.len()] == last.file && table2[..last.starts.len()] == last.starts);
    }
    let (units, bytes) = size(plans);
    (Row { units, bytes, nanoseconds }, 1.0 - live as f64 / units as f64)
}

/// The nanoseconds in which `std::str::from_utf8` tests all labels of files.
pub fn from_utf8(clock: &Clock, plans: &[Plan]) -> f64 {
    let labels: Vec<&[u8]> = plans
        .iter()
        .flat_map(|plan| plan.starts[..LABELS].iter().map(|&start| reference::body(&plan.file, Mode::Strict, start.into())))
        .collect();
    let [nanoseconds] = clock.race([&mut || labels.iter().all(|label| std::str::from_utf8(black_box(label)).is_ok())]);
    nanoseconds
}
