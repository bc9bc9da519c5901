//! Prune against a plain restatement of its words, on made-up files.

use reference::model::Model;
use reference::{check, prune, Call, ErrorKind, Mode, Pruned, Refusal};

use crate::random::Random;
use crate::rewrite::{calls_of, numbered};

const JUNK_BYTE: u8 = 0xaa;
const JUNK_WORD: u32 = 0xaaaa_aaaa;

/// A value as the calls that write it, with each target as the number of a value.
type Value<'f> = Vec<Call<'f>>;

/// The values of a well-formed file, and the number of the entry.
fn values(file: &[u8]) -> (Vec<Value<'_>>, usize) {
    let (calls, _) = numbered(file, Mode::Strict);
    let mut values: Vec<Value<'_>> = Vec::new();
    let mut items = 0;
    for call in calls {
        match call {
            Call::Close(entry) => return (values, entry as usize),
            item if items > 0 => {
                values.last_mut().expect("what holds the item").push(item);
                items -= 1;
            }
            call => {
                items = call.items();
                values.push(vec![call]);
            }
        }
    }
    unreachable!("the last call closes the file");
}

fn target(call: &Call<'_>) -> Option<usize> {
    match *call {
        Call::Reference(number) | Call::Pointer(number) => Some(number as usize),
        _ => None,
    }
}

/// The numbers of the values that some descent from the entry reaches, in rising order: as many rounds as it takes.
fn reached(values: &[Value<'_>], entry: usize) -> Vec<usize> {
    let mut reached = vec![entry];
    loop {
        let more = reached.iter().flat_map(|number| values[*number].iter().filter_map(target));
        let mut more: Vec<usize> = more.chain(reached.iter().copied()).collect();
        more.sort_unstable();
        more.dedup();
        if more == reached {
            return reached;
        }
        reached = more;
    }
}

/// The values that are to be in the new file, and the number of its entry.
fn expected<'f>(values: &[Value<'f>], entry: usize) -> (Vec<Value<'f>>, usize) {
    let kept = reached(values, entry);
    let new_number = |old: u64| kept.iter().position(|number| *number as u64 == old).expect("it is reached") as u64;
    let moved = |call: &Call<'f>| match *call {
        Call::Reference(number) => Call::Reference(new_number(number)),
        Call::Pointer(number) => Call::Pointer(new_number(number)),
        call => call,
    };
    let new = kept.iter().map(|number| values[*number].iter().map(moved).collect()).collect();
    (new, new_number(entry as u64) as usize)
}

/// The answer, and what is left of junk of these lengths.
fn pruned(file: &[u8], room: usize, words: [usize; 2]) -> (Result<Pruned, Refusal>, Vec<u8>, [Vec<u32>; 2]) {
    let mut out = vec![JUNK_BYTE; room];
    let [mut old, mut new] = words.map(|words| vec![JUNK_WORD; words]);
    let answer = prune(file, &mut out, &mut old, &mut new);
    (answer, out, [old, new])
}

/// The table that check leaves, of this many words.
fn table(file: &[u8], words: usize) -> Vec<u32> {
    let mut starts = vec![JUNK_WORD; words];
    check(file, Mode::Strict, &mut starts).expect("a well-formed file");
    starts
}

/// Prunes a well-formed file with enough memory, and compares it with what is to be kept. Returns the new file.
fn compare(random: &mut Random, file: &[u8]) -> Vec<u8> {
    let (old_values, entry) = values(file);
    let [room, old_words, new_words] =
        [file.len(), old_values.len(), old_values.len()].map(|least| least + random.below(9) as usize);
    let (answer, mut out, tables) = pruned(file, room, [old_words, new_words]);
    let Pruned { length, count, entry: new_entry } = answer.expect("memory enough");
    assert!(length <= file.len());
    assert!(out.split_off(length).iter().all(|byte| *byte == JUNK_BYTE));
    let new = out;
    assert_eq!(tables, [table(file, old_words), table(&new, new_words)]);
    let (new_values, number) = values(&new);
    assert_eq!((count, new_entry as u32), (new_values.len(), tables[1][number]));
    assert_eq!((new_values, number), expected(&old_values, entry));
    new
}

/// Prunes into less memory: the first call of the new file that the model refuses decides, and all is zero.
fn compare_short(file: &[u8], new: &[u8], room: usize, words: usize) -> Option<ErrorKind> {
    let mut model = Model::new(room, words);
    let refusal = calls_of(new, Mode::Strict).into_iter().find_map(|call| model.call(call).err());
    let (answer, out, tables) = pruned(file, room, [file.len(), words]);
    assert_eq!(answer.err(), refusal.map(Refusal::Writer), "{room} bytes and {words} words: {file:x?}");
    if refusal.is_some() {
        assert!(out.iter().all(|byte| *byte == 0) && tables.concat().iter().all(|word| *word == 0));
    }
    refusal
}

#[test]
fn written_files() {
    let mut random = Random::new(20);
    let mut shorter = 0;
    for _ in 0..3000 {
        let longest = 8 + random.below(600) as usize;
        let file = random.file(longest);
        let new = compare(&mut random, &file);
        shorter += u32::from(new.len() < file.len());
        assert_eq!(compare(&mut random, &new), new, "pruned again");
    }
    assert!((500..3000).contains(&shorter), "{shorter} files");
}

#[test]
fn memory_of_every_length() {
    let mut random = Random::new(21);
    let mut refused = Vec::new();
    for _ in 0..300 {
        let longest = 8 + random.below(60) as usize;
        let file = random.file(longest);
        let new = compare(&mut random, &file);
        let count = values(&new).0.len();
        for room in 0..=new.len() + 1 {
            for words in 0..=count + 1 {
                refused.extend(compare_short(&file, &new, room, words));
            }
        }
    }
    for kind in [ErrorKind::Full, ErrorKind::NoRoom] {
        assert!(refused.iter().filter(|refused| **refused == kind).count() > 1000, "{kind}");
    }
}

/// Damaged files, files with padded numbers, and any bytes: as check refuses them.
#[test]
fn other_files() {
    let mut random = Random::new(22);
    let mut accepted = 0;
    for turn in 0..20_000 {
        let longest = 8 + random.below(60) as usize;
        let file = random.file(longest);
        let file = match turn % 3 {
            0 => random.spoilt(&file),
            1 => random.padded(&file),
            _ => random.bytes(12),
        };
        let old_words = random.below(file.len() as u64 + 2) as usize;
        match check(&file, Mode::Strict, &mut vec![0; old_words]) {
            Ok(_) => {
                compare(&mut random, &file);
                accepted += 1;
            }
            Err(error) => {
                let [room, words] = [40, 20].map(|bound| random.below(bound) as usize);
                let (answer, out, tables) = pruned(&file, room, [old_words, words]);
                assert_eq!(answer, Err(Refusal::Check(error)));
                assert!(out.iter().all(|byte| *byte == 0) && tables.concat().iter().all(|word| *word == 0));
            }
        }
    }
    assert!(accepted > 1000, "{accepted} files");
}
