//! The section `prune`: files with much, little and nothing dead, and other files, with memory of many lengths (W-204).

use crate::compare::Comparer;
use crate::difference::{self, Difference};
use crate::make::{self, Padding};
use crate::product::Product;
use crate::random::Random;
use crate::sections::{junk, small_or_not, Case};

/// A file of which more or less is dead, most often; or any other.
pub fn prune<P: Product>(comparer: &mut Comparer<P>, mut case: Case) -> Result<(), Difference> {
    let random = &mut case.random;
    let file = made_up(random);
    let Some(new) = lengths(comparer, random, &file)? else { return Ok(()) };
    // The new file, pruned again.
    match lengths(comparer, random, &new)? {
        Some(again) if again == new => Ok(()),
        again => Err(Difference {
            question: format!("prune of the file of {}, which was pruned before", difference::hex(&new)),
            product: again.map_or("refused".into(), |again| difference::hex(&again)),
            second: "the same file".into(),
        }),
    }
}

fn made_up(random: &mut Random) -> Vec<u8> {
    match random.below(16) {
        0 => small_or_not(random, make::written),
        1 => {
            let odd = random.pick(&[0, 0, 60, 20]);
            small_or_not(random, |random, length| make::built(random, length, odd, Padding::None))
        }
        2 => {
            let file = small_or_not(random, rebuilt);
            make::damaged(random, &file)
        }
        3 => {
            let padding = random.pick(&[Padding::Five, Padding::Any]);
            let file = small_or_not(random, rebuilt);
            make::padded(random, &file, padding)
        }
        4 => {
            let length = random.index(12);
            junk(random, length)
        }
        _ => small_or_not(random, rebuilt),
    }
}

/// A file whose values are reached from its entry with one of several chances.
fn rebuilt(random: &mut Random, length: usize) -> Vec<u8> {
    let live = random.pick(&[16, 16, 15, 12, 8, 4, 1, 0]);
    make::rebuilt(random, length, live)
}

/// Prune of a file of this length, once: most often with enough memory, and else with less of some.
pub fn once<P: Product>(comparer: &mut Comparer<P>, random: &mut Random, length: usize) -> Result<(), Difference> {
    let mut near = |enough: usize| match random.below(8) {
        0 => random.index(enough + 1),
        1 => random.index(9),
        _ => enough + random.index(3),
    };
    let [room, old_words, new_words] = [length, length, length].map(&mut near);
    comparer.prune(&junk(random, room), [old_words, new_words])?;
    Ok(())
}

/// Prune with enough memory, and then with memory of other lengths: of every length, if the new file is small, and else of some.
/// Returns the new file, if there is one.
fn lengths<P: Product>(comparer: &mut Comparer<P>, random: &mut Random, file: &[u8]) -> Result<Option<Vec<u8>>, Difference> {
    let guard = random.next() as u8;
    let mut new = None;
    comparer.of_file(file, guard, None, |comparer| {
        let most = file.len() + random.index(9);
        let answer = comparer.prune(&junk(random, most), [most, most])?;
        // A file that check refuses has no shorter one.
        let [length, count] = answer.unwrap_or([most, most]);
        new = answer.map(|_| comparer.output()[..length].to_vec());
        for _ in 0..4 {
            let [room, old_words, new_words] = [length, file.len(), count].map(|enough| random.index(enough + 2));
            comparer.prune(&junk(random, room), [old_words, new_words])?;
        }
        if answer.is_none() {
            return Ok(());
        }
        for room in all_or_some(random, length) {
            let few = random.index(count);
            let words = random.pick(&[count, count, count + 1, few]);
            comparer.prune(&junk(random, room), [most, words])?;
        }
        for words in all_or_some(random, count) {
            let little = random.index(length);
            let room = random.pick(&[length, length, length + 1, little]);
            comparer.prune(&junk(random, room), [most, words])?;
        }
        Ok(())
    })?;
    Ok(new)
}

/// The numbers up to one more than is enough; if these are many, some of them.
fn all_or_some(random: &mut Random, enough: usize) -> Vec<usize> {
    if enough <= 40 {
        (0..=enough + 1).collect()
    } else {
        vec![0, 1, random.index(enough), random.index(enough), enough - 1, enough, enough + 1]
    }
}

#[cfg(test)]
mod tests {
    use super::*;
    use reference::{Mode, Pruned, Refusal};

    /// What prune reports of a file, with enough memory.
    fn pruned(file: &[u8]) -> Result<Pruned, Refusal> {
        let mut tables = [(); 2].map(|()| vec![0; file.len()]);
        let [old, new] = &mut tables;
        reference::prune(file, &mut vec![0; file.len()], old, new)
    }

    fn count(file: &[u8]) -> usize {
        reference::check(file, Mode::Strict, &mut vec![0; file.len()]).expect("a well-formed file").count
    }

    #[test]
    fn as_much_is_dead_as_is_wanted() {
        for (live, least, most) in [(16, 0.99, 1.0), (8, 0.3, 0.8), (1, 0.02, 0.3), (0, 0.0, 0.02)] {
            let [mut old, mut new] = [0, 0];
            for case in 0..60 {
                let mut random = Random::new(1, "prune", case);
                let file = make::rebuilt(&mut random, 3000, live);
                old += count(&file);
                new += pruned(&file).expect("a well-formed file").count;
            }
            let share = new as f64 / old as f64;
            assert!((least..=most).contains(&share), "{live} of 16 are to live, and {share} do");
        }
    }
}
