//! Memory that is lent to a call, with guards around it.

use std::fmt::Debug;

/// The elements of a guard.
const GUARD: usize = 8;

/// A slice of any length with guards before and after it, which no call may touch.
#[derive(Debug, PartialEq)]
pub struct Guarded<T> {
    guard: T,
    /// Guard, slice, guard.
    elements: Vec<T>,
}

impl<T: Copy + PartialEq + Debug> Guarded<T> {
    /// No elements, between guards of this element.
    pub fn new(guard: T) -> Self {
        Self { guard, elements: vec![guard; 2 * GUARD] }
    }

    /// Makes it `length` times this element.
    pub fn fill(&mut self, length: usize, element: T) {
        self.elements.truncate(GUARD);
        self.elements.resize(GUARD + length, element);
        self.elements.resize(GUARD + length + GUARD, self.guard);
    }

    /// Makes it a copy of a slice.
    pub fn copy_from(&mut self, slice: &[T]) {
        self.elements.clear();
        self.elements.resize(GUARD, self.guard);
        self.elements.extend_from_slice(slice);
        self.elements.resize(GUARD + slice.len() + GUARD, self.guard);
    }

    /// Makes it shorter, or longer by this element.
    pub fn resize(&mut self, length: usize, element: T) {
        let kept = self.slice().len().min(length);
        self.elements.truncate(GUARD + kept);
        self.elements.resize(GUARD + length, element);
        self.elements.resize(GUARD + length + GUARD, self.guard);
    }

    /// Puts another element into the guards.
    pub fn guard_with(&mut self, guard: T) {
        self.guard = guard;
        let after = self.elements.len() - GUARD;
        self.elements[..GUARD].fill(guard);
        self.elements[after..].fill(guard);
    }

    /// The slice between the guards.
    pub fn slice(&self) -> &[T] {
        &self.elements[GUARD..self.elements.len() - GUARD]
    }

    /// The slice between the guards.
    pub fn slice_mut(&mut self) -> &mut [T] {
        let after = self.elements.len() - GUARD;
        &mut self.elements[GUARD..after]
    }

    /// Whether no guard was touched.
    pub fn is_guarded(&self) -> bool {
        // Without a branch for each element, since this is asked more often than anything.
        let is_guard = |elements: &[T; GUARD]| elements.iter().fold(true, |is, element| is & (*element == self.guard));
        self.elements.first_chunk().is_some_and(is_guard) && self.elements.last_chunk().is_some_and(is_guard)
    }
}

#[cfg(test)]
mod tests {
    use super::*;

    #[test]
    fn a_touched_guard_is_seen() {
        for length in [0, 1, 5] {
            let mut memory = Guarded::new(7_u8);
            memory.fill(length, 1);
            memory.slice_mut().fill(2);
            assert!(memory.is_guarded());
            for place in [0, GUARD - 1, GUARD + length, 2 * GUARD + length - 1] {
                memory.elements[place] ^= 1;
                assert!(!memory.is_guarded(), "{place} of {length}");
                memory.elements[place] ^= 1;
            }
        }
    }

    #[test]
    fn lengths_and_elements() {
        let mut memory = Guarded::new(7_u32);
        memory.copy_from(&[1, 2, 3]);
        memory.resize(5, 9);
        assert_eq!(memory.slice(), [1, 2, 3, 9, 9]);
        memory.resize(2, 9);
        memory.guard_with(8);
        assert_eq!(memory.slice(), [1, 2]);
        assert!(memory.is_guarded());
    }
}
