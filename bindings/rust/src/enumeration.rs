//! What an enumeration writes.

use crate::{Key, Options};

/// The orderings that an enumeration wrote into the output lent to it.
///
/// ```
/// use galthumir::{Arena, Key, Map};
///
/// let mut arena = Arena::default();
/// let [a, b] = [Key::asc(arena.add_column(0, 0)?), Key::desc(arena.add_column(1, 1)?)];
/// let mut map = Map::default();
/// map.insert(&arena, a, Some(a), Some(b))?;
/// map.insert(&arena, b, Some(b), None)?;
/// let mut output = [9; 8];
/// let enumerated = map.construct_prefix_orderings_into(&arena, a, &mut output)?;
/// assert_eq!(enumerated.count(), 1);
/// assert_eq!(enumerated.numbers(), [1, b.expr, 1]);
/// assert_eq!(enumerated.orderings(), [[b]]);
/// assert_eq!(output[3..], [9; 5]);
/// # Ok::<(), galthumir::Refusal>(())
/// ```
#[derive(Clone, Copy, Debug, PartialEq, Eq)]
pub struct Enumerated<'a> {
    count: usize,
    numbers: &'a [u16],
}

impl<'a> Enumerated<'a> {
    /// What the library says it has written: so many orderings, and so many places of the output.
    pub(crate) fn written([count, places]: [usize; 2], output: &'a [u16]) -> Self {
        Enumerated { count, numbers: &output[..places] }
    }

    /// How many orderings there are.
    pub fn count(&self) -> usize {
        self.count
    }

    /// The part of the output that was written: for each ordering its key count, then expression and options of each
    /// key.
    pub fn numbers(&self) -> &'a [u16] {
        self.numbers
    }

    /// The orderings.
    pub fn orderings(&self) -> Vec<Vec<Key>> {
        let mut numbers = self.numbers;
        let mut next = || {
            let (ordering, others) = first_ordering(numbers);
            numbers = others;
            ordering
        };
        (0..self.count).map(|_| next()).collect()
    }
}

/// The first ordering of some, and the numbers after it.
fn first_ordering(numbers: &[u16]) -> (Vec<Key>, &[u16]) {
    let (size, numbers) = numbers.split_first().expect("the library writes as many orderings as it says");
    let (keys, others) = numbers.split_at(2 * usize::from(*size));
    (keys.chunks_exact(2).map(|key| Key { expr: key[0], options: Options::of(key[1].into()) }).collect(), others)
}
