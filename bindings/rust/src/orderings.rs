//! Lists of orderings.

use std::fmt;

use crate::layout::{ORDERINGS_CELLS, ORDERINGS_COUNT, ORDERINGS_LIST, ORDERING_CELLS};
use crate::refusal::{answered, done};
use crate::state::state;
use crate::{lent, raw, Arena, Expr, Key, Options, Refusal};

state! {
    /// The orders that hold, each as a list of sort keys.
    ///
    /// The default is an empty list. A list belongs to the arena whose expressions it holds; each call is lent both.
    ///
    /// Where a call is lent lists of keys, one of more than 65,535 keys is refused with 5 before anything is looked at,
    /// since a list's count has 16 bits.
    ///
    /// ```
    /// use galthumir::{Arena, Key, Orderings};
    ///
    /// let mut arena = Arena::default();
    /// let [a, b] = [Key::asc(arena.add_column(0, 0)?), Key::asc(arena.add_column(1, 1)?)];
    /// let mut orderings = Orderings::default();
    /// orderings.add_orderings(&arena, &[vec![a], vec![a, b]])?;
    /// assert_eq!(orderings.orderings(&arena)?, [[a, b]]);
    /// # Ok::<(), galthumir::Refusal>(())
    /// ```
    Orderings: [u16; ORDERINGS_CELLS]
}

impl Default for Orderings {
    fn default() -> Self {
        Self::from_cells(&[0; ORDERINGS_CELLS])
    }
}

impl Orderings {
    /// The reduced list of orderings that are built from lists of keys, as in
    /// [`add_orderings`](Orderings::add_orderings). Refusals: 12, 11, 1, 5.
    ///
    /// ```
    /// use galthumir::{Arena, Key, Orderings};
    ///
    /// let mut arena = Arena::default();
    /// let [a, b] = [Key::asc(arena.add_column(0, 0)?), Key::asc(arena.add_column(1, 1)?)];
    /// let c = Key::asc(arena.add_column(2, 2)?);
    /// let orderings = Orderings::new(&arena, &[[a, b], [b, c]])?;
    /// assert_eq!(orderings.orderings(&arena)?, [vec![a], vec![b, c]]);
    /// # Ok::<(), galthumir::Refusal>(())
    /// ```
    pub fn new<K: AsRef<[Key]>>(arena: &Arena, orderings: &[K]) -> Result<Orderings, Refusal> {
        let numbers = lent::orderings(orderings)?;
        Orderings::made(|made| {
            // SAFETY: the pointer and the count are those of one slice.
            unsafe { raw::galthumir_new_orderings(&arena.cells, numbers.as_ptr(), numbers.len(), made) }
        })
    }

    /// The list that a call makes.
    fn made(call: impl FnOnce(&mut [u16; ORDERINGS_CELLS]) -> u32) -> Result<Orderings, Refusal> {
        Ok(Orderings::from_cells(&answered(call)?))
    }

    /// Checks the list as every call does that is lent it. Refusals: 11, 1.
    ///
    /// ```
    /// use galthumir::{layout, Arena, Orderings, Refusal};
    ///
    /// let arena = Arena::default();
    /// let mut cells = *Orderings::default().cells();
    /// assert_eq!(Orderings::from_cells(&cells).check(&arena), Ok(()));
    /// cells[layout::ORDERINGS_COUNT] = 1;
    /// assert_eq!(Orderings::from_cells(&cells).check(&arena), Err(Refusal::State));
    /// ```
    pub fn check(&self, arena: &Arena) -> Result<(), Refusal> {
        done(raw::galthumir_check_orderings(&arena.cells, &self.cells))
    }

    /// Reads all orderings. Refusals: 11, 1.
    ///
    /// ```
    /// use galthumir::{Arena, Key, Orderings};
    ///
    /// let mut arena = Arena::default();
    /// let a = arena.add_column(0, 0)?;
    /// let both = Orderings::new(&arena, &[[Key::asc(a)], [Key::desc(a)]])?;
    /// assert_eq!(both.orderings(&arena)?, [[Key::asc(a)], [Key::desc(a)]]);
    /// # Ok::<(), galthumir::Refusal>(())
    /// ```
    pub fn orderings(&self, arena: &Arena) -> Result<Vec<Vec<Key>>, Refusal> {
        self.check(arena)?;
        Ok(self.rows().collect())
    }

    /// Adds orderings that are built from lists of keys, and reduces. A key whose expression is already there is dropped
    /// from its list, an empty list vanishes. Refusals: 12, 11, 1, 5.
    ///
    /// ```
    /// use galthumir::{Arena, Key, Orderings};
    ///
    /// let mut arena = Arena::default();
    /// let a = arena.add_column(0, 0)?;
    /// let b = arena.add_column(1, 1)?;
    /// let mut orderings = Orderings::default();
    /// orderings.add_orderings(&arena, &[[Key::asc(a), Key::asc(b), Key::desc(a)]])?;
    /// assert_eq!(orderings.orderings(&arena)?, [[Key::asc(a), Key::asc(b)]]);
    /// # Ok::<(), galthumir::Refusal>(())
    /// ```
    pub fn add_orderings<K: AsRef<[Key]>>(&mut self, arena: &Arena, orderings: &[K]) -> Result<(), Refusal> {
        let numbers = lent::orderings(orderings)?;
        // SAFETY: the pointer and the count are those of one slice.
        done(unsafe { raw::galthumir_add_orderings(&arena.cells, &mut self.cells, numbers.as_ptr(), numbers.len()) })
    }

    /// Extends the list by orderings, and reduces. An empty ordering, or one that repeats an expression, is refused
    /// with 11. Refusals: 12, 11, 1, 5.
    ///
    /// ```
    /// use galthumir::{Arena, Key, Orderings, Refusal};
    ///
    /// let mut arena = Arena::default();
    /// let a = arena.add_column(0, 0)?;
    /// let mut orderings = Orderings::default();
    /// orderings.extend(&arena, &[[Key::asc(a)]])?;
    /// assert_eq!(orderings.orderings(&arena)?, [[Key::asc(a)]]);
    /// assert_eq!(orderings.extend(&arena, &[[Key::asc(a), Key::desc(a)]]), Err(Refusal::State));
    /// # Ok::<(), Refusal>(())
    /// ```
    pub fn extend<K: AsRef<[Key]>>(&mut self, arena: &Arena, orderings: &[K]) -> Result<(), Refusal> {
        let numbers = lent::orderings(orderings)?;
        // SAFETY: the pointer and the count are those of one slice.
        done(unsafe {
            raw::galthumir_extend_orderings(&arena.cells, &mut self.cells, numbers.as_ptr(), numbers.len())
        })
    }

    /// Empties the list. Refusals: 11, 1.
    ///
    /// ```
    /// use galthumir::{Arena, Key, Orderings};
    ///
    /// let mut arena = Arena::default();
    /// let a = arena.add_column(0, 0)?;
    /// let mut orderings = Orderings::new(&arena, &[[Key::asc(a)]])?;
    /// orderings.clear(&arena)?;
    /// assert_eq!(orderings, Orderings::default());
    /// # Ok::<(), galthumir::Refusal>(())
    /// ```
    pub fn clear(&mut self, arena: &Arena) -> Result<(), Refusal> {
        done(raw::galthumir_clear_orderings(&arena.cells, &mut self.cells))
    }

    /// The options of the first ordering that an expression leads, if it leads one. Refusals: 11, 1.
    ///
    /// ```
    /// use galthumir::{Arena, Key, Orderings};
    ///
    /// let mut arena = Arena::default();
    /// let [a, b] = [arena.add_column(0, 0)?, arena.add_column(1, 1)?];
    /// let orderings = Orderings::new(&arena, &[[Key::desc(a), Key::asc(b)]])?;
    /// assert_eq!(orderings.get_options(&arena, a)?, Some(Key::desc(a).options));
    /// assert_eq!(orderings.get_options(&arena, b)?, None);
    /// # Ok::<(), galthumir::Refusal>(())
    /// ```
    pub fn get_options(&self, arena: &Arena, expr: Expr) -> Result<Option<Options>, Refusal> {
        let [there, options] =
            answered(|answer| raw::galthumir_get_options(&arena.cells, &self.cells, expr.into(), answer))?;
        Ok((there == 1).then(|| Options::of(options)))
    }

    /// Whether an expression leads orderings with opposite options. Refusals: 11, 1.
    ///
    /// ```
    /// use galthumir::{Arena, Key, Options, Orderings};
    ///
    /// let mut arena = Arena::default();
    /// let expr = arena.add_column(0, 0)?;
    /// let opposite = Key { expr, options: Options { descending: true, nulls_first: true } };
    /// let orderings = Orderings::new(&arena, &[[Key::asc(expr)], [opposite]])?;
    /// assert!(orderings.is_expr_partial_const(&arena, expr)?);
    /// # Ok::<(), galthumir::Refusal>(())
    /// ```
    pub fn is_expr_partial_const(&self, arena: &Arena, expr: Expr) -> Result<bool, Refusal> {
        let [answer] =
            answered(|answer| raw::galthumir_is_expr_partial_const(&arena.cells, &self.cells, expr.into(), answer))?;
        Ok(answer == 1)
    }

    /// The ordering of all orderings, one after the other; none where the list is empty. Refusals: 11, 1, 5.
    ///
    /// ```
    /// use galthumir::{Arena, Key, Orderings};
    ///
    /// let mut arena = Arena::default();
    /// let [a, b] = [Key::asc(arena.add_column(0, 0)?), Key::asc(arena.add_column(1, 1)?)];
    /// let orderings = Orderings::new(&arena, &[[b], [a]])?;
    /// assert_eq!(orderings.output_ordering(&arena)?, Some(vec![b, a]));
    /// assert_eq!(Orderings::default().output_ordering(&arena)?, None);
    /// # Ok::<(), galthumir::Refusal>(())
    /// ```
    pub fn output_ordering(&self, arena: &Arena) -> Result<Option<Vec<Key>>, Refusal> {
        let ordering = answered(|answer| raw::galthumir_output_ordering(&arena.cells, &self.cells, answer))?;
        Ok(Some(Key::of_ordering(&ordering)).filter(|keys| !keys.is_empty()))
    }

    /// The list in which each ordering is extended by each of another list; an empty other list keeps all.
    /// Refusals: 11, 1, 5.
    ///
    /// ```
    /// use galthumir::{Arena, Key, Orderings};
    ///
    /// let mut arena = Arena::default();
    /// let [a, b] = [Key::asc(arena.add_column(0, 0)?), Key::asc(arena.add_column(1, 1)?)];
    /// let [c, d] = [Key::asc(arena.add_column(2, 2)?), Key::asc(arena.add_column(3, 3)?)];
    /// let [left, right] = [Orderings::new(&arena, &[[a], [b]])?, Orderings::new(&arena, &[[c], [d]])?];
    /// let joined = left.join_suffix(&arena, &right)?;
    /// assert_eq!(joined.orderings(&arena)?, [[a, c], [b, c], [a, d], [b, d]]);
    /// # Ok::<(), galthumir::Refusal>(())
    /// ```
    pub fn join_suffix(&self, arena: &Arena, other: &Orderings) -> Result<Orderings, Refusal> {
        Orderings::made(|made| raw::galthumir_join_suffix(&arena.cells, &self.cells, &other.cells, made))
    }

    /// Moves the columns of every key, names kept, and adds the missing nodes to the arena. Refusals: 11, 1, 10, 3.
    ///
    /// ```
    /// use galthumir::{Arena, Key, Orderings};
    ///
    /// let mut arena = Arena::default();
    /// let a = arena.add_column(0, 0)?;
    /// let mut orderings = Orderings::new(&arena, &[[Key::desc(a)]])?;
    /// orderings.add_offset(&mut arena, 5)?;
    /// let moved = arena.add_column(0, 5)?;
    /// assert_eq!(orderings.orderings(&arena)?, [[Key::desc(moved)]]);
    /// # Ok::<(), galthumir::Refusal>(())
    /// ```
    pub fn add_offset(&mut self, arena: &mut Arena, offset: i64) -> Result<(), Refusal> {
        done(raw::galthumir_add_offset(&mut arena.cells, &mut self.cells, offset))
    }

    /// The keys of each ordering.
    fn rows(&self) -> impl Iterator<Item = Vec<Key>> + '_ {
        let orderings = self.cells[ORDERINGS_LIST..].chunks_exact(ORDERING_CELLS);
        orderings.take(self.cells[ORDERINGS_COUNT].into()).map(Key::of_ordering)
    }
}

/// Shows each ordering.
impl fmt::Debug for Orderings {
    fn fmt(&self, f: &mut fmt::Formatter<'_>) -> fmt::Result {
        f.write_str("Orderings ")?;
        f.debug_list().entries(self.rows()).finish()
    }
}
