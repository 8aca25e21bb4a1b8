//! Groups of equality classes.

use std::fmt;

use crate::arena::expr_of;
use crate::layout::{
    GROUP_CELLS, GROUP_COUNT, GROUP_FLAVOURS, GROUP_LIMIT, GROUP_MEMBERS, GROUP_SIZES, GROUP_VALUES, MAX_CLASSES,
    NONE,
};
use crate::refusal::{answered, done};
use crate::state::state;
use crate::{lent, raw, Arena, Class, ClassAt, Constant, Expr, JoinKind, Key, Mapping, Options, Refusal};

state! {
    /// Classes of expressions that are equal.
    ///
    /// A group belongs to the arena whose expressions it holds; each call is lent both.
    ///
    /// ```
    /// use galthumir::{Arena, Class, Group};
    ///
    /// let mut arena = Arena::default();
    /// let x = arena.add_column(0, 0)?;
    /// let y = arena.add_column(1, 1)?;
    /// let mut group = Group::open(256)?;
    /// group.add_equal_conditions(&arena, x, y)?;
    /// assert_eq!(group.classes(&arena)?, [Class::new(&[x, y])]);
    /// # Ok::<(), galthumir::Refusal>(())
    /// ```
    Group: [u32; GROUP_CELLS]
}

impl Group {
    /// An empty group with a member limit of 1 to 256. Refusal: 12.
    ///
    /// ```
    /// use galthumir::{Group, Refusal};
    ///
    /// assert!(Group::open(256).is_ok());
    /// assert_eq!(Group::open(257), Err(Refusal::Number));
    /// ```
    pub fn open(limit: u32) -> Result<Group, Refusal> {
        Group::made(|made| raw::galthumir_open_group(limit, made))
    }

    /// A group of limit 256 from a list of classes. Those that overlap become one; those that are empty, or have one
    /// member and no constant, are dropped. Refusals: 12, 11, 1, 4.
    ///
    /// ```
    /// use galthumir::{Arena, Class, Group};
    ///
    /// let mut arena = Arena::default();
    /// let [a, b, c] = [arena.add_column(0, 0)?, arena.add_column(1, 1)?, arena.add_column(2, 2)?];
    /// let group = Group::new(&arena, &[Class::new(&[a, b]), Class::new(&[b, c]), Class::new(&[a])])?;
    /// assert_eq!(group.classes(&arena)?, [Class::new(&[a, b, c])]);
    /// # Ok::<(), galthumir::Refusal>(())
    /// ```
    pub fn new(arena: &Arena, classes: &[Class]) -> Result<Group, Refusal> {
        let numbers = lent::classes(classes)?;
        Group::made(|made| {
            // SAFETY: the pointer and the count are those of one slice.
            unsafe { raw::galthumir_new_group(&arena.cells, numbers.as_ptr(), numbers.len(), made) }
        })
    }

    /// The group that a call makes.
    pub(crate) fn made(call: impl FnOnce(&mut [u32; GROUP_CELLS]) -> u32) -> Result<Group, Refusal> {
        Ok(Group::from_cells(&answered(call)?))
    }

    /// Checks the group as every call does that is lent it. Refusals: 12, 11, 1.
    ///
    /// ```
    /// use galthumir::{layout, Arena, Group, Refusal};
    ///
    /// let arena = Arena::default();
    /// assert_eq!(Group::open(256)?.check(&arena), Ok(()));
    /// let zeros = Group::from_cells(&[0; layout::GROUP_CELLS]);
    /// assert_eq!(zeros.check(&arena), Err(Refusal::Number));
    /// # Ok::<(), Refusal>(())
    /// ```
    pub fn check(&self, arena: &Arena) -> Result<(), Refusal> {
        done(raw::galthumir_check_group(&arena.cells, &self.cells))
    }

    /// Reads all classes. Refusals: 12, 11, 1.
    ///
    /// ```
    /// use galthumir::{Arena, Class, Constant, Group};
    ///
    /// let mut arena = Arena::default();
    /// let x = arena.add_column(0, 0)?;
    /// let mut group = Group::open(256)?;
    /// group.add_constant(&arena, x, Constant::Known(7))?;
    /// assert_eq!(group.classes(&arena)?, [Class { constant: Constant::Known(7), members: vec![x] }]);
    /// # Ok::<(), galthumir::Refusal>(())
    /// ```
    pub fn classes(&self, arena: &Arena) -> Result<Vec<Class>, Refusal> {
        self.check(arena)?;
        Ok(self.rows().map(|row| row.said().expect("a checked group says classes")).collect())
    }

    /// The class of an expression, if it is in one. Refusals: 12, 11, 1.
    ///
    /// ```
    /// use galthumir::{Arena, ClassAt, Constant, Group};
    ///
    /// let mut arena = Arena::default();
    /// let x = arena.add_column(0, 0)?;
    /// let y = arena.add_column(1, 1)?;
    /// let mut group = Group::open(256)?;
    /// assert_eq!(group.get_equivalence_class(&arena, y)?, None);
    /// group.add_equal_conditions(&arena, x, y)?;
    /// let class = ClassAt { place: 0, size: 2, first: x, constant: Constant::None };
    /// assert_eq!(group.get_equivalence_class(&arena, y)?, Some(class));
    /// # Ok::<(), galthumir::Refusal>(())
    /// ```
    pub fn get_equivalence_class(&self, arena: &Arena, expr: Expr) -> Result<Option<ClassAt>, Refusal> {
        let [there, place, size, first, flavour, value] =
            answered(|answer| raw::galthumir_get_equivalence_class(&arena.cells, &self.cells, expr.into(), answer))?;
        let class = || ClassAt {
            place,
            size,
            first: expr_of(first),
            constant: Constant::answered(flavour as u32, value as u32),
        };
        Ok((there == 1).then(class))
    }

    /// Two expressions are equal. Answers whether a new class was made. Refusals: 12, 11, 1, 4.
    ///
    /// ```
    /// use galthumir::{Arena, Class, Group};
    ///
    /// let mut arena = Arena::default();
    /// let x = arena.add_column(0, 0)?;
    /// let y = arena.add_column(1, 1)?;
    /// let mut group = Group::open(256)?;
    /// assert!(group.add_equal_conditions(&arena, x, x)?);
    /// assert!(!group.add_equal_conditions(&arena, x, y)?);
    /// assert_eq!(group.classes(&arena)?, [Class::new(&[x, y])]);
    /// # Ok::<(), galthumir::Refusal>(())
    /// ```
    pub fn add_equal_conditions(&mut self, arena: &Arena, left: Expr, right: Expr) -> Result<bool, Refusal> {
        let [new] = answered(|answer| {
            raw::galthumir_add_equal_conditions(&arena.cells, &mut self.cells, left.into(), right.into(), answer)
        })?;
        Ok(new == 1)
    }

    /// An expression is constant. A literal's constant is its own value. [`Constant::None`] is refused with 12.
    /// Refusals: 12, 11, 1, 4.
    ///
    /// ```
    /// use galthumir::{Arena, Class, Constant, Group};
    ///
    /// let mut arena = Arena::default();
    /// let x = arena.add_column(0, 0)?;
    /// let y = arena.add_column(1, 1)?;
    /// let mut group = Group::open(256)?;
    /// group.add_constant(&arena, x, Constant::Unknown)?;
    /// group.add_constant(&arena, y, Constant::Unknown)?;
    /// assert_eq!(group.classes(&arena)?, [Class { constant: Constant::Unknown, members: vec![x, y] }]);
    /// # Ok::<(), galthumir::Refusal>(())
    /// ```
    pub fn add_constant(&mut self, arena: &Arena, expr: Expr, constant: Constant) -> Result<(), Refusal> {
        let (flavour, value) = constant.numbers();
        // Here the library counts flavours from heterogeneous on. None has no place there and becomes a number outside.
        let flavour = flavour.wrapping_sub(1);
        done(raw::galthumir_add_constant(&arena.cells, &mut self.cells, expr.into(), flavour, value))
    }

    /// Drops the constants that may differ from partition to partition. Answers whether anything changed.
    /// Refusals: 12, 11, 1.
    ///
    /// ```
    /// use galthumir::{Arena, Constant, Group};
    ///
    /// let mut arena = Arena::default();
    /// let x = arena.add_column(0, 0)?;
    /// let mut group = Group::open(256)?;
    /// group.add_constant(&arena, x, Constant::Heterogeneous)?;
    /// assert!(group.clear_per_partition_constants(&arena)?);
    /// assert_eq!(group.classes(&arena)?, []);
    /// # Ok::<(), galthumir::Refusal>(())
    /// ```
    pub fn clear_per_partition_constants(&mut self, arena: &Arena) -> Result<bool, Refusal> {
        let [changed] =
            answered(|answer| raw::galthumir_clear_per_partition_constants(&arena.cells, &mut self.cells, answer))?;
        Ok(changed == 1)
    }

    /// The equality question. Labels of operations are not compared, as in the Rust crate. Refusals: 12, 11, 1.
    ///
    /// ```
    /// use galthumir::{Arena, Group};
    ///
    /// let mut arena = Arena::default();
    /// let [a, b] = [arena.add_column(0, 0)?, arena.add_column(1, 1)?];
    /// let [one, two] = [arena.add_operation(1, &[a, b])?, arena.add_operation(2, &[a, b])?];
    /// let group = Group::open(256)?;
    /// assert!(group.exprs_equal(&arena, one, two)?);
    /// assert!(!group.exprs_equal(&arena, a, b)?);
    /// # Ok::<(), galthumir::Refusal>(())
    /// ```
    pub fn exprs_equal(&self, arena: &Arena, left: Expr, right: Expr) -> Result<bool, Refusal> {
        let [equal] = answered(|answer| {
            raw::galthumir_exprs_equal(&arena.cells, &self.cells, left.into(), right.into(), answer)
        })?;
        Ok(equal == 1)
    }

    /// The constant question. Refusals: 12, 11, 1.
    ///
    /// ```
    /// use galthumir::{Arena, Constant, Group};
    ///
    /// let mut arena = Arena::default();
    /// let five = arena.add_literal(5)?;
    /// let f_of_five = arena.add_operation(1, &[five])?;
    /// let group = Group::open(256)?;
    /// assert_eq!(group.is_expr_constant(&arena, five)?, Constant::Known(5));
    /// assert_eq!(group.is_expr_constant(&arena, f_of_five)?, Constant::Heterogeneous);
    /// # Ok::<(), galthumir::Refusal>(())
    /// ```
    pub fn is_expr_constant(&self, arena: &Arena, expr: Expr) -> Result<Constant, Refusal> {
        let [flavour, value] =
            answered(|answer| raw::galthumir_is_expr_constant(&arena.cells, &self.cells, expr.into(), answer))?;
        Ok(Constant::answered(flavour, value))
    }

    /// The normal form of an expression; its missing nodes are added to the arena. Refusals: 12, 11, 1, 3.
    ///
    /// ```
    /// use galthumir::{Arena, Class, Group};
    ///
    /// let mut arena = Arena::default();
    /// let [a, b, c] = [arena.add_column(0, 0)?, arena.add_column(1, 1)?, arena.add_column(2, 2)?];
    /// let f_of_b = arena.add_operation(1, &[b])?;
    /// let group = Group::new(&arena, &[Class::new(&[a, b]), Class::new(&[f_of_b, c])])?;
    /// assert_eq!(group.normalize_expr(&mut arena, c)?, f_of_b);
    /// let normal = group.normalize_expr(&mut arena, f_of_b)?;
    /// assert_eq!(normal, arena.add_operation(1, &[a])?);
    /// # Ok::<(), galthumir::Refusal>(())
    /// ```
    pub fn normalize_expr(&self, arena: &mut Arena, expr: Expr) -> Result<Expr, Refusal> {
        let [number] =
            answered(|answer| raw::galthumir_normalize_expr(&mut arena.cells, &self.cells, expr.into(), answer))?;
        Ok(expr_of(number))
    }

    /// The normal form of a sort key; its missing nodes are added to the arena. Refusals: 12, 11, 1, 3.
    ///
    /// ```
    /// use galthumir::{Arena, Class, Group, Key};
    ///
    /// let mut arena = Arena::default();
    /// let [a, b] = [arena.add_column(0, 0)?, arena.add_column(1, 1)?];
    /// let group = Group::new(&arena, &[Class::new(&[a, b])])?;
    /// assert_eq!(group.normalize_sort_expr(&mut arena, Key::desc(b))?, Key::desc(a));
    /// # Ok::<(), galthumir::Refusal>(())
    /// ```
    pub fn normalize_sort_expr(&self, arena: &mut Arena, key: Key) -> Result<Key, Refusal> {
        let [expr, options] = answered(|answer| {
            let options = key.options.number();
            raw::galthumir_normalize_sort_expr(&mut arena.cells, &self.cells, key.expr.into(), options, answer)
        })?;
        Ok(Key { expr: expr_of(expr), options: Options::of(options) })
    }

    /// The normal forms of at most 16 sort keys. Keys that are uniform constants are dropped, doubles stay; missing
    /// nodes are added to the arena. Refusals: 12, 11, 1, 3, 5.
    ///
    /// ```
    /// use galthumir::{Arena, Class, Constant, Group, Key};
    ///
    /// let mut arena = Arena::default();
    /// let [a, b, c] = [arena.add_column(0, 0)?, arena.add_column(1, 1)?, arena.add_column(2, 2)?];
    /// let d = Class { constant: Constant::Unknown, members: vec![arena.add_column(3, 3)?] };
    /// let group = Group::new(&arena, &[Class::new(&[a, b]), d.clone()])?;
    /// let keys = [Key::asc(b), Key::desc(d.members[0]), Key::asc(c), Key::asc(a)];
    /// let normal = group.normalize_sort_exprs(&mut arena, &keys)?;
    /// assert_eq!(normal, [Key::asc(a), Key::asc(c), Key::asc(a)]);
    /// # Ok::<(), galthumir::Refusal>(())
    /// ```
    pub fn normalize_sort_exprs(&self, arena: &mut Arena, keys: &[Key]) -> Result<Vec<Key>, Refusal> {
        let keys = lent::keys(keys);
        let ordering = answered(|answer| {
            // SAFETY: the pointer and the count are those of one slice.
            unsafe {
                raw::galthumir_normalize_sort_exprs(&mut arena.cells, &self.cells, keys.as_ptr(), keys.len(), answer)
            }
        })?;
        Ok(Key::of_ordering(&ordering))
    }

    /// The group of a join, of limit 256. This group is the left one; `left_size` is the number of left columns; pairs
    /// are left and right of each condition, the right one as it stands before the shift. Missing nodes are added to the
    /// arena. Refusals: 12, 11, 1, 10, 3, 4.
    ///
    /// ```
    /// use galthumir::{Arena, Class, Group, JoinKind};
    ///
    /// let mut arena = Arena::default();
    /// let [a, b] = [arena.add_column(0, 0)?, arena.add_column(1, 1)?];
    /// let left = Group::new(&arena, &[Class::new(&[a, b])])?;
    /// let right = Group::open(256)?;
    /// let joined = left.join(&mut arena, &right, JoinKind::Inner, 2, &[(b, a)])?;
    /// let shifted = arena.add_column(0, 2)?;
    /// assert_eq!(joined.classes(&arena)?, [Class::new(&[a, b, shifted])]);
    /// # Ok::<(), galthumir::Refusal>(())
    /// ```
    pub fn join(
        &self,
        arena: &mut Arena,
        right: &Group,
        kind: JoinKind,
        left_size: usize,
        pairs: &[(Expr, Expr)],
    ) -> Result<Group, Refusal> {
        let pairs = lent::pairs(pairs);
        let (arena, left, right) = (&mut arena.cells, &self.cells, &right.cells);
        Group::made(|made| {
            // SAFETY: the pointer and the count are those of one slice.
            unsafe {
                raw::galthumir_join(arena, left, right, kind as u32, left_size, pairs.as_ptr(), pairs.len(), made)
            }
        })
    }

    /// The projection of the group by a mapping, of limit 256. Missing nodes are added to the arena.
    /// Refusals: 12, 11, 1, 3, 4.
    ///
    /// ```
    /// use galthumir::{Arena, Class, Group, Mapping};
    ///
    /// let mut arena = Arena::default();
    /// let [a, b] = [arena.add_column(0, 0)?, arena.add_column(1, 1)?];
    /// let [x, y] = [arena.add_column(2, 0)?, arena.add_column(3, 1)?];
    /// let group = Group::new(&arena, &[Class::new(&[a, b])])?;
    /// let mapping = Mapping::default().with(a, &[x]).with(b, &[y]);
    /// let projected = group.project(&mut arena, &mapping)?;
    /// assert_eq!(projected.classes(&arena)?, [Class::new(&[x, y])]);
    /// # Ok::<(), galthumir::Refusal>(())
    /// ```
    pub fn project(&self, arena: &mut Arena, mapping: &Mapping) -> Result<Group, Refusal> {
        let numbers = &mapping.numbers;
        Group::made(|made| {
            // SAFETY: the pointer and the count are those of one slice.
            unsafe { raw::galthumir_project(&mut arena.cells, &self.cells, numbers.as_ptr(), numbers.len(), made) }
        })
    }

    /// The projection of an expression, if it has one; missing nodes are added to the arena. Refusals: 12, 11, 1, 3.
    ///
    /// ```
    /// use galthumir::{Arena, Group, Mapping};
    ///
    /// let mut arena = Arena::default();
    /// let [a, b] = [arena.add_column(0, 0)?, arena.add_column(1, 1)?];
    /// let x = arena.add_column(2, 0)?;
    /// let f_of_a = arena.add_operation(1, &[a])?;
    /// let mapping = Mapping::default().with(a, &[x]);
    /// let group = Group::open(256)?;
    /// let projected = group.project_expr(&mut arena, &mapping, f_of_a)?;
    /// assert_eq!(projected, Some(arena.add_operation(1, &[x])?));
    /// assert_eq!(group.project_expr(&mut arena, &mapping, b)?, None);
    /// # Ok::<(), galthumir::Refusal>(())
    /// ```
    pub fn project_expr(&self, arena: &mut Arena, mapping: &Mapping, expr: Expr) -> Result<Option<Expr>, Refusal> {
        let (arena, group, numbers) = (&mut arena.cells, &self.cells, &mapping.numbers);
        let [there, projected] = answered(|answer| {
            // SAFETY: the pointer and the count are those of one slice.
            unsafe { raw::galthumir_project_expr(arena, group, numbers.as_ptr(), numbers.len(), expr.into(), answer) }
        })?;
        Ok((there == 1).then(|| expr_of(projected)))
    }

    /// The projections of some expressions, each if it has one; missing nodes are added to the arena.
    /// Refusals: 12, 11, 1, 3.
    ///
    /// ```
    /// use galthumir::{Arena, Group, Mapping};
    ///
    /// let mut arena = Arena::default();
    /// let [a, b] = [arena.add_column(0, 0)?, arena.add_column(1, 1)?];
    /// let x = arena.add_column(2, 0)?;
    /// let mapping = Mapping::default().with(a, &[x]);
    /// let projected = Group::open(256)?.project_expressions(&mut arena, &mapping, &[b, a])?;
    /// assert_eq!(projected, [None, Some(x)]);
    /// # Ok::<(), galthumir::Refusal>(())
    /// ```
    pub fn project_expressions(
        &self,
        arena: &mut Arena,
        mapping: &Mapping,
        exprs: &[Expr],
    ) -> Result<Vec<Option<Expr>>, Refusal> {
        let exprs = lent::exprs(exprs);
        let mut output = vec![NONE; exprs.len()];
        // SAFETY: each pointer and the count after it are those of one slice.
        done(unsafe {
            raw::galthumir_project_expressions(
                &mut arena.cells,
                &self.cells,
                mapping.numbers.as_ptr(),
                mapping.numbers.len(),
                exprs.as_ptr(),
                exprs.len(),
                output.as_mut_ptr(),
                output.len(),
            )
        })?;
        Ok(output.into_iter().map(|number| (number != NONE).then(|| expr_of(number))).collect())
    }

    /// What the cells say of each class. A count over its bound is taken for the bound.
    fn rows(&self) -> impl Iterator<Item = Row<'_>> {
        let count = (self.cells[GROUP_COUNT] as usize).min(MAX_CLASSES);
        let mut members = &self.cells[GROUP_MEMBERS..];
        (0..count).map(move |place| {
            let size = (self.cells[GROUP_SIZES + place] as usize).min(members.len());
            let (own, others) = members.split_at(size);
            members = others;
            let (flavour, value) = (self.cells[GROUP_FLAVOURS + place], self.cells[GROUP_VALUES + place]);
            Row { flavour, value, members: own }
        })
    }
}

/// A class in numbers.
#[derive(Clone, Copy, Debug)]
struct Row<'a> {
    flavour: u32,
    value: u32,
    members: &'a [u32],
}

impl Row<'_> {
    /// The class that the numbers say, if they say one.
    fn said(self) -> Option<Class> {
        let members = self.members.iter().map(|member| Expr::try_from(*member).ok());
        Some(Class { constant: Constant::of(self.flavour, self.value)?, members: members.collect::<Option<_>>()? })
    }
}

/// Shows the limit, and each class, or its numbers where they say none.
impl fmt::Debug for Group {
    fn fmt(&self, f: &mut fmt::Formatter<'_>) -> fmt::Result {
        let classes: Vec<_> = self.rows().map(|row| lent::Shown::of(row.said(), row)).collect();
        f.debug_struct("Group").field("limit", &self.cells[GROUP_LIMIT]).field("classes", &classes).finish()
    }
}
