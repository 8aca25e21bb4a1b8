//! The core of a query planner, proved: which expressions must be equal, which orders already hold, which sorts can be
//! dropped.
//!
//! These are safe functions over `libgalthumir.a`, whose every function is proved to meet its contract. The calls and
//! their names follow three modules of the crate datafusion-physical-expr 55.0.0; expressions are numbered nodes of an
//! [`Arena`] here, in the place of shared pointers.
//!
//! | type | what it is |
//! |---|---|
//! | [`Arena`] | expressions: columns, literals, and operations over lower numbers |
//! | [`Group`] | classes of expressions that are equal, each with what is known of its value |
//! | [`Orderings`] | the orders that hold, as lists of sort keys |
//! | [`Map`] | sort keys, what each one becomes, and what it depends on |
//!
//! Every call checks all that it is lent. Where it can't be done it answers a [`Refusal`], and nothing has changed.
//! A state is an array of numbers: `cells` gives it, `from_cells` takes it, [`layout`] says how it lies.
//!
//! Nothing is kept between two calls, so calls on different states may run at once. A call takes less than 1 MB of stack;
//! the enumerations of a [`Map`] take the most.
//!
//! ```
//! use galthumir::{Arena, Group};
//!
//! let mut arena = Arena::default();
//! let a = arena.add_column(0, 0)?;
//! let b = arena.add_column(1, 1)?;
//! let f_of_b = arena.add_operation(7, &[b])?;
//!
//! let mut group = Group::open(256)?;
//! group.add_equal_conditions(&arena, a, b)?;
//! let normal = group.normalize_expr(&mut arena, f_of_b)?;
//! assert_eq!(normal, arena.add_operation(7, &[a])?);
//! # Ok::<(), galthumir::Refusal>(())
//! ```

#![deny(missing_docs)]
#![deny(clippy::undocumented_unsafe_blocks)]

mod arena;
mod class;
mod enumeration;
mod group;
mod join_kind;
mod key;
pub mod layout;
mod lent;
mod map;
mod mapping;
mod orderings;
mod raw;
mod records;
mod refusal;
mod state;

pub use arena::{Arena, Expr, Node};
pub use class::{Class, ClassAt, Constant};
pub use enumeration::Enumerated;
pub use group::Group;
pub use join_kind::JoinKind;
pub use key::{Key, Options};
pub use map::{Entry, Map};
pub use mapping::Mapping;
pub use orderings::Orderings;
pub use records::{chosen, read_group, read_record, session, session_into, Record};
pub use refusal::Refusal;
