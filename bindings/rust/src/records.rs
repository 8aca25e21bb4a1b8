//! Records in bytes, and the session.

use crate::layout::SESSION_OUTPUT;
use crate::refusal::answered;
use crate::{raw, Arena, Expr, Group, JoinKind, Refusal};

/// A record of a session.
#[derive(Clone, Copy, Debug, PartialEq, Eq, Hash)]
pub enum Record {
    /// Kind 1: adds a column.
    Column {
        /// The number of its name.
        name: u16,
        /// Its place in the schema.
        index: u16,
    },
    /// Kind 2: adds a literal with this value.
    Literal(u32),
    /// Kind 3: adds an operation.
    Operation {
        /// What it does.
        label: u32,
        /// How many children the record has.
        children: usize,
    },
    /// Kind 4: two expressions are equal.
    Equal {
        /// The left one.
        left: Expr,
        /// The right one.
        right: Expr,
    },
    /// Kind 5: an expression is constant. Flavour and value are as they stand in the record.
    Constant {
        /// The expression.
        expr: Expr,
        /// 0 heterogeneous, 1 unknown, 2 known.
        flavour: u16,
        /// The value, where it is known.
        value: u32,
    },
    /// Kind 6: asks for the normal form of this expression.
    Normal(Expr),
    /// Kind 7: asks whether two expressions are equal.
    Same {
        /// The left one.
        left: Expr,
        /// The right one.
        right: Expr,
    },
    /// Kind 8: an ordering of this many keys holds.
    Ordering(usize),
}

/// Reads the record of kind 1 to 8 at the start of some bytes. Refusal: 9.
///
/// ```
/// use galthumir::{read_record, Record, Refusal};
///
/// assert_eq!(read_record(&[4, 0, 1, 0, 3, 0, 7, 0])?, Record::Column { name: 3, index: 7 });
/// assert_eq!(read_record(&[4, 0, 1, 0, 3, 0, 7]), Err(Refusal::Malformed));
/// # Ok::<(), Refusal>(())
/// ```
pub fn read_record(bytes: &[u8]) -> Result<Record, Refusal> {
    let [kind, first, second, third] = answered(|answer| {
        // SAFETY: the pointer and the count are those of one slice.
        unsafe { raw::galthumir_read_record(bytes.as_ptr(), bytes.len(), answer) }
    })?;
    Ok(match kind {
        1 => Record::Column { name: first as u16, index: second as u16 },
        2 => Record::Literal(first as u32),
        3 => Record::Operation { label: first as u32, children: second },
        4 => Record::Equal { left: first as Expr, right: second as Expr },
        5 => Record::Constant { expr: first as Expr, flavour: second as u16, value: third as u32 },
        6 => Record::Normal(first as Expr),
        7 => Record::Same { left: first as Expr, right: second as Expr },
        _ => Record::Ordering(first),
    })
}

/// Makes a group of limit 256 from a record of kind 16. Refusals: 9, 12, 11, 1, 4.
///
/// ```
/// use galthumir::{read_group, Arena, Class, Constant};
///
/// let mut arena = Arena::default();
/// let a = arena.add_column(0, 0)?;
/// // A body of 12 bytes, kind 16: one class, known, 7, one member, expression 0.
/// let record = [12, 0, 16, 0, 1, 0, 3, 0, 7, 0, 0, 0, 1, 0, 0, 0];
/// let group = read_group(&arena, &record)?;
/// assert_eq!(group.classes(&arena)?, [Class { constant: Constant::Known(7), members: vec![a] }]);
/// # Ok::<(), galthumir::Refusal>(())
/// ```
pub fn read_group(arena: &Arena, bytes: &[u8]) -> Result<Group, Refusal> {
    Group::made(|made| {
        // SAFETY: the pointer and the count are those of one slice.
        unsafe { raw::galthumir_read_group(&arena.cells, bytes.as_ptr(), bytes.len(), made) }
    })
}

/// Of two group records the one that a join of kind LeftSemi to RightMark keeps, as a part of the caller's own bytes:
/// its 4 header bytes and its body, nothing after. The body is not read. Refusals: 12, 9.
///
/// ```
/// use galthumir::{chosen, JoinKind, Refusal};
///
/// let left = [2, 0, 16, 0, 0, 0, 99];
/// let right = [0, 0, 16, 0];
/// assert_eq!(chosen(JoinKind::LeftSemi, &left, &right)?, &left[..6]);
/// assert_eq!(chosen(JoinKind::RightAnti, &left, &right)?, &right);
/// assert_eq!(chosen(JoinKind::Inner, &left, &right), Err(Refusal::Number));
/// # Ok::<(), Refusal>(())
/// ```
pub fn chosen<'a>(kind: JoinKind, left: &'a [u8], right: &'a [u8]) -> Result<&'a [u8], Refusal> {
    let [side, size] = answered(|answer| {
        let kind = kind as u32;
        // SAFETY: each pointer and the count after it are those of one slice.
        unsafe { raw::galthumir_chosen(kind, left.as_ptr(), left.len(), right.as_ptr(), right.len(), answer) }
    })?;
    let record = if side == 0 { left } else { right };
    Ok(&record[..size])
}

/// Runs a session on its records, and answers the lines that it prints.
///
/// A record that is refused is a line of the answer; the call itself is never refused.
///
/// ```
/// // A column, and its normal form.
/// let records = [4, 0, 1, 0, 0, 0, 0, 0, 2, 0, 6, 0, 0, 0];
/// assert_eq!(galthumir::session(&records)?, "n 0 0\nend 0 0 0\n");
/// # Ok::<(), galthumir::Refusal>(())
/// ```
pub fn session(input: &[u8]) -> Result<String, Refusal> {
    let mut output = vec![0; SESSION_OUTPUT];
    let lines = session_into(input, &mut output)?;
    Ok(String::from_utf8_lossy(lines).into_owned())
}

/// The same into lent output; answers the part that was written. Refusal: 8.
///
/// ```
/// use galthumir::{session_into, Refusal};
///
/// assert_eq!(session_into(&[], &mut [0; 10])?, b"end 0 0 0\n");
/// assert_eq!(session_into(&[], &mut [0; 9]), Err(Refusal::OutputShort));
/// # Ok::<(), Refusal>(())
/// ```
pub fn session_into<'a>(input: &[u8], output: &'a mut [u8]) -> Result<&'a [u8], Refusal> {
    let [size] = answered(|answer| {
        // SAFETY: each pointer and the count after it are those of one slice.
        unsafe { raw::galthumir_session(input.as_ptr(), input.len(), output.as_mut_ptr(), output.len(), answer) }
    })?;
    Ok(&output[..size])
}
