//! The ten kinds of a join on one pair of groups.

mod support;

use galthumir::{Class, Constant, Group, JoinKind, Refusal};
use support::{columns, constant};

#[test]
fn each_kind_keeps_its_sides() -> Result<(), Refusal> {
    let (mut arena, [a, b, c]) = columns();
    let left = Group::new(&arena, &[Class::new(&[a, b])])?;
    let right = Group::new(&arena, &[constant(Constant::Unknown, &[b, c])])?;
    let [b_shifted, c_shifted] = [arena.add_column(1, 11)?, arena.add_column(2, 12)?];
    for kind in JoinKind::ALL {
        let classes = match kind {
            JoinKind::Inner => vec![Class::new(&[a, b, b_shifted, c_shifted])],
            JoinKind::Left | JoinKind::Full | JoinKind::Right => {
                vec![Class::new(&[a, b]), Class::new(&[b_shifted, c_shifted])]
            }
            JoinKind::LeftSemi | JoinKind::LeftAnti | JoinKind::LeftMark => left.classes(&arena)?,
            JoinKind::RightSemi | JoinKind::RightAnti | JoinKind::RightMark => right.classes(&arena)?,
        };
        let joined = left.join(&mut arena, &right, kind, 10, &[(a, c)])?;
        assert_eq!(joined.classes(&arena)?, classes, "{kind:?}");
    }
    Ok(())
}
