//! A mapping whose sources have several targets.

mod support;

use galthumir::{Class, Group, Mapping, Refusal};
use support::columns;

#[test]
fn the_first_target_stands_for_its_source() -> Result<(), Refusal> {
    let (mut arena, [a, b, c, x, y, z]) = columns();
    let [f_of_a, f_of_c] = [arena.add_operation(1, &[a])?, arena.add_operation(1, &[c])?];
    let group = Group::new(&arena, &[Class::new(&[a, b])])?;
    let mapping = Mapping::default().with(b, &[y, x]).with(f_of_c, &[z]);
    let projected = group.project_expressions(&mut arena, &mapping, &[a, b, c, f_of_a, f_of_c])?;
    let f_of_y = arena.add_operation(1, &[y])?;
    assert_eq!(projected, [Some(y), Some(y), None, Some(f_of_y), Some(z)]);
    assert_eq!(group.project_expr(&mut arena, &mapping, b)?, Some(y));
    assert_eq!(group.project(&mut arena, &mapping)?.classes(&arena)?, [Class::new(&[y, x])]);
    Ok(())
}
