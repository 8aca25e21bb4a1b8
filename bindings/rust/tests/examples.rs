//! The small examples of the paper, P1 to P13, and its two examples of bounds.

mod support;

use galthumir::{Class, Constant, Expr, Group, Key, Map, Orderings, Refusal};
use support::{columns, constant, depending, keys, literals};

#[test]
fn p1_and_p2_a_class_of_one_grows() -> Result<(), Refusal> {
    let (arena, [x, y]) = columns();
    let mut group = Group::open(256)?;
    assert!(group.add_equal_conditions(&arena, x, x)?);
    assert_eq!(group.classes(&arena)?, [Class::new(&[x])]);
    assert!(!group.add_equal_conditions(&arena, x, y)?);
    assert_eq!(group.classes(&arena)?, [Class::new(&[x, y])]);
    Ok(())
}

#[test]
fn p3_the_last_class_fills_the_gap() -> Result<(), Refusal> {
    let (arena, [a, b, c, d, e, f]) = columns();
    let mut group = Group::new(&arena, &[Class::new(&[a, b]), Class::new(&[c, d]), Class::new(&[e, f])])?;
    assert!(!group.add_equal_conditions(&arena, d, a)?);
    assert_eq!(group.classes(&arena)?, [Class::new(&[a, b, c, d]), Class::new(&[e, f])]);
    Ok(())
}

#[test]
fn p4_a_replacement_is_not_entered_again() -> Result<(), Refusal> {
    let (mut arena, [a, b, c]) = columns();
    let f_of_b = arena.add_operation(1, &[b])?;
    let group = Group::new(&arena, &[Class::new(&[a, b]), Class::new(&[f_of_b, c])])?;
    assert_eq!(group.normalize_expr(&mut arena, c)?, f_of_b);
    let f_of_a = group.normalize_expr(&mut arena, f_of_b)?;
    assert_eq!(f_of_a, f_of_b + 1);
    assert_eq!(arena.add_operation(1, &[a])?, f_of_a);
    Ok(())
}

#[test]
fn p5_two_unknown_uniforms_are_one_class() -> Result<(), Refusal> {
    let (arena, [x, y]) = columns();
    let mut group = Group::open(256)?;
    group.add_constant(&arena, x, Constant::Unknown)?;
    group.add_constant(&arena, y, Constant::Unknown)?;
    assert_eq!(group.classes(&arena)?, [constant(Constant::Unknown, &[x, y])]);
    Ok(())
}

#[test]
fn p6_and_p7_labels_are_not_compared_and_literals_are() -> Result<(), Refusal> {
    let (mut arena, [a, b]) = columns();
    let [one, two] = [arena.add_operation(1, &[a, b])?, arena.add_operation(2, &[a, b])?];
    let [literal_1, literal_2] = [arena.add_literal(1)?, arena.add_literal(2)?];
    let group = Group::open(256)?;
    assert!(group.exprs_equal(&arena, one, two)?);
    assert!(!group.exprs_equal(&arena, literal_1, literal_2)?);
    Ok(())
}

#[test]
fn p8_an_operation_on_a_literal_is_heterogeneous() -> Result<(), Refusal> {
    let mut arena = literals(1);
    let f_of_literal = arena.add_operation(1, &[0])?;
    assert_eq!(Group::open(256)?.is_expr_constant(&arena, f_of_literal)?, Constant::Heterogeneous);
    Ok(())
}

#[test]
fn p9_a_suffix_that_is_a_prefix_is_cut_off() -> Result<(), Refusal> {
    let (arena, [a, b, c]) = keys();
    let orderings = Orderings::new(&arena, &[[a, b], [b, c]])?;
    assert_eq!(orderings.orderings(&arena)?, [vec![a], vec![b, c]]);
    Ok(())
}

#[test]
fn p10_a_prefix_vanishes() -> Result<(), Refusal> {
    let (arena, [a, b]) = keys();
    let orderings = Orderings::new(&arena, &[vec![a], vec![a, b]])?;
    assert_eq!(orderings.orderings(&arena)?, [[a, b]]);
    Ok(())
}

#[test]
fn p11_both_directions_stay() -> Result<(), Refusal> {
    let (arena, [a]) = columns();
    let orderings = Orderings::new(&arena, &[[Key::asc(a)], [Key::desc(a)]])?;
    assert_eq!(orderings.orderings(&arena)?, [[Key::asc(a)], [Key::desc(a)]]);
    Ok(())
}

#[test]
fn p12_each_ordering_is_extended_by_each() -> Result<(), Refusal> {
    let (arena, [a, b, c, d]) = keys();
    let left = Orderings::new(&arena, &[[a], [b]])?;
    let right = Orderings::new(&arena, &[[c], [d]])?;
    assert_eq!(left.join_suffix(&arena, &right)?.orderings(&arena)?, [[a, c], [b, c], [a, d], [b, d]]);
    assert_eq!(left.join_suffix(&arena, &Orderings::default())?, left);
    Ok(())
}

#[test]
fn p13_a_key_that_depends_on_itself_has_no_ordering() -> Result<(), Refusal> {
    let (arena, [a]) = keys();
    let mut map = Map::default();
    map.insert(&arena, a, Some(a), Some(a))?;
    let none: Vec<Vec<Key>> = Vec::new();
    assert_eq!(map.construct_prefix_orderings(&arena, a)?, none);
    Ok(())
}

#[test]
fn a_group_has_256_members_and_no_more() -> Result<(), Refusal> {
    let arena = literals(257);
    let mut group = Group::open(256)?;
    for member in 1..256 {
        group.add_equal_conditions(&arena, 0, member)?;
    }
    let full = group.clone();
    assert_eq!(group.add_equal_conditions(&arena, 0, 256), Err(Refusal::GroupFull));
    assert_eq!(group, full);
    assert_eq!(group.classes(&arena)?[0].members.len(), 256);
    Ok(())
}

#[test]
fn six_prefix_lists_have_720_orders_and_seven_too_many() -> Result<(), Refusal> {
    let (arena, all) = keys::<14>();
    let (keys, others) = all.split_at(7);
    let map = depending(&arena, keys, others);
    let orders = map.generate_dependency_orderings(&arena, &keys[..6])?;
    assert_eq!(orders.len(), 720);
    assert_eq!(orders[0], others[..6]);
    assert!(orders.windows(2).all(|pair| exprs(&pair[0]) < exprs(&pair[1])));
    assert_eq!(map.generate_dependency_orderings(&arena, keys), Err(Refusal::TooLarge));
    Ok(())
}

/// The expressions of some keys.
fn exprs(keys: &[Key]) -> Vec<Expr> {
    keys.iter().map(|key| key.expr).collect()
}
