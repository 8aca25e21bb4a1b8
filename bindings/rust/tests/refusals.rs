//! Each refusal, and that it changes nothing.

mod support;

use std::fmt::Debug;

use galthumir::layout::{ARENA_COUNT, GROUP_CELLS};
use galthumir::{
    chosen, read_group, read_record, session_into, Arena, Class, Constant, Enumerated, Expr, Group, JoinKind, Key,
    Map, Mapping, Orderings, Refusal,
};
use support::{columns, constant, depending, keys, literals, nearly_full};

/// Makes a call on some states. It has to be refused so, and to leave the states as they were.
fn refused<S, T>(states: S, call: impl FnOnce(&mut S) -> Result<T, Refusal>, refusal: Refusal)
where
    S: Clone + PartialEq + Debug,
    T: PartialEq + Debug,
{
    let mut lent = states.clone();
    assert_eq!(call(&mut lent), Err(refusal));
    assert_eq!(lent, states);
}

/// How many orderings were enumerated.
fn counted(enumerated: Result<Enumerated<'_>, Refusal>) -> Result<usize, Refusal> {
    enumerated.map(|enumerated| enumerated.count())
}

/// An arena of two columns with numbers in unused cells.
fn broken_arena() -> Arena {
    let (mut arena, [a, b]) = columns();
    arena.add_operation(1, &[a, b]).unwrap();
    let mut cells = *arena.cells();
    cells[ARENA_COUNT] = 2;
    Arena::from_cells(&cells)
}

#[test]
fn number_1_an_expression_that_is_not_there() {
    let (arena, [a, b]) = columns();
    let group = Group::new(&arena, &[Class::new(&[a, b])]).unwrap();
    let refusal = Refusal::Expression;
    let beyond = b + 1;
    refused(arena.clone(), |arena| arena.add_operation(1, &[a, beyond]), refusal);
    refused(arena.clone(), |arena| arena.add_operation(1, &[a, Expr::MAX]), refusal);
    refused(arena.clone(), |arena| arena.add_offset_to_expr(beyond, 1), refusal);
    refused(arena.clone(), |arena| arena.read_node(beyond), refusal);
    refused(arena.clone(), |arena| arena.read_child(beyond, 0), refusal);
    refused(group.clone(), |group| group.add_equal_conditions(&arena, a, beyond), refusal);
    refused(group.clone(), |group| group.add_constant(&arena, beyond, Constant::Unknown), refusal);
    refused(group.clone(), |group| group.exprs_equal(&arena, beyond, a), refusal);
    refused(group.clone(), |group| group.is_expr_constant(&arena, beyond), refusal);
    refused(group.clone(), |group| group.get_equivalence_class(&arena, beyond), refusal);
    refused(arena.clone(), |arena| group.normalize_expr(arena, beyond), refusal);
    refused(arena.clone(), |arena| group.normalize_sort_expr(arena, Key::asc(beyond)), refusal);
    refused(arena.clone(), |arena| group.normalize_sort_exprs(arena, &[Key::asc(a), Key::asc(beyond)]), refusal);
    refused(arena.clone(), |arena| group.join(arena, &group, JoinKind::LeftSemi, 2, &[(a, beyond)]), refusal);
    let mapping = Mapping::default().with(a, &[beyond]);
    refused(arena.clone(), |arena| group.project(arena, &mapping), refusal);
    refused(arena.clone(), |arena| group.project_expr(arena, &Mapping::default(), beyond), refusal);
    refused(arena.clone(), |arena| group.project_expressions(arena, &Mapping::default(), &[a, beyond]), refusal);
    refused((), |_| Group::new(&arena, &[Class::new(&[a, beyond])]), refusal);
    refused((), |_| group.classes(&Arena::default()), refusal);

    let orderings = Orderings::new(&arena, &[[Key::asc(a)]]).unwrap();
    refused(orderings.clone(), |list| list.add_orderings(&arena, &[[Key::asc(beyond)]]), refusal);
    refused(orderings.clone(), |list| list.extend(&arena, &[[Key::asc(Expr::MAX)]]), refusal);
    refused(orderings.clone(), |list| list.clear(&Arena::default()), refusal);
    refused(orderings.clone(), |list| list.get_options(&arena, beyond), refusal);
    refused(orderings, |list| list.is_expr_partial_const(&arena, beyond), refusal);

    let map = Map::default();
    refused(map.clone(), |map| map.insert(&arena, Key::asc(a), Some(Key::asc(beyond)), None), refusal);
    refused(map.clone(), |map| map.insert(&arena, Key::asc(a), None, Some(Key::asc(Expr::MAX))), refusal);
    refused(map, |map| map.construct_prefix_orderings(&arena, Key::asc(beyond)), refusal);
}

#[test]
fn number_2_nine_children() {
    refused(literals(1), |arena| arena.add_operation(1, &[0; 9]), Refusal::Children);
    assert_eq!(literals(1).add_operation(1, &[0; 8]), Ok(1));
}

#[test]
fn number_3_an_arena_without_room() {
    let refusal = Refusal::ArenaFull;
    let (full, [a, b, c]) = nearly_full(0);
    assert_eq!(full.clone().add_column(0, 0), Ok(a));
    refused(full.clone(), |arena| arena.add_column(0, 9), refusal);
    refused(full.clone(), |arena| arena.add_literal(5000), refusal);
    refused(full.clone(), |arena| arena.add_operation(1, &[a]), refusal);
    refused(full.clone(), |arena| arena.add_offset_to_expr(a, 9), refusal);
    let orderings = Orderings::new(&full, &[[Key::asc(a)]]).unwrap();
    refused((full.clone(), orderings), |(arena, orderings)| orderings.add_offset(arena, 9), refusal);
    let group = Group::new(&full, &[Class::new(&[a, b])]).unwrap();
    refused(full, |arena| group.join(arena, &group, JoinKind::Inner, 9, &[]), refusal);

    // Two nodes are missing, and there is room for one.
    let (mut tight, _) = nearly_full::<3>(3);
    let f_of_b = tight.add_operation(1, &[b]).unwrap();
    let g_of_f = tight.add_operation(2, &[f_of_b]).unwrap();
    refused(tight.clone(), |arena| group.normalize_expr(arena, g_of_f), refusal);
    refused(tight.clone(), |arena| group.normalize_sort_expr(arena, Key::asc(g_of_f)), refusal);
    refused(tight.clone(), |arena| group.normalize_sort_exprs(arena, &[Key::asc(g_of_f)]), refusal);
    let mapping = Mapping::default().with(b, &[c]);
    refused(tight.clone(), |arena| group.project_expr(arena, &mapping, g_of_f), refusal);
    refused(tight.clone(), |arena| group.project_expressions(arena, &mapping, &[f_of_b, g_of_f]), refusal);
    let all = Mapping::default().with(b, &[c]).with(g_of_f, &[a]);
    refused(tight, |arena| group.project(arena, &all), refusal);
}

#[test]
fn number_4_a_group_without_room() {
    let refusal = Refusal::GroupFull;
    let (arena, [a, b, c]) = columns();
    let mut group = Group::open(2).unwrap();
    group.add_equal_conditions(&arena, a, b).unwrap();
    refused(group.clone(), |group| group.add_equal_conditions(&arena, a, c), refusal);
    refused(group, |group| group.add_constant(&arena, c, Constant::Unknown), refusal);
    let classes = vec![Class::new(&[a]); 65];
    refused((), |_| Group::new(&arena, &classes), refusal);

    let many = literals(257);
    let members: Vec<Expr> = (0..=256).collect();
    refused((), |_| Group::new(&many, &[constant(Constant::Known(1), &members)]), refusal);
}

#[test]
fn number_4_a_join_and_a_projection_without_room() {
    // 33 classes and 32 others.
    let arena = literals(65);
    let classes: Vec<Class> = (0..65).map(|i| constant(Constant::Known(i.into()), &[i])).collect();
    let [left, right] = [&classes[..33], &classes[33..]].map(|classes| Group::new(&arena, classes).unwrap());
    refused(arena, |arena| left.join(arena, &right, JoinKind::Inner, 0, &[]), Refusal::GroupFull);

    // 33 classes of 8 members each.
    let (mut arena, [a]) = columns();
    let mut mapping = Mapping::default();
    for label in 0..33 {
        let source = arena.add_operation(label, &[a]).unwrap();
        let targets: Vec<Expr> = (0..8).map(|i| arena.add_operation(1000 + 8 * label + i, &[]).unwrap()).collect();
        mapping = mapping.with(source, &targets);
    }
    refused(arena, |arena| Group::open(1).unwrap().project(arena, &mapping), Refusal::GroupFull);
}

#[test]
fn number_5_orderings_without_room() {
    let refusal = Refusal::TooLarge;
    let arena = literals(100);
    let lists: Vec<[Key; 1]> = (0..33).map(|expr| [Key::asc(expr)]).collect();
    refused((), |_| Orderings::new(&arena, &lists), refusal);
    let orderings = Orderings::new(&arena, &lists[..32]).unwrap();
    refused(orderings.clone(), |list| list.add_orderings(&arena, &lists[32..]), refusal);
    refused(orderings.clone(), |list| list.extend(&arena, &lists[..1]), refusal);
    refused(orderings.clone(), |list| list.output_ordering(&arena), refusal);
    refused(orderings, |list| list.join_suffix(&arena, list), refusal);

    let long: Vec<Key> = (0..17).map(Key::asc).collect();
    refused((), |_| Orderings::new(&arena, &[&long]), refusal);
    refused(arena.clone(), |arena| Group::open(1).unwrap().normalize_sort_exprs(arena, &long), refusal);
}

#[test]
fn number_5_a_list_of_keys_that_16_bits_do_not_count() {
    let (arena, [a]) = keys();
    let most = vec![a; 65_535];
    assert_eq!(Orderings::new(&arena, &[&most]).unwrap().orderings(&arena), Ok(vec![vec![a]]));
    let more = vec![a; 65_536];
    refused(Orderings::default(), |list| list.add_orderings(&arena, &[&more]), Refusal::TooLarge);
}

#[test]
fn number_5_a_map_without_room() {
    let refusal = Refusal::TooLarge;
    let arena = literals(100);
    let mut map = Map::default();
    for expr in 0..64 {
        map.insert(&arena, Key::asc(expr), Some(Key::asc(expr)), None).unwrap();
    }
    refused(map.clone(), |map| map.insert(&arena, Key::asc(64), None, None), refusal);
    for expr in 0..16 {
        map.insert(&arena, Key::asc(0), None, Some(Key::asc(expr))).unwrap();
    }
    refused(map.clone(), |map| map.insert(&arena, Key::asc(0), None, Some(Key::asc(16))), refusal);
}

#[test]
fn number_5_an_enumeration_without_room() {
    let (arena, all) = keys::<14>();
    let (keys, others) = all.split_at(7);
    let map = depending(&arena, keys, others);
    refused(map, |map| map.generate_dependency_orderings(&arena, keys), Refusal::TooLarge);
}

#[test]
fn numbers_6_and_7_a_walk_without_a_way_on() {
    let (arena, [a, b, c]) = keys();
    let mut map = Map::default();
    map.insert(&arena, a, Some(a), Some(b)).unwrap();
    refused(map.clone(), |map| map.construct_prefix_orderings(&arena, c), Refusal::UnknownKey);
    refused(map.clone(), |map| map.construct_prefix_orderings(&arena, a), Refusal::UnknownKey);
    refused(map.clone(), |map| map.generate_dependency_orderings(&arena, &[c]), Refusal::UnknownKey);
    map.insert(&arena, b, None, None).unwrap();
    let prefixes = |key, output: &mut Vec<u16>| counted(map.construct_prefix_orderings_into(&arena, key, output));
    refused(vec![7; 100], |output| prefixes(a, output), Refusal::NoTarget);
    refused(
        vec![7; 100],
        |output| counted(map.generate_dependency_orderings_into(&arena, &[a], output)),
        Refusal::NoTarget,
    );
    // A starting key needs no target.
    let mut output = vec![7; 100];
    assert_eq!(prefixes(b, &mut output), Ok(0));
    assert_eq!(output, [7; 100]);
}

#[test]
fn number_8_output_that_is_too_short() {
    let refusal = Refusal::OutputShort;
    let (arena, all) = keys::<4>();
    let (keys, others) = all.split_at(2);
    let map = depending(&arena, keys, others);
    let prefixes = |output: &mut Vec<u16>| counted(map.construct_prefix_orderings_into(&arena, keys[0], output));
    refused(vec![7; 2], prefixes, refusal);
    let orders = |output: &mut Vec<u16>| counted(map.generate_dependency_orderings_into(&arena, keys, output));
    refused(vec![7; 9], orders, refusal);
    let mut output = vec![7; 11];
    assert_eq!(orders(&mut output), Ok(2));
    assert_eq!(output[10], 7);
    refused(vec![7; 9], |output| session_into(&[], output).map(<[u8]>::len), refusal);
}

#[test]
fn number_9_malformed_records() {
    let refusal = Refusal::Malformed;
    refused((), |_| read_record(&[]), refusal);
    refused((), |_| read_record(&[0, 0, 16, 0]), refusal);
    refused((), |_| read_group(&Arena::default(), &[0, 0, 16, 0]), refusal);
    refused((), |_| chosen(JoinKind::LeftAnti, &[1, 0, 16, 0], &[]), refusal);
    refused((), |_| chosen(JoinKind::RightMark, &[], &[0, 0, 15, 0]), refusal);
}

#[test]
fn number_10_columns_that_leave_their_range() {
    let refusal = Refusal::Index;
    let (arena, [a, b]) = columns();
    refused(arena.clone(), |arena| arena.add_offset_to_expr(b, -2), refusal);
    refused(arena.clone(), |arena| arena.add_offset_to_expr(b, 65_535), refusal);
    refused(arena.clone(), |arena| arena.add_offset_to_expr(a, i64::MIN), refusal);
    let orderings = Orderings::new(&arena, &[[Key::asc(b)], [Key::asc(a)]]).unwrap();
    refused((arena.clone(), orderings), |(arena, orderings)| orderings.add_offset(arena, -1), refusal);
    let group = Group::new(&arena, &[Class::new(&[a, b])]).unwrap();
    refused(arena.clone(), |arena| group.join(arena, &group, JoinKind::Left, 65_535, &[]), refusal);
    refused(arena.clone(), |arena| group.join(arena, &group, JoinKind::Inner, usize::MAX, &[(a, b)]), refusal);
}

#[test]
fn number_11_states_that_break_a_rule() {
    let refusal = Refusal::State;
    let (arena, [a, b]) = columns();
    let broken = broken_arena();
    let empty = Group::open(1).unwrap();
    refused(broken.clone(), |arena| arena.check(), refusal);
    refused(broken.clone(), |arena| arena.nodes(), refusal);
    refused(broken.clone(), |arena| arena.add_column(0, 0), refusal);
    refused(broken.clone(), |arena| arena.add_literal(0), refusal);
    refused(empty.clone(), |group| group.clear_per_partition_constants(&broken), refusal);
    refused(Orderings::default(), |orderings| orderings.clear(&broken), refusal);
    refused(Map::default(), |map| map.entries(&broken), refusal);
    refused((), |_| Group::new(&arena, &[Class::new(&[a, a])]), refusal);
    let twice = Mapping::default().with(a, &[b]).with(a, &[b]);
    refused(arena.clone(), |arena| empty.project(arena, &twice), refusal);
    let nine = Mapping::default().with(a, &[b; 9]);
    refused(arena.clone(), |arena| empty.project_expr(arena, &nine, a), refusal);
    let no_keys: [Key; 0] = [];
    refused(Orderings::default(), |orderings| orderings.extend(&arena, &[no_keys]), refusal);
}

#[test]
fn number_12_numbers_outside_their_set() {
    let refusal = Refusal::Number;
    let (arena, [a]) = columns();
    refused((), |_| Group::open(0), refusal);
    refused((), |_| Group::open(257), refusal);
    let group = Group::open(1).unwrap();
    refused(group.clone(), |group| group.add_constant(&arena, a, Constant::None), refusal);
    let no_targets = Mapping::default().with(a, &[]);
    refused(arena.clone(), |arena| group.project(arena, &no_targets), refusal);
    refused(arena.clone(), |arena| group.project_expressions(arena, &no_targets, &[a]), refusal);
    let zeros = Group::from_cells(&[0; GROUP_CELLS]);
    refused(arena.clone(), |arena| zeros.normalize_expr(arena, a), refusal);
    for kind in &JoinKind::ALL[..4] {
        refused((), |_| chosen(*kind, &[], &[]), refusal);
    }
}
