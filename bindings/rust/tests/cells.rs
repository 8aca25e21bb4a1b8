//! States as numbers: there and back, and what is shown of them.

mod support;

use galthumir::layout::{
    ARENA_CELLS, ARENA_COUNT, ARENA_NODES, GROUP_CELLS, GROUP_COUNT, GROUP_FLAVOURS, GROUP_SIZES, MAP_CELLS,
    MAP_COUNT, MAP_LIST, MAP_NODE_DEPENDENCIES, MAP_NODE_SIZE, MAP_NODE_TARGET, ORDERINGS_CELLS, ORDERINGS_COUNT,
    ORDERINGS_LIST,
};
use galthumir::{Arena, Class, Constant, Entry, Group, Key, Map, Node, Options, Orderings, Refusal};
use support::{columns, constant, keys};

#[test]
fn an_arena_comes_back() -> Result<(), Refusal> {
    let mut arena = Arena::default();
    let a = arena.add_column(0xfffe, 0xffff)?;
    let b = arena.add_literal(u32::MAX)?;
    arena.add_operation(7, &[b, a, b])?;
    let mut back = Arena::from_cells(arena.cells());
    assert_eq!(back, arena);
    let nodes = [
        Node::Column { name: 0xfffe, index: 0xffff },
        Node::Literal(u32::MAX),
        Node::Operation { label: 7, children: vec![b, a, b] },
    ];
    assert_eq!(back.nodes()?, nodes);
    for (expr, node) in nodes.iter().enumerate() {
        assert_eq!(back.read_node(expr as u16)?, *node);
    }
    assert_eq!(back.add_operation(7, &[b, a, b])?, 2);
    assert_ne!(Arena::default(), arena);
    Ok(())
}

#[test]
fn a_group_comes_back() -> Result<(), Refusal> {
    let (mut arena, [a, b, c, d, e]) = columns();
    let five = arena.add_literal(5)?;
    let classes = [
        constant(Constant::None, &[a, b]),
        constant(Constant::Heterogeneous, &[c]),
        constant(Constant::Unknown, &[d]),
        constant(Constant::Known(5), &[five, e]),
    ];
    let group = Group::new(&arena, &classes)?;
    let mut back = Group::from_cells(group.cells());
    assert_eq!(back, group);
    assert_eq!(back.classes(&arena)?, classes);
    assert!(!back.add_equal_conditions(&arena, a, c)?);
    assert_ne!(back, group);
    Ok(())
}

#[test]
fn orderings_come_back() -> Result<(), Refusal> {
    let (arena, [a, b]) = columns();
    let options = |number| Options { descending: number % 2 == 1, nulls_first: number / 2 == 1 };
    let lists: Vec<[Key; 2]> =
        (0..4).map(|i| [Key { expr: a, options: options(i) }, Key { expr: b, options: options(3 - i) }]).collect();
    let orderings = Orderings::new(&arena, &lists)?;
    let back = Orderings::from_cells(orderings.cells());
    assert_eq!(back, orderings);
    assert_eq!(back.orderings(&arena)?, lists);
    Ok(())
}

#[test]
fn a_map_comes_back() -> Result<(), Refusal> {
    let (arena, [a, b, c]) = keys();
    let desc = Key::desc(a.expr);
    let mut map = Map::default();
    map.insert(&arena, a, Some(b), Some(c))?;
    map.insert(&arena, desc, None, Some(a))?;
    map.insert(&arena, a, None, Some(desc))?;
    let back = Map::from_cells(map.cells());
    assert_eq!(back, map);
    let entries = [
        Entry { key: a, target: Some(b), dependencies: vec![c, desc] },
        Entry { key: desc, target: None, dependencies: vec![a] },
    ];
    assert_eq!(back.entries(&arena)?, entries);
    Ok(())
}

#[test]
fn states_show_what_they_hold() -> Result<(), Refusal> {
    let (mut arena, [a, b]) = columns();
    arena.add_operation(7, &[a])?;
    let column = |i: u16| format!("Column {{ name: {i}, index: {i} }}");
    let operation = "Operation { label: 7, children: [0] }";
    assert_eq!(format!("{arena:?}"), format!("Arena [{}, {}, {operation}]", column(0), column(1)));
    let mut group = Group::open(9)?;
    group.add_equal_conditions(&arena, a, b)?;
    let class = format!("{:?}", Class::new(&[a, b]));
    assert_eq!(format!("{group:?}"), format!("Group {{ limit: 9, classes: [{class}] }}"));
    let key = Key::asc(a);
    assert_eq!(format!("{:?}", Orderings::new(&arena, &[[key]])?), format!("Orderings [[{key:?}]]"));
    let mut map = Map::default();
    map.insert(&arena, key, None, None)?;
    let entry = Entry { key, target: None, dependencies: vec![] };
    assert_eq!(format!("{map:?}"), format!("Map [{entry:?}]"));
    Ok(())
}

#[test]
fn cells_that_say_nothing_are_shown_and_refused() {
    let arena = Arena::default();

    let mut cells = [0; ARENA_CELLS];
    (cells[ARENA_COUNT], cells[ARENA_NODES]) = (1, 9);
    let odd = Arena::from_cells(&cells);
    assert_eq!(format!("{odd:?}"), "Arena [[9, 0, 0, 0, 0, 0, 0, 0, 0, 0, 0]]");
    assert_eq!(odd.nodes(), Err(Refusal::State));

    let mut cells = *Group::open(1).unwrap().cells();
    (cells[GROUP_COUNT], cells[GROUP_SIZES], cells[GROUP_FLAVOURS]) = (1, 1, 9);
    let odd = Group::from_cells(&cells);
    assert_eq!(format!("{odd:?}"), "Group { limit: 1, classes: [Row { flavour: 9, value: 0, members: [0] }] }");
    assert_eq!(odd.classes(&arena), Err(Refusal::Number));

    let mut cells = [0; ORDERINGS_CELLS];
    (cells[ORDERINGS_COUNT], cells[ORDERINGS_LIST]) = (1, 17);
    let odd = Orderings::from_cells(&cells);
    assert_eq!(format!("{odd:?}"), format!("Orderings [{:?}]", [Key::asc(0); 16]));
    assert_eq!(odd.orderings(&arena), Err(Refusal::State));

    let mut cells = [0; MAP_CELLS];
    cells[MAP_COUNT] = 1;
    let row = &mut cells[MAP_LIST..];
    (row[MAP_NODE_SIZE], row[MAP_NODE_TARGET], row[MAP_NODE_DEPENDENCIES]) = (17, 2, 3);
    let odd = Map::from_cells(&cells);
    assert!(format!("{odd:?}").contains(&format!("target: Some({:?})", Key::desc(0))));
    assert_eq!(odd.entries(&arena), Err(Refusal::State));
}

#[test]
fn no_cells_are_too_wild_to_show_and_to_refuse() {
    let arena = Arena::default();
    let wild = [
        format!("{:?}", Arena::from_cells(&[u32::MAX; ARENA_CELLS])),
        format!("{:?}", Group::from_cells(&[u32::MAX; GROUP_CELLS])),
        format!("{:?}", Orderings::from_cells(&[u16::MAX; ORDERINGS_CELLS])),
        format!("{:?}", Map::from_cells(&[u16::MAX; MAP_CELLS])),
    ];
    assert!(wild.iter().all(|shown| shown.len() > 1000));
    assert_eq!(Arena::from_cells(&[u32::MAX; ARENA_CELLS]).check(), Err(Refusal::State));
    assert_eq!(Group::from_cells(&[u32::MAX; GROUP_CELLS]).check(&arena), Err(Refusal::Number));
    assert_eq!(Orderings::from_cells(&[u16::MAX; ORDERINGS_CELLS]).check(&arena), Err(Refusal::State));
    assert_eq!(Map::from_cells(&[u16::MAX; MAP_CELLS]).check(&arena), Err(Refusal::State));
}
