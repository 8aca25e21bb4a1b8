//! Records, the chosen one of two, and the session.

mod support;

use galthumir::layout::{MAX_SESSION_BYTES, SESSION_OUTPUT};
use galthumir::{chosen, read_group, read_record, session, session_into, Constant, JoinKind, Record, Refusal};
use support::{bytes, columns, constant};

#[test]
fn the_session_of_the_paper() {
    let input = bytes(
        "04000100 00000000 04000100 01000100 06000300 070000000100 04000400 00000100 02000600 0200 04000700 00000100",
    );
    assert_eq!(session(&input).unwrap(), "n 2 3\nq 0 1 1\nend 1 2 0\n");
}

#[test]
fn a_session_leaves_the_rest_of_its_output() {
    let mut output = [7; 12];
    assert_eq!(session_into(&[], &mut output), Ok(&b"end 0 0 0\n"[..]));
    assert_eq!(output[10..], [7; 2]);
}

#[test]
fn a_session_of_the_largest_size_and_one_over_it() {
    // Records of kind 6 that ask for an expression that is not there.
    let most = bytes("02000600 0000").repeat(MAX_SESSION_BYTES / 6);
    let lines = session(&most).unwrap();
    assert!(lines.len() <= SESSION_OUTPUT);
    assert_eq!(lines.lines().count(), MAX_SESSION_BYTES / 6 + 1);
    assert_eq!(session(&[0; MAX_SESSION_BYTES + 1]).unwrap(), "r 0 9\nend 0 0 0\n");
}

#[test]
fn each_kind_of_record_is_read() {
    for (hex, record) in [
        ("04000100 03000700", Record::Column { name: 3, index: 7 }),
        ("04000200 ffffffff", Record::Literal(u32::MAX)),
        ("08000300 09000000 0100 ffff", Record::Operation { label: 9, children: 2 }),
        ("04000400 0100 ffff", Record::Equal { left: 1, right: u16::MAX }),
        ("08000500 0200 0100 07000000", Record::Constant { expr: 2, flavour: 1, value: 7 }),
        ("02000600 0300", Record::Normal(3)),
        ("04000700 0400 0500", Record::Same { left: 4, right: 5 }),
        ("08000800 0100 0000 0200 0300", Record::Ordering(2)),
    ] {
        assert_eq!(read_record(&bytes(hex)), Ok(record));
    }
}

#[test]
fn a_group_record_is_read() {
    let (arena, [a, b, c]) = columns();
    let record = bytes("1800 1000 0200 0300 07000000 0200 0000 0100 0000 00000000 0100 0200");
    let group = read_group(&arena, &record).unwrap();
    let classes = [constant(Constant::Known(7), &[a, b]), constant(Constant::None, &[c])];
    assert_eq!(group.classes(&arena).unwrap(), classes);
}

#[test]
fn the_chosen_record_is_the_callers_own() {
    let left = bytes("0300 1000 010203 ffff");
    let right = bytes("0000 1000 ff");
    for kind in &JoinKind::ALL[4..7] {
        assert!(std::ptr::eq(chosen(*kind, &left, &right).unwrap(), &left[..7]));
    }
    for kind in &JoinKind::ALL[7..] {
        assert!(std::ptr::eq(chosen(*kind, &left, &right).unwrap(), &right[..4]));
    }
    assert_eq!(chosen(JoinKind::RightSemi, &left, &right[..3]), Err(Refusal::Malformed));
}
