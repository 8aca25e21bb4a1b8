//! Reading records: a body length, a kind, the body; little-endian.

use crate::arena::Node;
use crate::keys::Key;
use crate::orderings::MOST_KEYS;
use crate::refusal::Refusal;

const HEADER: usize = 4;

/// What a record of a kind from 1 to 8 asks for. Expressions are numbers of nodes.
#[derive(Debug)]
pub enum Record {
    Add(Node),
    EqualPair(usize, usize),
    Constant { expression: usize, flavour: u16, value: u32 },
    NormalForm(usize),
    Equality(usize, usize),
    Ordering(Vec<Key>),
}

/// The record at the start of `bytes`, and the bytes after it.
pub fn read(bytes: &[u8]) -> Result<(Record, &[u8]), Refusal> {
    let (header, rest) = bytes.split_at_checked(HEADER).ok_or(Refusal::Malformed)?;
    let (length, kind) = (number16(&header[..2]), number16(&header[2..]));
    let (body, rest) = rest.split_at_checked(usize::from(length)).ok_or(Refusal::Malformed)?;
    Ok((record(kind, body)?, rest))
}

/// The record of this kind with this body.
fn record(kind: u16, body: &[u8]) -> Result<Record, Refusal> {
    let read = match (kind, body.len()) {
        (1, 4) => Record::Add(Node::Column { name: number16(&body[..2]), index: number16(&body[2..]) }),
        (2, 4) => Record::Add(Node::Literal { value: number32(body) }),
        (3, 4..) if body.len() % 2 == 0 => {
            Record::Add(Node::Operation { label: number32(&body[..4]), children: expressions(&body[4..]) })
        }
        (4, 4) => Record::EqualPair(expression(&body[..2]), expression(&body[2..])),
        (5, 8) => Record::Constant {
            expression: expression(&body[..2]),
            flavour: number16(&body[2..4]),
            value: number32(&body[4..]),
        },
        (6, 2) => Record::NormalForm(expression(body)),
        (7, 4) => Record::Equality(expression(&body[..2]), expression(&body[2..])),
        (8, 4..) if body.len() % 4 == 0 && body.len() <= 4 * MOST_KEYS => Record::Ordering(keys(body)),
        _ => return Err(Refusal::Malformed),
    };
    Ok(read)
}

fn number16(bytes: &[u8]) -> u16 {
    u16::from_le_bytes(bytes.try_into().expect("two bytes"))
}

fn number32(bytes: &[u8]) -> u32 {
    u32::from_le_bytes(bytes.try_into().expect("four bytes"))
}

/// An expression is 16 bits.
fn expression(bytes: &[u8]) -> usize {
    usize::from(number16(bytes))
}

fn expressions(bytes: &[u8]) -> Vec<usize> {
    bytes.chunks(2).map(expression).collect()
}

/// A key is an expression and its options.
fn keys(bytes: &[u8]) -> Vec<Key> {
    bytes
        .chunks(4)
        .map(|key| Key { expression: expression(&key[..2]), options: number16(&key[2..]).into() })
        .collect()
}
