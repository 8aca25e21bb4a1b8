//! The commands of a script, one a line.

use std::str::FromStr;

use crate::arena::Node;
use crate::dependencies::Insert;
use crate::group::MOST_MEMBERS;
use crate::joining::JoinRule;
use crate::keys::Key;
use crate::lists::ListedClass;
use crate::projecting::MappedSource;
use crate::showing::NONE;

const LONGEST_NAME: usize = 8;

/// What stands for no expression in the library.
const NO_EXPRESSION: usize = u32::MAX as usize;

/// What a line asks for. Expressions are numbers of nodes; groups, mappings, lists of orderings and dependency maps are
/// named.
#[derive(Debug)]
pub enum Command<'a> {
    Reset,
    Add(Node),
    Shift { expression: usize, offset: i64 },
    Arena,
    Open { group: &'a str, limit: u32 },
    New { group: &'a str, list: Vec<ListedClass> },
    AddEqual { group: &'a str, left: usize, right: usize },
    AddConstant { group: &'a str, expression: usize, flavour: u32, value: u32 },
    Clear { group: &'a str },
    IsConstant { group: &'a str, expression: usize },
    AreEqual { group: &'a str, left: usize, right: usize },
    ClassOf { group: &'a str, expression: usize },
    NormalForm { group: &'a str, expression: usize },
    NormalKey { group: &'a str, key: Key },
    NormalKeys { group: &'a str, keys: Vec<Key> },
    Join { made: &'a str, left: &'a str, right: &'a str, rule: JoinRule },
    Show { group: &'a str },
    Map { mapping: &'a str, sources: Vec<MappedSource> },
    ProjectExpr { group: &'a str, mapping: &'a str, expression: usize },
    ProjectExpressions { group: &'a str, mapping: &'a str, expressions: Vec<usize> },
    Project { made: &'a str, group: &'a str, mapping: &'a str },
    NewOrderings { made: &'a str, lists: Vec<Vec<Key>> },
    AddOrderings { orderings: &'a str, lists: Vec<Vec<Key>> },
    ExtendOrderings { orderings: &'a str, lists: Vec<Vec<Key>> },
    ClearOrderings { orderings: &'a str },
    ShowOrderings { orderings: &'a str },
    OutputOrdering { orderings: &'a str },
    JoinSuffix { made: &'a str, left: &'a str, right: &'a str },
    AddOffset { orderings: &'a str, offset: i64 },
    OptionsOf { orderings: &'a str, expression: usize },
    IsPartialConst { orderings: &'a str, expression: usize },
    OpenMap { map: &'a str },
    Insert { map: &'a str, insert: Insert },
    ShowMap { map: &'a str },
    Prefixes { map: &'a str, key: Key },
    Generate { map: &'a str, keys: Vec<Key> },
}

/// The command of a line's words, or none where they are no command.
pub fn parse<'a>(words: &[&'a str]) -> Option<Command<'a>> {
    let command = match *words {
        ["reset"] => Command::Reset,
        ["col", name, index] => Command::Add(Node::Column { name: number(name)?, index: number(index)? }),
        ["lit", value] => Command::Add(Node::Literal { value: number(value)? }),
        ["op", label, ref children @ ..] => {
            Command::Add(Node::Operation { label: number(label)?, children: expressions(children)? })
        }
        ["off", shifted, by] => Command::Shift { expression: expression(shifted)?, offset: offset(by)? },
        ["arena"] => Command::Arena,
        ["group", group] => Command::Open { group: name(group)?, limit: MOST_MEMBERS as u32 },
        ["group", group, limit] => Command::Open { group: name(group)?, limit: number(limit)? },
        ["new", group, ref list @ ..] => Command::New { group: name(group)?, list: all(list, listed_class)? },
        ["eq", group, left, right] => {
            Command::AddEqual { group: name(group)?, left: expression(left)?, right: expression(right)? }
        }
        ["const", group, constant, flavour, value] => Command::AddConstant {
            group: name(group)?,
            expression: expression(constant)?,
            flavour: number(flavour)?,
            value: number(value)?,
        },
        ["clear", group] => Command::Clear { group: name(group)? },
        ["isconst", group, asked] => Command::IsConstant { group: name(group)?, expression: expression(asked)? },
        ["equal", group, left, right] => {
            Command::AreEqual { group: name(group)?, left: expression(left)?, right: expression(right)? }
        }
        ["class", group, asked] => Command::ClassOf { group: name(group)?, expression: expression(asked)? },
        ["nf", group, asked] => Command::NormalForm { group: name(group)?, expression: expression(asked)? },
        ["nfkey", group, asked] => Command::NormalKey { group: name(group)?, key: key(asked)? },
        ["nfkeys", group, asked] => Command::NormalKeys { group: name(group)?, keys: keys(asked)? },
        ["join", made, left, right, kind, left_size, ref pairs @ ..] => Command::Join {
            made: name(made)?,
            left: name(left)?,
            right: name(right)?,
            rule: JoinRule { kind: number(kind)?, left_size: number(left_size)?, pairs: all(pairs, equal_pair)? },
        },
        ["show", group] => Command::Show { group: name(group)? },
        ["map", mapping, ref sources @ ..] => {
            Command::Map { mapping: name(mapping)?, sources: all(sources, mapped_source)? }
        }
        ["projexpr", group, mapping, asked] => {
            Command::ProjectExpr { group: name(group)?, mapping: name(mapping)?, expression: expression(asked)? }
        }
        ["projexprs", group, mapping, ref asked @ ..] => Command::ProjectExpressions {
            group: name(group)?,
            mapping: name(mapping)?,
            expressions: expressions(asked)?,
        },
        ["project", made, group, mapping] => {
            Command::Project { made: name(made)?, group: name(group)?, mapping: name(mapping)? }
        }
        ["onew", made, ref lists @ ..] => Command::NewOrderings { made: name(made)?, lists: all(lists, lent_keys)? },
        ["oadd", orderings, ref lists @ ..] => {
            Command::AddOrderings { orderings: name(orderings)?, lists: all(lists, lent_keys)? }
        }
        ["oext", orderings, ref lists @ ..] => {
            Command::ExtendOrderings { orderings: name(orderings)?, lists: all(lists, lent_keys)? }
        }
        ["clearord", orderings] => Command::ClearOrderings { orderings: name(orderings)? },
        ["oshow", orderings] => Command::ShowOrderings { orderings: name(orderings)? },
        ["oout", orderings] => Command::OutputOrdering { orderings: name(orderings)? },
        ["ojoin", made, left, right] => {
            Command::JoinSuffix { made: name(made)?, left: name(left)?, right: name(right)? }
        }
        ["ooff", orderings, by] => Command::AddOffset { orderings: name(orderings)?, offset: offset(by)? },
        ["oopt", orderings, asked] => {
            Command::OptionsOf { orderings: name(orderings)?, expression: expression(asked)? }
        }
        ["opart", orderings, asked] => {
            Command::IsPartialConst { orderings: name(orderings)?, expression: expression(asked)? }
        }
        ["dmap", map] => Command::OpenMap { map: name(map)? },
        ["dins", map, given, target, dependency] => Command::Insert {
            map: name(map)?,
            insert: Insert { key: key(given)?, target: key_or_none(target)?, dependency: key_or_none(dependency)? },
        },
        ["dshow", map] => Command::ShowMap { map: name(map)? },
        ["dprefix", map, asked] => Command::Prefixes { map: name(map)?, key: key(asked)? },
        ["dgen", map, asked] => Command::Generate { map: name(map)?, keys: keys(asked)? },
        _ => return None,
    };
    Some(command)
}

/// A number that fits its type: decimal digits, without a sign.
fn number<T: FromStr>(word: &str) -> Option<T> {
    if all_digits(word) { word.parse().ok() } else { None }
}

/// A signed number of 64 bits: digits, or a minus and digits.
fn offset(word: &str) -> Option<i64> {
    if all_digits(word.strip_prefix('-').unwrap_or(word)) { word.parse().ok() } else { None }
}

fn all_digits(word: &str) -> bool {
    word.bytes().all(|byte| byte.is_ascii_digit())
}

/// An expression is a number of 32 bits, known or not.
fn expression(word: &str) -> Option<usize> {
    number::<u32>(word).map(|number| number as usize)
}

fn expressions(words: &[&str]) -> Option<Vec<usize>> {
    all(words, expression)
}

/// A state's name: capital letters and digits, a letter first.
fn name(word: &str) -> Option<&str> {
    let known = |byte: u8| byte.is_ascii_uppercase() || byte.is_ascii_digit();
    let lettered = word.starts_with(|first: char| first.is_ascii_uppercase());
    (lettered && word.len() <= LONGEST_NAME && word.bytes().all(known)).then_some(word)
}

/// A class of a list, `F:V:E,E,..`.
fn listed_class(word: &str) -> Option<ListedClass> {
    let (flavour, rest) = word.split_once(':')?;
    let (value, members) = rest.split_once(':')?;
    Some(ListedClass { flavour: number(flavour)?, value: number(value)?, members: joined_expressions(members)? })
}

/// A source of a mapping and its targets, `S=T,T,..`.
fn mapped_source(word: &str) -> Option<MappedSource> {
    let (source, targets) = word.split_once('=')?;
    Some(MappedSource { source: expression(source)?, targets: joined_expressions(targets)? })
}

/// The expressions between commas, `E,E,..`, or none of nothing.
fn joined_expressions(word: &str) -> Option<Vec<usize>> {
    let words: Vec<&str> = if word.is_empty() { Vec::new() } else { word.split(',').collect() };
    expressions(&words)
}

/// A pair of a join, `A=B`.
fn equal_pair(word: &str) -> Option<(usize, usize)> {
    let (left, right) = word.split_once('=')?;
    Some((expression(left)?, expression(right)?))
}

/// A sort key, `E:O`.
fn key(word: &str) -> Option<Key> {
    let (asked, options) = word.split_once(':')?;
    Some(Key { expression: expression(asked)?, options: number(options)? })
}

/// A sort key whose two numbers are lent as numbers of 16 bits.
fn lent_key(word: &str) -> Option<Key> {
    let (asked, options) = word.split_once(':')?;
    Some(Key { expression: number::<u16>(asked)?.into(), options: number::<u16>(options)?.into() })
}

/// A sort key, or none of `-`. The number that stands for none in the library can't be said.
fn key_or_none(word: &str) -> Option<Option<Key>> {
    if word == NONE { Some(None) } else { key(word).filter(|key| key.expression != NO_EXPRESSION).map(Some) }
}

/// Sort keys, `KEY,KEY,..`, or none of `-`.
fn keys(word: &str) -> Option<Vec<Key>> {
    keys_by(word, key)
}

/// Sort keys whose numbers are lent as numbers of 16 bits.
fn lent_keys(word: &str) -> Option<Vec<Key>> {
    keys_by(word, lent_key)
}

fn keys_by(word: &str, key: impl Fn(&str) -> Option<Key>) -> Option<Vec<Key>> {
    if word == NONE { Some(Vec::new()) } else { word.split(',').map(key).collect() }
}

/// What each word says, if all say something.
fn all<T>(words: &[&str], read: impl Fn(&str) -> Option<T>) -> Option<Vec<T>> {
    words.iter().map(|word| read(word)).collect()
}
