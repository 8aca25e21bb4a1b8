//! A script of calls: commands one after the other, and the lines that they print. The calls are those of the
//! Rust text; numbers of nodes and refusals are document 01's.

mod dependencies;
mod expressions;
mod groups;
mod orderings;
mod projections;

use crate::commands::{self, Command};
use crate::lines::Lines;
use crate::refusal::Refusal;
use crate::showing::print_nodes;
use crate::state::State;

/// What stands between words.
const BLANKS: [char; 6] = [' ', '\t', '\n', '\x0b', '\x0c', '\r'];

#[derive(Default)]
struct Calls {
    state: State,
    lines: Lines,
}

/// The lines that the script prints.
pub fn run(script: &[u8]) -> Vec<u8> {
    let mut calls = Calls::default();
    script.split(|byte| *byte == b'\n').for_each(|line| calls.take_line(line));
    calls.lines.into_bytes()
}

/// The line up to its comment.
fn without_comment(line: &[u8]) -> &[u8] {
    line.split(|byte| *byte == b'#').next().unwrap_or(line)
}

impl Calls {
    /// Does what one line asks for. An empty line asks for nothing; one that is no command is printed.
    fn take_line(&mut self, line: &[u8]) {
        let Ok(text) = str::from_utf8(without_comment(line)) else {
            return self.print_no_command(line);
        };
        let words: Vec<&str> = text.split(BLANKS).filter(|word| !word.is_empty()).collect();
        match commands::parse(&words) {
            _ if words.is_empty() => {}
            Some(command) if self.state.has_room_for(&command) => self.take_or_refuse(command),
            _ => self.print_no_command(line),
        }
    }

    fn print_no_command(&mut self, line: &[u8]) {
        self.lines.print_bytes(&[b"! ", line].concat());
    }

    /// Does what one command asks for, or prints the refusal; then nothing has changed.
    fn take_or_refuse(&mut self, command: Command) {
        if let Err(refusal) = self.take(command) {
            self.lines.print(format_args!("r {}", refusal as u8));
        }
    }

    fn take(&mut self, command: Command) -> Result<(), Refusal> {
        match command {
            Command::Reset => self.reset(),
            Command::Add(node) => self.add(node)?,
            Command::Shift { expression, offset } => self.add_shifted(expression, offset)?,
            Command::Arena => print_nodes(&self.state.arena, &mut self.lines),
            Command::Open { group, limit } => self.open(group, limit)?,
            Command::New { group, list } => self.new_group(group, &list)?,
            Command::AddEqual { group, left, right } => self.add_equal(group, left, right)?,
            Command::AddConstant { group, expression, flavour, value } => {
                self.add_constant(group, expression, flavour, value)?
            }
            Command::Clear { group } => self.clear(group)?,
            Command::IsConstant { group, expression } => self.print_constant(group, expression)?,
            Command::AreEqual { group, left, right } => self.print_equality(group, left, right)?,
            Command::ClassOf { group, expression } => self.print_class(group, expression)?,
            Command::NormalForm { group, expression } => self.print_normal_form(group, expression)?,
            Command::NormalKey { group, key } => self.print_normal_key(group, key)?,
            Command::NormalKeys { group, keys } => self.print_normal_keys(group, &keys)?,
            Command::Join { made, left, right, rule } => self.join(made, left, right, &rule)?,
            Command::Show { group } => self.print_group(group),
            Command::Map { mapping, sources } => self.keep_mapping(mapping, sources),
            Command::ProjectExpr { group, mapping, expression } => {
                self.print_projection(group, mapping, expression)?
            }
            Command::ProjectExpressions { group, mapping, expressions } => {
                self.print_projections(group, mapping, &expressions)?
            }
            Command::Project { made, group, mapping } => self.project(made, group, mapping)?,
            Command::NewOrderings { made, lists } => self.new_orderings(made, &lists)?,
            Command::AddOrderings { orderings, lists } => self.add_orderings(orderings, &lists)?,
            Command::ExtendOrderings { orderings, lists } => self.extend_orderings(orderings, &lists)?,
            Command::ClearOrderings { orderings } => self.clear_orderings(orderings)?,
            Command::ShowOrderings { orderings } => self.print_kept_orderings(orderings),
            Command::OutputOrdering { orderings } => self.print_output_ordering(orderings)?,
            Command::JoinSuffix { made, left, right } => self.join_suffix(made, left, right)?,
            Command::AddOffset { orderings, offset } => self.add_offset(orderings, offset)?,
            Command::OptionsOf { orderings, expression } => self.print_options(orderings, expression)?,
            Command::IsPartialConst { orderings, expression } => self.print_partial_const(orderings, expression)?,
            Command::OpenMap { map } => self.open_map(map),
            Command::Insert { map, insert } => self.insert(map, &insert)?,
            Command::ShowMap { map } => self.print_map(map),
            Command::Prefixes { map, key } => self.print_prefixes(map, key)?,
            Command::Generate { map, keys } => self.print_generated(map, &keys)?,
        }
        Ok(())
    }

    fn reset(&mut self) {
        self.state = State::default();
        self.print_ok();
    }

    fn print_ok(&mut self) {
        self.lines.print(format_args!("ok"));
    }
}
