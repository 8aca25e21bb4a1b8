//! The Rust's side of a comparison: sessions and scripts of calls, run with the classes, orderings and dependencies
//! of the Rust text.

pub mod arena;
pub mod asking;
pub mod calls;
pub mod commands;
pub mod constants;
pub mod dependencies;
pub mod driver;
pub mod group;
pub mod joining;
pub mod keys;
pub mod lines;
pub mod lists;
pub mod operation;
pub mod orderings;
pub mod projecting;
pub mod records;
pub mod refusal;
pub mod session;
pub mod shifting;
pub mod showing;
pub mod sorting;
pub mod state;
pub mod work;
