//! The wrong versions that the comparison has to find: the list, and what each does otherwise than the rule.

mod list;
mod account;
mod codec;
mod call;
mod image;
mod memory;
mod text;

pub use list::{Fault, Wrong};
