//! What the command `circtool` is made of. Every reply, taking-back, acceptance, page, load, comparison of two levels and answer
//! on the order of gets comes from the proved library through the crate `circmon`; what stands here reads bytes and scripts,
//! finds the words for them, and prints.

pub mod action;
mod arguments;
pub mod assemble;
mod begin;
mod bits;
pub mod cause;
pub mod cli;
pub mod companies;
pub mod compare;
pub mod difference;
pub mod disassemble;
pub mod effect;
pub mod explain;
pub mod fault;
pub mod help;
pub mod input;
mod kinds;
pub mod layout;
pub mod level;
mod load;
mod malformed;
pub mod mode;
pub mod orders;
pub mod outcome;
pub mod page;
pub mod paint;
mod phrases;
pub mod profile;
pub mod properties;
pub mod refusal;
pub mod request;
mod save;
pub mod script;
pub mod show;
pub mod taking_back;
pub mod tree;
pub mod view;
pub mod wall;
pub mod words;
