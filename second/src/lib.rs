//! A second reading of the requirements, written apart from the proved crates and compared with them line by line.

pub mod calls;
pub mod element;
pub mod filter;
pub mod forms;
pub mod generator;
pub mod lines;
pub mod list;
pub mod messages;
pub mod portions;
pub mod random;
pub mod route;
pub mod script;
pub mod session;
pub mod status;
pub mod table;
pub mod text;
