//! The query file and the answer file.

#[path = "../common/mod.rs"]
mod common;

mod answers;
mod matching;
mod queries;
