//! A judge for document 01: it answers cases from the published code, makes
//! cases from a seed, and compares a command's answers with its own.

pub mod asking;
pub mod batches;
pub mod builds;
pub mod compare;
pub mod faults;
pub mod generate;
pub mod lists;
pub mod options;
pub mod paths;
pub mod records;
pub mod run;
pub mod sheet;
pub mod shrink;
pub mod walk;
pub mod walks;
pub mod words;
