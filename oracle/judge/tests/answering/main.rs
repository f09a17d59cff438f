//! The judge's answers, and the cases that it makes.

mod builds;
mod cascades;
mod examples;
mod files;
mod walks;
