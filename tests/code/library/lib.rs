//! The calls of `hayagriva` and of `haya_run` at worked rows, as a caller sees them.

mod apply;
mod assignment;
mod copies;
mod deep;
mod library;
mod query;
mod running;
mod works;
