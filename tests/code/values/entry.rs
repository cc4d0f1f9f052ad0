//! The calls of `haya_entry`.
mod ancestors;
mod calls;
mod lists;
mod lookups;
mod steps;
