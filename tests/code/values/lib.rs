//! The calls of the crates below the library at worked rows, as a caller sees them.

mod copies;
mod entry;
mod numbers;
mod people;
mod shown;
mod text;
mod time;
mod values;
