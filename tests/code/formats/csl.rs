//! Libraries in CSL-JSON: an item on a line of its own, and what is told of a text. `tests/csl` tries
//! what each type and member becomes, and what is refused.
mod item_lines;
mod told;
