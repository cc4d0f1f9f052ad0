//! The calls of `haya_text`.
mod cursor;
mod long;
mod strings;
