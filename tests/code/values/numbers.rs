//! The calls of `haya_numbers`.
mod numeric;
mod pages;
