//! The tests of the calls of the crates of formats: libraries in JSON and CSL-JSON, their elements,
//! and entries as lines.

mod csl;
mod elements;
mod flushes;
mod json;
mod notes;
mod open_entries;
mod printing;
mod runs;
mod slices;
mod streams;
