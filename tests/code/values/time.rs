//! The calls of `haya_time`.
mod dates;
mod durations;
