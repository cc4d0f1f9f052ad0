//! A range that is made.
use super::calls::asks;
use super::marks::Memory::Taken;
use super::marks::Row;
use super::shown::Told;
use haya_numbers::Numeric;
use haya_text::OutOfMemory;
use std::alloc::Global;
use std::io::Print;
use std::process::Abort;

fn from_range(alloc: Global) -> Result<bool, OutOfMemory> {
    Ok(Numeric::from_range(alloc, 1..4)?.is_told("1–4"))
}

pub(crate) fn a_range(rt: &(impl Abort + AllocGlobal + Print)) {
    asks!(
        rt,
        Row("Numeric::from_range", "1 to 4", Taken),
        from_range(rt.alloc())
    );
}
