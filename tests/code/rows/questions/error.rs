//! Why a question has no answer.
use haya_line_library::InputError;
use haya_text::OutOfMemory;
use hayagriva::SelectorError;
use std::alloc::{AllocError, AllocFailed};

/// Why a question has no answer.
#[derive(Clone, Copy, Debug, PartialEq, Eq)]
pub enum RowError {
    OutOfMemory,
    /// It lacks a text, asks for what there isn't, or its library or selector isn't read.
    Malformed,
}

impl From<OutOfMemory> for RowError {
    fn from(_error: OutOfMemory) -> RowError {
        RowError::OutOfMemory
    }
}

impl From<AllocError> for RowError {
    fn from(_error: AllocError) -> RowError {
        RowError::OutOfMemory
    }
}

impl<T: Drop> From<AllocFailed<T>> for RowError {
    fn from(_error: AllocFailed<T>) -> RowError {
        RowError::OutOfMemory
    }
}

impl From<InputError> for RowError {
    fn from(_error: InputError) -> RowError {
        RowError::Malformed
    }
}

impl From<SelectorError> for RowError {
    fn from(_error: SelectorError) -> RowError {
        RowError::Malformed
    }
}
