//! Allocators, as types alone: all memory is of Rust's global allocator.

use std::collections::TryReserveError;
use std::io;

/// An allocation has failed.
#[derive(Debug, Clone, Copy, PartialEq, Eq)]
pub struct AllocError;

impl From<TryReserveError> for AllocError {
    fn from(_: TryReserveError) -> Self {
        AllocError
    }
}

impl From<AllocError> for io::Error {
    fn from(_: AllocError) -> Self {
        io::ErrorKind::OutOfMemory.into()
    }
}

/// An allocator.
pub trait Allocator {}

/// The global allocator.
#[derive(Debug, Clone, Copy)]
pub struct Global;

impl Allocator for Global {}

impl<A: Allocator> Allocator for &A {}
