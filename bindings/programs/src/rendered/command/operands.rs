// Rendered from crates/byte_unit_command/src/operands.rt by `tools/dev render rust`. Do not edit.

//! The operands as an input.

use crate::rattle::Vec;
use crate::rattle::alloc::{AllocError, Global};

/// Returns the operands as an input: each is a record that ends with a zero byte, which no operand contains.
///
/// # Errors
///
/// Returns `AllocError` if allocation fails.
pub fn joined(alloc: Global, operands: &[&str]) -> Result<Vec<u8>, AllocError> {
    let mut input = Vec::new(alloc);
    for operand in operands {
        input.extend_from_slice(operand.as_bytes())?;
        input.push(0)?;
    }
    Ok(input)
}
