//! Azwukran from Rust: a safe function over each C function of the static library. It answers the structure that the C
//! function answers; `unpack` makes a Rust type of it, or the refusal. include/azwukran.h lists the numbers of scalars,
//! types and functions, and says what each function answers and when it refuses.

mod answers;
mod linked;
mod sets;

pub use answers::{
    giver, mark, number, Chosen, ChosenAnswer, Consensus, ConsensusAnswer, Giver, MaskAnswer, Operand, Refusal,
    Regular, RegularAnswer, Rule, RuleAnswer, Run, RunAnswer, TextAnswer, TypeAnswer, NONE,
};
pub use sets::List;

/// The bytes that suffice for every worksheet.
pub const ENOUGH_ROOM: usize = 508;

/// The bytes that suffice for what is read from any text.
pub const ENOUGH_BYTES: usize = 192;

/// The bytes that suffice for the text of any expression.
pub const ENOUGH_TEXT: usize = 2112;

/// The bytes that suffice for the mask of any function's rules, or any List's.
pub const ENOUGH_MASK: usize = 8;

/// Resolves a call: the rule that `function` prefers for operands of these types and marks, and its result's mark.
#[inline]
pub fn call(function: u8, types: &[u8], marks: &[u8], concrete_only: bool) -> ChosenAnswer {
    // Safety: two slices with their lengths, which are only read.
    unsafe {
        linked::azwukran_call(function, types.as_ptr(), types.len(), marks.as_ptr(), marks.len(), concrete_only.into())
    }
}

/// Writes the mask of the rules that survive the same call to the front of `out`.
#[inline]
pub fn survivors(function: u8, types: &[u8], marks: &[u8], concrete_only: bool, out: &mut [u8]) -> MaskAnswer {
    // Safety: three slices with their lengths, the last borrowed to be written.
    unsafe {
        linked::azwukran_survivors(
            function,
            types.as_ptr(),
            types.len(),
            marks.as_ptr(),
            marks.len(),
            concrete_only.into(),
            out.as_mut_ptr(),
            out.len(),
        )
    }
}

/// One rule of a function's full listing.
#[inline]
pub fn rule(function: u8, index: u8) -> RuleAnswer {
    linked::azwukran_rule(function, index)
}

/// The scalar on which components of these types agree, from a base scalar or `NONE`, and who gave it.
#[inline]
pub fn consensus(base: u8, components: &[u8]) -> ConsensusAnswer {
    // Safety: pointer and length are one slice's, which is only read.
    unsafe { linked::azwukran_consensus(base, components.as_ptr(), components.len()) }
}

/// Types an expression and writes its worksheet to the front of `out`.
#[inline]
pub fn type_expression(bytes: &[u8], concrete_only: bool, out: &mut [u8]) -> TypeAnswer {
    // Safety: two slices with their lengths, the second borrowed to be written.
    unsafe { linked::azwukran_type(bytes.as_ptr(), bytes.len(), concrete_only.into(), out.as_mut_ptr(), out.len()) }
}

/// Reads an expression's text and writes its bytes to the front of `out`.
#[inline]
pub fn read_text(text: &[u8], out: &mut [u8]) -> TextAnswer {
    // Safety: as for `type_expression`.
    unsafe { linked::azwukran_read_text(text.as_ptr(), text.len(), out.as_mut_ptr(), out.len()) }
}

/// Writes an expression's text to the front of `out`.
#[inline]
pub fn write_text(bytes: &[u8], out: &mut [u8]) -> TextAnswer {
    // Safety: as for `type_expression`.
    unsafe { linked::azwukran_write_text(bytes.as_ptr(), bytes.len(), out.as_mut_ptr(), out.len()) }
}

/// Runs a worksheet on the strict machine.
#[inline]
pub fn run(sheet: &[u8]) -> RunAnswer {
    // Safety: as for `consensus`.
    unsafe { linked::azwukran_run(sheet.as_ptr(), sheet.len()) }
}

/// An expression's type and mark, and its worksheet.
pub fn worksheet(bytes: &[u8], concrete_only: bool) -> Result<(Operand, Vec<u8>), Refusal> {
    let mut sheet = vec![0; ENOUGH_ROOM];
    let answer = type_expression(bytes, concrete_only, &mut sheet);
    let result = answer.unpack()?;
    sheet.truncate(answer.length);
    Ok((result, sheet))
}

/// The bytes of an expression's text.
pub fn expression(text: &[u8]) -> Result<Vec<u8>, Refusal> {
    let mut bytes = vec![0; ENOUGH_BYTES];
    let length = read_text(text, &mut bytes).unpack()?;
    bytes.truncate(length);
    Ok(bytes)
}

/// The text of an expression's bytes.
pub fn text(bytes: &[u8]) -> Result<Vec<u8>, Refusal> {
    let mut text = vec![0; ENOUGH_TEXT];
    let length = write_text(bytes, &mut text).unpack()?;
    text.truncate(length);
    Ok(text)
}

/// The bytes that a mask of so many rules takes.
pub fn mask_bytes(rules: usize) -> usize {
    rules.div_ceil(8)
}

/// The indices of the rules in a mask, ascending.
pub fn members(mask: &[u8]) -> Vec<usize> {
    (0..8 * mask.len()).filter(|index| mask[index / 8] >> (index % 8) & 1 == 1).collect()
}
