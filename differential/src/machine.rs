//! The strict machine, written in Rust from document 01 and change request (v) alone. Only the rules that a call line names
//! come from the crate. A worksheet is lines of four bytes over a stack of operands: a leaf (0, type, mark, 0), a call (1,
//! function, index, number of arguments) or a conversion (2, depth from the top, type, 0).

use crate::crate_side::{Crate, RuleCodes};
use crate::numbering::{Operand, LAST_LEAF, OPAQUE, SCALAR_COUNT};
use crate::ours::{self, RunAnswer};

/// The bytes of a line.
pub const LINE: usize = 4;

/// The most operands on the stack.
const MOST_OPERANDS: usize = 64;

/// Runs a worksheet.
pub fn run(rules: &Crate, sheet: &[u8]) -> RunAnswer {
    let mut stack = Vec::new();
    for (line, bytes) in sheet.chunks(LINE).enumerate() {
        if obey(rules, bytes, &mut stack).is_none() {
            return ours::stopped(line);
        }
    }
    ours::ended(stack.len(), stack.last().copied())
}

/// Obeys one line, or stops.
pub fn obey(rules: &Crate, line: &[u8], stack: &mut Vec<Operand>) -> Option<()> {
    match *line {
        [0, code, 0, 0] if code <= LAST_LEAF => push(stack, Operand { code, measured: false }),
        [0, code, 1, 0] if code <= LAST_LEAF && !is_abstract(code) => push(stack, Operand { code, measured: true }),
        [1, function, index, count] => {
            let rule = rules.listing(function).get(usize::from(index))?;
            apply(stack, rule, usize::from(count))
        }
        [2, depth, wanted, 0] => {
            let operand = stack.iter_mut().rev().nth(usize::from(depth))?;
            if operand.code == wanted || !converts(operand.code, wanted) {
                return None;
            }
            operand.code = wanted;
            Some(())
        }
        _ => None,
    }
}

fn push(stack: &mut Vec<Operand>, operand: Operand) -> Option<()> {
    if stack.len() == MOST_OPERANDS {
        return None;
    }
    stack.push(operand);
    Some(())
}

/// Replaces a rule's operands by its result, if they are exactly the rule's. The result is measured if one of them is, and
/// then no argument may be abstract.
fn apply(stack: &mut Vec<Operand>, rule: &RuleCodes, count: usize) -> Option<()> {
    let below = stack.len().checked_sub(count)?;
    let operands = &stack[below..];
    if !operands.iter().map(|operand| operand.code).eq(rule.arguments.iter().copied()) {
        return None;
    }
    let measured = operands.iter().any(|operand| operand.measured);
    if measured && rule.arguments.iter().any(|&argument| is_abstract(argument)) {
        return None;
    }
    stack.truncate(below);
    push(stack, Operand { code: rule.result, measured })
}

/// Whether a leaf's or an argument's scalar is ABSTRACT_INT (0) or ABSTRACT_FLOAT (1).
fn is_abstract(code: u8) -> bool {
    code < OPAQUE && matches!(code % SCALAR_COUNT, 0 | 1)
}

/// Whether a type converts to another: the same constructor, and the scalar converts.
fn converts(from: u8, to: u8) -> bool {
    from < OPAQUE
        && to < OPAQUE
        && from / SCALAR_COUNT == to / SCALAR_COUNT
        && scalar_converts(from % SCALAR_COUNT, to % SCALAR_COUNT)
}

/// Document 01's conversion: a concrete scalar only to itself, ABSTRACT_INT (0) to every integer and float,
/// ABSTRACT_FLOAT (1) to every float. BOOL (11) is neither.
fn scalar_converts(from: u8, to: u8) -> bool {
    match from {
        0 => to <= 10,
        1 => matches!(to, 1 | 8..=10),
        concrete => concrete == to,
    }
}
