//! WGSL's ranks of conversions, and what they say of the rule that a side prefers. Change request (vi) has the ranks; they
//! are written down here, and neither the crate nor the library is asked for them, or for what converts.

use crate::crate_side::{Choice, RuleCodes};
use crate::numbering::{OPAQUE, SCALAR_COUNT};

const ABSTRACT_INT: u8 = 0;
const ABSTRACT_FLOAT: u8 = 1;
const I32: u8 = 2;
const I16: u8 = 3;
const I64: u8 = 4;
const U32: u8 = 5;
const U16: u8 = 6;
const U64: u8 = 7;
const F32: u8 = 8;
const F16: u8 = 9;
const F64: u8 = 10;
const BOOL: u8 = 11;

/// The scalars that WGSL has. The other five are the crate's own.
pub const WGSL: [u8; 7] = [ABSTRACT_INT, ABSTRACT_FLOAT, I32, U32, F32, F16, BOOL];

/// Whether all of these types are over WGSL's scalars, whatever their constructors are.
pub fn over_wgsl(types: &[u8]) -> bool {
    types.iter().all(|&code| code < OPAQUE && WGSL.contains(&(code % SCALAR_COUNT)))
}

/// The rank of the conversion of one type to another; none where there is no such conversion. A vector or a matrix ranks as
/// its scalar does.
fn rank(from: u8, to: u8) -> Option<u8> {
    if from == to {
        return Some(0);
    }
    if from / SCALAR_COUNT != to / SCALAR_COUNT {
        return None;
    }
    match (from % SCALAR_COUNT, to % SCALAR_COUNT) {
        (ABSTRACT_FLOAT, F32) => Some(1),
        (ABSTRACT_FLOAT, F16) => Some(2),
        (ABSTRACT_INT, I32) => Some(3),
        (ABSTRACT_INT, U32) => Some(4),
        (ABSTRACT_INT, ABSTRACT_FLOAT) => Some(5),
        (ABSTRACT_INT, F32) => Some(6),
        (ABSTRACT_INT, F16) => Some(7),
        _ => None,
    }
}

/// The ranks of a rule, one for each operand; none where the rule does not take these operands.
pub fn ranks(operands: &[u8], rule: &RuleCodes) -> Option<Vec<u8>> {
    if operands.len() != rule.arguments.len() {
        return None;
    }
    operands.iter().zip(&rule.arguments).map(|(&from, &to)| rank(from, to)).collect()
}

/// Whether the first ranks are at most as high for every operand, and lower for one.
fn outranks(ranks: &[u8], others: &[u8]) -> bool {
    let pairs = || ranks.iter().zip(others);
    pairs().all(|(rank, other)| rank <= other) && pairs().any(|(rank, other)| rank < other)
}

/// What the ranks say of the rule that a side prefers among those that survive.
#[derive(Debug, Default, PartialEq, Eq)]
pub struct Verdict {
    /// Whether its arguments are over WGSL's scalars.
    pub over_wgsl: bool,
    /// How many times it is among the survivors.
    pub listed: usize,
    /// The survivors over WGSL's scalars that outrank it.
    pub outranked_by: Vec<RuleCodes>,
    /// The survivors over WGSL's scalars that are neither this rule nor outranked by it.
    pub beside: Vec<RuleCodes>,
    /// The survivors over WGSL's scalars that have no rank for some operand.
    pub unranked: Vec<RuleCodes>,
}

impl Verdict {
    pub fn of(operands: &[u8], choice: &Choice) -> Verdict {
        let Choice { preferred, survivors } = choice;
        let mut verdict = Verdict {
            over_wgsl: over_wgsl(&preferred.arguments),
            listed: survivors.iter().filter(|&rule| rule == preferred).count(),
            ..Verdict::default()
        };
        let own = ranks(operands, preferred);
        for rule in survivors.iter().filter(|rule| over_wgsl(&rule.arguments)) {
            let Some(other) = ranks(operands, rule) else {
                verdict.unranked.push(rule.clone());
                continue;
            };
            if own.as_ref().is_some_and(|own| outranks(&other, own)) {
                verdict.outranked_by.push(rule.clone());
            }
            if rule != preferred && !own.as_ref().is_some_and(|own| outranks(own, &other)) {
                verdict.beside.push(rule.clone());
            }
        }
        verdict
    }

    /// That of a rule which outranks every other survivor over WGSL's scalars, and is so many times among them.
    pub fn best(listed: usize) -> Verdict {
        Verdict { over_wgsl: true, listed, ..Verdict::default() }
    }

    /// Whether the rule is WGSL's: over its scalars, and outranked by no survivor that is.
    pub fn is_wgsl(&self) -> bool {
        self.over_wgsl && self.outranked_by.is_empty()
    }
}

/// Whether a mask of scalars is fair: a Regular set over it is to prefer WGSL's rule for all operands over WGSL's scalars,
/// with the concrete-only step and without it.
pub fn is_fair(scalars: u16) -> bool {
    let any = |members: &[u8]| members.iter().any(|scalar| scalars >> scalar & 1 == 1);
    let needs = |members: bool, others: &[u8]| !members || any(others);
    needs(any(&[ABSTRACT_FLOAT]) && any(&[I32, U32]), &[ABSTRACT_INT])
        && needs(any(&[I16, I64]), &[I32])
        && needs(any(&[U16, U64]), &[I32, U32])
        && needs(any(&[F64]), &[F32, F16])
}
