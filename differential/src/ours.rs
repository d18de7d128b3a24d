//! Azwukran's side: the library's answers as the crate `azwukran` gives them, structure for structure, and with a mask all
//! the bytes that were lent for it. The other side makes its answers of the same structures here, so that comparing is
//! `==`, over every field.

pub use azwukran::{
    call, consensus, mask_bytes, members, read_text, rule, run, type_expression, write_text, ChosenAnswer,
    ConsensusAnswer, Giver, List, MaskAnswer, Regular, RegularAnswer, Rule, RuleAnswer, RunAnswer, TextAnswer,
    TypeAnswer,
};

use crate::numbering::{Operand, NONE};

/// An answer that can be a refusal, whose other fields are then none.
pub trait Refused {
    fn refused(number: u8, place: usize) -> Self;
}

impl Refused for ChosenAnswer {
    fn refused(number: u8, place: usize) -> ChosenAnswer {
        ChosenAnswer { number, index: NONE, arguments: [NONE; 4], count: NONE, result: NONE, mark: NONE, place }
    }
}

impl Refused for RuleAnswer {
    fn refused(number: u8, place: usize) -> RuleAnswer {
        RuleAnswer { number, arguments: [NONE; 4], count: NONE, result: NONE, place }
    }
}

impl Refused for ConsensusAnswer {
    fn refused(number: u8, place: usize) -> ConsensusAnswer {
        ConsensusAnswer { number, scalar: NONE, giver: NONE, component: NONE.into(), place }
    }
}

impl Refused for TypeAnswer {
    fn refused(number: u8, place: usize) -> TypeAnswer {
        TypeAnswer { number, type_code: NONE, mark: NONE, length: NONE.into(), place }
    }
}

impl Refused for TextAnswer {
    fn refused(number: u8, place: usize) -> TextAnswer {
        TextAnswer { number, place, ..made(NONE.into()) }
    }
}

impl Refused for RegularAnswer {
    /// A refusal answers the empty set.
    fn refused(number: u8, place: usize) -> RegularAnswer {
        RegularAnswer { number, arity: 0, constructors: 0, scalars: 0, conclusion: 0, place }
    }
}

/// A rule at an index, with the mark of a call's result, or none where no call was asked.
pub fn chosen(index: u8, rule: RuleAnswer, mark: u8) -> ChosenAnswer {
    let RuleAnswer { arguments, count, result, .. } = rule;
    ChosenAnswer { number: 0, index, arguments, count, result, mark, place: 0 }
}

/// A consensus on a scalar, and who gave it. The base is no component, so none is named then.
pub fn agreed(scalar: u8, giver: Giver) -> ConsensusAnswer {
    let (giver, component) = match giver {
        Giver::Base => (azwukran::giver::BASE, NONE.into()),
        Giver::Component(component) => (azwukran::giver::COMPONENT, component),
    };
    ConsensusAnswer { number: 0, scalar, giver, component, place: 0 }
}

/// An expression that results in this, with a worksheet of so many bytes.
pub fn typed(result: Operand, length: usize) -> TypeAnswer {
    TypeAnswer { number: 0, type_code: result.code, mark: result.mark(), length, place: 0 }
}

/// Bytes or a text of this length.
pub fn made(length: usize) -> TextAnswer {
    TextAnswer { number: 0, length, place: 0 }
}

/// A worksheet that ran to its end, with so many operands, and the topmost, whose type and mark are 255 where there is none.
pub fn ended(operands: usize, top: Option<Operand>) -> RunAnswer {
    let (top, mark) = top.map_or((NONE, NONE), |operand| (operand.code, operand.mark()));
    RunAnswer { number: 0, top, mark, operands, place: 0 }
}

/// A worksheet that stopped at a line, counted from 0.
pub fn stopped(line: usize) -> RunAnswer {
    RunAnswer { number: NONE, top: NONE, mark: NONE, operands: NONE.into(), place: line }
}

/// A Regular set that is answered.
pub fn left(set: Regular) -> RegularAnswer {
    let Regular { arity, constructors, scalars, conclusion } = set;
    RegularAnswer { number: 0, arity, constructors, scalars, conclusion, place: 0 }
}

/// The part of an argument's type that a step asks about. Change request (iv) makes two steps of the crate's one.
#[derive(Clone, Copy, Debug, PartialEq, Eq)]
pub enum Part {
    /// The constructor.
    Shape,
    /// The scalar.
    Number,
}

impl Part {
    pub fn other(self) -> Part {
        match self {
            Part::Shape => Part::Number,
            Part::Number => Part::Shape,
        }
    }

    /// The refusal of a call where the step by this part of an operand leaves no rule.
    pub fn refusal(self) -> u8 {
        match self {
            Part::Shape => 6,
            Part::Number => 16,
        }
    }
}

/// What the step by this part of an argument leaves of a Regular set.
pub fn regular_arg(set: Regular, part: Part, index: usize, code: u8) -> RegularAnswer {
    match part {
        Part::Shape => set.arg_shape(index, code),
        Part::Number => set.arg_number(index, code),
    }
}

/// What the step by this part of an argument leaves of a List, as a mask.
pub fn list_arg(list: List, part: Part, index: usize, code: u8, out: &mut [u8]) -> MaskAnswer {
    match part {
        Part::Shape => list.arg_shape(index, code, out),
        Part::Number => list.arg_number(index, code, out),
    }
}

/// How many bytes are lent for a mask, some more than any mask here needs.
pub const LENT: usize = 12;

/// What stands in lent bytes before a question.
const FILL: u8 = 0xa5;

/// The answer to a question for a mask, with all the lent bytes afterwards.
#[derive(Clone, Copy, Debug, PartialEq, Eq)]
pub struct Masked {
    pub answer: MaskAnswer,
    pub lent: [u8; LENT],
}

impl Refused for Masked {
    /// On a refusal the lent bytes keep theirs.
    fn refused(number: u8, place: usize) -> Masked {
        Masked { answer: MaskAnswer { number, place }, lent: [FILL; LENT] }
    }
}

impl Masked {
    /// A mask over so many rules stands in front, low byte first, and the bytes behind it keep theirs.
    pub fn of(mask: u64, rules: usize) -> Masked {
        let mut masked = Masked::refused(0, 0);
        let needed = mask_bytes(rules);
        masked.lent[..needed].copy_from_slice(&mask.to_le_bytes()[..needed]);
        masked
    }

    /// Asks with so many of the bytes lent.
    pub fn asked(room: usize, ask: impl FnOnce(&mut [u8]) -> MaskAnswer) -> Masked {
        let mut lent = [FILL; LENT];
        let answer = ask(&mut lent[..room]);
        Masked { answer, lent }
    }
}

/// The mask of the rules of the function's full listing that survive a call.
pub fn survivors(function: u8, types: &[u8], marks: &[u8], concrete_only: bool, room: usize) -> Masked {
    Masked::asked(room, |out| azwukran::survivors(function, types, marks, concrete_only, out))
}
