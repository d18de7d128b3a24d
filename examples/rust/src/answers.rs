//! What the library answers: the structures of include/azwukran.h, field for field, and what each unpacks to, the accepted
//! answer as a Rust type or the refusal.

use std::error::Error;
use std::fmt;

/// The number that stands for none.
pub const NONE: u8 = 255;

/// The numbers of answers. The header says when a question is refused by each, and what its place then is.
pub mod number {
    pub const ACCEPTED: u8 = 0;
    pub const EMPTY: u8 = 1;
    pub const SEVERAL: u8 = 2;
    pub const TOO_MANY: u8 = 3;
    pub const NO_ARGUMENT: u8 = 4;
    pub const COUNT: u8 = 5;
    pub const SHAPE: u8 = 6;
    pub const UNKNOWN: u8 = 7;
    pub const MALFORMED: u8 = 8;
    pub const TOO_LARGE: u8 = 9;
    pub const ROOM: u8 = 10;
    pub const NOTHING: u8 = 11;
    pub const DISAGREE: u8 = 12;
    pub const OUTSIDE: u8 = 13;
    pub const UNKNOWN_RUN: u8 = 14;
    pub const MISPLACED: u8 = 15;
    pub const NUMBER_TYPE: u8 = 16;
    pub const MEASURED_ABSTRACT: u8 = 17;
    /// That of a run that stopped.
    pub const STOPPED: u8 = 255;
}

/// The marks of operands and results.
pub mod mark {
    pub const CONSTANT: u8 = 0;
    pub const MEASURED: u8 = 1;
}

/// The numbers of who gave the scalar of a consensus.
pub mod giver {
    pub const BASE: u8 = 0;
    pub const COMPONENT: u8 = 1;
}

/// A chosen rule, with its index in the function's full listing or among the rules handed in. The mark is that of a call's
/// result, and 255 where no call was asked.
#[repr(C)]
#[derive(Clone, Copy, Debug, PartialEq, Eq)]
pub struct ChosenAnswer {
    pub number: u8,
    pub index: u8,
    pub arguments: [u8; 4],
    pub count: u8,
    pub result: u8,
    pub mark: u8,
    pub place: usize,
}

/// A rule; arguments that it has not are 255.
#[repr(C)]
#[derive(Clone, Copy, Debug, PartialEq, Eq)]
pub struct RuleAnswer {
    pub number: u8,
    pub arguments: [u8; 4],
    pub count: u8,
    pub result: u8,
    pub place: usize,
}

/// A Regular set, by its parts; on a refusal the empty one.
#[repr(C)]
#[derive(Clone, Copy, Debug, PartialEq, Eq)]
pub struct RegularAnswer {
    pub number: u8,
    pub arity: u8,
    pub constructors: u16,
    pub scalars: u16,
    pub conclusion: u8,
    pub place: usize,
}

/// The scalar of a consensus, and who gave it: the base, with 255 for the component, or a component, with its index.
#[repr(C)]
#[derive(Clone, Copy, Debug, PartialEq, Eq)]
pub struct ConsensusAnswer {
    pub number: u8,
    pub scalar: u8,
    pub giver: u8,
    pub component: usize,
    pub place: usize,
}

/// The type and the mark of an expression, and the length of its worksheet in bytes.
#[repr(C)]
#[derive(Clone, Copy, Debug, PartialEq, Eq)]
pub struct TypeAnswer {
    pub number: u8,
    pub type_code: u8,
    pub mark: u8,
    pub length: usize,
    pub place: usize,
}

/// The length of what was read or written, in bytes.
#[repr(C)]
#[derive(Clone, Copy, Debug, PartialEq, Eq)]
pub struct TextAnswer {
    pub number: u8,
    pub length: usize,
    pub place: usize,
}

/// How a worksheet ran: to its end, with the type and the mark of the topmost operand, 255 where there is none, or, with
/// number 255, to the line that is the place.
#[repr(C)]
#[derive(Clone, Copy, Debug, PartialEq, Eq)]
pub struct RunAnswer {
    pub number: u8,
    pub top: u8,
    pub mark: u8,
    pub operands: usize,
    pub place: usize,
}

/// Whether a mask was written.
#[repr(C)]
#[derive(Clone, Copy, Debug, PartialEq, Eq)]
pub struct MaskAnswer {
    pub number: u8,
    pub place: usize,
}

/// A refusal: its number, 1 to 17, and its place.
#[derive(Clone, Copy, Debug, PartialEq, Eq)]
pub struct Refusal {
    pub number: u8,
    pub place: usize,
}

/// A rule in type codes.
#[derive(Clone, Debug, PartialEq, Eq)]
pub struct Rule {
    pub arguments: Vec<u8>,
    pub result: u8,
}

/// A rule and its index, and whether the result of a call by it is measured; none where no call was asked.
#[derive(Clone, Debug, PartialEq, Eq)]
pub struct Chosen {
    pub index: u8,
    pub rule: Rule,
    pub measured: Option<bool>,
}

/// An operand, or what an expression results in: a type, and whether it is measured.
#[derive(Clone, Copy, Debug, PartialEq, Eq)]
pub struct Operand {
    pub type_code: u8,
    pub measured: bool,
}

/// A Regular set made by hand, by its parts.
#[derive(Clone, Copy, Debug, PartialEq, Eq)]
pub struct Regular {
    pub arity: u8,
    pub constructors: u16,
    pub scalars: u16,
    pub conclusion: u8,
}

/// The scalar of a consensus, and who gave it.
#[derive(Clone, Copy, Debug, PartialEq, Eq)]
pub struct Consensus {
    pub scalar: u8,
    pub giver: Giver,
}

/// Who gave the scalar of a consensus.
#[derive(Clone, Copy, Debug, PartialEq, Eq)]
pub enum Giver {
    /// The base, which already was that scalar.
    Base,
    /// The first component whose scalar it is, counted from 0.
    Component(usize),
}

/// How a worksheet ran on the strict machine.
#[derive(Clone, Copy, Debug, PartialEq, Eq)]
pub enum Run {
    /// To its end, with so many operands left, and the topmost.
    Ended { operands: usize, top: Option<Operand> },
    /// It stopped at this line, counted from 0.
    Stopped { line: usize },
}

impl ChosenAnswer {
    pub fn unpack(self) -> Result<Chosen, Refusal> {
        accepted(self.number, self.place)?;
        let rule = unpacked_rule(self.arguments, self.count, self.result);
        let measured = (self.mark != NONE).then_some(self.mark == mark::MEASURED);
        Ok(Chosen { index: self.index, rule, measured })
    }
}

impl RuleAnswer {
    pub fn unpack(self) -> Result<Rule, Refusal> {
        accepted(self.number, self.place)?;
        Ok(unpacked_rule(self.arguments, self.count, self.result))
    }

    /// The rule in six bytes, as a List takes it.
    pub fn bytes(self) -> [u8; 6] {
        let [a0, a1, a2, a3] = self.arguments;
        [a0, a1, a2, a3, self.count, self.result]
    }
}

impl RegularAnswer {
    pub fn unpack(self) -> Result<Regular, Refusal> {
        accepted(self.number, self.place)?;
        let RegularAnswer { arity, constructors, scalars, conclusion, .. } = self;
        Ok(Regular { arity, constructors, scalars, conclusion })
    }
}

impl ConsensusAnswer {
    pub fn unpack(self) -> Result<Consensus, Refusal> {
        accepted(self.number, self.place)?;
        let giver = if self.giver == giver::BASE { Giver::Base } else { Giver::Component(self.component) };
        Ok(Consensus { scalar: self.scalar, giver })
    }
}

impl TypeAnswer {
    pub fn unpack(self) -> Result<Operand, Refusal> {
        accepted(self.number, self.place).map(|()| operand(self.type_code, self.mark))
    }
}

impl TextAnswer {
    pub fn unpack(self) -> Result<usize, Refusal> {
        accepted(self.number, self.place).map(|()| self.length)
    }
}

impl RunAnswer {
    pub fn unpack(self) -> Run {
        if self.number == number::STOPPED {
            Run::Stopped { line: self.place }
        } else {
            let top = (self.operands > 0).then(|| operand(self.top, self.mark));
            Run::Ended { operands: self.operands, top }
        }
    }
}

impl MaskAnswer {
    pub fn unpack(self) -> Result<(), Refusal> {
        accepted(self.number, self.place)
    }
}

fn accepted(number: u8, place: usize) -> Result<(), Refusal> {
    match number {
        number::ACCEPTED => Ok(()),
        number => Err(Refusal { number, place }),
    }
}

fn operand(type_code: u8, mark: u8) -> Operand {
    Operand { type_code, measured: mark == mark::MEASURED }
}

fn unpacked_rule(arguments: [u8; 4], count: u8, result: u8) -> Rule {
    Rule { arguments: arguments[..usize::from(count)].to_vec(), result }
}

impl fmt::Display for Refusal {
    fn fmt(&self, f: &mut fmt::Formatter) -> fmt::Result {
        let reason = match self.number {
            number::EMPTY => "an empty set has no preferred rule",
            number::SEVERAL => "a set of several constructors has no preferred rule",
            number::TOO_MANY => "too many rules or arguments",
            number::NO_ARGUMENT => "some rule has no argument there",
            number::COUNT => "wrong number of arguments",
            number::SHAPE => "no rule is left with this argument's shape",
            number::UNKNOWN => "unknown function, type, mark, scalar, index, set bit or conclusion",
            number::MALFORMED => "bytes cut short or left over, an unknown tag, or not as many marks as types",
            number::TOO_LARGE => "the expression has more than 64 nodes or is deeper than 16",
            number::ROOM => "what is to be written needs more room",
            number::NOTHING => "a consensus over nothing",
            number::DISAGREE => "there is no consensus",
            number::OUTSIDE => "the rule has no result",
            number::UNKNOWN_RUN => "no function or type has this name",
            number::MISPLACED => "the text is too long, or something in it is misplaced or missing",
            number::NUMBER_TYPE => {
                "rules are left with this argument's shape, and none with a number type that its own converts to"
            }
            _ => "a measured operand is abstract",
        };
        write!(f, "refusal {} at {}: {reason}", self.number, self.place)
    }
}

impl Error for Refusal {}
