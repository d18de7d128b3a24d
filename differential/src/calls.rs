//! Calls on both sides: every tuple of operand codes where they are few enough, and a sample of the longer ones, with
//! constant operands and with measured ones.

use naga::proc::OverloadSet;

use crate::crate_side::{operand_fault, Crate, Outcome};
use crate::effort::Effort;
use crate::generate::{any_code, any_marks, next_tuple, Accepted};
use crate::numbering::{constants, is_abstract, CONSTANT, FUNCTIONS, LAST_CODE, MEASURED, MOST_OPERANDS, SCALAR_COUNT};
use crate::ours::{self, Refused};
use crate::random::Random;
use crate::tally::{beginning, grouped, Tally};

/// The type codes of operands and components, all of them.
const CODES: std::ops::RangeInclusive<u8> = 0..=LAST_CODE;

/// The longest tuple of those that are all asked: one operand more than any function takes.
const LONGEST: usize = 5;

/// Marks by the bits of a number: bit k is set where operand k is measured.
fn pattern(bits: usize) -> [u8; LONGEST] {
    std::array::from_fn(|k| if bits >> k & 1 == 1 { MEASURED } else { CONSTANT })
}

/// The comparison of calls of known functions with known types.
struct Calls<'a> {
    rules: &'a Crate,
    effort: &'a Effort,
    random: Random,
    tally: Tally,
    /// How many of the calls have a measured operand.
    measured: u64,
}

pub fn compare_calls(rules: &Crate, accepted: &[Accepted], effort: &Effort, seed: u64) -> u64 {
    let mut calls = Calls { rules, effort, random: Random::new(seed), tally: Tally::new("calls"), measured: 0 };
    for function in 0..FUNCTIONS.len() as u8 {
        calls.compare_function(function);
        if rules.arity(function) + 1 > effort.exhaustive {
            let own: Vec<&Accepted> = accepted.iter().filter(|call| call.function == function).collect();
            calls.compare_sample(function, &own);
        }
    }
    calls.tally.sum_up(&format!(
        "{} functions, each tuple of codes 0 to {LAST_CODE} with both switches: all to length {}, \
         {} accepted ones and a sample beyond; {} with a measured operand: every pattern of marks over the accepted tuples \
         and over all to length {}, and a sample beyond",
        FUNCTIONS.len(),
        effort.exhaustive,
        grouped(accepted.len() as u64),
        grouped(calls.measured),
        effort.patterns,
    ))
}

impl Calls<'_> {
    /// Tuples of every length from 0 to one more than the function takes.
    fn compare_function(&mut self, function: u8) {
        let arity = self.rules.arity(function);
        for length in 0..=arity + 1 {
            if length == arity {
                self.walk(function, &FUNCTIONS[usize::from(function)].overloads(), &mut Vec::new());
            } else {
                self.endings(function, &[], length, self.effort.tuples, Outcome::refused(5, 0));
            }
        }
    }

    /// Tuples of the right length that begin with `operands`, which leave the set `set`. Each beginning is put to the
    /// crate once: what follows the argument that empties the set cannot change its answer.
    fn walk<S: OverloadSet>(&mut self, function: u8, set: &S, operands: &mut Vec<u8>) {
        let arity = self.rules.arity(function);
        let argument = operands.len();
        for code in CODES {
            let left = self.rules.step(set, argument, code);
            operands.push(code);
            if left.is_empty() {
                let number = self.rules.emptying(set, argument, code).refusal();
                self.endings(function, operands, arity, self.effort.endings, Outcome::refused(number, 1 + argument));
            } else if operands.len() < arity {
                self.walk(function, &left, operands);
            } else {
                self.check_accepted(function, operands, &left);
            }
            operands.pop();
        }
    }

    /// Tuples of this length that begin with `beginning`, all of which the crate answers alike: all of them, or a
    /// sample of the longer ones.
    fn endings(&mut self, function: u8, beginning: &[u8], length: usize, sample: usize, expected: Outcome) {
        let mut operands = beginning.to_vec();
        operands.resize(length, 0);
        if length <= self.effort.exhaustive || length - beginning.len() <= 1 {
            loop {
                self.check_refused(function, &operands, expected);
                if !next_tuple(&mut operands[beginning.len()..]) {
                    break;
                }
            }
        } else {
            for _ in 0..sample {
                for operand in &mut operands[beginning.len()..] {
                    *operand = any_code(&mut self.random);
                }
                self.check_refused(function, &operands, expected);
            }
        }
    }

    /// Random tuples, each put to the crate whole: any, and accepted ones with an operand changed, lost or added.
    fn compare_sample(&mut self, function: u8, accepted: &[&Accepted]) {
        for _ in 0..self.effort.tuples {
            let mut operands = self.random.pick(accepted).operands.clone();
            let place = self.random.below(operands.len());
            match self.random.below(8) {
                0 => operands.fill_with(|| any_code(&mut self.random)),
                1 => drop(operands.remove(place)),
                2 => operands.insert(place, any_code(&mut self.random)),
                3 => {}
                _ => operands[place] = any_code(&mut self.random),
            }
            let marks = if self.random.once_in(2) {
                constants(operands.len()).to_vec()
            } else {
                any_marks(&mut self.random, &operands)
            };
            let concrete_only = self.random.once_in(2);
            let expected = self.rules.call(function, &operands, &marks, concrete_only);
            self.check(function, &operands, &marks, concrete_only, expected);
        }
    }

    /// A tuple whose types the crate accepts, by the rules `left`: every pattern of marks, both switches.
    fn check_accepted<S: OverloadSet>(&mut self, function: u8, types: &[u8], left: &S) {
        for bits in 0..1 << types.len() {
            let marks = &pattern(bits)[..types.len()];
            for concrete_only in [false, true] {
                let expected = operand_fault(types, marks)
                    .unwrap_or_else(|| self.rules.concluded(function, left, marks, concrete_only));
                self.check(function, types, marks, concrete_only, expected);
            }
        }
    }

    /// A tuple whose types the crate refuses, whatever the switch and the marks are: constants, both switches; and every
    /// pattern of marks or, of longer tuples, now and then some pattern.
    fn check_refused(&mut self, function: u8, types: &[u8], expected: Outcome) {
        let measured = |marks: &[u8]| operand_fault(types, marks).unwrap_or(expected);
        for concrete_only in [false, true] {
            self.check(function, types, constants(types.len()), concrete_only, expected);
        }
        if types.len() <= self.effort.patterns {
            for bits in 1..1 << types.len() {
                let marks = &pattern(bits)[..types.len()];
                for concrete_only in [false, true] {
                    self.check(function, types, marks, concrete_only, measured(marks));
                }
            }
        } else if self.random.once_in(self.effort.marked) {
            let marks = any_marks(&mut self.random, types);
            let concrete_only = self.random.once_in(2);
            self.check(function, types, &marks, concrete_only, measured(&marks));
        }
    }

    fn check(&mut self, function: u8, types: &[u8], marks: &[u8], concrete_only: bool, expected: Outcome) {
        self.measured += u64::from(marks.contains(&MEASURED));
        check_call(&mut self.tally, function, types, marks, concrete_only, expected);
    }
}

fn check_call(tally: &mut Tally, function: u8, types: &[u8], marks: &[u8], concrete_only: bool, expected: Outcome) {
    let answered = Outcome {
        call: ours::call(function, types, marks, concrete_only),
        survivors: ours::survivors(function, types, marks, concrete_only, ours::LENT),
    };
    tally.check(expected, answered, || {
        let name = FUNCTIONS.get(usize::from(function)).map_or("unknown".to_string(), |known| format!("{known:?}"));
        format!(
            "function {function} ({name}), {} types {:?}, {} marks {:?}, concrete-only {concrete_only}",
            types.len(),
            beginning(types),
            marks.len(),
            beginning(marks)
        )
    });
}

/// The marks of operands all of which are measured that may be.
fn most_measured(types: &[u8]) -> Vec<u8> {
    types.iter().map(|&code| if is_abstract(code) { CONSTANT } else { MEASURED }).collect()
}

/// Survivors with less room than their mask takes: refused by 10, after the call's own refusals.
pub fn compare_room(rules: &Crate, accepted: &[Accepted]) -> u64 {
    let mut tally = Tally::new("survivors without room");
    for call in accepted {
        let needed = ours::mask_bytes(rules.listing(call.function).len());
        let marks = most_measured(&call.operands);
        let constants = constants(call.operands.len());
        for (marks, concrete_only) in [(constants, false), (constants, true), (&marks[..], false), (&marks[..], true)] {
            let expected = rules.call(call.function, &call.operands, marks, concrete_only).survivors;
            for room in 0..=ours::LENT {
                let expected = if room < needed && expected.answer.number == 0 {
                    ours::Masked::refused(10, needed)
                } else {
                    expected
                };
                let answered = ours::survivors(call.function, &call.operands, marks, concrete_only, room);
                tally.check(expected, answered, || {
                    format!(
                        "function {}, types {:?}, marks {marks:?}, concrete-only {concrete_only}, room {room}",
                        call.function, call.operands
                    )
                });
            }
        }
    }
    tally.sum_up(&format!(
        "each accepted call, of constants and with all measured that may be, both switches, room 0 to {}",
        ours::LENT
    ))
}

/// Marks that are none.
const NO_MARKS: [u8; 7] = [2, 3, 4, 127, 128, 254, 255];

/// How many times the operands of each accepted call are spoilt.
const SPOILT: usize = 20;

/// Calls of unknown functions, with unknown types and marks, with types or marks left over, with measured operands that are
/// abstract, and of very many operands: what is tested before the count.
pub fn compare_unknown(rules: &Crate, accepted: &[Accepted], seed: u64) -> u64 {
    let mut tally = Tally::new("calls with unknown numbers");
    let mut check = |function: u8, types: &[u8], marks: &[u8]| {
        for concrete_only in [false, true] {
            let expected = rules.call(function, types, marks, concrete_only);
            check_call(&mut tally, function, types, marks, concrete_only, expected);
        }
    };
    for function in FUNCTIONS.len() as u8..=u8::MAX {
        for types in [&[][..], &[0], &[8, 8], &[LAST_CODE + 1], &[0, 0, u8::MAX]] {
            check(function, types, constants(types.len()));
            check(function, types, &[MEASURED]);
            check(function, types, &[u8::MAX]);
        }
    }
    for function in 0..=u8::MAX {
        for types in 0..=LONGEST + 1 {
            for marks in 0..=LONGEST + 1 {
                for (code, mark) in
                    [(8, CONSTANT), (8, MEASURED), (0, MEASURED), (LAST_CODE + 1, CONSTANT), (8, u8::MAX)]
                {
                    check(function, &vec![code; types], &vec![mark; marks]);
                }
            }
        }
    }
    let mut random = Random::new(seed);
    for (number, call) in accepted.iter().enumerate() {
        let function = call.function;
        let marks = constants(call.operands.len());
        let first = number == 0 || accepted[number - 1].function != function;
        for place in 0..call.operands.len() {
            for unknown in LAST_CODE + 1..=u8::MAX {
                let mut types = call.operands.clone();
                types[place] = unknown;
                check(function, &types, marks);
                types.push(unknown);
                check(function, &types, constants(types.len()));
            }
            let every: Vec<u8> = (MEASURED + 1..=u8::MAX).collect();
            for &unknown in if first { &every[..] } else { &NO_MARKS } {
                let mut marks = marks.to_vec();
                marks[place] = unknown;
                check(function, &call.operands, &marks);
            }
        }
        for _ in 0..SPOILT {
            let (types, marks) = spoilt(&mut random, &call.operands);
            check(function, &types, &marks);
        }
    }
    for length in [6, 64, 255, 256, 257, 1000, 65_536, MOST_OPERANDS] {
        for function in [0, 4, 78] {
            let mut types = vec![8; length];
            let mut marks = vec![CONSTANT; length];
            check(function, &types, &marks);
            check(function, &types, &marks[1..]);
            check(function, &types[1..], &marks);
            types[length - 1] = LAST_CODE + 1;
            check(function, &types, &marks);
            for mark in [MEASURED, u8::MAX] {
                marks[length - 1] = mark;
                for code in [0, 8, LAST_CODE + 1] {
                    types[length - 1] = code;
                    check(function, &types, &marks);
                }
            }
        }
    }
    tally.sum_up(&format!(
        "functions {} to 255, types {} to 255 and marks 2 to 255 at each place of accepted calls, as many types and marks \
         or not, several faults at once, up to {} operands",
        FUNCTIONS.len(),
        LAST_CODE + 1,
        grouped(MOST_OPERANDS as u64)
    ))
}

/// Operands of these types, some of them with faults of their own or of their marks, and now and then not as many of the
/// one as of the other.
fn spoilt(random: &mut Random, types: &[u8]) -> (Vec<u8>, Vec<u8>) {
    let mut types = types.to_vec();
    let mut marks = Vec::new();
    for code in &mut types {
        match random.below(6) {
            0 => *code = LAST_CODE + 1 + random.below(75) as u8,
            1 => *code = SCALAR_COUNT * random.below(13) as u8 + random.below(2) as u8,
            _ => {}
        }
        marks.push(*random.pick(&[CONSTANT, CONSTANT, MEASURED, MEASURED, 2, u8::MAX]));
    }
    match random.below(10) {
        0 => drop(types.pop()),
        1 => drop(marks.pop()),
        2 => types.push(any_code(random)),
        3 => marks.push(random.below(3) as u8),
        _ => {}
    }
    (types, marks)
}
