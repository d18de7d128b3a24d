//! Document 01's readings at the bench for calls, consensus and expressions. Where it prints a part of an answer, the rest
//! was worked out by hand from its rules. Who gave the scalar of a consensus is document 02's request (ii), worked out in
//! the same way, with two readings of its own. Refusal 16, for Sin(5) and both Pow examples, is its request (iv)'s; two
//! readings of its own are 6. Those of measured operands, and all of runs and texts, are its request (v)'s. Both sides must
//! give them, so the other side of the comparison is held to the documents, too.

use crate::crate_side::{Asker, Crate, Outcome, RuleCodes};
use crate::expressions;
use crate::machine;
use crate::numbering::{constants, Operand, CONSTANT, MEASURED, NONE};
use crate::ours::{self, ConsensusAnswer, Giver, Masked, Refused, RunAnswer, TextAnswer, TypeAnswer, LENT};
use crate::texts::{self, Names, ENOUGH_BYTES};

/// A question, the document's answer, and those of the crate's side and ours, all in the same words.
pub struct Reading {
    pub question: String,
    pub printed: String,
    pub of_crate: String,
    pub of_ours: String,
}

pub fn readings(rules: &Crate) -> Vec<Reading> {
    let mut readings = calls(rules);
    readings.extend(rules.with_consensus(consensus));
    readings.extend(typing(rules));
    readings.extend(runs(rules));
    readings.extend(reading_texts());
    readings
}

fn calls(rules: &Crate) -> Vec<Reading> {
    // The rule's index, arguments and result; the result's mark; the survivors, among so many rules.
    let answered = |index: u8, arguments: &[u8], result: u8, mark: u8, survivors: u64, rules: usize| Outcome {
        call: ours::chosen(index, RuleCodes { arguments: arguments.to_vec(), result }.answer(), mark),
        survivors: Masked::of(survivors, rules),
    };
    let accepted = |index: u8, arguments: &[u8], result: u8, survivors: u64, rules: usize| {
        answered(index, arguments, result, CONSTANT, survivors, rules)
    };
    let measured = |index: u8, arguments: &[u8], result: u8, survivors: u64, rules: usize| {
        answered(index, arguments, result, MEASURED, survivors, rules)
    };
    let of_constants: [(&str, u8, &[u8], Outcome); 10] = [
        ("Clamp", 4, &[0, 5, 0], accepted(5, &[5, 5, 5], 5, 1 << 5, 44)),
        ("Sin", 5, &[5], Outcome::refused(16, 1)),
        ("Sin", 5, &[0], accepted(0, &[1], 1, 0b1111, 16)),
        ("Distance", 66, &[0, 0], accepted(0, &[8, 8], 8, 0b111, 12)),
        ("Pow", 32, &[8, 9], Outcome::refused(16, 2)),
        ("Mix", 72, &[8, 8, 8], accepted(8, &[8, 8, 8], 8, 1 << 8 | 1 << 9, 32)),
        ("Mix", 72, &[20, 20, 8], accepted(11, &[20, 20, 8], 20, 1 << 11, 32)),
        ("Transpose", 74, &[61], accepted(4, &[61], 85, 0b1111 << 4, 36)),
        // Request (iv)'s: a texture, and a vector beside a scalar, whose number type is wrong, too.
        ("Sin", 5, &[156], Outcome::refused(6, 1)),
        ("Pow", 32, &[8, 21], Outcome::refused(6, 2)),
    ];
    let of_measured: [(&str, u8, &[u8], &[u8], Outcome); 13] = [
        ("Clamp", 4, &[8, 0, 1], &[1, 0, 0], measured(8, &[8, 8, 8], 8, 1 << 8, 44)),
        ("Clamp", 4, &[0, 5, 0], &[0, 1, 0], measured(5, &[5, 5, 5], 5, 1 << 5, 44)),
        ("Pow", 32, &[8, 1], &[1, 0], measured(1, &[8, 8], 8, 1 << 1, 16)),
        ("Pow", 32, &[8, 8], &[0, 0], accepted(1, &[8, 8], 8, 1 << 1, 16)),
        ("Pow", 32, &[8, 1], &[1, 1], Outcome::refused(17, 2)),
        ("Sin", 5, &[0], &[1], Outcome::refused(17, 1)),
        ("Sin", 5, &[13], &[1], Outcome::refused(17, 1)),
        // A wrong count, shape and number type come behind it; an unknown type or mark of the same operand before it.
        ("Sin", 5, &[0, 0], &[0, 1], Outcome::refused(17, 2)),
        ("Sin", 5, &[156], &[1], Outcome::refused(6, 1)),
        ("Pow", 32, &[8, 9], &[1, 1], Outcome::refused(16, 2)),
        ("Pow", 32, &[181, 0], &[1, 1], Outcome::refused(7, 1)),
        ("Pow", 32, &[0, 8], &[1, 2], Outcome::refused(17, 1)),
        // Fewer marks than types come before either.
        ("Pow", 32, &[181, 0], &[1], Outcome::refused(8, 1)),
    ];
    let ask = |(name, function, types, marks, printed): (&str, u8, &[u8], &[u8], Outcome)| {
        let call = ours::call(function, types, marks, false);
        let survivors = ours::survivors(function, types, marks, false, LENT);
        Reading {
            question: format!("{name}{types:?} with marks {marks:?}"),
            printed: format!("{printed:?}"),
            of_crate: format!("{:?}", rules.call(function, types, marks, false)),
            of_ours: format!("{:?}", Outcome { call, survivors }),
        }
    };
    let marked = of_constants
        .map(|(name, function, types, printed)| (name, function, types, constants(types.len()), printed))
        .map(ask)
        .into_iter();
    marked.chain(of_measured.map(ask)).collect()
}

fn consensus(asker: &Asker) -> Vec<Reading> {
    let table: [(u8, &[u8], ConsensusAnswer); 5] = [
        (NONE, &[0, 5, 1], ConsensusAnswer::refused(12, 2)),
        (NONE, &[0, 8, 1], ours::agreed(8, Giver::Component(1))),
        (1, &[2], ConsensusAnswer::refused(12, 0)),
        // Request (ii)'s: a base that already was U32, and the first of two components that are.
        (5, &[0, 5], ours::agreed(5, Giver::Base)),
        (0, &[0, 5, 5], ours::agreed(5, Giver::Component(1))),
    ];
    let ask = |(base, components, printed): (u8, &[u8], ConsensusAnswer)| Reading {
        question: format!("consensus of {components:?}, base {base}"),
        printed: format!("{printed:?}"),
        of_crate: format!("{:?}", asker.consensus(base, components)),
        of_ours: format!("{:?}", ours::consensus(base, components)),
    };
    table.map(ask).into()
}

fn typing(rules: &Crate) -> Vec<Reading> {
    let clamp = vec![1, 4, 3, 0, 0, 0, 5, 0, 0];
    let clamp_sheet = vec![0, 0, 0, 0, 0, 5, 0, 0, 0, 0, 0, 0, 2, 2, 5, 0, 2, 0, 5, 0, 1, 4, 5, 3];
    let measured_clamp = vec![1, 4, 3, 2, 8, 0, 0, 0, 1];
    let measured_sheet = vec![0, 8, 1, 0, 0, 0, 0, 0, 0, 1, 0, 0, 2, 1, 8, 0, 2, 0, 8, 0, 1, 4, 8, 3];
    let room = expressions::ENOUGH_ROOM;
    let printed = |bytes, room, typed, sheet| Expression { bytes, room, typed, sheet };
    let constant = |code, length| ours::typed(Operand { code, measured: false }, length);
    let measured = |code, length| ours::typed(Operand { code, measured: true }, length);
    let table = [
        printed(vec![], room, TypeAnswer::refused(8, 0), None),
        printed(vec![0, 156], room, constant(156, 4), Some(vec![0, 156, 0, 0])),
        printed(vec![0, 157], room, TypeAnswer::refused(7, 1), None),
        printed(clamp.clone(), room, constant(5, 24), Some(clamp_sheet.clone())),
        printed(clamp.clone(), 24, constant(5, 24), Some(clamp_sheet)),
        printed(clamp, 23, TypeAnswer::refused(10, 24), None),
        // Pow(Distance(1, 1), 9): Distance has already answered F32.
        printed(vec![1, 32, 2, 1, 66, 2, 0, 1, 0, 1, 0, 9], room, TypeAnswer::refused(16, 10), None),
        printed(vec![1, 78, 4, 0, 2, 0, 2, 0, 5, 0, 5], room, constant(2, 20), None),
        printed(vec![1, 79, 0], room, TypeAnswer::refused(7, 1), None),
        printed(chain(16), room, constant(8, 64), None),
        printed(chain(17), room, TypeAnswer::refused(9, 48), None),
        printed(tree(1), room, constant(8, 256), None),
        printed(tree(2), room, TypeAnswer::refused(9, 161), None),
        printed(tree(1), 256, constant(8, 256), None),
        printed(tree(1), 255, TypeAnswer::refused(10, 256), None),
        // Request (v)'s: measured leaves.
        printed(vec![2, 8], room, measured(8, 4), Some(vec![0, 8, 1, 0])),
        printed(vec![2, 156], room, measured(156, 4), Some(vec![0, 156, 1, 0])),
        printed(measured_clamp, room, measured(8, 24), Some(measured_sheet)),
        // Pow(Distance(1, 1), 8), the latter measured.
        printed(vec![1, 32, 2, 1, 66, 2, 0, 1, 0, 1, 2, 8], room, measured(8, 28), None),
        printed(vec![2], room, TypeAnswer::refused(8, 1), None),
        printed(vec![2, 157], room, TypeAnswer::refused(7, 1), None),
        printed(vec![2, 1, 0], room, TypeAnswer::refused(17, 1), None),
        // Sin of a wrong number of operands, the second of them VEC2 of ABSTRACT_INT, measured.
        printed(vec![1, 5, 2, 2, 8, 2, 12], room, TypeAnswer::refused(17, 6), None),
        printed(vec![3], room, TypeAnswer::refused(8, 0), None),
    ];
    table.into_iter().map(|expression| expression.ask(rules)).collect()
}

/// An expression, the room it is given, and the answer, with the worksheet where the document prints it.
struct Expression {
    bytes: Vec<u8>,
    room: usize,
    typed: TypeAnswer,
    sheet: Option<Vec<u8>>,
}

impl Expression {
    fn ask(&self, rules: &Crate) -> Reading {
        let answer = expressions::type_expression(rules, &self.bytes, false);
        let (typed, sheet) = expressions::in_room(&answer, self.room);
        let mut buffer = vec![0; self.room];
        let answered = ours::type_expression(&self.bytes, false, &mut buffer);
        Reading {
            question: format!("expression {:?} with room {}", self.bytes, self.room),
            printed: self.words(self.typed, self.sheet.as_deref().unwrap_or(&[])),
            of_crate: self.words(typed, sheet),
            of_ours: self.words(answered, &buffer),
        }
    }

    /// An answer in words, with as much of the worksheet as is printed.
    fn words(&self, typed: TypeAnswer, written: &[u8]) -> String {
        let printed = self.sheet.as_ref().map_or(0, Vec::len);
        format!("{typed:?} {:?}", &written[..written.len().min(printed)])
    }
}

/// Worksheets with measured operands on both machines.
fn runs(rules: &Crate) -> Vec<Reading> {
    let ended = |operands, code, measured| ours::ended(operands, Some(Operand { code, measured }));
    let table: [(&[u8], RunAnswer); 7] = [
        (&[], ours::ended(0, None)),
        (&[0, 8, 1, 0], ended(1, 8, true)),
        (&[0, 8, 1, 0, 0, 8, 0, 0], ended(2, 8, false)),
        // Pow by its rule for F32.
        (&[0, 8, 1, 0, 0, 8, 0, 0, 1, 32, 1, 2], ended(1, 8, true)),
        (&[0, 8, 2, 0], ours::stopped(0)),
        (&[0, 8, 0, 0, 0, 1, 1, 0], ours::stopped(1)),
        (&[0, 8, 1, 1], ours::stopped(0)),
    ];
    let ask = |(sheet, printed): (&[u8], RunAnswer)| Reading {
        question: format!("worksheet {sheet:?}"),
        printed: format!("{printed:?}"),
        of_crate: format!("{:?}", machine::run(rules, sheet)),
        of_ours: format!("{:?}", ours::run(sheet)),
    };
    table.map(ask).into()
}

/// Texts with `measured`, read by both readers.
fn reading_texts() -> Vec<Reading> {
    let names = Names::new();
    let table: [(&str, Result<&[u8], (u8, usize)>); 6] = [
        ("measured f32", Ok(&[2, 8])),
        ("pow( measured  f32,abstract-int)", Ok(&[1, 32, 2, 2, 8, 0, 0])),
        // It is for the typer to refuse this.
        ("measured abstract-int", Ok(&[2, 0])),
        ("measured", Err((15, 8))),
        ("sin(measured sin(f32))", Err((15, 13))),
        ("measuredf32", Err((14, 0))),
    ];
    let ask = |(text, printed): (&str, Result<&[u8], (u8, usize)>)| {
        let mut bytes = [NONE; ENOUGH_BYTES];
        let answer = ours::read_text(text.as_bytes(), &mut bytes);
        let made = texts::read(&names, text.as_bytes());
        let (of_crate, front) = texts::in_room(&made, ENOUGH_BYTES);
        let (length, expected) = match printed {
            Ok(bytes) => (bytes.len(), ours::made(bytes.len())),
            Err((number, place)) => (0, TextAnswer::refused(number, place)),
        };
        Reading {
            question: format!("text {text}"),
            printed: format!("{expected:?} {:?}", printed.unwrap_or(&[])),
            of_crate: format!("{of_crate:?} {front:?}"),
            of_ours: format!("{answer:?} {:?}", &bytes[..length]),
        }
    };
    table.map(ask).into()
}

/// Abs over Abs and so on over a leaf, of that depth.
fn chain(depth: usize) -> Vec<u8> {
    let mut bytes = [1, 0, 1].repeat(depth - 1);
    bytes.extend([0, 8]);
    bytes
}

/// So many times Abs over an even tree of Max with 32 leaves, which has 63 nodes.
fn tree(abs: usize) -> Vec<u8> {
    let mut even = vec![0, 8];
    for _ in 0..5 {
        even = [&[1, 3, 2], &even[..], &even[..]].concat();
    }
    [[1, 0, 1].repeat(abs), even].concat()
}
