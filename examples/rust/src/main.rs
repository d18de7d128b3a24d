//! Asks the library questions of each kind by way of the safe functions, and prints the answers. examples/c prints the
//! same lines from C; examples/run builds both, runs them and compares.

use azwukran::mark::{CONSTANT, MEASURED};
use azwukran::{
    number, Chosen, Consensus, Giver, List, Operand, Refusal, Regular, Rule, Run, ENOUGH_MASK, ENOUGH_TEXT, NONE,
};

// Functions and types by number.
const CLAMP: u8 = 4;
const SIN: u8 = 5;
const POW: u8 = 32;
const DISTANCE: u8 = 66;
const MIX: u8 = 72;
const TRANSPOSE: u8 = 74;
const ABSTRACT_INT: u8 = 0;
const ABSTRACT_FLOAT: u8 = 1;
const U32: u8 = 5;
const F32: u8 = 8;
const F16: u8 = 9;
const VEC2_F32: u8 = 20;

const NO_LEAF: u8 = 157;

/// The depth that a node may have.
const DEEPEST: usize = 16;

/// The bytes of a worksheet's line.
const LINE: usize = 4;

/// What stands in lent bytes before they are written.
const FILL: u8 = 165;

fn main() {
    show_call("Clamp", CLAMP, &[ABSTRACT_INT, U32, ABSTRACT_INT], &[CONSTANT; 3], false);
    show_call("Sin", SIN, &[ABSTRACT_INT], &[CONSTANT], false);
    show_call("Sin", SIN, &[ABSTRACT_INT], &[CONSTANT], true);
    show_call("Mix", MIX, &[F32, F32, F32], &[CONSTANT; 3], false);
    show_call("Pow", POW, &[F32, F16], &[CONSTANT; 2], false);
    show_call("Pow", POW, &[F32, VEC2_F32], &[CONSTANT; 2], false);
    show_call("Clamp", CLAMP, &[F32, ABSTRACT_INT, ABSTRACT_FLOAT], &[MEASURED, CONSTANT, CONSTANT], false);
    show_call("Pow", POW, &[F32, ABSTRACT_INT], &[MEASURED; 2], false);
    show_call("Pow", POW, &[F32, ABSTRACT_INT], &[MEASURED], false);
    show_rule("Transpose", TRANSPOSE, 4);
    show_rule("Transpose", TRANSPOSE, 36);
    show_consensus(NONE, &[ABSTRACT_INT, F32, ABSTRACT_FLOAT]);
    show_consensus(NONE, &[ABSTRACT_INT, U32, ABSTRACT_FLOAT]);
    show_consensus(U32, &[ABSTRACT_INT, U32]);
    show_consensus(ABSTRACT_INT, &[ABSTRACT_INT, U32, U32]);
    show_expression(&[1, CLAMP, 3, 0, ABSTRACT_INT, 0, U32, 0, ABSTRACT_INT]);
    show_expression(&[1, POW, 2, 1, DISTANCE, 2, 0, ABSTRACT_FLOAT, 0, ABSTRACT_FLOAT, 0, F16]);
    show_expression(&[1, CLAMP, 3, 2, F32, 0, ABSTRACT_INT, 0, ABSTRACT_FLOAT]);
    show_expression(&[1, SIN, 1, 2, ABSTRACT_FLOAT]);
    show_text("clamp(abstract-int, u32, abstract-int)");
    show_text(" mix ( vec2<f32>,vec2<f32>,f32 ) ");
    show_text("sin()");
    show_text("Sin(f32)");
    show_text("sin(f32,)");
    show_text("sin(f32");
    show_text("pow( measured  f32,abstract-int)");
    show_text("sin(measured)");
    show_text(&("sin(".repeat(DEEPEST) + "f32"));
    show_written("no leaf", &[0, NO_LEAF], ENOUGH_TEXT);
    show_written("cut short", &[1, SIN], ENOUGH_TEXT);
    show_written("measured and abstract", &[2, ABSTRACT_INT], ENOUGH_TEXT);
    // Pow's rules: two arguments of one type, scalar or vector, of a float.
    show_regular(Regular { arity: 2, constructors: 0b1111, scalars: 0b111_0000_0010, conclusion: 0 });
    show_list("Mix", MIX);
}

/// Prints an answer behind its question, or the refusal.
fn show(question: &str, answer: Result<String, Refusal>) {
    match answer {
        Ok(answer) => println!("{question}: {answer}"),
        Err(Refusal { number, place }) => println!("{question}: refusal {number} at {place}"),
    }
}

/// Numbers with spaces between them.
fn listed<T: ToString>(numbers: &[T]) -> String {
    numbers.iter().map(T::to_string).collect::<Vec<_>>().join(" ")
}

fn rule_text(rule: &Rule) -> String {
    format!("{} -> {}", listed(&rule.arguments), rule.result)
}

/// A mark in words; none where there is no operand.
fn mark_text(measured: Option<bool>) -> &'static str {
    match measured {
        Some(true) => "measured",
        Some(false) => "constant",
        None => "none",
    }
}

/// A call of operands of these types and marks, and the rules that survive it.
fn show_call(name: &str, function: u8, types: &[u8], marks: &[u8], concrete_only: bool) {
    let answer = || {
        let Chosen { index, rule, measured } = azwukran::call(function, types, marks, concrete_only).unpack()?;
        let mut mask = [0; ENOUGH_MASK];
        azwukran::survivors(function, types, marks, concrete_only, &mut mask).unpack()?;
        let survivors = listed(&azwukran::members(&mask));
        Ok(format!("rule {index}, {}, {}; survivors {survivors}", rule_text(&rule), mark_text(measured)))
    };
    let switch = if concrete_only { ", concrete only" } else { "" };
    show(&format!("{name} of {}, marks {}{switch}", listed(types), listed(marks)), answer());
}

fn show_rule(name: &str, function: u8, index: u8) {
    let answer = azwukran::rule(function, index).unpack();
    show(&format!("rule {index} of {name}"), answer.map(|rule| rule_text(&rule)));
}

/// The scalar of a consensus, and who gave it.
fn show_consensus(base: u8, components: &[u8]) {
    let answer = azwukran::consensus(base, components).unpack();
    let text = |Consensus { scalar, giver }| match giver {
        Giver::Base => format!("scalar {scalar}, given by the base"),
        Giver::Component(component) => format!("scalar {scalar}, given by component {component}"),
    };
    show(&format!("consensus of {}, base {base}", listed(components)), answer.map(text));
}

/// An expression's type and mark, its worksheet, and how that runs, whole and without its first line.
fn show_expression(bytes: &[u8]) {
    let question = format!("expression {}", listed(bytes));
    match azwukran::worksheet(bytes, false) {
        Ok((Operand { type_code, measured }, sheet)) => {
            let mark = mark_text(Some(measured));
            show(&question, Ok(format!("type {type_code}, {mark}, worksheet of {} bytes", sheet.len())));
            for line in sheet.chunks(LINE) {
                println!("  {}", listed(line));
            }
            show_run("machine", &sheet);
            show_run("machine, without the first line", &sheet[LINE..]);
        }
        Err(refusal) => show(&question, Err(refusal)),
    }
}

fn show_run(question: &str, sheet: &[u8]) {
    match azwukran::run(sheet).unpack() {
        Run::Ended { operands, top } => {
            let type_code = top.map_or(NONE, |operand| operand.type_code);
            let mark = mark_text(top.map(|operand| operand.measured));
            println!("{question}: ended, operands {operands}, top {type_code}, {mark}");
        }
        Run::Stopped { line } => println!("{question}: stopped at line {line}"),
    }
}

/// The bytes that a text is read into, and the text written of them, also with too little room for either.
fn show_text(text: &str) {
    match azwukran::expression(text.as_bytes()) {
        Ok(bytes) => {
            show(&format!("text {text}"), Ok(listed(&bytes)));
            let short = azwukran::read_text(text.as_bytes(), &mut vec![0; bytes.len() - 1]).unpack();
            show("  read with a byte too little", short.map(|length| length.to_string()));
            show_written("  written", &bytes, ENOUGH_TEXT);
            show_written("  written with no room", &bytes, 0);
        }
        Err(refusal) => show(&format!("text {text}"), Err(refusal)),
    }
}

/// The text of an expression, written with this room.
fn show_written(question: &str, bytes: &[u8], room: usize) {
    let mut lent = vec![FILL; room];
    let length = azwukran::write_text(bytes, &mut lent).unpack();
    show(question, length.map(|length| String::from_utf8_lossy(&lent[..length]).into_owned()));
}

/// A Regular set, its rules, and what steps leave of it: concrete-only, and an argument's two, one after the other.
fn show_regular(set: Regular) {
    show("Regular set", Ok(regular_text(set)));
    show("  preferred", set.preferred().unpack().map(|rule| rule_text(&rule)));
    show("  rule 5", set.rule(5).unpack().map(|rule| rule_text(&rule)));
    show("  concrete only", set.concrete_only().unpack().map(regular_text));
    let shaped = set.arg_shape(0, VEC2_F32).unpack();
    show("  argument 0 by the shape of type 20", shaped.map(regular_text));
    let Ok(shaped) = shaped else { return };
    let left = shaped.arg_number(0, VEC2_F32).unpack();
    show("  and by its number type", left.map(regular_text));
    let Ok(left) = left else { return };
    show("  preferred then", left.preferred().unpack().map(|rule| rule_text(&rule)));
}

fn regular_text(set: Regular) -> String {
    let Regular { arity, constructors, scalars, conclusion } = set;
    format!("arity {arity}, constructors {constructors}, scalars {scalars}, conclusion {conclusion}")
}

/// The rules of a function as a List, and what steps leave of it: an argument's two, one after the other, and
/// concrete-only. A step lends eight bytes for its mask; those behind it keep what they held.
fn show_list(name: &str, function: u8) {
    let rules: Vec<u8> = (0..=u8::MAX)
        .map(|index| azwukran::rule(function, index))
        .take_while(|answer| answer.number == number::ACCEPTED)
        .flat_map(|answer| answer.bytes())
        .collect();
    // All of its 32 rules.
    let members = [0xff; 4];
    let list = List { rules: &rules, members: &members };
    show("List", Ok(format!("{name}, {} bytes of rules", rules.len())));
    let no_room = list.arg_shape(0, VEC2_F32, &mut []).unpack();
    show("  argument 0 by the shape of type 20, no room", no_room.map(|()| String::new()));
    let mut lent = [FILL; ENOUGH_MASK];
    let shaped = list.arg_shape(0, VEC2_F32, &mut lent).unpack();
    show("  argument 0 by the shape of type 20", shaped.map(|()| listed(&lent)));
    let shaped = List { rules: &rules, members: &lent };
    let mut lent = [FILL; ENOUGH_MASK];
    let left = shaped.arg_number(0, VEC2_F32, &mut lent).unpack();
    show("  and by its number type", left.map(|()| listed(&lent)));
    let left = List { rules: &rules, members: &lent };
    let preferred = left.preferred().unpack();
    show("  preferred then", preferred.map(|chosen| format!("rule {}, {}", chosen.index, rule_text(&chosen.rule))));
    let mut lent = [FILL; ENOUGH_MASK];
    show("  concrete only", list.concrete_only(&mut lent).unpack().map(|()| listed(&lent)));
}
