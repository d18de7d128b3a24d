//! Puts the same questions to the crate and to the library and counts the answers that differ: rules, calls, sets made by
//! hand, what WGSL's ranks say of the preferred rules of both, consensus, expressions, worksheets and texts. Where the
//! questions are few enough they are all put; the rest are drawn from the seed.

use std::panic::{self, AssertUnwindSafe};

use crate::calls::{compare_calls, compare_room, compare_unknown};
use crate::crate_side::{Asker, Crate};
use crate::effort::{Effort, FULL, QUICK};
use crate::expressions::{self, ENOUGH_ROOM};
use crate::generate::{self, any_code, next_tuple, Generator};
use crate::machine;
use crate::numbering::{Operand, LAST_CODE, MEASURED, NONE, OPAQUE, SCALAR_COUNT};
use crate::ours::{self, TypeAnswer};
use crate::random::Random;
use crate::rank_questions::{compare_call_ranks, compare_set_ranks};
use crate::readings::{self, Reading};
use crate::sets::compare_sets;
use crate::tally::{beginning, differing, grouped, Tally};
use crate::text_questions::compare_texts;

/// Compares everything and prints what was compared. Answers whether nothing differs.
pub fn compare(seed: u64, quick: bool) -> bool {
    let effort = if quick { QUICK } else { FULL };
    println!("seed {seed}, {}", if quick { "quick" } else { "full" });
    let rules = Crate::new();
    let accepted = generate::accepted_calls(&rules);
    let differ = [
        compare_readings(&rules),
        compare_rules(&rules),
        compare_calls(&rules, &accepted, &effort, seed),
        compare_unknown(&rules, &accepted, seed),
        compare_room(&rules, &accepted),
        compare_sets(&rules, effort.sets, seed),
        compare_call_ranks(&rules, &accepted),
        compare_set_ranks(&rules),
        rules.with_consensus(|asker| compare_consensus(asker, &effort, seed)),
        compare_expressions(&rules, &effort, seed),
        compare_worksheets(&rules, &effort, seed),
        compare_texts(&rules, &effort, seed),
    ];
    let differ: u64 = differ.iter().sum();
    println!("{} in all", differing(differ));
    differ == 0
}

/// The documents' readings, on both sides.
fn compare_readings(rules: &Crate) -> u64 {
    let mut tally = Tally::new("readings");
    for Reading { question, printed, of_crate, of_ours } in readings::readings(rules) {
        tally.check(&printed, &of_crate, || format!("{question}, on the crate's side"));
        tally.check(&printed, &of_ours, || format!("{question}, on ours"));
    }
    tally.sum_up(
        "document 01's, two of who gave a scalar, two of a wrong shape and 35 of measured operands, each on both sides",
    )
}

/// Every function number and index, known or not.
fn compare_rules(rules: &Crate) -> u64 {
    let mut tally = Tally::new("rules");
    for function in 0..=u8::MAX {
        for index in 0..=u8::MAX {
            tally.check(rules.rule(function, index), ours::rule(function, index), || {
                format!("function {function} index {index}")
            });
        }
    }
    let known: usize = (0..=u8::MAX).map(|function| rules.listing(function).len()).sum();
    tally.sum_up(&format!("every function and index from 0 to 255, {} rules", grouped(known as u64)))
}

/// How many abstract ints a long list of components has.
const LONG: usize = 70_000;

/// Where in a long list a scalar stands: around the numbers that a byte and two bytes end at, and last.
const FAR_PLACES: [usize; 7] = [254, 255, 256, 257, 65_535, 65_536, LONG - 1];

fn compare_consensus(asker: &Asker, effort: &Effort, seed: u64) -> u64 {
    let mut tally = Tally::new("consensus");
    let mut check = |base: u8, components: &[u8]| {
        tally.check(asker.consensus(base, components), ours::consensus(base, components), || {
            format!("base {base}, {} components {:?}", components.len(), beginning(components))
        });
    };
    let bases = || std::iter::once(NONE).chain(0..SCALAR_COUNT);
    for base in bases() {
        for length in 0..=effort.exhaustive {
            let mut components = vec![0; length];
            loop {
                check(base, &components);
                if !next_tuple(&mut components) {
                    break;
                }
            }
        }
    }
    for base in 0..=u8::MAX {
        check(base, &[]);
        check(base, &[LAST_CODE + 1]);
        for unknown in LAST_CODE..=u8::MAX {
            check(base, &[0, unknown, 8]);
            check(base, &[OPAQUE, 8, unknown, u8::MAX]);
        }
    }
    for place in FAR_PLACES {
        for scalar in 0..SCALAR_COUNT {
            let mut components = vec![0; LONG];
            components[place] = scalar;
            let alone = components.clone();
            components.push(scalar);
            for base in [NONE, 0] {
                check(base, &alone);
                check(base, &components);
            }
        }
    }
    let mut random = Random::new(seed);
    for _ in 0..effort.consensus {
        let base = if random.once_in(2) { NONE } else { random.below(usize::from(SCALAR_COUNT)) as u8 };
        // Mostly one concrete scalar among abstract ones, so that many lists agree to the end or nearly so.
        let concrete = random.below(usize::from(SCALAR_COUNT)) as u8;
        let length = random.mostly_below(13, 100);
        let mut components = Vec::with_capacity(length);
        for _ in 0..length {
            let scalar = match random.below(4) {
                0 => 0,
                1 => random.below(2) as u8,
                _ => concrete,
            };
            let constructor = random.below(13) as u8;
            let any = random.once_in(40);
            components.push(if any { any_code(&mut random) } else { SCALAR_COUNT * constructor + scalar });
        }
        check(base, &components);
    }
    let remark = format!(
        "bases none and 0 to 11 with all lists of codes 0 to {LAST_CODE} to length {}, unknown bases and components, \
         {} abstract ints with each scalar at {FAR_PLACES:?}, alone and with another behind it, and {} random lists; \
         over nothing the crate {}",
        effort.exhaustive,
        grouped(LONG as u64),
        grouped(effort.consensus as u64),
        if panics_over_nothing(asker) { "panics and we refuse" } else { "answers" },
    );
    tally.sum_up(&remark)
}

/// Whether the crate panics where there is neither base nor component: document 01 refuses that by number.
fn panics_over_nothing(asker: &Asker) -> bool {
    let hook = panic::take_hook();
    panic::set_hook(Box::new(|_| {}));
    let asked = panic::catch_unwind(AssertUnwindSafe(|| asker.ask(None, &[])));
    panic::set_hook(hook);
    asked.is_err()
}

/// Expressions of every kind, both switches, and buffers of enough, just enough, one byte less and any other room.
fn compare_expressions(rules: &Crate, effort: &Effort, seed: u64) -> u64 {
    let mut tally = Tally::new("expressions");
    let mut generator = Generator::new(rules, seed);
    let mut by_number = [0u64; 18];
    let mut measured = 0;
    for _ in 0..effort.expressions {
        let bytes = generator.any();
        for concrete_only in [false, true] {
            let answer = expressions::type_expression(rules, &bytes, concrete_only);
            let needed = answer.1.len();
            let rooms = [ENOUGH_ROOM, needed, needed.saturating_sub(1), generator.random.below(600)];
            for room in rooms {
                let (typed, sheet) = expressions::in_room(&answer, room);
                by_number[usize::from(typed.number)] += 1;
                let fill = generator.random.byte();
                check_typing(&mut tally, &bytes, concrete_only, room, fill, (typed, sheet));
            }
            if answer.0.number == 0 {
                let result = Operand { code: answer.0.type_code, measured: answer.0.mark == MEASURED };
                measured += u64::from(result.measured);
                let ended = ours::ended(1, Some(result));
                let runs = (machine::run(rules, &answer.1), ours::run(&answer.1));
                tally.check((ended, ended), runs, || format!("the worksheet {:?} of {bytes:?}", answer.1));
            }
        }
    }
    let counts: Vec<String> = (0..by_number.len())
        .filter(|&number| by_number[number] > 0)
        .map(|number| format!("{number}: {}", grouped(by_number[number])))
        .collect();
    tally.sum_up(&format!(
        "{} expressions, both switches, four buffers each, accepted worksheets run on both machines, {} with a measured \
         result; by number {}",
        grouped(effort.expressions as u64),
        grouped(measured),
        counts.join(", ")
    ))
}

/// What typing an expression leaves: the answer, the front of the buffer, and whether every byte behind that kept its
/// contents.
#[derive(Debug, PartialEq)]
struct Written<'a> {
    typed: TypeAnswer,
    sheet: &'a [u8],
    rest_kept: bool,
}

/// Types an expression into a buffer of this room, all `fill`, with some bytes behind it that are not lent.
fn check_typing(
    tally: &mut Tally,
    bytes: &[u8],
    concrete_only: bool,
    room: usize,
    fill: u8,
    (typed, sheet): (TypeAnswer, &[u8]),
) {
    const BEHIND: usize = 16;
    let mut buffer = vec![fill; room + BEHIND];
    let answered = ours::type_expression(bytes, concrete_only, &mut buffer[..room]);
    let (front, rest) = buffer.split_at(sheet.len());
    let ours = Written { typed: answered, sheet: front, rest_kept: rest.iter().all(|&byte| byte == fill) };
    tally.check(Written { typed, sheet, rest_kept: true }, ours, || {
        format!(
            "{} bytes {:?}, concrete-only {concrete_only}, room {room}, a buffer of {fill}",
            bytes.len(),
            beginning(bytes)
        )
    });
}

/// Worksheets on both machines: well-formed ones, damaged ones and raw bytes.
fn compare_worksheets(rules: &Crate, effort: &Effort, seed: u64) -> u64 {
    let mut tally = Tally::new("worksheets");
    let mut generator = Generator::new(rules, seed);
    let (mut ended, mut measured, mut stopped) = (0, 0, 0);
    for _ in 0..effort.worksheets {
        let whole = generator.sheet();
        let sheet = match generator.random.below(8) {
            0..=3 => whole,
            4..=5 => generator.damaged(&whole),
            6 => generator.shuffled(&whole),
            _ => generator.raw(),
        };
        let expected = machine::run(rules, &sheet);
        if expected.number == 0 {
            ended += 1;
            measured += u64::from(expected.mark == MEASURED);
        } else {
            stopped += 1;
        }
        tally.check(expected, ours::run(&sheet), || format!("{} bytes {:?}", sheet.len(), beginning(&sheet)));
    }
    tally.sum_up(&format!(
        "{} run to their end, {} of them to a measured operand, {} stop",
        grouped(ended),
        grouped(measured),
        grouped(stopped)
    ))
}
