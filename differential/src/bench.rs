//! Times the crate and the library on the same inputs in one process. A round is all inputs of a row on one side and
//! then on the other; the best and the median of the rounds are printed, in nanoseconds for each input.

use std::hint::black_box;
use std::time::Instant;

use naga::ir::Scalar;
use naga::proc::overloads_oracle::Hand;

use crate::crate_side::{Asker, Crate, Expression, RuleCodes};
use crate::expressions::{self, ENOUGH_ROOM};
use crate::generate::{self, Accepted, Generator};
use crate::generate_texts::TextGenerator;
use crate::machine::LINE;
use crate::numbering::{self, constants, FUNCTIONS, NONE, OPAQUE, SCALAR_COUNT};
use crate::ours::{self, List, Masked, Regular, LENT};
use crate::random::Random;
use crate::texts::{self, Names, ENOUGH_TEXT};

const INPUTS: usize = 20_000;
const EXPRESSIONS: usize = 4_000;
const TEXTS: usize = 2_000;
const ROUNDS: usize = 11;

pub fn bench(seed: u64) {
    let rules = Crate::new();
    println!("seed {seed}, {ROUNDS} rounds of each side in turn, nanoseconds for each input");
    println!(
        "{:<38} {:>10} {:>10} {:>10} {:>10} {:>8} {:>8}",
        "", "crate best", "median", "ours best", "median", "ratio", "median"
    );
    bench_calls(&rules, seed);
    bench_regular_steps(&rules, seed);
    bench_list_steps(&rules, seed);
    rules.with_consensus(|asker| bench_consensus(asker, seed));
    bench_typing(&rules, seed);
    bench_texts(seed);
}

/// Full resolution: the function's overloads are built, every argument is tried, the preferred rule is asked for. Ours has
/// the marks of the operands besides, all of them constants.
fn bench_calls(rules: &Crate, seed: u64) {
    let accepted = generate::accepted_calls(rules);
    let mut random = Random::new(seed);
    let chosen = |choose: &dyn Fn(u8) -> bool| -> Vec<&Accepted> {
        accepted.iter().filter(|call| choose(call.function)).collect()
    };
    let every = chosen(&|_| true);
    let regulars = chosen(&|function| !numbering::is_list(function));
    let lists = chosen(&numbering::is_list);
    let by_function: Vec<Vec<&Accepted>> =
        (0..FUNCTIONS.len() as u8).map(|number| chosen(&|function| function == number)).collect();
    time_calls(rules, "calls, uniform over accepted calls", &mut || *random.pick(&every));
    time_calls(rules, "calls, uniform over functions", &mut || {
        let of_one = random.pick(&by_function);
        *random.pick(of_one)
    });
    time_calls(rules, "calls, Regular only", &mut || *random.pick(&regulars));
    time_calls(rules, "calls, List only", &mut || *random.pick(&lists));
}

fn time_calls<'a>(rules: &Crate, name: &str, draw: &mut dyn FnMut() -> &'a Accepted) {
    let calls: Vec<&Accepted> = (0..INPUTS).map(|_| draw()).collect();
    time(
        name,
        &calls,
        |call| {
            let _ = black_box(rules.preferred(call.function, &call.operands, false));
        },
        |call| {
            black_box(ours::call(call.function, &call.operands, constants(call.operands.len()), false));
        },
    );
}

/// One argument step of the crate, and both of ours, on a Regular set that stands ready on both sides.
fn bench_regular_steps(rules: &Crate, seed: u64) {
    let mut random = Random::new(seed);
    let inputs: Vec<(Regular, Hand, usize, u8)> = (0..INPUTS)
        .map(|_| {
            let set = Regular {
                arity: 1 + random.below(4) as u8,
                constructors: 1 + random.below((1 << 13) - 1) as u16,
                scalars: 1 + random.below((1 << 12) - 1) as u16,
                conclusion: 0,
            };
            let hand = Hand::regular(set.arity.into(), set.constructors, set.scalars, set.conclusion);
            (set, hand, random.below(set.arity.into()), random.below(usize::from(OPAQUE)) as u8)
        })
        .collect();
    time(
        "a step on a Regular set, two of ours",
        &inputs,
        |(_, hand, index, code)| {
            black_box(rules.hand_step(hand, *index, *code));
        },
        |(set, _, index, code)| {
            let left = set.arg_shape(*index, *code).unpack();
            let _ = black_box(left.map(|left| left.arg_number(*index, *code)));
        },
    );
}

/// One argument step of the crate, and both of ours, on the full List of a function, which the crate has ready and each
/// of ours reads from its bytes.
fn bench_list_steps(rules: &Crate, seed: u64) {
    let mut random = Random::new(seed);
    let lists: Vec<(u8, Vec<u8>, Hand)> = (0..FUNCTIONS.len() as u8)
        .filter(|&function| numbering::is_list(function))
        .map(|function| {
            let listed = rules.listing(function);
            let bytes = listed.iter().flat_map(RuleCodes::bytes).collect();
            (function, bytes, Hand::list(listed.iter().map(RuleCodes::rule).collect()))
        })
        .collect();
    let inputs: Vec<(&[u8], [u8; 8], &Hand, usize, u8)> = (0..INPUTS)
        .map(|_| {
            let (function, bytes, hand) = random.pick(&lists);
            let listed = rules.listing(*function);
            let index = random.below(rules.arity(*function));
            let code = random.pick(listed).arguments[index];
            (bytes.as_slice(), ((1u64 << listed.len()) - 1).to_le_bytes(), hand, index, code)
        })
        .collect();
    time(
        "a step on a List, two of ours, bytes",
        &inputs,
        |(_, _, hand, index, code)| {
            black_box(rules.hand_step(hand, *index, *code));
        },
        |(bytes, members, _, index, code)| {
            let left = Masked::asked(LENT, |out| List { rules: bytes, members }.arg_shape(*index, *code, out));
            let left = List { rules: bytes, members: &left.lent };
            black_box(Masked::asked(LENT, |out| left.arg_number(*index, *code, out)));
        },
    );
}

/// A base or none, and components.
struct Components {
    base: u8,
    codes: Vec<u8>,
    /// The same for the crate.
    scalar: Option<Scalar>,
    expressions: Vec<Expression>,
}

/// Consensus of one to four components that mostly agree, half of them with a base.
fn bench_consensus(asker: &Asker, seed: u64) {
    let mut random = Random::new(seed);
    let inputs: Vec<Components> = (0..INPUTS)
        .map(|_| {
            let concrete = 2 + random.below(usize::from(SCALAR_COUNT) - 2) as u8;
            let length = 1 + random.below(4);
            let mut draw = || *random.pick(&[0, 0, concrete, concrete, concrete]);
            let codes: Vec<u8> = (0..length).map(|_| draw()).collect();
            let base = draw();
            let base = if random.once_in(2) { NONE } else { base };
            let scalar = (base != NONE).then(|| numbering::scalar(base));
            Components { base, scalar, expressions: asker.expressions(&codes), codes }
        })
        .collect();
    time(
        "consensus of 1 to 4 components",
        &inputs,
        |input| {
            let _ = black_box(asker.ask(input.scalar, &input.expressions));
        },
        |input| {
            black_box(ours::consensus(input.base, &input.codes));
        },
    );
}

/// Accepted expressions, typed with their worksheets. The crate has no such typer: its side is the independent one of
/// this program over the crate's overload sets.
fn bench_typing(rules: &Crate, seed: u64) {
    let mut generator = Generator::new(rules, seed);
    let mut inputs = Vec::with_capacity(EXPRESSIONS);
    let mut nodes = 0;
    while inputs.len() < EXPRESSIONS {
        let bytes = generator.fitting();
        let (typed, sheet) = expressions::type_expression(rules, &bytes, false);
        if typed.number == 0 {
            // Every line but a conversion is a node.
            nodes += sheet.chunks(LINE).filter(|line| line[0] != 2).count();
            inputs.push(bytes);
        }
    }
    let mut buffer = vec![0; ENOUGH_ROOM];
    time(
        &format!("typing, {:.1} nodes on the average", nodes as f64 / EXPRESSIONS as f64),
        &inputs,
        |bytes| {
            black_box(expressions::type_expression(rules, bytes, false));
        },
        |bytes| {
            black_box(ours::type_expression(bytes, false, &mut buffer));
        },
    );
}

/// Texts of about 200 bytes, read and written, and long texts, most of whose bytes are spaces. The crate has no such reader
/// and writer: its side is the independent one of this program.
fn bench_texts(seed: u64) {
    let names = Names::new();
    let mut generator = TextGenerator::new(&names, seed);
    let mut texts = Vec::with_capacity(TEXTS);
    let mut long = Vec::with_capacity(TEXTS);
    let mut longest = Vec::with_capacity(TEXTS);
    while texts.len() < TEXTS {
        let tokens = generator.tokens();
        let Ok(bytes) = texts::read(&names, &tokens.concat()) else { continue };
        let text = texts::write(&names, &bytes).expect("what was read is written");
        if (180..220).contains(&text.len()) {
            long.push(generator.padded(&tokens, 2_000));
            longest.push(generator.padded(&tokens, 4_000));
            texts.push((text, bytes));
        }
    }
    let (texts, written): (Vec<Vec<u8>>, Vec<Vec<u8>>) = texts.into_iter().unzip();
    let nodes = written.iter().flat_map(|bytes| expressions::read(bytes)).map(|nodes| nodes.len()).sum::<usize>()
        as f64
        / TEXTS as f64;
    let mut theirs = vec![0; ENOUGH_TEXT];
    let mut buffer = vec![0; ENOUGH_TEXT];
    let mut time_reading = |name: &str, texts: &[Vec<u8>]| {
        time(
            name,
            texts,
            |text| {
                black_box(texts::put(&texts::read(&names, text), &mut theirs));
            },
            |text| {
                black_box(ours::read_text(text, &mut buffer));
            },
        );
    };
    time_reading(&format!("reading 200 bytes, {nodes:.1} nodes"), &texts);
    time_reading("the same spread over 2,000 bytes", &long);
    time_reading("the same spread over 4,000 bytes", &longest);
    time(
        &format!("writing 200 bytes, {nodes:.1} nodes"),
        &written,
        |bytes| {
            black_box(texts::put(&texts::write(&names, bytes), &mut theirs));
        },
        |bytes| {
            black_box(ours::write_text(bytes, &mut buffer));
        },
    );
}

/// Times both sides on the inputs and prints a row.
fn time<T>(name: &str, inputs: &[T], mut of_crate: impl FnMut(&T), mut of_ours: impl FnMut(&T)) {
    let mut crate_rounds = Vec::with_capacity(ROUNDS);
    let mut our_rounds = Vec::with_capacity(ROUNDS);
    // The first round of each warms the caches and is not counted.
    for round in 0..=ROUNDS {
        let crate_round = nanoseconds(inputs, &mut of_crate);
        let our_round = nanoseconds(inputs, &mut of_ours);
        if round > 0 {
            crate_rounds.push(crate_round);
            our_rounds.push(our_round);
        }
    }
    let (crate_best, crate_median) = best_and_median(&mut crate_rounds);
    let (our_best, our_median) = best_and_median(&mut our_rounds);
    println!(
        "{name:<38} {crate_best:>10.1} {crate_median:>10.1} {our_best:>10.1} {our_median:>10.1} {:>8.2} {:>8.2}",
        crate_best / our_best,
        crate_median / our_median
    );
}

fn nanoseconds<T>(inputs: &[T], work: &mut impl FnMut(&T)) -> f64 {
    let start = Instant::now();
    for input in inputs {
        work(black_box(input));
    }
    start.elapsed().as_nanos() as f64 / inputs.len() as f64
}

fn best_and_median(rounds: &mut [f64]) -> (f64, f64) {
    rounds.sort_by(f64::total_cmp);
    (rounds[0], rounds[rounds.len() / 2])
}
