//! WGSL's ranks against the preferred rules of both sides: in every accepted call over WGSL's scalars, and in Regular sets
//! made by hand. A side is judged by the rules that it itself prefers and has left.

use naga::proc::overloads_oracle::Hand;

use crate::crate_side::{rule_codes, Choice, Crate, RuleCodes};
use crate::generate::Accepted;
use crate::numbering::{is_abstract, CONSTANT, FUNCTIONS, MEASURED, SCALAR_COUNT};
use crate::ours::{self, Part, Regular};
use crate::ranks::{is_fair, over_wgsl, ranks, Verdict, WGSL};
use crate::tally::{grouped, Tally};

/// The sides, as a question names them.
const SIDES: [&str; 2] = ["the crate's side", "ours"];

/// The accepted calls whose operands are over WGSL's scalars, with every pattern of marks in which no abstract operand is
/// measured, both switches: the preferred rule is WGSL's, and outranks every other survivor over WGSL's scalars.
pub fn compare_call_ranks(rules: &Crate, accepted: &[Accepted]) -> u64 {
    let mut tally = Tally::new("ranks in calls");
    let (mut tuples, mut calls, mut several) = (0, 0, 0);
    for call in accepted.iter().filter(|call| over_wgsl(&call.operands)) {
        let (function, types) = (call.function, &call.operands[..]);
        tuples += 1;
        for marks in markings(types) {
            for concrete_only in [false, true] {
                let of_crate = rules.choice(function, types, concrete_only || marks.contains(&MEASURED)).ok();
                let of_ours = our_call_choice(function, types, &marks, concrete_only);
                calls += 1;
                several += u64::from(of_crate.as_ref().is_some_and(has_another));
                for (side, choice) in SIDES.iter().zip([of_crate, of_ours]) {
                    let verdict = choice.as_ref().map(|choice| Verdict::of(types, choice));
                    tally.check(Some(Verdict::best(times_listed(function, types))), verdict, || {
                        let name = FUNCTIONS[usize::from(function)];
                        format!(
                            "function {function} ({name:?}), types {types:?}, marks {marks:?}, \
                             concrete-only {concrete_only}, on {side}: {choice:?}"
                        )
                    });
                }
            }
        }
    }
    tally.sum_up(&format!(
        "{} accepted tuples over WGSL's scalars, every pattern of marks without a measured abstract operand, both switches: \
         {} calls, each on both sides, {} of them with another rule over WGSL's scalars to outrank",
        grouped(tuples),
        grouped(calls),
        grouped(several)
    ))
}

/// Every pattern of marks for operands of these types in which no abstract one is measured.
fn markings(types: &[u8]) -> Vec<Vec<u8>> {
    let marks = |&code: &u8| if is_abstract(code) { &[CONSTANT][..] } else { &[CONSTANT, MEASURED] };
    rows(&types.iter().map(marks).collect::<Vec<_>>())
}

/// Every row of bytes that has in each place one of those given for it.
fn rows(places: &[&[u8]]) -> Vec<Vec<u8>> {
    let mut rows = vec![Vec::new()];
    for place in places {
        rows = rows.iter().flat_map(|row| place.iter().map(move |&byte| [&row[..], &[byte]].concat())).collect();
    }
    rows
}

/// Whether another rule over WGSL's scalars survives beside the preferred one.
fn has_another(choice: &Choice) -> bool {
    choice.survivors.iter().any(|rule| *rule != choice.preferred && over_wgsl(&rule.arguments))
}

/// The function that lists its scalar rules twice, Mix.
const MIX: u8 = 72;

/// How many times a function lists each rule that takes operands of these types.
fn times_listed(function: u8, types: &[u8]) -> usize {
    if function == MIX && types[0] < SCALAR_COUNT {
        2
    } else {
        1
    }
}

/// The rule that the library prefers in a call, and those of its own listing that are in its mask of survivors; none where
/// it refuses the call.
fn our_call_choice(function: u8, types: &[u8], marks: &[u8], concrete_only: bool) -> Option<Choice> {
    let chosen = ours::call(function, types, marks, concrete_only).unpack().ok()?;
    let masked = ours::survivors(function, types, marks, concrete_only, ours::LENT);
    masked.answer.unpack().ok()?;
    let listing = our_listing(|index| ours::rule(function, index).unpack().ok());
    let members = ours::members(&masked.lent[..ours::mask_bytes(listing.len())]);
    let survivors = members.into_iter().map(|index| listing.get(index).cloned()).collect::<Option<_>>()?;
    Some(Choice { preferred: chosen.rule.into(), survivors })
}

/// The rules that the library has at the indices from 0 up to the first at which it has none.
fn our_listing(rule: impl Fn(u8) -> Option<ours::Rule>) -> Vec<RuleCodes> {
    (0..=u8::MAX).map_while(rule).map(RuleCodes::from).collect()
}

/// The mask of the constructor SCALAR.
const SCALAR: u16 = 1;

/// The conclusion that a rule results in its argument's type.
const ARGUMENT_TYPE: u8 = 0;

/// The masks of scalars that are not empty.
const SCALAR_MASKS: std::ops::Range<u16> = 1..1 << SCALAR_COUNT;

/// Change request (vi)'s example, and all Regular sets of one and of two arguments over the constructor SCALAR: for all
/// operands over WGSL's scalars such a set prefers WGSL's rule exactly where its scalars are fair.
pub fn compare_set_ranks(rules: &Crate) -> u64 {
    let mut tally = Tally::new("ranks in sets made by hand");
    compare_example(rules, &mut tally);
    let mut accepted = 0;
    for arity in [1, 2] {
        let tuples = rows(&vec![&WGSL[..]; arity]);
        for scalars in SCALAR_MASKS {
            accepted += compare_fairness(rules, &mut tally, over_scalars(arity, scalars), &tuples);
        }
    }
    tally.sum_up(&format!(
        "the example of ABSTRACT_FLOAT and I32; the Regular sets of arity 1 and 2 over SCALAR and each of {} masks of \
         scalars, every tuple of WGSL's scalars, concrete-only or not, {} accepted: the choice on both sides, and on each \
         whether all of a set are WGSL's, as is expected of the {} fair masks and of no other",
        grouped(SCALAR_MASKS.len() as u64),
        grouped(accepted),
        grouped(SCALAR_MASKS.filter(|&scalars| is_fair(scalars)).count() as u64)
    ))
}

/// The Regular set of so many arguments over the constructor SCALAR and these scalars.
fn over_scalars(arity: usize, scalars: u16) -> Regular {
    Regular { arity: arity as u8, constructors: SCALAR, scalars, conclusion: ARGUMENT_TYPE }
}

/// Over ABSTRACT_FLOAT and I32, for an ABSTRACT_INT, both sides prefer ABSTRACT_FLOAT, of rank 5, and have I32 left, of
/// rank 3.
fn compare_example(rules: &Crate, tally: &mut Tally) {
    let set = over_scalars(1, 0b110);
    let operands = [0];
    let [preferred, better] = [1, 2].map(|code| RuleCodes { arguments: vec![code], result: code });
    let outranked = Verdict { outranked_by: vec![better.clone()], beside: vec![better.clone()], ..Verdict::best(1) };
    let expected = Some((preferred, outranked, [Some(vec![5]), Some(vec![3])]));
    let judged = |choice: Choice| {
        let verdict = Verdict::of(&operands, &choice);
        let ranks = [&choice.preferred, &better].map(|rule| ranks(&operands, rule));
        (choice.preferred, verdict, ranks)
    };
    let of_crate = crate_set_choice(rules, set, &operands, false).map(judged);
    let of_ours = our_set_choice(set, &operands, false).map(judged);
    tally.check([&expected, &expected], [&of_crate, &of_ours], || {
        format!("{set:?} with operands {operands:?}, on {}", SIDES.join(" and on "))
    });
}

/// The choices of a set for each of these tuples, concrete-only or not: the same on both sides, and on each all of them
/// WGSL's exactly where the set's scalars are fair. Answers how many are accepted.
fn compare_fairness(rules: &Crate, tally: &mut Tally, set: Regular, tuples: &[Vec<u8>]) -> u64 {
    let mut verdicts = [Vec::new(), Vec::new()];
    for operands in tuples {
        for concrete_only in [false, true] {
            let of_crate = crate_set_choice(rules, set, operands, concrete_only);
            let of_ours = our_set_choice(set, operands, concrete_only);
            tally.check(&of_crate, &of_ours, || {
                format!("the choice of {set:?} for operands {operands:?}, concrete-only {concrete_only}")
            });
            for (verdicts, choice) in verdicts.iter_mut().zip([of_crate, of_ours]) {
                verdicts.extend(choice.map(|choice| (operands, concrete_only, Verdict::of(operands, &choice))));
            }
        }
    }
    for (side, verdicts) in SIDES.iter().zip(&verdicts) {
        let other = verdicts.iter().find(|(.., verdict)| !verdict.is_wgsl());
        // A rule that is WGSL's outranks the others; any rule is listed once, and each over WGSL's scalars has its ranks.
        let strange = verdicts.iter().find(|(.., verdict)| {
            verdict.is_wgsl() && !verdict.beside.is_empty() || verdict.listed != 1 || !verdict.unranked.is_empty()
        });
        tally.check((is_fair(set.scalars), None), (other.is_none(), strange), || {
            format!("whether every choice of {set:?} is WGSL's, on {side}; the first that is not: {other:?}")
        });
    }
    verdicts[0].len() as u64
}

/// The rule that the crate prefers in a Regular set after these arguments, and all that are left; none where none is left.
fn crate_set_choice(rules: &Crate, set: Regular, operands: &[u8], concrete_only: bool) -> Option<Choice> {
    let mut left = Hand::regular(set.arity.into(), set.constructors, set.scalars, set.conclusion);
    for (index, &code) in operands.iter().enumerate() {
        left = rules.hand_step(&left, index, code);
    }
    if concrete_only {
        left = rules.hand_concrete(left);
    }
    if left.is_empty() {
        return None;
    }
    Some(Choice { preferred: rule_codes(&left.most_preferred()), survivors: rules.hand_listing(&left) })
}

/// The same of the library; none where it refuses.
fn our_set_choice(set: Regular, operands: &[u8], concrete_only: bool) -> Option<Choice> {
    let mut left = set;
    for (index, &code) in operands.iter().enumerate() {
        for part in [Part::Shape, Part::Number] {
            left = ours::regular_arg(left, part, index, code).unpack().ok()?;
        }
    }
    if concrete_only {
        left = left.concrete_only().unpack().ok()?;
    }
    let preferred = left.preferred().unpack().ok()?.into();
    Some(Choice { preferred, survivors: our_listing(|index| left.rule(index).unpack().ok()) })
}
