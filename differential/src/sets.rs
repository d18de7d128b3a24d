//! Sets made by hand on both sides: Regular sets and Lists after any steps, with their listings and preferred rules. The
//! crate's set types are private; its hook lends them. Where the crate would panic, document 01's refusal is expected. Of
//! the two argument steps the crate has none alone: what one leaves is filtered from what the crate lists. What both leave,
//! in either order, is compared with the crate's own step.

use naga::proc::overloads_oracle::Hand;

use crate::crate_side::{rule_codes, Crate, RuleCodes};
use crate::generate::any_code;
use crate::numbering::{LAST_CODE, NONE, OPAQUE, SCALAR_COUNT};
use crate::ours::{
    self, mask_bytes, ChosenAnswer, List, Masked, Part, Refused, Regular, RegularAnswer, RuleAnswer, LENT,
};
use crate::random::Random;
use crate::tally::{grouped, Tally};

const CONSTRUCTORS: usize = 13;
const CONCLUSIONS: u8 = 10;
const MOST_ARGUMENTS: u8 = 4;
const MOST_RULES: usize = 63;
const RULE_BYTES: usize = 6;

/// Both kinds of set, so many of each, up to six draws of steps each.
pub fn compare_sets(rules: &Crate, sets: usize, seed: u64) -> u64 {
    let mut tally = Tally::new("sets made by hand");
    let mut random = Random::new(seed);
    for _ in 0..sets {
        compare_regular(rules, &mut tally, &mut random);
        compare_list(rules, &mut tally, &mut random);
    }
    tally.sum_up(&format!(
        "{} Regular sets and as many Lists, each after 0 to 6 draws of a shape step, a number step, both in either order, \
         or the concrete-only step: masks or members, listing, preferred rule, refusals",
        grouped(sets as u64)
    ))
}

/// A step: a part of an argument of a type, or concrete-only.
#[derive(Clone, Copy, Debug)]
enum Step {
    Argument(Part, usize, u8),
    ConcreteOnly,
}

/// What is drawn: a step by itself, or both parts of an argument of a type, the named one first.
#[derive(Clone, Copy, Debug)]
enum Draw {
    Lone(Step),
    Pair(Part, usize, u8),
}

/// Steps that often leave some of the rules with these argument types.
fn any_draw(random: &mut Random, types: &[u8]) -> Draw {
    if random.once_in(6) {
        return Draw::Lone(Step::ConcreteOnly);
    }
    let index = random.mostly_below(3, 7);
    let mut any_type = || if types.is_empty() { 0 } else { *random.pick(types) };
    let (near, other) = (any_type(), any_type());
    let code = match random.below(12) {
        0 => any_code(random),
        1 => LAST_CODE + 1 + random.below(75) as u8,
        // The same shape over an abstract scalar converts; the type itself fits.
        2..=4 => near - near % SCALAR_COUNT + random.below(2) as u8,
        // The shape of one type over the scalar of another: each step may leave rules, and both none.
        5..=6 => near - near % SCALAR_COUNT + other % SCALAR_COUNT,
        _ => near,
    };
    let part = if random.once_in(2) { Part::Shape } else { Part::Number };
    if random.once_in(2) {
        Draw::Pair(part, index, code)
    } else {
        Draw::Lone(Step::Argument(part, index, code))
    }
}

/// The steps of a draw, each with the set that the crate's side has behind it; none where the type is unknown. Behind a
/// pair it is what the crate's own argument step leaves of the set before the pair.
fn steps(rules: &Crate, hand: &Hand, draw: Draw) -> Vec<(Step, Option<Hand>)> {
    let known = |code: u8| code <= LAST_CODE;
    let alone = |part: Part, index: usize, code: u8| {
        (Step::Argument(part, index, code), known(code).then(|| rules.hand_part(hand, part, index, code)))
    };
    match draw {
        Draw::Lone(Step::ConcreteOnly) => vec![(Step::ConcreteOnly, Some(rules.hand_concrete(hand.clone())))],
        Draw::Lone(Step::Argument(part, index, code)) => vec![alone(part, index, code)],
        Draw::Pair(first, index, code) => {
            let both = known(code).then(|| rules.hand_step(hand, index, code));
            vec![alone(first, index, code), (Step::Argument(first.other(), index, code), both)]
        }
    }
}

/// A mask of some of the lowest bits; seldom one with a bit beyond them.
fn any_mask(random: &mut Random, bits: usize) -> u16 {
    let all = (1usize << bits) - 1;
    let mask = match random.below(4) {
        0 => 1 << random.below(bits),
        1 => random.below(all + 1) & random.below(all + 1),
        _ => random.below(all + 1),
    };
    let beyond = if random.once_in(60) { 1usize << (bits + random.below(16 - bits)) } else { 0 };
    (mask | beyond) as u16
}

/// The refusal of the set itself: an unknown bit or conclusion, then too many arguments.
fn regular_fault(set: Regular) -> Option<u8> {
    if set.constructors >> CONSTRUCTORS != 0 || set.scalars >> SCALAR_COUNT != 0 || set.conclusion >= CONCLUSIONS {
        Some(7)
    } else if set.arity > MOST_ARGUMENTS {
        Some(3)
    } else {
        None
    }
}

/// The argument types of a set's rules, in order.
fn regular_types(set: Regular) -> Vec<u8> {
    let members = |mask: u16| (0..16u8).filter(move |bit| mask >> bit & 1 == 1);
    members(set.constructors).flat_map(|k| members(set.scalars).map(move |s| SCALAR_COUNT * k + s)).collect()
}

/// Whether document 01 gives the rule of this type a result: Frexp and Modf have one for scalars and vectors of floats.
fn concludes(conclusion: u8, code: u8) -> bool {
    !matches!(conclusion, 2 | 3) || (code / SCALAR_COUNT < 4 && matches!(code % SCALAR_COUNT, 8..=10))
}

fn compare_regular(rules: &Crate, tally: &mut Tally, random: &mut Random) {
    let mut set = Regular {
        arity: random.mostly_below(5, 8) as u8,
        constructors: any_mask(random, CONSTRUCTORS),
        scalars: any_mask(random, SCALAR_COUNT.into()),
        conclusion: random.mostly_below(10, 12) as u8,
    };
    if let Some(number) = regular_fault(set) {
        compare_refused_regular(tally, set, number);
        return;
    }
    let mut hand = Hand::regular(set.arity.into(), set.constructors, set.scalars, set.conclusion);
    compare_regular_questions(rules, tally, set, &hand);
    for _ in 0..random.below(7) {
        let draw = any_draw(random, &regular_types(set));
        // The second step of a pair begins with what the first one of ours left.
        let mut ours = set;
        for (step, behind) in steps(rules, &hand, draw) {
            let left = match step {
                Step::Argument(part, index, code) => ours::regular_arg(ours, part, index, code),
                Step::ConcreteOnly => ours.concrete_only(),
            };
            let told = || format!("{ours:?} and {step:?} of {draw:?}");
            let Some(behind) = behind else {
                tally.check(RegularAnswer::refused(7, 0), left, told);
                continue;
            };
            let (arity, constructors, scalars, conclusion) = behind.parts().expect("a step leaves a set of its kind");
            set = Regular { arity: arity as u8, constructors, scalars, conclusion };
            hand = behind;
            tally.check(ours::left(set), left, told);
            compare_regular_questions(rules, tally, set, &hand);
            ours = left.unpack().unwrap_or(set);
        }
    }
}

fn compare_refused_regular(tally: &mut Tally, set: Regular, number: u8) {
    let told = || format!("{set:?}");
    for part in [Part::Shape, Part::Number] {
        tally.check(RegularAnswer::refused(number, 0), ours::regular_arg(set, part, 0, 8), told);
        // An unknown type comes before too many arguments.
        tally.check(RegularAnswer::refused(7, 0), ours::regular_arg(set, part, 0, LAST_CODE + 1), told);
    }
    tally.check(RegularAnswer::refused(number, 0), set.concrete_only(), told);
    tally.check(RuleAnswer::refused(number, 0), set.preferred(), told);
    tally.check(RuleAnswer::refused(number, 0), set.rule(0), told);
}

/// The preferred rule, the listing, and the index behind it.
fn compare_regular_questions(rules: &Crate, tally: &mut Tally, set: Regular, hand: &Hand) {
    let types = regular_types(set);
    let preferred = if types.is_empty() {
        RuleAnswer::refused(1, 0)
    } else if set.constructors.count_ones() != 1 {
        RuleAnswer::refused(2, 0)
    } else if !concludes(set.conclusion, types[0]) {
        RuleAnswer::refused(13, 0)
    } else {
        rule_codes(&hand.most_preferred()).answer()
    };
    tally.check(preferred, set.preferred(), || format!("the preferred rule of {set:?}"));
    let told = || format!("the listing of {set:?}");
    if types.iter().all(|&code| concludes(set.conclusion, code)) {
        let listing = rules.hand_listing(hand);
        for (index, rule) in (0u8..).zip(&listing) {
            tally.check(rule.answer(), set.rule(index), told);
        }
        tally.check(RuleAnswer::refused(7, 1), set.rule(listing.len() as u8), told);
    } else {
        tally.check(RuleAnswer::refused(13, 0), set.rule(0), told);
    }
}

/// A List in bytes, and what document 01 makes of them: the rules, or the refusal's number and place.
struct ByteList {
    bytes: Vec<u8>,
    members: Vec<u8>,
    rules: Result<Vec<RuleCodes>, (u8, usize)>,
}

impl ByteList {
    fn list(&self) -> List<'_> {
        List { rules: &self.bytes, members: &self.members }
    }
}

/// Rules over a few types, so that a step leaves some of them; seldom something that is no List.
fn any_list(random: &mut Random) -> ByteList {
    let pool: Vec<u8> = (0..1 + random.below(6)).map(|_| random.below(usize::from(OPAQUE)) as u8).collect();
    let length = random.mostly_below(12, 67);
    let mut bytes = Vec::new();
    let mut rules = Vec::new();
    let (mut unknown, mut long) = (false, false);
    for k in 0..length {
        let arguments: Vec<u8> = (0..random.below(5)).map(|_| *random.pick(&pool)).collect();
        let mut rule = RuleCodes { arguments, result: any_code(random) };
        let mut count = rule.arguments.len() as u8;
        match random.below(300) {
            0 => rule.result = LAST_CODE + 1 + random.below(75) as u8,
            1 if count > 0 => rule.arguments[0] = OPAQUE + random.below(100) as u8,
            2 if count == MOST_ARGUMENTS => count += 1 + random.below(200) as u8,
            _ => {}
        }
        if k < MOST_RULES {
            unknown |= rule.result > LAST_CODE || rule.arguments.iter().any(|&code| code >= OPAQUE);
            long |= count > MOST_ARGUMENTS;
        }
        // Fields that are not in use may hold anything.
        let mut fields = [random.byte(), random.byte(), random.byte(), random.byte()];
        fields[..rule.arguments.len()].copy_from_slice(&rule.arguments);
        bytes.extend(fields);
        bytes.extend([count, rule.result]);
        rules.push(rule);
    }
    let (members, mask) = any_members(random, length);
    if random.once_in(60) {
        bytes.truncate(bytes.len().saturating_sub(1 + random.below(5)));
    }
    let fault = if bytes.len() % RULE_BYTES != 0 {
        Some((8, bytes.len() / RULE_BYTES * RULE_BYTES))
    } else if mask == AnyMask::Short {
        Some((8, members.len()))
    } else if unknown || mask == AnyMask::Foreign {
        Some((7, 0))
    } else if long || length > MOST_RULES {
        Some((3, 0))
    } else {
        None
    };
    ByteList { bytes, members, rules: fault.map_or(Ok(rules), Err) }
}

/// What a mask in bytes is: of all the rules, with a bit that is no rule's, or of too few bytes.
#[derive(Clone, Copy, PartialEq, Eq)]
enum AnyMask {
    Full,
    Foreign,
    Short,
}

/// The mask of so many rules, often with bytes behind it that are not read; seldom something that is none.
fn any_members(random: &mut Random, length: usize) -> (Vec<u8>, AnyMask) {
    let needed = mask_bytes(length);
    let mut members = vec![u8::MAX; needed];
    let spare = needed * 8 - length;
    if spare > 0 {
        members[needed - 1] >>= spare;
    }
    if needed > 0 && random.once_in(60) {
        members.truncate(random.below(needed));
        return (members, AnyMask::Short);
    }
    let mut kind = AnyMask::Full;
    if spare > 0 && random.once_in(60) {
        members[needed - 1] |= 1 << (8 - spare + random.below(spare));
        kind = AnyMask::Foreign;
    }
    for _ in 0..random.below(4) {
        members.push(random.byte());
    }
    (members, kind)
}

fn compare_list(rules: &Crate, tally: &mut Tally, random: &mut Random) {
    let mut list = any_list(random);
    let listed = match list.rules.clone() {
        Ok(listed) => listed,
        Err((number, place)) => {
            let told = || format!("the List {:?} with members {:?}", list.bytes, list.members);
            let room = random.below(LENT + 1);
            // Bytes cut short come before an unknown type, and that before too many rules or arguments.
            let unknown = if number == 8 { (8, place) } else { (7, 0) };
            for part in [Part::Shape, Part::Number] {
                for (code, (number, place)) in [(8, (number, place)), (LAST_CODE + 1, unknown)] {
                    let answered = Masked::asked(room, |out| ours::list_arg(list.list(), part, 0, code, out));
                    tally.check(Masked::refused(number, place), answered, told);
                }
            }
            tally.check(
                Masked::refused(number, place),
                Masked::asked(room, |out| list.list().concrete_only(out)),
                told,
            );
            tally.check(ChosenAnswer::refused(number, place), list.list().preferred(), told);
            return;
        }
    };
    let types: Vec<u8> = listed.iter().flat_map(|rule| rule.arguments.iter().copied()).collect();
    let mut hand = Hand::list(listed.iter().map(RuleCodes::rule).collect());
    let needed = mask_bytes(listed.len());
    compare_list_preferred(tally, &list, &listed, &hand);
    for _ in 0..random.below(7) {
        let draw = any_draw(random, &types);
        for (step, behind) in steps(rules, &hand, draw) {
            let ask = |room: usize| {
                Masked::asked(room, |out| match step {
                    Step::Argument(part, index, code) => ours::list_arg(list.list(), part, index, code, out),
                    Step::ConcreteOnly => list.list().concrete_only(out),
                })
            };
            let told = || format!("the List {:?} with members {:?} and {step:?} of {draw:?}", list.bytes, list.members);
            let Some(behind) = behind else {
                tally.check(Masked::refused(7, 0), ask(random.below(LENT + 1)), told);
                continue;
            };
            hand = behind;
            if needed > 0 && random.once_in(4) {
                tally.check(Masked::refused(10, needed), ask(random.below(needed)), told);
            }
            let left = ask(needed + random.below(LENT + 1 - needed));
            let mask = left.lent[..needed].iter().rev().fold(0, |mask, &byte| mask << 8 | u64::from(byte));
            // Which of two equal rules is left, the crate does not tell; all else is compared.
            let expected = (Masked::of(mask, listed.len()), rules.hand_listing(&hand));
            tally.check(expected, (left, chosen(&listed, mask)), told);
            list.members = left.lent[..needed].to_vec();
            compare_list_preferred(tally, &list, &listed, &hand);
        }
    }
}

/// The rules that a mask chooses.
fn chosen(listed: &[RuleCodes], mask: u64) -> Vec<RuleCodes> {
    listed.iter().enumerate().filter(|(k, _)| mask >> k & 1 == 1).map(|(_, rule)| rule.clone()).collect()
}

/// The preferred rule: its index is that of the first member.
fn compare_list_preferred(tally: &mut Tally, list: &ByteList, listed: &[RuleCodes], hand: &Hand) {
    let told = || format!("the preferred rule of the List {:?} with members {:?}", list.bytes, list.members);
    let answer = list.list().preferred();
    if hand.is_empty() {
        tally.check(ChosenAnswer::refused(1, 0), answer, told);
        return;
    }
    let rule = rule_codes(&hand.most_preferred());
    let first = (0..listed.len()).find(|k| list.members[k / 8] >> (k % 8) & 1 == 1).expect("a member is left");
    let expected = ours::chosen(first as u8, rule.answer(), NONE);
    tally.check((expected, Some(&rule)), (answer, listed.get(usize::from(answer.index))), told);
}
