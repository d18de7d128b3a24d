//! The crate's side: naga's own overload sets and consensus, asked through its public interface, with the answers in
//! document 01's numbers. Nothing of the resolution is repeated here. What is added is the order in which document 01
//! asks (which argument empties the set, and what is refused before the crate is reached), the numbering of rules, who
//! gave a consensus its scalar, and the two steps that change request (iv) makes of the crate's argument step: a filter of
//! what the crate lists, by the constructors and conversions that it has. Of the marks that change request (v) gives to
//! operands the crate knows nothing: what is refused for them is found here, and one that is measured asks the crate for its
//! concrete-only step as the switch does.

use naga::ir::{MathFunction, Module, Scalar, Type, TypeInner};
use naga::proc::overloads_oracle::{constructor_of, convertible_from, Hand};
use naga::proc::{Conclusion, OverloadSet, Rule, TypeResolution};
use naga::{Handle, Span};

use crate::numbering::{self, CONSTANT, FUNCTIONS, LAST_CODE, MEASURED, NONE, OPAQUE, SCALAR_COUNT};
use crate::ours::{self, ChosenAnswer, ConsensusAnswer, Giver, Masked, Part, Refused, RuleAnswer};

/// A rule in type codes.
#[derive(Clone, Debug, PartialEq, Eq)]
pub struct RuleCodes {
    pub arguments: Vec<u8>,
    pub result: u8,
}

impl RuleCodes {
    /// The rule in the form that the library answers it.
    pub fn answer(&self) -> RuleAnswer {
        let mut arguments = [NONE; 4];
        arguments[..self.arguments.len()].copy_from_slice(&self.arguments);
        RuleAnswer { number: 0, arguments, count: self.arguments.len() as u8, result: self.result, place: 0 }
    }

    /// The rule in six bytes: four arguments, their count, the result.
    pub fn bytes(&self) -> [u8; 6] {
        self.answer().bytes()
    }

    /// The rule as the crate has it.
    pub fn rule(&self) -> Rule {
        Rule {
            arguments: self.arguments.iter().map(|&code| TypeResolution::Value(numbering::inner(code))).collect(),
            conclusion: if self.result <= OPAQUE {
                Conclusion::Value(numbering::inner(self.result))
            } else {
                Conclusion::Predeclared(numbering::predeclared(self.result))
            },
        }
    }
}

impl From<ours::Rule> for RuleCodes {
    fn from(rule: ours::Rule) -> RuleCodes {
        RuleCodes { arguments: rule.arguments, result: rule.result }
    }
}

/// The rule that a side prefers, and the rules that survive, in its order.
#[derive(Clone, Debug, PartialEq, Eq)]
pub struct Choice {
    pub preferred: RuleCodes,
    pub survivors: Vec<RuleCodes>,
}

/// Why a call has no rule, with the number of the argument at fault.
#[derive(Clone, Copy, Debug, PartialEq, Eq)]
pub enum Refusal {
    /// Refusal 5: too few or too many arguments.
    Count,
    /// Refusal 6 or 16: no rule is left after this part of this argument, counted from 0.
    Argument(Part, usize),
    /// Refusal 1: the concrete-only step left no rule.
    Empty,
}

/// A call's answer, and that to the question which rules survive it.
#[derive(Clone, Copy, Debug, PartialEq, Eq)]
pub struct Outcome {
    pub call: ChosenAnswer,
    pub survivors: Masked,
}

impl Outcome {
    pub fn refused(number: u8, place: usize) -> Outcome {
        Outcome { call: ChosenAnswer::refused(number, place), survivors: Masked::refused(number, place) }
    }
}

/// The crate with a type arena that holds every code, and each function's full listing.
pub struct Crate {
    module: Module,
    /// The crate's type of each code.
    inners: Vec<TypeInner>,
    /// The same types in the module's arena.
    handles: Vec<Handle<Type>>,
    listings: Vec<Vec<RuleCodes>>,
    arities: Vec<usize>,
}

impl Crate {
    pub fn new() -> Crate {
        let mut module = Module::default();
        let mut inners = Vec::new();
        let mut handles = Vec::new();
        for code in 0..=LAST_CODE {
            let handle = if code <= OPAQUE {
                module.types.insert(Type { name: None, inner: numbering::inner(code) }, Span::UNDEFINED)
            } else {
                module.generate_predeclared_type(numbering::predeclared(code))
            };
            inners.push(module.types[handle].inner.clone());
            handles.push(handle);
        }
        let mut made = Crate { module, inners, handles, listings: Vec::new(), arities: Vec::new() };
        for function in FUNCTIONS {
            let set = function.overloads();
            assert_eq!(set.min_arguments(), set.max_arguments(), "{function:?} has rules of one length");
            made.arities.push(set.max_arguments());
            made.listings.push(made.codes_of(&set));
        }
        made
    }

    /// How many arguments a function takes.
    pub fn arity(&self, function: u8) -> usize {
        self.arities[function as usize]
    }

    /// A function's rules in the crate's order; none for an unknown function.
    pub fn listing(&self, function: u8) -> &[RuleCodes] {
        self.listings.get(function as usize).map_or(&[], Vec::as_slice)
    }

    /// The crate's argument step.
    pub fn step<S: OverloadSet>(&self, set: &S, argument: usize, code: u8) -> S {
        set.arg(argument, &self.inners[code as usize], &self.module.types)
    }

    /// The part of an argument that leaves no rule, where the crate's step leaves none: its shape if none of the rules
    /// that the crate lists before the step has it, otherwise its number type.
    pub fn emptying<S: OverloadSet>(&self, set: &S, argument: usize, code: u8) -> Part {
        let listed = set.overload_list(&self.module.to_ctx());
        if listed.iter().any(|rule| self.fits(rule, Part::Shape, argument, code)) {
            Part::Number
        } else {
            Part::Shape
        }
    }

    /// Whether a rule has this argument, and it fits this part of a type. The crate says which constructor and scalar a
    /// type has, if any, and which scalars convert.
    fn fits(&self, rule: &Rule, part: Part, argument: usize, code: u8) -> bool {
        let types = &self.module.types;
        let operand = &self.inners[code as usize];
        let Some(wanted) = rule.arguments.get(argument).map(|wanted| wanted.inner_with(types)) else { return false };
        match part {
            Part::Shape => constructor_of(operand) & constructor_of(wanted) != 0,
            Part::Number => match (operand.scalar_for_conversions(types), wanted.scalar_for_conversions(types)) {
                (Some(from), Some(to)) => {
                    let (from, to) = (TypeInner::Scalar(from), TypeInner::Scalar(to));
                    from.non_struct_equivalent(&to, types) || from.automatically_converts_to(&to, types).is_some()
                }
                _ => false,
            },
        }
    }

    /// Resolves a call of a known function with known types: the crate's own work and, where it leaves no rule, what
    /// left none.
    pub fn preferred(&self, function: u8, operands: &[u8], concrete_only: bool) -> Result<Rule, Refusal> {
        let set = self.resolve(FUNCTIONS[function as usize], operands, concrete_only)?;
        Ok(set.most_preferred())
    }

    /// The same, with the survivors as the crate lists them.
    pub fn choice(&self, function: u8, operands: &[u8], concrete_only: bool) -> Result<Choice, Refusal> {
        let set = self.resolve(FUNCTIONS[function as usize], operands, concrete_only)?;
        Ok(Choice { preferred: rule_codes(&set.most_preferred()), survivors: self.codes_of(&set) })
    }

    fn resolve(
        &self,
        function: MathFunction,
        operands: &[u8],
        concrete_only: bool,
    ) -> Result<impl OverloadSet, Refusal> {
        let mut set = function.overloads();
        if operands.len() < set.min_arguments() || operands.len() > set.max_arguments() {
            return Err(Refusal::Count);
        }
        for (argument, &code) in operands.iter().enumerate() {
            let left = self.step(&set, argument, code);
            if left.is_empty() {
                return Err(Refusal::Argument(self.emptying(&set, argument, code), argument));
            }
            set = left;
        }
        self.concrete(set, concrete_only)
    }

    fn concrete<S: OverloadSet>(&self, set: S, concrete_only: bool) -> Result<S, Refusal> {
        let set = if concrete_only { set.concrete_only(&self.module.types) } else { set };
        if set.is_empty() {
            Err(Refusal::Empty)
        } else {
            Ok(set)
        }
    }

    /// A single call, with the tests that the documents put before the crate's.
    pub fn call(&self, function: u8, types: &[u8], marks: &[u8], concrete_only: bool) -> Outcome {
        if usize::from(function) >= FUNCTIONS.len() {
            return Outcome::refused(7, 0);
        }
        if types.len() != marks.len() {
            return Outcome::refused(8, types.len().min(marks.len()));
        }
        if let Some(fault) = operand_fault(types, marks) {
            return fault;
        }
        let mark = result_mark(marks);
        match self.resolve(FUNCTIONS[function as usize], types, concrete_only || mark == MEASURED) {
            Ok(set) => self.accepted(function, &set, mark),
            Err(Refusal::Count) => Outcome::refused(5, 0),
            Err(Refusal::Argument(part, argument)) => Outcome::refused(part.refusal(), 1 + argument),
            Err(Refusal::Empty) => Outcome::refused(1, 0),
        }
    }

    /// The answer of a call whose arguments left `set`, which has rules, and have these marks.
    pub fn concluded<S: OverloadSet>(&self, function: u8, set: &S, marks: &[u8], concrete_only: bool) -> Outcome {
        let mark = result_mark(marks);
        match self.concrete(set.clone(), concrete_only || mark == MEASURED) {
            Ok(set) => self.accepted(function, &set, mark),
            Err(_) => Outcome::refused(1, 0),
        }
    }

    fn accepted<S: OverloadSet>(&self, function: u8, set: &S, mark: u8) -> Outcome {
        let index = self.index(function, &set.most_preferred());
        let rule = &self.listing(function)[index as usize];
        let survivors = Masked::of(self.survivors(function, set), self.listing(function).len());
        Outcome { call: ours::chosen(index, rule.answer(), mark), survivors }
    }

    /// The first index in the function's full listing that holds this rule. Rules that are listed twice are alike in
    /// all that a step looks at, so they stay or go together, and the first of them is the preferred one.
    pub fn index(&self, function: u8, rule: &Rule) -> u8 {
        let codes = rule_codes(rule);
        let place = self.listing(function).iter().position(|listed| *listed == codes);
        place.expect("the preferred rule is one of the listing") as u8
    }

    fn survivors<S: OverloadSet>(&self, function: u8, set: &S) -> u64 {
        let left = self.codes_of(set);
        let mut mask = 0u64;
        for (index, rule) in self.listing(function).iter().enumerate() {
            if left.contains(rule) {
                mask |= 1 << index;
            }
        }
        assert_eq!(mask.count_ones() as usize, left.len(), "equal rules stay or go together");
        mask
    }

    fn codes_of<S: OverloadSet>(&self, set: &S) -> Vec<RuleCodes> {
        set.overload_list(&self.module.to_ctx()).iter().map(rule_codes).collect()
    }

    /// One rule, in the form that the library answers it.
    pub fn rule(&self, function: u8, index: u8) -> RuleAnswer {
        let known = usize::from(function) < FUNCTIONS.len();
        match self.listing(function).get(index as usize) {
            Some(rule) => rule.answer(),
            None => RuleAnswer::refused(7, usize::from(known)),
        }
    }

    /// What a set made by hand is left with after an argument.
    pub fn hand_step(&self, set: &Hand, argument: usize, code: u8) -> Hand {
        set.arg(argument, &self.inners[code as usize], &self.module.types)
    }

    /// What a set made by hand is left with after one part of an argument, for which the crate has no step: of a Regular
    /// set's masks one, with the other as it is; of a List the rules that fit, in the crate's order.
    pub fn hand_part(&self, set: &Hand, part: Part, argument: usize, code: u8) -> Hand {
        let operand = &self.inners[code as usize];
        match set.parts() {
            Some((arity, ..)) if argument >= arity => Hand::empty_regular(),
            Some((arity, constructors, scalars, conclusion)) => match part {
                Part::Shape => Hand::regular(arity, constructors & constructor_of(operand), scalars, conclusion),
                Part::Number => {
                    let reached = operand.scalar_for_conversions(&self.module.types).map_or(0, convertible_from);
                    Hand::regular(arity, constructors, scalars & reached, conclusion)
                }
            },
            None => {
                let mut left = set.overload_list(&self.module.to_ctx());
                left.retain(|rule| self.fits(rule, part, argument, code));
                Hand::list(left)
            }
        }
    }

    /// What a set made by hand is left with after the concrete-only step.
    pub fn hand_concrete(&self, set: Hand) -> Hand {
        set.concrete_only(&self.module.types)
    }

    /// The listing of a set made by hand.
    pub fn hand_listing(&self, set: &Hand) -> Vec<RuleCodes> {
        set.overload_list(&self.module.to_ctx()).iter().map(rule_codes).collect()
    }

    /// Lends the crate's consensus over type codes. The front end's own context is built once, so `body` asks as often
    /// as it likes.
    pub fn with_consensus<R>(&self, body: impl FnOnce(&Asker) -> R) -> R {
        let mut module = self.module.clone();
        naga::front::wgsl::oracle::with_consensus(&mut module, &self.handles, |ask, expressions| {
            body(&Asker { ask, expressions })
        })
    }
}

/// The refusal of the first operand that has an unknown type, an unknown mark, or both a measured mark and an abstract type,
/// in this order.
pub fn operand_fault(types: &[u8], marks: &[u8]) -> Option<Outcome> {
    types.iter().zip(marks).enumerate().find_map(|(index, (&code, &mark))| {
        if code > LAST_CODE || mark > MEASURED {
            Some(Outcome::refused(7, 1 + index))
        } else if mark == MEASURED && numbering::is_abstract(code) {
            Some(Outcome::refused(17, 1 + index))
        } else {
            None
        }
    })
}

/// The mark of a call's result: measured if any operand is.
fn result_mark(marks: &[u8]) -> u8 {
    marks.iter().copied().max().unwrap_or(CONSTANT)
}

/// An expression of the front end's context.
pub type Expression = naga::front::wgsl::oracle::Expr;

/// The crate's function: a base or none, components, and the scalar or the component at fault.
type Ask<'a> = dyn Fn(Option<Scalar>, &[Expression]) -> Result<Scalar, usize> + 'a;

/// The crate's consensus, with an expression of each type code.
pub struct Asker<'a> {
    ask: &'a Ask<'a>,
    expressions: &'a [Expression],
}

impl Asker<'_> {
    /// Expressions of these types.
    pub fn expressions(&self, components: &[u8]) -> Vec<Expression> {
        components.iter().map(|&code| self.expressions[code as usize]).collect()
    }

    /// The crate's own function; it panics where there is neither base nor component.
    pub fn ask(&self, base: Option<Scalar>, components: &[Expression]) -> Result<Scalar, usize> {
        (self.ask)(base, components)
    }

    /// A consensus and who gave its scalar, with the tests that document 01 puts before the crate's.
    pub fn consensus(&self, base: u8, components: &[u8]) -> ConsensusAnswer {
        if base != NONE && base >= SCALAR_COUNT {
            return ConsensusAnswer::refused(7, 0);
        }
        if let Some(unknown) = components.iter().position(|&code| code > LAST_CODE) {
            return ConsensusAnswer::refused(7, 1 + unknown);
        }
        if base == NONE && components.is_empty() {
            return ConsensusAnswer::refused(11, 0);
        }
        let scalar_of_base = (base != NONE).then(|| numbering::scalar(base));
        match self.ask(scalar_of_base, &self.expressions(components)) {
            Ok(scalar) => {
                let scalar = numbering::scalar_number(scalar);
                ours::agreed(scalar, giver(scalar, base, components))
            }
            Err(component) => ConsensusAnswer::refused(12, component),
        }
    }
}

/// Who gave a consensus its scalar, which the crate does not say: the base if it already was that scalar, otherwise the
/// first component whose scalar it is.
fn giver(scalar: u8, base: u8, components: &[u8]) -> Giver {
    if base == scalar {
        return Giver::Base;
    }
    let place = components.iter().position(|&code| code < OPAQUE && code % SCALAR_COUNT == scalar);
    Giver::Component(place.expect("the scalar of a consensus is the base's or a component's"))
}

/// A rule of the crate in type codes.
pub fn rule_codes(rule: &Rule) -> RuleCodes {
    let argument = |resolution: &TypeResolution| match resolution {
        TypeResolution::Value(inner) => numbering::code(inner),
        TypeResolution::Handle(_) => panic!("no rule of a math function names a type of the arena"),
    };
    RuleCodes {
        arguments: rule.arguments.iter().map(argument).collect(),
        result: match &rule.conclusion {
            Conclusion::Value(inner) => numbering::code(inner),
            Conclusion::Predeclared(result) => numbering::predeclared_code(result),
        },
    }
}
