//! Random inputs for the comparison and the benchmark: operand tuples and their marks, expressions and worksheets, from
//! well-formed to raw bytes. Well-formed ones are grown from the crate's rules, so that many of them are accepted; what they
//! mean is never decided here.

use std::collections::HashMap;

use naga::proc::OverloadSet;

use crate::crate_side::Crate;
use crate::machine::{self, LINE};
use crate::numbering::{is_abstract, Operand, FUNCTIONS, LAST_CODE, LAST_LEAF, OPAQUE, SCALAR_COUNT};
use crate::random::Random;

/// The next tuple of codes in ascending order; false after the last.
pub fn next_tuple(operands: &mut [u8]) -> bool {
    for operand in operands.iter_mut().rev() {
        if *operand < LAST_CODE {
            *operand += 1;
            return true;
        }
        *operand = 0;
    }
    false
}

/// A known type code.
pub fn any_code(random: &mut Random) -> u8 {
    random.below(usize::from(LAST_CODE) + 1) as u8
}

/// Whether an operand of this type is measured, one in so many times, or never where that is 0. One of an abstract type is so
/// seldom, since that is refused.
fn measures(random: &mut Random, times: usize, code: u8) -> bool {
    times > 0 && random.once_in(if is_abstract(code) { 60 * times } else { times })
}

/// Marks for operands of these types, about half of which are measured.
pub fn any_marks(random: &mut Random, types: &[u8]) -> Vec<u8> {
    types.iter().map(|&code| u8::from(measures(random, 2, code))).collect()
}

/// A function and the operands that it accepts, with the switch off.
pub struct Accepted {
    pub function: u8,
    pub operands: Vec<u8>,
}

/// Every accepted call of every function, function by function.
pub fn accepted_calls(rules: &Crate) -> Vec<Accepted> {
    fn extend<S: OverloadSet>(rules: &Crate, function: u8, set: &S, operands: &mut Vec<u8>, calls: &mut Vec<Accepted>) {
        if operands.len() == rules.arity(function) {
            calls.push(Accepted { function, operands: operands.clone() });
            return;
        }
        for code in 0..=LAST_CODE {
            let left = rules.step(set, operands.len(), code);
            if !left.is_empty() {
                operands.push(code);
                extend(rules, function, &left, operands, calls);
                operands.pop();
            }
        }
    }
    let mut calls = Vec::new();
    for (function, named) in (0u8..).zip(FUNCTIONS) {
        extend(rules, function, &named.overloads(), &mut Vec::new(), &mut calls);
    }
    calls
}

/// A source of expressions and worksheets.
pub struct Generator<'a> {
    rules: &'a Crate,
    pub random: Random,
    /// One in so many leaves is measured; none where this is 0.
    measured: usize,
    /// The rules, as function and index, that give a type.
    by_result: HashMap<u8, Vec<(u8, u8)>>,
    /// The rules that take exactly these operands.
    by_arguments: HashMap<&'a [u8], Vec<(u8, u8)>>,
}

impl<'a> Generator<'a> {
    pub fn new(rules: &'a Crate, seed: u64) -> Generator<'a> {
        let mut by_result: HashMap<u8, Vec<(u8, u8)>> = HashMap::new();
        let mut by_arguments: HashMap<&[u8], Vec<(u8, u8)>> = HashMap::new();
        for function in 0..FUNCTIONS.len() as u8 {
            for (index, rule) in (0u8..).zip(rules.listing(function)) {
                by_result.entry(rule.result).or_default().push((function, index));
                by_arguments.entry(&rule.arguments).or_default().push((function, index));
            }
        }
        Generator { rules, random: Random::new(seed), measured: 0, by_result, by_arguments }
    }

    /// An expression of any kind, from well-formed to raw bytes. Half of them are grown with no measured leaf.
    pub fn any(&mut self) -> Vec<u8> {
        self.draw_measured();
        match self.random.below(20) {
            0..=8 => self.fitting(),
            9..=10 => self.unfitting(),
            11..=15 => {
                let whole = self.fitting();
                self.damaged(&whole)
            }
            16..=17 => self.at_a_limit(),
            _ => self.raw(),
        }
    }

    fn draw_measured(&mut self) {
        self.measured = *self.random.pick(&[0, 0, 0, 1, 2, 6]);
    }

    /// The tag of a leaf of this type.
    fn leaf_tag(&mut self, code: u8) -> u8 {
        if measures(&mut self.random, self.measured, code) {
            2
        } else {
            0
        }
    }

    /// A well-formed expression; most are accepted. At most 64 nodes and depth 16.
    pub fn fitting(&mut self) -> Vec<u8> {
        let function = self.random.below(FUNCTIONS.len()) as u8;
        let wanted = self.random.pick(self.rules.listing(function)).result;
        let mut nodes = self.random.below(64);
        let depth = 1 + self.random.below(16);
        let mut bytes = Vec::new();
        self.grow(wanted, depth, &mut nodes, &mut bytes);
        bytes
    }

    /// Appends an expression that should have the wanted type, of at most that depth, and takes the nodes that are
    /// needed besides its root from `nodes`.
    fn grow(&mut self, wanted: u8, depth: usize, nodes: &mut usize, bytes: &mut Vec<u8>) {
        if depth > 1 && !self.random.once_in(5) {
            if let Some(rules) = self.by_result.get(&wanted) {
                let (function, index) = *self.random.pick(rules);
                let arguments = &self.rules.listing(function)[usize::from(index)].arguments;
                if arguments.len() <= *nodes {
                    *nodes -= arguments.len();
                    bytes.extend([1, function, arguments.len() as u8]);
                    for &argument in arguments {
                        self.grow(argument, depth - 1, nodes, bytes);
                    }
                    return;
                }
            }
        }
        let leaf = match self.random.below(60) {
            // Either abstract scalar under the same constructor: not every wanted type is reached from it.
            0..=14 if wanted < OPAQUE => wanted - wanted % SCALAR_COUNT + (self.random.below(2) as u8),
            15 => self.random.below(usize::from(LAST_LEAF) + 1) as u8,
            _ => wanted.min(LAST_LEAF),
        };
        bytes.extend([self.leaf_tag(leaf), leaf]);
    }

    /// A well-formed expression of any functions, counts and leaves; most are refused by the second pass.
    pub fn unfitting(&mut self) -> Vec<u8> {
        let mut bytes = Vec::new();
        let mut nodes = self.random.below(40);
        let depth = 1 + self.random.below(8);
        self.scatter(depth, &mut nodes, &mut bytes);
        bytes
    }

    fn scatter(&mut self, depth: usize, nodes: &mut usize, bytes: &mut Vec<u8>) {
        let function = self.random.below(FUNCTIONS.len()) as u8;
        let count = if self.random.once_in(12) { self.random.below(6) } else { self.rules.arity(function) };
        if depth > 1 && count <= *nodes && !self.random.once_in(3) {
            *nodes -= count;
            bytes.extend([1, function, count as u8]);
            for _ in 0..count {
                self.scatter(depth - 1, nodes, bytes);
            }
        } else {
            let leaf = match self.random.below(4) {
                0 => self.random.below(usize::from(LAST_LEAF) + 1),
                1 => 24 + self.random.below(12),
                _ => self.random.below(12),
            } as u8;
            bytes.extend([self.leaf_tag(leaf), leaf]);
        }
    }

    /// An expression at a limit: a chain of some depth from 14 to 18, a tree of 62 to 66 nodes, or a call of very many
    /// arguments.
    pub fn at_a_limit(&mut self) -> Vec<u8> {
        const ABS: u8 = 0;
        const MAX: u8 = 3;
        let code = self.random.below(11) as u8;
        let leaf = [self.leaf_tag(code), code];
        let mut bytes = Vec::new();
        match self.random.below(3) {
            0 => {
                for _ in 0..13 + self.random.below(5) {
                    bytes.extend([1, ABS, 1]);
                }
                bytes.extend(leaf);
            }
            1 => {
                for _ in 0..self.random.below(4) {
                    bytes.extend([1, ABS, 1]);
                }
                // Max over Max over leaves: 2 x leaves - 1 nodes.
                let leaves = 31 + self.random.below(3);
                halves(leaves, &mut |inner| {
                    if inner {
                        bytes.extend([1, MAX, 2]);
                    } else {
                        bytes.extend(leaf);
                    }
                });
            }
            _ => {
                let function = self.random.below(FUNCTIONS.len()) as u8;
                let count = *self.random.pick(&[5, 16, 62, 63, 64, 65, 255]);
                bytes.extend([1, function, count]);
                let given = (usize::from(count) + self.random.below(3)).saturating_sub(1);
                for _ in 0..given {
                    bytes.extend(leaf);
                }
            }
        }
        bytes
    }

    /// Raw bytes: any, or only small ones, which come further.
    pub fn raw(&mut self) -> Vec<u8> {
        let length = self.random.mostly_below(40, 600);
        let small = !self.random.once_in(4);
        (0..length)
            .map(|_| match self.random.below(4) {
                _ if !small => self.random.byte(),
                0 => self.random.below(80) as u8,
                1 => self.random.below(4) as u8,
                _ => self.random.below(3) as u8,
            })
            .collect()
    }

    /// A copy of the bytes with one to three faults.
    pub fn damaged(&mut self, bytes: &[u8]) -> Vec<u8> {
        let mut bytes = bytes.to_vec();
        for _ in 0..=self.random.below(3) {
            let place = self.random.below(bytes.len() + 1);
            match self.random.below(8) {
                0 => bytes.insert(place, self.random.byte()),
                1 => bytes.insert(place, self.random.below(4) as u8),
                2 => bytes.truncate(place),
                3 if place < bytes.len() => drop(bytes.remove(place)),
                4 if place < bytes.len() => bytes[place] = self.random.byte(),
                5 if place < bytes.len() => bytes[place] = bytes[place].wrapping_add(1),
                6 if place < bytes.len() => bytes[place] = bytes[place].wrapping_sub(1),
                7 if place < bytes.len() => {
                    let other = self.random.below(bytes.len());
                    bytes.swap(place, other);
                }
                _ => bytes.push(self.random.byte()),
            }
        }
        bytes
    }

    /// A copy of a worksheet with whole lines dropped, doubled or exchanged.
    pub fn shuffled(&mut self, sheet: &[u8]) -> Vec<u8> {
        let mut lines: Vec<&[u8]> = sheet.chunks(LINE).collect();
        let (one, other) = (self.random.below(lines.len()), self.random.below(lines.len()));
        match self.random.below(3) {
            0 => drop(lines.remove(one)),
            1 => lines.insert(other, lines[one]),
            _ => lines.swap(one, other),
        }
        lines.concat()
    }

    /// A worksheet that the strict machine mostly obeys, line by line, whatever it means. Half of them are grown with no
    /// measured leaf.
    pub fn sheet(&mut self) -> Vec<u8> {
        self.draw_measured();
        let lines = 1 + self.random.mostly_below(40, 400);
        // How eagerly operands are pushed: sometimes the stack is filled.
        let pushes = 2 + self.random.below(8);
        let mut sheet = Vec::new();
        let mut stack = Vec::new();
        for _ in 0..lines {
            let line = if self.random.once_in(200) { self.any_line() } else { self.fitting_line(&stack, pushes) };
            sheet.extend(line);
            if machine::obey(self.rules, &line, &mut stack).is_none() && self.random.once_in(2) {
                break;
            }
        }
        sheet
    }

    fn any_line(&mut self) -> [u8; LINE] {
        let spare = if self.random.once_in(3) { 1 } else { 0 };
        match self.random.below(4) {
            0 => [0, self.random.byte(), self.random.below(3) as u8, spare],
            1 => [1, self.random.below(82) as u8, self.random.below(46) as u8, self.random.below(5) as u8],
            2 => [2, self.random.below(5) as u8, self.random.byte(), spare],
            _ => [self.random.byte(), self.random.byte(), self.random.byte(), self.random.byte()],
        }
    }

    fn fitting_line(&mut self, stack: &[Operand], pushes: usize) -> [u8; LINE] {
        if self.random.below(10) >= pushes && !stack.is_empty() {
            if self.random.once_in(3) {
                let depth = self.random.below(stack.len().min(4));
                let code = stack[stack.len() - 1 - depth].code;
                if is_abstract(code) {
                    let to = *self.random.pick(&[1, 2, 5, 8, 9, 10]);
                    return [2, depth as u8, code - code % SCALAR_COUNT + to, 0];
                }
            }
            let count = 1 + self.random.below(stack.len().min(4));
            let types: Vec<u8> = stack[stack.len() - count..].iter().map(|operand| operand.code).collect();
            if let Some(rules) = self.by_arguments.get(&types[..]) {
                let (function, index) = *self.random.pick(rules);
                return [1, function, index, count as u8];
            }
        }
        // Few different types, so that neighbours often match.
        let scalar = *self.random.pick(&[0, 1, 8, 8, 5, 2]);
        let constructor = *self.random.pick(&[0, 0, 0, 1, 2, 3, 4, 8]);
        let code = SCALAR_COUNT * constructor + scalar;
        [0, code, measures(&mut self.random, self.measured, code).into(), 0]
    }
}

/// Walks a tree of binary nodes over so many leaves, as even as can be, in prefix order.
fn halves(leaves: usize, visit: &mut impl FnMut(bool)) {
    visit(leaves > 1);
    if leaves > 1 {
        halves(leaves / 2, visit);
        halves(leaves - leaves / 2, visit);
    }
}
