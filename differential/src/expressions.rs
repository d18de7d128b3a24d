//! An independent typer of expressions, written in Rust from document 01 and change request (v) over the crate's overload
//! sets: the first pass reads the bytes into nodes and answers the first fault, the second types arguments before their call,
//! marks what is measured and writes the worksheet. The crate knows neither expressions nor worksheets nor marks; what it
//! decides here is the rule of each call, or what leaves none.

use crate::crate_side::{Crate, Refusal};
use crate::numbering::{is_abstract, Operand, FUNCTIONS, LAST_LEAF};
use crate::ours::{self, Refused, TypeAnswer};

/// The room that suffices for every worksheet: 64 leaves and calls, and 63 conversions.
pub const ENOUGH_ROOM: usize = 508;

pub const MOST_NODES: usize = 64;
pub const DEEPEST: usize = 16;

pub struct Node {
    /// Where its tag stands.
    offset: usize,
    pub kind: Kind,
}

pub enum Kind {
    Leaf(Operand),
    Call { function: u8, arguments: u8 },
}

/// A worksheet's lines so far, and the nodes, in prefix order, that are still to be typed.
struct Work<'a> {
    rules: &'a Crate,
    concrete_only: bool,
    nodes: std::slice::Iter<'a, Node>,
    sheet: Vec<u8>,
}

/// Types an expression where there is room for any worksheet: its answer and its worksheet, empty on a refusal.
pub fn type_expression(rules: &Crate, bytes: &[u8], concrete_only: bool) -> (TypeAnswer, Vec<u8>) {
    let typed = read(bytes).and_then(|nodes| {
        let mut work = Work { rules, concrete_only, nodes: nodes.iter(), sheet: Vec::with_capacity(ENOUGH_ROOM) };
        let (_, result) = work.next_node()?;
        Ok((ours::typed(result, work.sheet.len()), work.sheet))
    });
    typed.unwrap_or_else(|refusal| (refusal, Vec::new()))
}

/// The same answer where the buffer has that room, which is tested last.
pub fn in_room((typed, sheet): &(TypeAnswer, Vec<u8>), room: usize) -> (TypeAnswer, &[u8]) {
    if sheet.len() > room {
        (TypeAnswer::refused(10, sheet.len()), &[])
    } else {
        (*typed, sheet)
    }
}

/// The first pass: nodes in the order of their tags, or the first fault.
pub fn read(bytes: &[u8]) -> Result<Vec<Node>, TypeAnswer> {
    let present = |offset: usize| bytes.get(offset).copied().ok_or(TypeAnswer::refused(8, offset));
    let mut nodes = Vec::with_capacity(MOST_NODES);
    let mut offset = 0;
    // For each node on the way to the next one, how many of its arguments are unread. The root is the one argument of
    // an imagined node, so that the length of this way is the next node's depth.
    let mut unread = vec![1u8];
    while let Some(left) = unread.last_mut() {
        if *left == 0 {
            unread.pop();
            continue;
        }
        *left -= 1;
        let tag = present(offset)?;
        if nodes.len() == MOST_NODES || unread.len() > DEEPEST {
            return Err(TypeAnswer::refused(9, offset));
        }
        match tag {
            0 | 2 => {
                let leaf = Operand { code: present(offset + 1)?, measured: tag == 2 };
                if leaf.code > LAST_LEAF {
                    return Err(TypeAnswer::refused(7, offset + 1));
                }
                if leaf.measured && is_abstract(leaf.code) {
                    return Err(TypeAnswer::refused(17, offset + 1));
                }
                nodes.push(Node { offset, kind: Kind::Leaf(leaf) });
                offset += 2;
            }
            1 => {
                let function = present(offset + 1)?;
                if usize::from(function) >= FUNCTIONS.len() {
                    return Err(TypeAnswer::refused(7, offset + 1));
                }
                let arguments = present(offset + 2)?;
                nodes.push(Node { offset, kind: Kind::Call { function, arguments } });
                unread.push(arguments);
                offset += 3;
            }
            _ => return Err(TypeAnswer::refused(8, offset)),
        }
    }
    if offset < bytes.len() {
        return Err(TypeAnswer::refused(8, offset));
    }
    Ok(nodes)
}

impl Work<'_> {
    /// The second pass over the next node and what is under it: where it stands and what it results in.
    fn next_node(&mut self) -> Result<(usize, Operand), TypeAnswer> {
        let node = self.nodes.next().expect("the first pass read every argument");
        let result = match node.kind {
            Kind::Leaf(leaf) => {
                self.sheet.extend([0, leaf.code, leaf.mark(), 0]);
                leaf
            }
            Kind::Call { function, arguments } => self.call(node.offset, function, arguments)?,
        };
        Ok((node.offset, result))
    }

    fn call(&mut self, offset: usize, function: u8, arguments: u8) -> Result<Operand, TypeAnswer> {
        let mut offsets = Vec::new();
        let mut operands = Vec::new();
        let mut measured = false;
        for _ in 0..arguments {
            let (at, operand) = self.next_node()?;
            offsets.push(at);
            operands.push(operand.code);
            measured |= operand.measured;
        }
        let preferred = self.rules.preferred(function, &operands, self.concrete_only || measured).map_err(
            |refusal| match refusal {
                Refusal::Count => TypeAnswer::refused(5, offset),
                Refusal::Argument(part, argument) => TypeAnswer::refused(part.refusal(), offsets[argument]),
                Refusal::Empty => TypeAnswer::refused(1, offset),
            },
        )?;
        let index = self.rules.index(function, &preferred);
        let rule = &self.rules.listing(function)[usize::from(index)];
        for (argument, (&operand, &wanted)) in (0u8..).zip(operands.iter().zip(&rule.arguments)) {
            if operand != wanted {
                self.sheet.extend([2, arguments - 1 - argument, wanted, 0]);
            }
        }
        self.sheet.extend([1, function, index, arguments]);
        Ok(Operand { code: rule.result, measured })
    }
}
