//! An independent reader and writer of texts, written in Rust from change requests (i) and (v). The reader cuts the whole
//! text into tokens first and then descends over them; the writer descends over the nodes that the first pass of
//! `expressions.rs` read. Names are looked up in a map that is built once, from the crate's own names where it has one.

use std::collections::HashMap;

use naga::common::vector_size_str;
use naga::common::wgsl::TryToWgsl;
use naga::ir::{Scalar, ScalarKind, TypeInner};

use crate::expressions::{self, Kind, Node, DEEPEST, MOST_NODES};
use crate::numbering::{self, FUNCTIONS, LAST_LEAF};
use crate::ours::{self, Refused, TextAnswer};

/// The bytes that the longest text that is read may have.
pub const LONGEST: usize = 4096;

/// The room that suffices for what is read from any text: 64 calls.
pub const ENOUGH_BYTES: usize = 192;

/// The room that suffices for the text of any expression: a call of the longest name over 63 leaves of the longest. That
/// leaf is abstract and cannot be measured; the longest measured one takes a byte less.
pub const ENOUGH_TEXT: usize = 1530;

/// The run that stands before the type of a measured leaf.
pub const MEASURED_RUN: &str = "measured";

/// What a run of bytes means where a node may begin.
#[derive(Clone, Copy)]
enum Meaning {
    Type(u8),
    Function(u8),
    Measured,
}

/// The names of functions and types, by number and by spelling.
pub struct Names {
    functions: Vec<String>,
    types: Vec<String>,
    meanings: HashMap<Vec<u8>, Meaning>,
}

impl Names {
    pub fn new() -> Names {
        let functions: Vec<String> = FUNCTIONS.iter().map(|function| small(&format!("{function:?}"))).collect();
        let types: Vec<String> = (0..=LAST_LEAF).map(type_name).collect();
        let mut meanings = HashMap::new();
        for (number, name) in (0u8..).zip(&functions) {
            meanings.insert(name.clone().into_bytes(), Meaning::Function(number));
        }
        for (code, name) in (0u8..).zip(&types) {
            meanings.insert(name.clone().into_bytes(), Meaning::Type(code));
        }
        meanings.insert(MEASURED_RUN.into(), Meaning::Measured);
        assert_eq!(meanings.len(), functions.len() + types.len() + 1, "no run means two things");
        Names { functions, types, meanings }
    }

    /// Every run that means something.
    pub fn all(&self) -> impl Iterator<Item = &str> {
        self.functions.iter().chain(&self.types).map(String::as_str).chain([MEASURED_RUN])
    }

    /// The spelling of a function from 0 to 78.
    pub fn function(&self, number: u8) -> &str {
        &self.functions[usize::from(number)]
    }

    /// The spelling of a type from 0 to 156.
    pub fn type_name(&self, code: u8) -> &str {
        &self.types[usize::from(code)]
    }
}

/// A name with its first letter made small.
fn small(name: &str) -> String {
    let (first, rest) = name.split_at(1);
    first.to_lowercase() + rest
}

fn type_name(code: u8) -> String {
    match numbering::inner(code) {
        TypeInner::Scalar(scalar) => scalar_name(scalar),
        TypeInner::Vector { size, scalar } => format!("vec{}<{}>", vector_size_str(size), scalar_name(scalar)),
        TypeInner::Matrix { columns, rows, scalar } => {
            format!("mat{}x{}<{}>", vector_size_str(columns), vector_size_str(rows), scalar_name(scalar))
        }
        _ => "other".to_string(),
    }
}

/// The crate's name of a scalar. It has none for the abstract ones and for those of two bytes that are integers.
fn scalar_name(scalar: Scalar) -> String {
    match (scalar.try_to_wgsl(), scalar.kind) {
        (Some(name), _) => name.to_string(),
        (None, ScalarKind::AbstractInt) => "abstract-int".to_string(),
        (None, ScalarKind::AbstractFloat) => "abstract-float".to_string(),
        (None, ScalarKind::Sint) => format!("i{}", 8 * u32::from(scalar.width)),
        (None, ScalarKind::Uint) => format!("u{}", 8 * u32::from(scalar.width)),
        (None, kind) => panic!("{kind:?} of {} bytes is no scalar of the domain", scalar.width),
    }
}

#[derive(Clone, Copy, PartialEq)]
enum Sign<'a> {
    Open,
    Close,
    Comma,
    Run(&'a [u8]),
}

struct Token<'a> {
    offset: usize,
    sign: Sign<'a>,
}

fn tokens(text: &[u8]) -> Vec<Token<'_>> {
    let mut tokens = Vec::with_capacity(text.len() / 4);
    let mut offset = 0;
    while let Some(byte) = text.get(offset) {
        let sign = match byte {
            b' ' => {
                offset += 1;
                continue;
            }
            b'(' => Sign::Open,
            b')' => Sign::Close,
            b',' => Sign::Comma,
            _ => {
                let rest = &text[offset..];
                let length = rest.iter().position(|byte| b" (),".contains(byte)).unwrap_or(rest.len());
                Sign::Run(&rest[..length])
            }
        };
        tokens.push(Token { offset, sign });
        offset += if let Sign::Run(run) = sign { run.len() } else { 1 };
    }
    tokens
}

/// What was read or written where there is room for it, or the number and place of the refusal.
pub type Made = Result<Vec<u8>, Refusal>;

type Refusal = (u8, usize);

struct Reader<'a> {
    names: &'a Names,
    tokens: std::iter::Peekable<std::slice::Iter<'a, Token<'a>>>,
    /// Where the text ends.
    end: usize,
    nodes: usize,
    bytes: Vec<u8>,
}

/// Reads a text: its bytes, or the refusal.
pub fn read(names: &Names, text: &[u8]) -> Made {
    if text.len() > LONGEST {
        return Err((15, LONGEST));
    }
    let tokens = tokens(text);
    let mut reader = Reader {
        names,
        tokens: tokens.iter().peekable(),
        end: text.len(),
        nodes: 0,
        bytes: Vec::with_capacity(3 * MOST_NODES),
    };
    reader.node(1)?;
    match reader.tokens.next() {
        None => Ok(reader.bytes),
        Some(left_over) => Err((15, left_over.offset)),
    }
}

impl Reader<'_> {
    /// The next token is missing or stands in a wrong place.
    fn misplaced<T>(&mut self) -> Result<T, Refusal> {
        Err((15, self.tokens.peek().map_or(self.end, |token| token.offset)))
    }

    /// Takes the next token if it is this one.
    fn takes(&mut self, sign: Sign) -> bool {
        self.tokens.next_if(|token| token.sign == sign).is_some()
    }

    fn node(&mut self, depth: usize) -> Result<(), Refusal> {
        let Some(&&Token { offset, sign: Sign::Run(run) }) = self.tokens.peek() else { return self.misplaced() };
        self.tokens.next();
        if self.nodes == MOST_NODES || depth > DEEPEST {
            return Err((9, offset));
        }
        self.nodes += 1;
        match self.names.meanings.get(run) {
            None => Err((14, offset)),
            Some(&Meaning::Type(code)) => {
                self.bytes.extend([0, code]);
                Ok(())
            }
            Some(&Meaning::Function(function)) => {
                self.bytes.extend([1, function, 0]);
                let count = self.bytes.len() - 1;
                self.bytes[count] = self.arguments(depth + 1)?;
                Ok(())
            }
            Some(Meaning::Measured) => self.measured_type(),
        }
    }

    /// The type that must stand behind `measured`.
    fn measured_type(&mut self) -> Result<(), Refusal> {
        let Some(&&Token { sign: Sign::Run(run), .. }) = self.tokens.peek() else { return self.misplaced() };
        let Some(&Meaning::Type(code)) = self.names.meanings.get(run) else { return self.misplaced() };
        self.tokens.next();
        self.bytes.extend([2, code]);
        Ok(())
    }

    /// An argument list, and how many arguments it has.
    fn arguments(&mut self, depth: usize) -> Result<u8, Refusal> {
        if !self.takes(Sign::Open) {
            return self.misplaced();
        }
        if self.takes(Sign::Close) {
            return Ok(0);
        }
        let mut count = 0;
        loop {
            self.node(depth)?;
            count += 1;
            if self.takes(Sign::Close) {
                return Ok(count);
            }
            if !self.takes(Sign::Comma) {
                return self.misplaced();
            }
        }
    }
}

/// Writes the text of an expression: the text, or the first pass's refusal.
pub fn write(names: &Names, bytes: &[u8]) -> Made {
    let nodes = expressions::read(bytes).map_err(|refused| (refused.number, refused.place))?;
    let mut text = Vec::with_capacity(16 * nodes.len());
    write_node(names, &mut nodes.iter(), &mut text);
    Ok(text)
}

fn write_node(names: &Names, nodes: &mut std::slice::Iter<Node>, text: &mut Vec<u8>) {
    match nodes.next().expect("the first pass read every argument").kind {
        Kind::Leaf(leaf) => {
            if leaf.measured {
                text.extend(MEASURED_RUN.as_bytes());
                text.push(b' ');
            }
            text.extend(names.type_name(leaf.code).as_bytes());
        }
        Kind::Call { function, arguments } => {
            text.extend(names.function(function).as_bytes());
            text.push(b'(');
            for argument in 0..arguments {
                if argument > 0 {
                    text.extend(b", ");
                }
                write_node(names, nodes, text);
            }
            text.push(b')');
        }
    }
}

/// The answer where the buffer has that room, which is tested last, and what stands in front of the buffer then.
pub fn in_room(made: &Made, room: usize) -> (TextAnswer, &[u8]) {
    match made {
        Ok(made) if made.len() <= room => (ours::made(made.len()), made),
        Ok(made) => (TextAnswer::refused(10, made.len()), &[]),
        &Err((number, place)) => (TextAnswer::refused(number, place), &[]),
    }
}

/// Puts what was made to the front of the buffer, if it has the room.
pub fn put(made: &Made, out: &mut [u8]) -> TextAnswer {
    let (answer, front) = in_room(made, out.len());
    out[..front.len()].copy_from_slice(front);
    answer
}
