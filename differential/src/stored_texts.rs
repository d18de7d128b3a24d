//! The stored answers on texts that the program `replay` asks again, `crates/replay/data/texts`: made by the independent
//! reader and writer alone, without the library.
//!
//! A file is a row of records. A record is its length in two bytes, the low one first, and then that many bytes:
//!
//! | Bytes | What |
//! |---|---|
//! | 1 | 0: a text is read. 1: an expression is written as a text |
//! | 2 | the room: how many bytes are lent |
//! | 1 | the number of the answer |
//! | 2 | its place, 0 for an accepted one |
//! | 2 | the length of the question |
//! | so many | the question: the text, or the expression's bytes |
//! | the rest | what is written: the expression's bytes, or the text; nothing for a refusal |
//!
//! Numbers of two bytes have the low one first. The length answered must be that of what is written. The buffer is the
//! front of 2,048 bytes that all hold 255. Afterwards what is written must stand in front of them, and every other byte
//! hold 255, as all must after a refusal.

use std::collections::HashSet;
use std::io::{self, Write};

use crate::crate_side::Crate;
use crate::generate::Generator;
use crate::generate_texts::TextGenerator;
use crate::numbering::{FUNCTIONS, LAST_LEAF};
use crate::texts::{self, Made, Names, ENOUGH_BYTES, ENOUGH_TEXT, LONGEST, MEASURED_RUN};

/// How many random questions of each kind are stored.
const RANDOM: usize = 150;

/// A random question is stored if it has at most so many bytes.
const SHORT: usize = 200;

/// The records so far.
struct Records {
    bytes: Vec<u8>,
    known: HashSet<Vec<u8>>,
}

impl Records {
    /// Adds a record, unless it is there already.
    fn add(&mut self, kind: u8, question: &[u8], room: usize, made: &Made) {
        let (answer, written) = texts::in_room(made, room);
        let record =
            [&[kind], &word(room)[..], &[answer.number], &word(answer.place), &word(question.len()), question, written]
                .concat();
        if self.known.insert(record.clone()) {
            self.bytes.extend(word(record.len()));
            self.bytes.extend(record);
        }
    }
}

/// Two bytes, the low one first.
fn word(number: usize) -> [u8; 2] {
    u16::try_from(number).expect("a record's numbers have two bytes").to_le_bytes()
}

/// Writes the records to standard output.
pub fn store(seed: u64) -> io::Result<()> {
    let names = Names::new();
    let mut records = Records { bytes: Vec::new(), known: HashSet::new() };
    let mut read = |text: &[u8], room: usize| records.add(0, text, room, &texts::read(&names, text));
    for text in names_and_lengths(&names) {
        read(&text, ENOUGH_BYTES);
    }
    for text in by_hand() {
        read(&text, ENOUGH_BYTES);
        let needed = texts::read(&names, &text).map_or(0, |bytes| bytes.len());
        read(&text, needed);
        read(&text, needed.saturating_sub(1));
    }
    let mut generator = TextGenerator::new(&names, seed);
    random(|| generator.any(), |text| read(text, ENOUGH_BYTES));
    let mut write = |bytes: &[u8], room: usize| records.add(1, bytes, room, &texts::write(&names, bytes));
    for bytes in expressions_by_hand() {
        write(&bytes, ENOUGH_TEXT);
        let needed = texts::write(&names, &bytes).map_or(0, |text| text.len());
        write(&bytes, needed);
        write(&bytes, needed.saturating_sub(1));
    }
    let rules = Crate::new();
    let mut generator = Generator::new(&rules, seed);
    random(|| generator.any(), |bytes| write(bytes, ENOUGH_TEXT));
    io::stdout().write_all(&records.bytes)
}

/// Adds the first short ones of a source.
fn random(mut draw: impl FnMut() -> Vec<u8>, mut add: impl FnMut(&[u8])) {
    let mut left = RANDOM;
    while left > 0 {
        let question = draw();
        if question.len() <= SHORT {
            add(&question);
            left -= 1;
        }
    }
}

/// Every name, that of a type also behind `measured`, and texts about as long as the longest.
fn names_and_lengths(names: &Names) -> Vec<Vec<u8>> {
    let functions = (0..FUNCTIONS.len() as u8).map(|number| format!("{}()", names.function(number)));
    let types = (0..=LAST_LEAF).map(|code| names.type_name(code).to_string());
    let measured = (0..=LAST_LEAF).map(|code| format!("{MEASURED_RUN} {}", names.type_name(code)));
    let mut texts: Vec<Vec<u8>> = functions.chain(types).chain(measured).map(String::into_bytes).collect();
    for length in LONGEST - 1..=LONGEST + 1 {
        texts.push(format!("{:<length$}", "abs(u32)").into_bytes());
    }
    texts.push(format!("{:>LONGEST$}", "abs(u32,)").into_bytes());
    texts.push(vec![b' '; LONGEST]);
    texts.push(vec![b'a'; LONGEST]);
    texts.push(vec![b'('; LONGEST + 1]);
    texts
}

/// Texts that are refused at each kind of place, and texts at the limits of nodes and depth.
fn by_hand() -> Vec<Vec<u8>> {
    let mut texts: Vec<Vec<u8>> = [
        "clamp(abstract-int, u32, abstract-int)",
        "clamp(mix(vec3<f32>, vec3<abstract-float>, f32), faceForward(vec3<f32>, cross(vec3<f32>, vec3<f32>), vec3<f32>), \
         smoothStep(vec3<f32>, vec3<f32>, max(vec3<f32>, unpack4x8snorm(u32))))",
        "  max (  u32,abs( i32 ) , other )  ",
        "abs()",
        "abs( )",
        "abs(abs(),abs())",
        "",
        "   ",
        "(",
        ")",
        ",",
        "()",
        "abs",
        "abs ",
        "abs u32",
        "abs(",
        "abs( ",
        "abs)",
        "abs,",
        "abs(u32",
        "abs(u32 ",
        "abs(u32,",
        "abs(u32, ",
        "abs(u32,)",
        "abs(,u32)",
        "abs(u32,,u32)",
        "abs(u32 u32)",
        "abs(u32(",
        "abs((u32))",
        "abs(u32))",
        "abs(u32),",
        "abs(u32) u32",
        "abs(u32) x",
        "abs()()",
        "u32(",
        "u32()",
        "u32 u32",
        "u32,u32",
        "u32)",
        "ABS(u32)",
        "Abs(u32)",
        "abs(U32)",
        "abs(u)",
        "abs(u33)",
        "ab(u32)",
        "absu32()",
        "x",
        "x y",
        "x(",
        "abs(x",
        "vec3",
        "vec3<f32",
        "vec3<f32>>",
        "vec3 <f32>",
        "vec5<f32>",
        "mat2x3<f16>x",
        "mat2x5<f32>",
        "vec3<other>",
        "abstractint",
        "abstract_int",
        "smoothstep(f32)",
        "abs\t(u32)",
        "abs(u32)\n",
        "\0",
        "\u{1}\0\u{1}\0\u{5}",
        "\u{2}\u{5}",
        "  measured   vec3<f32>  ",
        "pow(measured f32, abstract-int)",
        "clamp(measured vec2<f32>,vec2<abstract-int>,measured  vec2<f32>)",
        "measured",
        "measured ",
        "measured(",
        "measured()",
        "measured(u32)",
        "measured,u32",
        "measured measured u32",
        "measured abs",
        "measured abs(u32)",
        "measured x",
        "measured u33",
        "measured u32 u32",
        "measured u32()",
        "measuredu32",
        "measure u32",
        "measuredd u32",
        "Measured u32",
        "measured\tu32",
        "u32 measured",
        "u32 measured u32",
        "abs measured",
        "abs(measured",
        "abs(measured ",
        "abs(measured)",
        "abs(measured,u32)",
        "abs(u32 measured)",
        "abs(u32,measured x)",
    ]
    .map(|text| text.as_bytes().to_vec())
    .to_vec();
    texts.push(vec![255, 254, b'(']);
    // Depth 16 and 17, with a known or an unknown run at the end, or none.
    for calls in [15, 16] {
        for last in ["f32", "x", "", ")", ",", "abs(", "measured f32", "measured x", "measured"] {
            texts.push(("abs(".repeat(calls) + last + &")".repeat(calls)).into_bytes());
        }
    }
    // 64 and 65 nodes.
    for arguments in [63, 64] {
        for last in ["u32", "x", "abs()", "", ")", ",", "measured u32", "measured x", "measured"] {
            texts.push(format!("max({}{last})", "u32,".repeat(arguments - 1)).into_bytes());
        }
        texts.push(format!("max({})", vec!["abs()"; arguments].join(",")).into_bytes());
    }
    texts
}

/// Expressions that are refused at each kind of place, and expressions at the limits.
fn expressions_by_hand() -> Vec<Vec<u8>> {
    const ABS: u8 = 0;
    const MAX: u8 = 3;
    const U32: u8 = 5;
    /// That with the longest name.
    const COUNT_TRAILING_ZEROS: u8 = 36;
    /// MAT4X4 of ABSTRACT_FLOAT, that with the longest name.
    const LONGEST_LEAF: u8 = 145;
    /// MAT4X4 of BOOL, that with the longest name of those that may be measured.
    const LONGEST_MEASURED: u8 = 155;
    let mut expressions = vec![
        vec![],
        vec![0],
        vec![0, U32],
        vec![0, LAST_LEAF],
        vec![0, LAST_LEAF + 1],
        vec![0, 255],
        vec![0, U32, 0],
        vec![1],
        vec![1, ABS],
        vec![1, ABS, 0],
        vec![1, ABS, 1],
        vec![1, ABS, 1, 0],
        vec![1, ABS, 1, 0, U32],
        vec![1, ABS, 1, 0, U32, 1],
        vec![1, MAX, 2, 1, ABS, 0, 0, U32],
        vec![1, MAX, 3, 0, U32, 0, U32, 1, ABS, 2, 0, U32, 0, LAST_LEAF],
        vec![1, 78, 0],
        vec![1, 79, 0],
        vec![1, 255],
        vec![2],
        vec![2, LAST_LEAF + 1],
        vec![2, 255],
        vec![2, 0, 0],
        vec![2, U32, 2],
        vec![2, U32, 2, U32],
        vec![1, ABS, 1, 2],
        vec![1, ABS, 1, 2, 1],
        vec![1, MAX, 2, 2, U32, 0, 0],
        vec![1, MAX, 2, 2, LONGEST_LEAF, 7],
        vec![1, MAX, 2, 7, 2, LONGEST_LEAF],
        vec![3],
        vec![255],
        vec![1, MAX, 2, 0, U32, 7],
        b"abs(u32)".to_vec(),
    ];
    expressions.extend((0..=LAST_LEAF).map(|code| vec![2, code]));
    for calls in [15, 16] {
        expressions.push([[1, ABS, 1].repeat(calls), vec![2, 0]].concat());
        expressions.push([[1, ABS, 1].repeat(calls), vec![0, U32]].concat());
        expressions.push([1, ABS, 1].repeat(calls));
    }
    for arguments in [63, 64, 255] {
        expressions.push([vec![1, MAX, arguments], [0, U32].repeat(arguments.into())].concat());
        expressions.push([vec![1, MAX, arguments], [2, U32].repeat(arguments.into())].concat());
        expressions.push([vec![1, MAX, arguments], [1, ABS, 0].repeat(arguments.into())].concat());
    }
    expressions.push([vec![1, COUNT_TRAILING_ZEROS, 63], [0, LONGEST_LEAF].repeat(63)].concat());
    expressions.push([vec![1, COUNT_TRAILING_ZEROS, 63], [2, LONGEST_MEASURED].repeat(63)].concat());
    expressions
}
