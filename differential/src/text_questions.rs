//! The part of the comparison that concerns texts: reading and writing, each against the independent reader and writer,
//! with every byte of the buffer and some behind it.

use crate::crate_side::Crate;
use crate::effort::Effort;
use crate::generate::Generator;
use crate::generate_texts::TextGenerator;
use crate::ours::{self, Refused, TextAnswer};
use crate::random::Random;
use crate::tally::{grouped, Tally};
use crate::texts::{self, Made, Names, ENOUGH_BYTES, ENOUGH_TEXT, LONGEST, MEASURED_RUN};

/// How many bytes stand behind a buffer that are not lent.
const BEHIND: usize = 16;

/// The largest room that is lent.
const MOST_ROOM: usize = 2048;

/// Buffers that hold a pattern before they are lent.
struct Lent {
    pattern: Vec<u8>,
    expected: Vec<u8>,
    answered: Vec<u8>,
    /// How many questions were answered by each number.
    by_number: [u64; 18],
}

impl Lent {
    fn new(random: &mut Random) -> Lent {
        let pattern = (0..2 * (MOST_ROOM + BEHIND)).map(|_| random.byte()).collect();
        Lent { pattern, expected: Vec::new(), answered: Vec::new(), by_number: [0; 18] }
    }

    /// Puts one question with this room and compares the answers and all bytes of both buffers.
    fn check(
        &mut self,
        tally: &mut Tally,
        (verb, input): (&str, &[u8]),
        made: &Made,
        room: usize,
        ask: fn(&[u8], &mut [u8]) -> TextAnswer,
    ) {
        // Any stretch of the pattern will do: it changes with the question.
        let start = (input.len() * 31 + room) % (self.pattern.len() - room - BEHIND);
        let stretch = &self.pattern[start..start + room + BEHIND];
        for buffer in [&mut self.expected, &mut self.answered] {
            buffer.clear();
            buffer.extend(stretch);
        }
        let expected = texts::put(made, &mut self.expected[..room]);
        let answered = ask(input, &mut self.answered[..room]);
        self.by_number[usize::from(expected.number)] += 1;
        tally.check((expected, &self.expected), (answered, &self.answered), || {
            format!("{verb} {} bytes with room {room}: {}", input.len(), shown(verb, input))
        });
    }

    fn counts(&self) -> String {
        let counted = self.by_number.iter().enumerate().filter(|(_, &count)| count > 0);
        counted.map(|(number, &count)| format!("{number}: {}", grouped(count))).collect::<Vec<_>>().join(", ")
    }
}

fn shown(verb: &str, input: &[u8]) -> String {
    if verb == "read" {
        format!("\"{}\"", input.escape_ascii())
    } else {
        format!("{input:?}")
    }
}

/// Enough room, just enough, a byte less, and any.
fn rooms(made: &Made, enough: usize, random: &mut Random) -> [usize; 4] {
    let needed = made.as_ref().map_or(0, Vec::len);
    assert!(needed <= enough, "{needed} bytes are more than enough");
    [enough, needed, needed.saturating_sub(1), random.mostly_below(enough + 8, MOST_ROOM)]
}

pub fn compare_texts(rules: &Crate, effort: &Effort, seed: u64) -> u64 {
    let names = Names::new();
    compare_reading(&names, effort, seed) + compare_writing(rules, &names, effort, seed)
}

/// Texts of every kind, four buffers each. What was read is written, and that read again, by ours; with a measured leaf that
/// is abstract it is read, and refused where it is written.
fn compare_reading(names: &Names, effort: &Effort, seed: u64) -> u64 {
    let mut tally = Tally::new("texts read");
    let mut generator = TextGenerator::new(names, seed);
    let mut lent = Lent::new(&mut generator.random);
    let mut shortest = |text: &[u8]| {
        let made = texts::read(names, text);
        lent.check(&mut tally, ("read", text), &made, ENOUGH_BYTES, ours::read_text);
    };
    few_bytes(&mut shortest);
    near_names(names, &mut shortest);
    few_tokens(effort.tokens, &mut shortest);
    for length in [0, 1, LONGEST - 1, LONGEST, LONGEST + 1, 70_000] {
        for byte in [b' ', b'(', b')', b',', b'a', 0, 255] {
            shortest(&vec![byte; length]);
        }
    }
    let mut written = vec![0; ENOUGH_TEXT];
    let mut bytes = vec![0; ENOUGH_BYTES];
    for _ in 0..effort.texts {
        let text = generator.any();
        let made = texts::read(names, &text);
        for room in rooms(&made, ENOUGH_BYTES, &mut generator.random) {
            lent.check(&mut tally, ("read", &text), &made, room, ours::read_text);
        }
        let Ok(made) = &made else { continue };
        let answer = ours::write_text(made, &mut written);
        if let Err((number, place)) = texts::write(names, made) {
            tally.check(TextAnswer::refused(number, place), answer, || format!("what was read, {made:?}, written"));
        } else {
            let length = answer.length.min(ENOUGH_TEXT);
            let again = ours::read_text(&written[..length], &mut bytes);
            let length = again.length.min(ENOUGH_BYTES);
            tally.check((ours::made(made.len()), &made[..]), (again, &bytes[..length]), || {
                format!("what was written of {made:?}, read again")
            });
        }
    }
    tally.sum_up(&format!(
        "all texts of up to two bytes and of up to {} tokens among seven, runs that mean something with a byte changed, \
         lost, doubled or added, also behind `measured` and before a type, and {} random texts, four buffers each, accepted \
         ones written and read again; by number {}",
        effort.tokens,
        grouped(effort.texts as u64),
        lent.counts()
    ))
}

/// Every text of at most two bytes.
fn few_bytes(ask: &mut impl FnMut(&[u8])) {
    ask(&[]);
    for one in 0..=u8::MAX {
        ask(&[one]);
        for other in 0..=u8::MAX {
            ask(&[one, other]);
        }
    }
}

/// Every name, and `measured`: alone, with an empty list behind it, behind `measured`, and before a type; and so with any byte
/// in each place of it, without each of its bytes, with each doubled, cut behind each, and with any byte before and behind it.
fn near_names(names: &Names, ask: &mut impl FnMut(&[u8])) {
    let mut each = |run: &[u8]| {
        ask(run);
        ask(&[run, b"()"].concat());
        ask(&[MEASURED_RUN.as_bytes(), b" ", run].concat());
        ask(&[run, b" u32"].concat());
    };
    for name in names.all().map(str::as_bytes) {
        for place in 0..name.len() {
            let (front, back) = name.split_at(place);
            for byte in 0..=u8::MAX {
                each(&[front, &[byte], &back[1..]].concat());
            }
            each(&[front, &back[1..]].concat());
            each(&[front, &back[..1], back].concat());
            each(front);
        }
        for byte in 0..=u8::MAX {
            each(&[&[byte], name].concat());
            each(&[name, &[byte]].concat());
        }
    }
}

/// Every row of at most so many tokens among the three signs, a type, a function, `measured` and an unknown run, with a space
/// between two runs.
fn few_tokens(most: usize, ask: &mut impl FnMut(&[u8])) {
    const TOKENS: [&[u8]; 7] = [b"u32", b"abs", b"(", b")", b",", b"u", MEASURED_RUN.as_bytes()];
    fn extend(text: &mut Vec<u8>, left: usize, ask: &mut impl FnMut(&[u8])) {
        ask(text);
        if left == 0 {
            return;
        }
        for token in TOKENS {
            let length = text.len();
            if token[0].is_ascii_alphabetic() && text.last().is_some_and(u8::is_ascii_alphanumeric) {
                text.push(b' ');
            }
            text.extend(token);
            extend(text, left - 1, ask);
            text.truncate(length);
        }
    }
    extend(&mut Vec::new(), most, ask);
}

/// Expressions of every kind, four buffers each. What was written is read again by ours.
fn compare_writing(rules: &Crate, names: &Names, effort: &Effort, seed: u64) -> u64 {
    let mut tally = Tally::new("texts written");
    let mut generator = Generator::new(rules, seed);
    let mut lent = Lent::new(&mut generator.random);
    let mut plain = |bytes: &[u8]| {
        let made = texts::write(names, bytes);
        lent.check(&mut tally, ("write", bytes), &made, ENOUGH_TEXT, ours::write_text);
    };
    for number in 0..=u8::MAX {
        for other in 0..=u8::MAX {
            plain(&[number, other]);
            plain(&[1, number, 1, 0, other]);
            plain(&[1, number, 1, 2, other]);
            plain(&[1, number, other]);
        }
    }
    let mut back = vec![0; ENOUGH_BYTES];
    for _ in 0..effort.texts {
        let bytes = generator.any();
        let made = texts::write(names, &bytes);
        for room in rooms(&made, ENOUGH_TEXT, &mut generator.random) {
            lent.check(&mut tally, ("write", &bytes), &made, room, ours::write_text);
        }
        if let Ok(text) = &made {
            let again = ours::read_text(text, &mut back);
            let length = again.length.min(ENOUGH_BYTES);
            tally.check((ours::made(bytes.len()), &bytes[..]), (again, &back[..length]), || {
                format!("what was written of {bytes:?}, read again")
            });
        }
    }
    tally.sum_up(&format!(
        "every leaf and function, and {} random expressions, four buffers each, accepted ones read again; by number {}",
        grouped(effort.texts as u64),
        lent.counts()
    ))
}
