//! Random texts for the comparison and the benchmark, from well-formed to raw bytes: tokens are grown from the names, put
//! together with spaces, and damaged before or after that. What they mean is never decided here.

use crate::numbering::{is_abstract, FUNCTIONS, LAST_LEAF};
use crate::random::Random;
use crate::texts::{Names, LONGEST, MEASURED_RUN};

/// Bytes that mean something in a text, or nearly.
const TELLING: &[u8] = b"  (),(),<>-0234xfuiabtvm_AZ\t\n\0\x1f\x7f\x80\xff";

/// A source of texts.
pub struct TextGenerator<'a> {
    names: &'a Names,
    pub random: Random,
    /// One in so many leaves is measured; none where this is 0.
    measured: usize,
}

/// Tokens, or runs that stand for them; a measured leaf stands as one, with its spaces.
type Tokens = Vec<Vec<u8>>;

impl<'a> TextGenerator<'a> {
    pub fn new(names: &'a Names, seed: u64) -> TextGenerator<'a> {
        TextGenerator { names, random: Random::new(seed), measured: 0 }
    }

    /// A text of any kind. Half of them are grown with no measured leaf.
    pub fn any(&mut self) -> Vec<u8> {
        self.measured = *self.random.pick(&[0, 0, 0, 1, 2, 6]);
        match self.random.below(20) {
            0..=6 => {
                let tokens = self.tokens();
                self.joined(&tokens)
            }
            7..=10 => {
                let mut tokens = self.tokens();
                for _ in 0..=self.random.mostly_below(1, 3) {
                    self.damage_tokens(&mut tokens);
                }
                self.joined(&tokens)
            }
            11..=14 => {
                let tokens = self.tokens();
                let text = self.joined(&tokens);
                self.damaged(text)
            }
            15..=16 => {
                let tokens = self.at_a_limit();
                self.joined(&tokens)
            }
            17..=18 => {
                let tokens = if self.random.once_in(3) { self.at_a_limit() } else { self.tokens() };
                self.near_the_longest(&tokens)
            }
            _ => self.raw(),
        }
    }

    /// The tokens of an expression, mostly within the limits.
    pub fn tokens(&mut self) -> Tokens {
        let mut nodes = self.random.mostly_below(30, 80);
        let depth = 1 + self.random.mostly_below(8, 19);
        let mut tokens = Vec::new();
        self.grow(depth, &mut nodes, &mut tokens);
        tokens
    }

    /// Appends an expression of at most that depth, and takes the nodes that are needed besides its root from `nodes`.
    fn grow(&mut self, depth: usize, nodes: &mut usize, tokens: &mut Tokens) {
        if depth == 1 || self.random.once_in(4) {
            tokens.push(self.leaf());
            return;
        }
        let count = if self.random.once_in(8) { self.random.below(9) } else { 1 + self.random.below(3) };
        let count = count.min(*nodes);
        *nodes -= count;
        tokens.push(self.function());
        tokens.push(b"(".to_vec());
        for argument in 0..count {
            if argument > 0 {
                tokens.push(b",".to_vec());
            }
            self.grow(depth - 1, nodes, tokens);
        }
        tokens.push(b")".to_vec());
    }

    /// A leaf, seldom a measured one of an abstract type, which is read, but not written. Between `measured` and the type
    /// stands mostly one space, sometimes several, seldom none.
    fn leaf(&mut self) -> Vec<u8> {
        let code = self.leaf_code();
        let name = self.names.type_name(code).as_bytes();
        let seldom = if is_abstract(code) { 20 } else { 1 };
        if self.measured == 0 || !self.random.once_in(seldom * self.measured) {
            return name.to_vec();
        }
        let spaces = if self.random.once_in(40) { 0 } else { 1 + self.random.mostly_below(1, 6) };
        [MEASURED_RUN.as_bytes(), &vec![b' '; spaces], name].concat()
    }

    fn leaf_code(&mut self) -> u8 {
        self.random.below(usize::from(LAST_LEAF) + 1) as u8
    }

    fn function(&mut self) -> Vec<u8> {
        let number = self.random.below(FUNCTIONS.len()) as u8;
        self.names.function(number).into()
    }

    /// Tokens at a limit: a chain of some depth from 15 to 18, or a call of 62 to 66 arguments, empty calls among them;
    /// now and then with an unknown run at the end.
    fn at_a_limit(&mut self) -> Tokens {
        let mut tokens: Tokens = Vec::new();
        let mut open = 0;
        if self.random.once_in(2) {
            open = 14 + self.random.below(4);
            for _ in 0..open {
                tokens.extend([self.function(), b"(".to_vec()]);
            }
            tokens.push(self.leaf());
        } else {
            for _ in 0..1 + self.random.mostly_below(1, 3) {
                tokens.extend([self.function(), b"(".to_vec()]);
                open += 1;
            }
            for argument in 0..62 + self.random.below(4) {
                if argument > 0 {
                    tokens.push(b",".to_vec());
                }
                if self.random.once_in(3) {
                    tokens.extend([self.function(), b"(".to_vec(), b")".to_vec()]);
                } else {
                    tokens.push(self.leaf());
                }
            }
        }
        if self.random.once_in(4) {
            let last = tokens.len() - 1;
            tokens[last] = self.unknown();
        }
        tokens.extend(vec![b")".to_vec(); open]);
        tokens
    }

    /// A run that is nearly a name, or nearly `measured`.
    fn unknown(&mut self) -> Vec<u8> {
        let mut run = match self.random.below(9) {
            0 => MEASURED_RUN.into(),
            1..=4 => self.names.type_name(self.leaf_code()).into(),
            _ => self.function(),
        };
        let place = self.random.below(run.len());
        match self.random.below(7) {
            0 => run[place] ^= 0x20,
            1 => run[place] = *self.random.pick(b"abcdefghijklmnopqrstuvwxyz0123456789<>-"),
            2 => run.truncate(place + 1),
            3 => drop(run.remove(place)),
            4 => run.insert(place, run[place]),
            5 => run.push(*self.random.pick(b"0248sx>_")),
            _ => run[0] = run[0].to_ascii_uppercase(),
        }
        run
    }

    fn any_token(&mut self) -> Vec<u8> {
        match self.random.below(7) {
            0 => b"(".to_vec(),
            1 => b")".to_vec(),
            2 => b",".to_vec(),
            3 => self.leaf(),
            4 => self.function(),
            5 => MEASURED_RUN.into(),
            _ => self.unknown(),
        }
    }

    fn damage_tokens(&mut self, tokens: &mut Tokens) {
        if tokens.is_empty() {
            return;
        }
        let (one, other) = (self.random.below(tokens.len()), self.random.below(tokens.len()));
        match self.random.below(8) {
            0 => drop(tokens.remove(one)),
            1 => tokens.insert(other, tokens[one].clone()),
            2 => tokens.swap(one, other),
            3 => tokens.insert(one, self.any_token()),
            4 => tokens[one] = self.any_token(),
            5 => tokens.truncate(one),
            6 => tokens.insert(one, MEASURED_RUN.into()),
            _ => tokens[one] = self.unknown(),
        }
    }

    /// A text of these tokens: as the writer has it, with no spaces, or with some. Where two runs meet, what should be
    /// two tokens may be one.
    pub fn joined(&mut self, tokens: &[Vec<u8>]) -> Vec<u8> {
        let style = self.random.below(4);
        let mut text = Vec::new();
        for token in tokens {
            if style > 1 {
                self.spaces(style == 3, &mut text);
            }
            text.extend(token);
            if style == 0 && (token == b"," || token == MEASURED_RUN.as_bytes()) {
                text.push(b' ');
            }
        }
        if style > 1 {
            self.spaces(style == 3, &mut text);
        }
        text
    }

    fn spaces(&mut self, many: bool, text: &mut Vec<u8>) {
        let most = if many { 12 } else { 2 };
        let count = self.random.below(most);
        text.extend(vec![b' '; count]);
    }

    /// A text of these tokens, padded with spaces to about the longest length.
    fn near_the_longest(&mut self, tokens: &[Vec<u8>]) -> Vec<u8> {
        let length =
            if self.random.once_in(8) { 4000 + self.random.below(200) } else { LONGEST - 2 + self.random.below(5) };
        self.padded(tokens, length)
    }

    /// A text of these tokens, with so many spaces at some of the places where they may stand that it has this length.
    pub fn padded(&mut self, tokens: &[Vec<u8>], length: usize) -> Vec<u8> {
        let bare: usize = tokens.iter().map(Vec::len).sum();
        let mut left = length.saturating_sub(bare);
        let mut before = vec![0; tokens.len() + 1];
        while left > 0 {
            let count = 1 + self.random.below(left);
            before[self.random.below(tokens.len() + 1)] += count;
            left -= count;
        }
        let mut text = Vec::with_capacity(length);
        for (token, &count) in tokens.iter().zip(&before) {
            text.extend(vec![b' '; count]);
            text.extend(token);
        }
        text.extend(vec![b' '; before[tokens.len()]]);
        text
    }

    /// The text with one to three faults in its bytes.
    fn damaged(&mut self, mut text: Vec<u8>) -> Vec<u8> {
        for _ in 0..=self.random.below(3) {
            let place = self.random.below(text.len() + 1);
            let byte = if self.random.once_in(4) { self.random.byte() } else { *self.random.pick(TELLING) };
            if place == text.len() {
                text.push(byte);
                continue;
            }
            match self.random.below(6) {
                0 => text[place] = byte,
                1 => text.insert(place, byte),
                2 => drop(text.remove(place)),
                3 => text.insert(place, text[place]),
                4 => text.truncate(place),
                _ => {
                    let other = self.random.below(text.len());
                    text.swap(place, other);
                }
            }
        }
        text
    }

    /// Raw bytes: any, or only telling ones.
    fn raw(&mut self) -> Vec<u8> {
        let length = self.random.mostly_below(30, 5000);
        let telling = self.random.once_in(2);
        (0..length).map(|_| if telling { *self.random.pick(TELLING) } else { self.random.byte() }).collect()
    }
}
