//! The stored list of the Rust's answers: its lines, and the rules that make an input from a line. ../README.md has the same in words.
use std::fmt;

/// The size of the longest pattern, in bytes.
pub const PATTERN: usize = 64;

/// The greatest piece. An input that is longer is never asked for in one piece, so that a buffer of this size is enough.
pub const PIECE: usize = 65_536;

/// How the bytes of an input are made.
#[derive(Debug, Clone, PartialEq, Eq)]
pub enum Source {
    /// Kind 0: a pattern, again and again.
    Repeat(Vec<u8>),
    /// Kind 1: bytes that rise by one.
    Count(u32),
    /// Kind 2: random bytes.
    Random(u32),
    /// Kind 3: random characters of a small set.
    Narrow(u32),
}

impl Source {
    /// The bytes of an input of that length.
    pub fn bytes(&self, length: usize) -> Vec<u8> {
        match self {
            Self::Repeat(pattern) => pattern.iter().copied().cycle().take(length).collect(),
            Self::Count(seed) => (0..length).map(|i| ((*seed as usize + i) % 256) as u8).collect(),
            Self::Random(seed) => draws(*seed).take(length).map(|draw| (draw % 256) as u8).collect(),
            Self::Narrow(seed) => {
                let many = 1 + seed % 64;
                draws(*seed).take(length).map(|draw| (32 + draw % many) as u8).collect()
            }
        }
    }
}

/// Numbers from 0 to 32,767: x becomes (1103515245 x + 12345) modulo 2^31, and a draw is x over 65,536.
fn draws(seed: u32) -> impl Iterator<Item = u32> {
    let mut x = u64::from(seed);
    std::iter::repeat_with(move || {
        x = (x * 1_103_515_245 + 12_345) % 2_147_483_648;
        (x / 65_536) as u32
    })
}

/// A line: a question and the Rust's answer.
#[derive(Debug, Clone, PartialEq, Eq)]
pub struct Line {
    /// The variant: 48, 128 or 256.
    pub variant: u32,
    /// The option number.
    pub options: u32,
    /// The size of the pieces; 0 stands for one piece.
    pub piece: usize,
    /// How the input is made.
    pub source: Source,
    /// How long it is.
    pub length: usize,
    /// The text, or the number of the refusal.
    pub answer: Result<String, u32>,
}

impl fmt::Display for Line {
    fn fmt(&self, to: &mut fmt::Formatter<'_>) -> fmt::Result {
        write!(to, "{} {} {} ", self.variant, self.options, self.piece)?;
        match &self.source {
            Source::Repeat(pattern) => {
                write!(to, "0 ")?;
                pattern.iter().try_for_each(|byte| write!(to, "{byte:02X}"))?;
            }
            Source::Count(seed) => write!(to, "1 {seed}")?,
            Source::Random(seed) => write!(to, "2 {seed}")?,
            Source::Narrow(seed) => write!(to, "3 {seed}")?,
        }
        match &self.answer {
            Ok(text) => write!(to, " {} {text}", self.length),
            Err(number) => write!(to, " {} refused {number}", self.length),
        }
    }
}

impl Line {
    /// The line that a text says, without its line feed.
    pub fn parse(text: &str) -> Option<Self> {
        let words: Vec<&str> = text.split(' ').collect();
        let (&[variant, options, piece, kind, seed, length], answer) = words.split_first_chunk()?;
        let source = match (kind, seed.parse()) {
            ("0", _) => {
                let digits = (0..seed.len()).step_by(2);
                let pattern = digits.map(|i| u8::from_str_radix(seed.get(i..i + 2)?, 16).ok());
                Source::Repeat(pattern.collect::<Option<_>>()?)
            }
            ("1", Ok(seed)) => Source::Count(seed),
            ("2", Ok(seed)) => Source::Random(seed),
            ("3", Ok(seed)) => Source::Narrow(seed),
            _ => return None,
        };
        Some(Self {
            variant: variant.parse().ok()?,
            options: options.parse().ok()?,
            piece: piece.parse().ok()?,
            source,
            length: length.parse().ok()?,
            answer: match answer {
                ["refused", number] => Err(number.parse().ok()?),
                [text] => Ok(text.to_string()),
                _ => return None,
            },
        })
    }
}
