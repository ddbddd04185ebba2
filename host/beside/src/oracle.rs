//! The first judge: fast-tlsh, asked with the port's numbers.
use saltcurtain::Variant;
use std::hint::black_box;
use tlsh::hashes::{Long, Normal, Short};
use tlsh::length::FuzzyHashLengthEncoding;
use tlsh::{
    DataLengthProcessingMode, FuzzyHashType, GeneratorError, GeneratorOptions, GeneratorType, HexStringPrefix,
    ParseError, TlshGeneratorFor,
};

/// A text, or the number of the refusal.
pub type Answer = Result<String, u32>;

/// The Rust's options for an option number from 0 to 31.
pub fn options(number: u32) -> GeneratorOptions {
    assert!(number < 32);
    let mut options = GeneratorOptions::new();
    if number & 1 != 0 {
        options.length_processing_mode(DataLengthProcessingMode::Conservative);
    }
    options
        .pure_integer_qratio_computation(number & 2 != 0)
        .allow_small_size_files(number & 4 != 0)
        .allow_statistically_weak_buckets_half(number & 8 != 0)
        .allow_statistically_weak_buckets_quarter(number & 16 != 0);
    options
}

/// The number of a refusal.
fn number(error: GeneratorError) -> u32 {
    match error {
        GeneratorError::TooLargeInput => 1,
        GeneratorError::TooSmallInput => 2,
        GeneratorError::BucketsAreThreeQuarterEmpty => 3,
        GeneratorError::BucketsAreHalfEmpty => 4,
        other => panic!("a refusal that has no number: {other:?}"),
    }
}

/// A generator that was fed.
#[derive(Clone)]
pub enum Fed {
    /// With 48 buckets.
    Short(TlshGeneratorFor<Short>),
    /// With 128 buckets.
    Normal(TlshGeneratorFor<Normal>),
    /// With 256 buckets.
    Long(TlshGeneratorFor<Long>),
}

/// The same words for each of the three generators.
macro_rules! each {
    ($fed:expr, $generator:ident => $words:expr) => {
        match $fed {
            Fed::Short($generator) => $words,
            Fed::Normal($generator) => $words,
            Fed::Long($generator) => $words,
        }
    };
}

impl Fed {
    /// A fresh one.
    pub fn new(variant: Variant) -> Self {
        match variant {
            Variant::Short => Self::Short(TlshGeneratorFor::new()),
            Variant::Normal => Self::Normal(TlshGeneratorFor::new()),
            Variant::Long => Self::Long(TlshGeneratorFor::new()),
        }
    }

    /// One that was fed all of the input in pieces; 0 stands for one piece.
    pub fn with(variant: Variant, piece: usize, input: &[u8]) -> Self {
        let mut fed = Self::new(variant);
        if piece == 0 {
            fed.update(input);
        } else {
            input.chunks(piece).for_each(|bytes| fed.update(bytes));
        }
        fed
    }

    /// Feeds more.
    pub fn update(&mut self, bytes: &[u8]) {
        each!(self, generator => generator.update(bytes));
    }

    /// The digest's text at an option number.
    pub fn answer(&self, number: u32) -> Answer {
        let options = options(number);
        each!(self, generator => text_of(generator.finalize_with_options(&options)))
    }

    /// The digest's text at the Rust's own default options.
    pub fn default_answer(&self) -> Answer {
        each!(self, generator => text_of(generator.finalize()))
    }
}

fn text_of<T: FuzzyHashType>(digest: Result<T, GeneratorError>) -> Answer {
    digest.map(|digest| digest.to_string()).map_err(number)
}

/// The digest at the Rust's default options from a fresh generator, written to `room`: what is measured.
pub fn digest_into(variant: Variant, piece: usize, input: &[u8], room: &mut [u8]) -> bool {
    match variant {
        Variant::Short => digest_by::<TlshGeneratorFor<Short>>(piece, input, room),
        Variant::Normal => digest_by::<TlshGeneratorFor<Normal>>(piece, input, room),
        Variant::Long => digest_by::<TlshGeneratorFor<Long>>(piece, input, room),
    }
}

fn digest_by<G: GeneratorType + Default>(piece: usize, input: &[u8], room: &mut [u8]) -> bool {
    let mut generator = G::default();
    if piece == 0 {
        generator.update(input);
    } else {
        input.chunks(piece).for_each(|bytes| generator.update(bytes));
    }
    match generator.finalize() {
        Ok(digest) => digest.store_into_str_bytes(room, HexStringPrefix::WithVersion).is_ok(),
        Err(_) => false,
    }
}

/// A text with `T1` read and written to `room`: what is measured.
pub fn rewrite_into(variant: Variant, text: &[u8], room: &mut [u8]) -> bool {
    match variant {
        Variant::Short => rewrite_by::<Short>(text, room),
        Variant::Normal => rewrite_by::<Normal>(text, room),
        Variant::Long => rewrite_by::<Long>(text, room),
    }
}

fn rewrite_by<T: FuzzyHashType>(text: &[u8], room: &mut [u8]) -> bool {
    let prefix = HexStringPrefix::WithVersion;
    T::from_str_bytes(text, Some(prefix)).is_ok_and(|digest| digest.store_into_str_bytes(room, prefix).is_ok())
}

/// A digest that was read: what is written and compared when that is measured.
pub enum Held {
    /// With 48 buckets.
    Short(Short),
    /// With 128 buckets.
    Normal(Normal),
    /// With 256 buckets.
    Long(Long),
}

impl Held {
    /// From a text with `T1`.
    pub fn new(variant: Variant, text: &[u8]) -> Option<Self> {
        let prefix = Some(HexStringPrefix::WithVersion);
        match variant {
            Variant::Short => Short::from_str_bytes(text, prefix).ok().map(Self::Short),
            Variant::Normal => Normal::from_str_bytes(text, prefix).ok().map(Self::Normal),
            Variant::Long => Long::from_str_bytes(text, prefix).ok().map(Self::Long),
        }
    }

    /// Its text, to the start of `room`.
    pub fn write_into(&self, room: &mut [u8]) -> bool {
        let prefix = HexStringPrefix::WithVersion;
        match self {
            Self::Short(digest) => digest.store_into_str_bytes(room, prefix).is_ok(),
            Self::Normal(digest) => digest.store_into_str_bytes(room, prefix).is_ok(),
            Self::Long(digest) => digest.store_into_str_bytes(room, prefix).is_ok(),
        }
    }
}

impl Held {
    /// The distance to another of its variant.
    #[inline]
    pub fn distance(&self, other: &Self) -> Option<u32> {
        match (self, other) {
            (Self::Short(one), Self::Short(other)) => Some(one.compare(other)),
            (Self::Normal(one), Self::Normal(other)) => Some(one.compare(other)),
            (Self::Long(one), Self::Long(other)) => Some(one.compare(other)),
            _ => None,
        }
    }
}

/// Two texts with `T1` read and compared.
pub fn distance(variant: Variant, one: &[u8], other: &[u8]) -> Option<u32> {
    match variant {
        Variant::Short => distance_by::<Short>(one, other),
        Variant::Normal => distance_by::<Normal>(one, other),
        Variant::Long => distance_by::<Long>(one, other),
    }
}

fn distance_by<T: FuzzyHashType>(one: &[u8], other: &[u8]) -> Option<u32> {
    let prefix = Some(HexStringPrefix::WithVersion);
    Some(T::from_str_bytes(one, prefix).ok()?.compare(&T::from_str_bytes(other, prefix).ok()?))
}

/// A text with `T1` read, and the digest left unused: what is measured.
pub fn read(variant: Variant, text: &[u8]) -> bool {
    let prefix = Some(HexStringPrefix::WithVersion);
    match variant {
        Variant::Short => black_box(Short::from_str_bytes(text, prefix)).is_ok(),
        Variant::Normal => black_box(Normal::from_str_bytes(text, prefix)).is_ok(),
        Variant::Long => black_box(Long::from_str_bytes(text, prefix)).is_ok(),
    }
}

/// Which prefixes a reader takes.
#[derive(Debug, Clone, Copy, PartialEq, Eq)]
pub enum Prefix {
    /// `T1` alone.
    Needed,
    /// `T1` or none: the size decides.
    Either,
}

/// A text read by the Rust and written again.
pub fn rewrite(variant: Variant, text: &[u8], prefix: Prefix) -> Result<String, ParseError> {
    let prefix = match prefix {
        Prefix::Needed => Some(HexStringPrefix::WithVersion),
        Prefix::Either => None,
    };
    match variant {
        Variant::Short => Short::from_str_bytes(text, prefix).map(|digest| digest.to_string()),
        Variant::Normal => Normal::from_str_bytes(text, prefix).map(|digest| digest.to_string()),
        Variant::Long => Long::from_str_bytes(text, prefix).map(|digest| digest.to_string()),
    }
}

/// The code of a length.
pub fn length_code(n: u32) -> Option<u32> {
    FuzzyHashLengthEncoding::new(n).map(|code| u32::from(code.value()))
}

/// All top lengths, from the Rust's ranges.
pub fn tops() -> Vec<u32> {
    let mut tops = Vec::new();
    let mut next = 0;
    while let Some(code) = FuzzyHashLengthEncoding::new(next) {
        let top = *code.range().expect("a code that a length has").end();
        tops.push(top);
        next = top + 1;
    }
    tops
}
