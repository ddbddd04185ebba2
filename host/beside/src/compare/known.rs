//! Where the port answers otherwise than the Rust, or than the Rust's comments, and is meant to. Every entry must be met in a whole
//! run: one that is not met has lost its test, or is no difference any more.

/// A listed difference.
#[derive(Debug, Clone, Copy, PartialEq, Eq, PartialOrd, Ord)]
pub enum Known {
    /// The room is looked at before the input.
    RoomFirst,
    /// The text needs its prefix.
    Bare,
    /// The digits are capitals.
    SmallLetters,
    /// One number for every fault in the form of a text.
    OneFault,
    /// A length without a code has a number.
    NoLengthCode,
    /// Variants are numbers.
    UnknownVariant,
    /// Options are numbers.
    UnknownOption,
    /// Any three numbers can be handed over as quartiles.
    Quartiles,
    /// The room is looked at before the text that is to be read.
    RoomBeforeText,
    /// The default ratios are floating.
    DefaultRatios,
    /// Digests of different variants.
    UnlikeDigests,
}

/// All of them, each with its number in docs/DIFFERENCES.md, where it has one, and with what is seen.
pub const LIST: [(Known, Option<u32>, &str); 11] = [
    (
        Known::RoomFirst,
        Some(1),
        "a destination too short for an input that is refused: the port gives 7 first, the Rust finalizes first",
    ),
    (Known::Bare, Some(2), "a text without T1: the Rust reads it where no prefix is asked for, the port gives 8"),
    (Known::SmallLetters, Some(3), "a text with a digit from a to f: the Rust reads it, the port gives 9"),
    (
        Known::OneFault,
        Some(4),
        "a text that does not begin T1: the Rust tells it from a wrong digit, the port gives 9 to both",
    ),
    (Known::NoLengthCode, Some(5), "a length above the last top: the Rust gives None, the port gives 5"),
    (Known::UnknownVariant, Some(6), "an unknown variant: the port gives 6, the Rust's types have no such value"),
    (Known::UnknownOption, Some(8), "an unknown option number: the port gives 10, the Rust's types have no such value"),
    (Known::Quartiles, Some(9), "quartiles not in order, or a third of 0: the port gives 11, the Rust selects its own"),
    (
        Known::RoomBeforeText,
        Some(10),
        "a destination too short for a text that is refused: the port gives 7 first, the Rust reads first",
    ),
    (
        Known::DefaultRatios,
        None,
        "the Rust's comment says that ratios are whole-number by default: its code and the port take floating ones",
    ),
    (
        Known::UnlikeDigests,
        Some(12),
        "digests of different variants: the port gives 12, the Rust's types have no such comparison",
    ),
];

/// How a listed difference is named: by its number, where it has one.
pub fn name(number: Option<u32>) -> String {
    number.map_or("no difference".into(), |number| format!("No. {number}"))
}
