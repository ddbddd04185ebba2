//! The stored list of the Rust's answers, through the library. It needs no oracle.
#[path = "../stored/rules.rs"]
mod rules;

use rules::{Line, PATTERN, PIECE, Source};
use saltcurtain::{Options, Variant, digest_pieces};

const LIST: &str = include_str!("../../crates/replay/data/answers.txt");

#[test]
fn every_line_is_answered_as_the_rust_did() {
    let mut lines = 0;
    for (place, text) in LIST.lines().enumerate() {
        let line = Line::parse(text).unwrap_or_else(|| panic!("line {} is no line: {text}", place + 1));
        assert_eq!(line.to_string(), text, "line {} is written otherwise", place + 1);
        assert!(line.piece <= PIECE && (line.piece > 0 || line.length <= PIECE), "line {}: its piece", place + 1);
        if let Source::Repeat(pattern) = &line.source {
            assert!((1..=PATTERN).contains(&pattern.len()), "line {}: its pattern", place + 1);
        }

        let variant = Variant::from_number(line.variant).expect("a known variant");
        let options = Options::from_number(line.options).expect("known options");
        let input = line.source.bytes(line.length);
        let answer = digest_pieces(variant, options, line.piece, &input);
        let answer = answer.map(|text| text.to_string()).map_err(|error| error.number());
        assert_eq!(answer, line.answer, "line {}: {text}", place + 1);
        lines += 1;
    }
    assert!(lines > 2_000, "the list is cut");
}
