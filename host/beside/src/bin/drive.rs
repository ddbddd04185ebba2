//! `drive port|rust VARIANT CHUNKS`: one digest of so many chunks of 64 KiB, each fed by itself, for callgrind to count.
//!
//! The chunks are one chunk, mapped again and again, so that two runs differ in the feeding alone: the difference of their counts
//! over the difference of their lengths is the number of instructions a byte.
use beside::inputs::{Input, Kind};
use beside::mapped::Mapped;
use beside::oracle;
use saltcurtain::{Variant, raw};
use std::env;

const CHUNK: usize = 65_536;

fn main() {
    let words: Vec<String> = env::args().skip(1).collect();
    let [side, variant, chunks] = &words[..] else {
        panic!("drive port|rust VARIANT CHUNKS");
    };
    let variant = Variant::from_number(variant.parse().expect("a number")).expect("48, 128 or 256");
    let length = CHUNK * chunks.parse::<usize>().expect("a number");
    let chunk = Input::new(Kind::Report, 7, CHUNK);
    let mapped = Mapped::new(&chunk.bytes, length).expect("the chunk is mapped");
    let input = &mapped.bytes()[..length];
    let mut room = [0; 136];
    let done = match side.as_str() {
        "port" => raw::digest_pieces(variant.number(), 0, CHUNK, input, &mut room) == 0,
        "rust" => oracle::digest_into(variant, CHUNK, input, &mut room),
        _ => panic!("port or rust"),
    };
    assert!(done);
}
