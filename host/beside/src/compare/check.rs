//! One call of the port, held to what it should answer and to every byte that it should leave.
use super::known::Known;
use super::tally::Tally;
use beside::inputs::Input;
use beside::judge;
use beside::oracle::{self, Answer, Prefix};
use saltcurtain::{Variant, raw};
use std::fmt::{Display, Write};
use tlsh::ParseError;

/// Bytes before and after the destination, which must stay.
const GUARD: usize = 24;

/// The destination's bytes before the call: none of them is a character that a text has.
fn untouched(room: usize) -> Vec<u8> {
    (0..GUARD + room + GUARD).map(|i| 0x80 | i as u8).collect()
}

/// Calls `call` on a destination of `room` bytes. Gives its number, and whether number and bytes are those of `wanted`.
fn call_on(room: usize, wanted: &Answer, call: impl FnOnce(&mut [u8]) -> u32) -> (u32, bool, Vec<u8>) {
    let mut bytes = untouched(room);
    let number = call(&mut bytes[GUARD..GUARD + room]);
    let mut whole = untouched(room);
    if let Ok(text) = wanted {
        whole[GUARD..GUARD + text.len()].copy_from_slice(text.as_bytes());
    }
    let same = number == *wanted.as_ref().err().unwrap_or(&0) && bytes == whole;
    (number, same, bytes)
}

/// Bytes in hexadecimal, cut where they are many.
fn hex(bytes: &[u8]) -> String {
    let mut text = String::new();
    for byte in bytes.iter().take(1024) {
        write!(text, "{byte:02X}").expect("a string takes all");
    }
    if bytes.len() > 1024 {
        text.push_str("...");
    }
    text
}

/// The destination in brackets, with the guards around it; a dot stands for a byte that is as it was.
fn shown(bytes: &[u8]) -> String {
    let mut text = String::new();
    for (place, (&now, before)) in bytes.iter().zip(untouched(bytes.len() - 2 * GUARD)).enumerate() {
        if place == GUARD {
            text.push('[');
        }
        if place == bytes.len() - GUARD {
            text.push(']');
        }
        match now {
            _ if now == before => text.push('.'),
            b'!'..=b'~' => text.push(char::from(now)),
            _ => write!(text, "\\x{now:02x}").expect("a string takes all"),
        }
    }
    text
}

/// What is said of a call that went wrong.
fn said(call: &str, input: &[u8], wanted: &Answer, number: u32, bytes: &[u8]) -> String {
    format!(
        "  call      {call}\n  input     {}\n  should    {wanted:?}\n  answered  {number}\n  left      {}",
        hex(input),
        shown(bytes)
    )
}

/// A digest: all that the entry points take, without the input.
#[derive(Debug, Clone, Copy)]
pub struct Call {
    /// The variant's number.
    pub variant: u32,
    /// The option number.
    pub options: u32,
    /// The size of the pieces; none for the entry point that has no pieces.
    pub piece: Option<usize>,
    /// The size of the destination.
    pub room: usize,
}

impl Call {
    /// A digest of a known variant with just enough room, in one piece.
    pub fn new(variant: Variant, options: u32) -> Self {
        Self { variant: variant.number(), options, piece: None, room: variant.text_len() }
    }
}

/// The digest of `input` by the port. `rust` is what the oracle answers for a variant and options that it knows.
pub fn digest(tally: &mut Tally, call: Call, input: &Input, rust: impl FnOnce(Variant) -> Answer) {
    digest_of(tally, call, &input.bytes, input, rust);
}

/// The same of any bytes; `name` says how they are made.
pub fn digest_of(
    tally: &mut Tally,
    call: Call,
    bytes: &[u8],
    name: &dyn Display,
    rust: impl FnOnce(Variant) -> Answer,
) {
    let Call { variant, options, piece, room } = call;
    let wanted = match Variant::from_number(variant) {
        _ if options > 31 => Err(10),
        None => Err(6),
        Some(known) if room < known.text_len() => {
            if rust(known).is_err() {
                tally.known(Known::RoomFirst);
            }
            Err(7)
        }
        Some(known) => rust(known),
    };
    match wanted {
        Err(10) => tally.known(Known::UnknownOption),
        Err(6) => tally.known(Known::UnknownVariant),
        _ => {}
    }
    let (number, same, left) = call_on(room, &wanted, |destination| match piece {
        None => raw::digest(variant, options, bytes, destination),
        Some(piece) => raw::digest_pieces(variant, options, piece, bytes, destination),
    });
    tally.case(number, same, || said(&format!("{call:?} of the input '{name}'"), bytes, &wanted, number, &left));
}

/// A text read and written again by the port, beside the Rust's reader narrowed to the one form.
pub fn rewrite(tally: &mut Tally, variant: u32, text: &[u8], room: usize) {
    let wanted = match Variant::from_number(variant) {
        None => {
            tally.known(Known::UnknownVariant);
            Err(6)
        }
        Some(known) if room < known.text_len() => {
            if oracle::rewrite(known, text, Prefix::Needed).is_err() {
                tally.known(Known::RoomBeforeText);
            }
            Err(7)
        }
        Some(known) => narrow(tally, known, text),
    };
    let (number, same, bytes) = call_on(room, &wanted, |destination| raw::rewrite(variant, text, destination));
    tally.case(number, same, || {
        said(&format!("rewrite, variant {variant}, room {room}"), text, &wanted, number, &bytes)
    });
}

/// What the Rust's reader says of a text, narrowed.
fn narrow(tally: &mut Tally, variant: Variant, text: &[u8]) -> Answer {
    match oracle::rewrite(variant, text, Prefix::Needed) {
        Ok(_) if text.iter().any(u8::is_ascii_lowercase) => {
            tally.known(Known::SmallLetters);
            Err(9)
        }
        Ok(written) => Ok(written),
        Err(ParseError::InvalidStringLength) => {
            if oracle::rewrite(variant, text, Prefix::Either).is_ok() {
                tally.known(Known::Bare);
            }
            Err(8)
        }
        Err(ParseError::InvalidPrefix) => {
            tally.known(Known::OneFault);
            Err(9)
        }
        Err(ParseError::InvalidCharacter) => Err(9),
        Err(other) => panic!("a refusal of the Rust's reader that has no number: {other:?}"),
    }
}

/// The ratio record by the port, beside single precision as this machine has it.
pub fn ratios(tally: &mut Tally, q1: u32, q2: u32, q3: u32) {
    let before = [0xdead_0001, 0xdead_0002, 0xdead_0003, 0xdead_0004];
    let quotient = |q: u32| q.wrapping_mul(100) as f32 / q3 as f32;
    let (wanted, after) = if q1 <= q2 && q2 <= q3 && q3 >= 1 {
        let (one, two) = (quotient(q1), quotient(q2));
        (0, [one.to_bits(), two.to_bits(), one as u32, two as u32])
    } else {
        tally.known(Known::Quartiles);
        (11, before)
    };
    let mut out = before;
    let number = raw::ratios(q1, q2, q3, &mut out);
    tally.case(number, number == wanted && out == after, || {
        format!("  call      ratios {q1} {q2} {q3}\n  should    {wanted} {after:x?}\n  answered  {number} {out:x?}")
    });
}

/// The code of a length by the port, beside the Rust's.
pub fn length_code(tally: &mut Tally, n: u32) {
    let before = 0xdead_0005;
    let (wanted, after) = match oracle::length_code(n) {
        Some(code) => (0, code),
        None => {
            tally.known(Known::NoLengthCode);
            (5, before)
        }
    };
    let mut out = [before];
    let number = raw::length_code(n, &mut out);
    tally.case(number, number == wanted && out == [after], || {
        format!("  call      length_code {n}\n  should    {wanted} {after:x?}\n  answered  {number} {out:x?}")
    });
}

/// The distance of two texts by the definition: the text's fields, digit by digit.
fn plain_distance(one: &[u8], other: &[u8]) -> u32 {
    let digits = |text: &[u8]| -> Vec<u32> {
        text[2..].iter().map(|&digit| char::from(digit).to_digit(16).expect("a digit")).collect()
    };
    let (one, other) = (digits(one), digits(other));
    let around = |n: u32, x: u32, y: u32| x.abs_diff(y).min(n - x.abs_diff(y));
    let length = around(256, one[2] + 16 * one[3], other[2] + 16 * other[3]);
    let ratio = |place: usize| match around(16, one[place], other[place]) {
        d @ 0..=1 => d,
        d => 12 * (d - 1),
    };
    let codes = |x: u32, y: u32| match x.abs_diff(y) {
        3 => 6,
        d => d,
    };
    let body: u32 = one[6..].iter().zip(&other[6..]).map(|(x, y)| codes(x % 4, y % 4) + codes(x / 4, y / 4)).sum();
    body + if length <= 1 { length } else { 12 * length } + ratio(4) + ratio(5) + u32::from(one[..2] != other[..2])
}

/// The distance of two texts by the port, in both orders and as digests that were read, beside the Rust's and the definition.
pub fn distance(tally: &mut Tally, variant_a: u32, text_a: &[u8], variant_b: u32, text_b: &[u8]) {
    let wanted = |tally: &mut Tally, variant_a, text_a, variant_b, text_b| {
        let (Some(one), Some(other)) = (Variant::from_number(variant_a), Variant::from_number(variant_b)) else {
            tally.known(Known::UnknownVariant);
            return raw::Distance { number: 6, distance: 0 };
        };
        if one != other {
            tally.known(Known::UnlikeDigests);
            return raw::Distance { number: 12, distance: 0 };
        }
        let number = narrow(tally, one, text_a).and(narrow(tally, other, text_b)).err().unwrap_or(0);
        let distance = match number {
            0 => oracle::distance(one, text_a, text_b).expect("texts that are read"),
            _ => 0,
        };
        raw::Distance { number, distance }
    };
    let should = wanted(tally, variant_a, text_a, variant_b, text_b);
    let turned = wanted(tally, variant_b, text_b, variant_a, text_a);
    let answer = raw::distance(variant_a, text_a, variant_b, text_b);
    let back = raw::distance(variant_b, text_b, variant_a, text_a);
    let mut same = answer == should && back == turned;
    let (one, other) = (raw::read(variant_a, text_a), raw::read(variant_b, text_b));
    if one.number == 0 && other.number == 0 {
        same &= raw::distance_read(&one.digest, &other.digest) == should;
        same &= raw::distance_read(&other.digest, &one.digest) == turned;
    }
    if should.number == 0 {
        same &= should.distance == plain_distance(text_a, text_b) && turned == should;
        same &= (should.distance == 0) == (text_a == text_b);
    }
    tally.case(answer.number, same, || {
        let (one, other) = (String::from_utf8_lossy(text_a), String::from_utf8_lossy(text_b));
        format!(
            "  call      distance {variant_a} {one:?} {variant_b} {other:?}\n  should    {should:?}\n  answered  {answer:?}, \
             and in the other order {back:?}"
        )
    });
}

/// The distance of two normal texts by the port, beside the second judge's.
pub fn second_distance(tally: &mut Tally, text_a: &[u8], text_b: &[u8]) {
    let [one, other] = [text_a, text_b].map(|text| {
        let mut bare = [0; judge::SIZE];
        bare[..judge::SIZE - 1].copy_from_slice(&text[2..]);
        bare
    });
    let theirs = judge::distance(&one, &other);
    let ours = raw::distance(128, text_a, 128, text_b);
    tally.case(ours.number, ours.number == 0 && theirs == Some(ours.distance), || {
        let (one, other) = (String::from_utf8_lossy(text_a), String::from_utf8_lossy(text_b));
        format!("  call      distance {one:?} {other:?}\n  the C++   {theirs:?}\n  the port  {ours:?}")
    });
}
