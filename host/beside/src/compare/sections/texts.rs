//! Texts read and written again, damaged in every way.
use super::UNKNOWN_VARIANTS;
use crate::compare::check;
use crate::compare::tally::Tally;
use beside::inputs::{Input, Kind};
use beside::oracle::Fed;
use beside::random::Random;
use saltcurtain::Variant;

/// As many texts, the variants in turn.
pub fn jobs(scale: u64) -> u64 {
    24 * scale
}

/// A text of the variant with random digits.
fn some_text(random: &mut Random, variant: Variant) -> Vec<u8> {
    let digits = (2..variant.text_len()).map(|_| random.pick(b"0123456789ABCDEF"));
    b"T1".iter().copied().chain(digits).collect()
}

/// One text, whole and damaged.
pub fn run(job: u64, random: &mut Random, tally: &mut Tally) {
    let variant = Variant::ALL[(job % 3) as usize];
    let number = variant.number();
    let size = variant.text_len();
    let whole = if random.once_in(2) {
        let length = random.between(300, 3000);
        let input = Input::new(Kind::Report, random.next(), length);
        let answer = Fed::with(variant, 0, &input.bytes).answer(16);
        answer.expect("a report has a digest").into_bytes()
    } else {
        some_text(random, variant)
    };
    let mut try_it = |text: &[u8], room: usize| check::rewrite(tally, number, text, room);

    // As it is, in rooms of every size.
    for room in 0..=size + 40 {
        try_it(&whole, room);
    }
    // Each place with each byte.
    for place in 0..size {
        let mut one = whole.clone();
        for byte in 0..=255 {
            one[place] = byte;
            try_it(&one, size);
        }
    }
    // Every size: cut at the end and at the front, and with more at either.
    for length in 0..=size + 20 {
        let mut end = whole.clone();
        end.resize(length, b'0');
        try_it(&end, size);
        let mut front = vec![b'0'; length.saturating_sub(size)];
        front.extend(&whole[size.saturating_sub(length)..]);
        try_it(&front, size);
    }
    // Without its prefix, with another, and in small letters: all of it, and one digit of it.
    try_it(&whole[2..], size);
    try_it(&whole[2..].to_ascii_lowercase(), size);
    for prefix in [b"T1", b"t1", b"T2", b"T0", b"TT", b"1T", b"11", b"00", b" T"] {
        try_it(&[prefix, &whole[2..]].concat(), size);
        try_it(&[prefix, &whole[..]].concat(), size);
        try_it(&[prefix, &whole[2..].to_ascii_lowercase()[..]].concat(), size);
    }
    for place in 0..size {
        let mut one = whole.clone();
        one[place].make_ascii_lowercase();
        try_it(&one, size);
    }
    // With a line's end, a space or a zero at either end.
    for byte in *b"\n\r \0" {
        try_it(&[&whole[..], &[byte]].concat(), size);
        try_it(&[&[byte], &whole[..]].concat(), size);
        try_it(&[&[byte], &whole[1..]].concat(), size);
        try_it(&[&whole[..size - 1], &[byte]].concat(), size);
    }
    // Several faults at once: a room too short comes before a wrong size, and that before a wrong form.
    for _ in 0..2_000 {
        let length = if random.once_in(3) { random.below(150) } else { size };
        let mut one: Vec<u8> = whole.iter().copied().cycle().take(length).collect();
        for _ in 0..random.below(4) {
            if !one.is_empty() {
                let place = random.below(one.len());
                one[place] = random.pick(b"09AFafgG/:@`T1\x00\xff");
            }
        }
        let room = if random.once_in(4) { random.below(size) } else { size + random.below(3) };
        check::rewrite(tally, number, &one, room);
        check::rewrite(tally, random.pick(&[48, 128, 256]), &one, 136);
        check::rewrite(tally, random.pick(&UNKNOWN_VARIANTS), &one, random.below(140));
    }
    // Texts with any checksum, any length code and any ratios, also those that no input gives.
    for _ in 0..2_000 {
        check::rewrite(tally, number, &some_text(random, variant), size);
    }
    for head in 0..=255 {
        for place in [2, 4, 6] {
            let mut one = whole.clone();
            one[place..place + 2].copy_from_slice(format!("{head:02X}").as_bytes());
            check::rewrite(tally, number, &one, size);
        }
    }
}
