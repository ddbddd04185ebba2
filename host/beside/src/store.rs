//! Writes the stored lists: samples of the oracle's answers, and of its distances, that can be repeated without the oracle.
use beside::fields::Fields;
use beside::oracle::{self, Fed};
use beside::random::Random;
use beside::rules::{Line, PATTERN, PIECE, Source};
use saltcurtain::Variant;
use std::io::{self, Write};

/// The list as it grows.
struct List<'a> {
    to: &'a mut dyn Write,
    lines: usize,
    bytes: usize,
    error: Option<io::Error>,
}

impl List<'_> {
    /// Asks the oracle and writes the line.
    fn ask(&mut self, variant: Variant, options: u32, piece: usize, source: Source, length: usize) {
        assert!(piece <= PIECE && (piece > 0 || length <= PIECE));
        if let Source::Repeat(pattern) = &source {
            assert!((1..=PATTERN).contains(&pattern.len()));
        }
        let input = source.bytes(length);
        let answer = Fed::with(variant, piece, &input).answer(options);
        let line = Line { variant: variant.number(), options, piece, source, length, answer };
        self.lines += 1;
        self.bytes += length;
        if let Err(error) = writeln!(self.to, "{line}") {
            self.error.get_or_insert(error);
        }
    }

    /// The same for all variants.
    fn ask_all(&mut self, options: u32, piece: usize, source: &Source, length: usize) {
        for variant in Variant::ALL {
            self.ask(variant, options, piece, source.clone(), length);
        }
    }
}

/// A way to make bytes, of any kind but the repeated ones.
fn some_source(random: &mut Random) -> Source {
    let seed = random.word() >> 1;
    match random.below(3) {
        0 => Source::Count(seed % 256),
        1 => Source::Random(seed),
        _ => Source::Narrow(seed),
    }
}

fn repeat(pattern: &[u8]) -> Source {
    Source::Repeat(pattern.to_vec())
}

/// The inputs that the comments of fast-tlsh name.
const DOCUMENTED: [&[u8]; 5] = [
    b"Lovak won the squad prize cup for sixty big jumps.",
    b"The quick brown fox jumps over the lazy dog.",
    b"ABCDEFGHIJKLMNOPQRSTABCDEFGHIJKLMNOPQRSTABCDEFGHIJ",
    b"ABCDEABCDEABCDEABCDEABCDEABCDEABCDEABCDEABCDEABCDE",
    b"\x59\xc7\xb0\xe5\x47\xbe\x4c\x06\xdc\x95\x03\xc5\x16\x47\x2f\x8d\x03\xea\x73\xd1\xc0\xb8\x79\xcd\x09\x87\xb9\
      \x1f\xdf\xf9\x7c\xdb\x38\x76\xd7\xf2\x04\xde\xc2\xcf\x9f\x7f\xab\xf0\xd5\x7a\x11\x56\xf1\x89",
];

/// Writes the list. It is the same in every run.
pub fn write(to: &mut dyn Write) -> io::Result<()> {
    let random = &mut Random::new(1);
    let list = &mut List { to, lines: 0, bytes: 0, error: None };

    for input in DOCUMENTED {
        for options in [0, 1, 2, 4, 8, 16, 31] {
            list.ask_all(options, random.pick(&[0, 1, 7, 49]), &repeat(input), input.len());
        }
    }
    // Dead files, one byte repeated, and short cycles: where refusals 3 and 4 stand.
    for length in [5, 9, 10, 45, 49, 50, 127, 128, 255, 256, 4_096, 10_000] {
        for options in [0, 10, 16, 20] {
            list.ask_all(options, random.pick(&[0, 5, 64]), &repeat(b"9999\n"), length);
        }
    }
    let letters = b"ABCDEFGHIJKLMNOPQRSTUVWXYZ";
    for period in [1, 2, 3, 4, 5, 6, 8, 10, 12, 16, 20, 22, 26] {
        for options in [0, 4, 8, 18] {
            list.ask_all(options, 0, &repeat(&letters[..period]), random.between(30, 300));
        }
    }
    // Every small length, and those around the tops.
    for length in 0..=140 {
        for variant in Variant::ALL {
            let options = random.pick(&[0, 0, 4, 5, 20, 22]);
            list.ask(variant, options, random.below(10), some_source(random), length);
        }
    }
    for top in oracle::tops().into_iter().map(|top| top as usize).filter(|top| (140..100_000).contains(top)) {
        for length in [top, top + 1] {
            let piece = random.pick(&[4_096, 65_536, 65_535, 1_000]);
            list.ask_all(0, piece, &some_source(random), length);
        }
    }
    for length in [65_535, 65_536, 65_537, 131_071, 131_072, 131_073, 200_000, 1_000_000, 3_000_000] {
        let source = Source::Random(random.word() >> 1);
        list.ask_all(random.pick(&[0, 2]), random.pick(&[65_536, 65_535, 4_096]), &source, length);
    }
    // All options.
    for length in [30, 60, 100, 130, 300, 700] {
        for options in 0..32 {
            let source = Source::Narrow(random.word() >> 1);
            list.ask_all(options, random.pick(&[0, 16, 113]), &source, length);
        }
    }
    // All pieces.
    for piece in (1..=70).chain([95, 96, 97, 111, 112, 113, 127, 128, 129, 255, 256, 257, 1_000, 4_096]) {
        for variant in Variant::ALL {
            list.ask(variant, 16, piece, some_source(random), random.between(piece, 2 * piece + 200));
        }
    }
    for _ in 0..1_000 {
        let variant = random.pick(&Variant::ALL);
        let length = random.between(10, 2_000);
        list.ask(variant, random.below(32) as u32, random.below(length), some_source(random), length);
    }

    eprintln!("beside: {} lines of the Rust's answers, over {} bytes of input", list.lines, list.bytes);
    list.error.take().map_or(Ok(()), Err)
}

/// Writes the list of distances: variant, two texts, and the Rust's distance. It is the same in every run.
pub fn write_distances(to: &mut dyn Write) -> io::Result<()> {
    let random = &mut Random::new(2);
    for variant in Variant::ALL {
        let mut ask = |one: &Fields, other: &Fields| {
            let (one, other) = (one.text(), other.text());
            let distance = oracle::distance(variant, &one, &other).expect("texts that are read");
            let [one, other] = [one, other].map(|text| String::from_utf8(text).expect("digits"));
            writeln!(to, "{} {one} {other} {distance}", variant.number())
        };
        // The least and the greatest.
        let (mut least, mut most) = (Fields { variant, bytes: [0; 67] }, Fields { variant, bytes: [255; 67] });
        (least.bytes[1], most.bytes[1], most.bytes[2]) = (0, 128, 0x88);
        ask(&least, &least)?;
        ask(&least, &most)?;
        ask(&most, &least)?;
        // One code against another, at the first place and at the last.
        for place in [0, variant.number() as usize - 1] {
            for codes in 0..16 {
                let mut one = Fields::random(variant, random);
                one.set_code(place, codes % 4);
                let mut other = one;
                other.set_code(place, codes / 4);
                ask(&one, &other)?;
            }
        }
        // Checksum, length code and each ratio, around their circles.
        for (field, step) in [(0, 1), (1, 1), (1, 2), (1, 127), (1, 128), (1, 129), (1, 254), (1, 255)]
            .into_iter()
            .chain([1, 2, 7, 8, 9, 14, 15].into_iter().flat_map(|step| [(2, step), (2, 16 * step)]))
        {
            let mut one = Fields::random(variant, random);
            one.bytes[2] &= if step < 16 { 0xf0 } else { 0x0f };
            let mut other = one;
            other.bytes[field] = one.bytes[field].wrapping_add(step);
            ask(&one, &other)?;
        }
        // Neighbours, and any two.
        for _ in 0..12 {
            let one = Fields::random(variant, random);
            let mut other = one;
            other.bytes[random.below((variant.text_len() - 2) / 2)] ^= 1 << random.below(8);
            ask(&one, &other)?;
            ask(&one, &Fields::random(variant, random))?;
        }
    }
    Ok(())
}
