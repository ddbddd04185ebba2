//! Inputs: each is given by a kind, a seed and a length, so that three words are enough to make it again.
use crate::random::Random;
use std::fmt::{self, Write};

/// A way to make bytes.
#[derive(Debug, Clone, Copy, PartialEq, Eq)]
pub enum Kind {
    /// One byte, all along.
    Constant,
    /// Bytes that rise by the same step.
    Counter,
    /// Any bytes.
    Noise,
    /// Few different characters.
    Narrow,
    /// A few bytes, again and again.
    Cycle,
    /// A station that has nothing to say: lines of `9999`.
    Dead,
    /// Reports of a weather station, line by line.
    Report,
    /// Such reports with stretches in which the station is dead.
    Gaps,
    /// Runs of one byte.
    Runs,
    /// Zeros with a byte here and there.
    Sparse,
    /// Words of a short list.
    Words,
    /// A block again and again, with a change now and then.
    Repeats,
    /// One kind, and from some place on another.
    Joined,
}

use Kind::*;

/// All kinds.
pub const KINDS: [Kind; 13] =
    [Constant, Counter, Noise, Narrow, Cycle, Dead, Report, Gaps, Runs, Sparse, Words, Repeats, Joined];

impl Kind {
    /// The kind of that name, as it is printed.
    pub fn named(name: &str) -> Option<Self> {
        KINDS.into_iter().find(|kind| kind.to_string() == name)
    }
}

impl fmt::Display for Kind {
    fn fmt(&self, to: &mut fmt::Formatter<'_>) -> fmt::Result {
        write!(to, "{}", format!("{self:?}").to_lowercase())
    }
}

/// An input, with what makes it again.
pub struct Input {
    /// How its bytes were made.
    pub kind: Kind,
    /// From which seed.
    pub seed: u64,
    /// Its bytes.
    pub bytes: Vec<u8>,
}

impl Input {
    /// The input of a kind, a seed and a length.
    pub fn new(kind: Kind, seed: u64, length: usize) -> Self {
        let mut bytes = Vec::with_capacity(length + 128);
        fill(kind, &mut Random::new(seed), length, &mut bytes);
        bytes.truncate(length);
        Self { kind, seed, bytes }
    }
}

impl fmt::Display for Input {
    fn fmt(&self, to: &mut fmt::Formatter<'_>) -> fmt::Result {
        write!(to, "{} {} {}", self.kind, self.seed, self.bytes.len())
    }
}

const WORDS: [&str; 24] = [
    "the", "salt", "wind", "from", "north", "and", "rain", "over", "low", "coast", "mast", "ice", "a", "in", "station",
    "gauge", "pressure", "falls", "by", "noon", "until", "fog", "clears", "slowly",
];

/// At least `length` bytes of a kind.
fn fill(kind: Kind, random: &mut Random, length: usize, to: &mut Vec<u8>) {
    match kind {
        Constant => {
            let byte = random.next() as u8;
            to.resize(length, byte);
        }
        Counter => {
            let (start, step) = (random.next() as u8, random.pick(&[1, 1, 2, 3, 5, 16, 85, 255]));
            to.extend((0..length).map(|i| start.wrapping_add((i as u8).wrapping_mul(step))));
        }
        Noise => {
            while to.len() < length {
                to.extend(random.next().to_le_bytes());
            }
        }
        Narrow => {
            let (first, many) = (random.between(0, 191), random.pick(&[2, 3, 4, 6, 10, 16, 26, 64]));
            to.extend((0..length).map(|_| (first + random.below(many)) as u8));
        }
        Cycle => {
            let period = random.pick(&[2, 3, 4, 5, 6, 7, 8, 11, 16, 20, 31, 40, 64]);
            let block: Vec<u8> = (0..period).map(|_| random.next() as u8).collect();
            to.extend((0..length).map(|i| block[i % period]));
        }
        Dead => to.extend((0..length).map(|i| b"9999\n"[i % 5])),
        Report | Gaps => report(random, kind == Gaps, length, to),
        Runs => {
            while to.len() < length {
                let (byte, run) = (random.next() as u8, 1 << random.below(7));
                to.resize(to.len() + random.between(1, run), byte);
            }
        }
        Sparse => {
            let rare = random.pick(&[4, 16, 64, 256]);
            to.extend((0..length).map(|_| if random.once_in(rare) { random.next() as u8 } else { 0 }));
        }
        Words => {
            while to.len() < length {
                to.extend(random.pick(&WORDS).bytes());
                to.push(if random.once_in(12) { b'\n' } else { b' ' });
            }
        }
        Repeats => {
            let period = random.between(1, 300);
            let mut block: Vec<u8> = (0..period).map(|_| random.next() as u8).collect();
            while to.len() < length {
                to.extend(&block);
                if random.once_in(3) {
                    let place = random.below(period);
                    block[place] = random.next() as u8;
                }
            }
        }
        Joined => {
            let (one, other) = (random.pick(&KINDS[..12]), random.pick(&KINDS[..12]));
            let cut = random.below(length + 1);
            fill(one, random, cut, to);
            to.truncate(cut);
            let mut rest = Vec::new();
            fill(other, random, length - cut, &mut rest);
            to.extend(rest);
        }
    }
}

/// Lines of a station: date and hour, then temperature, humidity, pressure and wind, each `9999` where the sensor is dead.
fn report(random: &mut Random, gaps: bool, length: usize, to: &mut Vec<u8>) {
    let station = random.between(1, 999);
    let (mut day, mut hour) = (random.between(1, 28), random.below(24));
    let (mut heat, mut damp, mut air, mut wind) = (random.between(100, 700), 500, 10_132, 40);
    let mut dead = 0;
    let drift = |random: &mut Random, value: &mut usize, step: usize, most: usize| {
        *value = (*value + random.below(2 * step + 1)).saturating_sub(step).min(most);
        *value
    };
    let mut line = String::new();
    while to.len() < length {
        line.clear();
        if gaps && dead == 0 && random.once_in(20) {
            dead = random.between(1, 40);
        }
        write!(line, "ST{station:03} {day:02} {hour:02}:00").expect("a line");
        if dead > 0 {
            dead -= 1;
            line.push_str(" 9999 9999 9999 9999\n");
        } else {
            let heat = drift(random, &mut heat, 9, 900) as i64 - 400;
            let damp = drift(random, &mut damp, 30, 1000);
            let air = drift(random, &mut air, 8, 10_600);
            let wind = drift(random, &mut wind, 12, 400);
            writeln!(line, " {heat:+04} {damp:04} {air:05} {wind:03} {:03}", random.below(360)).expect("a line");
        }
        to.extend(line.bytes());
        hour = (hour + 1) % 24;
        day = if hour == 0 { day % 28 + 1 } else { day };
    }
}
