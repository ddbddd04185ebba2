//! The shortest input at which the two ratio paths give different digests, among all prefixes of pseudo-random inputs.
//!
//! A digest at options 0 and one at options 2 differ in nothing but the ratios, and those come from the quartiles alone. So an input
//! is walked byte by byte by the published rules, its counters and quartiles are kept up to date, and the ratios are worked out both
//! ways wherever a quartile has risen. What is found is then asked of fast-tlsh and of the port.
use beside::oracle::{Answer, Fed};
use beside::rules::{Line, PIECE, Source};
use saltcurtain::{Variant, raw};
use std::process::ExitCode;
use std::sync::Mutex;
use std::sync::atomic::{AtomicUsize, Ordering};
use std::thread;

/// The table T of the rules.
#[rustfmt::skip]
const T: [u8; 256] = [
    0x01, 0x57, 0x31, 0x0c, 0xb0, 0xb2, 0x66, 0xa6, 0x79, 0xc1, 0x06, 0x54, 0xf9, 0xe6, 0x2c, 0xa3,
    0x0e, 0xc5, 0xd5, 0xb5, 0xa1, 0x55, 0xda, 0x50, 0x40, 0xef, 0x18, 0xe2, 0xec, 0x8e, 0x26, 0xc8,
    0x6e, 0xb1, 0x68, 0x67, 0x8d, 0xfd, 0xff, 0x32, 0x4d, 0x65, 0x51, 0x12, 0x2d, 0x60, 0x1f, 0xde,
    0x19, 0x6b, 0xbe, 0x46, 0x56, 0xed, 0xf0, 0x22, 0x48, 0xf2, 0x14, 0xd6, 0xf4, 0xe3, 0x95, 0xeb,
    0x61, 0xea, 0x39, 0x16, 0x3c, 0xfa, 0x52, 0xaf, 0xd0, 0x05, 0x7f, 0xc7, 0x6f, 0x3e, 0x87, 0xf8,
    0xae, 0xa9, 0xd3, 0x3a, 0x42, 0x9a, 0x6a, 0xc3, 0xf5, 0xab, 0x11, 0xbb, 0xb6, 0xb3, 0x00, 0xf3,
    0x84, 0x38, 0x94, 0x4b, 0x80, 0x85, 0x9e, 0x64, 0x82, 0x7e, 0x5b, 0x0d, 0x99, 0xf6, 0xd8, 0xdb,
    0x77, 0x44, 0xdf, 0x4e, 0x53, 0x58, 0xc9, 0x63, 0x7a, 0x0b, 0x5c, 0x20, 0x88, 0x72, 0x34, 0x0a,
    0x8a, 0x1e, 0x30, 0xb7, 0x9c, 0x23, 0x3d, 0x1a, 0x8f, 0x4a, 0xfb, 0x5e, 0x81, 0xa2, 0x3f, 0x98,
    0xaa, 0x07, 0x73, 0xa7, 0xf1, 0xce, 0x03, 0x96, 0x37, 0x3b, 0x97, 0xdc, 0x5a, 0x35, 0x17, 0x83,
    0x7d, 0xad, 0x0f, 0xee, 0x4f, 0x5f, 0x59, 0x10, 0x69, 0x89, 0xe1, 0xe0, 0xd9, 0xa0, 0x25, 0x7b,
    0x76, 0x49, 0x02, 0x9d, 0x2e, 0x74, 0x09, 0x91, 0x86, 0xe4, 0xcf, 0xd4, 0xca, 0xd7, 0x45, 0xe5,
    0x1b, 0xbc, 0x43, 0x7c, 0xa8, 0xfc, 0x2a, 0x04, 0x1d, 0x6c, 0x15, 0xf7, 0x13, 0xcd, 0x27, 0xcb,
    0xe9, 0x28, 0xba, 0x93, 0xc6, 0xc0, 0x9b, 0x21, 0xa4, 0xbf, 0x62, 0xcc, 0xa5, 0xb4, 0x75, 0x4c,
    0x8c, 0x24, 0xd2, 0xac, 0x29, 0x36, 0x9f, 0x08, 0xb9, 0xe8, 0x71, 0xc4, 0xe7, 0x2f, 0x92, 0x78,
    0x33, 0x41, 0x1c, 0x90, 0xfe, 0xdd, 0x5d, 0xbd, 0xc2, 0x8b, 0x70, 0x2b, 0x47, 0x6d, 0xb8, 0xd1,
];

/// The largest third quartile up to which both paths give the same ratios, whatever the other two are (`wholes_agree` in
/// crates/qratios).
const AGREEING: u32 = 262_146;

/// The bytes that are counted at once while the third quartile is no greater than that.
const BLOCK: usize = 4_096;

/// No prefix is longer: there the random bytes of kind 2 begin again.
pub const MOST: usize = 1 << 24;

/// The counters of an input.
struct Counters {
    /// The last step of a mapping.
    last: [u8; 256],
    /// So many are used.
    n: usize,
    /// So many of those must not be 0, or there is no digest.
    least: usize,
    all: [u32; 256],
}

impl Counters {
    fn new(variant: Variant) -> Self {
        let (last, n, least) = match variant {
            Variant::Short => (T.map(|x| if x < 240 { x % 48 } else { 48 }), 48, 18),
            Variant::Normal => (T, 128, 65),
            Variant::Long => (T, 256, 129),
        };
        Self { last, n, least, all: [0; 256] }
    }

    /// Those that are used.
    fn used(&self) -> &[u32] {
        &self.all[..self.n]
    }

    /// The places of the counters that the last of five bytes raises.
    #[inline(always)]
    fn places(&self, window: &[u8]) -> [usize; 6] {
        let &[b0, b1, b2, b3, b4] = window else { unreachable!("a window of five bytes") };
        let step = |state: u8, byte: u8| T[usize::from(state ^ byte)];
        let place = |salt, x, y| usize::from(self.last[usize::from(step(step(step(0, salt), b4), x) ^ y)]);
        [place(2, b3, b2), place(3, b3, b1), place(5, b2, b1), place(7, b2, b0), place(11, b3, b0), place(13, b1, b0)]
    }

    /// Whether there is no digest, as too many of the used ones are 0.
    fn half_empty(&self) -> bool {
        self.used().iter().filter(|&&counter| counter > 0).count() < self.least
    }
}

/// One quartile of the used counters, as they rise.
struct Quartile {
    /// So many counters at least are no greater.
    least: usize,
    /// Its value.
    value: u32,
    /// So many counters are no greater.
    no_greater: usize,
}

impl Quartile {
    /// The one up to which so many quarters of the used counters stand.
    fn new(quarters: usize, used: &[u32]) -> Self {
        let least = used.len() / 4 * quarters;
        let (_, &mut value, _) = used.to_vec().select_nth_unstable(least - 1);
        Self { least, value, no_greater: no_greater(value, used) }
    }

    /// A used counter has risen by one, to `now`. Says whether the quartile has risen with it.
    #[inline(always)]
    fn rises(&mut self, now: u32, used: &[u32]) -> bool {
        if now != self.value + 1 {
            return false;
        }
        self.no_greater -= 1;
        if self.no_greater >= self.least {
            return false;
        }
        // That counter is at the next value, so that enough of them are no greater.
        self.value += 1;
        self.no_greater = no_greater(self.value, used);
        true
    }
}

/// How many counters are no greater than a value.
fn no_greater(value: u32, used: &[u32]) -> usize {
    used.iter().map(|&counter| u32::from(counter <= value)).sum::<u32>() as usize
}

/// Whether the ratio of a quartile is another at each path.
fn differs(q: u32, q3: u32) -> bool {
    let integer = (u64::from(q) * 100 / u64::from(q3)) as u32;
    let floating = (q.wrapping_mul(100) as f32 / q3 as f32) as u32;
    integer % 16 != floating % 16
}

/// The length of the shortest prefix whose digests at options 0 and 2 differ, where there is one.
fn shortest(variant: Variant, input: &[u8]) -> Option<usize> {
    let mut counters = Counters::new(variant);
    let mut counted = 0;
    while let Some(block) = input.get(counted..counted + BLOCK + 4) {
        let before = counters.all;
        for window in block.windows(5) {
            counters.places(window).into_iter().for_each(|place| counters.all[place] += 1);
        }
        if Quartile::new(3, counters.used()).value > AGREEING {
            counters.all = before;
            break;
        }
        counted += BLOCK;
    }
    let mut quartiles = [1, 2, 3].map(|quarters| Quartile::new(quarters, counters.used()));
    let mut apart = false;
    for (start, window) in input[counted..].windows(5).enumerate() {
        let mut risen = false;
        for place in counters.places(window) {
            counters.all[place] += 1;
            if place < counters.n {
                for quartile in &mut quartiles {
                    risen |= quartile.rises(counters.all[place], counters.used());
                }
            }
        }
        if risen {
            let [q1, q2, q3] = [0, 1, 2].map(|which: usize| quartiles[which].value);
            apart = q3 > 0 && (differs(q1, q3) || differs(q2, q3));
        }
        if apart && !counters.half_empty() {
            return Some(counted + start + 5);
        }
    }
    None
}

/// Inputs: so many of kind 3 with each number of characters, and as many of kind 2; or with one number of characters alone.
pub struct Inputs {
    /// How many of each.
    pub many: u32,
    /// The one number of characters.
    pub characters: Option<u32>,
    /// No prefix is longer.
    pub most: usize,
}

impl Inputs {
    fn sources(&self) -> Vec<Source> {
        let narrow = |turn: u32, characters: u32| Source::Narrow(64 * turn + characters - 1);
        let turn = |turn: u32| match self.characters {
            Some(characters) => vec![narrow(turn, characters)],
            None => (1..=64).map(|characters| narrow(turn, characters)).chain([Source::Random(turn)]).collect(),
        };
        (0..self.many).flat_map(turn).collect()
    }
}

/// A prefix that was found: its length, and the place of its input.
type Found = (usize, usize);

/// The shortest of all inputs. No input is walked beyond the shortest so far.
fn shortest_of(variant: Variant, sources: &[Source], most: usize, threads: usize) -> Option<Found> {
    let (next, most) = (AtomicUsize::new(0), AtomicUsize::new(most));
    let best: Mutex<Option<Found>> = Mutex::new(None);
    thread::scope(|scope| {
        for _ in 0..threads {
            scope.spawn(|| {
                loop {
                    let place = next.fetch_add(1, Ordering::Relaxed);
                    let Some(source) = sources.get(place) else { break };
                    let input = source.bytes(most.load(Ordering::Relaxed));
                    let Some(length) = shortest(variant, &input) else { continue };
                    let mut best = best.lock().expect("no thread stops while it holds the best");
                    if best.is_none_or(|best| (length, place) < best) {
                        most.store(length, Ordering::Relaxed);
                        *best = Some((length, place));
                    }
                }
            });
        }
    });
    best.into_inner().expect("no thread stops while it holds the best")
}

/// The digests at options 0 and 2 by the Rust.
fn by_the_rust(variant: Variant, input: &[u8]) -> [Answer; 2] {
    let fed = Fed::with(variant, PIECE, input);
    [0, 2].map(|options| fed.answer(options))
}

/// The same by the port.
fn by_the_port(variant: Variant, input: &[u8]) -> [Answer; 2] {
    [0, 2].map(|options| {
        let mut room = vec![0; variant.text_len()];
        match raw::digest(variant.number(), options, input, &mut room) {
            0 => Ok(String::from_utf8(room).expect("a text")),
            number => Err(number),
        }
    })
}

/// Looks for the shortest in each variant, or in one, and prints it as two lines of the stored list. All is as it should be where the Rust
/// and the port give two digests there, and one a byte before.
pub fn search(inputs: &Inputs, only: Option<Variant>, threads: usize) -> ExitCode {
    let sources = inputs.sources();
    let mut good = true;
    for variant in Variant::ALL.into_iter().filter(|&variant| only.is_none_or(|only| only == variant)) {
        let number = variant.number();
        let Some((length, place)) = shortest_of(variant, &sources, inputs.most, threads) else {
            println!("beside: in variant {number} no prefix of at most {} bytes", inputs.most);
            continue;
        };
        let source = &sources[place];
        let input = source.bytes(length);
        let (there, before) = (by_the_rust(variant, &input), by_the_rust(variant, &input[..length - 1]));
        good &= there[0] != there[1] && there.iter().all(Result::is_ok) && before[0] == before[1];
        good &= there == by_the_port(variant, &input) && before == by_the_port(variant, &input[..length - 1]);
        for (options, answer) in [0, 2].into_iter().zip(there) {
            println!("{}", Line { variant: number, options, piece: PIECE, source: source.clone(), length, answer });
        }
    }
    println!(
        "beside: {} inputs walked, what was found {}",
        sources.len(),
        if good { "holds" } else { "DOES NOT HOLD" }
    );
    if good { ExitCode::SUCCESS } else { ExitCode::FAILURE }
}
