//! Worked examples and the forms of the answers, through the safe functions.
use saltcurtain::{Error, Options, Variant, digest, digest_into, digest_pieces, length_code, ratios, raw, rewrite};

const PLAIN: Options = Options::new();

/// The examples in the comments of fast-tlsh's generate.rs: input, what it is refused with at option 0, the option that lifts that,
/// and the digest.
const DOCUMENTED: [(&str, Option<Error>, Options, &str); 4] = [
    (
        "Lovak won the squad prize cup for sixty big jumps.",
        None,
        PLAIN,
        "T14A90024954691E114404124180D942C1450F8423775ADE1510211420456593621A8173",
    ),
    (
        "The quick brown fox jumps over the lazy dog.",
        Some(Error::TooSmallInput),
        PLAIN.small(true),
        "T19E90024A21181294648A1888438D94B292C8C510612114116430600218082219C98551",
    ),
    (
        "ABCDEFGHIJKLMNOPQRSTABCDEFGHIJKLMNOPQRSTABCDEFGHIJ",
        Some(Error::BucketsAreHalfEmpty),
        PLAIN.half(true),
        "T1609000080C838F2A0F2C82C0ECA282F33808838B00CE0300228C2F80C8800E08800000",
    ),
    (
        "ABCDEABCDEABCDEABCDEABCDEABCDEABCDEABCDEABCDEABCDE",
        Some(Error::BucketsAreThreeQuarterEmpty),
        PLAIN.quarter(true),
        "T14590440C330003C00C0033000000C300F000C00300C030000000C3000000000000C000",
    ),
];

#[test]
fn the_documented_examples() {
    for (input, refused, options, text) in DOCUMENTED {
        let input = input.as_bytes();
        let plain = digest(Variant::Normal, PLAIN, input);
        assert_eq!(plain.err(), refused);
        assert_eq!(&*digest(Variant::Normal, options, input).unwrap(), text);
        for piece in 0..=51 {
            let cut = digest_pieces(Variant::Normal, options, piece, input);
            assert_eq!(&*cut.unwrap(), text, "in pieces of {piece}");
        }
    }
    // The half option does not lift refusal 3, and 50 bytes are too few in the conservative mode.
    let [first, _, _, last] = DOCUMENTED.map(|(input, ..)| input.as_bytes());
    let refusal = |options, input| digest(Variant::Normal, options, input).unwrap_err().number();
    assert_eq!(refusal(PLAIN.half(true), last), 3);
    assert_eq!(refusal(PLAIN.conservative(true), first), 2);
}

#[test]
fn an_input_that_fills_all_buckets_alike() {
    // From bucket_aggregation.rs: each of the 128 counters is 1, so that no counter is above any quartile.
    let input = b"\x59\xc7\xb0\xe5\x47\xbe\x4c\x06\xdc\x95\x03\xc5\x16\x47\x2f\x8d\x03\xea\x73\xd1\xc0\xb8\x79\xcd\x09\
        \x87\xb9\x1f\xdf\xf9\x7c\xdb\x38\x76\xd7\xf2\x04\xde\xc2\xcf\x9f\x7f\xab\xf0\xd5\x7a\x11\x56\xf1\x89";
    let text = digest(Variant::Normal, PLAIN, input).unwrap();
    assert_eq!(&*text, "T11C90440000000000000000000000000000000000000000000000000000000000000000");
}

#[test]
fn a_dead_file() {
    let input = b"9999\n".repeat(2000);
    for variant in [Variant::Normal, Variant::Long] {
        for number in 0..32 {
            let answer = digest(variant, Options::from_number(number).unwrap(), &input);
            if number < 16 {
                assert_eq!(answer, Err(Error::BucketsAreThreeQuarterEmpty));
            } else {
                assert!(answer.is_ok());
            }
        }
    }
    assert!(digest(Variant::Short, PLAIN, &input[..45]).is_ok());
}

#[test]
fn the_marked_quotients() {
    for (q, q3, whole) in
        [(1, 1, 100), (1, 2, 50), (167_772, 167_772, 100), (297_098, 300_099, 99), (42_949_673, 42_949_673, 0)]
    {
        assert_eq!(ratios(0, q, q3).unwrap().q2_whole, whole);
        assert_eq!(ratios(q, q, q3).unwrap().q1_whole, whole);
    }
    for (q1, q2, q3) in [(0, 0, 0), (2, 1, 3), (1, 3, 2), (u32::MAX, 0, 0)] {
        assert_eq!(ratios(q1, q2, q3), Err(Error::Quartiles));
    }
}

#[test]
fn the_marked_length_codes() {
    assert_eq!((length_code(44), length_code(50)), (Ok(9), Ok(9)));
    assert_eq!((length_code(0), length_code(1)), (Ok(0), Ok(0)));
    assert_eq!(length_code(4_224_281_216), Ok(169));
    assert_eq!(length_code(4_224_281_217), Err(Error::NoLengthCode));
}

#[test]
fn a_text_is_written_as_it_was_read() {
    for variant in Variant::ALL {
        let input: Vec<u8> = (0..=255).collect();
        let text = digest(variant, PLAIN, &input).unwrap();
        assert_eq!(text.len(), variant.text_len());
        assert_eq!(rewrite(variant, text), Ok(text));
        assert_eq!(format!("{text}"), text.as_str());
        assert_eq!(format!("{text:?}"), format!("{:?}", text.as_str()));
        for other in Variant::ALL {
            if other != variant {
                assert_eq!(rewrite(other, text), Err(Error::TextSize));
            }
        }
        assert_eq!(rewrite(variant, text.replace('T', "t")), Err(Error::TextForm));
    }
}

#[test]
fn a_refusal_writes_nothing() {
    let mut room = *b"0123456789";
    let before = room;
    let input: Vec<u8> = (0..=255).collect();
    let short = digest_into(Variant::Normal, PLAIN, &input, &mut room);
    assert_eq!(short, Err(Error::ShortDestination));
    assert_eq!(raw::digest(128, 32, &input, &mut room), 10);
    assert_eq!(raw::digest(64, 0, &input, &mut room), 6);
    assert_eq!(raw::rewrite(64, b"", &mut room), 6);
    assert_eq!(room, before);
    let mut out = [1, 2, 3, 4];
    assert_eq!(raw::ratios(2, 1, 1, &mut out), 11);
    assert_eq!(out, [1, 2, 3, 4]);
    let mut out = [7];
    assert_eq!(raw::length_code(u32::MAX, &mut out), 5);
    assert_eq!(out, [7]);
}

#[test]
fn the_numbers_of_the_refusals() {
    for number in (1..=12).chain([19]) {
        let error = Error::check(number).unwrap_err();
        assert_eq!(error.number(), number);
        assert!(!matches!(error, Error::Unlisted(_)));
        assert!(!error.to_string().is_empty());
    }
    assert_eq!(Error::check(0), Ok(()));
    assert_eq!(Error::check(13), Err(Error::Unlisted(13)));
    assert_eq!(Options::from_number(32), Err(Error::UnknownOption));
    for variant in Variant::ALL {
        assert_eq!(Variant::from_number(variant.number()), Some(variant));
    }
    assert_eq!(Variant::from_number(64), None);
}
