//! Request (b), "Recordings as the head sees them": every input that tells with its exact answer, the limit, and the
//! order of the checks. The claims have a file of their own.

use reference::accept::load;
use reference::answer::Answer;
use reference::calls::{decode, decode_stream, encode_stream, pack, reach, unpack};
use reference::constraint::Constraint;
use reference::record::Record;
use reference::streams::{BlockNumber, MOST_WORDS};
use reference::table::{Entry, Table};
use reference::vectors::data::FIRST_LISTED;
use reference::vectors::file::{DECODE_STREAM, ENCODE_STREAM, PACK, UNPACK};
use reference::vectors::fixed::{mfm, E2};
use reference::vectors::hex;
use reference::vectors::random::Random;
use reference::vectors::stream_borders::{count_and_stream, listed, nine, telling, width_and_count, Call};

/// Room enough for every short result.
const PLENTY: usize = 64;

/// The streams of the nine words, for q 1 to 7.
const NINE: [&str; 7] = [
    "aa 80",
    "c6 c6 c0",
    "62 af 0e 60",
    "38 d2 7c 16 b0",
    "1a 1b 2b f0 26 58",
    "0c 83 52 5d c8 66 ac",
    "06 20 69 22 e7 10 a6 56",
];

fn refused(refusal: u8, value: u32) -> Answer {
    Answer { refusal, value, output: vec![] }
}

fn done(output: &str) -> Answer {
    Answer::written(hex(output))
}

/// The inputs that tell with their answers, as the table of request (b) gives them; the nine words stand apart.
fn told() -> Vec<(Call, Answer)> {
    let pack = |q: u8, words: &str, room: usize| (PACK, room, vec![q], hex(words));
    let unpack = |q: u8, count: u64, stream: &str, room| (UNPACK, room, width_and_count(q, count), hex(stream));
    let decode = |count: u64, stream: &str| (DECODE_STREAM, PLENTY, listed(), count_and_stream(count, &hex(stream)));
    vec![
        (pack(3, "01 02 03", PLENTY), done("29 80")),
        (pack(0, "", PLENTY), refused(1, 0)),
        (pack(9, "01", 0), refused(1, 0)),
        (pack(3, "08", 0), refused(13, 0)),
        (pack(3, "07 08", 1), refused(11, 1)),
        (unpack(3, 3, "29 80", PLENTY), done("01 02 03")),
        (unpack(3, 3, "29 81", PLENTY), refused(15, 0)),
        (unpack(3, 2, "29 80", PLENTY), refused(15, 0)),
        (unpack(3, 4, "29 80", 0), refused(13, 0)),
        (unpack(3, 0, "", PLENTY), done("")),
        (unpack(3, 0, "00", PLENTY), refused(15, 0)),
        (unpack(8, 1_000_001, "", PLENTY), refused(15, 0)),
        ((ENCODE_STREAM, PLENTY, listed(), vec![]), done("60")),
        (decode(0, ""), refused(12, 0)),
        (decode(0, "00"), refused(15, 0)),
        (decode(1, "60"), done("")),
        (decode(1, "61"), refused(15, 0)),
        (decode(1, "60 00"), refused(15, 0)),
    ]
}

#[test]
fn every_input_that_tells() {
    for ((kind, room, first, second), answer) in told() {
        let given = reference::vectors::file::call(kind, room, &first, &second);
        assert_eq!(given, answer, "kind {kind}, room {room}: {first:02x?} {second:02x?}");
    }
}

#[test]
fn the_nine_words() {
    assert_eq!(nine(8), hex("03 08 0d 12 17 1c 21 26 2b"));
    let streams = NINE.iter().map(|stream| hex(stream)).chain([nine(8)]);
    for (q, stream) in (1..=8).zip(streams) {
        let words = nine(q as usize);
        assert_eq!(pack(q, &words, stream.len()), Answer::written(stream.clone()), "q {q}");
        assert_eq!(pack(q, &words, stream.len() - 1), refused(13, 0));
        assert_eq!(unpack(q, 9, &stream, 9), Answer::written(words));
        assert_eq!(unpack(q, 9, &stream, 8), refused(13, 0));
    }
}

/// The file's list of the inputs that tell has all of these, the nine words both ways, and no others.
#[test]
fn the_file_has_every_input_that_tells() {
    let calls = telling();
    assert!(told().iter().all(|(call, _)| calls.contains(call)));
    assert_eq!(calls.len(), told().len() + 16);
}

/// A record of one state under no constraint, so that any window works: datum n has word n.
fn plain(q: usize, m: usize, a: usize) -> Vec<u8> {
    let constraint = Constraint { next: vec![[Some(0), Some(0)]] };
    let table = Table { rows: vec![vec![Entry { word: 0, next: 0 }, Entry { word: 1, next: 0 }]] };
    Record { p: 1, q, m, a, start: 0, tail: 0, constraint, table }.pack()
}

#[test]
fn the_reach_as_told() {
    let blocks = |first, last| Ok((BlockNumber(first), BlockNumber(last)));
    assert_eq!(reach(&hex(FIRST_LISTED), 15, 15), blocks(4, 6));
    assert_eq!(reach(&hex(FIRST_LISTED), 0, 2), blocks(0, 1));
    assert_eq!(reach(&listed(), 15, 15), blocks(4, 5), "m is 0 since request (c)");
    assert_eq!(reach(&listed(), 0, 2), blocks(0, 0));
    assert_eq!(reach(&plain(3, 1, 1), 15, 15), blocks(4, 6));
    assert_eq!(reach(&plain(3, 0, 1), 16, 20), blocks(4, 6));
    assert_eq!(reach(&plain(8, 0, 0), 7, 8), blocks(0, 1));
    assert_eq!(reach(&plain(2, 3, 4), 9, 9), blocks(0, 7));
    assert_eq!(reach(&plain(2, 3, 4), 40, 9), blocks(16, 7), "the formula where f comes after l");
    assert_eq!(reach(&hex("04 00 00 00 00"), 0, u64::MAX), Err(7), "the record before 15");
}

/// The last bit of the longest stream has a reach, the next has none; nothing overflows for any bit number.
#[test]
fn the_reach_at_the_limit() {
    for (q, m, a) in (1..=8).flat_map(|q| [(q, 0, 0), (q, 15, 15), (q, 3, 1)]) {
        let record = plain(q, m, a);
        let (width, m, a) = (q as u64, m as u64, a as u64);
        let last = (BlockNumber(999_999 - a), BlockNumber(999_999 + m));
        assert_eq!(reach(&record, MOST_WORDS * width - 1, MOST_WORDS * width - 1), Ok(last));
        for beyond in [MOST_WORDS * width, MOST_WORDS * width + 1, 1 << 32, 1 << 63, u64::MAX] {
            assert_eq!(reach(&record, 0, beyond), Err(15));
            assert_eq!(reach(&record, beyond, beyond), Err(15));
            assert_eq!(reach(&record, beyond, 0), Ok((BlockNumber(beyond / width - a), BlockNumber(m))));
        }
    }
}

/// Streams at the limit: every q both ways, one word more, and the order of 1, 15, 13 and 11 there.
#[test]
fn a_million_words() {
    let mut random = Random::seeded(21);
    for q in 1..=8 {
        let mut words = random.bytes(1_000_000, 1 << q);
        let stream = pack(q, &words, 125_000 * q as usize).output;
        assert_eq!(stream.len(), 125_000 * q as usize);
        assert_eq!(pack(q, &words, stream.len() - 1), refused(13, 0));
        assert_eq!(unpack(q, 1_000_000, &stream, 1_000_000), Answer::written(words.clone()));
        assert_eq!(unpack(q, 1_000_000, &stream, 999_999), refused(13, 0));
        words.push(255);
        assert_eq!(pack(q, &words, 0), refused(15, 0), "15 before 13 and 11");
        assert_eq!(pack(q, &words, 2_000_000), refused(15, 0));
        assert_eq!(pack(9, &words, 0), refused(1, 0), "1 before 15");
        let longer = vec![0; (1_000_001 * q as usize).div_ceil(8)];
        assert_eq!(unpack(q, 1_000_001, &longer, 2_000_000), refused(15, 0));
        assert_eq!(unpack(q, 1_000_000, &longer, 2_000_000), refused(15, 0));
    }
}

#[test]
fn a_million_words_under_records() {
    let mut random = Random::seeded(22);
    for (record, a, bits) in [(hex(E2), 0, 2), (hex(FIRST_LISTED), 1, 3), (listed(), 1, 3)] {
        let p = load(&record).unwrap().p;
        let mut blocks = random.bytes(1_000_000 - a, 1 << p);
        let stream = encode_stream(&record, &blocks, 125_000 * bits);
        assert_eq!((stream.refusal, stream.value as usize), (0, 125_000 * bits));
        assert_eq!(encode_stream(&record, &blocks, 125_000 * bits - 1), refused(13, 0));
        let read = decode_stream(&record, 1_000_000, &stream.output, 1_000_000 - a);
        assert!(read == Answer::written(blocks.clone()));
        blocks.push(255);
        assert_eq!(encode_stream(&record, &blocks, 0), refused(15, 0), "15 before 13 and 11");
        assert_eq!(encode_stream(&record, &blocks, 1_000_000), refused(15, 0));
        let added = vec![0; (1_000_001 * bits).div_ceil(8)];
        assert_eq!(decode_stream(&record, 1_000_001, &added, 1_000_001), refused(15, 0), "words were added");
        let read = decode(&record, &vec![0; 1_000_001], 1_000_001);
        assert_eq!(read.value as usize, 1_000_001 - a, "15 does not bind the calls on bytes");
    }
}

/// A record that is refused with 10: E2 with m 0.
const NO_WINDOW: &str = "24 04 00 40 23 00 41 01 01 80 e0 00";

#[test]
fn order_of_packing() {
    for q in [0, 9, 10, 255, 256, 1 << 32, (1 << 32) + 1, 1 << 63, (1 << 63) + 8, u64::MAX] {
        assert_eq!(pack(q, &[], 0), refused(1, 0));
        assert_eq!(pack(q, &[255], 0), refused(1, 0), "1 before 13");
        assert_eq!(unpack(q, 0, &[], 0), refused(1, 0));
        assert_eq!(unpack(q, u64::MAX, &[1], 0), refused(1, 0), "1 before 15");
    }
    assert_eq!(pack(3, &[8, 8], 0), refused(13, 0), "13 before 11");
    assert_eq!(pack(3, &[7, 8, 8], 2), refused(11, 1));
    assert_eq!(pack(8, &[255], 1), done("ff"), "no word of eight bits is bad");
    assert_eq!(pack(3, &[], 0), done(""));
}

#[test]
fn order_of_unpacking() {
    assert_eq!(unpack(3, 3, &hex("29 81"), 0), refused(15, 0), "the fill before 13");
    assert_eq!(unpack(3, 3, &hex("29"), 0), refused(15, 0), "the length before 13");
    assert_eq!(unpack(3, 3, &hex("29 80 00"), 0), refused(15, 0));
    assert_eq!(unpack(3, 3, &hex("29 80"), 2), refused(13, 0));
    for count in [1_000_000, 1_000_001, 1 << 32, 1 << 61, 1 << 62, 1 << 63, (1 << 63) + 1, u64::MAX - 7, u64::MAX] {
        for (q, length) in (1..=8).flat_map(|q| [(q, 0), (q, 1), (q, 2)]) {
            assert_eq!(unpack(q, count, &vec![0; length], 0), refused(15, 0), "q {q}, count {count}");
        }
    }
}

#[test]
fn order_of_encoding_to_a_stream() {
    assert_eq!(encode_stream(&[], &[255], 0), refused(8, 0), "the record before 13");
    assert_eq!(encode_stream(&hex(NO_WINDOW), &vec![255; 1_000_001], 0), refused(10, 0), "and before 15");
    assert_eq!(encode_stream(&listed(), &[], 0), refused(13, 0), "closing words need room");
    assert_eq!(encode_stream(&listed(), &[0, 4], 1), refused(13, 0), "13 before 11");
    assert_eq!(encode_stream(&listed(), &[0, 4], 2), refused(11, 1));
    assert_eq!(encode_stream(&hex(E2), &[1, 0, 1, 1], 1), done("ae"), "E3");
    assert_eq!(encode_stream(&mfm(), &[], 0), done(""));
}

#[test]
fn order_of_decoding_from_a_stream() {
    assert_eq!(decode_stream(&hex(NO_WINDOW), u64::MAX, &[1], 0), refused(10, 0), "the record before 15");
    assert_eq!(decode_stream(&[4, 0, 0, 0, 0], 0, &[], 0), refused(7, 0), "the record before 12");
    assert_eq!(decode_stream(&listed(), 0, &[0], 0), refused(15, 0), "15 before 12");
    assert_eq!(decode_stream(&listed(), 0, &[], 0), refused(12, 0), "12 before 13");
    assert_eq!(decode_stream(&listed(), 3, &[0, 1], 0), refused(15, 0), "15 before 13");
    assert_eq!(decode_stream(&listed(), 3, &[0, 0], 1), refused(13, 0));
    assert_eq!(decode_stream(&hex(E2), 4, &hex("be"), 4), done("01 01 fe 01"), "E4");
    for count in [1_000_000, 1_000_001, 1 << 32, 1 << 62, 1 << 63, (1 << 63) + 4, u64::MAX] {
        assert_eq!(decode_stream(&hex(E2), count, &[], 0), refused(15, 0));
        assert_eq!(decode_stream(&hex(E2), count, &[0], 0), refused(15, 0));
    }
}
