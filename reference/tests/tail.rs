//! Request (e), "The tail datum in the record": every input that tells with its exact answer, every value of the
//! field, the shape of before, and the order of the checks. The claims have a file of their own.

use reference::accept::load;
use reference::answer::Answer;
use reference::calls::{check, decode, decode_stream, encode, encode_stream, reach, set, with_tail};
use reference::published;
use reference::record::Record;
use reference::streams;
use reference::vectors::data::{E1, FIRST_LISTED};
use reference::vectors::file::{call, CHECK, COMPILE_RUN_LENGTH, DECODE, ENCODE, WITH_TAIL};
use reference::vectors::fixed::{mfm, E2, LISTED, RECORDS};
use reference::vectors::hex;
use reference::vectors::stream_borders::{listed, Call};
use reference::vectors::tails::{self, late, old_records, old_shape, plain, records, with_value, OLD_E2};
use reference::vectors::with_tail::{self as changes, datum, LARGE};

/// Room enough for every result here.
const PLENTY: usize = 4096;

const OF_E1: &str = "24 04 00 40 23 00 41 01 01 c0 40 40";
const OF_E7: &str = "24 08 00 c0 22 09 42 70 04 00 48 08 0a 02 02 80";
const OF_E8: &str = "24 04 00 c0 22 09 42 70 04 00 28 08 0a 00";

/// The listed record from its sixth byte on. The fifth is 23, 63, a3, e3 for the tail data 0 to 3.
const LISTED_FROM_SIXTH: &str = "00 41 80 60 a8 0a 0b 01 e0 28 0a 0b 01 e0 10 1e 08";

/// The listed record with these fourth and fifth bytes.
fn listed_with(bytes: &str) -> Vec<u8> {
    hex(&["46 08 04", bytes, LISTED_FROM_SIXTH].concat())
}

fn refused(refusal: u8) -> Answer {
    Answer { refusal, value: 0, output: vec![] }
}

fn done(output: &str) -> Answer {
    Answer::written(hex(output))
}

/// The inputs that tell and are checked, encoded or decoded.
fn told() -> Vec<(Call, Answer)> {
    let checked = |record: Vec<u8>, refusal: u8| ((CHECK, 0, record, vec![]), refused(refusal));
    let encoded =
        |record: Vec<u8>, blocks: &str, words: &str| ((ENCODE, hex(words).len(), record, hex(blocks)), done(words));
    let mut told = vec![
        checked(hex(E2), 0),
        checked(hex(OLD_E2), 7),
        checked(hex("04 04 40 40 23 00 41 01 01 80 e0 00"), 7),
        checked(hex("24 04 00 40 23 00 41 01 01 80 e0 00"), 10),
        checked(hex(OF_E8), 0),
        encoded(hex("24 04 40 40 63 00 41 01 01 80 e0 00"), "01 00", "02 02"),
        checked(hex("24 04 40 40 a3 00 41 01 01 80 e0 00"), 7),
        checked(hex("24 04 40 40 a3"), 7),
        checked(hex("24 04 40 40 23"), 8),
        checked(hex("24 04 40 40"), 8),
        checked(hex("04 00 00 00"), 8),
        checked(hex("04 00 00 00 00"), 7),
        checked(listed_with("41 23"), 7),
        encoded(hex(OF_E1), "01 00 01 01", "02 03 02 02"),
        ((DECODE, 4, hex(E2), hex("02 03 03 02")), done("01 01 fe 01")),
    ];
    for (byte, none, last) in [("23", "03", "06"), ("63", "03", "07"), ("a3", "05", "02"), ("e3", "05", "07")] {
        let record = listed_with(&["40", byte].concat());
        told.push(encoded(record.clone(), "", none));
        told.push(encoded(record, "00 01 02 03", &["03 03 02 05", last].concat()));
    }
    told
}

/// The inputs that tell about another tail datum.
fn told_changes() -> Vec<(Call, Answer)> {
    let change = |record: Vec<u8>, value, answer| ((WITH_TAIL, record.len(), record, datum(value)), answer);
    let e2 = |value, answer| change(hex(E2), value, answer);
    let with = |bytes| Answer::written(listed_with(bytes));
    vec![
        e2(0, done(E2)),
        e2(1, done("24 04 40 40 63 00 41 01 01 80 e0 00")),
        e2(2, refused(7)),
        change(listed(), 0, with("40 23")),
        change(listed(), 1, with("40 63")),
        change(listed(), 2, with("40 a3")),
        change(listed(), 3, with("40 e3")),
        change(listed(), 4, refused(7)),
    ]
}

#[test]
fn every_input_that_tells() {
    for ((kind, room, first, second), answer) in told().into_iter().chain(told_changes()) {
        assert_eq!(call(kind, room, &first, &second), answer, "kind {kind}, room {room}: {first:02x?} {second:02x?}");
    }
}

/// The file's lists of the inputs that tell have all of these, and no others.
#[test]
fn the_file_has_every_input_that_tells() {
    for (calls, told) in [(tails::telling(), told()), (changes::telling(), told_changes())] {
        assert!(told.iter().all(|(call, _)| calls.contains(call)));
        assert_eq!(calls.len(), told.len());
    }
}

/// "The compiler writes 0", and the row of refusal 13 is 11 bytes for a 12-byte record.
#[test]
fn records_worked_afresh() {
    let jobs = [(E1, hex(OF_E1)), ([1, 3, 1, 2, 1], hex(OF_E7)), (LISTED, listed_with("40 23"))];
    for (job, record) in jobs {
        assert_eq!(call(COMPILE_RUN_LENGTH, record.len() - 1, &job, &[]), refused(13));
        assert_eq!(call(COMPILE_RUN_LENGTH, record.len(), &job, &[]), Answer::written(record));
    }
    assert_eq!((hex(E2).len(), hex(OF_E1).len(), mfm()), (12, 12, hex(OF_E8)));
    assert!(published::records().all(|(_, record)| record.unwrap().tail == 0));
}

/// The words of data from state 0.
fn walked(record: &Record, data: &[u8]) -> Vec<u8> {
    let mut state = 0;
    let mut words = vec![];
    for datum in data {
        let entry = record.table.rows[state][usize::from(*datum)];
        words.push(entry.word);
        state = entry.next;
    }
    words
}

/// Every value of the tail datum, for E2, E8 and p 4, with a 0 and above 0, and others: those of 2^p or more are
/// refused with 7, a recording under the others is the words of the blocks followed by a blocks of the tail datum, and
/// it decodes to the blocks, from words and from streams.
#[test]
fn every_value_of_the_tail_datum() {
    let kinds: Vec<(usize, bool)> = records().iter().map(|record| (record.p, record.a > 0)).collect();
    assert!([1, 2, 4].iter().all(|p| kinds.contains(&(*p, true))));
    assert!([1, 4].iter().all(|p| kinds.contains(&(*p, false))));
    for (record, value) in records().iter().flat_map(|record| (0..16).map(move |value| (record, value))) {
        let bytes = with_value(record, value);
        if value >= 1 << record.p {
            assert_eq!(check(&bytes), refused(7));
            assert_eq!(encode(&bytes, &[255], 0), refused(7), "before 13 and 11");
            assert_eq!(decode_stream(&bytes, u64::MAX, &[], 0), refused(7), "before 15");
            continue;
        }
        assert_eq!(load(&bytes), Ok(Record { tail: value, ..record.clone() }));
        for blocks in [&[][..], &[1], &[1, 0, 1, 1], &[0; 20], &[1; 3]] {
            let words = walked(record, &[blocks, &vec![value as u8; record.a]].concat());
            let stream = streams::pack(record.q, &words);
            assert_eq!(encode(&bytes, blocks, PLENTY), Answer::written(words.clone()));
            assert_eq!(encode_stream(&bytes, blocks, PLENTY), Answer::written(stream.clone()));
            assert_eq!(decode(&bytes, &words, PLENTY).output, blocks);
            assert_eq!(decode_stream(&bytes, words.len() as u64, &stream, PLENTY).output, blocks);
        }
    }
}

/// Datum 9 closes with another word than 1 after the same block, and the window of this table is 0 and 1.
#[test]
fn a_record_of_p_4_that_needs_its_lookahead() {
    assert_eq!((check(&plain().pack()).refusal, check(&late().pack()).refusal), (0, 0));
    assert_eq!(check(&Record { a: 0, ..late() }.pack()).refusal, 10);
    for (tail, last) in [(0, 8), (1, 9), (7, 15), (8, 8), (15, 15)] {
        assert_eq!(encode(&with_value(&late(), tail), &[2, 9], 3).output, [2, 1, last]);
    }
}

/// "The first check is 8 below five": the first 0 to 5 bytes of E2 with the tail data 0 and 2, and of E2 with p 0.
#[test]
fn lengths_0_to_5() {
    let of = |text: &str| (0..=5).map(|length| check(&hex(text)[..length]).refusal).collect::<Vec<_>>();
    assert_eq!(of(E2), [8, 8, 8, 8, 8, 8]);
    assert_eq!(of("24 04 40 40 a3 00 41 01 01 80 e0 00"), [8, 8, 8, 8, 8, 7]);
    assert_eq!(of("04 04 40 40 23 00 41 01 01 80 e0 00"), [8, 8, 8, 8, 8, 7]);
}

/// The records of before the request, byte by byte: E2, E1's, the listed code's new and old.
const OLD: [&str; 4] = [
    OLD_E2,
    "24 04 00 42 30 04 10 10 1c 04 04",
    "46 08 04 42 30 04 18 06 0a 80 a0 b0 1e 02 80 a0 b0 1e 01 01 e0 80",
    "46 08 44 42 30 04 18 06 0a 80 a0 a8 0a 0b 01 e0 10 1c 07 80 e0 80",
];

/// "The old shape is no longer read": its bits after the constraint start say 8 where a run-length constraint has k
/// above 0. That is no tail datum for p 1 to 3; for p 4 it is one, and the length or the bits behind it are wrong.
#[test]
fn the_old_shape() {
    let shapes: Vec<Vec<u8>> = old_records().iter().map(old_shape).collect();
    assert!(OLD.iter().zip(&shapes).all(|(old, shape)| hex(old) == *shape));
    for (record, shape) in old_records().iter().zip(&shapes) {
        let longer = [&shape[..], &[0]].concat();
        let answers = [check(shape).refusal, check(&shape[..shape.len() - 1]).refusal, check(&longer).refusal];
        match (record.p, record.pack().len() - shape.len()) {
            (1..=3, _) => assert_eq!(answers, [7, 7, 7]),
            (_, 0) => assert_eq!(answers, [7, 8, 8], "as long as before"),
            _ => assert_eq!(answers, [8, 8, 7], "a byte longer than before"),
        }
    }
    assert_eq!(encode(&hex(OLD_E2), &[1, 0], 2), refused(7));
    assert_eq!(reach(&hex(OLD_E2), 0, 0), Err(7));
    assert_eq!(load(&hex(FIRST_LISTED)).map(|record| record.tail), Ok(0));
}

/// The record, 7 for the datum, 13.
#[test]
fn order_of_another_tail_datum() {
    for (record, refusal) in [(1, 7), (2, 10), (3, 8), (4, 8), (5, 8), (7, 9), (9, 7), (11, 8), (15, 7)] {
        let record = hex(RECORDS[record]);
        assert_eq!(with_tail(&record, 0, PLENTY), refused(refusal));
        assert_eq!(with_tail(&record, u64::MAX, 0), refused(refusal), "the record first");
    }
    assert_eq!(with_tail(&listed_with("41 23"), 0, PLENTY), refused(7), "a bad tail datum cannot be mended");
    for large in LARGE.into_iter().chain([2, 3]) {
        assert_eq!(with_tail(&hex(E2), large, 0), refused(7), "before 13");
        assert_eq!(with_tail(&hex(E2), large, 12), refused(7));
    }
    assert_eq!(with_tail(&hex(E2), 1, 11), refused(13));
    assert_eq!(with_tail(&hex(E2), 0, 0), refused(13), "even where nothing changes");
}

/// A set with several tail data is good; the first that is too large ends the walk.
#[test]
fn sets_with_tail_data() {
    let pack = |values: [usize; 3]| reference::sets::pack(&values.map(|value| with_value(&late(), value)));
    assert_eq!(set(&pack([3, 15, 0])), Answer::number(3));
    let mixed = [hex(E2), with_value(&late(), 9), with_value(&load(&listed()).unwrap(), 4)];
    assert_eq!(set(&reference::sets::pack(&mixed)), Answer::refused(7, 2));
}
