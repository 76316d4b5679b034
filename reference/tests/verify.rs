//! Words verified: every input that tells with its exact answer, its decoded blocks and what they encode to again, the
//! order of the checks, and lists of a million words. What holds of every list has a file of its own.

use reference::accept::load;
use reference::answer::Answer;
use reference::calls::{decode, encode, encode_stream, verify, verify_stream};
use reference::vectors::file::{call, VERIFY, VERIFY_STREAM};
use reference::vectors::fixed::{mfm, E2, RECORDS};
use reference::vectors::hex;
use reference::vectors::marks::two_seven;
use reference::vectors::stream_borders::{listed, Call};
use reference::vectors::tails::with_value;
use reference::vectors::verifying::{self, as_stream, list, stream, telling, LISTED_WORDS, TWO_SEVEN_WORDS};
use reference::verify::encoded_again;

const LISTED: &str = "460804402300418060a80a0b01e0280a0b01e0101e08";
const LISTED_3: &str = "46080440e300418060a80a0b01e0280a0b01e0101e08";
const TWO_SEVEN: &str = "24180dc022090270a42b0b42f0040060501011028080c000502018180702";
const TWO_SEVEN_1: &str = "24180dc062090270a42b0b42f0040060501011028080c000502018180702";

fn refused(refusal: u8) -> Answer {
    Answer::refused(refusal, 0)
}

/// The recording under the listed record, with one word changed.
fn w(place: usize, word: u8) -> Vec<u8> {
    verifying::changed(&LISTED_WORDS, place, word)
}

/// The first words of the recording under the (2,7) record.
fn v(count: usize) -> Vec<u8> {
    TWO_SEVEN_WORDS[..count].to_vec()
}

/// A list that is not refused: the record, the words, how many come back, the decoded blocks, the words again.
type Row = (&'static str, Vec<u8>, usize, Vec<u8>, Vec<u8>);

/// Rows under E2, those of the listed record and of the one that closes with 3.
fn first_rows() -> Vec<Row> {
    let data = [0, 1, 2, 3].repeat(3);
    let ends = |block: u8| [&data[..11], &[block]].concat();
    let whole = LISTED_WORDS.to_vec();
    let without = whole[..12].to_vec();
    let mut rows: Vec<Row> = vec![
        (E2, vec![2, 2, 3, 2], 4, vec![1, 0, 1, 1], vec![2, 2, 3, 2]),
        (E2, vec![2, 3, 3, 2], 2, vec![1, 1, 254, 1], vec![2, 3]),
        (E2, vec![], 0, vec![], vec![]),
        (LISTED, whole.clone(), 13, data.clone(), whole.clone()),
        (LISTED, w(5, 0), 4, vec![0, 1, 2, 3, 255, 254, 2, 3, 0, 1, 2, 3], vec![3, 3, 2, 5]),
        (LISTED, w(4, 2), 13, vec![0, 1, 2, 3, 2, 1, 2, 3, 0, 1, 2, 3], w(4, 2)),
        (LISTED, w(12, 7), 12, ends(3), whole.clone()),
        (LISTED, w(12, 5), 12, ends(2), w(12, 3)),
        (LISTED, w(12, 3), 13, ends(2), w(12, 3)),
        (LISTED, w(12, 0), 11, ends(255), whole[..11].to_vec()),
        (LISTED, without.clone(), 11, data[..11].to_vec(), [&whole[..11], &[3]].concat()),
        (LISTED_3, whole.clone(), 12, data.clone(), w(12, 7)),
        (LISTED, vec![2, 5], 0, vec![2], vec![5, 3]),
        (LISTED, vec![2, 5, 0], 0, vec![2, 255], vec![5]),
    ];
    rows.extend((0..8).map(|word| (LISTED, vec![word], usize::from(word == 3), vec![], vec![3])));
    rows
}

/// Rows of the (2,7) record and of the one that closes with 1.
fn more_rows() -> Vec<Row> {
    let data = [1, 0, 1, 1, 0, 0, 1];
    let whole = TWO_SEVEN_WORDS.to_vec();
    let again = |blocks: &[u8]| encode(&hex(TWO_SEVEN), blocks, 64).output;
    let cut = |left: usize, back: usize| {
        let blocks = &data[..left - 3];
        (TWO_SEVEN, v(left), back, blocks.to_vec(), again(blocks))
    };
    vec![
        (TWO_SEVEN, whole.clone(), 10, data.to_vec(), whole.clone()),
        cut(9, 7),
        cut(8, 7),
        (TWO_SEVEN, v(7), 7, data[..4].to_vec(), v(7)),
        cut(6, 4),
        (TWO_SEVEN, vec![0, 2, 0], 3, vec![], vec![0, 2, 0]),
        (TWO_SEVEN, vec![0, 0, 0], 1, vec![], vec![0, 2, 0]),
        (TWO_SEVEN_1, whole, 7, data.to_vec(), vec![0, 0, 2, 0, 0, 2, 0, 2, 1, 0]),
        (TWO_SEVEN, vec![1, 0, 0, 0], 0, vec![1], vec![0, 0, 2, 0]),
        (TWO_SEVEN, vec![1, 0, 0, 0, 0], 0, vec![1, 255], vec![0]),
    ]
}

fn rows() -> Vec<Row> {
    first_rows().into_iter().chain(more_rows()).collect()
}

/// Lists that are refused, with their answers.
fn refused_lists() -> Vec<(Call, Answer)> {
    let bad_word = |place| Answer::refused(11, place);
    let (l, a) = (hex(LISTED), hex(TWO_SEVEN));
    vec![
        (list(&a, &[0, 9]), refused(12)),
        (list(&l, &[]), refused(12)),
        (list(&hex(E2), &[2, 2, 4, 2]), bad_word(2)),
        (list(&l, &[3, 8]), bad_word(1)),
        (list(&l, &[9]), bad_word(0)),
        (list(&l[..4], &[]), refused(8)),
        (list(&[&[0xa6], &l[1..]].concat(), &[255]), refused(7)),
    ]
}

/// The streams that tell, with their answers.
fn streams_that_tell() -> Vec<(Call, Answer)> {
    let (l, a) = (hex(LISTED), hex(TWO_SEVEN));
    let (w, v) = (hex("6d5deddedc"), hex("082040"));
    vec![
        (stream(&l, 13, &w), Answer::number(13)),
        (stream(&l, 13, &hex("6d5c2ddedc")), Answer::number(4)),
        (stream(&l, 12, &w), refused(15)),
        (stream(&l, 12, &w[..4]), refused(15)),
        (stream(&l, 13, &w[..4]), refused(15)),
        (stream(&l, 0, &[]), refused(12)),
        (stream(&l, 1_000_001, &w), refused(15)),
        (stream(&a, 10, &v), Answer::number(10)),
        (stream(&a, 9, &v), Answer::number(7)),
        (stream(&a, 2, &[0]), refused(12)),
    ]
}

/// The records written out above are those that the file of vectors is written with, and so are the recordings.
#[test]
fn the_records_and_recordings() {
    assert_eq!(listed(), hex(LISTED));
    assert_eq!(with_value(&load(&listed()).unwrap(), 3), hex(LISTED_3));
    assert_eq!(two_seven(), hex(TWO_SEVEN));
    assert_eq!(with_value(&load(&two_seven()).unwrap(), 1), hex(TWO_SEVEN_1));
    let windows = [E2, LISTED, TWO_SEVEN].map(|record| load(&hex(record)).map(|record| (record.m, record.a)));
    assert_eq!(windows, [Ok((1, 0)), Ok((0, 1)), Ok((0, 3))]);
    assert_eq!(encode(&listed(), &[0, 1, 2, 3].repeat(3), 13).output, LISTED_WORDS);
    assert_eq!(encode(&two_seven(), &[1, 0, 1, 1, 0, 0, 1], 10).output, TWO_SEVEN_WORDS);
}

/// Every row, from the list and from its stream: the answer, the decoded blocks, and what they encode to again.
#[test]
fn every_list_that_tells() {
    for (record, words, back, blocks, again) in rows() {
        let record = hex(record);
        assert_eq!(verify(&record, &words), Answer::number(back), "{words:?}");
        let (_, _, _, second) = as_stream(&list(&record, &words));
        assert_eq!(call(VERIFY_STREAM, 0, &record, &second), Answer::number(back), "{words:?}");
        assert_eq!(decode(&record, &words, words.len()), Answer::written(blocks.clone()), "{words:?}");
        assert_eq!(encoded_again(&load(&record).unwrap(), &blocks), again, "{words:?}");
    }
}

#[test]
fn every_input_that_is_refused_and_every_stream() {
    for ((kind, room, first, second), answer) in refused_lists().into_iter().chain(streams_that_tell()) {
        assert_eq!(call(kind, room, &first, &second), answer, "kind {kind}: {second:02x?}");
    }
}

/// The file's list of the inputs that tell has all of these, and no others.
#[test]
fn the_file_has_every_input_that_tells() {
    let calls = telling();
    let told = refused_lists().into_iter().chain(streams_that_tell()).map(|(call, _)| call);
    let told: Vec<Call> = rows().iter().map(|(record, words, ..)| list(&hex(record), words)).chain(told).collect();
    assert!(told.iter().all(|call| calls.contains(call)));
    assert_eq!(calls.len(), told.len());
}

/// A list: the record's refusals, 12, 11. There is no room, so that no other can come.
#[test]
fn order_of_the_checks_of_a_list() {
    for (record, refusal) in RECORDS[1..].iter().zip([7, 10, 8, 8, 8, 7, 9, 9, 7, 8, 8, 0, 10, 8, 7]) {
        let at_worst = if refusal == 0 { Answer::refused(11, 0) } else { refused(refusal) };
        assert_eq!(verify(&hex(record), &[255, 4]), at_worst, "{record}");
        assert_eq!(verify(&hex(record), &[]), refused(refusal), "{record}");
    }
    let a = two_seven();
    assert_eq!(verify(&a, &[255; 2]), refused(12));
    assert_eq!(verify(&a, &[255; 3]), Answer::refused(11, 0));
    assert_eq!(verify(&a, &[0, 2, 4]), Answer::refused(11, 2), "a closing word");
    assert_eq!(verify(&a, &[3, 3, 3, 3, 4, 5]), Answer::refused(11, 4), "after words that do not come back");
}

/// A stream: the record's refusals, 15, 12.
#[test]
fn order_of_the_checks_of_a_stream() {
    for (record, refusal) in RECORDS[1..].iter().zip([7, 10, 8, 8, 8, 7, 9, 9, 7, 8, 8, 0, 10, 8, 7]) {
        let at_worst = if refusal == 0 { 15 } else { refusal };
        for (count, bytes) in [(u64::MAX, &[][..]), (0, &[0]), (1, &[255]), (1_000_001, &[])] {
            assert_eq!(verify_stream(&hex(record), count, bytes), refused(at_worst), "{record}");
        }
        assert_eq!(verify_stream(&hex(record), 0, &[]), refused(refusal), "{record}");
    }
    let a = two_seven();
    for (count, bytes) in [(2, &[8][..]), (2, &[]), (2, &[0, 0]), (0, &[0]), (1 << 63, &[])] {
        assert_eq!(verify_stream(&a, count, bytes), refused(15), "before 12");
    }
    assert_eq!(verify_stream(&a, 2, &[0xf0]), refused(12));
}

/// A recording of 1,000,000 words, whole, with one of its first words changed and with one of its last; one word more
/// is refused as a stream and not as a list.
#[test]
fn a_million_words() {
    for record in [mfm(), listed(), two_seven()] {
        let loaded = load(&record).unwrap();
        let blocks: Vec<u8> = (0..1_000_001 - loaded.a).map(|i| (i * i / 7 % (1 << loaded.p)) as u8).collect();
        let longer = encode(&record, &blocks, 1_000_001).output;
        assert_eq!(verify(&record, &longer), Answer::number(1_000_001));
        let packed = reference::streams::pack(loaded.q, &longer);
        assert_eq!(verify_stream(&record, 1_000_001, &packed), refused(15));
        let stream = encode_stream(&record, &blocks[1..], 1_000_000).output;
        assert_eq!(verify_stream(&record, 1_000_000, &stream), Answer::number(1_000_000));
        let words = encode(&record, &blocks[1..], 1_000_000).output;
        assert_eq!(call(VERIFY, 0, &record, &words), Answer::number(1_000_000));
        for place in [3, 999_999] {
            let back = verify(&record, &verifying::changed(&words, place, words[place] ^ 3));
            assert!(back.refusal == 0 && (back.value as usize) < 1_000_000, "{place}: {back:?}");
            assert!(back.value as usize + loaded.a >= place, "{place}: {back:?}");
        }
    }
}
