//! Request (e), "The tail datum in the record": the inputs that tell, every value of the tail datum, and records in
//! the shape that they had before.

use super::damage::{fields, widths, with_field, TAIL};
use super::data::{E1, FIRST_LISTED};
use super::file::{File, CHECK, DECODE, DECODE_STREAM, ENCODE, ENCODE_STREAM};
use super::fixed::{mfm, record_of, E2, LISTED};
use super::hex;
use super::stream_borders::{count_and_stream, listed, Call};
use crate::accept::load;
use crate::bits::{Reader, Writer};
use crate::constraint::Constraint;
use crate::record::Record;
use crate::table::{Entry, Table};
use crate::{published, sets, streams};

/// E2 as it was before the request.
pub const OLD_E2: &str = "24 04 40 42 30 04 10 10 18 0e 00";

/// Records that tell when they are checked.
pub const CHECKS: [&str; 10] = [
    E2,
    OLD_E2,
    "04 04 40 40 23 00 41 01 01 80 e0 00", // the row of refusal 7: p is 0
    "24 04 00 40 23 00 41 01 01 80 e0 00", // the row of refusal 10: m is 0
    "24 04 40 40 a3 00 41 01 01 80 e0 00", // tail datum 2 at p 1
    "24 04 40 40 a3",                      // the same before the length
    "24 04 40 40 23",                      // the header alone
    "24 04 40 40",                         // below five bytes
    "04 00 00 00",                         // below five bytes, p is 0
    "04 00 00 00 00",                      // p is 0
];

/// Run-length jobs of records whose old shape is checked: (2,7), (1,7) and two of p 4, where the bits that are now the
/// tail datum say 8, which is one.
const COMPILED: [[u8; 5]; 4] = [[2, 7, 1, 2, 4], [1, 7, 2, 3, 3], [0, 1, 4, 6, 2], [0, 2, 4, 5, 5]];

pub fn add(file: &mut File) {
    telling().iter().for_each(|(kind, room, first, second)| drop(file.add(*kind, *room, first, second)));
    records().iter().for_each(|record| every_value(file, record));
    for record in old_records() {
        file.check(&record.pack());
        add_old(file, &old_shape(&record));
    }
    old_calls(file);
    lengths(file);
}

/// The packed record with this value in the field of the tail datum, whether it is good or not.
pub fn with_value(record: &Record, value: usize) -> Vec<u8> {
    with_field(&record.pack(), fields(record)[TAIL], value)
}

/// A packed record in the shape of before the request: the same fields but the tail datum.
pub fn old_shape(record: &Record) -> Vec<u8> {
    let bytes = record.pack();
    let mut reader = Reader::of(&bytes);
    let mut writer = Writer::default();
    for (place, width) in widths(record).into_iter().enumerate() {
        let value = reader.take(width);
        if place != TAIL {
            writer.put(value, width);
        }
    }
    writer.bytes()
}

fn loaded(bytes: &[u8]) -> Record {
    load(bytes).expect("the record is good")
}

/// The inputs that tell.
pub fn telling() -> Vec<Call> {
    let mut calls: Vec<Call> = CHECKS.iter().map(|record| (CHECK, 0, hex(record), vec![])).collect();
    let listed = loaded(&listed());
    calls.push((CHECK, 0, mfm(), vec![]));
    calls.push((ENCODE, 2, with_value(&loaded(&hex(E2)), 1), vec![1, 0]));
    for value in 0..4 {
        calls.push((ENCODE, 1, with_value(&listed, value), vec![]));
        calls.push((ENCODE, 5, with_value(&listed, value), vec![0, 1, 2, 3]));
    }
    calls.push((CHECK, 0, with_value(&listed, 4), vec![]));
    calls.push((ENCODE, 4, record_of(&E1).expect("E1 compiles"), vec![1, 0, 1, 1])); // E3
    calls.push((DECODE, 4, hex(E2), vec![2, 3, 3, 2])); // E4
    calls
}

/// p 4, q 4, two states: a word shows the low three bits of its datum and the highest bit of the one before, so that
/// the window is m 0, a 1.
pub fn late() -> Record {
    let entry = |state: usize, datum: usize| Entry { word: (state << 3 | datum & 7) as u8, next: datum >> 3 };
    let rows = (0..2).map(|state| (0..16).map(|datum| entry(state, datum)).collect()).collect();
    let constraint = Constraint { next: vec![[Some(0), Some(0)]] };
    Record { p: 4, q: 4, m: 0, a: 1, start: 0, tail: 0, constraint, table: Table { rows } }
}

/// p 4, q 4, one state under no constraint, datum n has word n: m 0, a 0.
pub fn plain() -> Record {
    let rows = vec![(0..16).map(|word| Entry { word, next: 0 }).collect()];
    Record { a: 0, table: Table { rows }, ..late() }
}

/// Records whose tail datum takes every value: E2, E8 and p 4, each with a 0 and with a above 0 (the window grown, or
/// for p 4 another table), and records of p 2 and p 1 that need their lookahead.
pub fn records() -> Vec<Record> {
    let (e2, e8) = (loaded(&hex(E2)), loaded(&mfm()));
    let grown = |record: &Record, a: usize| Record { a, ..record.clone() };
    let two_seven = published::named("ach-2-7").expect("the code is accepted");
    let wider = [grown(&e2, 2), grown(&e8, 3)];
    let needed = [late(), loaded(&listed()), loaded(&hex(FIRST_LISTED)), two_seven];
    [e2, e8, plain()].into_iter().chain(wider).chain(needed).collect()
}

/// Every value of the tail datum checked; under those below 2^p blocks encoded and the recording decoded, and if a is
/// above 0 no blocks encoded; under the greatest with one byte too few too, under some to streams and from streams.
fn every_value(file: &mut File, record: &Record) {
    let blocks = [1, 0, 1, 1];
    for value in 0..16 {
        let bytes = with_value(record, value);
        file.check(&bytes);
        if value >= 1 << record.p {
            continue;
        }
        let recording = file.add(ENCODE, 4 + record.a, &bytes, &blocks).output;
        file.add(DECODE, 4, &bytes, &recording);
        if record.a > 0 {
            file.add(ENCODE, record.a, &bytes, &[]);
        }
        if record.a > 0 && value + 1 == 1 << record.p {
            file.add(ENCODE, record.a - 1, &bytes, &[]);
        }
        if value % 4 == 1 {
            let stream = streams::pack(record.q, &recording);
            file.add_exact(ENCODE_STREAM, &bytes, &blocks);
            file.add(DECODE_STREAM, 4, &bytes, &count_and_stream(recording.len() as u64, &stream));
        }
    }
}

/// Records that the old shape could hold too: E2 and E1's, the listed code's new and old, the compiled ones, two more
/// of p 4, and the published ones.
pub fn old_records() -> Vec<Record> {
    let compiled = |job: &[u8; 5]| loaded(&record_of(job).expect("the job compiles"));
    let mut records = vec![loaded(&hex(E2)), compiled(&E1), compiled(&LISTED), loaded(&hex(FIRST_LISTED))];
    records.extend(COMPILED.iter().map(compiled).chain([plain(), late()]));
    records.extend(published::records().filter_map(|(_, record)| record));
    records
}

/// Bytes in the old shape, whole, cut by a byte and lengthened by one. They are read by the new fields alone.
fn add_old(file: &mut File, bytes: &[u8]) {
    file.check(bytes);
    file.check(&bytes[..bytes.len() - 1]);
    file.check(&[bytes, &[0]].concat());
}

/// E2's old bytes and the listed code's in the calls that have more inputs, and in sets.
fn old_calls(file: &mut File) {
    let listed = old_shape(&loaded(&listed()));
    for bytes in [hex(OLD_E2), listed] {
        file.add(ENCODE, 4, &bytes, &[1, 0, 1, 1]);
        file.add(DECODE, 4, &bytes, &[2, 3, 3, 2]);
        file.add(ENCODE_STREAM, 4, &bytes, &[1, 0, 1, 1]);
        file.add(DECODE_STREAM, 4, &bytes, &count_and_stream(4, &[0xbe]));
        let both = [hex(E2), bytes];
        file.set(&sets::pack(&both[1..]));
        file.set(&sets::pack(&both));
    }
}

/// The first 0 to 5 bytes of records: good ones, ones whose tail datum is too large, and ones whose p is 0.
fn lengths(file: &mut File) {
    for record in [loaded(&hex(E2)), loaded(&mfm()), loaded(&listed()), late()] {
        let bad = (1 << record.p) % 16;
        let no_p = with_field(&record.pack(), fields(&record)[0], 0);
        for bytes in [record.pack(), with_value(&record, bad), with_value(&record, 15), no_p] {
            (0..=5).for_each(|length| drop(file.check(&bytes[..length])));
        }
    }
}
