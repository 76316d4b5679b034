//! Inputs named in the documents: E1 to E10, the rows of the refusal table, the inputs of the readings, the inputs
//! that tell for request (a).

use super::file::{
    File, CHECK, COMPILE_JOB, COMPILE_JOINED, COMPILE_RUN_LENGTH, DECODE, ENCODE, LISTING, RECORD_ROOM, SET,
};
use super::hex;
use super::joined;
use crate::calls::compile_run_length;
use crate::constraint::Constraint;
use crate::record::Record;
use crate::table::{Entry, Table};

/// E2: the record of the table that E1 had before request (c), "worked afresh for the table it already holds, with
/// tail datum 0" (request (e)).
pub const E2: &str = "24 04 40 40 23 00 41 01 01 80 e0 00";

/// The job of the listing.
pub const LISTED: [u8; 5] = [0, 1, 2, 3, 2];

/// The largest jobs and the ones beside a border.
pub const EXTREME: [[u8; 5]; 6] =
    [[2, 9, 1, 2, 16], [2, 10, 1, 2, 14], [2, 7, 4, 8, 16], [0, 8, 1, 8, 1], [1, 11, 4, 7, 6], [1, 8, 1, 2, 13]];

/// Run-length jobs that have no window (refusal 6), all there are.
const NO_WINDOW: &str = "
    01 08 01 02 0d 01 0c 01 02 09 01 0e 01 02 07 02 05 02 05 0f 03 06 02 06 0e 03 08 02 05 0f
    04 07 01 04 0e 04 08 01 04 0e 04 09 01 04 0e 04 09 02 06 0f 04 0a 02 07 0b 05 09 01 05 0e
    05 0b 01 04 0c 05 0f 01 05 06 06 08 01 07 0f 06 09 01 05 0e 06 09 01 06 0e 06 0a 01 05 0d
    06 0f 01 06 06 07 09 01 08 0d 07 0a 01 07 0a 07 0b 01 05 0c 07 0c 01 05 0c 07 0e 01 07 06
    08 0c 01 08 0a 08 0d 01 08 0a 08 0e 01 07 06 09 0e 01 07 06 0a 0e 01 07 06 0c 0f 01 08 06";

/// Run-length jobs that have over 2,048 edges only after some split (refusal 5).
const GROWN: &str = "
    01 05 04 07 10 01 06 04 07 10 01 07 04 07 0a 01 08 04 06 10 01 09 04 06 0e 01 0a 04 06 0d
    01 0b 04 07 06 01 0c 04 06 0a 01 0d 04 06 0a 01 0f 04 07 05 02 08 04 08 0e 02 0f 04 08 08";

/// Run-length jobs of the examples, the refusal table and the readings.
const RUN_LENGTH: [&str; 32] = [
    "00 01 01 02 01",    // E1
    "00 01 02 03 01",    // E5, refusal 3
    "00 01 02 03 02",    // E5
    "02 07 01 02 03",    // E6, refusal 3
    "02 07 01 02 04",    // E6
    "01 03 01 02 01",    // E7
    "00 01 05 02 01",    // refusal 1
    "00 01 00 02 01",    // refusal 1
    "00 01 01 00 01",    // refusal 1
    "00 01 01 09 01",    // refusal 1
    "00 01 01 02 00",    // refusal 1
    "00 01 01 02 11",    // refusal 1
    "03 02 01 02 01",    // refusal 2
    "00 10 01 02 01",    // refusal 2
    "03 02 05 02 01",    // refusal 1 before 2
    "00 0f 01 08 01",    // refusal 5
    "00 0f 01 08 10",    // 4 before 5
    "00 0f 01 08 08",    // refusal 5
    "00 02 03 04 02",    // the split list
    "01 03 02 04 03",    // the split list
    "01 04 01 02 04",    // the split list
    "00 01 02 03 04",    // the run that ends first
    "00 02 03 04 04",    // the run that ends first
    "00 02 01 03 01",    // unreachable states removed
    "00 01 05 02 01 00", // refusal 1, and 8 before request (h)
    "00 01 01 02 01 00", // refusal 8
    "00 01 01 02",
    "00",
    "",
    "00 0f 01 01 10", // most rounds of the weights
    "0f 0f 01 08 10",
    "00 00 01 01 01",
];

/// General jobs of the refusal table and the readings.
const GENERAL: [&str; 24] = [
    "02 03 02 02 01 00 00 ff",       // refusal 6
    "01 02 01 02 01 01 00 00",       // the component is reached by words
    "01 01 01 02 00 ff 01 01",       // constraint start 1
    "01 02 01 03 02 02 00 01 ff 01", // a tie of windows before request (c)
    "",
    "01",
    "01 01 01",
    "05 01 01",             // 8 before 1
    "05 01 01 00",          // 1 before 2
    "01 01 01 00",          // K by 2
    "01 01 01 11",          // K by 2
    "01 01 01 01",          // 8
    "01 01 01 01 07",       // 8 before the next state
    "01 01 01 01 00 01",    // refusal 2
    "01 01 01 01 01 00",    // refusal 2
    "01 01 01 01 00 fe",    // refusal 2
    "01 01 01 01 00 00 00", // refusal 17, and 8 before request (h)
    "01 01 01 01 00 00",    // the smallest record
    "01 01 10 01 00 00",
    "04 04 01 01 00 00",
    "04 08 10 01 00 00",
    "01 01 01 01 ff 00", // refusal 3
    "01 01 01 01 ff ff", // refusal 3
    "00 00 00 00",
];

/// Joined jobs: the inputs that tell, in the order of their table.
pub const TELLING: [&str; 19] = [
    // Below four bytes.
    "01 02 01",
    // 1 before the first constraint's 8.
    "05 02 01 01 00",
    // K 17 and K 0, before their 8.
    "01 02 01 11",
    "01 02 01 00 00",
    // The second K is missing.
    "01 02 01 01 00 ff",
    // A next state of the first, before the missing second K and before the second's cut-off bytes.
    "02 03 04 01 07 00",
    "01 02 01 01 05 00 01 00",
    // The second K is 17, before its 8.
    "01 02 01 01 00 00 11",
    // The second is cut off.
    "01 02 01 01 00 00 01 00",
    // A left-over byte, before the second's bad next state; then without it.
    "01 02 01 01 00 00 01 09 00 00",
    "01 02 01 01 00 00 01 09 00",
    // 20 pairs, before 3; exactly 17 pairs; exactly 16 pairs.
    "04 01 01 04 00 01 01 02 02 03 03 00 05 01 00 02 01 03 02 04 03 00 04",
    "01 02 01 10 01 00 02 00 03 00 04 00 05 00 06 00 07 00 08 00 09 00 0a 00 0b 00 0c 00 0d 00 0e 00 0f 00 0f 00
     02 00 01 00 00",
    "01 02 01 04 00 01 01 02 02 03 03 00 04 01 00 02 01 03 02 00 03",
    // Bit 0 before bit 1.
    "01 01 01 03 01 02 00 00 00 00 02 00 01 00 01",
    // (1,7) with (0,3), with a rule that allows all, and with "every second bit is 0".
    "01 02 01 08 01 ff 02 00 03 00 04 00 05 00 06 00 07 00 ff 00 04 01 00 02 00 03 00 ff 00",
    "02 03 03 08 01 ff 02 00 03 00 04 00 05 00 06 00 07 00 ff 00 01 00 00",
    "01 03 01 08 01 ff 02 00 03 00 04 00 05 00 06 00 07 00 ff 00 02 01 01 00 ff",
    // No bit is allowed by both.
    "01 01 01 01 ff 00 01 00 ff",
];

/// Records of the refusal table and the readings, and some with two faults.
pub const RECORDS: [&str; 16] = [
    E2,
    "04 04 40 40 23 00 41 01 01 80 e0 00", // p is 0
    "24 04 00 40 23 00 41 01 01 80 e0 00", // m is 0
    "",
    "24 04 40 40",
    "24 04 40 40 23", // the header alone
    "04 04 40 40 23",
    "24 04 40 40 23 00 40 01 01 80 e0 00", // word 00 from the start: 9
    "24 04 00 40 23 00 40 01 01 80 e0 00", // 9 before 10
    "24 04 40 40 23 00 41 01 01 80 e0 01", // fill
    "24 04 40 40 23 00 41 01 01 80 e0 00 00",
    "24 04 40 40 23 00 41 01 01 80 e0",
    "24 08 40 40 23 00 41 01 01 80 e0 00 08 00", // an unreachable state that breaks the constraint
    "24 04 00 00 21 00 02 01 02 01",             // an unreachable state that breaks the window
    "24 04 00 c0 22 09 42 70 04 00 28 08 0a",    // E8 cut short
    "24 04 00 08 20",                            // start above K
];

/// E8: the MFM table for (1,3), as a packed record.
pub fn mfm() -> Vec<u8> {
    let row = |words: [u8; 2]| vec![Entry { word: words[0], next: 1 }, Entry { word: words[1], next: 0 }];
    let table = Table { rows: vec![row([0, 1]), row([2, 1])] };
    Record { p: 1, q: 2, m: 0, a: 0, start: 0, tail: 0, constraint: Constraint::run_length(1, 3), table }.pack()
}

/// The row of refusal 4: bit 0 to state 0, bit 1 to the next state, the last to 0; p 1, q 1, cap 16.
pub fn heavy(states: u8) -> Vec<u8> {
    let mut job = vec![1, 1, 16, states];
    (0..states).for_each(|s| job.extend([0, (s + 1) % states]));
    job
}

/// States that each loop to themselves with both bits: the component is one state.
pub fn loops(states: u8) -> Vec<u8> {
    let mut job = vec![1, 1, 16, states];
    (0..states).for_each(|s| job.extend([s, s]));
    job
}

pub fn add(file: &mut File) {
    for job in RUN_LENGTH.iter().map(|job| hex(job)).chain(EXTREME.iter().map(|job| job.to_vec())) {
        file.add(COMPILE_RUN_LENGTH, RECORD_ROOM, &job, &[]);
        file.add_exact(COMPILE_RUN_LENGTH, &job, &[]);
    }
    for job in hex(&[NO_WINDOW, GROWN].concat()).chunks(5) {
        file.add(COMPILE_RUN_LENGTH, RECORD_ROOM, job, &[]);
    }
    let built = [heavy(8), heavy(9), heavy(16), loops(16), loops(1)];
    for job in GENERAL.iter().map(|job| hex(job)).chain(built) {
        file.add(COMPILE_JOB, RECORD_ROOM, &job, &[]);
        file.add_exact(COMPILE_JOB, &job, &[]);
    }
    (1..=16).for_each(|cap| drop(file.add(COMPILE_RUN_LENGTH, RECORD_ROOM, &[1, 8, 1, 2, cap], &[])));
    for job in TELLING.iter().map(|job| hex(job)).chain(joined::borders()) {
        file.add(COMPILE_JOINED, RECORD_ROOM, &job, &[]);
        file.add_exact(COMPILE_JOINED, &job, &[]);
    }
    add_records(file);
    add_coding(file);
    add_sets(file);
    add_listings(file);
}

fn add_records(file: &mut File) {
    RECORDS.iter().for_each(|record| drop(file.check(&hex(record))));
    file.check(&mfm());
    for job in EXTREME {
        let record = record_of(&job);
        record.iter().for_each(|record| drop(file.add(CHECK, 0, record, &[])));
    }
}

/// E3, E4, E10 and the rows of refusals 11 to 13, each with whole and with damaged records.
fn add_coding(file: &mut File) {
    let listed = record_of(&LISTED).expect("the listed job compiles");
    for record in [hex(E2), listed, mfm(), hex(RECORDS[2]), hex(RECORDS[4])] {
        for blocks in [&[1, 0, 1, 1][..], &[], &[2], &[0, 1, 4, 255], &[255; 3]] {
            (0..=6).for_each(|room| drop(file.add(ENCODE, room, &record, blocks)));
        }
        for words in [&[2, 3, 3, 2][..], &[], &[3], &[7], &[255], &[8], &[2, 4, 9], &[1, 2]] {
            (0..=4).for_each(|room| drop(file.add(DECODE, room, &record, words)));
        }
    }
}

fn add_sets(file: &mut File) {
    for set in ["", "00", "00 00", "01", "01 00", "01 00 00", "01 00 01", "01 00 00 00", "ff", "ff ff ff"] {
        file.add(SET, 0, &hex(set), &[]);
    }
}

fn add_listings(file: &mut File) {
    for job in RUN_LENGTH.iter().map(|job| hex(job)) {
        file.add_exact(LISTING, &job, &[]);
    }
    EXTREME.iter().for_each(|job| drop(file.add_exact(LISTING, job, &[])));
}

/// The record of a run-length job, if it compiles.
pub fn record_of(job: &[u8]) -> Option<Vec<u8>> {
    let answer = compile_run_length(job, RECORD_ROOM);
    (answer.refusal == 0).then_some(answer.output)
}
