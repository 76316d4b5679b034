//! Request (c): the inputs that tell, and records of tables as the document first printed them.

use super::file::{File, COMPILE_JOB, COMPILE_RUN_LENGTH, DECODE, ENCODE, LISTING, RECORD_ROOM};
use super::fixed::{record_of, E2, LISTED};
use super::hex;

/// The record of the listed code as the document first printed it, with rising data in each state: m 1, a 1. The tail
/// datum is 0.
pub const FIRST_LISTED: &str = "46 08 44 40 23 00 41 80 60 a8 0a 0a 80 a0 b0 1e 01 01 c0 78 0e 08";

/// The job of E1.
pub const E1: [u8; 5] = [0, 1, 1, 2, 1];

/// Run-length jobs that tell.
pub const RUN_LENGTH: [[u8; 5]; 14] = [
    E1,
    [1, 3, 1, 2, 1],  // E7
    LISTED,           // two passes a state; the data newly given
    [0, 2, 3, 4, 3],  // only the lowest earlier state is asked
    [1, 4, 2, 4, 2],  // the same
    [0, 1, 2, 3, 7],  // the same
    [4, 14, 1, 3, 3], // after renumbering
    [2, 8, 1, 2, 7],  // a larger window than before
    [1, 7, 2, 3, 3],  // the window as before
    [2, 7, 1, 2, 4],  // the same
    [0, 2, 3, 4, 1],  // p 3
    [1, 2, 3, 8, 2],  // p 3
    [0, 2, 4, 5, 5],  // p 4
    [0, 1, 4, 6, 2],  // p 4
];

/// General jobs that tell: refusal 6 comes, and refusal 6 goes.
pub const GENERAL: [&str; 2] = ["02 03 01 03 ff 01 01 02 00 00", "01 02 01 03 ff 01 01 02 00 02"];

/// A general job with a tie of windows, which the job of the readings no longer has: m 1, a 0 although m 0, a 1 works.
pub const TIE: &str = "01 02 01 03 ff 01 02 00 00 00";

pub fn add(file: &mut File) {
    for job in RUN_LENGTH {
        file.add_exact(COMPILE_RUN_LENGTH, &job, &[]);
        file.add_exact(LISTING, &job, &[]);
    }
    for job in GENERAL.into_iter().chain([TIE]) {
        file.add(COMPILE_JOB, RECORD_ROOM, &hex(job), &[]);
        file.add_exact(COMPILE_JOB, &hex(job), &[]);
    }
    let compiled = |job: &[u8]| record_of(job).expect("the job compiles");
    for record in [hex(E2), compiled(&E1), hex(FIRST_LISTED), compiled(&LISTED)] {
        coding(file, &record);
    }
}

/// A record checked; the blocks of E3, a longer list and no blocks encoded; the words of E4 and of E3, the longer
/// recording whole and with one word changed, one word and no words decoded.
fn coding(file: &mut File, record: &[u8]) {
    file.check(record);
    file.add_exact(ENCODE, record, &[1, 0, 1, 1]);
    file.add_exact(ENCODE, record, &[]);
    let recording = file.add_exact(ENCODE, record, &[0, 1, 0, 0, 1, 1, 1, 0, 1]).output;
    let mut damaged = recording.clone();
    damaged[4] ^= 1;
    for words in [&[2, 3, 3, 2][..], &[2, 3, 2, 2], &recording, &damaged, &[3], &[]] {
        file.add_exact(DECODE, record, words);
    }
}
