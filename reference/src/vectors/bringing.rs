//! Request (h), "Bring your own weights": the inputs that tell, every length, and every choice of faults.

use super::file::{File, COMPILE_JOB, COMPILE_JOINED, COMPILE_RUN_LENGTH, LISTING, RECORD_ROOM};
use super::fixed::TELLING as JOINED_TELLING;
use super::hex;
use super::jobs::{bytes_of, write};
use crate::constraint::Constraint;
use crate::job::Job;

/// The inputs that tell: the kind and the bytes.
pub const TELLING: [(u8, &str); 27] = [
    // Weights behind a joined job are left-over bytes.
    (COMPILE_JOINED, "01 02 01 02 01 00 ff 00 02 01 00 ff 00 01 01"),
    // 1 and 2 are looked at before the length.
    (COMPILE_RUN_LENGTH, "00 01 05 02 01 00"),
    (COMPILE_RUN_LENGTH, "03 02 01 02 01 00"),
    (COMPILE_RUN_LENGTH, "00 01 01 02 01 00"),
    // K bytes, no more, no less.
    (COMPILE_JOB, "01 02 01 02 01 00 ff 00"),
    (COMPILE_JOB, "01 02 01 02 01 00 ff 00 01 01"),
    (COMPILE_JOB, "01 02 01 02 01 00 ff 00 01"),
    // Weight 0 at some states.
    (COMPILE_RUN_LENGTH, "00 01 01 02 01 01 00"),
    // The constraint start above 0.
    (COMPILE_RUN_LENGTH, "00 07 01 08 01 00 01 00 00 00 00 00 00"),
    // No code, with weights and without.
    (COMPILE_RUN_LENGTH, "00 01 02 03 01 00 00"),
    (COMPILE_RUN_LENGTH, "00 01 02 03 01 01 01"),
    (COMPILE_RUN_LENGTH, "00 01 02 03 01"),
    // Weights above cap that meet the inequality; then with the greater cap.
    (COMPILE_RUN_LENGTH, "02 07 01 02 03 02 03 04 04 03 03 01 01"),
    (COMPILE_RUN_LENGTH, "00 01 01 02 01 02 02"),
    (COMPILE_RUN_LENGTH, "00 01 01 02 02 02 02"),
    // A bad next state before bad weights.
    (COMPILE_JOB, "02 03 02 02 01 00 00 07 00 00"),
    // Refusal 4 with weights 16, and compiled with weights 1; refusals 5 and 6.
    (COMPILE_JOB, "01 01 10 09 00 01 00 02 00 03 00 04 00 05 00 06 00 07 00 08 00 00 10 10 10 10 10 10 10 10 10"),
    (COMPILE_JOB, "01 01 10 09 00 01 00 02 00 03 00 04 00 05 00 06 00 07 00 08 00 00 01 01 01 01 01 01 01 01 01"),
    (COMPILE_RUN_LENGTH, "00 0f 01 08 01 01 01 01 01 01 01 01 01 01 01 01 01 01 01 01 01"),
    (COMPILE_JOB, "02 03 02 02 01 00 00 ff 02 01"),
    // The listing takes no weights.
    (COMPILE_RUN_LENGTH, "00 01 01 02 01 01 01"),
    (LISTING, "00 01 01 02 01 01 01"),
    (LISTING, "00 01 05 02 01 00"),
    // The inequality at a state of weight 1 whose words lead to weight 0.
    (COMPILE_RUN_LENGTH, "00 01 01 02 01 00 01"),
    // The paper's weights; our own weights; none.
    (COMPILE_RUN_LENGTH, "02 07 01 02 04 02 03 04 04 03 03 01 01"),
    (COMPILE_RUN_LENGTH, "02 07 01 02 04 02 03 04 04 03 03 02 01"),
    (COMPILE_RUN_LENGTH, "02 07 01 02 04"),
];

/// Both a general job with weights 1 0 0 and a joined job whose second rule allows all.
pub const BOTH: &str = "01 02 01 03 01 00 02 00 ff 00 01 00 00";

/// General jobs with their weights and a byte more, to be cut to every length: K 1 and 2; with weights that fail, with
/// a bad next state, with both.
const GENERAL_CUT: [&str; 5] = [
    "01 01 03 01 00 00 02 01",
    "01 02 01 02 01 00 ff 00 01 01 00",
    "01 02 01 02 01 00 ff 00 02 02 01",
    "01 02 01 02 01 00 07 00 01 01 00",
    "01 02 01 02 02 00 ff 00 00 00 00",
];

/// Run-length jobs with their weights and two bytes more: K 1, 2 and 8; with p 5, and with d above k.
const RUN_LENGTH_CUT: [&str; 5] = [
    "00 00 01 01 01 01 00 00",
    "00 01 01 02 01 01 01 00 00",
    "02 07 01 02 04 02 03 04 04 03 03 01 01 02 02",
    "00 01 05 02 01 01 01 01 01",
    "02 01 01 02 01 01 01 01 01",
];

pub fn add(file: &mut File) {
    for (kind, input) in TELLING {
        if kind != LISTING {
            file.add(kind, RECORD_ROOM, &hex(input), &[]);
        }
        file.add_exact(kind, &hex(input), &[]);
    }
    every_length(file);
    (0..32).for_each(|faults| general_faults(file, faults));
    (0..32).for_each(|faults| run_length_faults(file, faults));
    listings(file);
    behind_joined(file);
}

/// A job with weights behind it.
pub fn with_weights(job: &[u8], weights: &[u32]) -> Vec<u8> {
    job.iter().copied().chain(weights.iter().map(|weight| *weight as u8)).collect()
}

/// The job without weights of these bytes, which are in range.
pub fn read(kind: u8, job: &[u8]) -> Job {
    let read = if kind == COMPILE_JOB { Job::general(job) } else { Job::run_length(job) };
    read.expect("the job is in range")
}

/// (0,15) from 1 to 2, cap 1, as bytes of either kind.
fn longest() -> [(u8, Vec<u8>); 2] {
    let mut general = vec![1, 2, 1];
    write(&mut general, &bytes_of(&Constraint::run_length(0, 15)));
    [(COMPILE_JOB, general), (COMPILE_RUN_LENGTH, vec![0, 15, 1, 2, 1])]
}

/// Jobs cut to every length from four bytes on, run-length jobs from none on. Some of K 16.
fn every_length(file: &mut File) {
    let mut cut = |kind: u8, first: usize, job: &[u8]| {
        (first..=job.len()).for_each(|length| drop(file.add(kind, RECORD_ROOM, &job[..length], &[])));
    };
    GENERAL_CUT.iter().for_each(|job| cut(COMPILE_JOB, 4, &hex(job)));
    RUN_LENGTH_CUT.iter().for_each(|job| cut(COMPILE_RUN_LENGTH, 0, &hex(job)));
    let [(general, job), (run_length, five)] = longest();
    cut(general, 4, &[&job[..], &[1; 17]].concat());
    cut(run_length, 0, &[&five[..], &[1; 18]].concat());
    for (k, weights) in [(16, 0), (16, 1), (16, 17), (255, 0), (255, 1), (255, 256)] {
        cut(run_length, 5 + weights, &[&[0, k, 1, 2, 1][..], &vec![1; weights]].concat());
    }
}

/// A parameter out of range in front of a job, by turns p, q and cap.
fn spoil_parameter(parameters: &mut [u8], turn: usize) {
    parameters[turn % 3] = [5, 9, 17][turn % 3];
}

/// A general job with each choice of faults at once: a parameter, K, the length, a next state, the weights.
fn general_faults(file: &mut File, faults: usize) {
    let mut job = hex("01 02 01 02 01 00 ff 00 01 01");
    let has = |fault: usize| faults >> fault & 1 == 1;
    if has(0) {
        spoil_parameter(&mut job, faults / 2);
    }
    if has(1) {
        job[3] = if has(2) { 0 } else { 17 };
    }
    if has(3) {
        job[if has(4) { 6 } else { 5 }] = 2;
    }
    if has(4) {
        job[8..].copy_from_slice(if has(3) { &[0, 0] } else { &[1, 2] });
    }
    if has(2) {
        job.truncate(9);
    }
    let room = if faults % 3 == 0 { 0 } else { RECORD_ROOM };
    file.add(COMPILE_JOB, room, &job, &[]);
}

/// The same of a run-length job: a parameter, d and k, too many bytes, too few, the weights.
fn run_length_faults(file: &mut File, faults: usize) {
    let mut job = hex("01 03 01 02 01 01 01 01 00");
    let has = |fault: usize| faults >> fault & 1 == 1;
    if has(0) {
        spoil_parameter(&mut job[2..], faults / 2);
    }
    if has(1) {
        job[0] = 4;
    }
    if has(2) {
        job[5..].copy_from_slice(if has(0) { &[0, 0, 0, 0] } else { &[1, 1, 0, 1] });
    }
    match (has(3), has(4)) {
        (true, true) => job.extend([1, 1, 1, 1]),
        (true, false) => job.push(0),
        (false, true) => job.truncate(8),
        _ => {}
    }
    let room = if faults % 3 == 0 { 0 } else { RECORD_ROOM };
    file.add(COMPILE_RUN_LENGTH, room, &job, &[]);
}

/// Run-length jobs with weights, listed: the length comes before everything else.
fn listings(file: &mut File) {
    for job in TELLING.iter().filter(|(kind, _)| *kind == COMPILE_RUN_LENGTH).map(|(_, job)| hex(job)) {
        if job.len() != 5 {
            file.add(LISTING, 10, &job, &[]);
        }
    }
    let job = hex(RUN_LENGTH_CUT[1]);
    (0..=job.len()).for_each(|length| drop(file.add(LISTING, 10, &job[..length], &[])));
    for job in RUN_LENGTH_CUT[3..].iter().map(|job| hex(job)) {
        (6..=8).for_each(|length| drop(file.add(LISTING, 10, &job[..length], &[])));
    }
    file.add(LISTING, 9, &hex(TELLING[7].1), &[]);
}

/// Joined jobs with weights behind them, as many as either constraint has states or the pairs: 8, and before a bad next
/// state of the second constraint. Then the bytes that are a job of both kinds, and those with weights behind.
fn behind_joined(file: &mut File) {
    for (job, states) in [(15, [8, 4]), (13, [4, 16]), (14, [3, 2]), (10, [1, 2])] {
        for count in states {
            let job = [&hex(JOINED_TELLING[job])[..], &vec![1; count]].concat();
            file.add(COMPILE_JOINED, RECORD_ROOM, &job, &[]);
        }
    }
    [COMPILE_JOB, COMPILE_JOINED].iter().for_each(|kind| drop(file.add_exact(*kind, &hex(BOTH), &[])));
    for weights in [&[1][..], &[1, 1, 1]] {
        file.add(COMPILE_JOINED, RECORD_ROOM, &[&hex(BOTH)[..], weights].concat(), &[]);
    }
}
