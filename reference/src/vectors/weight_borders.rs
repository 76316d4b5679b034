//! Request (h), "Bring your own weights": weights beside those that pass, and the limits of the component.

use super::bringing::{read, with_weights};
use super::file::{File, COMPILE_JOB, COMPILE_RUN_LENGTH, RECORD_ROOM};
use super::fixed::{heavy, loops};
use super::hex;
use super::jobs::{bytes_of, write};
use crate::constraint::Constraint;
use crate::weights::greatest;

/// Jobs whose greatest weights are changed state by state.
const CHANGED: [(u8, &str); 8] = [
    (COMPILE_RUN_LENGTH, "02 07 01 02 04"),         // 2 3 4 4 3 3 2 1
    (COMPILE_RUN_LENGTH, "00 01 02 03 03"),         // 3 2
    (COMPILE_RUN_LENGTH, "01 03 01 02 01"),         // 1 1 1 0
    (COMPILE_JOB, "02 03 02 02 01 00 00 ff"),       // 2 1, refusal 6
    (COMPILE_JOB, "01 02 01 02 01 01 00 00"),       // two components, 1 1
    (COMPILE_JOB, "01 01 01 02 00 ff 01 01"),       // constraint start 1
    (COMPILE_JOB, "01 01 10 03 01 02 01 01 02 02"), // a state that two components follow
    (COMPILE_JOB, "01 02 02 03 01 01 01 02 ff 01"), // a state that leads into the component
];

pub fn add(file: &mut File) {
    CHANGED.iter().for_each(|(kind, job)| changed(file, *kind, &hex(job)));
    about_cap(file);
    every_size(file);
    outside(file);
    limits(file);
}

/// The greatest weights; then at each state one less, one more, 0, 255, and this state's alone; and every state alike.
fn changed(file: &mut File, kind: u8, bytes: &[u8]) {
    let job = read(kind, bytes);
    let greatest = greatest(&job);
    let states = greatest.len();
    let mut add = |weights: &[u32]| drop(file.add(kind, RECORD_ROOM, &with_weights(bytes, weights), &[]));
    add(&greatest);
    for s in 0..states {
        let with = |weight: u32| [&greatest[..s], &[weight], &greatest[s + 1..]].concat();
        [greatest[s].saturating_sub(1), greatest[s] + 1, 0, 255].iter().for_each(|weight| add(&with(*weight)));
        let mut alone = vec![0; states];
        alone[s] = greatest[s].max(1);
        add(&alone);
    }
    [0, 1, job.cap, job.cap + 1, 255].iter().for_each(|weight| add(&vec![*weight; states]));
}

/// Weights up to cap, at it and above it where every weight meets the inequality.
fn about_cap(file: &mut File) {
    for cap in [1, 5, 16] {
        for weight in [0, 1, cap - 1, cap, cap + 1, 2 * cap, 128, 255] {
            file.add(COMPILE_JOB, RECORD_ROOM, &[1, 1, cap, 1, 0, 0, weight], &[]);
        }
        for weights in [[cap, cap], [cap, cap + 1], [cap + 1, cap], [cap, 0]] {
            file.add(COMPILE_RUN_LENGTH, RECORD_ROOM, &[&[0, 1, 1, 2, cap][..], &weights].concat(), &[]);
        }
    }
}

/// Every K from 2 on with weights that the last state alone fails.
fn every_size(file: &mut File) {
    for states in 2..=16 {
        let weights: Vec<u32> = (1..=states).map(|s| 1 + u32::from(s == states)).collect();
        file.add(COMPILE_JOB, RECORD_ROOM, &with_weights(&heavy(states), &weights), &[]);
    }
}

/// States in front of a component of one state: weights that fail outside the component only, and some that pass.
fn outside(file: &mut File) {
    let job = hex("01 01 04 04 01 01 02 02 03 03 03 03");
    let fail = [[2, 1, 1, 1], [1, 2, 1, 1], [1, 1, 2, 1], [2, 2, 2, 1], [4, 3, 2, 1], [1, 0, 0, 1]];
    let pass = [[1, 1, 1, 1], [1, 2, 3, 4], [0, 0, 0, 1]];
    for weights in fail.iter().chain(&pass) {
        file.add(COMPILE_JOB, RECORD_ROOM, &with_weights(&job, weights), &[]);
    }
}

/// Nine states from each of which two bits reach the heavy ones: weights 16, the last but one as given, the last 1.
fn nine_states(last_but_one: u8) -> Vec<u8> {
    let mut job = vec![1, 2, 16];
    let next: Vec<[u8; 2]> = (0..9).map(|s| [(s + 1) % 9, 0]).collect();
    write(&mut job, &next);
    [&job[..], &[16; 7], &[last_but_one, 1]].concat()
}

/// (0,15) from 1 to 8, cap 1, as a general job.
fn wide() -> Vec<u8> {
    let mut job = vec![1, 8, 1];
    write(&mut job, &bytes_of(&Constraint::run_length(0, 15)));
    job
}

/// Sums of 128 and above; weights outside the component; edges up to 2,048 and above, 4 before 5; no window.
fn limits(file: &mut File) {
    let alike = |job: Vec<u8>, weight: u8| [&job[..], &vec![weight; usize::from(job[3])]].concat();
    let only = |s: usize| (0..16).map(|t| u32::from(t == s)).collect::<Vec<_>>();
    let mut general = vec![alike(heavy(8), 16), alike(heavy(9), 14), alike(heavy(9), 15), alike(loops(16), 16)];
    general.extend([8, 9].map(|weight| alike(heavy(16), weight)));
    general.extend([15, 16].map(nine_states));
    general.push(alike(wide(), 1));
    general.extend([1, 15].map(|s| with_weights(&loops(16), &only(s))));
    general.iter().for_each(|job| drop(file.add_exact(COMPILE_JOB, job, &[])));
    let first = |count: usize| (0..16).map(|s| u32::from(s < count)).collect::<Vec<_>>();
    let mut run_length: Vec<Vec<u8>> = [7, 8, 9].map(|count| with_weights(&[0, 15, 1, 8, 1], &first(count))).into();
    run_length.extend([8, 9, 16].map(|weight| with_weights(&[0, 15, 1, 8, 16], &[weight; 16])));
    for five in [[1, 5, 4, 7, 16], [2, 15, 4, 8, 8], [1, 8, 1, 2, 13], [7, 9, 1, 8, 13]] {
        run_length.push(with_weights(&five, &greatest(&read(COMPILE_RUN_LENGTH, &five))));
    }
    run_length.iter().for_each(|job| drop(file.add_exact(COMPILE_RUN_LENGTH, job, &[])));
}
