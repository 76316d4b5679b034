//! Jobs with weights at random: weights that pass, weights beside them, any weights, and jobs with several faults at
//! once.

use super::bringing::{read, with_weights};
use super::coding::any_room;
use super::file::{call, File, COMPILE_JOB, COMPILE_JOINED, COMPILE_RUN_LENGTH, LISTING, RECORD_ROOM};
use super::jobs::{any_run_length, general, parameters};
use super::joined;
use super::random::Random;
use crate::job::Job;
use crate::weights::{greatest, greatest_below, passes};

/// Weights for a job whose greatest vector is not all 0, made of that vector.
type Way = fn(&mut Random, &Job, Vec<u32>) -> Vec<u32>;

/// Every way: the greatest vector; lowered at one state and still passing, if it can be; any vector that passes; one
/// with 0 at many states; then, whatever comes of it, one more at one state, one less, and any up to cap.
const WAYS: [Way; 7] = [
    |_, _, greatest| greatest,
    lowered,
    |random, job, _| passing(random, job),
    |random, job, greatest| sparse(random, job, &greatest),
    |random, _, mut weights| {
        let s = random.below(weights.len());
        weights[s] += 1;
        weights
    },
    |random, _, mut weights| {
        let s = random.below(weights.len());
        weights[s] = weights[s].saturating_sub(1);
        weights
    },
    |random, job, greatest| greatest.iter().map(|_| random.below(job.cap as usize + 1) as u32).collect(),
];

/// The first ways give weights that pass.
const PASSING: usize = 4;

/// The longest record that most of the cases write.
const SHORT: usize = 140;

pub fn add(file: &mut File, random: &mut Random, scale: usize) {
    for round in 0..24 * scale {
        let ways = if round % 4 == 0 { &WAYS[..] } else { &WAYS[..PASSING] };
        ways.iter().for_each(|way| any(file, random, *way, round % 8 == 0));
    }
    (0..8 * scale).for_each(|_| long(file, random));
    (0..8 * scale).for_each(|_| no_code(file, random));
    (0..28 * scale).for_each(|_| faults(file, random));
    (0..6 * scale).for_each(|_| behind_joined(file, random));
}

/// A job with weights made in this way and a short record, with room to spare or exactly.
fn any(file: &mut File, random: &mut Random, way: Way, exact: bool) {
    let (kind, bytes) = short(random, way);
    if exact {
        file.add_exact(kind, &bytes, &[]);
    } else {
        file.add(kind, RECORD_ROOM, &bytes, &[]);
    }
}

/// A job of either kind without weights: its kind and its bytes.
pub fn any_job(random: &mut Random) -> (u8, Vec<u8>) {
    if random.once_in(2) {
        (COMPILE_JOB, general(random))
    } else {
        (COMPILE_RUN_LENGTH, any_run_length(random).to_vec())
    }
}

/// A job of either kind for which some weights pass.
pub fn with_code(random: &mut Random) -> (u8, Vec<u8>) {
    loop {
        let (kind, bytes) = any_job(random);
        if greatest(&read(kind, &bytes)).iter().any(|weight| *weight > 0) {
            return (kind, bytes);
        }
    }
}

/// Weights that pass, for a job that has some: the greatest ones nowhere above weights drawn up to cap.
pub fn passing(random: &mut Random, job: &Job) -> Vec<u32> {
    let most = greatest(job);
    for _ in 0..20 {
        let drawn = most.iter().map(|weight| random.within(*weight as usize / 3, *weight as usize) as u32).collect();
        let weights = greatest_below(job, drawn);
        if passes(job, &weights) {
            return weights;
        }
    }
    most
}

/// Weights that pass with 0 at as many states as are drawn, if some can be.
fn sparse(random: &mut Random, job: &Job, greatest: &[u32]) -> Vec<u32> {
    let mut weights = greatest.to_vec();
    for _ in 0..random.within(1, 2 * greatest.len()) {
        let mut fewer = weights.clone();
        fewer[random.below(greatest.len())] = 0;
        let fewer = greatest_below(job, fewer);
        if passes(job, &fewer) {
            weights = fewer;
        }
    }
    weights
}

/// The greatest weights with one less at one of the states where they still pass, if there is one.
fn lowered(random: &mut Random, job: &Job, greatest: Vec<u32>) -> Vec<u32> {
    let one_less = |s: usize| {
        let mut weights = greatest.clone();
        weights[s] = weights[s].saturating_sub(1);
        weights
    };
    let all: Vec<Vec<u32>> = (0..greatest.len()).map(one_less).collect();
    let some: Vec<Vec<u32>> = all.into_iter().filter(|weights| *weights != greatest && passes(job, weights)).collect();
    if some.is_empty() {
        return greatest;
    }
    random.pick(&some).clone()
}

/// A job with weights made in this way.
fn drawn(random: &mut Random, way: Way) -> (u8, Vec<u8>) {
    let (kind, bytes) = with_code(random);
    let job = read(kind, &bytes);
    let weights = way(random, &job, greatest(&job));
    (kind, with_weights(&bytes, &weights))
}

/// The same, drawn anew while its record is long.
fn short(random: &mut Random, way: Way) -> (u8, Vec<u8>) {
    loop {
        let (kind, bytes) = drawn(random, way);
        if call(kind, RECORD_ROOM, &bytes, &[]).output.len() <= SHORT {
            return (kind, bytes);
        }
    }
}

/// A job with weights that pass and a record of 200 to 600 bytes.
fn long(file: &mut File, random: &mut Random) {
    loop {
        let (kind, bytes) = drawn(random, |random, job, _| passing(random, job));
        if (200..=600).contains(&call(kind, RECORD_ROOM, &bytes, &[]).output.len()) {
            file.add(kind, RECORD_ROOM, &bytes, &[]);
            return;
        }
    }
}

/// A job without a code: its weights fail, whatever they are.
fn no_code(file: &mut File, random: &mut Random) {
    loop {
        let (kind, bytes) = any_job(random);
        let job = read(kind, &bytes);
        if greatest(&job).iter().all(|weight| *weight == 0) {
            let most = *random.pick(&[1, 2, job.cap as usize + 1]);
            let weights: Vec<u32> = (0..job.constraint.states()).map(|_| random.below(most) as u32).collect();
            file.add(kind, RECORD_ROOM, &with_weights(&bytes, &weights), &[]);
            return;
        }
    }
}

/// A job with weights and, each once in a few times, a parameter, K or d and k, a next state, the weights or the length
/// wrong, with any room; a run-length job once in a while listed.
fn faults(file: &mut File, random: &mut Random) {
    let way = *random.pick(&WAYS);
    let (kind, mut bytes) = short(random, way);
    let length = call(kind, RECORD_ROOM, &bytes, &[]).output.len();
    let general = kind == COMPILE_JOB;
    let states = usize::from(if general { bytes[3] } else { bytes[1] + 1 });
    if random.once_in(6) {
        let first = if general { 0 } else { 2 };
        bytes[first + random.below(3)] = *random.pick(&[0, 17, 255]);
    }
    if random.once_in(6) {
        let place = if general { 3 } else { random.below(2) };
        bytes[place] = *random.pick(&[0, 16, 17, 255]);
    }
    if general && random.once_in(4) {
        bytes[random.within(4, 3 + 2 * states)] = random.within(states, 254) as u8;
    }
    if random.once_in(3) {
        let first = bytes.len() - states;
        bytes[first + random.below(states)] = random.below(256) as u8;
    }
    match random.below(5) {
        0 => bytes.truncate(random.below(bytes.len())),
        1 => bytes.push(random.below(4) as u8),
        _ => {}
    }
    if !general && random.once_in(8) {
        file.add(LISTING, RECORD_ROOM, &bytes, &[]);
    } else {
        file.add(kind, any_room(random, length), &bytes, &[]);
    }
}

/// A joined job with a weight for each state of one of its constraints behind it.
fn behind_joined(file: &mut File, random: &mut Random) {
    let (first, second) = joined::any(random);
    let job = joined::job(parameters(random), &first, &second);
    let states = if random.once_in(2) { first.len() } else { second.len() };
    file.add(COMPILE_JOINED, RECORD_ROOM, &[&job[..], &vec![1; states]].concat(), &[]);
}
