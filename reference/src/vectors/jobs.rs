//! Jobs: run-length jobs chosen evenly and among those that compile, and general jobs of several families.

use super::file::{File, COMPILE_JOB, COMPILE_RUN_LENGTH, RECORD_ROOM};
use super::random::Random;
use crate::calls::compile_run_length;
use crate::constraint::{Constraint, NONE};

pub fn add(file: &mut File, random: &mut Random, scale: usize) {
    for _ in 0..300 * scale {
        let job = any_run_length(random);
        file.add(COMPILE_RUN_LENGTH, RECORD_ROOM, &job, &[]);
    }
    for _ in 0..260 * scale {
        let (job, _) = compiling_run_length(random);
        file.add_exact(COMPILE_RUN_LENGTH, &job, &[]);
    }
    for _ in 0..1000 * scale {
        let job = general(random);
        file.add(COMPILE_JOB, RECORD_ROOM, &job, &[]);
    }
    for _ in 0..200 * scale {
        let job = general(random);
        file.add_exact(COMPILE_JOB, &job, &[]);
    }
    for _ in 0..200 * scale {
        damaged(file, random);
    }
}

/// All 69,632 run-length jobs in order of their bytes: 136 pairs d, k, and 512 choices of p, q and cap for each.
pub fn every_run_length() -> impl Iterator<Item = [u8; 5]> {
    let pairs = (0..=15).flat_map(|d| (d..=15).map(move |k| (d, k)));
    let rates = || (1..=4).flat_map(|p| (1..=8).flat_map(move |q| (1..=16).map(move |cap| (p, q, cap))));
    pairs.flat_map(move |(d, k)| rates().map(move |(p, q, cap)| [d, k, p, q, cap]))
}

/// Any run-length job, all equally likely but for d and k.
pub fn any_run_length(random: &mut Random) -> [u8; 5] {
    let k = random.within(0, 15);
    let d = random.within(0, k);
    [d, k, random.within(1, 4), random.within(1, 8), random.within(1, 16)].map(|byte| byte as u8)
}

/// A run-length job that compiles, and its record.
pub fn compiling_run_length(random: &mut Random) -> ([u8; 5], Vec<u8>) {
    loop {
        let job = any_run_length(random);
        let answer = compile_run_length(&job, RECORD_ROOM);
        if answer.refusal == 0 {
            return (job, answer.output);
        }
    }
}

/// A general job.
pub fn general(random: &mut Random) -> Vec<u8> {
    let next = next_states(random);
    let mut job = parameters(random).to_vec();
    write(&mut job, &next);
    job
}

/// Next states: random, in classes, or a run-length constraint renumbered or altered.
pub fn next_states(random: &mut Random) -> Vec<[u8; 2]> {
    match random.below(5) {
        0 => scattered(random, 4),
        1 => scattered(random, 2),
        2 => renumbered(random),
        3 => periodic(random),
        _ => altered(random),
    }
}

/// p, q and cap, mostly such that a code may exist.
pub fn parameters(random: &mut Random) -> [u8; 3] {
    let p = 1 + random.below(4) * random.below(2);
    let q = if random.once_in(8) { 8 } else { random.within(p, if p == 1 { 4 } else { 7 }) };
    let most = *random.pick(&[4, 7, 16]);
    [p, q, random.within(1, most)].map(|byte| byte as u8)
}

/// Adds K and the next-state bytes to a job.
pub fn write(job: &mut Vec<u8>, next: &[[u8; 2]]) {
    job.push(next.len() as u8);
    next.iter().for_each(|pair| job.extend(pair));
}

/// Next states at random, none once in so many times.
fn scattered(random: &mut Random, times: usize) -> Vec<[u8; 2]> {
    let states = random.within(1, 16);
    let mut one = || if random.once_in(times) { NONE } else { random.below(states) as u8 };
    (0..states).map(|_| [one(), one()]).collect()
}

/// States in classes that follow one another bit by bit: words of a fitting length stay in a class, so that single
/// bits reach more states than words do.
fn periodic(random: &mut Random) -> Vec<[u8; 2]> {
    let period = random.within(2, 4);
    let each = random.within(1, 16 / period);
    let times = random.within(3, 12);
    let mut one = |s: usize| {
        let class = (s + 1) % period;
        if random.once_in(times) {
            NONE
        } else {
            (random.below(each) * period + class) as u8
        }
    };
    (0..period * each).map(|s| [one(s), one(s)]).collect()
}

/// The next-state bytes of a constraint.
pub fn bytes_of(constraint: &Constraint) -> Vec<[u8; 2]> {
    constraint.next.iter().map(|pair| pair.map(|next| next.unwrap_or(NONE))).collect()
}

/// A run-length constraint with its states renumbered.
fn renumbered(random: &mut Random) -> Vec<[u8; 2]> {
    let k = random.within(0, 12);
    let old = bytes_of(&Constraint::run_length(random.within(0, k.min(3)) as u8, k as u8));
    let mut number: Vec<u8> = (0..old.len() as u8).collect();
    random.shuffle(&mut number);
    let mut next = vec![[NONE; 2]; old.len()];
    for (s, pair) in old.iter().enumerate() {
        let moved = |t: u8| if t == NONE { NONE } else { number[usize::from(t)] };
        next[usize::from(number[s])] = pair.map(moved);
    }
    next
}

/// A run-length constraint with a few next states changed, and states before it that lead in.
fn altered(random: &mut Random) -> Vec<[u8; 2]> {
    let k = random.within(0, 10);
    let mut next = bytes_of(&Constraint::run_length(random.within(0, k.min(2)) as u8, k as u8));
    for _ in 0..random.below(3) {
        next.push([random.below(k + 1) as u8, NONE]);
    }
    let states = next.len();
    for _ in 0..random.below(4) {
        next[random.below(states)][random.below(2)] = random.below(states) as u8;
    }
    next
}

/// A job with one byte changed, cut short, or lengthened.
fn damaged(file: &mut File, random: &mut Random) {
    let run_length = random.once_in(2);
    let mut job = if run_length { any_run_length(random).to_vec() } else { general(random) };
    let place = random.below(job.len());
    match random.below(4) {
        0 => job.truncate(place),
        1 => job.push(random.below(256) as u8),
        2 => job[place] = random.below(20) as u8,
        _ => job[place.min(4)] = *random.pick(&[0, 5, 9, 15, 16, 17, 254, 255]),
    }
    let kind = if run_length { COMPILE_RUN_LENGTH } else { COMPILE_JOB };
    file.add(kind, RECORD_ROOM, &job, &[]);
}
