//! Joined jobs (request (a)): those beside a border, and random ones of several families.

use super::file::{File, COMPILE_JOINED, RECORD_ROOM};
use super::fixed::{heavy, TELLING};
use super::hex;
use super::jobs::{bytes_of, next_states, parameters, write};
use super::random::Random;
use crate::answer::NO_WEIGHTS;
use crate::calls::compile_joined;
use crate::constraint::{Constraint, NONE};
use crate::joined::pairs;

/// The next-state bytes of a constraint.
type States = Vec<[u8; 2]>;

/// A way to choose two constraints.
type Family = fn(&mut Random) -> (States, States);

/// The rule of one state that allows all.
const ALL: [[u8; 2]; 1] = [[0, 0]];

pub fn add(file: &mut File, random: &mut Random, scale: usize) {
    let families: [(usize, Family); 5] =
        [(36, two_run_lengths), (63, with_small), (54, two_general), (27, with_all), (54, near_the_border)];
    for (count, family) in families {
        for _ in 0..count * scale {
            let job = rated(random, family);
            file.add(COMPILE_JOINED, RECORD_ROOM, &job, &[]);
        }
    }
    for _ in 0..27 * scale {
        let job = rated(random, any);
        file.add_exact(COMPILE_JOINED, &job, &[]);
    }
    every_length(file);
    for _ in 0..54 * scale {
        damaged(file, random);
    }
    for _ in 0..81 * scale {
        several_faults(file, random);
    }
}

/// The bytes of a joined job: p, q, cap, "then each constraint as K and its next-state bytes".
pub fn job(rates: [u8; 3], first: &[[u8; 2]], second: &[[u8; 2]]) -> Vec<u8> {
    let mut job = rates.to_vec();
    write(&mut job, first);
    write(&mut job, second);
    job
}

/// Jobs with refusals 3, 4, 5, 4 before 5, and 6; two that compile; and with 256 pairs a bad next state and a left-over
/// byte, both before 14, then 14 itself.
pub fn borders() -> Vec<Vec<u8>> {
    let longest = bytes_of(&Constraint::run_length(0, 15));
    let first: States = (0..16).map(|s| [(s + 1) % 16, s]).collect();
    let second: States = (0..16).map(|s| [s, (s + 1) % 16]).collect();
    let most = job([1, 1, 1], &first, &second);
    let mut bad = most.clone();
    bad[most.len() - 1] = 16;
    vec![
        job([1, 1, 1], &[[NONE; 2]], &[[NONE; 2]]),
        [&heavy(9)[..], &[1, 0, 0]].concat(),
        job([1, 8, 1], &longest, &longest),
        job([1, 8, 16], &longest, &longest),
        job([2, 3, 2], &ALL, &[[1, 0], [0, NONE]]),
        job([1, 2, 1], &ALL, &ALL),
        job([1, 2, 1], &longest, &longest),
        bad,
        [&most[..], &[0]].concat(),
        most,
    ]
}

/// A joined job of a family, with p, q and cap; one whose weights are all 0 is drawn anew, but at most twice.
fn rated(random: &mut Random, family: Family) -> Vec<u8> {
    let mut drawn = Vec::new();
    for _ in 0..3 {
        let (first, second) = family(random);
        drawn = job(parameters(random), &first, &second);
        if compile_joined(&drawn, RECORD_ROOM).refusal != NO_WEIGHTS {
            break;
        }
    }
    drawn
}

/// Two constraints of any family, in either order.
pub fn any(random: &mut Random) -> (States, States) {
    let (first, second) = match random.below(6) {
        0 => two_run_lengths(random),
        1 | 2 => with_small(random),
        3 => with_all(random),
        _ => two_general(random),
    };
    if random.once_in(2) {
        (first, second)
    } else {
        (second, first)
    }
}

/// Two run-length constraints written out.
fn two_run_lengths(random: &mut Random) -> (States, States) {
    (run_length(random, 15), run_length(random, 15))
}

/// A run-length constraint and a small general one: a clock's rule, or next states at random.
fn with_small(random: &mut Random) -> (States, States) {
    let rule = if random.once_in(2) { clock(random) } else { small(random, 3) };
    let most = if random.once_in(4) { 15 } else { 7 };
    (run_length(random, most), rule)
}

/// Two general constraints: mostly small ones, so that their pairs are not too many.
fn two_general(random: &mut Random) -> (States, States) {
    let first = if random.once_in(2) { next_states(random) } else { small(random, 6) };
    (first, small(random, 4))
}

/// A constraint and a rule that allows all, mostly that of one state.
fn with_all(random: &mut Random) -> (States, States) {
    let states = *random.pick(&[1, 1, 2, 3]);
    let mut one = || random.below(states) as u8;
    let rule = (0..states).map(|_| [one(), one()]).collect();
    (next_states(random), rule)
}

/// Two constraints with 15 to 18 pairs, each number equally likely.
fn near_the_border(random: &mut Random) -> (States, States) {
    let wanted = random.within(15, 18);
    loop {
        let (first, second) = any(random);
        if pairs(&constraint(&first), &constraint(&second)).len() == wanted {
            return (first, second);
        }
    }
}

/// The constraint of next-state bytes that are in range.
pub fn constraint(states: &[[u8; 2]]) -> Constraint {
    Constraint::from_bytes(states.as_flattened()).expect("the next states are in range")
}

/// A run-length constraint with k up to so many and d at most 3.
fn run_length(random: &mut Random, most: usize) -> States {
    let k = random.within(0, most);
    bytes_of(&Constraint::run_length(random.within(0, k.min(3)) as u8, k as u8))
}

/// A clock's rule: states that follow one another whatever the bits, some of which are not allowed.
fn clock(random: &mut Random) -> States {
    let period = random.within(1, 5);
    let mut states: States = (1..=period).map(|s| [(s % period) as u8; 2]).collect();
    for _ in 0..random.below(3) {
        states[random.below(period)][random.below(2)] = NONE;
    }
    states
}

/// Up to so many states with next states at random, none once in six times.
fn small(random: &mut Random, most: usize) -> States {
    let states = random.within(1, most);
    let mut one = || if random.once_in(6) { NONE } else { random.below(states) as u8 };
    (0..states).map(|_| [one(), one()]).collect()
}

/// Jobs cut to every length, and lengthened: a good one, and two with a bad next state in one constraint each.
fn every_length(file: &mut File) {
    for bad in [None, Some((4, 8)), Some((22, 4))] {
        let mut job = hex(TELLING[15]);
        bad.into_iter().for_each(|(place, next): (usize, u8)| job[place] = next);
        job.extend([0, 255, 1]);
        (0..=job.len()).for_each(|length| drop(file.add(COMPILE_JOINED, RECORD_ROOM, &job[..length], &[])));
    }
}

/// A job with one byte changed, cut short, or lengthened.
fn damaged(file: &mut File, random: &mut Random) {
    let mut job = rated(random, any);
    let place = random.below(job.len());
    match random.below(6) {
        0 => job.truncate(place),
        1 => job.extend(random.bytes(2, 20)),
        2 => job[random.below(3)] = *random.pick(&[0, 5, 9, 17, 255]),
        3 => job[3] = random.below(18) as u8,
        _ => job[place] = random.below(20) as u8,
    }
    file.add(COMPILE_JOINED, RECORD_ROOM, &job, &[]);
}

/// A job with bad bytes in the first constraint, the second or both, mostly with the length or a parameter wrong too,
/// and often with many pairs: the first refusal in the order wins.
fn several_faults(file: &mut File, random: &mut Random) {
    let family = *random.pick(&[any as Family, near_the_border]);
    let (first, second) = family(random);
    let mut bytes = job(parameters(random), &first, &second);
    let border = 4 + 2 * first.len();
    let faults = random.below(4);
    if faults & 1 == 1 {
        spoil(random, &mut bytes[3..border]);
    }
    if faults & 2 == 2 {
        spoil(random, &mut bytes[border..]);
    }
    match random.below(5) {
        0 => bytes.truncate(random.within(border, bytes.len() - 1)),
        1 => bytes.truncate(random.below(border)),
        2 | 3 => bytes.push(random.below(20) as u8),
        _ => {}
    }
    if random.once_in(5) && bytes.len() > 3 {
        bytes[random.below(3)] = *random.pick(&[0, 17]);
    }
    file.add(COMPILE_JOINED, RECORD_ROOM, &bytes, &[]);
}

/// Puts a byte of a constraint out of range: mostly a next state, else K.
fn spoil(random: &mut Random, constraint: &mut [u8]) {
    if random.once_in(4) {
        constraint[0] = *random.pick(&[0, 17, 255]);
        return;
    }
    let place = random.within(1, constraint.len() - 1);
    let states = usize::from(constraint[0]);
    let most = *random.pick(&[states, 16, 254]);
    constraint[place] = random.within(states, most) as u8;
}
