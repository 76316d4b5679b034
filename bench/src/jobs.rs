//! Random jobs of all kinds, compiled by the proved library and by the outside implementation.
use crate::compare::{agree, damaged, Numbers};
use crate::library;

/// A general job with random next states.
pub fn general(numbers: &mut Numbers) -> Vec<u8> {
    let mut below = |bound| numbers.below(bound) as u8;
    let states = below(5) + 1;
    let mut job = vec![below(3) + 1, below(4) + 1, below(6) + 1, states];
    (0..2 * states).for_each(|_| job.push(if below(5) == 0 { 255 } else { below(usize::from(states)) }));
    job
}

/// A run-length job.
pub fn run_length(numbers: &mut Numbers) -> Vec<u8> {
    numbers_below(numbers, [4, 9, 4, 6, 9])
}

/// A run-length job of any size.
pub fn any_run_length(numbers: &mut Numbers) -> Vec<u8> {
    numbers_below(numbers, [16, 16, 4, 8, 16])
}

/// Five numbers below bounds, the last three from 1 on.
fn numbers_below(numbers: &mut Numbers, bounds: [usize; 5]) -> Vec<u8> {
    bounds.iter().zip([0, 0, 1, 1, 1]).map(|(&bound, least)| numbers.below(bound) as u8 + least).collect()
}

/// A job's bytes, sometimes damaged, compiled; and listed, if it is a run-length job.
pub fn compile(numbers: &mut Numbers) -> u64 {
    let (general, run_length) = (general(numbers), run_length(numbers));
    let general = if numbers.below(4) == 0 { damaged(numbers, &general) } else { general };
    let run_length = if numbers.below(4) == 0 { damaged(numbers, &run_length) } else { run_length };
    let mut out = vec![0xa5; numbers.below(300)];
    let ours = library::compile(&general, &mut out);
    agree("compile", &general, ours, &out, &reference::calls::compile_job(&general, out.len()));
    let mut out = vec![0xa5; numbers.below(300)];
    let answer = library::compile_run_length(&run_length, &mut out);
    agree("run-length", &run_length, answer, &out, &reference::calls::compile_run_length(&run_length, out.len()));
    let mut out = vec![0xa5; 30000];
    let listed = library::listing(&run_length, &mut out);
    let theirs = reference::calls::listing(&run_length, out.len());
    if listed.0 == 0 {
        agree("listing", &run_length, listed, &out, &theirs);
    } else {
        // The outside implementation answers what the program prints; the call answers the refusal.
        assert_eq!(theirs.output, format!("refused {}\n", listed.0).into_bytes(), "listing of {run_length:02x?}");
        assert!(out.iter().all(|&b| b == 0xa5), "listing of {run_length:02x?}: bytes lent");
    }
    ours.0
}

/// A constraint in a joined job: K and its next states, random, or a run-length constraint written out.
fn rule(numbers: &mut Numbers) -> Vec<u8> {
    let mut below = |bound| numbers.below(bound) as u8;
    if below(2) == 0 {
        let k = below(9);
        let d = below(usize::from(k.min(3)) + 1);
        let next = |i: u8| [if i < k { i + 1 } else { 255 }, if i >= d { 0 } else { 255 }];
        return [k + 1].into_iter().chain((0..=k).flat_map(next)).collect();
    }
    let states = below(6) + 1;
    let mut rule = vec![states];
    (0..2 * states).for_each(|_| rule.push(if below(5) == 0 { 255 } else { below(usize::from(states)) }));
    rule
}

/// The bytes of a job with two constraints, sometimes damaged, compiled.
pub fn compile_joined(numbers: &mut Numbers) -> u64 {
    let mut job: Vec<u8> = [3, 4, 6].map(|bound| numbers.below(bound) as u8 + 1).to_vec();
    job.extend(rule(numbers));
    job.extend(rule(numbers));
    let job = if numbers.below(4) == 0 { damaged(numbers, &job) } else { job };
    let mut out = vec![0xa5; numbers.below(300)];
    let ours = library::compile_joined(&job, &mut out);
    agree("joined", &job, ours, &out, &reference::calls::compile_joined(&job, out.len()));
    ours.0
}
