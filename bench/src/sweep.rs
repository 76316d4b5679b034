//! Every run-length job through the proved compiler and the outside implementation, answers and records compared.
use crate::library;
use std::time::{Duration, Instant};

fn timed<T>(total: &mut Duration, call: impl FnOnce() -> T) -> T {
    let start = Instant::now();
    let result = call();
    *total += start.elapsed();
    result
}

/// All jobs d, k, p, q, cap in order.
pub fn jobs() -> impl Iterator<Item = [u8; 5]> {
    let pairs = (0..16u8).flat_map(|d| (d..16).map(move |k| (d, k)));
    let rates = move |(d, k)| (1..=4u8).flat_map(move |p| (1..=8u8).map(move |q| (d, k, p, q)));
    pairs.flat_map(rates).flat_map(|(d, k, p, q)| (1..=16u8).map(move |cap| [d, k, p, q, cap]))
}

/// Prints the counts of answers and both times.
pub fn all() {
    let (mut ours, mut theirs) = (Duration::ZERO, Duration::ZERO);
    let mut answers = [0u32; 14];
    let mut out = vec![0; 4096];
    for job in jobs() {
        let answer = timed(&mut ours, || library::compile_run_length(&job, &mut out));
        let expected = timed(&mut theirs, || reference::calls::compile_run_length(&job, 4096));
        assert_eq!(answer, (u64::from(expected.refusal), u64::from(expected.value)), "{job:?}");
        assert_eq!(out[..expected.output.len()], expected.output, "{job:?}");
        answers[answer.0 as usize] += 1;
    }
    println!("{} jobs, no difference; answers by number: {answers:?}", answers.iter().sum::<u32>());
    let (a, b) = (ours.as_secs_f64(), theirs.as_secs_f64());
    println!("proved {a:.2} s, outside implementation {b:.2} s, ratio {:.2}", b / a);
}
