//! Request (h), "Bring your own weights": the test of weights and the order of the checks written a second time, and
//! the claims about weights that pass, on random jobs of both kinds.

use reference::accept::load;
use reference::answer::Answer;
use reference::calls::{check, decode, encode};
use reference::component::component;
use reference::job::Job;
use reference::split::split_all;
use reference::vectors::bringing::{read, with_weights};
use reference::vectors::brought::{any_job, passing, with_code};
use reference::vectors::file::{call, COMPILE_JOB, COMPILE_RUN_LENGTH};
use reference::vectors::random::Random;
use reference::weights::{greatest, passes};

fn compile(kind: u8, bytes: &[u8]) -> Answer {
    call(kind, 4096, bytes, &[])
}

/// The weight to which a word leads from a state, its q bits walked one by one; 0 if some bit finds no next state.
fn led_to(job: &Job, weights: &[u32], mut state: usize, word: usize) -> u32 {
    for place in (0..job.q).rev() {
        match job.constraint.next[state][word >> place & 1] {
            Some(next) => state = usize::from(next),
            None => return 0,
        }
    }
    weights[state]
}

/// "They must be at most cap, not all 0, and meet the inequality at each state of the constraint": the weights to which
/// all words lead sum to at least n times the state's own.
fn says(job: &Job, weights: &[u32]) -> bool {
    let sum = |s: usize| (0..1 << job.q).map(|word| led_to(job, weights, s, word)).sum::<u32>();
    let at_most_cap = weights.iter().all(|weight| *weight <= job.cap);
    let not_all_0 = weights.iter().any(|weight| *weight != 0);
    at_most_cap && not_all_0 && (0..weights.len()).all(|s| sum(s) >= weights[s] << job.p)
}

/// Weights of every kind for a job: such that pass, beside such at one state, and any.
fn any_weights(random: &mut Random, job: &Job) -> Vec<u32> {
    let mut weights = passing(random, job);
    let s = random.below(weights.len());
    let most = *random.pick(&[job.cap as usize, 20, 255]);
    match random.below(7) {
        0 => return weights.iter().map(|_| random.below(most + 1) as u32).collect(),
        1 | 2 => weights[s] = weights[s].saturating_sub(1),
        3 => weights[s] += 1,
        4 => weights[s] = random.below(most + 1) as u32,
        _ => {}
    }
    weights
}

#[test]
fn the_test_of_weights_a_second_time() {
    let mut random = Random::seeded(31);
    let mut counts = [0; 2];
    for _ in 0..3000 {
        let (kind, bytes) = if random.once_in(4) { any_job(&mut random) } else { with_code(&mut random) };
        let job = read(kind, &bytes);
        let weights = any_weights(&mut random, &job);
        let pass = says(&job, &weights);
        assert_eq!(passes(&job, &weights), pass, "{bytes:?} {weights:?}");
        let refusal = compile(kind, &with_weights(&bytes, &weights)).refusal;
        assert_eq!(refusal == 17, !pass, "{bytes:?} {weights:?}");
        assert_ne!(refusal, 3, "{bytes:?} {weights:?}");
        counts[usize::from(pass)] += 1;
    }
    assert!(counts.iter().all(|count| *count > 500), "{counts:?}");
}

/// The same on every vector of a few small jobs, and the greatest of those that pass.
#[test]
fn every_vector_of_small_jobs() {
    for (bytes, cap) in [([0, 1, 2, 3, 3], 3), ([1, 2, 1, 2, 3], 3), ([1, 3, 1, 2, 2], 2), ([0, 2, 3, 4, 3], 3)] {
        let job = Job::run_length(&bytes).unwrap();
        let (states, base) = (job.constraint.states(), cap + 2);
        let mut most = vec![0; states];
        for number in 0..usize::pow(base, states as u32) {
            let weights: Vec<u32> = (0..states).map(|s| (number / base.pow(s as u32) % base) as u32).collect();
            let refusal = compile(COMPILE_RUN_LENGTH, &with_weights(&bytes, &weights)).refusal;
            assert_eq!(refusal, if says(&job, &weights) { 0 } else { 17 }, "{bytes:?} {weights:?}");
            if refusal == 0 {
                most = most.iter().zip(&weights).map(|(one, other)| *one.max(other)).collect();
            }
        }
        assert_eq!(greatest(&job), most);
    }
}

/// "Weights which pass end in a table or in one of 4, 5, 6 and 13"; they are nowhere above the greatest ones.
#[test]
fn weights_that_pass() {
    let mut random = Random::seeded(32);
    let mut counts = [0; 18];
    for _ in 0..3000 {
        let (kind, bytes) = with_code(&mut random);
        let job = read(kind, &bytes);
        let weights = passing(&mut random, &job);
        assert!(says(&job, &weights) && weights.iter().zip(greatest(&job)).all(|(weight, most)| *weight <= most));
        let brought = with_weights(&bytes, &weights);
        let answer = compile(kind, &brought);
        assert!([0, 4, 5, 6].contains(&answer.refusal), "{brought:?} {}", answer.refusal);
        counts[usize::from(answer.refusal)] += 1;
        if answer.refusal == 0 {
            let length = answer.output.len();
            assert_eq!(call(kind, length, &brought, &[]), answer);
            assert_eq!(call(kind, length - 1, &brought, &[]), Answer::refused(13, 0));
        } else {
            assert_eq!(call(kind, 0, &brought, &[]), answer);
        }
    }
    assert!([0, 4, 5, 6].iter().all(|refusal| counts[*refusal] > 10), "{counts:?}");
}

/// Bringing the greatest weights gives the answer of the job without weights, whatever the room, unless that is 3.
#[test]
fn the_greatest_weights_brought() {
    let mut random = Random::seeded(33);
    let mut counts = [0; 2];
    for _ in 0..3000 {
        let (kind, bytes) = any_job(&mut random);
        let brought = with_weights(&bytes, &greatest(&read(kind, &bytes)));
        for room in [4096, random.below(100)] {
            let (with, without) = (call(kind, room, &brought, &[]), call(kind, room, &bytes, &[]));
            let expected = if without.refusal == 3 { Answer::refused(17, 0) } else { without };
            assert_eq!(with, expected, "{bytes:?}");
            counts[usize::from(with.refusal == 17)] += 1;
        }
    }
    assert!(counts.iter().all(|count| *count > 1000), "{counts:?}");
}

/// Where no code exists all weights fail, and so do any that are above the greatest ones somewhere.
#[test]
fn weights_above_the_greatest_fail() {
    let mut random = Random::seeded(34);
    let mut none = 0;
    for _ in 0..3000 {
        let (kind, bytes) = any_job(&mut random);
        let job = read(kind, &bytes);
        let most = greatest(&job);
        none += usize::from(most.iter().all(|weight| *weight == 0));
        let mut weights: Vec<u32> = most.iter().map(|_| random.below(job.cap as usize + 1) as u32).collect();
        let s = random.below(weights.len());
        weights[s] = most[s] + 1;
        assert_eq!(compile(kind, &with_weights(&bytes, &weights)), Answer::refused(17, 0), "{bytes:?} {weights:?}");
    }
    assert!(none > 500, "{none}");
}

/// Every record of brought weights is accepted, and recordings under it decode.
#[test]
fn records_of_brought_weights() {
    let mut random = Random::seeded(35);
    let mut compiled = 0;
    for _ in 0..600 {
        let (kind, bytes) = with_code(&mut random);
        let job = read(kind, &bytes);
        let output = compile(kind, &with_weights(&bytes, &passing(&mut random, &job))).output;
        if output.is_empty() {
            continue;
        }
        assert_eq!(check(&output), Answer::number(0));
        let record = load(&output).unwrap();
        assert_eq!((record.p, record.q, record.tail, &record.constraint), (job.p, job.q, 0, &job.constraint));
        let blocks = random.bytes(40, 1 << job.p);
        let words = encode(&output, &blocks, 40 + record.a).output;
        assert_eq!(words.len(), 40 + record.a);
        assert_eq!(decode(&output, &words, 40).output, blocks);
        compiled += 1;
    }
    assert!(compiled > 300, "{compiled}");
}

/// The refusals of reading a job, the weights' own last, in the order of request (h); none if the job is read.
fn order(kind: u8, bytes: &[u8]) -> Option<u8> {
    let out_of_range = |p: u8, q: u8, cap: u8| !(1..5).contains(&p) || !(1..9).contains(&q) || !(1..17).contains(&cap);
    let (first, states) = match *bytes {
        [p, q, cap, _, ..] if kind == COMPILE_JOB && out_of_range(p, q, cap) => return Some(1),
        [_, _, _, k, ..] if kind == COMPILE_JOB && (k == 0 || k > 16) => return Some(2),
        [_, _, _, k, ..] if kind == COMPILE_JOB => (4 + 2 * usize::from(k), usize::from(k)),
        [_, _, p, q, cap, ..] if kind != COMPILE_JOB && out_of_range(p, q, cap) => return Some(1),
        [d, k, _, _, _, ..] if kind != COMPILE_JOB && (d > k || k > 15) => return Some(2),
        [_, k, _, _, _, ..] if kind != COMPILE_JOB => (5, usize::from(k) + 1),
        _ => return Some(8),
    };
    if bytes.len() != first && bytes.len() != first + states {
        return Some(8);
    }
    let bad = |next: &u8| *next != 255 && usize::from(*next) >= states;
    if kind == COMPILE_JOB && bytes[4..first].iter().any(bad) {
        return Some(2);
    }
    let weights: Vec<u32> = bytes[first..].iter().map(|weight| u32::from(*weight)).collect();
    (!weights.is_empty() && !says(&read(kind, &bytes[..first]), &weights)).then_some(17)
}

/// Each length from four bytes to one more than the weights have, from none to two more for a run-length job; whole,
/// and with a byte or a few changed.
#[test]
fn every_length() {
    let mut random = Random::seeded(36);
    let mut counts = [0; 18];
    for round in 0..600 {
        let (kind, job) = with_code(&mut random);
        let weights = passing(&mut random, &read(kind, &job));
        let mut bytes = with_weights(&job, &weights);
        bytes.extend([random.below(3) as u8; 2]);
        for _ in 0..round % 3 {
            let place = random.below(bytes.len());
            bytes[place] = *random.pick(&[0, 1, 2, 5, 9, 15, 16, 17, 255]);
        }
        let lengths = if kind == COMPILE_JOB { 4..=bytes.len() - 1 } else { 0..=bytes.len() };
        for length in lengths {
            let refusal = compile(kind, &bytes[..length]).refusal;
            let expected = order(kind, &bytes[..length]);
            assert!(expected.map_or(![1, 2, 8, 17].contains(&refusal), |number| number == refusal), "{bytes:?}");
            assert!(refusal != 3 || length == job.len(), "{bytes:?}");
            counts[usize::from(refusal)] += 1;
        }
    }
    assert!([0, 1, 2, 8, 17].iter().all(|refusal| counts[*refusal] > 100), "{counts:?}");
}

/// Run-length jobs with weights that pass and at most 15 splits never end in refusal 6.
#[test]
fn few_splits_have_a_window() {
    let mut random = Random::seeded(37);
    let (mut few, mut many) = (0, 0);
    for _ in 0..4000 {
        let (kind, bytes) = with_code(&mut random);
        let brought = with_weights(&bytes, &passing(&mut random, &read(kind, &bytes)));
        let job = read(kind, &brought);
        let Some((graph, _)) = component(&job).ok().filter(|_| kind != COMPILE_JOB) else { continue };
        let states = graph.weight.len();
        let Ok(split) = split_all(graph, job.n()) else { continue };
        if split.weight.len() - states > 15 {
            many += 1;
            continue;
        }
        assert_eq!(compile(kind, &brought).refusal, 0, "{brought:?}");
        few += 1;
    }
    assert!(few > 500 && many > 100, "{few} {many}");
}
