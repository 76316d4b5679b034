//! Request (a), "Two constraints on one medium": every input that tells with its exact answer, the order of the checks,
//! and the claim about strings.

use reference::accept::load;
use reference::answer::Answer;
use reference::calls::{compile_job, compile_joined, compile_run_length};
use reference::constraint::Constraint;
use reference::job::Job;
use reference::joined::{join, pairs, Pair};
use reference::vectors::fixed;
use reference::vectors::hex;
use reference::vectors::jobs::{bytes_of, parameters, write};
use reference::vectors::joined::{any, borders, constraint, job};
use reference::vectors::random::Random;
use std::collections::BTreeSet;

/// What the table of the inputs that tell gives for a job.
enum Told {
    Refused(u8),
    Record(&'static str),
    /// The record of this run-length job.
    RecordOf([u8; 5]),
}

use Told::{Record, RecordOf, Refused};

const TELLING: [(&str, Told); 19] = [
    ("01 02 01", Refused(8)),
    ("05 02 01 01 00", Refused(1)),
    ("01 02 01 11", Refused(2)),
    ("01 02 01 00 00", Refused(2)),
    ("01 02 01 01 00 ff", Refused(8)),
    ("02 03 04 01 07 00", Refused(2)),
    ("01 02 01 01 05 00 01 00", Refused(2)),
    ("01 02 01 01 00 00 11", Refused(2)),
    ("01 02 01 01 00 00 01 00", Refused(8)),
    ("01 02 01 01 00 00 01 09 00 00", Refused(8)),
    ("01 02 01 01 00 00 01 09 00", Refused(2)),
    ("04 01 01 04 00 01 01 02 02 03 03 00 05 01 00 02 01 03 02 04 03 00 04", Refused(14)),
    (
        "01 02 01 10 01 00 02 00 03 00 04 00 05 00 06 00 07 00 08 00 09 00 0a 00 0b 00 0c 00 0d 00 0e 00 0f 00 0f 00 \
         02 00 01 00 00",
        Refused(14),
    ),
    (
        "01 02 01 04 00 01 01 02 02 03 03 00 04 01 00 02 01 03 02 00 03",
        Record(
            "24 1c 03 c0 23 29 d2 95 b5 ef 8c 66 1a d6 f7 ce 42 5d ef bd 1a ff f3 cd 80 28 20 02 10 08 85 02 a1 80 48 \
             30 1a 1c 0e 81 03 20 00",
        ),
    ),
    ("01 01 01 03 01 02 00 00 00 00 02 00 01 00 01", Record("22 0c 00 c0 23 28 4e 13 8c 80 60 80 20 c0 20 c0 60 80")),
    (
        "01 02 01 08 01 ff 02 00 03 00 04 00 05 00 06 00 07 00 ff 00 04 01 00 02 00 03 00 ff 00",
        RecordOf([1, 3, 1, 2, 1]),
    ),
    ("02 03 03 08 01 ff 02 00 03 00 04 00 05 00 06 00 07 00 ff 00 01 00 00", RecordOf([1, 7, 2, 3, 3])),
    (
        "01 03 01 08 01 ff 02 00 03 00 04 00 05 00 06 00 07 00 ff 00 02 01 01 00 ff",
        Record(
            "26 18 03 d0 22 09 02 74 a8 2c 0b d3 14 c8 34 0d d3 94 00 3a 0f 53 e0 05 00 34 04 04 20 00 54 06 02 20 00 \
             64 06 02 20 20 2a 00",
        ),
    ),
    ("01 01 01 01 ff 00 01 00 ff", Refused(3)),
];

fn refused(refusal: u8) -> Answer {
    Answer { refusal, value: 0, output: vec![] }
}

fn refusal(job: &str) -> u8 {
    compile_joined(&hex(job), 4096).refusal
}

/// So many random pairs of constraints of every family.
fn some_pairs(seed: u64, count: usize) -> Vec<(Constraint, Constraint)> {
    let mut random = Random::seeded(seed);
    let two = |_| any(&mut random);
    (0..count).map(two).map(|(first, second)| (constraint(&first), constraint(&second))).collect()
}

#[test]
fn every_input_that_tells() {
    for (text, told) in &TELLING {
        let record = match told {
            Refused(number) => {
                assert_eq!(compile_joined(&hex(text), 4096), refused(*number), "{text}");
                continue;
            }
            Record(record) => hex(record),
            RecordOf(job) => compile_run_length(job, 4096).output,
        };
        assert_eq!(compile_joined(&hex(text), record.len() - 1), refused(13), "{text}");
        let answer = compile_joined(&hex(text), record.len());
        assert_eq!((answer.refusal, answer.value as usize, answer.output), (0, record.len(), record), "{text}");
    }
}

#[test]
fn the_file_has_every_input_that_tells() {
    let told: Vec<Vec<u8>> = TELLING.iter().map(|(job, _)| hex(job)).collect();
    assert_eq!(fixed::TELLING.map(hex).to_vec(), told);
}

/// What the table says beside the answers.
#[test]
fn what_the_inputs_tell() {
    let joined = |place: usize| Job::joined(&hex(TELLING[place].0)).map(|job| job.constraint);
    assert_eq!(joined(13).unwrap().states(), 16);
    assert_eq!(joined(14).unwrap().next[0], [Some(1), Some(2)], "bit 0 before bit 1");
    assert_eq!(joined(15).unwrap(), Constraint::run_length(1, 3));
    assert_eq!(joined(16).unwrap(), Constraint::run_length(1, 7));
    let clocked = load(&compile_joined(&hex(TELLING[17].0), 4096).output).unwrap();
    assert_eq!((clocked.constraint.states(), clocked.start), (16, 4));
}

/// The numbers of pairs of the inputs that tell about refusal 14.
#[test]
fn numbers_of_pairs() {
    for (place, count) in [(11, 20), (12, 17), (13, 16)] {
        let bytes = hex(TELLING[place].0);
        let (first, second) = bytes[4..].split_at(2 * usize::from(bytes[3]));
        let read = |next: &[u8]| Constraint::from_bytes(next).unwrap();
        assert_eq!(pairs(&read(first), &read(&second[1..])).len(), count);
    }
}

#[test]
fn order_of_a_joined_job() {
    for short in ["", "05", "05 02", "05 02 01"] {
        assert_eq!(refusal(short), 8, "8 below four bytes, before 1");
    }
    for bad in ["05 02 01 00", "00 02 01 11", "01 09 01 01", "01 02 11 01 07 00 01 07 00 00"] {
        assert_eq!(refusal(bad), 1, "1 before all of the constraints");
    }
    assert_eq!(refusal("01 02 01 01"), 8, "the first runs out");
    assert_eq!(refusal("01 02 01 01 07"), 8, "8 before a next state of the first");
    assert_eq!(refusal("01 02 01 01 07 00 00"), 2, "a next state of the first before the second K");
    assert_eq!(refusal("01 02 01 01 00 00 00 00"), 2, "the second K before its 8");
    assert_eq!(refusal("01 02 01 01 00 00 01"), 8, "the second runs out");
    assert_eq!(refusal("01 02 01 01 00 00 01 07"), 8, "8 before a next state of the second");
    assert_eq!(refusal("01 02 01 01 00 fe 01 00 00"), 2);
    assert_eq!(refusal("01 02 01 01 00 00 02 00 00 00 02"), 2, "a state that no pair meets is checked too");
    assert_eq!(refusal("01 02 01 01 00 00 02 00 00 ff 01"), 0);
}

/// The jobs beside a border: 3, 4, 5, 4, 6, done, done; then with 256 pairs a bad next state, a left-over byte, 14.
#[test]
fn borders_of_a_joined_job() {
    let refusals: Vec<u8> = borders().iter().map(|job| compile_joined(job, 4096).refusal).collect();
    assert_eq!(refusals, [3, 4, 5, 4, 6, 0, 0, 2, 8, 14]);
    let without_room: Vec<u8> = borders().iter().map(|job| compile_joined(job, 0).refusal).collect();
    assert_eq!(without_room, [3, 4, 5, 4, 6, 13, 13, 2, 8, 14]);
}

/// A string is allowed from state 0 when each of its bits finds a next state.
fn allows(constraint: &Constraint, string: &[usize]) -> bool {
    let step = |state: u8, bit: &usize| constraint.next[usize::from(state)][*bit];
    string.iter().try_fold(0, step).is_some()
}

/// A random string that keeps, as far as it can and but for a few bits, to the constraints given.
fn string(random: &mut Random, keeping: &[&Constraint]) -> Vec<usize> {
    let mut string = Vec::new();
    for _ in 0..random.below(40) {
        string.push(random.below(2));
        let last = string.len() - 1;
        if !keeping.iter().all(|constraint| allows(constraint, &string)) && !random.once_in(30) {
            string[last] = 1 - string[last];
        }
    }
    string
}

/// "A string is allowed from the joint start exactly when both allow it from their states 0", on random strings.
#[test]
fn the_claim_on_random_strings() {
    let mut random = Random::seeded(11);
    let (mut counts, mut joints) = ([0; 4], 0);
    for (first, second) in some_pairs(12, 1500) {
        let Ok(joint) = join(&first, &second) else { continue };
        joints += 1;
        for keeping in [&[][..], &[&first], &[&second], &[&first, &second], &[&joint]] {
            for _ in 0..12 {
                let string = string(&mut random, keeping);
                let both = [allows(&first, &string), allows(&second, &string)];
                assert_eq!(allows(&joint, &string), both == [true; 2], "{first:?} {second:?} {string:?}");
                counts[usize::from(both[0]) * 2 + usize::from(both[1])] += 1;
            }
        }
    }
    assert!(joints > 1000 && counts.iter().all(|count| *count > 3000), "{joints} {counts:?}");
}

/// The same on every string of up to eleven bits.
#[test]
fn the_claim_on_every_short_string() {
    for (first, second) in some_pairs(13, 60) {
        let Ok(joint) = join(&first, &second) else { continue };
        for length in 0..=11 {
            for number in 0..1usize << length {
                let string: Vec<usize> = (0..length).map(|place| number >> place & 1).collect();
                assert_eq!(allows(&joint, &string), allows(&first, &string) && allows(&second, &string));
            }
        }
    }
}

/// The pairs in the order of the strings of up to so many bits that lead to them from both states 0: shorter strings
/// first, then by the first bit that differs. No string is left out, so that nothing here is walked in number order.
fn by_strings(first: &Constraint, second: &Constraint, bits: usize) -> Vec<Pair> {
    let mut level = vec![(0, 0)];
    let mut met: Vec<Pair> = level.clone();
    for _ in 0..bits {
        let step = |(s, t): &Pair| {
            let (s, t) = (first.next[usize::from(*s)], second.next[usize::from(*t)]);
            [s[0].zip(t[0]), s[1].zip(t[1])].into_iter().flatten()
        };
        level = level.iter().flat_map(step).collect();
        level.iter().for_each(|pair| {
            if !met.contains(pair) {
                met.push(*pair)
            }
        });
    }
    met
}

/// "Numbered as first met, walking pairs in number order, bit 0 before bit 1" is the order of the strings.
#[test]
fn pairs_are_numbered_by_their_first_strings() {
    for (first, second) in some_pairs(14, 400) {
        let met = by_strings(&first, &second, 12);
        assert_eq!(pairs(&first, &second)[..met.len()], met);
    }
}

/// How many pairs are reachable: a set that grows until nothing more comes in, in no order.
fn reachable(first: &Constraint, second: &Constraint) -> usize {
    let next = |(s, t): &Pair, bit: usize| first.next[usize::from(*s)][bit].zip(second.next[usize::from(*t)][bit]);
    let mut reached = BTreeSet::from([(0, 0)]);
    loop {
        let count = reached.len();
        let more: Vec<Pair> = reached.iter().flat_map(|pair| [next(pair, 0), next(pair, 1)]).flatten().collect();
        reached.extend(more);
        if reached.len() == count {
            return count;
        }
    }
}

#[test]
fn refusal_14_is_for_more_than_16_pairs() {
    let mut counts = [0; 18];
    for (first, second) in some_pairs(15, 3000) {
        let count = reachable(&first, &second);
        let states = join(&first, &second).map(|joint| joint.states());
        assert_eq!(states, if count > 16 { Err(14) } else { Ok(count) });
        counts[count.min(17)] += 1;
    }
    assert!(counts[1..].iter().all(|count| *count > 10), "{counts:?}");
}

/// Both count the zeros since the last 1, so that (d, k) with (e, l) is the greater of d, e with the lesser of k, l.
#[test]
fn two_run_length_constraints_are_one() {
    let every = || (0..=15).flat_map(|k: u8| (0..=k).map(move |d| (d, k)));
    for ((d, k), (e, l)) in every().flat_map(|one| every().map(move |other| (one, other))) {
        let joint = join(&Constraint::run_length(d, k), &Constraint::run_length(e, l)).unwrap();
        if d.max(e) <= k.min(l) {
            assert_eq!(joint, Constraint::run_length(d.max(e), k.min(l)));
        } else {
            assert!(joint.next.iter().all(|next| next[1].is_none()));
        }
    }
}

/// A joined job is answered as the job of its joined constraint is, in either order of the two.
#[test]
fn a_joined_job_is_the_job_of_the_joined_constraint() {
    let mut random = Random::seeded(16);
    let mut compiled = 0;
    for (first, second) in some_pairs(17, 300) {
        let Ok(joint) = join(&first, &second) else { continue };
        let rates = parameters(&mut random);
        let mut plain = rates.to_vec();
        write(&mut plain, &bytes_of(&joint));
        let answer = compile_job(&plain, 4096);
        let (first, second) = (bytes_of(&first), bytes_of(&second));
        assert_eq!(compile_joined(&job(rates, &first, &second), 4096), answer);
        assert_eq!(compile_joined(&job(rates, &second, &first), 4096), answer);
        compiled += usize::from(answer.refusal == 0);
    }
    assert!(compiled > 50, "{compiled}");
}
