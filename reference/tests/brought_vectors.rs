//! Request (h) in the file of test vectors: the inputs that tell, and other readings, each told apart by cases of the
//! file.

use reference::calls::{compile_run_length, listing};
use reference::compile::compile;
use reference::component::component;
use reference::job::Job;
use reference::vectors::file::{
    call, Case, Walk, COMPILE_JOB, COMPILE_JOINED, COMPILE_RUN_LENGTH, LISTING, RECORD_ROOM,
};
use reference::vectors::{bringing, generate, hex};
use reference::weights::{greatest, greatest_below, passes};
use std::collections::{BTreeSet, HashSet};

/// The cases before those of request (h).
const BEFORE: usize = 12_118;

/// A case of request (h) with the job that it is read as and the weights brought.
struct Weighed {
    case: Case,
    job: Job,
    weights: Vec<u32>,
}

/// The cases with a job that is read up to its weights.
fn weighed(cases: Vec<Case>) -> Vec<Weighed> {
    let read = |case: Case| {
        let job = match case.kind {
            COMPILE_JOB => Job::general(&case.first).ok()?,
            COMPILE_RUN_LENGTH => Job::run_length(&case.first).ok()?,
            _ => return None,
        };
        let weights = job.brought.clone()?;
        Some(Weighed { case, job, weights })
    };
    cases.into_iter().filter_map(read).collect()
}

/// At each state the sum over all words of the weights to which they lead, and n times the state's own.
fn sums(job: &Job, weights: &[u32]) -> Vec<(u32, u32)> {
    let sum = |row: &Vec<Option<usize>>| row.iter().flatten().map(|t| weights[*t]).sum();
    job.constraint.powers(job.q).iter().map(sum).zip(weights.iter().map(|weight| weight << job.p)).collect()
}

/// The states of weight above 0 that words reach from a state, itself included.
fn reached(job: &Job, weights: &[u32], from: usize) -> BTreeSet<usize> {
    let powers = job.constraint.powers(job.q);
    let mut reached = BTreeSet::from([from]);
    for _ in weights {
        let next = reached.iter().flat_map(|s| powers[*s].iter().flatten()).copied();
        let more: Vec<usize> = next.filter(|t| weights[*t] > 0).collect();
        reached.extend(more);
    }
    reached
}

/// The component that the weights have, whether they pass or not.
fn component_of(Weighed { job, weights, .. }: &Weighed) -> Option<BTreeSet<usize>> {
    let reach: Vec<BTreeSet<usize>> = (0..weights.len()).map(|s| reached(job, weights, s)).collect();
    let back = |s: &usize| weights[*s] > 0 && reach[*s].iter().all(|t| reach[*t].contains(s));
    (0..weights.len()).find(back).map(|start| reach[start].clone())
}

/// The weights, up to cap, meet the inequality at each state of the component.
fn component_passes(w: &Weighed) -> bool {
    let sums = sums(&w.job, &w.weights);
    let meets = |members: BTreeSet<usize>| members.iter().all(|s| sums[*s].0 >= sums[*s].1);
    w.weights.iter().all(|weight| *weight <= w.job.cap) && component_of(w).is_some_and(meets)
}

/// The weights of the component sum over 128.
fn component_is_heavy(w: &Weighed) -> bool {
    let sum = |members: BTreeSet<usize>| members.iter().map(|s| w.weights[*s]).sum::<u32>();
    component_of(w).map(sum) > Some(128)
}

/// The record of the job without its weights, if it compiles.
fn without_weights(w: &Weighed) -> Option<Vec<u8>> {
    compile(&Job { brought: None, ..w.job.clone() }).ok().map(|record| record.pack())
}

/// Other ways to read which weights pass and what they do: whether a case tells.
type Reading = (&'static str, fn(&Weighed) -> bool);

const READINGS: [Reading; 12] = [
    ("3 if no code exists", |w| w.case.answer.refusal == 17 && greatest(&w.job).iter().all(|most| *most == 0)),
    ("3 for weights that are all 0", |w| w.case.answer.refusal == 17 && w.weights.iter().all(|weight| *weight == 0)),
    ("cap is not asked", |w| w.case.answer.refusal == 17 && passes(&Job { cap: 255, ..w.job.clone() }, &w.weights)),
    ("no weight may be 0", |w| w.case.answer.refusal != 17 && w.weights.contains(&0)),
    ("more than n times the weight", |w| {
        w.case.answer.refusal != 17 && sums(&w.job, &w.weights).iter().any(|(sum, own)| *own > 0 && sum == own)
    }),
    ("the inequality in the component only", |w| w.case.answer.refusal == 17 && component_passes(w)),
    ("lowered until they pass", |w| {
        let most = w.weights.iter().map(|weight| (*weight).min(w.job.cap)).collect();
        w.case.answer.refusal == 17 && passes(&w.job, &greatest_below(&w.job, most))
    }),
    ("the greatest weights all the same", |w| {
        w.case.answer.refusal == 0 && without_weights(w).is_none_or(|record| record != w.case.answer.output)
    }),
    ("only the greatest weights", |w| w.case.answer.refusal != 17 && greatest(&w.job) != w.weights),
    ("constraint start 0", |w| w.case.answer.refusal == 0 && component(&w.job).unwrap().1 > 0),
    ("4 before 17", |w| w.case.answer.refusal == 17 && component_is_heavy(w)),
    ("13 before 17", |w| w.case.answer.refusal == 17 && w.case.room == 0),
];

fn cases() -> Vec<Case> {
    Walk(&generate(1)).skip(BEFORE).collect()
}

/// Every input that tells stands in the file, with the exact room and, where it is compiled, one byte less.
#[test]
fn the_file_has_the_weights_that_tell() {
    let bytes = generate(1);
    let inputs: HashSet<_> = Walk(&bytes).map(|case| (case.kind, case.room, case.first)).collect();
    for (kind, job) in bringing::TELLING {
        let length = call(kind, RECORD_ROOM, &hex(job), &[]).output.len();
        let rooms = [length, length.saturating_sub(1)];
        assert!(rooms.iter().all(|room| inputs.contains(&(kind, *room, hex(job)))), "{job}");
    }
}

#[test]
fn the_file_tells_what_the_weights_do() {
    let weighed = weighed(cases());
    for (reading, tells) in READINGS {
        let told = weighed.iter().filter(|weighed| tells(weighed)).count();
        assert!(told > 5, "{reading}: {told}");
    }
}

/// The same of what jobs of each kind are: the length of a run-length job before 1 and 2 and without weights, that of a
/// general job without, 17 before a next state, weights behind a joined job, listings of jobs with weights.
#[test]
fn the_file_tells_where_weights_stand() {
    let cases = cases();
    let count = |tells: &dyn Fn(&Case) -> bool| cases.iter().filter(|case| tells(case)).count();
    let run_length = |case: &Case| case.kind == COMPILE_RUN_LENGTH && case.first.len() > 5;
    let states = |case: &Case| usize::from(case.first.get(3).copied().unwrap_or(0));
    let fail = |cap: u8, weights: &[u8]| weights.iter().all(|w| *w == 0) || weights.iter().any(|w| *w > cap);
    let weights_fail = |case: &Case| {
        let first = 4 + 2 * states(case);
        case.first.len() == first + states(case) && fail(case.first[2], &case.first[first..])
    };
    let told = [
        count(&|case| run_length(case) && case.answer.refusal == 1),
        count(&|case| run_length(case) && case.answer.refusal == 2),
        count(&|case| run_length(case) && case.answer.refusal == 8),
        count(&|case| case.kind == COMPILE_JOB && case.answer.refusal == 8 && case.first.len() > 4 + 2 * states(case)),
        count(&|case| case.kind == COMPILE_JOB && case.answer.refusal == 2 && weights_fail(case)),
        count(&|case| case.kind == COMPILE_JOINED && case.answer.refusal == 8 && case.first.len() > 8),
        count(&|case| case.kind == LISTING && compile_run_length(&case.first, 4096).refusal == 0),
        count(&|case| case.kind == LISTING && compile_run_length(&case.first, 4096).refusal == 1),
    ];
    assert!(told.iter().all(|count| *count > 2), "{told:?}");
}

/// Every case of a listing with more than five bytes is refused with 8 by its text.
#[test]
fn listings_of_jobs_with_weights() {
    let listings: Vec<Case> = cases().into_iter().filter(|case| case.kind == LISTING && case.first.len() > 5).collect();
    assert!(listings.len() > 10 && listings.iter().all(|case| listing(&case.first, 10).output == b"refused 8\n"));
}

/// The kinds of request (h), and every K from 1 to 16 with weights that pass and with weights that fail.
#[test]
fn the_kinds_and_sizes_of_jobs_with_weights() {
    let kinds = [COMPILE_JOB, COMPILE_RUN_LENGTH, LISTING, COMPILE_JOINED];
    assert!(cases().iter().all(|case| kinds.contains(&case.kind) && case.second.is_empty()));
    let mut seen = [[false; 17]; 2];
    weighed(cases()).iter().for_each(|w| seen[usize::from(w.case.answer.refusal == 17)][w.weights.len()] = true);
    assert!(seen.iter().all(|row| row[1..].iter().all(|seen| *seen)), "{seen:?}");
}
