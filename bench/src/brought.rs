//! Jobs that bring their weights: half of them the greatest weights lowered at one state, the others the greatest as
//! they are, raised at one state, or any.
use crate::compare::{agree, damaged, Numbers};
use crate::{jobs, library};
use reference::job::Job;
use reference::weights::greatest;

type Call = fn(&[u8], &mut [u8]) -> (u64, u64);

/// How the calls came out, by number, and how many of them brought the greatest weights.
#[derive(Default)]
pub struct Brought {
    answers: [u64; 18],
    greatest: u64,
}

/// A job without weights and its greatest ones: mostly one that has a code, at times one of any size.
fn drawn(numbers: &mut Numbers, run_length: bool) -> (Vec<u8>, Vec<u8>) {
    let mut tries = 0..4;
    loop {
        let bare = match (run_length, numbers.below(8)) {
            (true, 0) => jobs::any_run_length(numbers),
            (true, _) => jobs::run_length(numbers),
            (false, _) => jobs::general(numbers),
        };
        let read = if run_length { Job::run_length(&bare) } else { Job::general(&bare) };
        let ours: Vec<u8> = read.map_or_else(|_| vec![1; 4], |job| greatest(&job).iter().map(|&w| w as u8).collect());
        if tries.next().is_none() || ours.iter().any(|&w| w > 0) {
            return (bare, ours);
        }
    }
}

/// One weight at random, raised or lowered by up to 3 and not below 0.
fn changed(numbers: &mut Numbers, weights: &mut [u8], raised: bool) {
    let place = numbers.below(weights.len());
    let by = numbers.below(3) as u8 + 1;
    weights[place] = if raised { weights[place].saturating_add(by) } else { weights[place].saturating_sub(by) };
}

impl Brought {
    /// A job that brings weights, sometimes damaged, compiled; with the greatest weights it comes out as without any.
    pub fn one(&mut self, numbers: &mut Numbers) -> u64 {
        let run_length = numbers.below(2) == 0;
        let (bare, ours) = drawn(numbers, run_length);
        let call: Call = if run_length { library::compile_run_length } else { library::compile };
        let mut weights = ours.clone();
        match numbers.below(8) {
            0..=3 => changed(numbers, &mut weights, false),
            4 => changed(numbers, &mut weights, true),
            5 => weights.iter_mut().for_each(|w| *w = numbers.below(18) as u8),
            6 => weights.iter_mut().for_each(|w| *w = numbers.below(usize::from(*w) + 1) as u8),
            _ => self.same(call, &bare, &ours),
        }
        let mut job = [bare, weights].concat();
        if numbers.below(8) == 0 {
            job = damaged(numbers, &job);
        }
        let mut out = vec![0xa5; numbers.below(300)];
        let theirs = if run_length { reference::calls::compile_run_length } else { reference::calls::compile_job };
        let answer = call(&job, &mut out);
        agree("brought weights", &job, answer, &out, &theirs(&job, out.len()));
        self.answers[answer.0 as usize] += 1;
        answer.0
    }

    /// The greatest weights, brought, give what the job without weights gives, unless they are all 0.
    fn same(&mut self, call: Call, bare: &[u8], ours: &[u8]) {
        let (mut without, mut with) = (vec![0xa5; 4000], vec![0xa5; 4000]);
        let alone = call(bare, &mut without);
        let brought = call(&[bare, ours].concat(), &mut with);
        if ours.iter().any(|&w| w > 0) && alone.0 != 2 {
            assert_eq!((alone, without), (brought, with), "{bare:02x?} with its own weights {ours:?}");
            self.greatest += 1;
        }
    }

    /// What was tried.
    pub fn print(&self) {
        let jobs = self.answers.iter().sum::<u64>();
        println!("{jobs} jobs that bring weights; answers by number: {:?}", self.answers);
        println!("{} times the greatest weights, brought, gave what the job without weights gives", self.greatest);
    }
}
