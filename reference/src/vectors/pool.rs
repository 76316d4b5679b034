//! Good records for the other parts, sorted by length.

use super::file::RECORD_ROOM;
use super::fixed::{mfm, E2, EXTREME, LISTED};
use super::foreign;
use super::hex;
use super::jobs::{compiling_run_length, general};
use super::random::Random;
use crate::accept::load;
use crate::calls::{compile_job, compile_run_length};
use crate::record::Record;

/// A good record, packed and unpacked.
#[derive(Clone)]
pub struct Good {
    pub bytes: Vec<u8>,
    pub record: Record,
}

impl Good {
    /// The record if it is accepted.
    pub fn of(bytes: Vec<u8>) -> Option<Good> {
        let record = load(&bytes).ok()?;
        Some(Good { bytes, record })
    }
}

/// The records, by length in bytes.
#[derive(Default)]
pub struct Pool {
    /// Up to 64.
    pub small: Vec<Good>,
    /// Up to 400.
    pub middle: Vec<Good>,
    pub large: Vec<Good>,
}

impl Pool {
    pub fn gather(random: &mut Random, scale: usize) -> Pool {
        let mut pool = Pool::default();
        [hex(E2), mfm()].into_iter().for_each(|bytes| pool.put(bytes));
        pool.put(compile_run_length(&LISTED, RECORD_ROOM).output);
        EXTREME.iter().for_each(|job| pool.put(compile_run_length(job, RECORD_ROOM).output));
        for _ in 0..60 * scale {
            pool.put(compiling_run_length(random).1);
            pool.put(compile_job(&general(random), RECORD_ROOM).output);
            pool.put(foreign::any(random).pack());
            let good = pool.any(random).clone();
            pool.put(foreign::shuffled(random, &good.record).pack());
        }
        [9, 17, 18, 31, 32].iter().for_each(|length| pool.put(foreign::ring(*length).pack()));
        pool
    }

    /// Adds a record if it is good.
    fn put(&mut self, bytes: Vec<u8>) {
        let Some(good) = Good::of(bytes) else { return };
        match good.bytes.len() {
            0..=64 => self.small.push(good),
            65..=400 => self.middle.push(good),
            _ => self.large.push(good),
        }
    }

    /// A record, mostly a small one.
    pub fn any(&self, random: &mut Random) -> &Good {
        match random.below(48) {
            0 if !self.large.is_empty() => random.pick(&self.large),
            1..=6 if !self.middle.is_empty() => random.pick(&self.middle),
            _ => random.pick(&self.small),
        }
    }
}
