//! Request (e): random records with a tail datum other than 0, recordings under them, and records in the old shape.

use super::coding;
use super::damage::{other_fields, with_field};
use super::file::{File, DECODE};
use super::pool::{Good, Pool};
use super::random::Random;
use super::streams::{self, Way};
use super::tails::{old_shape, with_value};
use crate::accept::load;
use crate::record::Record;
use crate::sets;

pub fn add(file: &mut File, random: &mut Random, pool: &Pool, scale: usize) {
    for _ in 0..30 * scale {
        let good = random.pick(&pool.small);
        file.check(&old_shape(&good.record));
    }
    for _ in 0..60 * scale {
        faults(file, random, pool);
    }
    for way in
        [coding::encoding as Way, decoding, coding::refused, streams::encoding, streams::decoding, streams::refused]
    {
        for _ in 0..25 * scale {
            let good = any(random, pool);
            way(file, random, &good);
        }
    }
    for _ in 0..12 * scale {
        one_set(file, random, pool);
    }
}

/// A record, nearly always a small one, with any tail datum but 0; one that has no closing words is drawn anew, but
/// only once.
pub fn any(random: &mut Random, pool: &Pool) -> Good {
    let mut one = || if random.once_in(16) { random.pick(&pool.middle) } else { random.pick(&pool.small) };
    let drawn = one();
    let drawn = if drawn.record.a > 0 { drawn } else { one() };
    let tail = random.within(1, (1 << drawn.record.p) - 1);
    let record = Record { tail, ..drawn.record.clone() };
    Good { bytes: record.pack(), record }
}

/// A recording decoded, mostly after damage.
fn decoding(file: &mut File, random: &mut Random, good: &Good) {
    let (room, words) = coding::decoding(random, good);
    file.add(DECODE, room, &good.bytes, &words);
}

/// Any value of the tail datum, mostly with another field changed, sometimes with the length wrong too: the first
/// refusal in the order wins.
fn faults(file: &mut File, random: &mut Random, pool: &Pool) {
    let good = random.pick(&pool.small);
    let mut bytes = with_value(&good.record, random.below(16));
    if !random.once_in(3) {
        let place = *random.pick(&other_fields(&good.record));
        bytes = with_field(&bytes, place, random.below(1 << place.1));
    }
    match random.below(6) {
        0 => bytes.push(0),
        1 => bytes.truncate(random.below(bytes.len())),
        _ => {}
    }
    file.check(&bytes);
}

/// Up to four records; one of them sometimes with any value of the tail datum.
fn one_set(file: &mut File, random: &mut Random, pool: &Pool) {
    let count = random.within(1, 4);
    let mut records: Vec<Vec<u8>> = (0..count).map(|_| any(random, pool).bytes).collect();
    if random.once_in(2) {
        let place = random.below(count);
        let record = load(&records[place]).expect("the record is good");
        records[place] = with_value(&record, random.below(16));
    }
    file.set(&sets::pack(&records));
}
