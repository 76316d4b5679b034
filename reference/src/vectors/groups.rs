//! Sets good and bad, and listings.

use super::damage::{other_fields, with_field};
use super::file::{File, LISTING};
use super::fixed::{loops, E2};
use super::hex;
use super::jobs::{any_run_length, compiling_run_length};
use super::pool::Pool;
use super::random::Random;
use crate::calls::compile_job;
use crate::sets;

pub fn add(file: &mut File, random: &mut Random, pool: &Pool, scale: usize) {
    full(file);
    let pair = sets::pack(&[hex(E2), hex(E2)]);
    (0..=pair.len()).for_each(|length| drop(file.set(&pair[..length])));
    file.rounds(362 * scale, |file| {
        let records = some(random, pool);
        one_set(file, random, records);
    });
    for _ in 0..27 * scale {
        file.add(LISTING, 4000, &any_run_length(random), &[]);
    }
    for _ in 0..18 * scale {
        small_listing(file, random);
    }
}

/// Sets of 255 records: good, with the last one bad, one record short, and with a byte left over.
fn full(file: &mut File) {
    let least = compile_job(&loops(1), 4096).output;
    let mut records = vec![least.clone(); 255];
    let set = sets::pack(&records);
    file.set(&set);
    file.set(&set[..set.len() - 1]);
    file.set(&[&set[..], &[0]].concat());
    records[254][0] ^= 0xe0;
    file.set(&sets::pack(&records));
    let mut fewer = sets::pack(&vec![least; 20]);
    fewer[0] = 255;
    file.set(&fewer);
}

/// Up to six small records.
fn some(random: &mut Random, pool: &Pool) -> Vec<Vec<u8>> {
    let count = random.below(7);
    (0..count).map(|_| random.pick(&pool.small).bytes.clone()).collect()
}

/// A set, whole or with some damage.
fn one_set(file: &mut File, random: &mut Random, mut records: Vec<Vec<u8>>) {
    if random.once_in(3) && !records.is_empty() {
        let place = random.below(records.len());
        records[place] = damaged(random, &records[place]);
    }
    let mut set = sets::pack(&records);
    match random.below(12) {
        0 => set.truncate(random.below(set.len())),
        1 => set.extend(random.bytes(2, 256)),
        2 => set[0] = set[0].wrapping_add(1),
        3 => set[0] = set[0].saturating_sub(1),
        4 if set.len() > 2 => set[2] = set[2].wrapping_add(1),
        5 if set.len() > 2 => set[1] = 255,
        _ => {}
    }
    file.set(&set);
}

/// A record with one field changed or cut short.
fn damaged(random: &mut Random, bytes: &[u8]) -> Vec<u8> {
    if random.once_in(4) {
        return bytes[..random.below(bytes.len())].to_vec();
    }
    let record = crate::accept::load(bytes).expect("the pool's records are good");
    let place = *random.pick(&other_fields(&record));
    with_field(bytes, place, random.below(1 << place.1))
}

/// A listing of a small table, with the exact room and one byte less.
fn small_listing(file: &mut File, random: &mut Random) {
    let (job, record) = compiling_run_length(random);
    if record.len() < 100 {
        file.add_exact(LISTING, &job, &[]);
    }
}
