//! Request (e): records given another tail datum.

use super::coding::any_room;
use super::file::{File, WITH_TAIL};
use super::fixed::{mfm, record_of, E2, EXTREME, RECORDS};
use super::hex;
use super::pool::Pool;
use super::random::Random;
use super::stream_borders::{listed, Call};
use super::tailed;
use super::tails::{late, plain, with_value, OLD_E2};
use crate::accept::load;
use crate::record::Record;

/// Data above every tail datum: above 15, above 255 with low bytes that would be good, beyond 32 and 63 bits.
pub const LARGE: [u64; 9] = [16, 255, 256, 257, 1 << 32, (1 << 32) + 1, 1 << 63, u64::MAX - 15, u64::MAX];

pub fn add(file: &mut File, random: &mut Random, pool: &Pool, scale: usize) {
    telling().iter().for_each(|(kind, room, first, second)| drop(file.add(*kind, *room, first, second)));
    for record in [hex(E2), listed(), mfm(), plain().pack(), late().pack()] {
        borders(file, &load(&record).expect("the record is good"));
    }
    refused(file);
    let largest = record_of(&EXTREME[0]).expect("the job compiles");
    file.add_exact(WITH_TAIL, &largest, &datum(1));
    for _ in 0..50 * scale {
        any(file, random, pool);
    }
}

/// Input 2 of a change: the datum in 8 bytes.
pub fn datum(datum: u64) -> Vec<u8> {
    datum.to_be_bytes().to_vec()
}

/// The inputs that tell: E2 and the listed record made those of their table, and the first datum that is too large.
pub fn telling() -> Vec<Call> {
    let change = |record: Vec<u8>, value| (WITH_TAIL, record.len(), record, datum(value));
    let e2 = (0..=2).map(|value| change(hex(E2), value));
    e2.chain((0..=4).map(|value| change(listed(), value))).collect()
}

/// Data below 2^p, at it and one above it with the exact room, one byte less and none; large data with the exact room;
/// and the greatest datum there already, changed to 0, to itself and to 2^p.
fn borders(file: &mut File, record: &Record) {
    let (bytes, n) = (record.pack(), 1 << record.p);
    let rooms = [bytes.len(), bytes.len() - 1, 0];
    for value in [0, 1, n / 2, n - 1, n, n + 1].into_iter().chain(LARGE) {
        let rooms = if value <= n + 1 { &rooms[..] } else { &rooms[..1] };
        rooms.iter().for_each(|room| drop(file.add(WITH_TAIL, *room, &bytes, &datum(value))));
    }
    let last = with_value(record, (n - 1) as usize);
    for value in [0, n - 1, n] {
        file.add(WITH_TAIL, bytes.len() + 3, &last, &datum(value));
    }
}

/// The records of the refusal table and the readings, all but one of them refused, with room and without, with a good
/// datum and with one that is too large: the record comes first.
fn refused(file: &mut File) {
    let bad_tail = with_value(&load(&listed()).expect("the record is good"), 4);
    let records = RECORDS[1..].iter().chain([&OLD_E2]).map(|record| hex(record)).chain([bad_tail]);
    for record in records {
        file.add(WITH_TAIL, 64, &record, &datum(1));
        file.add(WITH_TAIL, 0, &record, &datum(u64::MAX));
    }
}

/// A record of the pool, with tail datum 0 or another, and a datum that is mostly below 2^p; sometimes with a bit of
/// the record changed.
fn any(file: &mut File, random: &mut Random, pool: &Pool) {
    let good = if random.once_in(2) { tailed::any(random, pool) } else { random.pick(&pool.small).clone() };
    let n = 1 << good.record.p;
    let value = if random.once_in(5) { n + random.below(300) } else { random.below(n) };
    let mut bytes = good.bytes;
    if random.once_in(6) {
        let place = random.below(bytes.len());
        bytes[place] ^= 1 << random.below(8);
    }
    file.add(WITH_TAIL, any_room(random, bytes.len()), &bytes, &datum(value as u64));
}
