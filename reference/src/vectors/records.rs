//! Records to check: whole, foreign, and damaged in every field.

use super::damage::{field, fields, other_fields, with_field, IN_FRONT};
use super::file::File;
use super::fixed::{mfm, E2};
use super::foreign;
use super::hex;
use super::pool::{Good, Pool};
use super::random::Random;
use crate::record::Record;

pub fn add(file: &mut File, random: &mut Random, pool: &Pool, scale: usize) {
    every_value(file, &Good::of(hex(E2)).expect("E2 is good"));
    every_value(file, &Good::of(mfm()).expect("E8 is good"));
    for good in pool.small.iter().chain(&pool.middle) {
        file.check(&good.bytes);
    }
    pool.small.iter().take(12).for_each(|good| every_length(file, &good.bytes));
    for (count, goods) in [(1204, &pool.small), (150, &pool.middle), (18, &pool.large)] {
        file.rounds(count * scale, |file| one_field(file, random, goods));
    }
    file.rounds(98 * scale, |file| windows_about(file, &foreign::any(random)));
    file.rounds(226 * scale, |file| {
        let good = random.pick(&pool.small);
        file.check(&foreign::with_unreachable(random, &good.record).pack());
    });
    file.rounds(226 * scale, |file| several_faults(file, random, pool));
}

/// Every value of every field.
fn every_value(file: &mut File, good: &Good) {
    for place in fields(&good.record) {
        for value in 0..1 << place.1 {
            file.check(&with_field(&good.bytes, place, value));
        }
    }
}

/// The record cut to every length, and lengthened by zero bytes.
fn every_length(file: &mut File, bytes: &[u8]) {
    for length in 0..bytes.len() {
        file.check(&bytes[..length]);
    }
    for more in 1..=3 {
        file.check(&[bytes, &vec![0; more]].concat());
    }
}

/// One field of a record set to a value near its own, to its least or greatest, or to any.
fn one_field(file: &mut File, random: &mut Random, goods: &[Good]) {
    let good = random.pick(goods);
    let fields = other_fields(&good.record);
    let header = random.once_in(4);
    let place = if header { *random.pick(&fields[..IN_FRONT]) } else { *random.pick(&fields) };
    let most = (1usize << place.1) - 1;
    let old = field(&good.bytes, place);
    let value = match random.below(4) {
        0 => old ^ 1,
        1 => old.wrapping_add(1) & most,
        2 => *random.pick(&[0, most]),
        _ => random.below(most + 1),
    };
    file.check(&with_field(&good.bytes, place, value));
}

/// A record with its least window, and with windows about it.
fn windows_about(file: &mut File, record: &Record) {
    let (m, a) = (record.m, record.a);
    let about = [(m, a), (m + 1, a), (m, a + 1), (m.wrapping_sub(1), a), (m, a.wrapping_sub(1))];
    let traded = [(m.wrapping_sub(1), a + 1), (m + 1, a.wrapping_sub(1)), (0, 15), (15, 0), (15, 15)];
    for (m, a) in about.into_iter().chain(traded) {
        if m <= 15 && a <= 15 {
            file.check(&Record { m, a, ..record.clone() }.pack());
        }
    }
}

/// Two or three fields changed, sometimes with the length wrong too: the first refusal in the order wins.
fn several_faults(file: &mut File, random: &mut Random, pool: &Pool) {
    let good = random.pick(&pool.small);
    let fields = other_fields(&good.record);
    let mut bytes = good.bytes.clone();
    for _ in 0..random.within(2, 3) {
        let place = if random.once_in(3) { *random.pick(&fields[..IN_FRONT]) } else { *random.pick(&fields) };
        bytes = with_field(&bytes, place, random.below(1 << place.1));
    }
    match random.below(4) {
        0 => bytes.push(0),
        1 => bytes.truncate(random.below(bytes.len())),
        _ => {}
    }
    file.check(&bytes);
}
