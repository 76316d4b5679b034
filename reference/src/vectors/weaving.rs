//! Request (f), "Spreading a scratch": the inputs that tell, the borders of both checks, and weavings and unweavings at
//! random.

use super::coding::any_room;
use super::damage;
use super::file::{File, UNWEAVE, WEAVE};
use super::hex;
use super::pool::{Good, Pool};
use super::random::Random;
use super::stream_borders::Call;
use crate::encode;

/// Both calls.
pub const WAYS: [u8; 2] = [WEAVE, UNWEAVE];

const SIX: &str = "01 02 03 04 05 06";

/// Weavings and unweavings that tell: the kind, D, the words, the room. Those of 32 words and of none stand apart.
const TELLING: [(u8, u64, &str, usize); 9] = [
    (WEAVE, 2, SIX, 6),
    (UNWEAVE, 2, "01 04 02 05 03 06", 6),
    (WEAVE, 3, SIX, 6),
    (UNWEAVE, 2, SIX, 6),         // the same places
    (WEAVE, 4, SIX, 6),           // 4 does not divide 6
    (WEAVE, 4, SIX, 0),           // before 13
    (WEAVE, 1, "01 02", 2),       // D is 1
    (WEAVE, 2, "01 02 03 04", 3), // too little room
    (WEAVE, 17, "", 0),           // D is 17, without words
];

/// Numbers that are no D, many of which would be one that divides 16 if they were cut to 4, 6, 8, 16, 32 or 63 bits.
pub const LARGE: [u64; 13] = [
    18,
    64 + 4,
    255,
    256 + 2,
    256 + 16,
    65_536 + 4,
    1 << 32,
    (1 << 32) + 2,
    (1 << 32) + 16,
    (1 << 40) + 8,
    (1 << 63) + 2,
    u64::MAX - 1,
    u64::MAX,
];

pub fn add(file: &mut File, random: &mut Random, pool: &Pool, scale: usize) {
    telling().iter().for_each(|call| add_told(file, call));
    (2..=16).for_each(|d| every_depth(file, d));
    [2, 9, 16].iter().for_each(|d| few_words(file, *d));
    out_of_range(file);
    every_byte(file);
    for _ in 0..6 * scale {
        let good = random.pick(&pool.small);
        recordings(file, random, good);
    }
    for _ in 0..30 * scale {
        any(file, random);
    }
}

/// Input 1: D in 8 bytes.
pub fn depth(d: u64) -> Vec<u8> {
    d.to_be_bytes().to_vec()
}

/// So many words, up to 256, no two of them alike and in no order.
pub fn unlike(count: usize) -> Vec<u8> {
    (0..count).map(|i| (37 * i + 11) as u8).collect()
}

/// The inputs that tell.
pub fn telling() -> Vec<Call> {
    let told = |&(kind, d, words, room): &(u8, u64, &str, usize)| (kind, room, depth(d), hex(words));
    let mut calls: Vec<Call> = TELLING.iter().map(told).collect();
    WAYS.iter().for_each(|kind| calls.push((*kind, 32, depth(16), (0..32).collect())));
    calls.extend((2..=16).map(|d| (WEAVE, 0, depth(d), vec![])));
    calls.extend([2, 16].map(|d| (UNWEAVE, 0, depth(d), vec![])));
    calls
}

/// An input that tells and, if it is done and writes anything, the same with one byte too few.
fn add_told(file: &mut File, (kind, room, first, second): &Call) {
    if file.add(*kind, *room, first, second).value > 0 {
        file.add(*kind, room - 1, first, second);
    }
}

/// Words that D divides with the exact room and one byte less; one word fewer with room for it, or one more with none;
/// one word of each recording with room to spare or none.
fn every_depth(file: &mut File, d: u64) {
    let first = depth(d);
    let (one_each, odd) = (d as usize, d % 2 == 1);
    let length = one_each * (2 + one_each % 4);
    for (kind, more) in [(WEAVE, odd), (UNWEAVE, !odd)] {
        file.add(kind, length, &first, &unlike(length));
        file.add(kind, length - 1, &first, &unlike(length));
        let (wrong, room) = if more { (length + 1, 0) } else { (length - 1, length) };
        file.add(kind, room, &first, &unlike(wrong));
        file.add(kind, if more { one_each + 5 } else { 0 }, &first, &unlike(one_each));
    }
}

/// Fewer words than recordings.
fn few_words(file: &mut File, d: u64) {
    for (kind, length) in [(WEAVE, 1), (UNWEAVE, d as usize - 1)] {
        file.add(kind, length, &depth(d), &unlike(length));
    }
}

/// D 0, 1 and 17 and large numbers, with room and with none: 16 before 13.
fn out_of_range(file: &mut File) {
    for (d, kind) in [0, 1, 17].into_iter().flat_map(|d| WAYS.map(|kind| (d, kind))) {
        for (length, room) in [(0, 0), (34, 40), (16, 0)] {
            file.add(kind, room, &depth(d), &unlike(length));
        }
    }
    for d in LARGE {
        file.add(WEAVE, 16, &depth(d), &unlike(16));
        file.add(UNWEAVE, 0, &depth(d), &unlike(16));
    }
    WAYS.iter().for_each(|kind| drop(file.add(*kind, 9, &depth(u64::MAX), &[])));
}

/// The bytes 0 to 255 in order, or as many as D divides: every byte is moved as it is. Some have a place above 255.
fn every_byte(file: &mut File) {
    for (d, count) in [(2, 256), (8, 256), (15, 270), (16, 240)] {
        let bytes: Vec<u8> = (0..count).map(|byte| byte as u8).collect();
        WAYS.iter().for_each(|kind| drop(file.add(*kind, bytes.len(), &depth(d), &bytes)));
    }
}

/// Recordings under one record woven, and unwoven again after up to D neighbouring places were overwritten.
fn recordings(file: &mut File, random: &mut Random, good: &Good) {
    let (p, q) = (good.record.p, good.record.q);
    let blocks = random.within(1, 6);
    let d = random.within(2, (100 / (blocks + good.record.a)).clamp(2, 16));
    let mut words = Vec::new();
    (0..d).for_each(|_| words.extend(encode::words(&good.record, &random.bytes(blocks, 1 << p))));
    let places = file.add(WEAVE, words.len(), &depth(d as u64), &words).output;
    let count = random.within(1, d);
    let f = random.below(places.len() - count + 1);
    let scratched = damage::scratch(random, &places, (f, f + count - 1), q);
    file.add(UNWEAVE, places.len(), &depth(d as u64), &scratched);
}

/// Any bytes with any D, once in a while a length that it does not divide, D out of range, or another room, at times
/// several of these at once.
fn any(file: &mut File, random: &mut Random) {
    let d = random.within(2, 16);
    let mut length = d * random.below(9);
    if random.once_in(5) {
        length += random.within(1, d - 1);
    }
    let d = match random.below(12) {
        0 => random.below(2),
        1 => random.within(17, 300),
        _ => d,
    };
    let words = random.bytes(length, 256);
    let kind = *random.pick(&WAYS);
    file.add(kind, any_room(random, length), &depth(d as u64), &words);
}
