//! Random calls, good and bad, of the proved library and of the outside implementation.
use crate::brought::Brought;
use crate::speed::{E2, LISTED_FIRST};
use crate::verify::{self, Verified};
use crate::weaving::{self, Scratches};
use crate::{jobs, library, streams};
use reference::answer::Answer;
use std::time::{Duration, Instant};

/// A small generator of numbers, the same at each run.
pub struct Numbers(u64);

impl Numbers {
    pub fn new() -> Self {
        Numbers(0x9e37_79b9_7f4a_7c15)
    }

    fn next(&mut self) -> u64 {
        self.0 ^= self.0 << 13;
        self.0 ^= self.0 >> 7;
        self.0 ^= self.0 << 17;
        self.0
    }

    pub fn below(&mut self, bound: usize) -> usize {
        (self.next() % bound as u64) as usize
    }
}

/// Records of some run-length jobs, and two with memory, with their p and q; each with every tail datum.
fn records() -> Vec<(Vec<u8>, usize, usize)> {
    let jobs = [[0, 1, 1, 2, 1], [0, 1, 2, 3, 2], [1, 3, 1, 2, 1], [1, 7, 2, 3, 3], [2, 7, 1, 2, 4], [0, 2, 3, 4, 3]];
    let record = |job: &[u8; 5]| reference::calls::compile_run_length(job, 65535).output;
    let compiled = jobs.iter().map(|job| (record(job), usize::from(job[2]), usize::from(job[3])));
    let all = compiled.chain([(E2.to_vec(), 1, 2), (LISTED_FIRST.to_vec(), 2, 3)]);
    let closed = |record: &[u8], k| {
        let closed = reference::calls::with_tail(record, k, 65535).output;
        assert_eq!(library::check(&closed), (0, 0), "{record:02x?} with tail datum {k}");
        closed
    };
    all.flat_map(|(r, p, q)| (0..1 << p).map(move |k| (closed(&r, k), p, q))).collect()
}

/// Bytes with some bits turned, or cut, or lengthened.
pub fn damaged(numbers: &mut Numbers, bytes: &[u8]) -> Vec<u8> {
    let mut bytes = bytes.to_vec();
    for _ in 0..numbers.below(4) {
        let place = numbers.below(bytes.len().max(1));
        if let Some(byte) = bytes.get_mut(place) {
            *byte ^= 1 << numbers.below(8);
        }
    }
    match numbers.below(16) {
        0 => bytes.truncate(numbers.below(bytes.len() + 1)),
        1 => bytes.push(numbers.below(256) as u8),
        _ => {}
    }
    bytes
}

/// The answer and every lent byte are those of the outside implementation.
pub fn agree(what: &str, input: &[u8], ours: (u64, u64), out: &[u8], theirs: &Answer) {
    assert_eq!(ours, (u64::from(theirs.refusal), u64::from(theirs.value)), "{what} of {input:02x?}");
    let written = theirs.output.len();
    assert_eq!(out[..written], theirs.output, "{what} of {input:02x?}: what was written");
    assert!(out[written..].iter().all(|&b| b == 0xa5), "{what} of {input:02x?}: bytes past the end");
}

fn check(record: &[u8]) -> u64 {
    let ours = library::check(record);
    agree("check", record, ours, &[], &Answer { output: Vec::new(), ..reference::calls::check(record) });
    let mut numbers = [0xa5; 9];
    let answer = library::info(record, &mut numbers);
    if let Ok(theirs) = reference::accept::load(record) {
        let h = theirs.header();
        let expected = [h.p, h.q, h.states - 1, h.m, h.a, h.k, h.start, h.tail, 0xa5].map(|n| n as u8);
        assert_eq!((answer, numbers), ((0, 8), expected), "info of {record:02x?}");
    } else {
        assert_eq!((answer, numbers), (ours, [0xa5; 9]), "info of {record:02x?}");
    }
    ours.0
}

/// A record with another tail datum, one of 2^p or more among them.
fn with_tail(numbers: &mut Numbers, record: &[u8]) -> u64 {
    let datum = [numbers.below(4), numbers.below(20), usize::MAX][numbers.below(9) / 4] as u64;
    let mut out = vec![0xa5; (record.len() + 2).saturating_sub(numbers.below(4))];
    let ours = library::with_tail(record, datum, &mut out);
    agree("with_tail", record, ours, &out, &reference::calls::with_tail(record, datum, out.len()));
    ours.0
}

/// A call on a record that was accepted before does what the call that checks it does, but for refusals 9 and 10.
fn same_if_accepted(what: &str, checking: ((u64, u64), &[u8]), checked: ((u64, u64), &[u8])) {
    if checking.0 .0 != 9 && checking.0 .0 != 10 {
        assert_eq!(checking, checked, "{what}");
    }
}

/// A set of some records, some of them damaged, and the set sometimes damaged as a whole.
fn set(numbers: &mut Numbers, records: &[(Vec<u8>, usize, usize)]) -> u64 {
    let mut chosen = Vec::new();
    for _ in 0..numbers.below(6) {
        let record = &records[numbers.below(records.len())].0;
        chosen.push(if numbers.below(8) == 0 { damaged(numbers, record) } else { record.clone() });
    }
    let bytes = reference::sets::pack(&chosen);
    let bytes = if numbers.below(3) == 0 { damaged(numbers, &bytes) } else { bytes };
    let ours = library::set(&bytes);
    agree("set", &bytes, ours, &[], &Answer { output: Vec::new(), ..reference::calls::set(&bytes) });
    ours.0
}

fn encode(numbers: &mut Numbers, record: &[u8], p: usize) -> u64 {
    let mut blocks: Vec<u8> = (0..numbers.below(40)).map(|_| numbers.below(1 << p) as u8).collect();
    if numbers.below(4) == 0 {
        blocks = damaged(numbers, &blocks);
    }
    let mut out = vec![0xa5; numbers.below(56)];
    let theirs = reference::calls::encode(record, &blocks, out.len());
    let mut again = out.clone();
    let checked = library::encode_checked(record, &blocks, &mut again);
    let ours = library::encode(record, &blocks, &mut out);
    same_if_accepted("encode", (ours, &out), (checked, &again));
    agree("encode", &blocks, ours, &out, &theirs);
    ours.0
}

fn decode(numbers: &mut Numbers, record: &[u8], (p, q): (usize, usize), marks: &mut [u64; 2]) -> u64 {
    let blocks: Vec<u8> = (0..numbers.below(40)).map(|_| numbers.below(1 << p) as u8).collect();
    let mut words = reference::calls::encode(record, &blocks, 100).output;
    words = damaged(numbers, &words);
    if numbers.below(4) > 0 {
        words.iter_mut().for_each(|w| *w &= ((1u16 << q) - 1) as u8);
    }
    let mut out = vec![0xa5; numbers.below(48)];
    let theirs = reference::calls::decode(record, &words, out.len());
    let mut again = out.clone();
    let checked = library::decode_checked(record, &words, &mut again);
    let ours = library::decode(record, &words, &mut out);
    same_if_accepted("decode", (ours, &out), (checked, &again));
    agree("decode", &words, ours, &out, &theirs);
    theirs.output.iter().filter(|&&block| block >= 254).for_each(|block| marks[usize::from(block - 254)] += 1);
    ours.0
}

/// Compares for as long as it is told, and says how many calls agreed.
pub fn for_seconds(seconds: u64) {
    let records = records();
    let mut numbers = Numbers::new();
    streams::limits(&records[0].0, 0);
    streams::limits(&records[1].0, 1);
    weaving::limits();
    [0, 5].iter().for_each(|&i: &usize| verify::limits(&records[i].0));
    let (mut scratches, mut verified, mut brought) = (Scratches::default(), Verified::default(), Brought::default());
    let end = Instant::now() + Duration::from_secs(seconds);
    let (mut answers, mut marks) = ([0u64; 18], [0u64; 2]);
    while Instant::now() < end {
        let (record, p, q) = &records[numbers.below(records.len())];
        let bytes = if numbers.below(8) == 0 { damaged(&mut numbers, record) } else { record.clone() };
        let refusal = match numbers.below(13) {
            12 => brought.one(&mut numbers),
            11 => verified.one(&mut numbers, &bytes, (*p, *q), &records),
            10 => scratches.one(&mut numbers, record),
            9 => weaving::calls(&mut numbers),
            8 => with_tail(&mut numbers, &bytes),
            7 => streams::pack(&mut numbers),
            6 => streams::code(&mut numbers, &bytes, *p),
            5 => jobs::compile_joined(&mut numbers),
            4 => set(&mut numbers, &records),
            3 => jobs::compile(&mut numbers),
            0 => check(&damaged(&mut numbers, record)),
            1 => encode(&mut numbers, &bytes, *p),
            _ => decode(&mut numbers, &bytes, (*p, *q), &mut marks),
        };
        answers[refusal as usize] += 1;
    }
    println!("{} calls, no difference; answers by number: {answers:?}", answers.iter().sum::<u64>());
    println!("{} decoded blocks marked 254, {} marked 255", marks[0], marks[1]);
    verified.print();
    scratches.print();
    brought.print();
}
