//! The format of the file: writing it, and walking it again.

use crate::answer::Answer;
use crate::calls;
use std::collections::HashSet;

pub const COMPILE_JOB: u8 = 1;
pub const COMPILE_RUN_LENGTH: u8 = 2;
pub const CHECK: u8 = 3;
pub const ENCODE: u8 = 4;
pub const DECODE: u8 = 5;
pub const SET: u8 = 6;
pub const LISTING: u8 = 7;
pub const COMPILE_JOINED: u8 = 8;
pub const PACK: u8 = 9;
pub const UNPACK: u8 = 10;
pub const ENCODE_STREAM: u8 = 11;
pub const DECODE_STREAM: u8 = 12;
pub const WITH_TAIL: u8 = 13;
pub const WEAVE: u8 = 14;
pub const UNWEAVE: u8 = 15;
pub const VERIFY: u8 = 16;
pub const VERIFY_STREAM: u8 = 17;

/// The kinds by number; those from their count up to 23 are kept for calls to come, and a file has none from 24 on.
pub const KINDS: [&str; 18] = [
    "",
    "compile_job",
    "compile_run_length",
    "check",
    "encode",
    "decode",
    "set",
    "listing",
    "compile_joined",
    "pack",
    "unpack",
    "encode_stream",
    "decode_stream",
    "with_tail",
    "weave",
    "unweave",
    "verify",
    "verify_stream",
];

/// Room enough for every record.
pub const RECORD_ROOM: usize = 4096;

/// Of so many rounds of random cases under records one is left out.
const LEFT_OUT: usize = 8;

/// Makes one call.
pub fn call(kind: u8, room: usize, first: &[u8], second: &[u8]) -> Answer {
    match kind {
        COMPILE_JOB => calls::compile_job(first, room),
        COMPILE_RUN_LENGTH => calls::compile_run_length(first, room),
        CHECK => calls::check(first),
        ENCODE => calls::encode(first, second, room),
        DECODE => calls::decode(first, second, room),
        SET => calls::set(first),
        LISTING => calls::listing(first, room),
        COMPILE_JOINED => calls::compile_joined(first, room),
        PACK => calls::pack(u64::from(first[0]), second, room),
        UNPACK => calls::unpack(u64::from(first[0]), split_count(&first[1..]).0, second, room),
        ENCODE_STREAM => calls::encode_stream(first, second, room),
        DECODE_STREAM => {
            let (count, stream) = split_count(second);
            calls::decode_stream(first, count, stream, room)
        }
        WITH_TAIL => calls::with_tail(first, split_count(second).0, room),
        WEAVE => calls::weave(split_count(first).0, second, room),
        UNWEAVE => calls::unweave(split_count(first).0, second, room),
        VERIFY => calls::verify(first, second),
        VERIFY_STREAM => {
            let (count, stream) = split_count(second);
            calls::verify_stream(first, count, stream)
        }
        _ => panic!("no such kind"),
    }
}

/// A count, a datum or D in 8 bytes, most significant first, and the bytes behind it.
fn split_count(bytes: &[u8]) -> (u64, &[u8]) {
    let (count, rest) = bytes.split_first_chunk().expect("a count of eight bytes");
    (u64::from_be_bytes(*count), rest)
}

/// A file in the making.
#[derive(Default)]
pub struct File {
    bytes: Vec<u8>,
    inputs: HashSet<Vec<u8>>,
    /// Nothing is added now.
    silent: bool,
}

impl File {
    /// Adds one case with its answer, unless it is there already, and hands the answer back.
    pub fn add(&mut self, kind: u8, room: usize, first: &[u8], second: &[u8]) -> Answer {
        let answer = call(kind, room, first, second);
        let begun = self.bytes.len();
        self.bytes.push(kind);
        self.two(room);
        self.counted(first);
        self.counted(second);
        if self.silent || !self.inputs.insert(self.bytes[begun..].to_vec()) {
            self.bytes.truncate(begun);
            return answer;
        }
        self.bytes.push(answer.refusal);
        self.bytes.extend_from_slice(&answer.value.to_be_bytes());
        self.counted(&answer.output);
        answer
    }

    /// Adds a case whose output fits exactly and, if it writes anything, the same with one byte too few.
    pub fn add_exact(&mut self, kind: u8, first: &[u8], second: &[u8]) -> Answer {
        let length = call(kind, usize::from(u16::MAX), first, second).output.len();
        let answer = self.add(kind, length, first, second);
        if length > 0 {
            self.add(kind, length - 1, first, second);
        }
        answer
    }

    /// Makes so many rounds of random cases, and adds none in the last of each eight. That round is drawn all the same,
    /// so that the other rounds do not depend on how many are left out.
    pub fn rounds(&mut self, count: usize, mut round: impl FnMut(&mut File)) {
        for number in 0..count {
            self.silent = number % LEFT_OUT == LEFT_OUT - 1;
            round(self);
        }
        self.silent = false;
    }

    pub fn check(&mut self, record: &[u8]) -> Answer {
        self.add(CHECK, 0, record, &[])
    }

    pub fn set(&mut self, set: &[u8]) -> Answer {
        self.add(SET, 0, set, &[])
    }

    /// The bytes so far.
    pub fn len(&self) -> usize {
        self.bytes.len()
    }

    pub fn is_empty(&self) -> bool {
        self.bytes.is_empty()
    }

    /// The whole file, ended by a kind byte 0.
    pub fn ended(mut self) -> Vec<u8> {
        self.bytes.push(0);
        self.bytes
    }

    fn two(&mut self, number: usize) {
        let number = u16::try_from(number).expect("a number of two bytes");
        self.bytes.extend_from_slice(&number.to_be_bytes());
    }

    fn counted(&mut self, bytes: &[u8]) {
        self.two(bytes.len());
        self.bytes.extend_from_slice(bytes);
    }
}

/// One case read from a file.
#[derive(Debug, PartialEq, Eq)]
pub struct Case {
    pub kind: u8,
    pub room: usize,
    pub first: Vec<u8>,
    pub second: Vec<u8>,
    pub answer: Answer,
}

/// Walks a file from its first byte to the kind byte 0.
pub struct Walk<'a>(pub &'a [u8]);

impl Walk<'_> {
    fn number(&mut self, bytes: usize) -> usize {
        let (taken, rest) = self.0.split_at(bytes);
        self.0 = rest;
        taken.iter().fold(0, |number, byte| number << 8 | usize::from(*byte))
    }

    fn counted(&mut self) -> Vec<u8> {
        let length = self.number(2);
        let (taken, rest) = self.0.split_at(length);
        self.0 = rest;
        taken.to_vec()
    }
}

impl Iterator for Walk<'_> {
    type Item = Case;

    fn next(&mut self) -> Option<Case> {
        let kind = self.number(1) as u8;
        if kind == 0 {
            return None;
        }
        let room = self.number(2);
        let (first, second) = (self.counted(), self.counted());
        let (refusal, value) = (self.number(1) as u8, self.number(4) as u32);
        let answer = Answer { refusal, value, output: self.counted() };
        Some(Case { kind, room, first, second, answer })
    }
}
