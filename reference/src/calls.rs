//! Every call as a function from bytes to an answer.

use crate::accept::load;
use crate::answer::{Answer, Refusal, BAD_BYTE, FEW_WORDS, FIELD, PARAMETER, ROOM};
use crate::compile::compile;
use crate::job::Job;
use crate::record::Record;
use crate::streams::{BitNumber, BlockNumber};
use crate::weaving::Recordings;
use crate::{decode, encode, listing, sets, streams, verify};

/// Compiles a job, with or without weights behind it (request (h)), to a record. Order: 8, 1, K by 2, 8, next states by
/// 2, 3 or with weights 17, 4, 5, 6, 13.
pub fn compile_job(job: &[u8], room: usize) -> Answer {
    compiled(Job::general(job), room)
}

/// Compiles a run-length job, with or without weights behind it (request (h)), to a record. Order: 8, 1, 2, 8, 3 or
/// with weights 17, 4, 5, 6, 13.
pub fn compile_run_length(job: &[u8], room: usize) -> Answer {
    compiled(Job::run_length(job), room)
}

/// Compiles a joined job to a record (request (a)). Order: 8 below four bytes, 1, for each constraint 8 for a missing
/// K, K by 2, 8, next states by 2; then 14, 3, 4, 5, 6, 13.
pub fn compile_joined(job: &[u8], room: usize) -> Answer {
    compiled(Job::joined(job), room)
}

fn compiled(job: Result<Job, Refusal>, room: usize) -> Answer {
    match job.and_then(|job| compile(&job)) {
        Ok(record) => Answer::fitted(record.pack(), room),
        Err(refusal) => Answer::refused(refusal, 0),
    }
}

/// Checks a record. Order: 8 below five bytes, header by 7 (the tail datum too, request (e)), 8, the rest by 7, 9, 10.
pub fn check(record: &[u8]) -> Answer {
    match load(record) {
        Ok(_) => Answer::number(0),
        Err(refusal) => Answer::refused(refusal, 0),
    }
}

/// The record with another tail datum, so that a compiled record can be made that of a rig which "closes with another
/// datum" (request (e)): as many bytes as before, of which only the four bits of the tail datum change. The datum is
/// any number of 64 bits. Order: record, 7 for a datum of 2^p or more, 13.
pub fn with_tail(record: &[u8], datum: u64, room: usize) -> Answer {
    match load(record) {
        Ok(record) => with_tail_loaded(record, datum, room),
        Err(refusal) => Answer::refused(refusal, 0),
    }
}

/// A record that is known to be good with another tail datum. Order: 7, 13.
pub fn with_tail_loaded(mut record: Record, datum: u64, room: usize) -> Answer {
    if datum >= 1 << record.p {
        return Answer::refused(FIELD, 0);
    }
    record.tail = datum as usize;
    Answer::fitted(record.pack(), room)
}

/// Records data blocks, and closes with a blocks of the tail datum (request (e)). Order: record, 13, 11.
pub fn encode(record: &[u8], blocks: &[u8], room: usize) -> Answer {
    match load(record) {
        Ok(record) => encode_loaded(&record, blocks, room),
        Err(refusal) => Answer::refused(refusal, 0),
    }
}

/// Records data blocks under a record that is known to be good. Order: 13, 11.
pub fn encode_loaded(record: &Record, blocks: &[u8], room: usize) -> Answer {
    if blocks.len() + record.a > room {
        return Answer::refused(ROOM, 0);
    }
    if let Some(place) = encode::first_bad(record, blocks) {
        return Answer::refused(BAD_BYTE, place);
    }
    Answer::written(encode::words(record, blocks))
}

/// Decodes words. Order: record, 12, 13, 11.
pub fn decode(record: &[u8], words: &[u8], room: usize) -> Answer {
    match load(record) {
        Ok(record) => decode_loaded(&record, words, room),
        Err(refusal) => Answer::refused(refusal, 0),
    }
}

/// Decodes words under a record that is known to be good. Order: 12, 13, 11.
pub fn decode_loaded(record: &Record, words: &[u8], room: usize) -> Answer {
    if words.len() < record.a {
        return Answer::refused(FEW_WORDS, 0);
    }
    if words.len() - record.a > room {
        return Answer::refused(ROOM, 0);
    }
    if let Some(place) = decode::first_bad(record, words) {
        return Answer::refused(BAD_BYTE, place);
    }
    Answer::written(decode::blocks(record, words))
}

/// Packs words of q bits to a stream (request (b)). Order: 1, 15, 13, 11.
pub fn pack(q: u64, words: &[u8], room: usize) -> Answer {
    let Some(q) = streams::width(q) else {
        return Answer::refused(PARAMETER, 0);
    };
    if let Err(refusal) = streams::within_limit(words.len() as u64) {
        return Answer::refused(refusal, 0);
    }
    if streams::length(q, words.len()) > room {
        return Answer::refused(ROOM, 0);
    }
    if let Some(place) = streams::first_bad(q, words) {
        return Answer::refused(BAD_BYTE, place);
    }
    Answer::written(streams::pack(q, words))
}

/// Unpacks so many words of q bits from a stream (request (b)). Order: 1, 15, 13.
pub fn unpack(q: u64, count: u64, stream: &[u8], room: usize) -> Answer {
    let Some(q) = streams::width(q) else {
        return Answer::refused(PARAMETER, 0);
    };
    match streams::check(q, count, stream) {
        Ok(count) => Answer::fitted(streams::unpack(q, count, stream), room),
        Err(refusal) => Answer::refused(refusal, 0),
    }
}

/// Records data blocks as a stream (request (b)), closed with the tail datum too. Order: record, 15, 13, 11.
pub fn encode_stream(record: &[u8], blocks: &[u8], room: usize) -> Answer {
    match load(record) {
        Ok(record) => encode_stream_loaded(&record, blocks, room),
        Err(refusal) => Answer::refused(refusal, 0),
    }
}

/// Records data blocks as a stream under a record that is known to be good. For 15 the words written are counted,
/// closing words included. Order: 15, 13, 11.
pub fn encode_stream_loaded(record: &Record, blocks: &[u8], room: usize) -> Answer {
    let count = blocks.len() + record.a;
    if let Err(refusal) = streams::within_limit(count as u64) {
        return Answer::refused(refusal, 0);
    }
    if streams::length(record.q, count) > room {
        return Answer::refused(ROOM, 0);
    }
    if let Some(place) = encode::first_bad(record, blocks) {
        return Answer::refused(BAD_BYTE, place);
    }
    Answer::written(streams::pack(record.q, &encode::words(record, blocks)))
}

/// Decodes a stream of so many words (request (b)). Order: record, 15, 12, 13.
pub fn decode_stream(record: &[u8], count: u64, stream: &[u8], room: usize) -> Answer {
    match load(record) {
        Ok(record) => decode_stream_loaded(&record, count, stream, room),
        Err(refusal) => Answer::refused(refusal, 0),
    }
}

/// Decodes a stream under a record that is known to be good. Words of q bits are below 2^q, so that 11 cannot come.
/// Order: 15, 12, 13.
pub fn decode_stream_loaded(record: &Record, count: u64, stream: &[u8], room: usize) -> Answer {
    match streams::check(record.q, count, stream) {
        Ok(count) => decode_loaded(record, &streams::unpack(record.q, count, stream), room),
        Err(refusal) => Answer::refused(refusal, 0),
    }
}

/// How many words in front encoding the decoded blocks gives back: all of them exactly if they are a recording. It is a
/// call beyond the documents. It writes nothing, so that 13 cannot come. Order: record, 12, 11.
pub fn verify(record: &[u8], words: &[u8]) -> Answer {
    match load(record) {
        Ok(record) => verify_loaded(&record, words),
        Err(refusal) => Answer::refused(refusal, 0),
    }
}

/// The same under a record that is known to be good: decoding with room enough, then encoding. Order: 12, 11.
pub fn verify_loaded(record: &Record, words: &[u8]) -> Answer {
    let decoded = decode_loaded(record, words, words.len());
    if decoded.refusal != 0 {
        return decoded;
    }
    Answer::number(verify::given_back(record, words, &decoded.output))
}

/// The same of a stream of so many words, answered in words. Order: record, 15, 12.
pub fn verify_stream(record: &[u8], count: u64, stream: &[u8]) -> Answer {
    match load(record) {
        Ok(record) => verify_stream_loaded(&record, count, stream),
        Err(refusal) => Answer::refused(refusal, 0),
    }
}

/// The same of a stream under a record that is known to be good. Words of q bits are below 2^q, so that 11 cannot come.
/// Order: 15, 12.
pub fn verify_stream_loaded(record: &Record, count: u64, stream: &[u8]) -> Answer {
    match streams::check(record.q, count, stream) {
        Ok(count) => verify_loaded(record, &streams::unpack(record.q, count, stream)),
        Err(refusal) => Answer::refused(refusal, 0),
    }
}

/// The first and the last block that can differ when channel bits first to last are overwritten (request (b)). Order:
/// record, 15.
pub fn reach(record: &[u8], first: u64, last: u64) -> Result<(BlockNumber, BlockNumber), Refusal> {
    streams::reach(&load(record)?, BitNumber(first), BitNumber(last))
}

/// Weaves D recordings of the same number of words, handed over one after the other (request (f)). D is any number of
/// 64 bits. No q comes with the call, so that no word is compared with anything. Order: 16, 13.
pub fn weave(depth: u64, words: &[u8], room: usize) -> Answer {
    match Recordings::of(depth, words.len()) {
        Ok(recordings) => Answer::fitted(recordings.weave(words), room),
        Err(refusal) => Answer::refused(refusal, 0),
    }
}

/// Unweaves places to D recordings, one after the other (request (f)). D is any number of 64 bits. Order: 16, 13.
pub fn unweave(depth: u64, places: &[u8], room: usize) -> Answer {
    match Recordings::of(depth, places.len()) {
        Ok(recordings) => Answer::fitted(recordings.unweave(places), room),
        Err(refusal) => Answer::refused(refusal, 0),
    }
}

/// Walks a set: its count, or the refusal with the number of the record at which the walk ends.
pub fn set(bytes: &[u8]) -> Answer {
    match sets::walk(bytes) {
        Ok(count) => Answer::number(count),
        Err((refusal, number)) => Answer::refused(refusal, number),
    }
}

/// The listing program's text for five bytes; a job with weights behind it is refused with 8. A refused job has a text
/// too, `refused` and the number, so that the only refusal of this call is 13, when the text does not fit.
pub fn listing(job: &[u8], room: usize) -> Answer {
    Answer::fitted(listing::text(job).into_bytes(), room)
}
