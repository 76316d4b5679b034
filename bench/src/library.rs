//! The proved library's exported functions, behind safe ones.
extern "C" {
    fn sbc_check(record: *const u8, length: u64) -> u64;
    fn sbc_set(set: *const u8, length: u64) -> u64;
    fn sbc_encode(r: *const u8, rl: u64, blocks: *const u8, bl: u64, out: *mut u8, ol: u64) -> u64;
    fn sbc_decode(r: *const u8, rl: u64, words: *const u8, wl: u64, out: *mut u8, ol: u64) -> u64;
    fn sbc_encode_checked(r: *const u8, rl: u64, blocks: *const u8, bl: u64, out: *mut u8, ol: u64) -> u64;
    fn sbc_decode_checked(r: *const u8, rl: u64, words: *const u8, wl: u64, out: *mut u8, ol: u64) -> u64;
    fn sbc_pack(q: u64, words: *const u8, wl: u64, out: *mut u8, ol: u64) -> u64;
    fn sbc_unpack(q: u64, count: u64, bytes: *const u8, bl: u64, out: *mut u8, ol: u64) -> u64;
    fn sbc_encode_stream(r: *const u8, rl: u64, blocks: *const u8, bl: u64, out: *mut u8, ol: u64) -> u64;
    fn sbc_decode_stream(r: *const u8, rl: u64, count: u64, s: *const u8, sl: u64, out: *mut u8, ol: u64) -> u64;
    fn sbc_verify(r: *const u8, rl: u64, words: *const u8, wl: u64) -> u64;
    fn sbc_verify_stream(r: *const u8, rl: u64, count: u64, s: *const u8, sl: u64) -> u64;
    fn sbc_weave(depth: u64, words: *const u8, wl: u64, out: *mut u8, ol: u64) -> u64;
    fn sbc_unweave(depth: u64, words: *const u8, wl: u64, out: *mut u8, ol: u64) -> u64;
    fn sbc_info(r: *const u8, rl: u64, out: *mut u8, ol: u64) -> u64;
    fn sbc_with_tail(r: *const u8, rl: u64, datum: u64, out: *mut u8, ol: u64) -> u64;
    fn sbc_phrase(refusal: u64, out: *mut u8, ol: u64) -> u64;
    fn sbc_compile(job: *const u8, jl: u64, out: *mut u8, ol: u64) -> u64;
    fn sbc_compile_run_length(job: *const u8, jl: u64, out: *mut u8, ol: u64) -> u64;
    fn sbc_compile_joined(job: *const u8, jl: u64, out: *mut u8, ol: u64) -> u64;
    fn sbc_listing(job: *const u8, jl: u64, out: *mut u8, ol: u64) -> u64;
}

/// An answer taken apart: the refusal's number (0 for a result) and the value.
pub fn parts(word: u64) -> (u64, u64) {
    (word >> 56, word & ((1 << 56) - 1))
}

// In each call pointer and length are those of one slice, which is all that the contracts ask.

/// Whether a record is accepted.
pub fn check(record: &[u8]) -> (u64, u64) {
    parts(unsafe { sbc_check(record.as_ptr(), record.len() as u64) })
}

/// Whether a set of records is good.
pub fn set(set: &[u8]) -> (u64, u64) {
    parts(unsafe { sbc_set(set.as_ptr(), set.len() as u64) })
}

/// Blocks recorded under a record.
pub fn encode(record: &[u8], blocks: &[u8], out: &mut [u8]) -> (u64, u64) {
    let (r, b, o) = (record.as_ptr(), blocks.as_ptr(), out.as_mut_ptr());
    parts(unsafe { sbc_encode(r, record.len() as u64, b, blocks.len() as u64, o, out.len() as u64) })
}

/// Words decoded under a record.
pub fn decode(record: &[u8], words: &[u8], out: &mut [u8]) -> (u64, u64) {
    let (r, w, o) = (record.as_ptr(), words.as_ptr(), out.as_mut_ptr());
    parts(unsafe { sbc_decode(r, record.len() as u64, w, words.len() as u64, o, out.len() as u64) })
}

/// Blocks recorded under a record that was accepted before.
pub fn encode_checked(record: &[u8], blocks: &[u8], out: &mut [u8]) -> (u64, u64) {
    let (r, b, o) = (record.as_ptr(), blocks.as_ptr(), out.as_mut_ptr());
    parts(unsafe { sbc_encode_checked(r, record.len() as u64, b, blocks.len() as u64, o, out.len() as u64) })
}

/// Words decoded under a record that was accepted before.
pub fn decode_checked(record: &[u8], words: &[u8], out: &mut [u8]) -> (u64, u64) {
    let (r, w, o) = (record.as_ptr(), words.as_ptr(), out.as_mut_ptr());
    parts(unsafe { sbc_decode_checked(r, record.len() as u64, w, words.len() as u64, o, out.len() as u64) })
}

/// Words as a bit stream.
pub fn pack(q: u64, words: &[u8], out: &mut [u8]) -> (u64, u64) {
    parts(unsafe { sbc_pack(q, words.as_ptr(), words.len() as u64, out.as_mut_ptr(), out.len() as u64) })
}

/// The words of a bit stream.
pub fn unpack(q: u64, count: u64, bytes: &[u8], out: &mut [u8]) -> (u64, u64) {
    parts(unsafe { sbc_unpack(q, count, bytes.as_ptr(), bytes.len() as u64, out.as_mut_ptr(), out.len() as u64) })
}

/// Blocks recorded under a record as a bit stream.
pub fn encode_stream(record: &[u8], blocks: &[u8], out: &mut [u8]) -> (u64, u64) {
    let (r, b, o) = (record.as_ptr(), blocks.as_ptr(), out.as_mut_ptr());
    parts(unsafe { sbc_encode_stream(r, record.len() as u64, b, blocks.len() as u64, o, out.len() as u64) })
}

/// The words of a bit stream decoded under a record.
pub fn decode_stream(record: &[u8], count: u64, stream: &[u8], out: &mut [u8]) -> (u64, u64) {
    let (r, s, o) = (record.as_ptr(), stream.as_ptr(), out.as_mut_ptr());
    parts(unsafe { sbc_decode_stream(r, record.len() as u64, count, s, stream.len() as u64, o, out.len() as u64) })
}

/// How many words in front encoding the decoded blocks gives back.
pub fn verify(record: &[u8], words: &[u8]) -> (u64, u64) {
    parts(unsafe { sbc_verify(record.as_ptr(), record.len() as u64, words.as_ptr(), words.len() as u64) })
}

/// The same of the words of a bit stream.
pub fn verify_stream(record: &[u8], count: u64, stream: &[u8]) -> (u64, u64) {
    let (r, s) = (record.as_ptr(), stream.as_ptr());
    parts(unsafe { sbc_verify_stream(r, record.len() as u64, count, s, stream.len() as u64) })
}

/// Recordings that stand one after the other, woven.
pub fn weave(depth: u64, words: &[u8], out: &mut [u8]) -> (u64, u64) {
    parts(unsafe { sbc_weave(depth, words.as_ptr(), words.len() as u64, out.as_mut_ptr(), out.len() as u64) })
}

/// Woven recordings one after the other.
pub fn unweave(depth: u64, words: &[u8], out: &mut [u8]) -> (u64, u64) {
    parts(unsafe { sbc_unweave(depth, words.as_ptr(), words.len() as u64, out.as_mut_ptr(), out.len() as u64) })
}

/// The numbers of a record.
pub fn info(record: &[u8], out: &mut [u8]) -> (u64, u64) {
    parts(unsafe { sbc_info(record.as_ptr(), record.len() as u64, out.as_mut_ptr(), out.len() as u64) })
}

/// A record with another tail datum.
pub fn with_tail(record: &[u8], datum: u64, out: &mut [u8]) -> (u64, u64) {
    let (r, o) = (record.as_ptr(), out.as_mut_ptr());
    parts(unsafe { sbc_with_tail(r, record.len() as u64, datum, o, out.len() as u64) })
}

/// The words of a refusal.
pub fn phrase(refusal: u64, out: &mut [u8]) -> (u64, u64) {
    parts(unsafe { sbc_phrase(refusal, out.as_mut_ptr(), out.len() as u64) })
}

/// A job compiled to a record.
pub fn compile(job: &[u8], out: &mut [u8]) -> (u64, u64) {
    parts(unsafe { sbc_compile(job.as_ptr(), job.len() as u64, out.as_mut_ptr(), out.len() as u64) })
}

/// A run-length job compiled to a record.
pub fn compile_run_length(job: &[u8], out: &mut [u8]) -> (u64, u64) {
    parts(unsafe { sbc_compile_run_length(job.as_ptr(), job.len() as u64, out.as_mut_ptr(), out.len() as u64) })
}

/// A job with two constraints compiled to a record for both.
pub fn compile_joined(job: &[u8], out: &mut [u8]) -> (u64, u64) {
    parts(unsafe { sbc_compile_joined(job.as_ptr(), job.len() as u64, out.as_mut_ptr(), out.len() as u64) })
}

/// The listing of a run-length job.
pub fn listing(job: &[u8], out: &mut [u8]) -> (u64, u64) {
    parts(unsafe { sbc_listing(job.as_ptr(), job.len() as u64, out.as_mut_ptr(), out.len() as u64) })
}
