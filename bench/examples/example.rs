//! Compiles the (0,1) code of rate 1 to 2, records four blocks under it, and reads them back. It prints
//!   record: [36, 4, 0, 64, 35, 0, 65, 1, 1, 192, 64, 64]
//!   words: [2, 3, 2, 2]
//!   blocks: [1, 0, 1, 1]
//! Build: rustc -O bench/examples/example.rs -L native=target/staticlib -l static=sbc -o target/example
extern "C" {
    fn sbc_compile_run_length(job: *const u8, jl: u64, out: *mut u8, ol: u64) -> u64;
    fn sbc_encode(r: *const u8, rl: u64, blocks: *const u8, bl: u64, out: *mut u8, ol: u64) -> u64;
    fn sbc_decode(r: *const u8, rl: u64, words: *const u8, wl: u64, out: *mut u8, ol: u64) -> u64;
}

/// The bytes that a call wrote, or its refusal.
fn written(answer: u64, mut out: Vec<u8>) -> Result<Vec<u8>, u64> {
    out.truncate((answer & ((1 << 56) - 1)) as usize);
    if answer >> 56 == 0 { Ok(out) } else { Err(answer >> 56) }
}

fn main() -> Result<(), u64> {
    let (job, data) = ([0u8, 1, 1, 2, 1], [1u8, 0, 1, 1]); // d, k, p, q, cap; four blocks
    let size = |bytes: &[u8]| bytes.len() as u64;
    let mut out = vec![0; 3865]; // the longest record
    let answer = unsafe { sbc_compile_run_length(job.as_ptr(), size(&job), out.as_mut_ptr(), size(&out)) };
    let r = written(answer, out)?;
    let mut out = vec![0; data.len() + 15]; // 15 is the longest lookahead
    let (o, ol) = (out.as_mut_ptr(), size(&out));
    let answer = unsafe { sbc_encode(r.as_ptr(), size(&r), data.as_ptr(), size(&data), o, ol) };
    let words = written(answer, out)?;
    let mut out = vec![0; words.len()];
    let (o, ol) = (out.as_mut_ptr(), size(&out));
    let answer = unsafe { sbc_decode(r.as_ptr(), size(&r), words.as_ptr(), size(&words), o, ol) };
    println!("record: {r:?}\nwords: {words:?}\nblocks: {:?}", written(answer, out)?);
    Ok(())
}
