//! Bit streams: random calls beside the outside implementation, and times beside shift loops in C.
use crate::compare::{agree, damaged, Numbers};
use crate::library;
use crate::speed::{medians, record};

extern "C" {
    fn shift_pack(q: usize, words: *const u8, count: usize, out: *mut u8) -> usize;
    fn shift_unpack(q: usize, bytes: *const u8, count: usize, out: *mut u8) -> usize;
}

/// A count that is right, or nearly, or far too large.
pub fn near(numbers: &mut Numbers, count: usize) -> u64 {
    match numbers.below(12) {
        0 => count as u64 + 1,
        1 => (count as u64).saturating_sub(1),
        2 => u64::MAX - numbers.below(4) as u64,
        3 => 1_000_000 + numbers.below(3) as u64,
        _ => count as u64,
    }
}

/// Words packed, and a stream, sometimes damaged, unpacked; q is sometimes out of range.
pub fn pack(numbers: &mut Numbers) -> u64 {
    let q = numbers.below(10) as u64;
    let mask = (1u16 << q.min(8)) - 1;
    let mut words: Vec<u8> = (0..numbers.below(40)).map(|_| numbers.below(256) as u8).collect();
    if numbers.below(4) > 0 {
        words.iter_mut().for_each(|w| *w &= mask as u8);
    }
    let mut out = vec![0xa5; numbers.below(48)];
    let ours = library::pack(q, &words, &mut out);
    agree("pack", &words, ours, &out, &reference::calls::pack(q, &words, out.len()));
    words.iter_mut().for_each(|w| *w &= mask as u8);
    let stream = reference::calls::pack(q, &words, 100).output;
    let stream = if numbers.below(3) == 0 { damaged(numbers, &stream) } else { stream };
    let count = near(numbers, words.len());
    let mut out = vec![0xa5; numbers.below(48)];
    let back = library::unpack(q, count, &stream, &mut out);
    agree("unpack", &stream, back, &out, &reference::calls::unpack(q, count, &stream, out.len()));
    back.0.max(ours.0)
}

/// Blocks recorded as a stream; and the stream with a range of bits overwritten, or other damage, decoded.
pub fn code(numbers: &mut Numbers, record: &[u8], p: usize) -> u64 {
    let mut blocks: Vec<u8> = (0..numbers.below(40)).map(|_| numbers.below(1 << p) as u8).collect();
    let whole = reference::calls::encode_stream(record, &blocks, 100).output;
    let count = reference::calls::encode(record, &blocks, 100).output.len();
    let data = blocks.clone();
    if numbers.below(4) == 0 {
        blocks = damaged(numbers, &blocks);
    }
    let mut out = vec![0xa5; numbers.below(56)];
    let ours = library::encode_stream(record, &blocks, &mut out);
    agree("encode_stream", &blocks, ours, &out, &reference::calls::encode_stream(record, &blocks, out.len()));
    if numbers.below(2) == 0 && !whole.is_empty() {
        overwritten(numbers, record, &data, &whole, count);
    }
    let stream = damaged(numbers, &whole);
    let count = near(numbers, count);
    let mut out = vec![0xa5; numbers.below(48)];
    let back = library::decode_stream(record, count, &stream, &mut out);
    agree("decode_stream", &stream, back, &out, &reference::calls::decode_stream(record, count, &stream, out.len()));
    back.0.max(ours.0)
}

/// Streams at the limit of 1,000,000 words and one past it, each way.
pub fn limits(record: &[u8], a: usize) {
    let words = vec![0; 1_000_001];
    for count in [1_000_000 - a, 1_000_000, 1_000_001] {
        let mut out = vec![0xa5; 1_000_001];
        let ours = library::encode_stream(record, &words[..count], &mut out);
        agree("encode_stream", &[], ours, &out, &reference::calls::encode_stream(record, &words[..count], out.len()));
        let ours = library::encode_stream(record, &words[..count], &mut []);
        agree("encode_stream", &[], ours, &[], &reference::calls::encode_stream(record, &words[..count], 0));
        let mut out = vec![0xa5; 1_000_001];
        let ours = library::pack(8, &words[..count], &mut out);
        agree("pack", &[], ours, &out, &reference::calls::pack(8, &words[..count], out.len()));
        let mut out = vec![0xa5; 1_000_001];
        let ours = library::unpack(8, count as u64, &words[..count], &mut out);
        agree("unpack", &[], ours, &out, &reference::calls::unpack(8, count as u64, &words[..count], out.len()));
    }
}

/// A range of channel bits overwritten: blocks outside f / q - a to l / q + m come out as written.
fn overwritten(numbers: &mut Numbers, record: &[u8], data: &[u8], whole: &[u8], count: usize) {
    let header = reference::accept::load(record).expect("it recorded").header();
    let (q, m, a) = (header.q as usize, header.m as usize, header.a as usize);
    let first = numbers.below(count * q);
    let last = first + numbers.below((count * q - first).min(20));
    let mut stream = whole.to_vec();
    for bit in first..=last {
        stream[bit / 8] ^= ((numbers.below(2)) << (7 - bit % 8)) as u8;
    }
    let mut out = vec![0xa5; data.len()];
    assert_eq!(library::decode_stream(record, count as u64, &stream, &mut out), (0, data.len() as u64));
    for (j, (read, written)) in out.iter().zip(data).enumerate() {
        let reached = (first / q).saturating_sub(a) <= j && j <= last / q + m;
        assert!(reached || read == written, "bits {first} to {last} of {whole:02x?} spoil block {j}");
    }
}

/// Packing and unpacking 1,000,000 words beside shift loops in C.
fn shifts(q: usize) {
    let mut numbers = Numbers::new();
    let words: Vec<u8> = (0..1_000_000).map(|_| numbers.below(1 << q) as u8).collect();
    let mut ours = vec![0; words.len()];
    let mut theirs = ours.clone();
    let (mut back, mut again) = (ours.clone(), ours.clone());
    let (done, size) = library::pack(q as u64, &words, &mut ours);
    assert_eq!(done, 0);
    let stream = ours[..size as usize].to_vec();
    // The loops read and write as many bytes as the calls do.
    assert_eq!(unsafe { shift_pack(q, words.as_ptr(), words.len(), theirs.as_mut_ptr()) }, stream.len());
    assert_eq!(stream, theirs[..stream.len()]);
    assert_eq!(library::unpack(q as u64, 1_000_000, &stream, &mut back), (0, 1_000_000));
    assert_eq!(unsafe { shift_unpack(q, stream.as_ptr(), words.len(), again.as_mut_ptr()) }, stream.len());
    assert!(back == words && again == words);
    let t = medians(&mut [
        &mut || assert_eq!(library::pack(q as u64, &words, &mut ours).0, 0),
        &mut || assert_eq!(unsafe { shift_pack(q, words.as_ptr(), words.len(), theirs.as_mut_ptr()) }, stream.len()),
        &mut || assert_eq!(library::unpack(q as u64, 1_000_000, &stream, &mut back).0, 0),
        &mut || assert_eq!(unsafe { shift_unpack(q, stream.as_ptr(), words.len(), again.as_mut_ptr()) }, stream.len()),
    ]);
    let ms = |i: usize| t[i] * 1e3;
    println!("1,000,000 words of {q} bits, ms");
    println!("  pack {:.3}, shift loop in C {:.3}, ratio {:.2}", ms(0), ms(1), t[1] / t[0]);
    println!("  unpack {:.3}, shift loop in C {:.3}, ratio {:.2}", ms(2), ms(3), t[3] / t[2]);
}

/// Encoding to a stream and decoding from one beside the calls on bytes.
fn beside_bytes(name: &str, job: [u8; 5]) {
    let record = record(job);
    let mut numbers = Numbers::new();
    let blocks: Vec<u8> = (0..999_000).map(|_| numbers.below(1 << job[2]) as u8).collect();
    let (mut words, mut stream) = (vec![0; blocks.len() + 15], vec![0; blocks.len() + 15]);
    let (mut back, mut again) = (vec![0; blocks.len()], vec![0; blocks.len()]);
    let (done, count) = library::encode(&record, &blocks, &mut words);
    let (streamed, size) = library::encode_stream(&record, &blocks, &mut stream);
    assert_eq!((done, streamed), (0, 0));
    words.truncate(count as usize);
    stream.truncate(size as usize);
    assert_eq!(library::decode_stream(&record, count, &stream, &mut again).0, 0);
    assert_eq!(library::decode(&record, &words, &mut back).0, 0);
    assert!(back == blocks && again == blocks);
    let read = words.clone();
    let taken = stream.clone();
    let t = medians(&mut [
        &mut || assert_eq!(library::encode(&record, &blocks, &mut words).0, 0),
        &mut || assert_eq!(library::encode_stream(&record, &blocks, &mut stream).0, 0),
        &mut || assert_eq!(library::decode(&record, &read, &mut back).0, 0),
        &mut || assert_eq!(library::decode_stream(&record, count, &taken, &mut again).0, 0),
    ]);
    let ns = |i: usize| t[i] * 1e9 / blocks.len() as f64;
    println!("{name}, 999,000 blocks, ns a block with loading");
    println!("  encode {:.2}, to a stream {:.2}, ratio {:.2}", ns(0), ns(1), t[0] / t[1]);
    println!("  decode {:.2}, from a stream {:.2}, ratio {:.2}", ns(2), ns(3), t[2] / t[3]);
}

/// Prints every figure.
pub fn all() {
    shifts(3);
    shifts(8);
    beside_bytes("listed code", [0, 1, 2, 3, 2]);
    beside_bytes("1 3 1 2 1", [1, 3, 1, 2, 1]);
    beside_bytes("2 7 4 8 16", [2, 7, 4, 8, 16]);
}
