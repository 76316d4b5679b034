//! Calls on few blocks, where checking the record and laying out the table weigh most.
use crate::chains::Chains;
use crate::compare::Numbers;
use crate::library;
use crate::speed::{medians, ready, record};

const BLOCKS: usize = 32;

/// Both decoding calls, `calls` a round, beside the decoder in Rust, which keeps its chains from call to call.
fn decode(name: &str, record: &[u8], calls: [u32; 2]) {
    let table = Chains::of(&reference::accept::load(record).expect("accepted"));
    let mut numbers = Numbers::new();
    let blocks: Vec<u8> = (0..BLOCKS).map(|_| numbers.below(1 << table.p) as u8).collect();
    let words = reference::calls::encode(record, &blocks, 100).output;
    let [mut first, mut again, mut theirs] = [(); 3].map(|_| vec![0; BLOCKS]);
    assert_eq!(library::decode(record, &words, &mut first), (0, BLOCKS as u64));
    assert_eq!(library::decode_checked(record, &words, &mut again), (0, BLOCKS as u64));
    assert_eq!(table.decode(&words, &mut theirs), BLOCKS);
    assert!(first == blocks && again == blocks && theirs == blocks);
    let t = medians(&mut [
        &mut || (0..calls[0]).for_each(|_| assert_eq!(library::decode(record, &words, &mut first).0, 0)),
        &mut || (0..calls[1]).for_each(|_| assert_eq!(library::decode_checked(record, &words, &mut again).0, 0)),
        &mut || (0..calls[1]).for_each(|_| assert_eq!(table.decode(&words, &mut theirs), BLOCKS)),
    ]);
    let us = |i: usize, calls: u32| t[i] * 1e6 / f64::from(calls);
    let [checking, checked, rust] = [us(0, calls[0]), us(1, calls[1]), us(2, calls[1])];
    println!("  {name:12} decode {checking:8.2}, decode_checked {checked:6.2}; chains in Rust {rust:6.2}");
}

/// Prints a line for each of four codes.
pub fn all() {
    println!("{BLOCKS} blocks, us a call");
    decode("listed code", &record([0, 1, 2, 3, 2]), [1000, 2000]);
    decode("MFM", &ready("mfm-1-3"), [1000, 5000]);
    decode("ach-2-7", &ready("ach-2-7"), [500, 1000]);
    decode("2 7 4 8 16", &record([2, 7, 4, 8, 16]), [4, 100]);
}
