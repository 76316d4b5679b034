//! "A set is one count byte ...": sets walked record by record.

use crate::accept::load;
use crate::answer::{Refusal, LENGTH};

/// The count of a good set; else the refusal and the number, from 0, at which the walk ends.
pub fn walk(bytes: &[u8]) -> Result<usize, (Refusal, usize)> {
    let (count, mut rest) = bytes.split_first().ok_or((LENGTH, 0))?;
    let count = usize::from(*count);
    for number in 0..count {
        let (record, after) = next_record(rest).ok_or((LENGTH, number))?;
        load(record).map_err(|refusal| (refusal, number))?;
        rest = after;
    }
    if rest.is_empty() {
        Ok(count)
    } else {
        Err((LENGTH, count))
    }
}

/// The record behind its two-byte length and what follows it; none if its length or bytes are cut off.
fn next_record(bytes: &[u8]) -> Option<(&[u8], &[u8])> {
    let (length, rest) = bytes.split_at_checked(2)?;
    rest.split_at_checked(usize::from(length[0]) << 8 | usize::from(length[1]))
}

/// The bytes of a set of these records.
pub fn pack(records: &[Vec<u8>]) -> Vec<u8> {
    let mut bytes = vec![records.len() as u8];
    for record in records {
        bytes.extend_from_slice(&(record.len() as u16).to_be_bytes());
        bytes.extend_from_slice(record);
    }
    bytes
}
