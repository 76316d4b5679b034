//! The plain loops in C, behind safe functions.
use crate::chains::Chains;

#[repr(C)]
struct Table {
    p: usize,
    q: usize,
    states: usize,
    memory: usize,
    lookahead: usize,
    tail: usize,
    word: *const u8,
    next: *const u8,
}

extern "C" {
    fn plain_encode(table: *const Table, blocks: *const u8, count: usize, out: *mut u8) -> usize;
    fn plain_decode(table: *const Table, words: *const u8, count: usize, out: *mut u8) -> usize;
}

fn lent(t: &Chains) -> Table {
    Table {
        p: t.p,
        q: t.q,
        states: t.states,
        memory: t.memory,
        lookahead: t.lookahead,
        tail: t.tail,
        word: t.word.as_ptr(),
        next: t.next.as_ptr(),
    }
}

/// The words of blocks.
pub fn encode(t: &Chains, blocks: &[u8], out: &mut [u8]) -> usize {
    assert!(out.len() >= blocks.len() + t.lookahead);
    unsafe { plain_encode(&lent(t), blocks.as_ptr(), blocks.len(), out.as_mut_ptr()) }
}

/// The blocks of words.
pub fn decode(t: &Chains, words: &[u8], out: &mut [u8]) -> usize {
    assert!(out.len() >= words.len());
    unsafe { plain_decode(&lent(t), words.as_ptr(), words.len(), out.as_mut_ptr()) }
}
