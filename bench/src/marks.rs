//! How often a damaged recording is read wrong with no mark: every single bit of recordings of 200 blocks is flipped.
use crate::library;
use reference::record::Record;
use reference::vectors::random::Random;

const BLOCKS: usize = 200;

/// The marks of a decoder, which are no data: for the words up to the block, and for the words ahead.
const MARKS: [u8; 2] = [254, 255];

/// What flipping each bit of one recording came to.
#[derive(Default)]
struct Tally {
    cases: usize,
    right: usize,
    marked: usize,
    before: usize,
    ahead: usize,
    unmarked: usize,
}

/// Prints a line for each record of the folder.
pub fn all(folder: &str) {
    println!("| Record | Bits flipped, one at a time | Data right | Wrong, some block marked | some 254 | some 255 | Wrong, no block marked |");
    println!("|---|---|---|---|---|---|---|");
    for name in ["listed-0-1", "listed-first-0-1", "mfm-1-3", "ach-2-7", "ahm-1-7", "ibm-2-7", "xerox-2-7"] {
        let bytes = std::fs::read(format!("{folder}/{name}.sbc")).expect(name);
        let t = flipped(&bytes);
        print!("| `{name}.sbc` | {} | {} | {} ", t.cases, t.right, t.marked);
        println!("| {} | {} | {} |", t.before, t.ahead, t.unmarked);
    }
}

/// Records blocks, flips each bit of the recording in turn, and decodes. Blocks out of the bad word's reach are right.
fn flipped(bytes: &[u8]) -> Tally {
    let record = Record::parse(bytes).expect("a ready record");
    let data = Random::seeded(1).bytes(BLOCKS, 1 << record.p);
    let mut words = vec![0; BLOCKS + record.a];
    assert_eq!(library::encode(bytes, &data, &mut words), (0, words.len() as u64));
    let mut tally = Tally::default();
    for word in 0..words.len() {
        for bit in 0..record.q {
            let mut read = words.clone();
            read[word] ^= 1 << bit;
            let mut blocks = vec![0; BLOCKS];
            assert_eq!(library::decode(bytes, &read, &mut blocks), (0, BLOCKS as u64));
            let wrong: Vec<usize> = (0..BLOCKS).filter(|&block| blocks[block] != data[block]).collect();
            assert!(wrong.iter().all(|block| (word.saturating_sub(record.a)..=word + record.m).contains(block)));
            tally.cases += 1;
            let [before, ahead] = MARKS.map(|mark| blocks.contains(&mark));
            tally.before += usize::from(before);
            tally.ahead += usize::from(ahead);
            match (wrong.is_empty(), before || ahead) {
                (true, _) => tally.right += 1,
                (false, true) => tally.marked += 1,
                (false, false) => tally.unmarked += 1,
            }
        }
    }
    tally
}
