//! The file of test vectors: a deterministic choice of inputs with the answers of this implementation.

pub mod bringing;
pub mod brought;
pub mod coding;
pub mod damage;
pub mod data;
pub mod file;
pub mod fixed;
pub mod foreign;
pub mod groups;
pub mod jobs;
pub mod joined;
pub mod marks;
pub mod pool;
pub mod random;
pub mod records;
pub mod stream_borders;
pub mod streams;
pub mod tailed;
pub mod tails;
pub mod verified;
pub mod verifying;
pub mod weaving;
pub mod weight_borders;
pub mod with_tail;

use file::File;
use random::Random;

/// The bytes of the whole file. Scale 1 is the default size; the random parts grow with the scale. Each part after the
/// pool has a generator of its own, so that a part that grows or shrinks leaves the others as they are.
pub fn generate(scale: usize) -> Vec<u8> {
    let mut file = File::default();
    let mut random = Random::seeded(1);
    fixed::add(&mut file);
    jobs::add(&mut file, &mut random, scale);
    let pool = pool::Pool::gather(&mut random, scale);
    records::add(&mut file, &mut Random::seeded(2), &pool, scale);
    coding::add(&mut file, &mut Random::seeded(3), &pool, scale);
    groups::add(&mut file, &mut Random::seeded(4), &pool, scale);
    joined::add(&mut file, &mut Random::seeded(5), scale);
    streams::add(&mut file, &mut Random::seeded(6), &pool, scale);
    data::add(&mut file);
    marks::add(&mut file, &mut Random::seeded(7), &pool, scale);
    tails::add(&mut file);
    tailed::add(&mut file, &mut Random::seeded(8), &pool, scale);
    with_tail::add(&mut file, &mut Random::seeded(9), &pool, scale);
    weaving::add(&mut file, &mut Random::seeded(10), &pool, scale);
    verifying::add(&mut file);
    verified::add(&mut file, &mut Random::seeded(11), &pool, scale);
    bringing::add(&mut file);
    weight_borders::add(&mut file);
    brought::add(&mut file, &mut Random::seeded(12), scale);
    file.ended()
}

/// Bytes written in hexadecimal, blanks between them left out of account.
pub fn hex(text: &str) -> Vec<u8> {
    let digits: Vec<u8> = text.chars().filter_map(|c| c.to_digit(16)).map(|digit| digit as u8).collect();
    digits.chunks_exact(2).map(|pair| pair[0] << 4 | pair[1]).collect()
}
