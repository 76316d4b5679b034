//! Writes the file of test vectors: `vectors FILE [scale]`.

use reference::checksum::Checksum;
use reference::vectors::file::{Walk, KINDS};
use reference::vectors::generate;

fn main() {
    let arguments: Vec<String> = std::env::args().skip(1).collect();
    let scale = arguments.get(1).map_or(Some(1), |scale| scale.parse().ok());
    let (Some(name), Some(scale)) = (arguments.first(), scale) else {
        eprintln!("vectors FILE [scale]");
        std::process::exit(2);
    };
    let bytes = generate(scale);
    if let Err(error) = std::fs::write(name, &bytes) {
        eprintln!("{name}: {error}");
        std::process::exit(1);
    }
    report(&bytes);
}

/// Prints the number of cases of each kind with each refusal, and the longest parts.
fn report(bytes: &[u8]) {
    let mut counts = [[0u32; 256]; KINDS.len()];
    let mut longest = [0; 3];
    for case in Walk(bytes) {
        counts[usize::from(case.kind)][usize::from(case.answer.refusal)] += 1;
        for (most, part) in longest.iter_mut().zip([&case.first, &case.second, &case.answer.output]) {
            *most = part.len().max(*most);
        }
    }
    for (kind, row) in KINDS.iter().zip(counts).skip(1) {
        let parts: Vec<String> = (0..256).filter(|r| row[*r] > 0).map(|r| format!("{r}:{}", row[r])).collect();
        println!("{kind} {} ({})", row.iter().sum::<u32>(), parts.join(" "));
    }
    println!("cases {}, bytes {}", counts.iter().flatten().sum::<u32>(), bytes.len());
    let mut checksum = Checksum::default();
    checksum.add(bytes);
    println!("checksum {:016x}", checksum.value());
    println!("longest input 1 {}, input 2 {}, output {}", longest[0], longest[1], longest[2]);
}
