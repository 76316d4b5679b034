//! Compiles every run-length job and prints the counts of the answers and a checksum over all records.

use reference::calls::compile_run_length;
use reference::checksum::Checksum;
use reference::vectors::jobs::every_run_length;
use std::time::Instant;

fn main() {
    let begun = Instant::now();
    let mut counts = [0u32; 14];
    let mut longest = (0, [0; 5]);
    let mut checksum = Checksum::default();
    for job in every_run_length() {
        let answer = compile_run_length(&job, 4096);
        counts[usize::from(answer.refusal)] += 1;
        checksum.add(&job);
        checksum.add(&[answer.refusal]);
        checksum.add(&answer.output);
        if answer.output.len() > longest.0 {
            longest = (answer.output.len(), job);
        }
    }
    println!("jobs {}", counts.iter().sum::<u32>());
    println!("compiled {}", counts[0]);
    for (refusal, count) in counts.iter().enumerate().skip(1).filter(|(_, count)| **count > 0) {
        println!("refusal {refusal} {count}");
    }
    println!("longest record {} {:?}", longest.0, longest.1);
    println!("checksum {:016x}", checksum.value());
    println!("seconds {:.1}", begun.elapsed().as_secs_f64());
}
