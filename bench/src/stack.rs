//! The stack that each call needs: the smallest thread in which it returns, tried in processes of their own.
use crate::library;
use crate::speed::with_own_weights;
use std::process::{Command, Stdio};

const CALLS: [&str; 22] = [
    "check",
    "encode",
    "decode",
    "encode_checked",
    "decode_checked",
    "pack",
    "unpack",
    "encode_stream",
    "decode_stream",
    "verify",
    "verify_stream",
    "weave",
    "unweave",
    "info",
    "with_tail",
    "phrase",
    "compile",
    "compile_run_length",
    "compile_brought",
    "compile_joined",
    "listing",
    "set",
];

/// The record, and the job that gives it, of the largest run-length code.
const JOB: [u8; 5] = [2, 7, 4, 8, 16];

/// One call on the largest run-length code.
fn call(name: &str) -> (u64, u64) {
    let record = reference::calls::compile_run_length(&JOB, 65535).output;
    let mut out = vec![0; 65536];
    // Words have 8 bits, so that a list is its own stream.
    let recording = reference::calls::encode(&record, &[1; 3000], 65535).output;
    match name {
        "check" => library::check(&record),
        "encode" => library::encode(&record, &[1; 100], &mut out),
        "decode" => library::decode(&record, &[0; 100], &mut out),
        "encode_checked" => library::encode_checked(&record, &[1; 100], &mut out),
        "decode_checked" => library::decode_checked(&record, &[0; 100], &mut out),
        "pack" => library::pack(3, &[1; 100], &mut out),
        "unpack" => library::unpack(8, 100, &[1; 100], &mut out),
        "encode_stream" => library::encode_stream(&record, &[1; 100], &mut out),
        "decode_stream" => library::decode_stream(&record, 3000, &[0; 3000], &mut out),
        "verify" => library::verify(&record, &recording),
        "verify_stream" => library::verify_stream(&record, recording.len() as u64, &recording),
        "weave" => library::weave(16, &[1; 1600], &mut out),
        "unweave" => library::unweave(16, &[1; 1600], &mut out),
        "info" => library::info(&record, &mut out),
        "with_tail" => library::with_tail(&record, 15, &mut out),
        "phrase" => library::phrase(7, &mut out),
        "compile" => library::compile(&general(JOB), &mut out),
        "compile_run_length" => library::compile_run_length(&JOB, &mut out),
        "compile_brought" => library::compile_run_length(&with_own_weights(JOB), &mut out),
        "compile_joined" => library::compile_joined(&joined(JOB), &mut out),
        "listing" => library::listing(&JOB, &mut out),
        _ => library::set(&reference::sets::pack(&[record])),
    }
}

/// A run-length job as a general one.
fn general([d, k, p, q, cap]: [u8; 5]) -> Vec<u8> {
    let next = |i: u8| [if i < k { i + 1 } else { 255 }, if i >= d { 0 } else { 255 }];
    [p, q, cap, k + 1].into_iter().chain((0..=k).flat_map(next)).collect()
}

/// A run-length job joined with a constraint that allows all.
fn joined(job: [u8; 5]) -> Vec<u8> {
    [general(job), vec![1, 0, 0]].concat()
}

/// Makes one call in a thread of so many KiB, and ends badly if that is too few.
pub fn once(name: &str, kib: usize) {
    let name = name.to_owned();
    let run = move || assert_eq!(call(&name).0, 0, "{name}");
    let thread = std::thread::Builder::new().stack_size(kib * 1024).spawn(run).expect("a thread");
    thread.join().expect("the call returns");
}

fn returns(name: &str, kib: usize) -> bool {
    let mut command = Command::new(std::env::current_exe().expect("this program"));
    command.args(["stack", name, &kib.to_string()]).stderr(Stdio::null());
    command.status().expect("started").success()
}

/// Prints, for each call, the smallest stack in which it returns.
pub fn all() {
    println!("stack, KiB, on the record and the job of 2 7 4 8 16, the driver's own part included");
    for name in CALLS {
        let (mut few, mut enough) = (0, 8192);
        assert!(returns(name, enough), "{name}");
        while enough - few > 4 {
            let kib = (few + enough) / 2;
            if returns(name, kib) {
                enough = kib;
            } else {
                few = kib;
            }
        }
        println!("  {name:20} {enough}");
    }
}
