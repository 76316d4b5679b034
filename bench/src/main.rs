//! Compares the proved library with the outside implementation, and measures both.
mod brought;
mod chains;
mod compare;
mod families;
mod hostile;
mod jobs;
mod library;
mod marks;
mod plain;
mod records;
mod short;
mod slowest;
mod speed;
mod stack;
mod streams;
mod sweep;
mod verify;
mod weaving;

fn main() {
    let arguments: Vec<String> = std::env::args().collect();
    match arguments.get(1).map(String::as_str) {
        Some("speed") => speed::all(),
        Some("sweep") => sweep::all(),
        Some("marks") => marks::all("records"),
        Some("records") => records::all("records"),
        Some("stack") => match (arguments.get(2), arguments.get(3).and_then(|s| s.parse().ok())) {
            (Some(name), Some(kib)) => stack::once(name, kib),
            _ => stack::all(),
        },
        Some("compare") => {
            let seconds = arguments.get(2).and_then(|s| s.parse().ok()).unwrap_or(10);
            compare::for_seconds(seconds);
        }
        Some("slowest") => {
            let seconds = arguments.get(2).and_then(|s| s.parse().ok()).unwrap_or(60);
            slowest::for_seconds(seconds);
        }
        _ => eprintln!("usage: bench/run speed | sweep | stack | records | marks | compare SECONDS | slowest SECONDS"),
    }
}
