//! Writes records of tables as they were published: `published FOLDER`.

use reference::published::records;

fn main() -> std::io::Result<()> {
    let Some(folder) = std::env::args().nth(1) else {
        eprintln!("published FOLDER");
        std::process::exit(2);
    };
    for (name, record) in records() {
        let Some(record) = record else {
            println!("{name}: not accepted with any constraint start");
            continue;
        };
        std::fs::write(format!("{folder}/{name}.sbc"), record.pack())?;
        let states = record.table.states();
        println!("{name}: {states} states, m {}, a {}, constraint start {}", record.m, record.a, record.start);
    }
    Ok(())
}
