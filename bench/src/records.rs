//! The ready records: each is accepted by the proved checker, and with every smaller window refused with 10.
use crate::library;
use reference::record::Record;

/// Prints each file of the folder with its window.
pub fn all(folder: &str) {
    let files = std::fs::read_dir(folder).expect(folder).map(|entry| entry.expect(folder).path());
    let mut files: Vec<_> = files.filter(|path| path.extension().is_some_and(|end| end == "sbc")).collect();
    files.sort();
    for path in files {
        let bytes = std::fs::read(&path).expect("read");
        assert_eq!(library::check(&bytes), (0, 0), "{path:?} is accepted");
        let record = Record::parse(&bytes).expect("accepted");
        let (m, a) = (record.m, record.a);
        let earlier = |&(x, y): &(usize, usize)| (x + y, y) < (m + a, a);
        let windows: Vec<_> = (0..16).flat_map(|x| (0..16).map(move |y| (x, y))).filter(earlier).collect();
        for &(m, a) in &windows {
            let smaller = Record { m, a, ..record.clone() }.pack();
            assert_eq!(library::check(&smaller).0, 10, "{path:?} with m {m}, a {a}");
        }
        let name = path.file_name().expect("a file").to_string_lossy();
        let states = record.table.states();
        println!("{name:20} {states:3} states, m {m}, a {a}; {} smaller windows refused with 10", windows.len());
    }
}
