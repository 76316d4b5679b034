//! Compiles every run-length job with rising data in each state, as the document first had it, and with the data of
//! request (c), and prints how the records and their windows differ.

use reference::compile::{rising, with_window};
use reference::data;
use reference::job::Job;
use reference::record::Record;
use reference::table::Table;
use reference::vectors::jobs::every_run_length;
use std::cmp::Ordering;
use std::collections::{BTreeMap, BTreeSet};

#[derive(Default)]
struct Counts {
    compiled: u32,
    changed: u32,
    smaller: u32,
    stayed: u32,
    traded: u32,
    larger: Vec<String>,
    /// Tables in which a word means one datum, with rising data and with those of request (c).
    one_datum: [u32; 2],
    /// Tables in which a word has the same data in every state that has it.
    same_data: [u32; 2],
}

/// For each word the sets of data that states with this word give it.
fn data_sets(table: &Table) -> BTreeMap<u8, BTreeSet<Vec<usize>>> {
    let mut sets: BTreeMap<u8, BTreeSet<Vec<usize>>> = BTreeMap::new();
    for row in &table.rows {
        for entry in row {
            let data = (0..row.len()).filter(|datum| row[*datum].word == entry.word).collect();
            sets.entry(entry.word).or_default().insert(data);
        }
    }
    sets
}

impl Counts {
    fn add(&mut self, job: &[u8], old: &Record, new: &Record) {
        self.compiled += 1;
        self.changed += u32::from(old.pack() != new.pack());
        match (new.m + new.a).cmp(&(old.m + old.a)) {
            Ordering::Less => self.smaller += 1,
            Ordering::Equal => self.stayed += 1,
            Ordering::Greater => self.larger.push(format!("{job:?} {} {}, {} {}", old.m, old.a, new.m, new.a)),
        }
        self.traded += u32::from(new.m + new.a == old.m + old.a && new.m != old.m);
        for (place, record) in [old, new].into_iter().enumerate() {
            let sets = data_sets(&record.table);
            let same = sets.values().all(|sets| sets.len() == 1);
            self.same_data[place] += u32::from(same);
            self.one_datum[place] += u32::from(same && sets.values().flatten().all(|data| data.len() == 1));
        }
    }

    fn print(&self) {
        println!("compiled by both {}, records changed {}", self.compiled, self.changed);
        println!("m + a smaller {}, as before {}, larger {}", self.smaller, self.stayed, self.larger.len());
        println!("m + a as before but m and a not {}", self.traded);
        println!("a word means one datum: before {}, now {}", self.one_datum[0], self.one_datum[1]);
        println!("a word has the same data in every state: before {}, now {}", self.same_data[0], self.same_data[1]);
        println!("larger windows, old m and a, then new:");
        self.larger.iter().for_each(|line| println!("{line}"));
    }
}

fn main() {
    let mut counts = Counts::default();
    for bytes in every_run_length() {
        let job = Job::run_length(&bytes).expect("the job is in range");
        let Ok((table, start)) = rising(&job) else { continue };
        let new = with_window(&job, start, data::given(&table));
        match (with_window(&job, start, table), new) {
            (Ok(old), Ok(new)) => counts.add(&bytes, &old, &new),
            (Err(_), Err(_)) => {}
            (old, _) => println!("{bytes:?} is refused {}", if old.is_ok() { "now only" } else { "before only" }),
        }
    }
    counts.print();
}
