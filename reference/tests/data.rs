//! Request (c), "One word, one datum where it can be": the rule written a second time, with its readings as choices,
//! and the inputs that tell them apart. What holds of every table has a file of its own.

use reference::compile::{compile, rising};
use reference::component::{component, Graph};
use reference::data::given;
use reference::job::Job;
use reference::split::split_all;
use reference::table::Table;
use reference::vectors::fixed::LISTED;
use reference::vectors::jobs::every_run_length;
use reference::window::Search;

/// When edges with no datum of an earlier state take the free data.
#[derive(Clone, Copy, PartialEq)]
enum Passes {
    Two,
    One,
}

/// Which earlier states are asked: the lowest that has the word, or the next one too when its data are taken.
#[derive(Clone, Copy, PartialEq)]
enum Asked {
    Lowest,
    Next,
}

/// Which data of the earlier state count.
#[derive(Clone, Copy, PartialEq)]
enum Data {
    New,
    Rising,
}

/// In which order, by word, then target, the edges of a state ask.
#[derive(Clone, Copy, PartialEq)]
enum Order {
    Rising,
    Falling,
}

type Reading = (Passes, Asked, Data, Order);

/// The reading of the project.
const READING: Reading = (Passes::Two, Asked::Lowest, Data::New, Order::Rising);

type Edge = (u8, usize);

/// A state: its edges in order of word, then target, and the datum of each.
type State = (Vec<Edge>, Vec<usize>);

/// The data that an edge of this word is offered, first offer first.
fn offers(earlier: &[State], word: u8, (_, asked, data, _): Reading) -> Vec<usize> {
    let mut offers = vec![];
    for (edges, new) in earlier {
        let places = (0..edges.len()).filter(|place| edges[*place].0 == word);
        let mut here: Vec<usize> = places.map(|place| if data == Data::New { new[place] } else { place }).collect();
        here.sort();
        if asked == Asked::Next || offers.is_empty() {
            offers.extend(here);
        }
    }
    offers
}

/// The data of one state's edges.
fn data_of(earlier: &[State], edges: &[Edge], reading: Reading) -> Vec<usize> {
    let mut order: Vec<usize> = (0..edges.len()).collect();
    if reading.3 == Order::Falling {
        order.reverse();
    }
    let mut free: Vec<usize> = (0..edges.len()).collect();
    let mut data = vec![None; edges.len()];
    for place in order {
        let mut wanted = offers(earlier, edges[place].0, reading);
        if reading.0 == Passes::One {
            wanted.extend(0..edges.len());
        }
        data[place] = wanted.into_iter().find(|datum| free.contains(datum));
        free.retain(|datum| data[place] != Some(*datum));
    }
    let mut free = free.into_iter();
    data.into_iter().map(|datum| datum.or_else(|| free.next()).unwrap()).collect()
}

/// The rows of a table in order of the data that a reading gives.
fn rows(edges: &[Vec<Edge>], reading: Reading) -> Vec<Vec<Edge>> {
    let mut states: Vec<State> = vec![];
    for row in edges {
        let data = if states.is_empty() { (0..row.len()).collect() } else { data_of(&states, row, reading) };
        states.push((row.clone(), data));
    }
    let sorted = |(edges, data): State| {
        let mut both: Vec<(usize, Edge)> = data.into_iter().zip(edges).collect();
        both.sort();
        both.into_iter().map(|(_, edge)| edge).collect()
    };
    states.into_iter().map(sorted).collect()
}

fn edges(table: &Table) -> Vec<Vec<Edge>> {
    table.rows.iter().map(|row| row.iter().map(|entry| (entry.word, entry.next)).collect()).collect()
}

fn run_length(bytes: [u8; 5]) -> Job {
    Job::run_length(&bytes).unwrap()
}

/// What a reading gives for a run-length job.
fn by(reading: Reading, bytes: [u8; 5]) -> Vec<Vec<Edge>> {
    rows(&edges(&rising(&run_length(bytes)).unwrap().0), reading)
}

fn compiled(bytes: [u8; 5]) -> Vec<Vec<Edge>> {
    edges(&compile(&run_length(bytes)).unwrap().table)
}

#[test]
fn both_writings_agree() {
    let mut tables = 0;
    for bytes in every_run_length() {
        let Ok((table, _)) = rising(&run_length(bytes)) else { continue };
        assert_eq!(edges(&given(&table)), rows(&edges(&table), READING), "{bytes:?}");
        tables += 1;
    }
    assert_eq!(tables, 13_665 + 30, "those that compile and those with refusal 6");
}

/// One pass would give 010 of state 2 the datum 0 before 110 asks for it, and so leave no edge what it asks for.
#[test]
fn two_passes_a_state() {
    let one = by((Passes::One, Asked::Lowest, Data::New, Order::Rising), LISTED);
    assert_eq!(compiled(LISTED)[2], [(6, 1), (7, 0), (2, 1), (7, 2)]);
    assert_eq!(one[2], [(2, 1), (6, 1), (7, 0), (7, 2)]);
}

#[test]
fn only_the_lowest_earlier_state_is_asked() {
    let next = (Passes::Two, Asked::Next, Data::New, Order::Rising);
    for bytes in [[0, 2, 3, 4, 3], [1, 4, 2, 4, 2], [0, 1, 2, 3, 7]] {
        assert_ne!(compiled(bytes), by(next, bytes), "{bytes:?}");
    }
    assert_eq!(compiled(LISTED), by(next, LISTED), "the listing does not tell");
}

/// 110 of state 2 asks state 1, which gave it 0 and had it at 2 before.
#[test]
fn the_data_newly_given_count() {
    let old = (Passes::Two, Asked::Lowest, Data::Rising, Order::Rising);
    assert_eq!(compiled(LISTED)[2][0], (6, 1));
    assert_eq!(by(old, LISTED)[2][2], (6, 1));
    for bytes in [[0, 2, 3, 4, 3], [1, 4, 2, 4, 2]] {
        assert_ne!(compiled(bytes), by(old, bytes), "{bytes:?}");
    }
}

/// Of the edges of state 2 with word 111 the one to the lower state takes the datum of state 1.
#[test]
fn the_edges_of_a_state_take_data_in_order() {
    let falling = by((Passes::Two, Asked::Lowest, Data::New, Order::Falling), LISTED);
    assert_eq!(compiled(LISTED)[2][1], (7, 0));
    assert_eq!(falling[2][1], (7, 2));
}

/// The other reading: the states that are removed later are asked too.
fn before_renumbering(bytes: [u8; 5]) -> Vec<Vec<Edge>> {
    let job = run_length(bytes);
    let graph = split_all(component(&job).unwrap().0, job.n()).unwrap();
    let kept: Vec<Vec<Edge>> = graph.edges.iter().map(|row| row[..job.n()].to_vec()).collect();
    edges(&Table::of(&Graph { edges: rows(&kept, READING), ..graph }, job.n()))
}

#[test]
fn after_renumbering() {
    for bytes in [[4, 14, 1, 3, 3], [5, 13, 1, 4, 3], [6, 14, 1, 4, 3]] {
        assert_ne!(compiled(bytes), before_renumbering(bytes), "{bytes:?}");
    }
    assert_eq!(compiled(LISTED), before_renumbering(LISTED), "no state is removed there");
}

/// The other reading, the window of the table with rising data, is 1 and 1 for the listing, which works here too but is
/// not the least, and for the last job 3 and 8, which does not work.
#[test]
fn the_window_is_searched_on_the_new_table() {
    for (bytes, old, works) in [(LISTED, (1, 1), true), ([2, 8, 1, 2, 7], (3, 8), false)] {
        let record = compile(&run_length(bytes)).unwrap();
        assert_eq!(Search::of(&rising(&run_length(bytes)).unwrap().0).least(), Some(old));
        assert_eq!(Search::of(&record.table).works(old.0, old.1), works);
        assert_ne!((record.m, record.a), old);
    }
}
