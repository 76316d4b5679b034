//! The splitting written a second time, with its readings as choices: the inputs that tell them apart.

use reference::component::{component, Graph};
use reference::job::Job;
use reference::split::split_all;
use reference::table::Table;

/// Where the first edge to a lighter state stands in the list.
#[derive(Clone, Copy, PartialEq)]
enum List {
    First,
    InOrder,
}

/// Which run is taken.
#[derive(Clone, Copy, PartialEq)]
enum Run {
    EndsFirst,
    StartsFirst,
}

type Edge = (usize, u8, usize);

/// The table states and edges by a plain list of edges (state, word, target).
fn split(job: &Job, list: List, run: Run) -> (Vec<Edge>, Vec<u32>) {
    let (graph, _) = component(job).unwrap();
    let mut edges = edge_list(&graph);
    let mut weight = graph.weight;
    let n = job.n();
    while (0..weight.len()).any(|s| edges.iter().filter(|e| e.0 == s).count() < n) {
        let most = *weight.iter().max().unwrap();
        let light = |e: &&Edge| weight[e.0] == most && weight[e.2] < most;
        let s = edges.iter().filter(light).map(|e| e.0).min().unwrap();
        let (kept, sum) = kept(&edges, &weight, s, n, list, run);
        let new = weight.len();
        edges.iter_mut().filter(|e| e.0 == s && !kept.contains(e)).for_each(|e| e.0 = new);
        weight[s] = sum / n as u32;
        weight.push(most - weight[s]);
        let doubled: Vec<Edge> = edges.iter().filter(|e| e.2 == s).map(|e| (e.0, e.1, new)).collect();
        edges.extend(doubled);
        edges.sort();
    }
    (edges, weight)
}

fn edge_list(graph: &Graph) -> Vec<Edge> {
    let rows = graph.edges.iter().enumerate();
    rows.flat_map(|(s, row)| row.iter().map(move |(word, target)| (s, *word, *target))).collect()
}

/// The run's edges and the sum of its weights.
fn kept(edges: &[Edge], weight: &[u32], s: usize, n: usize, list: List, run: Run) -> (Vec<Edge>, u32) {
    let own: Vec<Edge> = edges.iter().filter(|e| e.0 == s).copied().collect();
    let lighter = *own.iter().find(|e| weight[e.2] < weight[s]).unwrap();
    let mut chosen = vec![lighter];
    chosen.extend(own.into_iter().filter(|e| *e != lighter).take(n - 1));
    if list == List::InOrder {
        chosen.sort();
    }
    let total = |first: usize, last: usize| chosen[first..=last].iter().map(|e| weight[e.2]).sum::<u32>();
    let mut runs: Vec<(usize, usize)> = (0..n).flat_map(|first| (first..n).map(move |last| (first, last))).collect();
    runs.retain(|(first, last)| total(*first, *last) % n as u32 == 0);
    runs.sort_by_key(|(first, last)| if run == Run::EndsFirst { (*last, last - first) } else { (*first, *last) });
    let (first, last) = runs[0];
    (chosen[first..=last].to_vec(), total(first, last))
}

fn job(bytes: [u8; 5]) -> Job {
    Job::run_length(&bytes).unwrap()
}

fn compiled(job: &Job) -> (Vec<Edge>, Vec<u32>) {
    let graph = split_all(component(job).unwrap().0, job.n()).unwrap();
    (edge_list(&graph), graph.weight)
}

const LIST_TELLS: [[u8; 5]; 3] = [[0, 2, 3, 4, 2], [1, 3, 2, 4, 3], [1, 4, 1, 2, 4]];
const RUN_TELLS: [[u8; 5]; 2] = [[0, 1, 2, 3, 4], [0, 2, 3, 4, 4]];

#[test]
fn both_writings_agree() {
    let more = [[0, 1, 2, 3, 2], [2, 7, 1, 2, 4], [1, 7, 2, 3, 4], [0, 2, 3, 4, 3], [2, 10, 1, 2, 8]];
    for bytes in LIST_TELLS.iter().chain(&RUN_TELLS).chain(&more) {
        let job = job(*bytes);
        assert_eq!(compiled(&job), split(&job, List::First, Run::EndsFirst), "{bytes:?}");
    }
}

#[test]
fn the_lighter_edge_stands_first() {
    for bytes in LIST_TELLS {
        let job = job(bytes);
        assert_ne!(compiled(&job), split(&job, List::InOrder, Run::EndsFirst), "{bytes:?}");
    }
}

#[test]
fn the_run_that_ends_first() {
    for bytes in RUN_TELLS {
        let job = job(bytes);
        assert_ne!(compiled(&job), split(&job, List::First, Run::StartsFirst), "{bytes:?}");
    }
}

#[test]
fn every_state_has_n_edges_and_the_weights_hold() {
    for bytes in LIST_TELLS.iter().chain(&RUN_TELLS) {
        let job = job(*bytes);
        let graph = split_all(component(&job).unwrap().0, job.n()).unwrap();
        for (s, row) in graph.edges.iter().enumerate() {
            let sum: u32 = row.iter().map(|(_, target)| graph.weight[*target]).sum();
            assert!(row.len() >= job.n() && sum >= job.n() as u32 * graph.weight[s]);
        }
        assert!(Table::of(&graph, job.n()).states() <= graph.weight.len());
    }
}
