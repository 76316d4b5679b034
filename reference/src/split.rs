//! "Compiling", step 3: splitting.

use crate::answer::{Refusal, EDGES};
use crate::component::Graph;

/// The most edges of a graph in work.
pub const MOST_EDGES: usize = 2048;

/// Splits while some state has fewer than n edges out. Refusal 5 if there are over 2,048 edges before any split
/// or after one.
pub fn split_all(mut graph: Graph, n: usize) -> Result<Graph, Refusal> {
    within(&graph)?;
    while graph.edges.iter().any(|edges| edges.len() < n) {
        graph = split_once(graph, n);
        within(&graph)?;
    }
    Ok(graph)
}

fn within(graph: &Graph) -> Result<(), Refusal> {
    if graph.edge_count() > MOST_EDGES {
        return Err(EDGES);
    }
    Ok(())
}

/// One split.
fn split_once(mut graph: Graph, n: usize) -> Graph {
    let s = state_to_split(&graph);
    let (kept, weight) = kept_edges(&graph, s, n);
    let (mine, others) = parted(&graph.edges[s], &kept);
    let heavy = graph.weight[s];
    graph.edges[s] = mine;
    graph.weight[s] = weight;
    graph.edges.push(others);
    graph.weight.push(heavy - weight);
    double_edges_into(&mut graph, s);
    graph
}

/// The lowest state among those of greatest weight that have an edge to a lighter state.
fn state_to_split(graph: &Graph) -> usize {
    let most = graph.weight.iter().copied().max().unwrap_or(0);
    let fits = |s: &usize| graph.weight[*s] == most && first_lighter(graph, *s).is_some();
    (0..graph.weight.len()).find(fits).expect("a graph with a short state has a heaviest state above a lighter one")
}

/// The place, among the edges of s in order, of its first edge to a lighter state.
fn first_lighter(graph: &Graph, s: usize) -> Option<usize> {
    graph.edges[s].iter().position(|(_, target)| graph.weight[*target] < graph.weight[s])
}

/// The places of the edges that s keeps, and its new weight. The list is the first edge to a lighter state, which
/// stands first whatever its word (the readings), then the first n - 1 other edges.
fn kept_edges(graph: &Graph, s: usize, n: usize) -> (Vec<usize>, u32) {
    let lighter = first_lighter(graph, s).expect("the state was chosen for this edge");
    let mut list = vec![lighter];
    list.extend((0..graph.edges[s].len()).filter(|place| *place != lighter).take(n - 1));
    let weights: Vec<u32> = list.iter().map(|place| graph.weight[graph.edges[s][*place].1]).collect();
    let (first, last, sum) = run(&weights, n as u32).expect("among n weights some run sums to a multiple of n");
    (list[first..=last].to_vec(), sum / n as u32)
}

/// The consecutive run whose sum is a multiple of n: the one that ends first, and of those the shortest. Answers
/// its first and last place and its sum.
fn run(weights: &[u32], n: u32) -> Option<(usize, usize, u32)> {
    for last in 0..weights.len() {
        let mut sum = 0;
        for first in (0..=last).rev() {
            sum += weights[first];
            if sum % n == 0 {
                return Some((first, last, sum));
            }
        }
    }
    None
}

/// Edges of one state, each a word and a target.
type Row = Vec<(u8, usize)>;

/// Edges parted into those at the kept places and all others, both in order.
fn parted(edges: &[(u8, usize)], kept: &[usize]) -> (Row, Row) {
    let pick = |wanted: bool| {
        let places = (0..edges.len()).filter(|place| kept.contains(place) == wanted);
        places.map(|place| edges[place]).collect()
    };
    (pick(true), pick(false))
}

/// Every edge into s becomes two, to s and to the new last state.
fn double_edges_into(graph: &mut Graph, s: usize) {
    let new = graph.weight.len() - 1;
    for edges in &mut graph.edges {
        let doubled = |edge: &&(u8, usize)| edge.1 == s;
        let more: Vec<(u8, usize)> = edges.iter().filter(doubled).map(|(word, _)| (*word, new)).collect();
        edges.extend(more);
        edges.sort_unstable();
    }
}
