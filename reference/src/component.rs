//! "Compiling", step 2: the component, and the graph in work.

use crate::answer::{Refusal, WEIGHT_SUM};
use crate::job::Job;
use crate::weights;

/// The most that the weights of a component may sum to, and so the most states of a graph in work.
pub const MOST_WEIGHT: u32 = 128;

/// The graph in work: each state has a weight and its edges (word, target), in order of word, then target.
#[derive(Clone, Debug, PartialEq, Eq)]
pub struct Graph {
    pub weight: Vec<u32>,
    pub edges: Vec<Vec<(u8, usize)>>,
}

impl Graph {
    /// The number of edges: (state, word, target).
    pub fn edge_count(&self) -> usize {
        self.edges.iter().map(Vec::len).sum()
    }
}

/// The component of a job and the number that its lowest state has in the job's constraint.
/// Refusal 3 if all weights are 0, or 17 if weights were brought that fail (request (h)); then 4 if the component's
/// weights sum over 128.
pub fn component(job: &Job) -> Result<(Graph, usize), Refusal> {
    let weight = weights::used(job)?;
    let powers = job.constraint.powers(job.q);
    let reach = reachable(&powers, &weight);
    let start = (0..weight.len()).find(|s| weight[*s] > 0 && all_reach_back(&reach, *s));
    let start = start.expect("where some weight is above 0, some state is reached back from all that it reaches");
    let members: Vec<usize> = (0..weight.len()).filter(|t| reach[start][*t]).collect();
    let graph = renumbered(&powers, &weight, &members);
    if graph.weight.iter().sum::<u32>() > MOST_WEIGHT {
        return Err(WEIGHT_SUM);
    }
    Ok((graph, start))
}

/// For each state the states reachable from it, itself included. States of weight 0 and edges to them are
/// dropped; an edge is a whole word, which may pass through a state of weight 0 (the readings).
fn reachable(powers: &[Vec<Option<usize>>], weight: &[u32]) -> Vec<Vec<bool>> {
    (0..weight.len()).map(|s| reachable_from(powers, weight, s)).collect()
}

fn reachable_from(powers: &[Vec<Option<usize>>], weight: &[u32], from: usize) -> Vec<bool> {
    let mut seen = vec![false; weight.len()];
    let mut open = vec![from];
    seen[from] = true;
    while let Some(s) = open.pop() {
        for t in powers[s].iter().flatten().copied() {
            if weight[t] > 0 && !seen[t] {
                seen[t] = true;
                open.push(t);
            }
        }
    }
    seen
}

/// Every state reachable from s can reach s back.
fn all_reach_back(reach: &[Vec<bool>], s: usize) -> bool {
    (0..reach.len()).all(|t| !reach[s][t] || reach[t][s])
}

/// The graph of the members, renumbered in rising order. No edge leaves the members but to states of weight 0.
fn renumbered(powers: &[Vec<Option<usize>>], weight: &[u32], members: &[usize]) -> Graph {
    let number = |t: usize| members.iter().position(|member| *member == t);
    let row = |s: &usize| {
        let edge = |(word, target): (usize, &Option<usize>)| Some((word as u8, number((*target)?)?));
        powers[*s].iter().enumerate().filter_map(edge).collect()
    };
    Graph { weight: members.iter().map(|s| weight[*s]).collect(), edges: members.iter().map(row).collect() }
}
