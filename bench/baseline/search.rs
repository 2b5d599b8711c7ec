//! The pair of least costs and a cheapest plan, by Dijkstra's algorithm over all states that can be reached.

use std::cmp::Reverse;
use std::collections::hash_map::Entry;
use std::collections::{BinaryHeap, HashMap};

use crate::domain::Domain;

/// A state and the cheapest way to it that is known: its cost, and the node and the action that it comes from.
struct Node {
    state: u64,
    cost: u32,
    from: Option<(usize, u8)>,
}

pub struct Answer {
    /// the least cost of a plan, and of one that ends in a complete state
    pub without: Option<u32>,
    pub with: Option<u32>,
    pub plan: Vec<u8>,
}

/// All states that can be reached, each with a cheapest way to it.
fn explore<D: Domain>(domain: &D) -> Vec<Node> {
    let start = domain.start();
    let mut nodes = vec![Node {
        state: start,
        cost: 0,
        from: None,
    }];
    let mut index = HashMap::from([(start, 0)]);
    let mut waiting = BinaryHeap::from([Reverse((0, start, 0))]);
    while let Some(Reverse((cost, state, at))) = waiting.pop() {
        // a cheaper way was found after this one began to wait
        if nodes[at].cost < cost {
            continue;
        }
        for action in 0..domain.action_count() {
            let Some(next) = domain.step(state, action) else {
                continue;
            };
            if next == state {
                continue;
            }
            let way = Node {
                state: next,
                cost: cost + domain.cost(action),
                from: Some((at, action)),
            };
            match index.entry(next) {
                Entry::Vacant(place) => {
                    waiting.push(Reverse((way.cost, next, nodes.len())));
                    place.insert(nodes.len());
                    nodes.push(way);
                }
                Entry::Occupied(known) => {
                    let known = *known.get();
                    if way.cost < nodes[known].cost {
                        waiting.push(Reverse((way.cost, next, known)));
                        nodes[known] = way;
                    }
                }
            }
        }
    }
    nodes
}

/// The way to the state of a node.
fn plan_to(nodes: &[Node], mut at: usize) -> Vec<u8> {
    let mut plan = Vec::new();
    while let Some((before, action)) = nodes[at].from {
        plan.push(action);
        at = before;
    }
    plan.reverse();
    plan
}

pub fn least_costs<D: Domain>(domain: &D, goal: u8) -> Answer {
    let nodes = explore(domain);
    let cheapest = |whole: bool| {
        let ends =
            |node: &Node| domain.meets(node.state, goal) && (!whole || domain.complete(node.state));
        (0..nodes.len())
            .filter(|at| ends(&nodes[*at]))
            .min_by_key(|at| nodes[*at].cost)
    };
    let without = cheapest(false);
    let with = cheapest(true);
    Answer {
        without: without.map(|at| nodes[at].cost),
        with: with.map(|at| nodes[at].cost),
        plan: with
            .or(without)
            .map_or_else(Vec::new, |at| plan_to(&nodes, at)),
    }
}
