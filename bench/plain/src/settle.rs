//! How often each node turns until no node can turn.

use crate::crew::turned_by;
use crate::net::{Net, Way};
use std::collections::VecDeque;

#[derive(Debug, Clone, Copy)]
pub enum Method {
    /// Full reversal: sink after sink turns.
    Turns,
    /// The same on this many threads, and then on one thread until no node can turn.
    Crew(usize),
    /// A breadth-first search from the destination. A step along a link has length 1, and a step against it length 0.
    Search,
}

pub fn settled_counts(net: &Net, dest: u32, method: Method) -> Vec<u32> {
    match method {
        Method::Turns => by_turns(net, dest, vec![0; net.nodes() as usize]),
        Method::Crew(workers) => by_crew(net, dest, workers),
        Method::Search => by_search(net, dest),
    }
}

/// If no node is a sink, it starts no thread.
fn by_crew(net: &Net, dest: u32, workers: usize) -> Vec<u32> {
    let has_sink = (0..net.nodes()).any(|x| x != dest && net.is_sink(x));
    let counts = if has_sink {
        turned_by(net, dest, workers)
    } else {
        vec![0; net.nodes() as usize]
    };
    by_turns(net, dest, counts)
}

/// How many links of node `x` point away from it at these counts.
fn outward_at(net: &Net, counts: &[u32], x: u32) -> u32 {
    let own = counts[x as usize];
    let points_away = |w: u32, way| match way {
        Way::Out => counts[w as usize] == own,
        Way::In => own == counts[w as usize] + 1,
    };
    net.row(x)
        .iter()
        .filter(|entry| points_away(entry.neighbour, entry.way))
        .count() as u32
}

/// Keeps the number of outgoing links of each node, and a queue of sinks. A turn makes all links of a sink outgoing,
/// so each neighbour has one outgoing link less.
fn by_turns(net: &Net, dest: u32, mut counts: Vec<u32>) -> Vec<u32> {
    let cap = net.nodes();
    let mut outward: Vec<u32> = if counts.iter().all(|&count| count == 0) {
        net.outward().to_vec()
    } else {
        (0..cap).map(|x| outward_at(net, &counts, x)).collect()
    };
    let can_turn =
        |counts: &[u32], x: u32| x != dest && net.degree(x) > 0 && counts[x as usize] < cap;
    let mut sinks: VecDeque<u32> = (0..cap)
        .filter(|&x| outward[x as usize] == 0 && can_turn(&counts, x))
        .collect();
    while let Some(x) = sinks.pop_front() {
        let row = net.row(x);
        counts[x as usize] += 1;
        outward[x as usize] = row.len() as u32;
        for entry in row {
            let w = entry.neighbour;
            outward[w as usize] -= 1;
            if outward[w as usize] == 0 && can_turn(&counts, w) {
                sinks.push_back(w);
            }
        }
    }
    counts
}

/// Goes level by level. A level has all nodes that steps against links reach. Then one step along a link leads to the
/// next level.
fn by_search(net: &Net, dest: u32) -> Vec<u32> {
    let far = net.nodes();
    let mut counts: Vec<u32> = (0..far)
        .map(|x| if net.degree(x) == 0 { 0 } else { far })
        .collect();
    counts[dest as usize] = 0;
    let mut queue = vec![dest];
    let mut start = 0;
    let mut level = 0;
    while start < queue.len() {
        let mut at = start;
        while at < queue.len() {
            reach(net, queue[at], Way::In, level, &mut counts, &mut queue);
            at += 1;
        }
        let end = queue.len();
        level += 1;
        for at in start..end {
            reach(net, queue[at], Way::Out, level, &mut counts, &mut queue);
        }
        start = end;
    }
    counts
}

/// Queues the nodes that were not reached before and that a link of `x` in this direction leads to.
fn reach(net: &Net, x: u32, way: Way, level: u32, counts: &mut [u32], queue: &mut Vec<u32>) {
    let far = net.nodes();
    for entry in net.row(x) {
        let count = &mut counts[entry.neighbour as usize];
        if entry.way == way && *count == far {
            *count = level;
            queue.push(entry.neighbour);
        }
    }
}
