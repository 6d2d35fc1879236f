//! A mesh whose links fail and come back. The program pushes the changed next hops to the forwarding tables of the nodes,
//! one by one, and after each push it checks that the tables have no loop. Sometimes the next link fails or comes back
//! before everything is pushed; then the pushes continue from the tables as they are. Once everything is pushed, the
//! program follows the tables from every node.

use revroute::{Hop, Network, Refused, Report};
use std::error::Error;

const SIDE: u32 = 20;
const HOME: u32 = 0;
const CHANGES: u32 = 2000;

/// The links of a square mesh. Each points to the lower number.
fn mesh() -> Vec<(u32, u32)> {
    let left = |x: u32| (x % SIDE > 0).then(|| (x, x - 1));
    let above = |x: u32| x.checked_sub(SIDE).map(|y| (x, y));
    (0..SIDE * SIDE)
        .flat_map(|x| left(x).into_iter().chain(above(x)))
        .collect()
}

/// Whether a link between two nodes is up.
struct Up(Vec<bool>);

impl Up {
    fn place(u: u32, v: u32) -> usize {
        (u.max(v) * SIDE * SIDE + u.min(v)) as usize
    }

    fn set(&mut self, (u, v): (u32, u32), is_up: bool) {
        self.0[Up::place(u, v)] = is_up;
    }

    fn has(&self, u: u32, v: u32) -> bool {
        self.0[Up::place(u, v)]
    }
}

/// Whether the tables lead from a node to the destination over links that are up.
fn leads(tables: &[Hop], up: &Up, mut node: u32) -> bool {
    for _ in tables {
        let Hop::To(next) = tables[node as usize] else {
            return tables[node as usize] == Hop::Here && node == HOME;
        };
        if !up.has(node, next) {
            return false;
        }
        node = next;
    }
    false
}

/// Whether the tables lead from a node back to itself.
fn goes_round(tables: &[Hop], node: u32) -> bool {
    let mut at = node;
    for _ in tables {
        let Hop::To(next) = tables[at as usize] else {
            return false;
        };
        at = next;
        if at == node {
            return true;
        }
    }
    false
}

/// Checks all tables: each leads to the destination, or its node is cut off.
fn follow_all(tables: &[Hop], up: &Up, cut_off: u64) -> Result<(), String> {
    let (lost, joined): (Vec<u32>, Vec<u32>) =
        (0..SIDE * SIDE).partition(|&node| tables[node as usize] == Hop::CutOff);
    if lost.len() as u64 != cut_off {
        return Err(format!("not {cut_off} nodes are cut off: {lost:?}"));
    }
    match joined.into_iter().find(|&node| !leads(tables, up, node)) {
        Some(node) => Err(format!("the table of node {node} leads nowhere")),
        None => Ok(()),
    }
}

/// Random numbers, the same in each run.
fn draw(drawn: &mut u64, below: usize) -> usize {
    *drawn = drawn
        .wrapping_mul(6364136223846793005)
        .wrapping_add(1442695040888963407);
    (*drawn >> 33) as usize % below
}

/// The mesh: its network, the tables of its nodes, and the links that are up and down.
struct Mesh {
    network: Network,
    tables: Vec<Hop>,
    running: Vec<(u32, u32)>,
    failed: Vec<(u32, u32)>,
    up: Up,
    drawn: u64,
}

impl Mesh {
    fn new() -> Result<Mesh, Refused> {
        let mut up = Up(vec![false; (SIDE * SIDE * SIDE * SIDE) as usize]);
        mesh().iter().for_each(|&link| up.set(link, true));
        Ok(Mesh {
            network: Network::new(SIDE * SIDE, HOME, &mesh())?,
            tables: vec![Hop::CutOff; (SIDE * SIDE) as usize],
            running: mesh(),
            failed: Vec::new(),
            up,
            drawn: 1,
        })
    }

    /// Makes a link fail or come back.
    fn change(&mut self) -> Result<Report, Refused> {
        if !self.failed.is_empty() && draw(&mut self.drawn, 2) == 0 {
            let at = draw(&mut self.drawn, self.failed.len());
            let (u, v) = self.failed.swap_remove(at);
            self.running.push((u, v));
            self.up.set((u, v), true);
            self.network.join(u, v)
        } else {
            let at = draw(&mut self.drawn, self.running.len());
            let (u, v) = self.running.swap_remove(at);
            self.failed.push((u, v));
            self.up.set((u, v), false);
            self.forget(u, v);
            self.network.cut(u, v)
        }
    }

    /// Removes the hops over a failed link from the tables.
    fn forget(&mut self, u: u32, v: u32) {
        for (node, other) in [(u, v), (v, u)] {
            if self.tables[node as usize] == Hop::To(other) {
                self.tables[node as usize] = Hop::CutOff;
            }
        }
    }

    /// Pushes next hops: all of them, or a random number. Returns whether it pushed all.
    fn push(&mut self, is_settled: bool, is_interrupted: bool) -> Result<bool, Box<dyn Error>> {
        let pushes = if is_settled {
            self.network.changed()?
        } else {
            self.network.pushes(&self.tables)?
        };
        let last = match is_interrupted {
            true => draw(&mut self.drawn, pushes.len() + 1),
            false => pushes.len(),
        };
        for &(node, hop) in &pushes[..last] {
            self.tables[node as usize] = hop;
            // A new loop would contain the node that was pushed.
            if goes_round(&self.tables, node) {
                return Err(format!("a loop passes node {node}").into());
            }
        }
        Ok(last == pushes.len())
    }
}

fn main() -> Result<(), Box<dyn Error>> {
    let mut mesh = Mesh::new()?;
    let mut is_settled = true;
    for changes in 0..=CHANGES {
        if changes > 0 {
            mesh.change()?;
        }
        let is_interrupted = changes < CHANGES && draw(&mut mesh.drawn, 4) == 0;
        is_settled = mesh.push(is_settled, is_interrupted)?;
        if is_settled {
            follow_all(&mesh.tables, &mesh.up, mesh.network.report().cut_off)?;
        }
    }
    println!(
        "{CHANGES} changes, some before all was pushed: no loop after any push, every table leads home"
    );
    Ok(())
}
