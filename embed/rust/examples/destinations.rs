//! A mesh in which every node is a destination. Each destination has a network of its own, and there are as many threads
//! as cores. Whenever a link fails or comes back, all networks change, and then the program walks every route.

use revroute::{Network, Refused};
use std::error::Error;
use std::thread;

const SIDE: u32 = 12;
const CHANGES: usize = 100;

/// The links of a square mesh. Each points to the lower number.
fn mesh() -> Vec<(u32, u32)> {
    let left = |x: u32| (x % SIDE > 0).then(|| (x, x - 1));
    let above = |x: u32| x.checked_sub(SIDE).map(|y| (x, y));
    (0..SIDE * SIDE)
        .flat_map(|x| left(x).into_iter().chain(above(x)))
        .collect()
}

/// Makes every third link fail, one after the other, and brings each back four changes later. Returns the total length
/// of all routes.
fn live(network: &mut Network) -> Result<usize, Refused> {
    let (links, mut steps) = (mesh(), 0);
    for at in 0..CHANGES {
        let (u, v) = links[3 * (at % 64)];
        network.cut(u, v)?;
        if let Some(before) = at.checked_sub(4) {
            let (u, v) = links[3 * (before % 64)];
            network.join(u, v)?;
        }
        for node in 0..SIDE * SIDE {
            let route = network.walk(node).count();
            assert!(route <= (SIDE * SIDE) as usize, "a route leads round");
            steps += route;
        }
    }
    Ok(steps)
}

fn main() -> Result<(), Box<dyn Error>> {
    let links = mesh();
    let made: Result<Vec<Network>, Refused> = (0..SIDE * SIDE)
        .map(|dest| Network::new(SIDE * SIDE, dest, &links))
        .collect();
    let mut networks = made?;
    let share = networks
        .len()
        .div_ceil(thread::available_parallelism()?.get());
    let steps: Result<usize, Refused> = thread::scope(|scope| {
        let threads: Vec<_> = networks
            .chunks_mut(share)
            .map(|some| scope.spawn(|| some.iter_mut().map(live).sum::<Result<usize, _>>()))
            .collect();
        let ended = threads
            .into_iter()
            .map(|it| it.join().expect("no thread panics"));
        ended.sum()
    });
    let routes = networks.len() * (SIDE * SIDE) as usize * CHANGES;
    let steps = steps?;
    assert!(steps >= routes, "a node has no route");
    println!(
        "{} networks, {CHANGES} changes each, every route ends",
        networks.len()
    );
    Ok(())
}
