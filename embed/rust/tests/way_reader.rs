//! Readers of ways on other threads, as safe Rust sees them.

use revroute::{Edit, MAX_NODES, MAX_WAYS, Network, NoMemory, Refused, Session, WayReader};
use std::sync::atomic::{AtomicBool, Ordering};
use std::sync::mpsc;
use std::{mem, panic, thread};

/// The width and height of the mesh.
const SIDE: u32 = 8;
const NODES: u32 = SIDE * SIDE;
const CHANGES: usize = 3_000;

/// The links of the mesh. Each points to the lower number.
fn mesh() -> Vec<(u32, u32)> {
    let left = |x: u32| (x % SIDE > 0).then(|| (x, x - 1));
    let above = |x: u32| x.checked_sub(SIDE).map(|y| (x, y));
    (0..NODES)
        .flat_map(|x| left(x).into_iter().chain(above(x)))
        .collect()
}

/// Makes links fail and come back, one after the other. At most three are down at a time.
fn change_all(network: &mut Network) -> Result<(), Refused> {
    let links = mesh();
    let link = |at: usize| links[at * 37 % links.len()];
    for at in 0..CHANGES {
        let (u, v) = link(at);
        let (w, x) = link(at.saturating_sub(3));
        match at {
            0..3 => network.batch(&[Edit::Cut(u, v)])?,
            _ => network.batch(&[Edit::Join(w, x), Edit::Cut(u, v)])?,
        };
    }
    Ok(())
}

/// Whether the mesh has a link between two nodes, whichever way it points.
fn are_neighbours(x: u32, y: u32) -> bool {
    let (low, high) = (x.min(y), x.max(y));
    high == low + SIDE || (high == low + 1 && high % SIDE > 0)
}

/// The ways that a reader reads of a node.
fn read(reader: &WayReader, node: u32) -> Vec<u32> {
    reader.ways(node, &mut [0; MAX_WAYS]).to_vec()
}

/// Reads ways until the changes are over. Each is a neighbour. Then follows ways from each node, and returns the lists
/// of all nodes.
fn read_along(reader: WayReader, is_over: &AtomicBool, mut drawn: u32) -> Vec<Vec<u32>> {
    let mut draw = || {
        drawn = drawn.wrapping_mul(1_664_525).wrapping_add(1_013_904_223);
        drawn >> 8
    };
    while !is_over.load(Ordering::Acquire) {
        for node in 0..NODES {
            let ways = read(&reader, node);
            assert!(ways.iter().all(|&way| are_neighbours(node, way)));
            assert!(
                reader
                    .way(node, draw())
                    .is_none_or(|way| are_neighbours(node, way))
            );
        }
    }
    for from in 0..NODES {
        let (mut node, mut steps) = (from, 0);
        while let Some(way) = reader.way(node, draw()) {
            (node, steps) = (way, steps + 1);
            assert!(steps < NODES, "the ways lead round");
        }
        assert!(node == 0 || steps == 0);
    }
    (0..NODES).map(|node| read(&reader, node)).collect()
}

#[test]
fn threads_read_while_a_network_changes() -> Result<(), Refused> {
    for threads in [1, 2, 4] {
        let mut network = Network::new(NODES, 0, &mesh())?;
        let (first, is_over) = (network.way_reader()?, AtomicBool::new(false));
        let lists: Vec<Vec<Vec<u32>>> = thread::scope(|scope| {
            let running: Vec<_> = (0..threads)
                .map(|at| (at, first.clone()))
                .map(|(at, reader)| {
                    scope.spawn({
                        let is_over = &is_over;
                        move || read_along(reader, is_over, at)
                    })
                })
                .collect();
            let made = change_all(&mut network);
            is_over.store(true, Ordering::Release);
            let ended = running.into_iter().map(|it| it.join());
            let lists = ended.map(|it| it.expect("a thread ends well")).collect();
            made.map(|()| lists)
        })?;
        let settled: Vec<Vec<u32>> = (0..NODES)
            .map(|node| network.ways(node))
            .collect::<Result<_, NoMemory>>()?;
        assert!(lists.iter().all(|it| *it == settled));
    }
    Ok(())
}

/// A node with six ways: a reader reads the first five of them.
#[test]
fn a_reader_has_the_first_ways() -> Result<(), Refused> {
    let mut links: Vec<(u32, u32)> = (1..7).flat_map(|x| [(x, 0), (7, x)]).collect();
    links.extend([(8, 7), (8, 0)]);
    let mut network = Network::new(10, 0, &links)?;
    let reader = network.way_reader()?;
    let of = |nodes: &[u32]| -> Vec<Vec<u32>> { nodes.iter().map(|&x| read(&reader, x)).collect() };
    assert_eq!(
        of(&[0, 1, 7, 8]),
        [vec![], vec![0], vec![1, 2, 3, 4, 5], vec![0, 7]]
    );
    assert_eq!(of(&[9, 10, MAX_NODES as u32 - 1]), [vec![], vec![], vec![]]);
    assert_eq!(
        [4, 5, 6].map(|choice| reader.way(7, choice)),
        [Some(5), Some(1), Some(2)]
    );
    assert_eq!([0, 9, 4095].map(|node| reader.way(node, 3)), [None; 3]);
    network.cut(1, 0)?;
    assert_eq!(of(&[1, 7]), [vec![7], vec![2, 3, 4, 5, 6]]);
    assert_eq!(network.cut(1, 0), Err(Refused::NoLink(1, 0)));
    assert_eq!(of(&[1, 7]), [vec![7], vec![2, 3, 4, 5, 6]]);
    network.join(1, 0)?;
    assert_eq!(of(&[1, 7]), [vec![0, 7], vec![2, 3, 4, 5, 6]]);
    Ok(())
}

/// After each change a thread gets a new reader, and its own reader learns from that.
#[test]
fn a_reader_learns_of_each_change() -> Result<(), Refused> {
    let mut network = Network::new(4, 0, &[(1, 0), (2, 1), (2, 3), (3, 0)])?;
    let mut reader = network.way_reader()?;
    let (sender, handed) = mpsc::channel::<WayReader>();
    let (told, heard) = mpsc::channel();
    let forwarder = thread::spawn(move || {
        for latest in handed {
            reader.learn(&latest);
            told.send(read(&reader, 2))
                .expect("the changing thread waits");
        }
    });
    for at in 0..1000 {
        match at % 2 {
            0 => network.cut(1, 0)?,
            _ => network.join(1, 0)?,
        };
        sender
            .send(network.way_reader()?)
            .expect("the thread learns");
        assert_eq!(heard.recv(), Ok(network.ways(2)?));
    }
    mem::drop(sender);
    forwarder.join().expect("a thread ends well");
    Ok(())
}

#[test]
fn a_reader_learns_only_from_readers_of_its_network() -> Result<(), Refused> {
    let network = Network::new(2, 0, &[(0, 1)])?;
    let mut reader = network.way_reader()?;
    let (copy, later) = (reader.try_clone()?, network.way_reader()?);
    reader.learn(&copy);
    mem::drop(copy);
    for other in [network.try_clone()?, Network::new(2, 0, &[(0, 1)])?] {
        let other = other.way_reader()?;
        let learned = panic::catch_unwind(panic::AssertUnwindSafe(|| reader.learn(&other)));
        assert!(learned.is_err());
    }
    mem::drop(network);
    reader.learn(&later);
    assert_eq!(read(&reader, 1), [0]);
    Ok(())
}

#[test]
fn a_reader_stays_through_all_networks_of_a_session() -> Result<(), NoMemory> {
    let mut session = Session::new();
    let reader = session.way_reader()?;
    assert_eq!(reader.way(2, 0), None);
    session.answer(r#"["net",3,0,[[0,1],[1,2]]]"#)?;
    assert_eq!(reader.way(2, 0), Some(1));
    session.answer(r#"["net",2,1,[[0,1]]]"#)?;
    assert_eq!(
        [0, 1, 2].map(|node| reader.way(node, 0)),
        [Some(1), None, None]
    );
    let piece = &mut &b"[\"cut\",0,1]\n"[..];
    assert_eq!(session.take(piece), Ok(Some("turned 0 cut 1")));
    assert_eq!(reader.way(0, 0), None);
    Ok(())
}

#[test]
fn a_reader_outlives_its_network_and_other_readers() -> Result<(), Refused> {
    let network = Network::new(3, 0, &[(0, 1), (1, 2)])?;
    let reader = network.way_reader()?;
    let (copy, other) = (reader.clone(), network.way_reader()?);
    mem::drop(network);
    assert_eq!(read(&reader, 2), [1]);
    mem::drop(reader);
    assert_eq!(copy.way(2, 5), Some(1));
    mem::drop(copy);
    assert_eq!(read(&other, 1), [0]);
    Ok(())
}

#[test]
fn what_can_be_no_node_panics() -> Result<(), Refused> {
    let reader = Network::new(2, 0, &[(0, 1)])?.way_reader()?;
    for node in [MAX_NODES as u32, u32::MAX] {
        let reader = panic::AssertUnwindSafe(&reader);
        assert!(panic::catch_unwind(|| reader.way(node, 0)).is_err());
        assert!(panic::catch_unwind(|| read(&reader, node)).is_err());
    }
    Ok(())
}
