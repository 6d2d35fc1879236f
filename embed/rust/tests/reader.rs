//! Readers on other threads, as safe Rust sees them.

use revroute::{Edit, Hop, MAX_NODES, Network, NoMemory, Reader, Refused, Session, Walked};
use std::sync::atomic::{AtomicBool, Ordering};
use std::sync::mpsc;
use std::{mem, panic, thread};

/// The width and height of the mesh.
const SIDE: u32 = 8;
const NODES: u32 = SIDE * SIDE;
const CHANGES: usize = 20_000;

/// The links of the mesh. Each points to the lower number.
fn mesh() -> Vec<(u32, u32)> {
    let left = |x: u32| (x % SIDE > 0).then(|| (x, x - 1));
    let above = |x: u32| x.checked_sub(SIDE).map(|y| (x, y));
    (0..NODES)
        .flat_map(|x| left(x).into_iter().chain(above(x)))
        .collect()
}

/// Makes links fail and come back, one after the other. At most three are down at a time.
fn change_all(network: &mut Network) -> Result<(), Refused> {
    let links = mesh();
    let link = |at: usize| links[at * 37 % links.len()];
    for at in 0..CHANGES {
        let (u, v) = link(at);
        let (w, x) = link(at.saturating_sub(3));
        match at {
            0..3 => network.batch(&[Edit::Cut(u, v)])?,
            _ => network.batch(&[Edit::Join(w, x), Edit::Cut(u, v)])?,
        };
    }
    Ok(())
}

/// Walks from all nodes until the changes are over. Then reads the hops and returns them.
fn read_along(reader: Reader, is_over: &AtomicBool) -> Vec<Hop> {
    let mut place = [0; MAX_NODES];
    while !is_over.load(Ordering::Acquire) {
        for node in 0..NODES {
            if let Walked::Arrived(route) = reader.walk(node, &mut place) {
                assert_eq!((route.first(), route.last()), (Some(&node), Some(&0)));
            }
            assert!(reader.next_hop(node).node().is_none_or(|it| it < NODES));
        }
    }
    (0..NODES).map(|node| reader.next_hop(node)).collect()
}

#[test]
fn threads_read_while_a_network_changes() -> Result<(), Refused> {
    for threads in [1, 2, 4, 8] {
        let mut network = Network::new(NODES, 0, &mesh())?;
        let (first, is_over) = (network.reader()?, AtomicBool::new(false));
        let read: Vec<Vec<Hop>> = thread::scope(|scope| {
            let running: Vec<_> = (0..threads)
                .map(|_| first.clone())
                .map(|reader| scope.spawn(|| read_along(reader, &is_over)))
                .collect();
            let made = change_all(&mut network);
            is_over.store(true, Ordering::Release);
            let ended = running.into_iter().map(|it| it.join());
            let read = ended.map(|it| it.expect("a thread ends well")).collect();
            made.map(|()| read)
        })?;
        let settled = network.hops()?;
        assert!(read.iter().all(|it| *it == settled));
    }
    Ok(())
}

#[test]
fn after_each_call_a_reader_has_the_hops() -> Result<(), Refused> {
    let mut network = Network::new(4, 0, &[(1, 0), (2, 1), (2, 3), (3, 0)])?;
    let reader = network.reader()?;
    let read = || (0..4).map(|node| reader.next_hop(node)).collect::<Vec<_>>();
    assert_eq!(read(), network.hops()?);
    network.cut(1, 0)?;
    assert_eq!(read(), network.hops()?);
    assert_eq!(network.cut(1, 0), Err(Refused::NoLink(1, 0)));
    assert_eq!(read(), network.hops()?);
    network.move_dest(2)?;
    assert_eq!(read(), network.hops()?);
    Ok(())
}

/// After each change a thread gets a new reader, and its own reader learns from that.
#[test]
fn a_reader_learns_of_each_change() -> Result<(), Refused> {
    let mut network = Network::new(4, 0, &[(1, 0), (2, 1), (2, 3), (3, 0)])?;
    let mut reader = network.reader()?;
    let (sender, handed) = mpsc::channel::<Reader>();
    let (told, read) = mpsc::channel();
    let forwarder = thread::spawn(move || {
        for latest in handed {
            reader.learn(&latest);
            let hops: Vec<Hop> = (0..4).map(|node| reader.next_hop(node)).collect();
            told.send(hops).expect("the changing thread waits");
        }
    });
    for at in 0..1000 {
        match at % 2 {
            0 => network.cut(1, 0)?,
            _ => network.join(1, 0)?,
        };
        let latest = network.reader()?;
        sender.send(latest).expect("the thread learns");
        assert_eq!(read.recv(), Ok(network.hops()?));
    }
    mem::drop(sender);
    forwarder.join().expect("a thread ends well");
    Ok(())
}

#[test]
fn a_reader_learns_only_from_readers_of_its_network() -> Result<(), Refused> {
    let network = Network::new(2, 0, &[(0, 1)])?;
    let mut reader = network.reader()?;
    let (copy, later) = (reader.try_clone()?, network.reader()?);
    reader.learn(&copy);
    mem::drop(copy);
    reader.learn(&later);
    assert_eq!(reader.next_hop(1), Hop::To(0));
    for other in [network.try_clone()?, Network::new(2, 0, &[(0, 1)])?] {
        let other = other.reader()?;
        let learned = panic::catch_unwind(panic::AssertUnwindSafe(|| reader.learn(&other)));
        assert!(learned.is_err());
    }
    mem::drop(network);
    reader.learn(&later);
    assert_eq!(reader.next_hop(1), Hop::To(0));
    Ok(())
}

#[test]
fn a_reader_stays_through_all_networks_of_a_session() -> Result<(), NoMemory> {
    let mut session = Session::new();
    let reader = session.reader()?;
    assert_eq!(reader.next_hop(2), Hop::CutOff);
    session.answer(r#"["net",3,0,[[0,1],[1,2]]]"#)?;
    assert_eq!(reader.next_hop(2), Hop::To(1));
    session.answer(r#"["net",2,1,[[0,1]]]"#)?;
    let hops = [0, 1, 2].map(|node| reader.next_hop(node));
    assert_eq!(hops, [Hop::To(1), Hop::Here, Hop::CutOff]);
    let piece = &mut &b"[\"cut\",0,1]\n"[..];
    assert_eq!(session.take(piece), Ok(Some("turned 0 cut 1")));
    assert_eq!(reader.next_hop(0), Hop::CutOff);
    Ok(())
}

#[test]
fn a_reader_outlives_its_network_and_other_readers() -> Result<(), Refused> {
    let network = Network::new(3, 0, &[(0, 1), (1, 2)])?;
    let reader = network.reader()?;
    let other = network.reader()?;
    let copy = reader.try_clone()?;
    mem::drop((network, reader));
    let mut place = [0; 3];
    assert_eq!(copy.walk(2, &mut place), Walked::Arrived(&[2, 1, 0]));
    mem::drop(copy);
    assert_eq!(other.walk(2, &mut place), Walked::Arrived(&[2, 1, 0]));
    Ok(())
}

#[test]
fn a_walk_has_an_end_for_each_room() -> Result<(), Refused> {
    let network = Network::new(4, 0, &[(0, 1), (1, 2)])?;
    let (reader, mut place) = (network.reader()?, [7; 5]);
    assert_eq!(reader.walk(2, &mut place[..0]), Walked::Longer(&[]));
    assert_eq!(reader.walk(2, &mut place[..2]), Walked::Longer(&[2, 1]));
    assert_eq!(reader.walk(2, &mut place[..3]), Walked::Arrived(&[2, 1, 0]));
    assert_eq!(place, [2, 1, 0, 7, 7]);
    assert_eq!(reader.walk(3, &mut place), Walked::CutOff);
    assert_eq!(reader.walk(4095, &mut place), Walked::CutOff);
    assert_eq!(reader.next_hop(4095), Hop::CutOff);
    Ok(())
}

#[test]
fn what_can_be_no_node_panics() -> Result<(), Refused> {
    let reader = Network::new(2, 0, &[(0, 1)])?.reader()?;
    for node in [MAX_NODES as u32, u32::MAX] {
        assert_eq!(reader.try_next_hop(node), None);
        let reader = panic::AssertUnwindSafe(&reader);
        assert!(panic::catch_unwind(|| reader.next_hop(node)).is_err());
        assert!(panic::catch_unwind(|| reader.walk(node, &mut [0; 2]) == Walked::CutOff).is_err());
    }
    Ok(())
}
