//! Routers without a controller, as safe Rust sees them.

use revroute::{
    HearFault, MESSAGE_LENGTH, NoMemory, Node, NodeFault, NodeTable, Outdated, Policy, Rise,
    Unwritten,
};
use std::error::Error;

const POLICY: Policy = Policy {
    rise: Rise::Top(16),
    lower: true,
    wait: true,
};

/// Asks for the table, and says that it is written.
fn write(node: &mut Node) -> Result<(), Box<dyn Error>> {
    let table = node.table()?;
    Ok(node.written(table)?)
}

/// A router says a message, and its neighbour hears it.
fn pass(from: &mut Node, to: &mut Node, neighbour: u32) -> Result<(), Box<dyn Error>> {
    to.hear(&from.say(neighbour)?.expect("the link is up"))?;
    while to.act() {}
    write(to)
}

/// The message with another number of 8 bytes at an index.
fn with_number(mut message: [u8; MESSAGE_LENGTH], at: usize, number: u64) -> [u8; MESSAGE_LENGTH] {
    message[at..at + 8].copy_from_slice(&number.to_be_bytes());
    message
}

/// Routers in a ring, of which router 0 is the gateway. Each says its news until nobody has any.
struct Ring {
    nodes: Vec<Node>,
}

impl Ring {
    fn new(count: u32, policy: Policy) -> Result<Ring, Box<dyn Error>> {
        let mut nodes = Vec::new();
        for me in 0..count {
            let mut node = match me {
                0 => Node::gateway(0, 1)?,
                _ => Node::new(me, 1, 1, policy)?,
            };
            for other in [(me + count - 1) % count, (me + 1) % count] {
                node.know(other, 1)?;
                node.link_up(other);
            }
            write(&mut node)?;
            nodes.push(node);
        }
        Ok(Ring { nodes })
    }

    fn link(&mut self, u: u32, v: u32, event: fn(&mut Node, u32)) -> Result<(), Box<dyn Error>> {
        for (me, other) in [(u, v), (v, u)] {
            event(&mut self.nodes[me as usize], other);
            write(&mut self.nodes[me as usize])?;
        }
        Ok(())
    }

    /// The links, from each router to its two neighbours.
    fn links(&self) -> Vec<(usize, usize)> {
        let count = self.nodes.len();
        let both = |me| [(me, (me + 1) % count), (me, (me + count - 1) % count)];
        (0..count).flat_map(both).collect()
    }

    /// A router says what it has to say to a neighbour, if their link is up.
    fn pass_on(&mut self, from: usize, to: usize) -> Result<(), Box<dyn Error>> {
        if let Some(message) = self.nodes[from].say(to as u32)? {
            self.nodes[to].hear(&message)?;
            write(&mut self.nodes[to])?;
        }
        Ok(())
    }

    /// Delivers messages until there is no news. Returns their number.
    fn spread_news(&mut self) -> Result<usize, Box<dyn Error>> {
        for messages in 0..10_000 {
            let has_news = |&(from, to): &(usize, usize)| self.nodes[from].has_news(to as u32);
            let links = self.links();
            let Some(&(from, to)) = links.iter().find(|link| has_news(link) == Ok(true)) else {
                return Ok(messages);
            };
            self.pass_on(from, to)?;
        }
        panic!("routers talk for ever");
    }

    /// Delivers news, and says everything again, until nothing has changed three times. A router that waits for
    /// acknowledgements may take its next step only when it hears something.
    fn settle(&mut self) -> Result<(), Box<dyn Error>> {
        let mut still = 0;
        for _ in 0..1_000 {
            let before = self.picture();
            self.spread_news()?;
            for (from, to) in self.links() {
                self.pass_on(from, to)?;
            }
            still = if self.picture() == before {
                still + 1
            } else {
                0
            };
            if still == 3 {
                return Ok(());
            }
        }
        panic!("routers do not come to rest");
    }

    fn picture(&self) -> Vec<(u64, Option<u32>)> {
        let of = |node: &Node| (node.height(), node.distance());
        self.nodes.iter().map(of).collect()
    }
}

#[test]
fn a_ring_finds_its_ways_and_heals() -> Result<(), Box<dyn Error>> {
    for policy in [POLICY, Policy::default()] {
        let mut ring = Ring::new(5, policy)?;
        assert!(ring.spread_news()? > 0);
        ring.settle()?;
        for me in 1..5 {
            let nearest = ring.nodes[me].table()?.ways()[0];
            let distance = ring.nodes[nearest as usize].distance();
            assert_eq!(ring.nodes[me].distance(), distance.map(|it| it + 1));
        }
        ring.link(0, 1, Node::link_down)?;
        ring.settle()?;
        let distances: Vec<_> = ring.nodes.iter().map(Node::distance).collect();
        assert_eq!(distances, [0, 4, 3, 2, 1].map(Some));
        assert_eq!(ring.nodes[1].table()?.ways(), [2]);
        assert!(ring.nodes[2].table()?.gates().contains(&1));
        assert!(ring.nodes[2].lets_in(1) && !ring.nodes[2].sends_to(1));
    }
    Ok(())
}

/// Gateway 0 is dear for router 1 and cheap for router 2. So router 1 sends over router 2, at 2 + 3.
#[test]
fn routes_have_the_least_costs() -> Result<(), Box<dyn Error>> {
    const COSTS: [[u32; 3]; 3] = [[0, 1, 1], [9, 0, 2], [3, 7, 0]];
    let start = u32::MAX.into();
    let mut ring = Ring {
        nodes: vec![
            Node::gateway(0, 1)?,
            Node::new(1, 1, start, POLICY)?,
            Node::new(2, 1, start, POLICY)?,
        ],
    };
    for (node, costs) in ring.nodes.iter_mut().zip(COSTS) {
        for (other, cost) in (0..).zip(costs).filter(|(_, cost)| *cost > 0) {
            node.know(other, cost)?;
            node.link_up(other);
        }
        write(node)?;
    }
    ring.settle()?;
    assert_eq!(ring.picture(), [(0, Some(0)), (5, Some(5)), (3, Some(3))]);
    assert_eq!(ring.nodes[1].table()?.ways(), [2, 0]);
    // The link to the gateway gets cheap for router 1.
    ring.nodes[1].set_cost(0, 4)?;
    assert_eq!(ring.nodes[1].table()?.ways(), [0, 2]);
    write(&mut ring.nodes[1])?;
    ring.settle()?;
    assert_eq!(ring.picture(), [(0, Some(0)), (4, Some(4)), (3, Some(3))]);
    assert_eq!(ring.nodes[1].set_cost(0, 0), Err(NodeFault::FreeLink));
    assert_eq!(ring.nodes[1].has_news(0), Ok(false));
    Ok(())
}

#[test]
fn only_the_last_table_can_be_confirmed() -> Result<(), Box<dyn Error>> {
    let mut node = Node::gateway(0, 1)?;
    for neighbour in [9, 5, 7] {
        node.know(neighbour, 1)?;
        node.link_up(neighbour);
    }
    let early = node.table()?;
    assert_eq!((early.ways(), early.gates()), (&[][..], &[9, 5, 7][..]));
    node.link_down(5);
    let (first, second) = (node.table()?, node.table()?);
    assert_eq!(node.written(early), Err(Outdated));
    assert_eq!(node.say(9), Err(Unwritten));
    assert_eq!(node.has_news(9), Err(Unwritten));
    assert_eq!(first.gates(), [9, 7]);
    assert_eq!(node.written(first), Ok(()));
    assert_eq!(node.has_news(9), Ok(true));
    assert!(node.say(9)?.is_some());
    assert_eq!(node.say(5), Ok(None));
    assert_eq!(node.written(second), Ok(()));
    Ok(())
}

#[test]
fn a_table_of_another_node_is_not_confirmed() -> Result<(), Box<dyn Error>> {
    let (mut node, mut other) = (Node::gateway(0, 1)?, Node::gateway(0, 1)?);
    node.link_up(1);
    other.link_up(1);
    assert_eq!(node.written(other.table()?), Err(Outdated));
    assert_eq!(node.say(1), Err(Unwritten));
    let old = node.table()?;
    node = Node::gateway(0, 2)?;
    node.link_up(1);
    assert_eq!(node.written(old), Err(Outdated));
    Ok(())
}

#[test]
fn a_neighbour_may_become_known_at_any_time() -> Result<(), Box<dyn Error>> {
    let mut node = Node::new(1, 1, 0, Policy::default())?;
    node.link_up(2);
    let table: NodeTable = node.table()?;
    node.know(3, 1)?;
    node.know(3, 1)?;
    assert_eq!(node.know(1, 1), Err(NodeFault::Itself));
    assert_eq!(node.know(4, 0), Err(NodeFault::FreeLink));
    assert_eq!(node.written(table), Ok(()));
    Ok(())
}

#[test]
fn what_is_no_message_changes_nothing() -> Result<(), Box<dyn Error>> {
    let mut node = Node::new(1, 1, 7, POLICY)?;
    assert_eq!(node.know(1, 1), Err(NodeFault::Itself));
    assert_eq!(node.know(2, 1), Ok(()));
    assert_eq!(node.say(2), Ok(None));
    for bytes in [&[][..], &[0; MESSAGE_LENGTH], &[0; 400]] {
        assert_eq!(node.hear(bytes), Err(HearFault::NotAMessage));
        assert_eq!(node.say(3), Ok(None));
    }
    node.link_up(2);
    let table = node.table()?;
    assert_eq!(node.hear(&[1]), Err(HearFault::NotAMessage));
    node.written(table)?;
    let message = node.say(2)?.expect("the link is up");
    assert_eq!(message[..4], [0x46, 0x52, 0x4e, 2]);
    assert_eq!(node.hear(&message[1..]), Err(HearFault::NotAMessage));
    Ok(())
}

#[test]
fn a_boot_number_that_did_not_grow_is_noticed() -> Result<(), Box<dyn Error>> {
    let mut neighbour = Node::new(2, 1, 0, POLICY)?;
    neighbour.know(1, 1)?;
    neighbour.link_up(1);
    write(&mut neighbour)?;
    let greeting = neighbour.say(1)?.expect("the link is up");
    let mut node = Node::new(1, 5, 0, POLICY)?;
    node.know(2, 1)?;
    let table = node.table()?;
    for later in [6, 1 << 40, u64::MAX] {
        let heard = node.hear(&with_number(greeting, 24, later));
        assert_eq!(heard, Err(HearFault::LaterStart));
    }
    assert_eq!(node.written(table), Ok(()));
    for boot in [0, 4, 5] {
        assert_eq!(node.hear(&with_number(greeting, 24, boot)), Ok(()));
    }
    Ok(())
}

#[test]
fn what_is_not_newer_is_no_event() -> Result<(), Box<dyn Error>> {
    let (mut node, mut neighbour) = (Node::new(1, 1, 0, POLICY)?, Node::new(2, 1, 0, POLICY)?);
    for (it, other) in [(&mut node, 2), (&mut neighbour, 1)] {
        it.know(other, 1)?;
        it.link_up(other);
        while it.act() {}
        write(it)?;
    }
    let early = neighbour.say(1)?.expect("the link is up");
    let late = neighbour.say(1)?.expect("the link is up");
    assert_eq!(early[..MESSAGE_LENGTH - 8], late[..MESSAGE_LENGTH - 8]);
    assert_eq!(neighbour.has_news(1), Ok(false));
    node.hear(&late)?;
    assert_eq!(node.has_news(2), Err(Unwritten));
    while node.act() {}
    write(&mut node)?;
    for old in [late, early, late] {
        node.hear(&old)?;
        assert!(!node.act());
        assert!(node.say(2)?.is_some());
    }
    node.hear(&neighbour.say(1)?.expect("the link is up"))?;
    assert_eq!(node.say(2), Err(Unwritten));
    Ok(())
}

#[test]
fn a_link_that_works_one_way_counts_at_neither_end() -> Result<(), Box<dyn Error>> {
    const PATIENCE: u32 = 3;
    let (mut gateway, mut router) = (Node::gateway(0, 1)?, Node::new(1, 1, 1, POLICY)?);
    for (it, other) in [(&mut gateway, 1), (&mut router, 0)] {
        it.know(other, 1)?;
        it.link_up(other);
        write(it)?;
    }
    for _ in 0..2 {
        pass(&mut gateway, &mut router, 1)?;
        pass(&mut router, &mut gateway, 0)?;
    }
    assert_eq!(router.table()?.ways(), [0]);
    // The router does not hear the gateway any more.
    let mut lost = Vec::new();
    for tick in 1..=2 * PATIENCE {
        if router.tick(PATIENCE) {
            lost.push((1, tick));
            assert_eq!(router.say(0), Err(Unwritten));
            write(&mut router)?;
        }
        pass(&mut router, &mut gateway, 0)?;
        if gateway.tick(PATIENCE) {
            lost.push((0, tick));
            write(&mut gateway)?;
        }
    }
    // The gateway was told for the last time that it was heard before the tick before the router's loss.
    assert_eq!(lost, [(1, PATIENCE), (0, 2 * PATIENCE - 2)]);
    assert!(router.table()?.ways().is_empty() && gateway.table()?.gates().is_empty());
    pass(&mut gateway, &mut router, 1)?;
    pass(&mut router, &mut gateway, 0)?;
    assert_eq!(
        (router.table()?.ways(), gateway.table()?.gates()),
        (&[0][..], &[1][..])
    );
    Ok(())
}

#[test]
fn no_router_starts_too_high() -> Result<(), Box<dyn Error>> {
    for policy in [POLICY, Policy::default()] {
        for height in [1 << 63, (1 << 63) + 1, u64::MAX] {
            let refused = Node::new(1, 1, height, policy).err();
            assert_eq!(refused, Some(NodeFault::TooHigh));
        }
        let highest = (1 << 63) - 1;
        assert_eq!(Node::new(1, 1, highest, policy)?.height(), highest);
    }
    Ok(())
}

#[test]
fn a_node_may_go_to_another_thread() -> Result<(), NoMemory> {
    fn is_sent<T: Send>(_: &T) {}
    let mut node = Node::gateway(0, 1)?;
    is_sent(&node);
    let node = std::thread::spawn(move || {
        node.link_down(9);
        node
    });
    let node = node.join().expect("it ends");
    assert_eq!((node.height(), node.distance()), (0, Some(0)));
    Ok(())
}

#[test]
fn faults_are_errors() {
    let faults: [Box<dyn Error>; 8] = [
        HearFault::NotAMessage.into(),
        HearFault::LaterStart.into(),
        Outdated.into(),
        Unwritten.into(),
        NodeFault::Itself.into(),
        NodeFault::FreeLink.into(),
        NodeFault::TooHigh.into(),
        NodeFault::from(NoMemory).into(),
    ];
    let mut texts: Vec<_> = faults.iter().map(|it| it.to_string()).collect();
    texts.sort();
    texts.dedup();
    assert_eq!(texts.len(), faults.len());
}
