//! Calls without memory: the heap that checks/embed/check puts under the library refuses each of its allocations in
//! turn.
#![cfg(refusing_heap)]

use revroute::{
    Edit, Hop, Network, NoMemory, Node, NodeFault, Policy, Refused, Report, Session, TableFault,
};
use std::ffi::c_long;
use std::sync::{Mutex, PoisonError};

unsafe extern "C" {
    /// The allocation that is refused, counted down. 0 refuses none.
    static mut refusing_left: c_long;
}

/// Held while an allocation is refused, since all threads share the counter.
static COUNTER: Mutex<()> = Mutex::new(());

const LINES: [&str; 4] = [
    r#"["net",4,0,[[0,1],[1,2],[2,3]]]"#,
    r#"["cut",1,0]"#,
    r#"["add",3,0]"#,
    r#"["walk",1]"#,
];

/// Does something while the allocation with this number is refused.
fn poor<T>(number: c_long, what: impl FnOnce() -> T) -> T {
    // SAFETY: the caller holds the lock, so nobody else uses the counter.
    unsafe { refusing_left = number };
    let ended = what();
    // SAFETY: as above.
    unsafe { refusing_left = 0 };
    ended
}

#[test]
fn without_memory_the_session_is_as_it_was() -> Result<(), NoMemory> {
    let _held = COUNTER.lock().unwrap_or_else(PoisonError::into_inner);
    let mut session = Session::new();
    for line in LINES {
        let mut number = 1;
        loop {
            let links = session.answer(r#"["links"]"#)?.map(String::from);
            match poor(number, || session.answer(line).map(|_| ())) {
                Err(NoMemory) => {
                    assert_eq!(session.answer(r#"["links"]"#)?, links.as_deref(), "{line}")
                }
                Ok(()) => break,
            }
            number += 1;
        }
        assert!(number > 1, "{line} takes memory");
    }
    assert_eq!(session.answer(r#"["links"]"#)?, Some("links 1>2 2>3 3>0"));
    assert_eq!(poor(1, || session.walk(1)), Err(NoMemory));
    assert_eq!(session.walk(1)?, Some(vec![1, 2, 3, 0]));
    assert_eq!(poor(1, || session.nearest(1)), Err(NoMemory));
    assert_eq!(session.nearest(1)?, Some(vec![1, 2, 3, 0]));
    assert_eq!(poor(1, || session.distance(1)), Some(3));
    assert_eq!(poor(1, || session.ways(1)), Err(NoMemory));
    assert_eq!(session.ways(1)?, Some(vec![2]));
    // The session keeps the room for a list of this length.
    assert_eq!(poor(1, || session.ways(2)), Ok(Some(vec![3])));
    Ok(())
}

/// Makes a change with each allocation refused in turn, and checks that nothing changes. Returns the result with none
/// refused.
fn made_poor(
    network: &mut Network,
    change: impl Fn(&mut Network) -> Result<Report, Refused>,
) -> Result<Report, Refused> {
    let mut number = 1;
    loop {
        let was = (network.links()?, network.changed()?, network.report());
        match poor(number, || change(network)) {
            Err(Refused::NoMemory) => {
                let is = (network.links()?, network.changed()?, network.report());
                assert_eq!(is, was);
            }
            ended => {
                assert!(number > 1, "it takes memory");
                return ended;
            }
        }
        number += 1;
    }
}

#[test]
fn without_memory_pushes_change_nothing() -> Result<(), Refused> {
    let _held = COUNTER.lock().unwrap_or_else(PoisonError::into_inner);
    let network = Network::new(4, 0, &[(0, 1), (1, 2), (2, 3)])?;
    let table = [Hop::Here, Hop::To(2), Hop::To(3), Hop::To(1)];
    let mut number = 1;
    let pushes = loop {
        match poor(number, || network.pushes(&table)) {
            Err(TableFault::NoMemory) => number += 1,
            ended => break ended,
        }
    };
    assert!(number > 1, "pushes take memory");
    assert_eq!(
        pushes,
        Ok(vec![(1, Hop::To(0)), (2, Hop::To(1)), (3, Hop::To(2))])
    );
    Ok(())
}

#[test]
fn without_memory_a_change_with_ways_changes_nothing() -> Result<(), Refused> {
    let _held = COUNTER.lock().unwrap_or_else(PoisonError::into_inner);
    let mut network = Network::new(3, 0, &[(1, 0), (2, 1), (2, 0)])?;
    let (links, mut number) = (network.links()?, 1);
    while let Err(why) = poor(number, || network.batch_with_ways(&[Edit::Cut(1, 0)])) {
        assert_eq!(why.why, Refused::NoMemory);
        assert_eq!(
            (network.links()?, network.change_grow()?),
            (links.clone(), vec![])
        );
        number += 1;
    }
    assert!(number > 1, "a change with ways takes memory");
    type Phase = fn(&Network) -> Result<Vec<(u32, Vec<u32>)>, NoMemory>;
    let phases: [(Phase, _); 2] = [
        (
            |network| network.change_shrink(),
            vec![(2, vec![0]), (1, vec![])],
        ),
        (|network| network.change_grow(), vec![(1, vec![2])]),
    ];
    for (phase, wanted) in phases {
        let mut number = 1;
        let pushes = loop {
            match poor(number, || phase(&network)) {
                Err(NoMemory) => number += 1,
                Ok(pushes) => break pushes,
            }
        };
        assert!(number > 1, "a phase takes memory");
        assert_eq!(pushes, wanted);
    }
    Ok(())
}

#[test]
fn without_memory_there_are_no_phases() -> Result<(), Refused> {
    let _held = COUNTER.lock().unwrap_or_else(PoisonError::into_inner);
    let network = Network::new(3, 0, &[(1, 0), (2, 1), (2, 0)])?;
    let table = [vec![], vec![2, 0], vec![1]];
    type Phase = fn(&Network, &[Vec<u32>; 3]) -> Result<Vec<(u32, Vec<u32>)>, TableFault>;
    let phases: [(Phase, _); 2] = [
        (|network, table| network.shrink(table), (1, vec![0])),
        (|network, table| network.grow(table), (2, vec![0, 1])),
    ];
    for (phase, push) in phases {
        let mut number = 1;
        let pushes = loop {
            match poor(number, || phase(&network, &table)) {
                Err(TableFault::NoMemory) => number += 1,
                ended => break ended,
            }
        };
        assert!(number > 1, "a phase takes memory");
        assert_eq!(pushes, Ok(vec![push]));
    }
    let mut number = 1;
    let ways = loop {
        match poor(number, || network.all_ways()) {
            Err(NoMemory) => number += 1,
            Ok(ways) => break ways,
        }
    };
    assert!(number > 1, "the ways take memory");
    assert_eq!(ways, [vec![], vec![0], vec![0, 1]]);
    Ok(())
}

#[test]
fn without_memory_there_is_no_push_order() {
    let _held = COUNTER.lock().unwrap_or_else(PoisonError::into_inner);
    let (old, new) = (
        [Hop::Here, Hop::To(2)],
        [Hop::CutOff, Hop::To(2), Hop::To(0)],
    );
    let mut number = 1;
    let pushes = loop {
        match poor(number, || revroute::push_order(&old, &new)) {
            Err(Refused::NoMemory) => number += 1,
            ended => break ended,
        }
    };
    assert!(number > 1, "a push order takes memory");
    assert_eq!(pushes, Ok(vec![(0, Hop::CutOff), (2, Hop::To(0))]));
}

#[test]
fn without_memory_the_network_is_as_it_was() -> Result<(), Refused> {
    let _held = COUNTER.lock().unwrap_or_else(PoisonError::into_inner);
    let links = [(0, 1), (1, 2), (2, 3)];
    let mut number = 1;
    let mut network = loop {
        match poor(number, || Network::new(4, 0, &links)) {
            Err(Refused::NoMemory) => number += 1,
            ended => break ended?,
        }
    };
    assert!(number > 1, "a network takes memory");
    let refused = made_poor(&mut network, |it| it.add(0, 3));
    assert_eq!(refused, Err(Refused::ClosedWalk(vec![0, 3, 2, 1, 0])));
    made_poor(&mut network, |it| it.cut(1, 0))?;
    let edits = [Edit::Add(3, 0), Edit::Join(1, 3)];
    made_poor(&mut network, |it| Ok(it.batch(&edits)?))?;
    made_poor(&mut network, |it| it.move_dest(2))?;
    assert_eq!(network.report().cut_off, 0);
    assert_eq!(poor(1, || network.links()), Err(NoMemory));
    assert!(matches!(poor(1, || network.try_clone()), Err(NoMemory)));
    Ok(())
}

#[test]
fn without_memory_there_is_no_reader_and_all_is_as_it_was() -> Result<(), Refused> {
    let _held = COUNTER.lock().unwrap_or_else(PoisonError::into_inner);
    let mut network = Network::new(3, 0, &[(0, 1), (1, 2)])?;
    let mut number = 1;
    let reader = loop {
        match poor(number, || network.reader()) {
            Err(NoMemory) => number += 1,
            Ok(reader) => break reader,
        }
    };
    assert!(number > 1, "a reader takes memory");
    assert!(matches!(poor(1, || reader.try_clone()), Err(NoMemory)));
    assert_eq!(reader.next_hop(2), Hop::To(1));
    assert_eq!(
        made_poor(&mut network, |it| it.cut(1, 0)).map(|it| it.cut_off),
        Ok(2)
    );
    assert_eq!(reader.next_hop(2), Hop::CutOff);
    Ok(())
}

#[test]
fn without_memory_there_is_no_reader_of_ways_and_all_is_as_it_was() -> Result<(), Refused> {
    let _held = COUNTER.lock().unwrap_or_else(PoisonError::into_inner);
    let mut network = Network::new(3, 0, &[(0, 1), (1, 2)])?;
    let mut number = 1;
    let reader = loop {
        match poor(number, || network.way_reader()) {
            Err(NoMemory) => number += 1,
            Ok(reader) => break reader,
        }
    };
    assert!(number > 1, "a reader takes memory");
    assert!(matches!(poor(1, || reader.try_clone()), Err(NoMemory)));
    assert_eq!(reader.way(2, 0), Some(1));
    made_poor(&mut network, |it| it.cut(1, 0))?;
    assert_eq!(reader.way(2, 0), None);
    Ok(())
}

#[test]
fn without_memory_there_is_no_node_and_no_neighbour() -> Result<(), NodeFault> {
    let _held = COUNTER.lock().unwrap_or_else(PoisonError::into_inner);
    let policy = Policy::default();
    let refused = poor(1, || Node::new(1, 1, 1, policy)).err();
    assert_eq!(refused, Some(NodeFault::NoMemory));
    let refused = poor(1, || Node::new(1, 1, u64::MAX, policy)).err();
    assert_eq!(refused, Some(NodeFault::TooHigh));
    assert!(poor(1, || Node::gateway(1, 1)).is_err());
    let mut node = Node::new(1, 1, 1, policy)?;
    // One allocation is for the list of ways, and one for the neighbours.
    for number in [1, 2, 1] {
        assert_eq!(poor(number, || node.know(2, 1)), Err(NodeFault::NoMemory));
    }
    assert_eq!(poor(1, || node.know(1, 1)), Err(NodeFault::Itself));
    assert_eq!(node.know(2, 1), Ok(()));
    let table = poor(1, || {
        node.link_up(2);
        node.table()
    })?;
    assert_eq!(poor(1, || node.written(table)), Ok(()));
    assert_eq!(poor(1, || node.has_news(2)), Ok(true));
    assert!(matches!(poor(1, || node.say(2)), Ok(Some(_))));
    Ok(())
}
