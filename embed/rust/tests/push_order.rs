//! Push orders between two tables that no network has made, compared with their definition.

mod order;

use revroute::Hop::{CutOff, Here, To};
use revroute::{Hop, Refused, push_order};
use std::error::Error;

/// Random numbers, the same in each run.
struct Draw(u64);

impl Draw {
    fn below(&mut self, bound: usize) -> usize {
        self.0 = self
            .0
            .wrapping_mul(6364136223846793005)
            .wrapping_add(1442695040888963407);
        ((self.0 >> 33) as usize) % bound
    }

    /// A random table of this length. Its hops lead to numbers below `nodes`, and to lower ones if it has no loop.
    fn table(&mut self, length: usize, nodes: usize, has_loops: bool) -> Vec<Hop> {
        let mut hop = |at: usize| match (self.below(4), if has_loops { nodes } else { at }) {
            (0, _) | (_, 0) => [Here, CutOff][self.below(2)],
            (_, below) => To(self.below(below) as u32),
        };
        (0..length).map(&mut hop).collect()
    }
}

/// The hop of a node. A node past the end of a table is cut off.
fn hop(table: &[Hop], node: u32) -> Hop {
    table.get(node as usize).copied().unwrap_or(CutOff)
}

/// Whether the walk from a node comes back to it.
fn goes_round(table: &[Hop], node: u32) -> bool {
    let mut at = hop(table, node).node();
    for _ in table {
        match at {
            Some(next) if next == node => return true,
            Some(next) => at = hop(table, next).node(),
            None => return false,
        }
    }
    false
}

#[test]
fn orders_are_those_of_the_definition() -> Result<(), Refused> {
    let mut draw = Draw(20261127);
    for _ in 0..20_000 {
        let lengths = [draw.below(10), draw.below(10)];
        let nodes = lengths[0].max(lengths[1]);
        let mut old = draw.table(lengths[0], nodes, true);
        let new = draw.table(lengths[1], nodes, false);
        let wanted = order::push_order(&old, &new);
        let found = push_order(&old, &new)?;
        assert!(found.iter().map(|it| it.0).eq(wanted), "{old:?} {new:?}");
        old.resize(nodes, CutOff);
        for (node, next) in found {
            assert_eq!(next, hop(&new, node));
            old[node as usize] = next;
            assert!(!goes_round(&old, node), "{old:?} {new:?}");
        }
        assert!((0..nodes as u32).all(|node| hop(&old, node) == hop(&new, node)));
        assert_eq!(push_order(&old, &new)?, []);
    }
    Ok(())
}

#[test]
fn a_loop_is_one_of_the_new_table() {
    let mut draw = Draw(7);
    let mut met = 0;
    for _ in 0..5_000 {
        let length = 1 + draw.below(8);
        let (old, new) = (
            draw.table(length, length, true),
            draw.table(length, length, true),
        );
        let has_loop = (0..length as u32).any(|node| goes_round(&new, node));
        match push_order(&old, &new) {
            Ok(_) => assert!(!has_loop, "{new:?}"),
            Err(Refused::ClosedWalk(walk)) => {
                met += 1;
                assert!(walk.len() > 1 && walk.first() == walk.last());
                let lowest = (0..length as u32).find(|&node| goes_round(&new, node));
                assert_eq!(lowest, walk.first().copied());
                assert!(walk.windows(2).all(|it| hop(&new, it[0]) == To(it[1])));
            }
            Err(other) => panic!("{other}"),
        }
    }
    assert!(met > 1_000);
}

#[test]
fn tables_are_refused_for_the_first_reason() -> Result<(), Box<dyn Error>> {
    let round = [Here, To(2), To(1)];
    for (old, new, refused) in [
        (&[To(3)][..], &round[..], Refused::NoSuchNode(3)),
        (&round, &[To(4), To(3)], Refused::NoSuchNode(4)),
        (&[To(u32::MAX)], &[], Refused::NoSuchNode(u32::MAX)),
        (&[], &[To(u32::MAX - 1)], Refused::NoSuchNode(u32::MAX - 1)),
        (&[CutOff], &round, Refused::ClosedWalk(vec![1, 2, 1])),
        (&[], &[To(0)], Refused::ClosedWalk(vec![0, 0])),
    ] {
        assert_eq!(push_order(old, new), Err(refused));
    }
    let most: Vec<Hop> = (0..4096)
        .map(|x| if x == 0 { Here } else { To(x - 1) })
        .collect();
    assert_eq!(push_order(&[], &most)?.len(), 4096);
    let longer = [&most[..], &[To(9999)]].concat();
    assert_eq!(push_order(&longer, &round), Err(Refused::TooMany));
    assert_eq!(push_order(&round, &longer), Err(Refused::TooMany));
    assert_eq!(
        push_order(&round, &[])?,
        [(0, CutOff), (1, CutOff), (2, CutOff)]
    );
    Ok(())
}
