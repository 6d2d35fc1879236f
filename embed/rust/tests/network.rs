//! Compares networks with typed calls with a session that gets the same changes by lines.

mod order;

use order::push_order;
use revroute::{
    Edit, Hop, MAX_NODES, Network, Refused, RefusedEdit, Report, Session, Size, TableFault,
};
use std::error::Error;
use std::thread;

/// Random numbers, the same in each run.
struct Draw(u64);

impl Draw {
    fn below(&mut self, bound: u32) -> u32 {
        self.0 = self
            .0
            .wrapping_mul(6364136223846793005)
            .wrapping_add(1442695040888963407);
        ((self.0 >> 33) % u64::from(bound)) as u32
    }

    /// A random edit, sometimes with a number that is not a node.
    fn edit(&mut self, nodes: u32) -> Edit {
        let behind = nodes + u32::from(self.below(10) == 0);
        let (u, v) = (self.below(behind), self.below(behind));
        [Edit::Cut, Edit::Add, Edit::Join][self.below(3) as usize](u, v)
    }

    /// A table with some of these hops, and some random ones.
    fn table(&mut self, hops: &[Hop]) -> Vec<Hop> {
        let (nodes, kept) = (hops.len() as u32, self.below(5));
        let mut drawn = |hop| match self.below(16) {
            it if it / 4 < kept => hop,
            it if it % 4 == 0 => Hop::CutOff,
            it if it % 4 == 1 => Hop::Here,
            _ => Hop::To(self.below(nodes)),
        };
        hops.iter().map(|&hop| drawn(hop)).collect()
    }

    /// Lists with some of these ways, and with some random numbers, of which not all are nodes.
    fn lists(&mut self, ways: &[Vec<u32>]) -> Vec<Vec<u32>> {
        let nodes = ways.len() as u32;
        let mut drawn = |own: &Vec<u32>| match self.below(4) {
            0 => own.clone(),
            1 => own.iter().copied().filter(|way| way % 2 == 0).collect(),
            _ => (0..self.below(4)).map(|_| self.number(nodes)).collect(),
        };
        ways.iter().map(&mut drawn).collect()
    }

    /// A node, or sometimes a number that is not a node.
    fn number(&mut self, nodes: u32) -> u32 {
        match self.below(8) {
            0 => nodes + self.below(3),
            1 => u32::MAX - self.below(3),
            _ => self.below(nodes),
        }
    }

    /// Puts pushes into a random order.
    fn shuffle<T>(&mut self, pushes: &mut [T]) {
        for left in (1..pushes.len()).rev() {
            pushes.swap(left, self.below(left as u32 + 1) as usize);
        }
    }

    /// Links without a cycle, since each points to the lower number.
    fn links(&mut self, nodes: u32) -> Vec<(u32, u32)> {
        let pairs = (0..nodes).flat_map(|u| (0..u).map(move |v| (u, v)));
        pairs.filter(|_| self.below(5) < 2).collect()
    }
}

/// The same network, only by lines.
struct Lines(Session);

impl Lines {
    fn answer(&mut self, line: &str) -> String {
        let answer = self.0.answer(line).expect("there is memory");
        String::from(answer.expect("a request has an answer"))
    }

    fn words(&mut self, line: &str) -> Vec<String> {
        let answer = self.answer(line);
        answer.split(' ').skip(1).map(String::from).collect()
    }

    fn hops(&mut self) -> Vec<Hop> {
        let hop = |word: String| match &*word {
            "here" => Hop::Here,
            "cut" => Hop::CutOff,
            node => Hop::To(node.parse().expect("a node")),
        };
        self.words(r#"["hops"]"#).into_iter().map(hop).collect()
    }

    fn links(&mut self) -> Vec<(u32, u32)> {
        let ends = |word: String| {
            let (tail, head) = word.split_once('>').expect("a link");
            (tail.parse().expect("a node"), head.parse().expect("a node"))
        };
        self.words(r#"["links"]"#).into_iter().map(ends).collect()
    }
}

fn words_of(edit: Edit) -> String {
    match edit {
        Edit::Cut(u, v) => format!(r#"["cut",{u},{v}]"#),
        Edit::Add(u, v) => format!(r#"["add",{u},{v}]"#),
        Edit::Join(u, v) => format!(r#"["join",{u},{v}]"#),
        _ => unreachable!("there are three kinds of edits"),
    }
}

fn line_of_links(nodes: u32, dest: u32, links: &[(u32, u32)]) -> String {
    let links: Vec<String> = links.iter().map(|(u, v)| format!("[{u},{v}]")).collect();
    format!(r#"["net",{nodes},{dest},[{}]]"#, links.join(","))
}

fn told_of(report: Report) -> String {
    format!("turned {} cut {}", report.turned, report.cut_off)
}

/// The number that lines use for a refusal.
fn number(refused: &Refused) -> u32 {
    match refused {
        Refused::NoMemory => panic!("there is memory"),
        Refused::NoSuchNode(_) => 4,
        Refused::SelfLink(_) => 5,
        Refused::Twice(..) => 6,
        Refused::ClosedWalk(_) => 7,
        Refused::NoLink(..) => 8,
        Refused::TooMany => 9,
        _ => panic!("{refused}"),
    }
}

/// Checks that all questions have the same answers as by lines, and that the changed hops are those that differ from
/// before, in push order.
fn compare(network: &Network, lines: &mut Lines, before: &[Hop]) -> Result<(), Box<dyn Error>> {
    let hops = network.hops()?;
    assert_eq!(hops, lines.hops());
    let counts: Vec<String> = network.counts()?.iter().map(u64::to_string).collect();
    assert_eq!(counts, lines.words(r#"["counts"]"#));
    assert_eq!(network.links()?, lines.links());
    let Size { nodes, links } = network.size();
    assert_eq!((nodes as usize, links), (hops.len(), lines.links().len()));
    for x in 0..nodes {
        assert_eq!(network.next_hop(x), hops[x as usize]);
        let mut told = lines.words(&format!(r#"["walk",{x}]"#));
        if told.last().is_some_and(|it| it == "cut") {
            told.clear();
        }
        assert!(network.walk(x).map(|it| it.to_string()).eq(told));
    }
    assert_eq!(network.changed()?, pushes_of(before, &hops));
    compare_ways(network)
}

/// The distance of each node, by a breadth-first search from the destination against the links.
fn distances(nodes: u32, dest: u32, links: &[(u32, u32)]) -> Vec<Option<u32>> {
    let mut found = vec![None; nodes as usize];
    let mut reached = vec![dest];
    for distance in 0..nodes {
        for &node in &reached {
            found[node as usize] = Some(distance);
        }
        let tails = links.iter().filter(|link| reached.contains(&link.1));
        reached = tails
            .map(|link| link.0)
            .filter(|&tail| found[tail as usize].is_none())
            .collect();
    }
    found
}

/// Checks the ways, the nearest route and the distance of each node by a search of the links.
fn compare_ways(network: &Network) -> Result<(), Box<dyn Error>> {
    let (nodes, links) = (network.size().nodes, network.links()?);
    let distances = distances(nodes, network.dest(), &links);
    let distance = |node: u32| distances[node as usize];
    let all = network.all_ways()?;
    assert_eq!(all.len(), nodes as usize);
    for x in 0..nodes {
        let heads = links.iter().filter(|link| link.0 == x).map(|link| link.1);
        let mut ways: Vec<u32> = heads.filter(|&head| distance(head).is_some()).collect();
        ways.sort_by_key(|&way| (distance(way), way));
        assert_eq!(network.ways(x)?, ways);
        assert_eq!(all[x as usize], ways);
        assert_eq!(network.distance(x), distance(x));
        let route = network.nearest(x)?;
        assert_eq!(route.as_ref().map(|it| it.len() as u32 - 1), distance(x));
        let route = route.unwrap_or_default();
        assert!(route.first().is_none_or(|&first| first == x));
        assert!(route.last().is_none_or(|&last| last == network.dest()));
        for step in route.windows(2) {
            assert_eq!(network.ways(step[0])?.first(), Some(&step[1]));
        }
    }
    Ok(())
}

/// The expected pushes for a table with the hops `before` that is to get the hops `hops`.
fn pushes_of(before: &[Hop], hops: &[Hop]) -> Vec<(u32, Hop)> {
    let order = push_order(before, hops).into_iter();
    order.map(|x| (x, hops[x as usize])).collect()
}

/// Whether a table leads from a node back to itself.
fn goes_round(table: &[Hop], node: u32) -> bool {
    let mut at = node;
    for _ in table {
        match table[at as usize].node() {
            Some(next) if next == node => return true,
            Some(next) => at = next,
            None => return false,
        }
    }
    false
}

/// Checks that the pushes of a random table are the right ones, and that none closes a loop. A loop would contain the
/// node that was pushed.
fn push_drawn(network: &Network, draw: &mut Draw) -> Result<(), Box<dyn Error>> {
    let hops = network.hops()?;
    let mut table = draw.table(&hops);
    let pushes = network.pushes(&table)?;
    assert_eq!(pushes, pushes_of(&table, &hops));
    for (node, hop) in pushes {
        table[node as usize] = hop;
        assert!(!goes_round(&table, node), "{table:?}");
    }
    assert_eq!(table, hops);
    assert_eq!(network.pushes(&table)?, []);
    Ok(())
}

type WayPushes = Vec<(u32, Vec<u32>)>;

/// The ways that a node keeps, in the order of its new list.
fn kept(old: &[u32], new: &[u32]) -> Vec<u32> {
    let is_kept = |way: &&u32| old.contains(way);
    new.iter().filter(is_kept).copied().collect()
}

fn loses(old: &[u32], new: &[u32]) -> bool {
    !old.iter().all(|way| new.contains(way))
}

/// The expected pushes of both phases: the nodes that lose a way, those that keep one first, and then the nodes whose
/// list differs once these have their lists.
fn phases_of(old: &[Vec<u32>], new: &[Vec<u32>]) -> (WayPushes, WayPushes) {
    let (mut some, mut none, mut grow) = (Vec::new(), Vec::new(), Vec::new());
    for (x, (old, new)) in (0..).zip(old.iter().zip(new)) {
        let mut held = old.clone();
        if loses(old, new) {
            held = kept(old, new);
            let shrinks = if held.is_empty() {
                &mut none
            } else {
                &mut some
            };
            shrinks.push((x, held.clone()));
        }
        if held != *new {
            grow.push((x, new.clone()));
        }
    }
    some.extend(none);
    (some, grow)
}

/// Whether packets can go round a cycle: whether nodes are left after all nodes were removed, again and again, that have
/// no way to a node that is left.
fn has_cycle(table: &[Vec<u32>]) -> bool {
    let mut left: Vec<u32> = (0..table.len() as u32).collect();
    loop {
        let goes_on = |x: &u32| table[*x as usize].iter().any(|way| left.contains(way));
        let fewer: Vec<u32> = left.iter().copied().filter(goes_on).collect();
        if fewer.len() == left.len() {
            return !left.is_empty();
        }
        left = fewer;
    }
}

/// Makes the pushes of both phases, each in a random order. Checks that there is no cycle at any moment if there was none
/// before, and that routers end with the ways of the network.
fn update_ways(
    network: &Network,
    held: &mut [Vec<u32>],
    draw: &mut Draw,
) -> Result<(), Box<dyn Error>> {
    let (new, may_cycle) = (network.all_ways()?, has_cycle(held));
    let (shrinks, growths) = phases_of(held, &new);
    assert_eq!(network.shrink(held)?, shrinks);
    assert_eq!(network.grow(held)?, growths);
    for mut pushes in [shrinks, growths.clone()] {
        draw.shuffle(&mut pushes);
        for (node, ways) in pushes {
            held[node as usize] = ways;
            assert!(may_cycle || !has_cycle(held), "{held:?}");
        }
        let left = if *held == new {
            vec![]
        } else {
            growths.clone()
        };
        assert_eq!(network.shrink(held)?, []);
        assert_eq!(network.grow(held)?, left);
    }
    assert_eq!(held, new);
    Ok(())
}

/// Whether links lead from one node to another.
fn leads(links: &[(u32, u32)], from: u32, to: u32) -> bool {
    let (mut found, mut next) = (vec![from], 0);
    while next < found.len() {
        let tail = found[next];
        let heads = links
            .iter()
            .filter(|link| link.0 == tail)
            .map(|link| link.1);
        let fresh: Vec<u32> = heads.filter(|it| !found.contains(it)).collect();
        found.extend(fresh);
        next += 1;
    }
    found.contains(&to)
}

/// Makes an accepted edit in a list of links.
fn make(links: &mut Vec<(u32, u32)>, edit: Edit) {
    match edit {
        Edit::Cut(u, v) => links.retain(|&link| link != (u, v) && link != (v, u)),
        Edit::Join(u, v) if leads(links, v, u) => links.push((v, u)),
        Edit::Add(u, v) | Edit::Join(u, v) => links.push((u, v)),
        _ => unreachable!("there are three kinds of edits"),
    }
}

/// Checks that the evidence shows why an edit is refused. `links` are the links before it.
fn shows(why: &Refused, edit: Edit, links: &[(u32, u32)], nodes: u32) {
    let (Edit::Cut(u, v) | Edit::Add(u, v) | Edit::Join(u, v)) = edit else {
        unreachable!("there are three kinds of edits");
    };
    let joined = links.contains(&(u, v)) || links.contains(&(v, u));
    match why {
        Refused::NoSuchNode(node) => assert!(*node >= nodes && [u, v].contains(node)),
        Refused::SelfLink(node) => assert_eq!((*node, *node), (u, v)),
        Refused::Twice(one, other) => assert!((*one, *other) == (u, v) && joined),
        Refused::NoLink(one, other) => assert!((*one, *other) == (u, v) && !joined),
        Refused::ClosedWalk(walk) => {
            assert!(edit == Edit::Add(u, v) && walk.first() == walk.last());
            let steps: Vec<(u32, u32)> = walk.windows(2).map(|it| (it[0], it[1])).collect();
            assert!(steps.contains(&(u, v)), "{walk:?}");
            assert!(steps.iter().all(|it| *it == (u, v) || links.contains(it)));
        }
        _ => panic!("{why}"),
    }
}

/// A change, by calls and by lines.
enum Asked {
    One(Edit),
    Batch(Vec<Edit>),
    Destination(u32),
}

impl Asked {
    fn drawn(draw: &mut Draw, nodes: u32) -> Asked {
        match draw.below(5) {
            0 => Asked::Destination(draw.below(nodes + 1)),
            1 => Asked::Batch((0..draw.below(4)).map(|_| draw.edit(nodes)).collect()),
            _ => Asked::One(draw.edit(nodes)),
        }
    }

    fn line(&self) -> String {
        match self {
            Asked::One(edit) => words_of(*edit),
            Asked::Batch(edits) => {
                let edits: Vec<String> = edits.iter().map(|&it| words_of(it)).collect();
                format!(r#"["batch",[{}]]"#, edits.join(","))
            }
            Asked::Destination(dest) => format!(r#"["dest",{dest}]"#),
        }
    }

    /// Makes the change by its call, and checks the evidence if it is refused.
    fn make(&self, network: &mut Network, mut links: Vec<(u32, u32)>) -> Result<Report, Refused> {
        let nodes = network.size().nodes;
        match self {
            Asked::One(edit) => {
                let ended = match *edit {
                    Edit::Cut(u, v) => network.cut(u, v),
                    Edit::Add(u, v) => network.add(u, v),
                    Edit::Join(u, v) => network.join(u, v),
                    _ => unreachable!("there are three kinds of edits"),
                };
                ended.inspect_err(|why| shows(why, *edit, &links, nodes))
            }
            Asked::Batch(edits) => {
                let ended = network.batch(edits).inspect_err(|it| {
                    edits[..it.at]
                        .iter()
                        .for_each(|&edit| make(&mut links, edit));
                    shows(&it.why, edits[it.at], &links, nodes);
                });
                Ok(ended?)
            }
            Asked::Destination(dest) => network
                .move_dest(*dest)
                .inspect_err(|why| assert_eq!(*why, Refused::NoSuchNode(*dest))),
        }
    }
}

/// Makes random changes in both ways, and returns how many are accepted and refused.
fn change_both(seed: u64) -> Result<(u32, u32), Box<dyn Error>> {
    let mut draw = Draw(seed);
    let nodes = 1 + draw.below(8);
    let (links, dest) = (draw.links(nodes), draw.below(nodes));
    let mut network = Network::new(nodes, dest, &links)?;
    let mut lines = Lines(Session::new());
    let told = lines.answer(&line_of_links(nodes, dest, &links));
    assert_eq!(told_of(network.report()), told);
    compare(&network, &mut lines, &[])?;
    let mut held = vec![Vec::new(); nodes as usize];
    update_ways(&network, &mut held, &mut draw)?;
    let (mut accepted, mut refused) = (0, 0);
    for _ in 0..60 {
        let asked = Asked::drawn(&mut draw, nodes);
        let (hops, links) = (network.hops()?, network.links()?);
        let told = lines.answer(&asked.line());
        match asked.make(&mut network, links.clone()) {
            Ok(report) => {
                assert_eq!((told_of(report), network.report()), (told, report));
                compare(&network, &mut lines, &hops)?;
                push_drawn(&network, &mut draw)?;
                update_ways(&network, &mut held, &mut draw)?;
                let mut others = draw.lists(&held);
                update_ways(&network, &mut others, &mut draw)?;
                accepted += 1;
            }
            Err(why) => {
                // By lines, a cut of a link at a number that is not a node has no link.
                let is_outside = matches!(why, Refused::NoSuchNode(_)) && told == "refused 8";
                assert!(is_outside || told == format!("refused {}", number(&why)));
                assert_eq!((network.hops()?, network.links()?), (hops, links));
                refused += 1;
            }
        }
    }
    Ok((accepted, refused))
}

#[test]
fn calls_tell_what_lines_tell() -> Result<(), Box<dyn Error>> {
    let (mut accepted, mut refused) = (0, 0);
    for seed in 0..120 {
        let (more, refusals) = change_both(seed)?;
        accepted += more;
        refused += refusals;
    }
    assert!(accepted > 1000 && refused > 1000, "{accepted} {refused}");
    Ok(())
}

#[test]
fn what_is_no_network_is_refused() {
    let most = MAX_NODES as u32;
    let many: Vec<(u32, u32)> = (0..32768 / 8)
        .flat_map(|u| (1..9).map(move |step| (u, u + step)))
        .collect();
    for (nodes, dest, links, why) in [
        (0, 0, &[][..], Refused::NoSuchNode(0)),
        (2, 2, &[], Refused::NoSuchNode(2)),
        (2, 0, &[(0, 2)], Refused::NoSuchNode(2)),
        (2, 0, &[(1, 1)], Refused::SelfLink(1)),
        (most + 1, 0, &[], Refused::TooMany),
        (most, 0, &[&many[..], &[(0, 9)]].concat(), Refused::TooMany),
    ] {
        assert_eq!(Network::new(nodes, dest, links).err(), Some(why));
    }
    let twice = Network::new(3, 0, &[(0, 1), (2, 1), (1, 2)]).err();
    assert!(matches!(
        twice,
        Some(Refused::Twice(1, 2) | Refused::Twice(2, 1))
    ));
    let links = [(4, 3), (0, 1), (1, 2), (2, 0)];
    let Err(Refused::ClosedWalk(walk)) = Network::new(5, 4, &links) else {
        panic!("a closed walk is no network");
    };
    assert_eq!((walk.len(), walk[0]), (4, walk[3]));
    assert!(walk.windows(2).all(|it| links.contains(&(it[0], it[1]))));
}

#[test]
fn a_batch_has_at_most_1024_edits() -> Result<(), Box<dyn Error>> {
    let mut network = Network::new(2, 0, &[(1, 0)])?;
    let edits: Vec<Edit> = (0..512)
        .flat_map(|_| [Edit::Cut(0, 1), Edit::Join(0, 1)])
        .collect();
    network.batch(&edits)?;
    let longer = [&edits[..], &[Edit::Cut(0, 1)]].concat();
    let refused = RefusedEdit {
        at: 1024,
        why: Refused::TooMany,
    };
    assert_eq!(network.batch(&longer), Err(refused));
    assert_eq!(
        network.batch(&[])?,
        Report {
            turned: 0,
            cut_off: 0
        }
    );
    assert_eq!(network.changed()?, []);
    Ok(())
}

#[test]
fn refusals_say_what_is_wrong() -> Result<(), Box<dyn Error>> {
    let mut network = Network::new(5, 0, &[(1, 0), (2, 0), (3, 1), (3, 2), (4, 3)])?;
    for (ended, said) in [
        (network.join(1, 5), "there is no node 5"),
        (network.add(1, 1), "a link would join node 1 with itself"),
        (
            network.add(0, 1),
            "more than one link would join nodes 0 and 1",
        ),
        (network.cut(0, 4), "no link joins nodes 0 and 4"),
        (network.cut(99, 1), "there is no node 99"),
        (network.cut(1, 5), "there is no node 5"),
        (network.move_dest(7), "there is no node 7"),
    ] {
        assert_eq!(ended.err().map(|it| it.to_string()).as_deref(), Some(said));
    }
    let said = network.add(0, 4).err().map(|it| it.to_string());
    let walks = ["0 4 3 1 0", "0 4 3 2 0"].map(|walk| format!("links would lead round: {walk}"));
    assert!(said.is_some_and(|it| walks.contains(&it)));
    let refused = network.batch(&[Edit::Cut(1, 0), Edit::Cut(0, 1)]);
    let said = refused.err().map(|it| it.to_string());
    assert_eq!(said.as_deref(), Some("edit 1: no link joins nodes 0 and 1"));
    let refused = network.batch(&[Edit::Cut(1, 0), Edit::Cut(7, 9)]);
    let wanted = RefusedEdit {
        at: 1,
        why: Refused::NoSuchNode(7),
    };
    assert_eq!(refused, Err(wanted.clone()));
    let source = wanted.source().map(|it| it.to_string());
    assert_eq!(source.as_deref(), Some("there is no node 7"));
    assert_eq!(
        format!("{network:?}"),
        "Network { nodes: 5, links: 5, dest: 0, .. }"
    );
    Ok(())
}

#[test]
fn the_largest_tables_have_pushes() -> Result<(), Box<dyn Error>> {
    let mut draw = Draw(1);
    let chain: Vec<(u32, u32)> = (1..4096).map(|x| (x, x - 1)).collect();
    let tree: Vec<(u32, u32)> = (1..4096).map(|x| (x, draw.below(x))).collect();
    for links in [chain, tree] {
        let network = Network::new(4096, 0, &links)?;
        let none = vec![Hop::CutOff; 4096];
        assert_eq!(network.pushes(&none)?, pushes_of(&none, &network.hops()?));
        for _ in 0..4 {
            push_drawn(&network, &mut draw)?;
        }
    }
    Ok(())
}

#[test]
fn a_change_keeps_its_pushes_until_the_next_one() -> Result<(), Box<dyn Error>> {
    let mut draw = Draw(20_261_129);
    for _ in 0..200 {
        let nodes = 1 + draw.below(8);
        let mut network = Network::new(nodes, draw.below(nodes), &draw.links(nodes))?;
        let mut kept = (vec![], vec![]);
        for _ in 0..20 {
            let before = network.all_ways()?;
            let edits = [draw.edit(nodes), draw.edit(nodes)];
            let is_kept = draw.below(3) > 0 && network.batch_with_ways(&edits).is_ok();
            if is_kept {
                kept = phases_of(&before, &network.all_ways()?);
            } else {
                let _ = network.batch(&edits[..1]);
            }
            assert_eq!((network.change_shrink()?, network.change_grow()?), kept);
        }
    }
    Ok(())
}

#[test]
fn a_change_with_ways_is_refused_as_any_other() -> Result<(), Box<dyn Error>> {
    let mut network = Network::new(3, 0, &[(1, 0), (2, 1), (2, 0)])?;
    let edits = [Edit::Cut(1, 0), Edit::Add(1, 1)];
    assert_eq!(network.batch_with_ways(&edits), network.batch(&edits));
    let why = Refused::ClosedWalk(vec![0, 2, 1, 0]);
    let refused = network.batch_with_ways(&[Edit::Cut(2, 0), Edit::Add(0, 2)]);
    assert_eq!(refused, Err(RefusedEdit { at: 1, why }));
    assert_eq!(network.links()?, [(1, 0), (2, 0), (2, 1)]);
    assert_eq!(
        (network.change_shrink()?, network.change_grow()?),
        (vec![], vec![])
    );
    Ok(())
}

#[test]
fn a_change_while_routers_still_shrink_begins_again() -> Result<(), Box<dyn Error>> {
    let mut network = Network::new(4, 0, &[(1, 0), (2, 0), (2, 1), (3, 2)])?;
    let mut held = network.all_ways()?;
    network.cut(1, 0)?;
    assert_eq!(network.shrink(&held)?, [(2, vec![0]), (1, vec![])]);
    assert_eq!(network.grow(&held)?, [(1, vec![2])]);
    held[2] = vec![0]; // 2 has confirmed, and 1 has not
    network.batch(&[Edit::Join(1, 0), Edit::Cut(2, 0)])?;
    assert_eq!(network.all_ways()?, [vec![], vec![0], vec![1], vec![2]]);
    assert_eq!(network.shrink(&held)?, [(2, vec![])]);
    assert_eq!(network.grow(&held)?, [(2, vec![1])]);
    Ok(())
}

#[test]
fn tables_of_ways_may_name_any_numbers_and_be_of_any_lists() -> Result<(), Box<dyn Error>> {
    let network = Network::new(3, 0, &[(1, 0), (2, 1), (2, 0)])?;
    assert_eq!(network.all_ways()?, [vec![], vec![0], vec![0, 1]]);
    let none: [&[u32]; 3] = [&[]; 3];
    assert_eq!(network.shrink(&none)?, []);
    assert_eq!(network.grow(&none)?, [(1, vec![0]), (2, vec![0, 1])]);
    let gone: [&[u32]; 3] = [&[1], &[u32::MAX, 0, 3], &[1, 1, 0]];
    assert_eq!(network.shrink(&gone)?, [(1, vec![0]), (0, vec![])]);
    assert_eq!(network.grow(&gone)?, [(2, vec![0, 1])]);
    assert_eq!(network.shrink(&[[2], [2], [2]])?.len(), 3);
    for count in [0, 2, 4] {
        let table = vec![vec![0]; count];
        assert_eq!(network.shrink(&table), Err(TableFault::Length));
        assert_eq!(network.grow(&table), Err(TableFault::Length));
    }
    Ok(())
}

#[test]
fn the_largest_tables_have_phases() -> Result<(), Box<dyn Error>> {
    let links: Vec<(u32, u32)> = (1..4096)
        .flat_map(|x: u32| (x.saturating_sub(8)..x).map(move |way| (x, way)))
        .collect();
    let network = Network::new(4096, 0, &links)?;
    let ways = network.all_ways()?;
    assert_eq!(ways[4095].len(), 8);
    let none = vec![Vec::new(); 4096];
    assert_eq!((vec![], network.grow(&none)?), phases_of(&none, &ways));
    let turned: Vec<Vec<u32>> = ways
        .iter()
        .map(|list| list.iter().rev().copied().collect())
        .collect();
    assert_eq!(network.shrink(&turned)?, []);
    assert_eq!(network.grow(&turned)?, phases_of(&turned, &ways).1);
    Ok(())
}

#[test]
fn a_wrong_table_has_no_pushes() -> Result<(), Box<dyn Error>> {
    let network = Network::new(3, 0, &[(1, 0)])?;
    let (here, cut, to) = (Hop::Here, Hop::CutOff, Hop::To);
    for (table, fault) in [
        (&[][..], TableFault::Length),
        (&[here, to(0)], TableFault::Length),
        (&[here, to(0), cut, to(9)], TableFault::Length),
        (&[here, to(3), to(4)], TableFault::NoSuchNode(3)),
        (
            &[to(u32::MAX), to(0), cut],
            TableFault::NoSuchNode(u32::MAX),
        ),
        (
            &[here, to(0), to(u32::MAX - 1)],
            TableFault::NoSuchNode(u32::MAX - 1),
        ),
    ] {
        assert_eq!(network.pushes(table), Err(fault), "{table:?}");
    }
    for (fault, said) in [
        (
            TableFault::Length,
            "the table does not have one entry for each node",
        ),
        (
            TableFault::NoSuchNode(7),
            "a hop of the table names 7, which is no node",
        ),
        (TableFault::NoMemory, "no memory"),
    ] {
        assert_eq!(fault.to_string(), said);
    }
    assert_eq!(network.pushes(&[here, to(0), cut])?, []);
    Ok(())
}

#[test]
fn questions_that_do_not_panic_find_the_same() -> Result<(), Box<dyn Error>> {
    let network = Network::new(6, 0, &[(2, 0), (1, 2), (3, 0), (4, 1), (4, 3)])?;
    for node in 0..6 {
        assert_eq!(network.try_next_hop(node), Some(network.next_hop(node)));
        let walk: Option<Vec<u32>> = network.try_walk(node).map(Iterator::collect);
        assert_eq!(walk, Some(network.walk(node).collect()));
        assert_eq!(network.try_ways(node)?, Some(network.ways(node)?));
        assert_eq!(network.try_nearest(node)?, Some(network.nearest(node)?));
        assert_eq!(network.try_distance(node), Some(network.distance(node)));
    }
    assert_eq!(network.try_ways(4)?, Some(vec![3, 1]));
    assert_eq!(network.try_ways(5)?, Some(vec![]));
    assert_eq!(network.try_distance(5), Some(None));
    Ok(())
}

#[test]
fn what_is_no_node_panics() -> Result<(), Box<dyn Error>> {
    for node in [2, 4096, u32::MAX - 4, u32::MAX - 3, u32::MAX] {
        let network = Network::new(2, 0, &[(1, 0)])?;
        assert_eq!(network.try_next_hop(node), None);
        assert!(network.try_walk(node).is_none());
        assert_eq!(network.try_ways(node)?, None);
        assert_eq!(network.try_nearest(node)?, None);
        assert_eq!(network.try_distance(node), None);
        assert!(
            thread::spawn(move || network.next_hop(node))
                .join()
                .is_err()
        );
        let network = Network::new(2, 0, &[(1, 0)])?;
        assert!(
            thread::spawn(move || network.walk(node).count())
                .join()
                .is_err()
        );
        let questions: [fn(&Network, u32) -> bool; 3] = [
            |network, node| network.ways(node).is_ok(),
            |network, node| network.nearest(node).is_ok(),
            |network, node| network.distance(node).is_some(),
        ];
        for question in questions {
            let network = Network::new(2, 0, &[(1, 0)])?;
            assert!(
                thread::spawn(move || question(&network, node))
                    .join()
                    .is_err()
            );
        }
    }
    Ok(())
}

#[test]
fn a_network_goes_from_thread_to_thread() -> Result<(), Box<dyn Error>> {
    let mut network = Network::new(4, 0, &[(0, 1), (1, 2), (2, 3)])?;
    for dest in [3, 1, 2, 0] {
        network = thread::spawn(move || network.move_dest(dest).map(|_| network))
            .join()
            .expect("the thread changes it")?;
        assert_eq!(network.next_hop(network.dest()), Hop::Here);
    }
    assert!(network.walk(3).eq([3, 2, 1, 0]));
    Ok(())
}

#[test]
fn a_clone_has_the_links_and_hops_and_changes_alone() -> Result<(), Box<dyn Error>> {
    for seed in 0..60 {
        let mut draw = Draw(seed);
        let nodes = 1 + draw.below(8);
        let mut network = Network::new(nodes, draw.below(nodes), &draw.links(nodes))?;
        for _ in 0..20 {
            let links = network.links()?;
            let asked = Asked::drawn(&mut draw, nodes);
            asked.make(&mut network, links).ok();
        }
        let (links, hops, dest) = (network.links()?, network.hops()?, network.dest());
        let mut other = network.clone();
        assert_eq!(
            (other.links()?, other.hops()?, other.dest()),
            (links, hops, dest)
        );
        assert_eq!(other.report().cut_off, network.report().cut_off);
        let hops = other.hops()?;
        for (hop, count) in hops.iter().zip(other.counts()?) {
            assert!(*hop == Hop::CutOff || count == 0);
        }
        let links = network.links()?;
        other.move_dest(draw.below(nodes))?;
        for &(u, v) in &links {
            other.cut(u, v)?;
        }
        assert_eq!((network.links()?, network.dest()), (links, dest));
    }
    Ok(())
}

#[test]
#[allow(deprecated)]
fn former_names_do_what_the_new_ones_do() -> Result<(), Box<dyn Error>> {
    let mut network = Network::new(3, 0, &[(1, 0), (2, 1)])?;
    let mut same = network.clone();
    assert_eq!(network.set_destination(2)?, same.move_dest(2)?);
    assert_eq!(network.set_destination(3), Err(Refused::NoSuchNode(3)));
    assert_eq!((network.destination(), same.dest()), (2, 2));
    assert_eq!(network.links()?, same.links()?);
    Ok(())
}
