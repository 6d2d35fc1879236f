//! Push order: the order in which changed hops must be listed.

use revroute::Hop;

/// The nodes whose hop differs: first those whose route leads to the destination, and then the others. Both are ordered
/// by how many of the nodes are on the node's route, itself included, and then by number. A number that is not a node
/// of one of the networks is cut off there.
pub fn push_order(before: &[Hop], after: &[Hop]) -> Vec<u32> {
    let hop = |table: &[Hop], x: usize| table.get(x).copied().unwrap_or(Hop::CutOff);
    let differs = |x: usize| hop(before, x) != hop(after, x);
    let group = |mut x: usize| {
        let mut met = usize::from(differs(x));
        while let Hop::To(next) = hop(after, x) {
            x = next as usize;
            met += usize::from(differs(x));
        }
        (hop(after, x) != Hop::Here, met)
    };
    let all = 0..before.len().max(after.len());
    let mut nodes: Vec<usize> = all.filter(|&x| differs(x)).collect();
    nodes.sort_by_key(|&x| (group(x), x));
    nodes.into_iter().map(|x| x as u32).collect()
}
