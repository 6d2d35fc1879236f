//! The network after the last round.

use crate::edit::{Edit, Refusal};
use crate::net::Net;
use crate::settle::{Method, settled_counts};
use std::cell::OnceCell;

#[derive(Clone, Copy, PartialEq, Eq)]
pub enum Hop {
    Here,
    To(u32),
    CutOff,
}

pub struct Round {
    net: Net,
    dest: u32,
    counts: Vec<u32>,
    /// Computed when it is needed.
    hops: OnceCell<Vec<Hop>>,
}

impl Round {
    pub fn open(net: Net, dest: u32, method: Method) -> Result<Round, Refusal> {
        if dest >= net.nodes() {
            return Err(Refusal::Range);
        }
        let mut round = Round {
            net,
            dest,
            counts: Vec::new(),
            hops: OnceCell::new(),
        };
        round.settle(method, None);
        Ok(round)
    }

    /// If no node with links was cut off, each node has a link that points away, as before, except the ends of the
    /// edit.
    pub fn edit(&mut self, edit: Edit, method: Method) -> Result<(), Refusal> {
        self.net.edit(edit)?;
        let (Edit::Cut { u, v } | Edit::Add { u, v } | Edit::Join { u, v }) = edit;
        let has_capped = self.counts.contains(&self.net.nodes());
        self.settle(method, if has_capped { None } else { Some([u, v]) });
        Ok(())
    }

    pub fn batch(&mut self, edits: &[Edit], method: Method) -> Result<(), Refusal> {
        self.net = self.net.edited(edits)?;
        self.settle(method, None);
        Ok(())
    }

    pub fn move_to(&mut self, dest: u32, method: Method) -> Result<(), Refusal> {
        if dest >= self.net.nodes() {
            return Err(Refusal::Range);
        }
        self.dest = dest;
        self.settle(method, None);
        Ok(())
    }

    /// If `among` is given, only its nodes can turn at first.
    fn settle(&mut self, method: Method, among: Option<[u32; 2]>) {
        self.hops.take();
        if among.is_some_and(|ends| !ends.iter().any(|&x| self.net.is_sink(x) && x != self.dest)) {
            self.counts.fill(0);
            return;
        }
        self.counts = settled_counts(&self.net, self.dest, method);
        self.net.turn_by(&self.counts);
    }

    pub fn turned(&self) -> u32 {
        self.counts.iter().sum()
    }

    pub fn cut_off(&self) -> usize {
        (0..self.net.nodes())
            .filter(|&x| self.is_cut_off(x))
            .count()
    }

    fn is_cut_off(&self, x: u32) -> bool {
        x != self.dest && (self.counts[x as usize] == self.net.nodes() || self.net.degree(x) == 0)
    }

    /// The links in rising order of tail, then head.
    pub fn links(&self) -> impl Iterator<Item = (u32, u32)> + '_ {
        (0..self.net.nodes()).flat_map(|x| self.net.heads(x).map(move |head| (x, head)))
    }

    pub fn counts(&self) -> &[u32] {
        &self.counts
    }

    pub fn hops(&self) -> &[Hop] {
        self.hops
            .get_or_init(|| (0..self.net.nodes()).map(|x| self.hop_of(x)).collect())
    }

    fn hop_of(&self, x: u32) -> Hop {
        if x == self.dest {
            Hop::Here
        } else if self.is_cut_off(x) {
            Hop::CutOff
        } else {
            self.net.heads(x).next().map_or(Hop::CutOff, Hop::To)
        }
    }
}
