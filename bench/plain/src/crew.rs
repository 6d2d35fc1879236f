//! Full reversal by threads, as a plain program would do it. There is an atomic count for each node, and a deque of
//! candidates for each worker, from which the others steal. A flag for each node ensures that no deque has it twice.

use crate::net::{Net, Way};
use crossbeam_deque::{Steal, Stealer, Worker};
use std::sync::atomic::{AtomicBool, AtomicU32, Ordering::SeqCst};
use std::thread;

/// How often each node has turned when this many workers find no candidate any more. Mostly, but not always, no node
/// can turn then.
pub fn turned_by(net: &Net, dest: u32, workers: usize) -> Vec<u32> {
    let deques: Vec<Worker<u32>> = (0..workers).map(|_| Worker::new_fifo()).collect();
    let crew = Crew {
        net,
        dest,
        counts: (0..net.nodes()).map(|_| AtomicU32::new(0)).collect(),
        standing: (0..net.nodes()).map(|_| AtomicBool::new(false)).collect(),
        stealers: deques.iter().map(Worker::stealer).collect(),
    };
    for x in (0..net.nodes()).filter(|&x| x != dest && net.degree(x) > 0) {
        crew.put(&deques[x as usize % workers], x);
    }
    thread::scope(|scope| {
        let mut numbered = deques.into_iter().enumerate();
        let last = numbered.next_back();
        for (number, deque) in numbered {
            let crew = &crew;
            scope.spawn(move || crew.work(number, &deque));
        }
        if let Some((number, deque)) = last {
            crew.work(number, &deque);
        }
    });
    crew.counts.into_iter().map(AtomicU32::into_inner).collect()
}

struct Crew<'a> {
    net: &'a Net,
    dest: u32,
    counts: Vec<AtomicU32>,
    standing: Vec<AtomicBool>,
    stealers: Vec<Stealer<u32>>,
}

impl Crew<'_> {
    /// Turns candidates until it finds none.
    fn work(&self, number: usize, own: &Worker<u32>) {
        while let Some(x) = own.pop().or_else(|| self.stolen(number)) {
            // Before the call, so that a neighbour that turns meanwhile can put it again.
            self.standing[x as usize].store(false, SeqCst);
            if self.turn(x) {
                for entry in self.net.row(x) {
                    if entry.neighbour != self.dest {
                        self.put(own, entry.neighbour);
                    }
                }
            }
        }
    }

    /// Puts a candidate into the own deque, unless it is in a deque.
    fn put(&self, own: &Worker<u32>, x: u32) {
        let standing = &self.standing[x as usize];
        if !standing.load(SeqCst) && !standing.swap(true, SeqCst) {
            own.push(x);
        }
    }

    /// Steals a candidate from another worker.
    fn stolen(&self, number: usize) -> Option<u32> {
        let all = self.stealers.len();
        (1..all).find_map(|step| loop {
            match self.stealers[(number + step) % all].steal() {
                Steal::Success(x) => return Some(x),
                Steal::Empty => return None,
                Steal::Retry => {}
            }
        })
    }

    /// Turns a node if it is a sink. If another worker was faster, that one puts the neighbours.
    fn turn(&self, x: u32) -> bool {
        let own = &self.counts[x as usize];
        let count = own.load(SeqCst);
        count < self.net.nodes()
            && self.net.row(x).iter().all(|entry| {
                let bound = match entry.way {
                    Way::Out => count + 1,
                    Way::In => count,
                };
                self.counts[entry.neighbour as usize].load(SeqCst) >= bound
            })
            && own.compare_exchange(count, count + 1, SeqCst, SeqCst).is_ok()
    }
}
