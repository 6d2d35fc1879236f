//! Times calls on a network. Each line is `name nanoseconds`: the nanoseconds of one call, in the best of several
//! runs. The last line is a sum over the next hops after all changes, which must be the same for all sides.

use std::hint::black_box;
use std::io::{self, Read};
use std::sync::Barrier;
use std::thread;
use std::time::{Duration, Instant};

const RUNS: usize = 9;
const THREADS: usize = 4;
/// How often each node's next hop is asked for in a run.
const ROUNDS: usize = 500;
const TABLES: usize = 200;

/// The input: a network and changes, each of which is a cut or an added link.
pub struct Input {
    pub nodes: u32,
    pub dest: u32,
    pub links: Vec<(u32, u32)>,
    pub changes: Vec<Change>,
}

#[derive(Clone, Copy)]
pub enum Change {
    Cut(u32, u32),
    Add(u32, u32),
}

/// A network with the calls that are timed.
pub trait Calls: Send + Sized {
    fn open(input: &Input) -> Self;
    /// The next hop of a node, as a number.
    fn hop(&self, node: u32) -> u32;
    /// A reader of next hops for another thread.
    type Reader: Send;
    fn reader(&self) -> Self::Reader;
    fn read(reader: &Self::Reader, node: u32) -> u32;
    /// Writes the next hops of all nodes into a list, which keeps its memory.
    fn hops(&self, list: &mut Vec<u32>);
    fn change(&mut self, change: Change);
}

/// Reads `net nodes dest`, `link tail head`, `cut u v` and `add u v`, each on a line.
pub fn read() -> io::Result<Input> {
    let mut text = String::new();
    io::stdin().lock().read_to_string(&mut text)?;
    let mut input = Input {
        nodes: 0,
        dest: 0,
        links: Vec::new(),
        changes: Vec::new(),
    };
    for line in text.lines() {
        let mut words = line.split(' ');
        let word = words.next();
        let mut number = || words.next().and_then(|it| it.parse().ok()).unwrap_or(0);
        let (u, v) = (number(), number());
        match word {
            Some("net") => (input.nodes, input.dest) = (u, v),
            Some("link") => input.links.push((u, v)),
            Some("cut") => input.changes.push(Change::Cut(u, v)),
            Some("add") => input.changes.push(Change::Add(u, v)),
            _ => return Err(io::Error::other("a line that is none")),
        }
    }
    Ok(input)
}

/// The nodes in a random order, which is the same in each run.
fn shuffled(nodes: u32) -> Vec<u32> {
    let (mut order, mut drawn): (Vec<u32>, u64) = ((0..nodes).collect(), 1);
    for at in (1..order.len()).rev() {
        drawn = drawn
            .wrapping_mul(6364136223846793005)
            .wrapping_add(1442695040888963407);
        order.swap(at, (drawn >> 33) as usize % (at + 1));
    }
    order
}

fn best(mut run: impl FnMut() -> Duration) -> f64 {
    let times = (0..RUNS).map(|_| run().as_nanos() as f64);
    times.fold(f64::INFINITY, f64::min)
}

fn ask<T>(network: &T, hop: impl Fn(&T, u32) -> u32, order: &[u32]) {
    let mut sum = 0u32;
    for _ in 0..ROUNDS {
        // so that each round asks again
        let network = black_box(network);
        for &node in order {
            sum = sum.wrapping_add(hop(network, node));
        }
    }
    black_box(sum);
}

/// The time of several threads, each of which asks its own network or reader. It is from the first start to the last
/// end.
fn ask_together<T: Send>(
    asked: &mut [T],
    hop: impl Fn(&T, u32) -> u32 + Copy + Send,
    order: &[u32],
) -> Duration {
    let together = &Barrier::new(asked.len());
    let spans: Vec<(Instant, Instant)> = thread::scope(|scope| {
        let ask_one = move |one: &mut T| {
            together.wait();
            let begin = Instant::now();
            ask(one, hop, order);
            (begin, Instant::now())
        };
        let threads: Vec<_> = asked
            .iter_mut()
            .map(|it| scope.spawn(move || ask_one(it)))
            .collect();
        let ended = threads.into_iter().map(|it| it.join());
        ended.map(|it| it.expect("a thread ends well")).collect()
    });
    let begin = spans.iter().map(|it| it.0).min();
    let end = spans.iter().map(|it| it.1).max();
    end.zip(begin)
        .map_or(Duration::ZERO, |(end, begin)| end - begin)
}

/// Prints all times.
pub fn tell<T: Calls>(input: &Input) {
    let (order, asked) = (
        shuffled(input.nodes),
        (input.nodes as usize * ROUNDS) as f64,
    );
    let network = T::open(input);
    let timed = |what: &mut dyn FnMut()| {
        let begin = Instant::now();
        what();
        begin.elapsed()
    };
    println!(
        "hop {:.3}",
        best(|| timed(&mut || ask(&network, T::hop, &order))) / asked
    );
    let mut four: Vec<T> = (0..THREADS).map(|_| T::open(input)).collect();
    let together = best(|| ask_together(&mut four, T::hop, &order));
    println!("hop4 {:.3}", together / asked / THREADS as f64);
    let mut readers: Vec<T::Reader> = (0..THREADS).map(|_| network.reader()).collect();
    let alone = best(|| ask_together(&mut readers[..1], T::read, &order));
    println!("reader {:.3}", alone / asked);
    let together = best(|| ask_together(&mut readers, T::read, &order));
    println!("reader4 {:.3}", together / asked / THREADS as f64);
    drop(readers);
    let mut list = Vec::new();
    let tables = best(|| {
        timed(&mut || {
            for _ in 0..TABLES {
                network.hops(&mut list);
                black_box(&list);
            }
        })
    });
    println!("hops {:.0}", tables / TABLES as f64);
    let changes = best(|| {
        let mut network = T::open(input);
        timed(&mut || {
            for &it in &input.changes {
                network.change(it);
                black_box(network.hop(input.dest));
            }
        })
    });
    // with a question for a hop after each
    println!("change {:.0}", changes / input.changes.len() as f64);
    let mut network = T::open(input);
    input.changes.iter().for_each(|&it| network.change(it));
    network.hops(&mut list);
    let summed = (0..).zip(&list).fold(0u32, |sum, (node, hop)| {
        sum.wrapping_add(hop.wrapping_mul(node))
    });
    println!("table {summed}");
}
