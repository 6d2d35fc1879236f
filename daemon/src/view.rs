//! What one sees of a machine: as JSON, as text, and as counters for Prometheus.

use crate::destination::Destination;
use crate::kernel::Kernel;
use crate::machine::{Counts, Device, GATES, Hold, Machine};
use crate::neighbour::{Adjacency, Neighbour};
use crate::prefix::Prefix;
use serde::{Deserialize, Serialize};
use std::fmt::Write as _;
use std::time::Duration;

/// The height of a router without a route.
const TOP: u64 = u32::MAX as u64;

#[derive(Serialize, Deserialize)]
pub struct Status {
    pub router: u32,
    pub session: u32,
    pub seconds: f64,
    pub interfaces: Vec<Interface>,
    /// Interfaces that the configuration names and the system does not have.
    #[serde(default)]
    pub missing: Vec<String>,
    /// For how many seconds no interface is used yet, because a neighbour knows a later start of this router's number.
    #[serde(default)]
    pub pause_seconds: Option<f64>,
    pub neighbours: Vec<NeighbourView>,
    pub prefixes: usize,
    /// Prefixes with a way, or announced here.
    pub reached: usize,
    /// Prefixes for which the kernel refused a write.
    pub refused: Vec<String>,
    /// What has happened how often.
    pub counts: Counts,
}

#[derive(Serialize, Deserialize)]
pub struct Interface {
    pub name: String,
    pub carrier: bool,
    pub gates: bool,
    /// Everything that comes in is dropped, as after a start.
    pub held: bool,
    /// It may have several neighbours, each with gates of its own.
    pub lan: bool,
    /// How many datagrams had another key or none, or were of another version.
    #[serde(default)]
    pub not_understood: u64,
}

#[derive(Serialize, Deserialize)]
pub struct NeighbourView {
    pub router: u32,
    pub up: bool,
    pub seconds: f64,
    pub session: u32,
    pub listed: bool,
    /// The time until a datagram to it is answered, as of the last news. `None` if it is not up, or none was answered yet.
    pub round_trip_seconds: Option<f64>,
    /// How far single times are from it.
    pub round_trip_variation_seconds: Option<f64>,
    /// How much is to be said to it, or is not acknowledged.
    pub pending: usize,
    pub links: Vec<LinkView>,
}

#[derive(Serialize, Deserialize)]
pub struct LinkView {
    pub interface: String,
    pub address: String,
    pub cost: u32,
    pub heard: bool,
    pub hears_us: bool,
    pub up: bool,
    /// Whether its kernel has answered an echo request over this link.
    #[serde(default)]
    pub answers: bool,
}

#[derive(Serialize, Deserialize)]
pub struct Route {
    pub prefix: String,
    pub announced_here: bool,
    pub height: u64,
    pub distance: Option<u32>,
    /// The neighbours to which packets may be sent, the nearest first.
    pub ways: Vec<u32>,
    /// The interfaces from which packets are let in.
    pub gates: Vec<String>,
    /// Whether the kernel has what the state machine wants.
    pub written: bool,
    pub seconds: f64,
}

impl<K: Kernel> Machine<K> {
    pub fn status(&self, now: Duration) -> Status {
        let reached = self
            .destinations
            .values()
            .filter(|it| it.is_own || it.hops().next().is_some())
            .count();
        Status {
            router: self.settings.router,
            session: self.start.session,
            seconds: now.as_secs_f64(),
            interfaces: self.interface_views(),
            missing: Vec::new(),
            pause_seconds: None,
            neighbours: self.neighbour_views(now),
            prefixes: self.destinations.len(),
            reached,
            refused: self.refused_prefixes(),
            counts: self.counts,
        }
    }

    fn refused_prefixes(&self) -> Vec<String> {
        let some = self.retries.iter().filter(|(_, it)| it.is_refused);
        some.map(|(prefix, _)| prefix.to_string()).collect()
    }

    fn interface_views(&self) -> Vec<Interface> {
        let view = |it: &Device| Interface {
            name: it.name.clone(),
            carrier: it.has_carrier,
            gates: it.is_ready,
            held: it.hold != Hold::Open && !it.is_lan,
            lan: it.is_lan,
            not_understood: it.not_understood,
        };
        self.devices.values().map(view).collect()
    }

    pub fn neighbour_views(&self, now: Duration) -> Vec<NeighbourView> {
        let all = self.neighbours.iter();
        all.map(|(number, it)| self.neighbour_view(*number, it, now))
            .collect()
    }

    fn neighbour_view(&self, number: u32, it: &Neighbour, now: Duration) -> NeighbourView {
        let round_trip = it.news.round_trip.smoothed().filter(|_| it.is_up);
        let link_view = |(device, link): (&u32, &Adjacency)| LinkView {
            interface: self.name_of(*device).into(),
            address: link.address.to_string(),
            cost: self.cost_of(*device),
            heard: link.is_heard,
            hears_us: link.hears_me,
            up: link.is_up,
            answers: link.asked.is_answered(),
        };
        NeighbourView {
            router: number,
            up: it.is_up,
            seconds: now.saturating_sub(it.since).as_secs_f64(),
            session: it.start.session,
            listed: it.has_told_all,
            round_trip_seconds: round_trip.map(|it| it.mean.as_secs_f64()),
            round_trip_variation_seconds: round_trip.map(|it| it.variation.as_secs_f64()),
            pending: it.news.pending(),
            links: it.links.iter().map(link_view).collect(),
        }
    }

    pub fn routes(&self, now: Duration) -> Vec<Route> {
        let view = |(prefix, it): (&Prefix, &Destination)| Route {
            prefix: prefix.to_string(),
            announced_here: it.is_own,
            height: it.node.height(),
            distance: it.node.distance(),
            ways: it
                .node
                .table()
                .map(|it| it.ways().to_vec())
                .unwrap_or_default(),
            gates: it
                .open_gates()
                .map(|table| self.name_of_gates(table))
                .collect(),
            written: it.is_written,
            seconds: now.saturating_sub(it.since).as_secs_f64(),
        };
        self.destinations.iter().map(view).collect()
    }

    /// The device of a table of gates, and the neighbour if the device has several.
    fn name_of_gates(&self, table: u32) -> String {
        let sender = self.senders.iter().find(|(_, it)| it.table == table);
        match sender {
            Some(((device, router), _)) => format!("{}:{router}", self.name_of(*device)),
            None => self.name_of(table.wrapping_sub(GATES)).into(),
        }
    }

    /// Counters, in the text form of Prometheus.
    pub fn metrics(&self, now: Duration) -> String {
        let it = self.status(now);
        let up = it.neighbours.iter().filter(|it| it.up).count();
        let counts = it.counts;
        let gauges = [
            ("uptime_seconds", it.seconds.floor() as u64),
            ("neighbours_up", up as u64),
            ("prefixes", it.prefixes as u64),
            ("prefixes_reached", it.reached as u64),
            ("prefixes_refused", it.refused.len() as u64),
        ];
        let totals = [
            ("datagrams_sent_total", counts.datagrams_sent),
            ("bytes_sent_total", counts.bytes_sent),
            ("datagrams_received_total", counts.datagrams_received),
            ("datagrams_ignored_total", counts.datagrams_ignored),
            ("datagrams_unanswered_total", counts.datagrams_unanswered),
            ("messages_said_total", counts.messages_said),
            ("messages_heard_total", counts.messages_heard),
            ("kernel_lines_total", counts.lines_written),
            ("kernel_lines_refused_total", counts.lines_refused),
            ("events_total", self.journal.count()),
        ];
        let mut text = String::new();
        for (kind, all) in [("gauge", &gauges[..]), ("counter", &totals[..])] {
            for (name, value) in all {
                // Writing to a text does not fail.
                let _ = write!(
                    text,
                    "# TYPE revrouted_{name} {kind}\nrevrouted_{name} {value}\n"
                );
            }
        }
        text + &neighbour_metrics(&it.neighbours)
    }
}

/// The metrics with a label for each neighbour: whether it is up, and the round trip.
fn neighbour_metrics(all: &[NeighbourView]) -> String {
    let mut text = String::from("# TYPE revrouted_neighbour_up gauge\n");
    for it in all {
        let (router, up) = (it.router, u8::from(it.up));
        text += &format!("revrouted_neighbour_up{{neighbour=\"{router}\"}} {up}\n");
    }
    text += "# TYPE revrouted_round_trip_seconds gauge\n";
    for it in all {
        if let Some(seconds) = it.round_trip_seconds {
            text += &format!(
                "revrouted_round_trip_seconds{{neighbour=\"{}\"}} {seconds:.6}\n",
                it.router
            );
        }
    }
    text
}

/// A span of time as a reader wants it.
fn span(seconds: f64) -> String {
    let whole = seconds as u64;
    match whole {
        0..=119 => format!("{seconds:.1} s"),
        120..=7199 => format!("{} min", whole / 60),
        7200..=172_799 => format!("{} h", whole / 3600),
        _ => format!("{} days", whole / 86_400),
    }
}

/// A short time, in microseconds below a millisecond.
fn short_span(seconds: f64) -> String {
    if seconds < 0.001 {
        format!("{:.0} us", seconds * 1e6)
    } else {
        format!("{:.1} ms", seconds * 1e3)
    }
}

/// Lines whose columns are aligned.
fn columns(rows: &[Vec<String>]) -> String {
    let count = rows.iter().map(Vec::len).max().unwrap_or(0);
    let width = |at: usize| {
        rows.iter()
            .filter_map(|it| it.get(at))
            .map(|it| it.chars().count())
            .max()
            .unwrap_or(0)
    };
    let widths: Vec<usize> = (0..count).map(width).collect();
    let line = |row: &Vec<String>| {
        let cells: Vec<String> = row
            .iter()
            .zip(&widths)
            .map(|(it, width)| format!("{it:width$}"))
            .collect();
        format!("{}\n", cells.join("  ").trim_end())
    };
    rows.iter().map(line).collect()
}

fn row(cells: &[&str]) -> Vec<String> {
    cells.iter().map(|it| (*it).to_string()).collect()
}

fn yes(it: bool) -> &'static str {
    if it { "yes" } else { "no" }
}

pub fn status_text(it: &Status) -> String {
    let up = it.neighbours.iter().filter(|it| it.up).count();
    let mut text = format!(
        "router {} for {}; {up} of {} neighbours up; {} of {} prefixes reached\n",
        it.router,
        span(it.seconds),
        it.neighbours.len(),
        it.reached,
        it.prefixes
    );
    if let Some(seconds) = it.pause_seconds {
        text += &format!(
            "no interface is used for {}: a neighbour knows another process with the number {}\n",
            span(seconds),
            it.router
        );
    }
    for it in &it.interfaces {
        let state = match (it.carrier, it.gates, it.held) {
            (false, _, _) => "no carrier",
            (_, false, _) => "not used: the kernel refuses its gates",
            (_, _, true) => "held: what comes in is not forwarded",
            _ if it.lan => "used for several neighbours",
            _ => "used",
        };
        text += &format!("interface {}: {state}", it.name);
        if it.not_understood > 0 {
            let count = it.not_understood;
            text += &format!("; {count} datagrams had another key or none, or another version");
        }
        text.push('\n');
    }
    for it in &it.missing {
        text += &format!("interface {it}: there is none\n");
    }
    for it in &it.refused {
        text += &format!("the kernel refuses a write for {it}\n");
    }
    text + &neighbours_text(&it.neighbours)
}

pub fn neighbours_text(all: &[NeighbourView]) -> String {
    let mut rows = vec![row(&[
        "NEIGHBOUR",
        "STATE",
        "FOR",
        "INTERFACE",
        "ADDRESS",
        "COST",
        "ROUND TRIP",
        "HEARD",
        "HEARS US",
        "LISTED",
        "PENDING",
    ])];
    for it in all {
        for link in &it.links {
            let state = if link.up { "up" } else { "down" };
            rows.push(row(&[
                &it.router.to_string(),
                state,
                &span(it.seconds),
                &link.interface,
                &link.address,
                &link.cost.to_string(),
                &it.round_trip_seconds.map_or("-".into(), short_span),
                yes(link.heard),
                yes(link.hears_us),
                yes(it.listed),
                &it.pending.to_string(),
            ]));
        }
        if it.links.is_empty() {
            rows.push(row(&[&it.router.to_string(), "gone", &span(it.seconds)]));
        }
    }
    columns(&rows)
}

fn height_text(height: u64) -> String {
    match height {
        TOP => "top".into(),
        it => it.to_string(),
    }
}

pub fn routes_text(all: &[Route]) -> String {
    let mut rows = vec![row(&[
        "PREFIX", "DISTANCE", "HEIGHT", "WAYS", "LETS IN", "WRITTEN", "FOR",
    ])];
    for it in all {
        let ways: Vec<String> = it.ways.iter().map(ToString::to_string).collect();
        let ways = if it.announced_here {
            "here".into()
        } else if ways.is_empty() {
            "none".into()
        } else {
            ways.join(",")
        };
        let distance = it.distance.map_or("-".into(), |it| it.to_string());
        rows.push(row(&[
            &it.prefix,
            &distance,
            &height_text(it.height),
            &ways,
            &it.gates.join(","),
            yes(it.written),
            &span(it.seconds),
        ]));
    }
    columns(&rows)
}
