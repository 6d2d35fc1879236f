//! What has happened, for an operator: one line for each event, with its cause.

use std::collections::VecDeque;
use std::time::{Duration, SystemTime, UNIX_EPOCH};

/// How many events are kept for those who ask later.
const MOST: usize = 256;

#[derive(Clone, serde::Serialize, serde::Deserialize)]
pub struct Entry {
    /// The number of the event. It begins with 1 at each start.
    pub number: u64,
    /// Seconds since 1970, by the clock of the system.
    pub time: f64,
    pub text: String,
}

#[derive(Default)]
pub struct Journal {
    entries: VecDeque<Entry>,
    count: u64,
    /// Whether events are printed on standard error.
    pub is_printed: bool,
    quiet: Vec<(String, Duration)>,
}

impl Journal {
    pub fn add(&mut self, text: String) {
        if self.is_printed {
            eprintln!("{text}");
        }
        self.count += 1;
        let time = SystemTime::now()
            .duration_since(UNIX_EPOCH)
            .map_or(0.0, |it| it.as_secs_f64());
        self.entries.push_back(Entry {
            number: self.count,
            time,
            text,
        });
        if self.entries.len() > MOST {
            self.entries.pop_front();
        }
    }

    /// Adds an event that may come again and again, at most once a minute.
    pub fn add_rarely(&mut self, text: String, now: Duration) {
        const QUIET: Duration = Duration::from_secs(60);
        self.quiet.retain(|(_, at)| now < *at + QUIET);
        if self.quiet.len() < MOST && !self.quiet.iter().any(|(it, _)| *it == text) {
            self.quiet.push((text.clone(), now));
            self.add(text);
        }
    }

    /// The events after the one with this number.
    pub fn after(&self, number: u64) -> impl Iterator<Item = &Entry> {
        self.entries.iter().filter(move |it| it.number > number)
    }

    pub fn count(&self) -> u64 {
        self.count
    }
}
