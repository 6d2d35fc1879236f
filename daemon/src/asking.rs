//! When to send echo requests (ICMPv6) to the kernel of a neighbour, and when to give up its link.
//!
//! A link can keep its carrier at both ends and carry nothing any more in one direction. The daemon should leave it before the
//! neighbour's dead interval ends. So if a hello is late, it sends echo requests. A kernel answers them also while the daemon
//! there is stopped or starts again. Then the link stays up.

use std::time::Duration;

/// The link is given up if so many requests in a row are not answered.
const MOST: u32 = 5;
/// A hello is late once the time between two hellos has passed, and this part of it.
const LATE: u32 = 20;
/// After this time a kernel that has never answered is asked again.
const LATER: Duration = Duration::from_secs(60);

/// The echo requests to a neighbour's kernel over one link.
#[derive(Default)]
pub struct Asked {
    /// How many requests were sent since the last sign of life.
    count: u32,
    /// When the next request is due, or the last one has waited for long enough.
    next: Duration,
    /// Whether the kernel has ever answered over this link. If it has not, as behind a filter, its silence means nothing.
    is_answered: bool,
}

/// What is to be done now.
#[derive(PartialEq, Eq, Debug)]
pub enum Step {
    Ask,
    GiveUp,
}

impl Asked {
    /// The link is up. The first request is due at once, to learn whether the kernel answers.
    pub fn begin(&mut self, now: Duration) {
        (self.count, self.next) = (0, now);
    }

    /// Something came from the neighbour. If its kernel answers, no request is due before the next hello is late.
    pub fn rest(&mut self, hello: Duration, now: Duration) {
        if self.is_answered {
            (self.count, self.next) = (0, now + hello + hello / LATE);
        }
    }

    /// The kernel has answered.
    pub fn answered(&mut self, hello: Duration, now: Duration) {
        self.is_answered = true;
        self.rest(hello, now);
    }

    /// What is to be done now. `patience` is how long an answer is awaited.
    pub fn step(&mut self, patience: Duration, now: Duration) -> Option<Step> {
        if now < self.next {
            return None;
        }
        if self.count < MOST {
            (self.count, self.next) = (self.count + 1, now + patience);
            return Some(Step::Ask);
        }
        (self.count, self.next) = (0, now + LATER);
        self.is_answered.then_some(Step::GiveUp)
    }

    /// When there is something to be done, even if nothing comes.
    pub fn next(&self) -> Duration {
        self.next
    }

    pub fn is_answered(&self) -> bool {
        self.is_answered
    }
}

#[cfg(test)]
mod tests {
    use super::*;

    const HELLO: Duration = Duration::from_secs(1);

    fn ms(count: u64) -> Duration {
        Duration::from_millis(count)
    }

    /// When the steps are due, after the kernel has answered once and nothing comes any more.
    fn steps(patience: Duration) -> Vec<(Duration, Step)> {
        let mut it = Asked::default();
        it.begin(ms(0));
        assert_eq!(it.step(patience, ms(0)), Some(Step::Ask));
        it.answered(HELLO, ms(0));
        (0..10_000)
            .filter_map(|at| Some((ms(at), it.step(patience, ms(at))?)))
            .collect()
    }

    #[test]
    fn a_silent_kernel_is_asked_five_times_once_a_hello_is_late() {
        for patience in [50, 700] {
            let asks = (0..5).map(|it| (ms(1050 + it * patience), Step::Ask));
            let end = (ms(1050 + 5 * patience), Step::GiveUp);
            let wanted: Vec<_> = asks.chain([end]).collect();
            assert_eq!(steps(ms(patience)), wanted);
        }
    }

    #[test]
    fn a_kernel_that_has_never_answered_is_asked_again_later() {
        let mut it = Asked::default();
        it.begin(ms(0));
        let asked = (0..120_000).filter(|at| {
            it.rest(HELLO, ms(*at));
            it.step(ms(50), ms(*at)).is_some()
        });
        let first = [0, 50, 100, 150, 200];
        let second = first.map(|it| 60_250 + it);
        assert_eq!(asked.collect::<Vec<_>>(), [first, second].concat());
    }
}
