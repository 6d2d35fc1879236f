//! How long a datagram to a neighbour and the answer to it take, without the time that the neighbour let it wait.
//!
//! It is smoothed as TCP does (RFC 6298, with alpha = 1/8 and beta = 1/4). Each datagram has a number of its own, also if it
//! says something again. So the answer is never to another one, and each answer counts.

use std::collections::VecDeque;
use std::time::Duration;

/// A receiver can tell apart the last 65 numbers, so an older one is not acknowledged any more.
const MOST_TIMED: usize = 65;

#[derive(Default)]
pub struct RoundTrip {
    /// Datagrams that were sent and not acknowledged: the number, and when.
    timed: VecDeque<(u64, Duration)>,
    smoothed: Option<Smoothed>,
}

/// A mean of what was measured, in which the last ones count most, and how far they are from it.
#[derive(Clone, Copy, Debug, PartialEq, Eq)]
pub struct Smoothed {
    pub mean: Duration,
    pub variation: Duration,
}

impl RoundTrip {
    pub fn sent(&mut self, number: u64, now: Duration) {
        if self.timed.len() == MOST_TIMED {
            self.timed.pop_front();
        }
        self.timed.push_back((number, now));
    }

    /// The greatest number that arrived at the neighbour, and how long it waited there for this answer. Returns whether
    /// that was not known before.
    pub fn answered(&mut self, greatest: u64, waited: Duration, now: Duration) -> bool {
        let mut is_news = false;
        while let Some((number, at)) = self.timed.front().copied() {
            if number > greatest {
                break;
            }
            self.timed.pop_front();
            if number == greatest {
                self.take(now.saturating_sub(at).saturating_sub(waited));
                is_news = true;
            }
        }
        is_news
    }

    fn take(&mut self, measured: Duration) {
        self.smoothed = Some(match self.smoothed {
            None => Smoothed {
                mean: measured,
                variation: measured / 2,
            },
            Some(it) => Smoothed {
                mean: (it.mean * 7 + measured) / 8,
                variation: (it.variation * 3 + it.mean.abs_diff(measured)) / 4,
            },
        });
    }

    pub fn smoothed(&self) -> Option<Smoothed> {
        self.smoothed
    }
}

#[cfg(test)]
mod tests {
    use super::*;

    fn ms(count: u64) -> Duration {
        Duration::from_millis(count)
    }

    /// The figures are computed by hand from the rules of RFC 6298.
    #[test]
    fn it_is_smoothed_as_tcp_does() {
        let mut it = RoundTrip::default();
        assert_eq!(it.smoothed(), None);
        for (number, measured, mean, variation) in [
            (1, 80, 80_000, 40_000),
            (2, 160, 90_000, 50_000),
            (3, 10, 80_000, 57_500),
        ] {
            it.sent(number, ms(1000 * number));
            it.answered(number, Duration::ZERO, ms(1000 * number + measured));
            let wanted = Smoothed {
                mean: Duration::from_micros(mean),
                variation: Duration::from_micros(variation),
            };
            assert_eq!(it.smoothed(), Some(wanted));
        }
    }

    #[test]
    fn only_the_answer_to_the_greatest_number_counts_and_only_once() {
        let mut it = RoundTrip::default();
        it.sent(1, ms(0));
        it.sent(2, ms(100));
        it.answered(1, ms(30), ms(130));
        assert_eq!(
            it.smoothed().map(|it| it.mean),
            Some(ms(100)),
            "without the wait of 30 ms"
        );
        for late in [1, 5] {
            it.answered(late, Duration::ZERO, ms(9000));
        }
        it.answered(2, Duration::ZERO, ms(9000));
        assert_eq!(
            it.smoothed().map(|it| it.mean),
            Some(ms(100)),
            "it was acknowledged before"
        );
    }

    #[test]
    fn what_is_never_acknowledged_takes_no_more_memory() {
        let mut it = RoundTrip::default();
        for number in 1..10_000 {
            it.sent(number, ms(number));
        }
        assert_eq!(it.timed.len(), MOST_TIMED);
        it.answered(9_999, Duration::ZERO, ms(10_000));
        assert_eq!(it.smoothed().map(|it| it.mean), Some(ms(1)));
    }
}
