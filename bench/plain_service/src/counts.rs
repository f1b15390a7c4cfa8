//! Rolling counts of what became of requests, and the circuit breaker that reads them.

use std::time::{Duration, Instant};

const BUCKETS: usize = 10;
const BUCKET_MS: u64 = 1_000;
const SLEEP_WINDOW: Duration = Duration::from_secs(5);
const VOLUME: u64 = 20;
const THRESHOLD_PERCENT: u64 = 50;

#[derive(Clone, Copy)]
pub enum Event {
    Success,
    Failure,
    Timeout,
    Rejected,
    ShortCircuited,
}

#[derive(Clone, Copy, Default)]
struct Bucket {
    number: u64,
    counts: [u64; 5],
}

/// The counts of the last ten seconds, and whether the circuit breaker is open.
pub struct Circuit {
    begun: Instant,
    buckets: [Bucket; BUCKETS],
    opened: Option<Instant>,
}

impl Circuit {
    pub fn new() -> Circuit {
        Circuit { begun: Instant::now(), buckets: Default::default(), opened: None }
    }

    pub fn admits(&mut self, now: Instant) -> bool {
        match self.opened {
            None => true,
            Some(at) if now.duration_since(at) >= SLEEP_WINDOW => {
                self.opened = Some(now);
                true
            }
            Some(_) => false,
        }
    }

    pub fn count(&mut self, now: Instant, event: Event) {
        let number = now.duration_since(self.begun).as_millis() as u64 / BUCKET_MS;
        let bucket = &mut self.buckets[number as usize % BUCKETS];
        if bucket.number != number {
            *bucket = Bucket { number, counts: [0; 5] };
        }
        bucket.counts[event as usize] += 1;
        match event {
            Event::Success => self.opened = None,
            Event::Failure | Event::Timeout => self.look(now, number),
            Event::Rejected | Event::ShortCircuited => {}
        }
    }

    /// Opens where too many of the requests of the window failed.
    fn look(&mut self, now: Instant, number: u64) {
        let (mut total, mut errors) = (0, 0);
        for bucket in self.buckets.iter().filter(|bucket| bucket.number + BUCKETS as u64 > number) {
            total += bucket.counts[..3].iter().sum::<u64>();
            errors += bucket.counts[1] + bucket.counts[2];
        }
        if self.opened.is_none() && total >= VOLUME && errors * 100 >= total * THRESHOLD_PERCENT {
            self.opened = Some(now);
        }
    }
}
