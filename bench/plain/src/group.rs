//! One group: its tickets, queue, rolling counts and circuit breaker, with the settings that are built in.

use std::collections::{HashMap, VecDeque};
use std::mem;

const SLOTS: usize = 64;
const WORKERS: usize = 10;
const BUCKETS: u64 = 10;
const BUCKET_WIDTH: u64 = 1_000;
const SNAPSHOT_INTERVAL: u64 = 500;

#[derive(Clone, Copy)]
pub enum Event {
    Failure,
    FallbackSuccess,
    Success,
}

pub const EVENT_NAMES: [&str; 3] = ["FAILURE", "FALLBACK_SUCCESS", "SUCCESS"];

/// What a collected ticket gives.
pub enum Held {
    Value(String),
    FallbackValue(String),
    RunFallback,
    Pending,
    Nothing,
}

enum State {
    Queued,
    Running,
    NeedsFallback,
    InFallback,
    Value(String),
    FallbackValue(String),
}

struct Ticket {
    arg: String,
    state: State,
}

#[derive(Clone, Copy, Default)]
struct Bucket {
    number: u64,
    counts: [u64; EVENT_NAMES.len()],
}

#[derive(Default)]
struct Ring([Bucket; BUCKETS as usize]);

impl Ring {
    fn record(&mut self, now: u64, event: Event) {
        let number = now / BUCKET_WIDTH;
        let bucket = &mut self.0[(number % BUCKETS) as usize];
        if bucket.number != number {
            *bucket = Bucket {
                number,
                ..Bucket::default()
            };
        }
        bucket.counts[event as usize] += 1;
    }

    fn counts(&self, now: u64) -> [u64; EVENT_NAMES.len()] {
        let number = now / BUCKET_WIDTH;
        let mut sums = [0; EVENT_NAMES.len()];
        for bucket in self
            .0
            .iter()
            .filter(|b| b.number <= number && number < b.number + BUCKETS)
        {
            for (sum, count) in sums.iter_mut().zip(bucket.counts) {
                *sum += count;
            }
        }
        sums
    }
}

pub struct Group {
    latest: u64,
    next: u64,
    pub busy: usize,
    tickets: HashMap<u64, Ticket>,
    queue: VecDeque<u64>,
    reported: Ring,
    health: Ring,
    /// When it was taken, and whether it opened the circuit breaker.
    snapshot: Option<(u64, bool)>,
}

impl Group {
    pub fn new() -> Self {
        Group {
            latest: 0,
            next: 1,
            busy: 0,
            tickets: HashMap::new(),
            queue: VecDeque::new(),
            reported: Ring::default(),
            health: Ring::default(),
            snapshot: None,
        }
    }

    pub fn move_to(&mut self, now: u64) {
        self.latest = self.latest.max(now);
    }

    pub fn submit(&mut self, arg: &str) -> Option<u64> {
        if self.tickets.len() >= SLOTS || self.is_short_circuited() || self.busy + self.queue.len() >= WORKERS {
            return None;
        }
        let serial = self.next;
        self.next += 1;
        self.queue.push_back(serial);
        self.tickets.insert(
            serial,
            Ticket {
                arg: arg.to_string(),
                state: State::Queued,
            },
        );
        Some(serial)
    }

    fn is_short_circuited(&mut self) -> bool {
        match self.snapshot {
            Some((taken, is_open)) if self.latest - taken < SNAPSHOT_INTERVAL => is_open,
            _ => {
                let (errors, total) = self.health();
                let is_open = total >= 20 && errors * 100 / total >= 50;
                self.snapshot = Some((self.latest, is_open));
                is_open
            }
        }
    }

    pub fn start(&mut self) -> Option<(u64, &str)> {
        if self.busy >= WORKERS {
            return None;
        }
        let serial = self.queue.pop_front()?;
        let ticket = self.tickets.get_mut(&serial)?;
        ticket.state = State::Running;
        self.busy += 1;
        Some((serial, &ticket.arg))
    }

    pub fn finish(&mut self, serial: u64, body: &str) -> bool {
        self.end(serial, State::Value(body.to_string()), Event::Success)
    }

    pub fn fail(&mut self, serial: u64) -> bool {
        self.end(serial, State::NeedsFallback, Event::Failure)
    }

    fn end(&mut self, serial: u64, state: State, event: Event) -> bool {
        match self.tickets.get_mut(&serial) {
            Some(ticket) if matches!(ticket.state, State::Running) => ticket.state = state,
            _ => return false,
        }
        self.busy -= 1;
        self.reported.record(self.latest, event);
        self.health.record(self.latest, event);
        true
    }

    pub fn fall_back(&mut self, serial: u64, body: &str) -> bool {
        match self.tickets.get_mut(&serial) {
            Some(ticket) if matches!(ticket.state, State::InFallback) => {
                ticket.state = State::FallbackValue(body.to_string());
            }
            _ => return false,
        }
        self.reported.record(self.latest, Event::FallbackSuccess);
        true
    }

    pub fn collect(&mut self, serial: u64) -> Held {
        let Some(ticket) = self.tickets.get_mut(&serial) else {
            return Held::Nothing;
        };
        let held = match &mut ticket.state {
            State::Value(body) => Held::Value(mem::take(body)),
            State::FallbackValue(body) => Held::FallbackValue(mem::take(body)),
            State::NeedsFallback => {
                ticket.state = State::InFallback;
                return Held::RunFallback;
            }
            State::Queued | State::Running | State::InFallback => return Held::Pending,
        };
        self.tickets.remove(&serial);
        held
    }

    pub fn queued(&self) -> usize {
        self.queue.len()
    }

    pub fn free(&self) -> usize {
        SLOTS - self.tickets.len()
    }

    pub fn counts(&self) -> [u64; EVENT_NAMES.len()] {
        self.reported.counts(self.latest)
    }

    /// Errors, and all runs.
    pub fn health(&self) -> (u64, u64) {
        let [failures, _, successes] = self.health.counts(self.latest);
        (failures, failures + successes)
    }
}
