//! A group: one lock, a condition variable for its workers and one for its callers.

use crate::counts::{Circuit, Event};
use std::collections::{HashMap, VecDeque};
use std::sync::{Condvar, Mutex};
use std::time::{Duration, Instant};

const WORKERS: usize = 10;
const PERMITS: u64 = 10;
const TIMEOUT: Duration = Duration::from_secs(1);

/// What a caller gets.
pub enum Answer {
    Value(String),
    Error(&'static str),
}

struct State {
    circuit: Circuit,
    next: u64,
    busy: u64,
    waiting: VecDeque<(u64, String)>,
    ended: HashMap<u64, Answer>,
}

pub struct Group {
    state: Mutex<State>,
    work: Condvar,
    answers: Condvar,
}

/// The dependency, which answers what it was asked; it fails where that begins with `fail`.
fn echo(arg: &str) -> Option<String> {
    (!arg.starts_with("fail")).then(|| arg.to_owned())
}

/// What a caller gets at the end of a run.
fn ended(circuit: &mut Circuit, now: Instant, value: Option<String>) -> Answer {
    match value {
        Some(value) => {
            circuit.count(now, Event::Success);
            Answer::Value(value)
        }
        None => {
            circuit.count(now, Event::Failure);
            Answer::Error("failure")
        }
    }
}

impl Group {
    pub const WORKERS: usize = WORKERS;

    pub fn new() -> Group {
        let state = State {
            circuit: Circuit::new(),
            next: 1,
            busy: 0,
            waiting: VecDeque::new(),
            ended: HashMap::new(),
        };
        Group { state: Mutex::new(state), work: Condvar::new(), answers: Condvar::new() }
    }

    /// A call whose run the connection's thread makes.
    pub fn call_inline(&self, arg: &str) -> Answer {
        let begun = Instant::now();
        let mut state = self.state.lock().unwrap();
        if let Some(refused) = refused(&mut state, begun, PERMITS) {
            return refused;
        }
        state.busy += 1;
        drop(state);
        let value = echo(arg);
        let now = Instant::now();
        let mut state = self.state.lock().unwrap();
        state.busy -= 1;
        if now.duration_since(begun) >= TIMEOUT {
            state.circuit.count(now, Event::Timeout);
            return Answer::Error("timeout");
        }
        ended(&mut state.circuit, now, value)
    }

    /// A call whose run a worker of the group makes.
    pub fn call(&self, arg: &str) -> Answer {
        let begun = Instant::now();
        let mut state = self.state.lock().unwrap();
        if let Some(refused) = refused(&mut state, begun, WORKERS as u64) {
            return refused;
        }
        state.busy += 1;
        let serial = state.next;
        state.next += 1;
        state.waiting.push_back((serial, arg.to_owned()));
        self.work.notify_one();
        loop {
            if let Some(answer) = state.ended.remove(&serial) {
                return answer;
            }
            let left = TIMEOUT.saturating_sub(begun.elapsed());
            if left.is_zero() {
                state.circuit.count(Instant::now(), Event::Timeout);
                return Answer::Error("timeout");
            }
            state = self.answers.wait_timeout(state, left).unwrap().0;
        }
    }

    /// What a worker does for ever.
    pub fn work(&self) {
        let mut state = self.state.lock().unwrap();
        loop {
            let Some((serial, arg)) = state.waiting.pop_front() else {
                state = self.work.wait(state).unwrap();
                continue;
            };
            drop(state);
            let value = echo(&arg);
            state = self.state.lock().unwrap();
            state.busy -= 1;
            let answer = ended(&mut state.circuit, Instant::now(), value);
            state.ended.insert(serial, answer);
            self.answers.notify_all();
        }
    }
}

/// Why a request is not let in, if it is not.
fn refused(state: &mut State, now: Instant, room: u64) -> Option<Answer> {
    if !state.circuit.admits(now) {
        state.circuit.count(now, Event::ShortCircuited);
        return Some(Answer::Error("short-circuited"));
    }
    if state.busy >= room {
        state.circuit.count(now, Event::Rejected);
        return Some(Answer::Error("rejected"));
    }
    None
}
