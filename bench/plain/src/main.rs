//! What `bulkhead run` does with the lines of `load.awk`, as a plain Rust program would: lines are read into a borrowed
//! struct by serde, tickets lie in maps, and replies are written by hand. It knows what those lines ask for, and no more.

mod group;
mod reply;

use group::{Group, Held};
use serde::Deserialize;
use std::collections::HashMap;
use std::env;
use std::io::{self, BufRead, BufReader, BufWriter, Write};

const PIECE: usize = 64 * 1024;

/// A line; members that the load does not have are read and passed over.
#[derive(Deserialize)]
struct Line<'a> {
    op: &'a str,
    group: &'a str,
    now: u64,
    arg: Option<&'a str>,
    ticket: Option<u64>,
    body: Option<&'a str>,
}

/// Answers a line behind what is to be written.
fn answer(numbers: &HashMap<String, usize>, groups: &mut [Group], line: &[u8], out: &mut Vec<u8>) {
    let Ok(line) = serde_json::from_slice::<Line>(line) else {
        return reply::fault(out, "syntax");
    };
    let Some(&number) = numbers.get(line.group) else {
        return reply::fault(out, "group");
    };
    let group = &mut groups[number];
    group.move_to(line.now);
    let serial = line.ticket.unwrap_or(0);
    match (line.op, line.arg, line.body) {
        ("submit", Some(arg), _) if arg.len() > 64 => reply::fault(out, "long"),
        ("submit", Some(arg), _) => match group.submit(arg) {
            Some(serial) => reply::queued(out, serial),
            None => reply::word(out, "group-full"),
        },
        ("start", _, _) => match group.start() {
            Some((serial, arg)) => reply::assigned(out, serial, arg),
            None => reply::word(out, "idle"),
        },
        ("finish", _, Some(body)) => reply::done(out, group.finish(serial, body)),
        ("fail", _, _) => reply::done(out, group.fail(serial)),
        ("fallback", _, Some(body)) => reply::done(out, group.fall_back(serial, body)),
        ("collect", _, _) => match group.collect(serial) {
            Held::Value(body) => reply::value(out, &body),
            Held::FallbackValue(body) => reply::fallback_value(out, &body),
            Held::RunFallback => reply::run_fallback(out),
            Held::Pending => reply::word(out, "pending"),
            Held::Nothing => reply::word(out, "no-ticket"),
        },
        ("read", _, _) => reply::metrics(out, group),
        _ => reply::fault(out, "op"),
    }
}

fn main() -> io::Result<()> {
    let count: usize = env::args().nth(1).and_then(|word| word.parse().ok()).unwrap_or(16);
    let numbers = (0..count)
        .map(|number| (format!("group-{}", number + 1), number))
        .collect();
    let mut groups: Vec<Group> = (0..count).map(|_| Group::new()).collect();
    let mut input = BufReader::with_capacity(PIECE, io::stdin().lock());
    let mut output = BufWriter::with_capacity(PIECE, io::stdout().lock());
    let (mut line, mut out) = (Vec::new(), Vec::new());
    while input.read_until(b'\n', &mut line)? > 0 {
        answer(&numbers, &mut groups, line.trim_ascii_end(), &mut out);
        output.write_all(&out)?;
        line.clear();
        out.clear();
    }
    output.flush()
}
