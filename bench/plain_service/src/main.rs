//! What `bulkhead serve` does with the calls of `serve_client.c`, as a plain Rust service would: a lock and two condition
//! variables for each group, and a thread for each connection. It knows what those calls ask for, and no more.

mod counts;
mod group;

use group::{Answer, Group};
use serde::Deserialize;
use std::collections::HashMap;
use std::io::{self, BufRead, BufReader, Read, Write};
use std::net::{TcpListener, TcpStream};
use std::sync::Arc;
use std::{env, fs, process, thread};

#[derive(Deserialize)]
struct Line<'a> {
    op: &'a str,
    group: &'a str,
    arg: &'a str,
}

struct Service {
    groups: HashMap<String, Group>,
    inline: bool,
}

impl Service {
    /// The groups of the line `service.groups` of a settings file; all of them are of one strategy.
    fn of(settings: &str) -> Service {
        let names = settings.lines().find(|line| line.starts_with("service.groups")).unwrap_or("");
        let groups = names.split('"').skip(1).step_by(2).map(|name| (name.to_owned(), Group::new())).collect();
        Service { groups, inline: settings.contains("SEMAPHORE") }
    }

    /// Puts the answer to a line.
    fn answer(&self, line: &[u8], out: &mut Vec<u8>) {
        let Ok(Line { op: "call", group, arg }) = serde_json::from_slice(line) else {
            return out.extend_from_slice(b"{\"error\":\"syntax\"}\n");
        };
        let Some(group) = self.groups.get(group) else {
            return out.extend_from_slice(b"{\"error\":\"group\"}\n");
        };
        let answer = if self.inline { group.call_inline(arg) } else { group.call(arg) };
        match answer {
            Answer::Value(body) => {
                out.extend_from_slice(b"{\"body\":");
                serde_json::to_writer(&mut *out, &body).unwrap();
                out.extend_from_slice(b",\"reply\":\"value\"}\n");
            }
            Answer::Error(cause) => writeln!(out, "{{\"cause\":\"{cause}\",\"reply\":\"error\"}}").unwrap(),
        }
    }

    fn converse(&self, stream: TcpStream) -> io::Result<()> {
        stream.set_nodelay(true)?;
        let mut writer = stream.try_clone()?;
        let mut reader = BufReader::new(stream);
        let (mut line, mut out) = (Vec::new(), Vec::new());
        while reader.read_until(b'\n', &mut line)? > 0 {
            self.answer(line.trim_ascii_end(), &mut out);
            line.clear();
            if !reader.buffer().contains(&b'\n') {
                writer.write_all(&out)?;
                out.clear();
            }
        }
        Ok(())
    }
}

/// The word behind a flag.
fn word(words: &[String], flag: &str) -> Option<String> {
    words.iter().skip_while(|word| *word != flag).nth(1).cloned()
}

fn main() -> io::Result<()> {
    let words: Vec<String> = env::args().skip(1).collect();
    let service = Arc::new(Service::of(&fs::read_to_string(&words[1])?));
    let port = word(&words, "--port").unwrap_or_default();
    let connections: usize = word(&words, "--connections").and_then(|word| word.parse().ok()).unwrap_or(1);
    if !service.inline {
        for name in service.groups.keys().cloned().collect::<Vec<_>>() {
            for _ in 0..Group::WORKERS {
                let (service, name) = (service.clone(), name.clone());
                thread::spawn(move || service.groups[&name].work());
            }
        }
    }
    let listener = TcpListener::bind(format!("127.0.0.1:{port}"))?;
    println!("listening {port}");
    thread::spawn(|| {
        let _ = io::stdin().lock().read_to_end(&mut Vec::new());
        process::exit(0);
    });
    let mut threads = Vec::new();
    for stream in listener.incoming().take(connections) {
        let (service, stream) = (service.clone(), stream?);
        threads.push(thread::spawn(move || service.converse(stream)));
    }
    for thread in threads {
        let _ = thread.join();
    }
    Ok(())
}
