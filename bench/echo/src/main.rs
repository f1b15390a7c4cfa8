//! A server that echoes the argument of each call and does nothing else: no group, no lock, no JSON. It has a thread for
//! each connection, as `bulkhead serve` does, so it shows what sockets and threads alone cost.
//!
//!     echo serve SETTINGS (--port PORT | --socket PATH) --connections COUNT
//!
//! It looks at no settings, and ends once so many connections have ended.

use std::io::{Error, ErrorKind, Read, Result, Write};
use std::net::{TcpListener, TcpStream};
use std::os::unix::net::UnixListener;
use std::{env, thread};

fn main() -> Result<()> {
    let count = number(&word_after("--connections")?)?;
    match word_after("--socket") {
        Ok(path) => {
            let listener = UnixListener::bind(path)?;
            serve(listener.incoming(), count)
        }
        Err(_) => {
            let listener = TcpListener::bind(("127.0.0.1", number(&word_after("--port")?)?))?;
            serve(listener.incoming().map(without_delay), count)
        }
    }
}

/// Serves so many connections, with a thread for each.
fn serve<S: Read + Write + Send + 'static>(incoming: impl Iterator<Item = Result<S>>, count: usize) -> Result<()> {
    println!("listening");
    let connections = incoming
        .take(count)
        .map(|stream| stream.map(|stream| thread::spawn(move || answer_all(stream))))
        .collect::<Result<Vec<_>>>()?;
    for connection in connections {
        connection.join().expect("the thread of a connection panicked")?;
    }
    Ok(())
}

/// The connection, whose answers are sent as they are written.
fn without_delay(stream: Result<TcpStream>) -> Result<TcpStream> {
    let stream = stream?;
    stream.set_nodelay(true)?;
    Ok(stream)
}

/// The word behind the one that is given, among the arguments.
fn word_after(word: &str) -> Result<String> {
    env::args()
        .skip_while(|argument| argument != word)
        .nth(1)
        .ok_or_else(|| Error::new(ErrorKind::InvalidInput, format!("nothing after {word}")))
}

fn number<T: std::str::FromStr>(word: &str) -> Result<T> {
    word.parse().map_err(|_| Error::new(ErrorKind::InvalidInput, format!("{word} is no number")))
}

/// Answers each line of the connection, until it ends.
fn answer_all(mut stream: impl Read + Write) -> Result<()> {
    let mut received = [0; 4096];
    let mut held = 0;
    let mut answers = Vec::with_capacity(4096);
    loop {
        let count = stream.read(&mut received[held..])?;
        if count == 0 {
            return Ok(());
        }
        held += count;
        let taken = answer_lines(&received[..held], &mut answers);
        received.copy_within(taken..held, 0);
        held -= taken;
        stream.write_all(&answers)?;
        answers.clear();
    }
}

/// Answers the lines that have ended, and says how many bytes they take.
fn answer_lines(received: &[u8], answers: &mut Vec<u8>) -> usize {
    let mut taken = 0;
    while let Some(length) = received[taken..].iter().position(|&byte| byte == b'\n') {
        let line = &received[taken..taken + length];
        answers.extend_from_slice(b"{\"body\":\"");
        answers.extend_from_slice(argument_of(line));
        answers.extend_from_slice(b"\",\"reply\":\"value\"}\n");
        taken += length + 1;
    }
    taken
}

/// The argument of a call that ends with it.
fn argument_of(line: &[u8]) -> &[u8] {
    let line = line.strip_suffix(b"\"}").unwrap_or(line);
    let start = line.iter().rposition(|&byte| byte == b'"').map_or(0, |at| at + 1);
    &line[start..]
}
