//! The lines of replies, written by hand.

use crate::group::{Group, EVENT_NAMES};
use std::io::Write;

fn put(out: &mut Vec<u8>, text: &str) {
    out.extend_from_slice(text.as_bytes());
}

fn put_text(out: &mut Vec<u8>, text: &str) {
    out.push(b'"');
    for &byte in text.as_bytes() {
        match byte {
            b'"' | b'\\' => out.extend_from_slice(&[b'\\', byte]),
            0..=31 => write!(out, "\\u{byte:04x}").expect("a vector takes every byte"),
            _ => out.push(byte),
        }
    }
    out.push(b'"');
}

fn put_number(out: &mut Vec<u8>, mut number: u64) {
    let mut digits = [0; 20];
    let mut at = digits.len();
    loop {
        at -= 1;
        digits[at] = b'0' + (number % 10) as u8;
        number /= 10;
        if number == 0 {
            break;
        }
    }
    out.extend_from_slice(&digits[at..]);
}

pub fn fault(out: &mut Vec<u8>, word: &str) {
    put(out, "{\"error\":");
    put_text(out, word);
    put(out, "}\n");
}

pub fn word(out: &mut Vec<u8>, word: &str) {
    put(out, "{\"reply\":");
    put_text(out, word);
    put(out, "}\n");
}

pub fn done(out: &mut Vec<u8>, is_done: bool) {
    word(out, if is_done { "done" } else { "not-running" });
}

pub fn queued(out: &mut Vec<u8>, serial: u64) {
    put(out, "{\"reply\":\"queued\",\"ticket\":");
    put_number(out, serial);
    put(out, "}\n");
}

pub fn assigned(out: &mut Vec<u8>, serial: u64, arg: &str) {
    put(out, "{\"arg\":");
    put_text(out, arg);
    put(out, ",\"reply\":\"assigned\",\"ticket\":");
    put_number(out, serial);
    put(out, "}\n");
}

pub fn value(out: &mut Vec<u8>, body: &str) {
    put(out, "{\"body\":");
    put_text(out, body);
    put(out, ",\"reply\":\"value\"}\n");
}

pub fn fallback_value(out: &mut Vec<u8>, body: &str) {
    put(out, "{\"body\":");
    put_text(out, body);
    put(out, ",\"cause\":\"failure\",\"reply\":\"fallback-value\"}\n");
}

pub fn run_fallback(out: &mut Vec<u8>) {
    put(out, "{\"cause\":\"failure\",\"reply\":\"run-fallback\"}\n");
}

pub fn metrics(out: &mut Vec<u8>, group: &Group) {
    let (errors, total) = group.health();
    put(out, "{\"busy\":");
    put_number(out, group.busy as u64);
    put(out, ",\"circuit\":\"closed\",\"errors\":");
    put_number(out, errors);
    put(out, ",\"events\":{");
    let mut between = "";
    for (name, count) in EVENT_NAMES.iter().zip(group.counts()).filter(|(_, count)| *count > 0) {
        put(out, between);
        put_text(out, name);
        put(out, ":");
        put_number(out, count);
        between = ",";
    }
    put(out, "},\"free\":");
    put_number(out, group.free() as u64);
    put(out, ",\"percent\":");
    put_number(out, if total == 0 { 0 } else { 100 * errors / total });
    put(out, ",\"queued\":");
    put_number(out, group.queued() as u64);
    put(out, ",\"reply\":\"metrics\",\"total\":");
    put_number(out, total);
    put(out, "}\n");
}
