//! The second opinion: a plain Rust program, as one would write it, of routers with RSVP (RFC 2205, 2209) over datagrams of bytes. It is
//! what a network run by rsvpd is compared with, and timed against. Without a word it reads a script that is right and writes its text;
//! `grow N` makes a network from a seed, runs it and writes a summary; `events` writes what happens in a script in place of its text.
//! `node` is one router over a stream of frames; `stream N` writes, of a script, the stream of what comes to its router number N, from 0.
//! `pasts HOPS FIRST COUNT` tries how many calm rounds random networks need after random pasts, `past HOPS SEED` writes the script of one.
mod adverts;
mod events;
mod grown;
mod messages;
mod network;
mod node;
mod pasts;
mod router;
mod script;
mod values;

use std::io::{BufReader, Write as _};
use std::os::fd::AsFd as _;

fn main() {
    let words: Vec<String> = std::env::args().skip(1).collect();
    match words.first().map(String::as_str) {
        Some("node") => {
            let mut source = BufReader::with_capacity(65_536, std::io::stdin());
            // Without the buffer of lines that standard output has.
            let sink = std::io::stdout().as_fd().try_clone_to_owned().unwrap();
            let served = node::serve(&mut source, &mut std::fs::File::from(sink));
            if served.code() != 0 {
                eprintln!("{}", served.text());
            }
            std::process::exit(served.code());
        }
        Some("stream") => {
            let stream = script::stream(words[1].parse().unwrap()).unwrap_or_default();
            std::io::stdout().write_all(&stream).unwrap();
            return;
        }
        _ => {}
    }
    let (text, crowded) = match words.first().map(String::as_str) {
        Some("grow") => (grown::grow(words[1].parse().unwrap()), false),
        Some("events") => script::replay(Some(events::Events::default())),
        Some("pasts") => {
            let n = |k: usize| words[k].parse().unwrap();
            (pasts::pasts(n(1), n(2), n(3)), false)
        }
        Some("past") => {
            let n = |k: usize| words[k].parse().unwrap();
            (pasts::past(n(1), n(2)), false)
        }
        _ => script::replay(None),
    };
    std::io::stdout().write_all(text.as_bytes()).unwrap();
    if crowded {
        eprintln!("crowded");
        std::process::exit(6);
    }
}
