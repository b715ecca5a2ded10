//! Plain Rust: polices the packets of a flow as `rsvpd police` does. It keeps what has drained beside what came, in whole millionths of
//! a byte, and no level; its input is right.
//!
//! usage: police_plain < FILE
use std::io::{self, BufRead, BufReader, BufWriter, Write};

struct Bucket {
    rate: u128,
    depth: u128,
    low: u64,
    most: u64,
    // The credit that is left, and when it was that.
    credit: u128,
    since: u64,
}

impl Bucket {
    fn of(flow: &str) -> Bucket {
        let words: Vec<&str> = flow.split('/').collect();
        let depth = words[1].parse::<u128>().unwrap() * 1_000_000;
        Bucket {
            rate: words[0].parse().unwrap(),
            depth,
            low: words[3].parse().unwrap(),
            most: words[4].parse().unwrap(),
            credit: depth,
            since: 0,
        }
    }

    fn tell(&mut self, at: u64, size: u64) -> &'static str {
        if size > self.most {
            return "big";
        }
        let credit = self.depth.min(self.credit + self.rate * u128::from(at - self.since));
        let cost = u128::from(size.max(self.low)) * 1_000_000;
        if cost > credit {
            return "over";
        }
        self.credit = credit - cost;
        self.since = at;
        "pass"
    }
}

fn main() -> io::Result<()> {
    let mut input = BufReader::new(io::stdin().lock());
    let mut out = BufWriter::new(io::stdout().lock());
    let mut bucket = None;
    let (mut passed, mut told) = (0u64, 0u64);
    let mut line = String::new();
    loop {
        line.clear();
        if input.read_line(&mut line)? == 0 {
            break;
        }
        if line.starts_with('#') {
            continue;
        }
        let mut words = line.split_ascii_whitespace();
        let Some(first) = words.next() else { continue };
        let second = words.next().unwrap();
        let Some(bucket) = &mut bucket else {
            bucket = Some(Bucket::of(second));
            continue;
        };
        let verdict = bucket.tell(first.parse().unwrap(), second.parse().unwrap());
        told += 1;
        passed += u64::from(verdict == "pass");
        writeln!(out, "{verdict}")?;
        // What was told is written before more is waited for.
        if input.buffer().is_empty() {
            out.flush()?;
        }
    }
    writeln!(out, "passed {passed} of {told}")?;
    out.flush()
}
