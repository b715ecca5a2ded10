//! What `rsvpd show` is timed against: a plain Rust program, as one would write it, for the messages that bench/show makes
//! (Path, and Resv of a wildcard filter). It refuses all else in one word.
use std::fmt::Write as _;
use std::io::{Read, Write};

fn u16_at(b: &[u8], at: usize) -> u16 {
    u16::from_be_bytes([b[at], b[at + 1]])
}

fn u32_at(b: &[u8], at: usize) -> u32 {
    u32::from_be_bytes([b[at], b[at + 1], b[at + 2], b[at + 3]])
}

fn addr(n: u32) -> std::net::Ipv4Addr {
    std::net::Ipv4Addr::from(n)
}

fn rate(word: u32) -> String {
    let value = f32::from_bits(word);
    if value.is_infinite() { "inf".to_string() } else { (value as u64).to_string() }
}

fn flow(contents: &[u8]) -> String {
    let word = |k: usize| u32_at(contents, 12 + 4 * k);
    format!("{}/{}/{}/{}/{}", rate(word(0)), rate(word(1)), rate(word(2)), word(3), word(4))
}

fn ones_sum(b: &[u8]) -> u32 {
    let mut sum: u32 = b.chunks(2).map(|p| (p[0] as u32) << 8 | *p.get(1).unwrap_or(&0) as u32).sum();
    while sum > 0xffff {
        sum = (sum & 0xffff) + (sum >> 16);
    }
    sum
}

fn show(b: &[u8], out: &mut String) -> Option<()> {
    if b.len() < 8 || b[0] >> 4 != 1 || u16_at(b, 6) as usize != b.len() {
        return None;
    }
    if u16_at(b, 2) != 0 && ones_sum(b) != 0xffff {
        return None;
    }
    let (mut session, mut hop, mut period) = (None, None, None);
    let (mut template, mut tspec, mut scope, mut style, mut spec) = (None, None, None, None, None);
    let mut police = "";
    let mut at = 8;
    while at < b.len() {
        let length = u16_at(b, at) as usize;
        if length < 4 || length % 4 != 0 || at + length > b.len() {
            return None;
        }
        let contents = &b[at + 4..at + length];
        match b[at + 2] {
            1 => {
                police = if contents[5] & 1 == 1 { " police" } else { "" };
                session = Some(format!("{}/{}/{}", addr(u32_at(contents, 0)), contents[4], u16_at(contents, 6)));
            }
            3 => hop = Some(format!("{}/{}", addr(u32_at(contents, 0)), u32_at(contents, 4))),
            5 => period = Some(u32_at(contents, 0)),
            7 => {
                let mut list: Vec<u32> = contents.chunks(4).map(|c| u32_at(c, 0)).collect();
                list.sort();
                list.dedup();
                scope = Some(list.iter().map(|a| addr(*a).to_string()).collect::<Vec<_>>().join(","));
            }
            8 => style = Some(contents[3] & 31),
            9 => spec = Some(flow(contents)),
            11 => template = Some(format!("{}:{}", addr(u32_at(contents, 0)), u16_at(contents, 6))),
            12 => tspec = Some(flow(contents)),
            _ => return None,
        }
        at += length;
    }
    let (session, hop, period) = (session?, hop?, period?);
    match b[1] {
        1 => {
            write!(out, "Path {session}{police} hop {hop} period {period}").ok()?;
            if let (Some(template), Some(tspec)) = (template, tspec) {
                write!(out, " sender {template} {tspec}").ok()?;
            }
        }
        2 if style? == 17 => {
            write!(out, "Resv {session} hop {hop} period {period} WF").ok()?;
            if let Some(scope) = scope {
                write!(out, " scope {scope}").ok()?;
            }
            write!(out, " {}", spec?).ok()?;
        }
        _ => return None,
    }
    out.push('\n');
    Some(())
}

fn digit(c: u8) -> Option<u8> {
    (c as char).to_digit(16).map(|d| d as u8)
}

fn bytes(line: &[u8]) -> Option<Vec<u8>> {
    line.chunks(2).map(|p| Some(digit(p[0])? << 4 | digit(*p.get(1)?)?)).collect()
}

fn main() -> std::io::Result<()> {
    let mut input = Vec::new();
    std::io::stdin().read_to_end(&mut input)?;
    let mut out = String::new();
    for line in input.split(|c| *c == b'\n').filter(|line| !line.is_empty()) {
        let Some(message) = bytes(line) else { std::process::exit(2) };
        if show(&message, &mut out).is_none() {
            out.push_str("refused\n");
        }
    }
    std::io::stdout().write_all(out.as_bytes())
}
