//! One router over a stream: frames come, and frames are written. A frame is a kind (1 byte), the number of bytes that follow (2), and
//! these; numbers stand in network byte order. And, of the run of a script, what would come to one of its routers as such a stream.
//!
//! | Kind | Way | Contents |
//! |---|---|---|
//! | 1 | in | period 4; number of interfaces 1, each address 4, capacity 8, MTU 4; number of routes 2, each group 4, source 4, inward 1, outward 2 |
//! | 2 | in | interface 1, destination 4, the datagram |
//! | 3 | in | milliseconds 4, word 4 |
//! | 4 | in | nothing: the router forgets |
//! | 16 | out | interface 1, destination 4, the datagram |
//! | 17 | out | 0: taken; or 1 and why it was dropped; or 2, and the code 1 and value 2 of the error that was sent |
use crate::messages::*;
use crate::network::*;
use crate::router::*;
use crate::values::*;
use std::collections::{HashMap, HashSet};
use std::io::{Read, Write};

const MOST_BYTES: u64 = 4_294_967_296;
const WHYS: [&str; 7] = [
    "Unspelt",
    "NotMine",
    "NoSender",
    "NotInward",
    "NotOutward",
    "NoState",
    "Full",
];

type Routes = HashMap<(Addr, Addr), (Option<u8>, u16)>;

// How a stream ends: it was served to its end, or a frame is bad, or it cannot be read or written.
pub enum Served {
    Done,
    BadFrame(u32, &'static str),
    ReadFault,
    WriteFault,
    TooLong,
}

impl Served {
    pub fn code(&self) -> i32 {
        match self {
            Served::Done => 0,
            Served::BadFrame(..) => 2,
            Served::ReadFault => 3,
            Served::WriteFault => 4,
            Served::TooLong => 7,
        }
    }

    pub fn text(&self) -> String {
        match self {
            Served::Done => String::new(),
            Served::BadFrame(number, why) => format!("line {number}: {why}"),
            Served::ReadFault => "read fault".to_string(),
            Served::WriteFault => "write fault".to_string(),
            Served::TooLong => "too long".to_string(),
        }
    }
}

// A frame that is laid out as its kind asks; whether its numbers are right is another question.
enum Frame<'a> {
    Opens(Opening),
    Comes(u8, Addr, &'a [u8]),
    Waits(u32, u32),
    Clears,
}

struct Opening {
    period: u32,
    ifaces: Vec<Iface>,
    routes: Vec<(Addr, Addr, u8, u16)>,
}

// What is left of the contents of a frame.
struct Fields<'a>(&'a [u8]);

impl Fields<'_> {
    fn number(&mut self, size: usize) -> Option<u64> {
        let (front, rest) = self.0.split_at_checked(size)?;
        self.0 = rest;
        Some(front.iter().fold(0, |n, b| n << 8 | u64::from(*b)))
    }

    fn opening(&mut self) -> Option<Opening> {
        let period = self.number(4)? as u32;
        let mut ifaces = Vec::new();
        for _ in 0..self.number(1)? {
            ifaces.push(Iface {
                addr: self.number(4)? as u32,
                capacity: self.number(8)?,
                mtu: self.number(4)? as u32,
                latency: 0,
            });
        }
        let mut routes = Vec::new();
        for _ in 0..self.number(2)? {
            let (group, source) = (self.number(4)? as u32, self.number(4)? as u32);
            let (inward, outward) = (self.number(1)? as u8, self.number(2)? as u16);
            routes.push((group, source, inward, outward));
        }
        self.0.is_empty().then_some(Opening {
            period,
            ifaces,
            routes,
        })
    }
}

fn frame_of(kind: u8, contents: &[u8]) -> Option<Frame<'_>> {
    match (kind, contents.len()) {
        (1, _) => Fields(contents).opening().map(Frame::Opens),
        (2, 5..) => {
            let (front, datagram) = contents.split_at(5);
            Some(Frame::Comes(front[0], be32(front, 1), datagram))
        }
        (3, 8) => Some(Frame::Waits(be32(contents, 0), be32(contents, 4))),
        (4, 0) => Some(Frame::Clears),
        _ => None,
    }
}

impl Opening {
    // The router that it opens, unless a number is none that a router can have.
    fn node(&self) -> Option<Node> {
        let count = self.ifaces.len();
        let addrs: HashSet<Addr> = self.ifaces.iter().map(|i| i.addr).collect();
        let fine = (1000..=60_000).contains(&self.period)
            && self.period.is_multiple_of(4)
            && count <= 16
            && addrs.len() == count
            && self
                .ifaces
                .iter()
                .all(|i| i.capacity < 1 << 46 && (1..=65_535).contains(&i.mtu))
            && self.routes.iter().all(|(_, _, inward, outward)| {
                (*inward == 255 || usize::from(*inward) < count)
                    && u32::from(*outward) >> count == 0
            });
        let routes: Routes = self
            .routes
            .iter()
            .map(|(g, a, inward, outward)| {
                ((*g, *a), ((*inward != 255).then_some(*inward), *outward))
            })
            .collect();
        (fine && routes.len() == self.routes.len()).then(|| Node {
            period: u64::from(self.period),
            ifaces: self.ifaces.clone(),
            routes,
            ..Node::default()
        })
    }
}

// Reads until the room is full or the input ends.
fn fill(source: &mut impl Read, room: &mut [u8]) -> Result<usize, Served> {
    let mut at = 0;
    while at < room.len() {
        match source.read(&mut room[at..]) {
            Ok(0) => break,
            Ok(n) => at += n,
            Err(e) if e.kind() == std::io::ErrorKind::Interrupted => {}
            Err(_) => return Err(Served::ReadFault),
        }
    }
    Ok(at)
}

fn put_frame(kind: u8, contents: &[&[u8]], text: &mut Vec<u8>) {
    let size: usize = contents.iter().map(|c| c.len()).sum();
    text.push(kind);
    text.extend_from_slice(&(size as u16).to_be_bytes());
    for part in contents {
        text.extend_from_slice(part);
    }
}

fn put_heard(heard: &Heard, text: &mut Vec<u8>) {
    match heard {
        Heard::Taken => put_frame(17, &[&[0]], text),
        Heard::Dropped(why) => {
            let number = WHYS.iter().position(|w| w == why).unwrap() as u8;
            put_frame(17, &[&[1, number]], text);
        }
        Heard::Answered(code, value) => {
            put_frame(17, &[&[2, *code], &value.to_be_bytes()], text);
        }
    }
}

// The router of a stream, what it writes for one frame, and room for that.
#[derive(Default)]
struct Server {
    node: Option<Node>,
    sends: Vec<Send>,
    bytes: Vec<u8>,
    text: Vec<u8>,
}

impl Server {
    // What is wrong with the frame, if something is.
    fn serve(&mut self, kind: u8, contents: &[u8]) -> Result<(), &'static str> {
        let frame = frame_of(kind, contents).ok_or("word")?;
        let node = match (&frame, &mut self.node) {
            (Frame::Opens(opening), None) => {
                self.node = Some(opening.node().ok_or("range")?);
                return Ok(());
            }
            (Frame::Opens(_), Some(_)) | (_, None) => return Err("late"),
            (_, Some(node)) => node,
        };
        let mut heard = None;
        match frame {
            Frame::Comes(iface, dst, datagram) => {
                if usize::from(iface) >= node.ifaces.len() {
                    return Err("range");
                }
                heard = Some(match decode(datagram) {
                    Ok(message) => node.arrive(iface, dst, &message, &mut self.sends),
                    Err(fault) => node.refuse(iface, dst, datagram, fault, &mut self.sends),
                });
            }
            Frame::Waits(ms, word) => {
                if ms == 0 || u64::from(ms) > node.period / 2 {
                    return Err("range");
                }
                node.wait(u64::from(ms), word, &mut self.sends);
            }
            _ => node.clear(),
        }
        for s in self.sends.drain(..) {
            encode(&s.message, &mut self.bytes);
            put_frame(
                16,
                &[&[s.iface], &s.dst.to_be_bytes(), &self.bytes],
                &mut self.text,
            );
        }
        if let Some(heard) = heard {
            put_heard(&heard, &mut self.text);
        }
        Ok(())
    }
}

// Serves a stream to its end. What is written for a frame is written and flushed before the next one is looked at.
pub fn serve(source: &mut impl Read, sink: &mut impl Write) -> Served {
    let mut server = Server::default();
    let mut room = vec![0; 65_538];
    let (mut number, mut taken) = (0u32, 0u64);
    loop {
        number = number.saturating_add(1);
        let mut size = match fill(source, &mut room[..3]) {
            Ok(0) => return Served::Done,
            Ok(size) => size,
            Err(fault) => return fault,
        };
        let mut wanted = 3;
        if size == 3 {
            wanted = 3 + be16(&room, 1) as usize;
            match fill(source, &mut room[3..wanted]) {
                Ok(more) => size += more,
                Err(fault) => return fault,
            }
        }
        taken += size as u64;
        if taken > MOST_BYTES {
            return Served::TooLong;
        }
        if size < wanted {
            return Served::BadFrame(number, "word");
        }
        server.text.clear();
        if let Err(why) = server.serve(room[0], &room[3..size]) {
            return Served::BadFrame(number, why);
        }
        if sink
            .write_all(&server.text)
            .and_then(|()| sink.flush())
            .is_err()
        {
            return Served::WriteFault;
        }
    }
}

// What comes to one router of a network, as frames.
pub struct Watched {
    node: usize,
    frames: Vec<u8>,
}

impl Watched {
    pub fn new(node: usize) -> Watched {
        let frames = Vec::new();
        Watched { node, frames }
    }

    // None where the network has no such router.
    pub fn frames(self) -> Option<Vec<u8>> {
        (!self.frames.is_empty()).then_some(self.frames)
    }
}

impl Network {
    // The frames of the router that is watched, where it is this one.
    fn watched(&mut self, node: usize) -> Option<&mut Vec<u8>> {
        let w = self.watched.as_mut()?;
        (w.node == node).then_some(&mut w.frames)
    }

    pub fn watch_opening(&mut self) {
        let Some(at) = self.watched.as_ref().map(|w| w.node) else {
            return;
        };
        let Some(node) = self.nodes.get(at) else {
            return;
        };
        let mut contents = (node.period as u32).to_be_bytes().to_vec();
        contents.push(node.ifaces.len() as u8);
        for i in &node.ifaces {
            contents.extend_from_slice(&i.addr.to_be_bytes());
            contents.extend_from_slice(&i.capacity.to_be_bytes());
            contents.extend_from_slice(&i.mtu.to_be_bytes());
        }
        let mut routes: Vec<_> = node.routes.iter().collect();
        routes.sort();
        contents.extend_from_slice(&(routes.len() as u16).to_be_bytes());
        for ((group, source), (inward, outward)) in routes {
            contents.extend_from_slice(&group.to_be_bytes());
            contents.extend_from_slice(&source.to_be_bytes());
            contents.push(inward.unwrap_or(255));
            contents.extend_from_slice(&outward.to_be_bytes());
        }
        if let Some(frames) = self.watched(at) {
            put_frame(1, &[&contents], frames);
        }
    }

    pub fn watch_arrival(&mut self, node: usize, iface: u8, dst: Addr, bytes: &[u8]) {
        if let Some(frames) = self.watched(node) {
            put_frame(2, &[&[iface], &dst.to_be_bytes(), bytes], frames);
        }
    }

    pub fn watch_wait(&mut self, node: usize, ms: u64, word: u32) {
        if let Some(frames) = self.watched(node) {
            put_frame(
                3,
                &[&(ms as u32).to_be_bytes(), &word.to_be_bytes()],
                frames,
            );
        }
    }

    pub fn watch_clear(&mut self, node: usize) {
        if let Some(frames) = self.watched(node) {
            put_frame(4, &[], frames);
        }
    }
}
