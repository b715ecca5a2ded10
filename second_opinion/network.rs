//! A network: routers, links, the datagrams in flight, and what is written of them.
use crate::events::*;
use crate::messages::*;
use crate::node::Watched;
use crate::router::*;
use crate::values::*;
use std::collections::{HashMap, VecDeque};
use std::fmt::Write as _;

pub struct End {
    pub name: String,
    pub node: usize,
    pub iface: u8,
    pub peers: Vec<usize>,
}

pub struct Parcel {
    pub end: usize,
    pub dst: Addr,
    pub bytes: Vec<u8>,
    pub id: u64,
    pub from: Option<usize>,
}

#[derive(Default)]
pub struct Network {
    pub period: u64,
    pub x: u64,
    pub names: HashMap<String, usize>,
    pub nodes: Vec<Node>,
    pub ends_of: Vec<Vec<usize>>,
    pub ends: Vec<End>,
    pub end_names: HashMap<String, usize>,
    pub hops: Vec<(Addr, Addr, usize, usize)>,
    pub flight: VecDeque<Parcel>,
    pub spare: Vec<Vec<u8>>,
    pub trace: bool,
    pub delivered: u64,
    pub crowded: bool,
    pub text: String,
    pub ids: u64,
    pub events: Option<Events>,
    pub watched: Option<Watched>,
}

pub fn dotted(a: Addr) -> String {
    let b = a.to_be_bytes();
    format!("{}.{}.{}.{}", b[0], b[1], b[2], b[3])
}

pub fn flow_text(f: &Flow) -> String {
    let p = if f.p == INFINITE {
        "inf".to_string()
    } else {
        f.p.to_string()
    };
    format!("{}/{}/{}/{}/{}", f.r, f.b, p, f.low, f.most)
}

pub fn names_text(style: Style, names: &Names) -> String {
    let words: Vec<String> = names
        .slice()
        .iter()
        .map(|s| match style {
            Style::Wild => dotted(s.addr),
            _ => format!("{}:{}", dotted(s.addr), s.port),
        })
        .collect();
    words.join(",")
}

impl Network {
    pub fn next_word(&mut self) -> u32 {
        self.x = self
            .x
            .wrapping_mul(6_364_136_223_846_793_005)
            .wrapping_add(1_442_695_040_888_963_407);
        (self.x >> 32) as u32
    }

    pub fn send(&mut self, node: usize, out: &mut Vec<Send>) {
        for s in out.drain(..) {
            let from = self.ends_of[node][s.iface as usize];
            // To a group it goes to all, to an address to its end; where no end on the link has the address, to all.
            let owner = self.ends[from].peers.iter().copied().find(|p| {
                let e = &self.ends[*p];
                s.dst >> 28 != 14 && self.nodes[e.node].own(e.iface) == s.dst
            });
            for k in 0..self.ends[from].peers.len() {
                let end = self.ends[from].peers[k];
                if owner.is_none_or(|o| o == end) {
                    let mut bytes = self.spare.pop().unwrap_or_default();
                    encode(&s.message, &mut bytes);
                    self.put(end, s.dst, bytes, Some(from));
                    self.sent_event();
                }
            }
        }
        self.crowd();
    }

    pub fn put(&mut self, end: usize, dst: Addr, bytes: Vec<u8>, from: Option<usize>) {
        let id = self.ids;
        self.ids += 1;
        self.flight.push_back(Parcel {
            end,
            dst,
            bytes,
            id,
            from,
        });
    }

    // More datagrams than this end the run.
    pub fn crowd(&mut self) {
        self.crowded |= self.flight.len() > 8192;
        self.flight.truncate(8192);
    }

    pub fn deliver(&mut self, at: usize, out: &mut Vec<Send>) {
        let Some(p) = self.flight.remove(at) else {
            return;
        };
        self.delivered += 1;
        let (node, iface) = (self.ends[p.end].node, self.ends[p.end].iface);
        self.watch_arrival(node, iface, p.dst, &p.bytes);
        let message = decode(&p.bytes);
        let heard = match &message {
            Ok(m) => self.nodes[node].arrive(iface, p.dst, m, out),
            Err(fault) => self.nodes[node].refuse(iface, p.dst, &p.bytes, *fault, out),
        };
        self.delivered_event(&p, &heard);
        if self.trace {
            let kind = message.as_ref().map_or("?", Message::kind);
            let name = &self.ends[p.end].name;
            let _ = match heard {
                Heard::Taken => writeln!(self.text, "{name} {kind} taken"),
                Heard::Dropped(why) => writeln!(self.text, "{name} {kind} dropped {why}"),
                Heard::Answered(c, v) => writeln!(self.text, "{name} {kind} answered {c}/{v}"),
            };
        }
        self.spare.push(p.bytes);
        self.send(node, out);
    }

    pub fn pass(&mut self, out: &mut Vec<Send>) {
        for _ in 0..self.flight.len() {
            if self.crowded {
                return;
            }
            self.deliver(0, out);
        }
    }

    pub fn wait(&mut self, ms: u64, out: &mut Vec<Send>) {
        let mut left = ms;
        while left > 0 {
            let piece = left.min(self.period / 2);
            left -= piece;
            self.passed(piece);
            for node in 0..self.nodes.len() {
                let word = self.next_word();
                self.watch_wait(node, piece, word);
                self.nodes[node].wait(piece, word, out);
                self.send(node, out);
            }
        }
    }

    pub fn rounds(&mut self, n: u64, out: &mut Vec<Send>) {
        for k in 1..=n {
            for _ in 0..4 {
                self.wait(self.period / 2, out);
                self.pass(out);
            }
            self.round_event(k, n);
        }
    }

    pub fn report(&mut self, only: Option<usize>, flags: bool) {
        for (i, e) in self.ends.iter().enumerate() {
            if only.is_some_and(|o| o != i) {
                continue;
            }
            let node = &self.nodes[e.node];
            let entries = node.entries(e.iface);
            let held: u64 = entries.iter().map(|x| x.3.flow.r).sum();
            let capacity = node.ifaces[e.iface as usize].capacity;
            let _ = writeln!(self.text, "end {} held {held} of {capacity}", e.name);
            for (s, style, unit, part) in &entries {
                let _ = write!(
                    self.text,
                    "{}/{}/{} {} {} {}",
                    dotted(s.group),
                    s.proto,
                    s.port,
                    style.word(),
                    names_text(*style, &part.names),
                    flow_text(&part.flow)
                );
                if flags {
                    let [e1, m, b] = node.flags(e.iface, *s, *style, *unit, part);
                    let mark = |is: bool, c: char| if is { c } else { '-' };
                    let _ = write!(
                        self.text,
                        " {}{}{}",
                        mark(e1, 'e'),
                        mark(m, 'm'),
                        mark(b, 'b')
                    );
                }
                self.text.push('\n');
            }
        }
    }

    // What the paths keep that came by each end.
    pub fn adverts(&mut self) {
        for e in &self.ends {
            let node = &self.nodes[e.node];
            for ((s, x), path) in &node.paths {
                if let (true, Some(advert)) = (path.iface == e.iface, &path.advert) {
                    let _ = writeln!(
                        self.text,
                        "{} {}/{}/{} {}:{} {advert}",
                        e.name,
                        dotted(s.group),
                        s.proto,
                        s.port,
                        dotted(x.addr),
                        x.port
                    );
                }
            }
        }
    }

    pub fn routes(&self) -> Vec<HashMap<(Addr, Addr), (Option<u8>, u16)>> {
        let mut all = vec![HashMap::new(); self.nodes.len()];
        for (g, a, from, to) in &self.hops {
            let (f, t) = (&self.ends[*from], &self.ends[*to]);
            all[f.node].entry((*g, *a)).or_insert((None, 0)).1 |= 1 << f.iface;
            all[t.node].entry((*g, *a)).or_insert((None, 0)).0 = Some(t.iface);
        }
        all
    }

    pub fn start(&mut self) {
        let routes = self.routes();
        for (node, routes) in self.nodes.iter_mut().zip(routes) {
            node.period = self.period;
            node.routes = routes;
        }
        self.watch_opening();
    }

    pub fn add_node(&mut self, name: &str) {
        self.names.insert(name.to_string(), self.nodes.len());
        self.nodes.push(Node::default());
        self.ends_of.push(Vec::new());
    }

    pub fn add_end(&mut self, name: &str, node: usize, iface: Iface) -> usize {
        let number = self.ends.len();
        self.end_names.insert(name.to_string(), number);
        self.ends.push(End {
            name: name.to_string(),
            node,
            iface: self.nodes[node].ifaces.len() as u8,
            peers: Vec::new(),
        });
        self.nodes[node].ifaces.push(iface);
        self.ends_of[node].push(number);
        number
    }

    pub fn add_link(&mut self, ends: &[usize]) {
        for e in ends {
            let mut peers: Vec<usize> = ends.iter().copied().filter(|o| o != e).collect();
            peers.sort_unstable();
            self.ends[*e].peers = peers;
        }
    }

    pub fn local(
        &mut self,
        node: usize,
        s: Session,
        act: impl FnOnce(&mut Node),
        out: &mut Vec<Send>,
    ) {
        self.nodes[node].local(s, act, out);
        self.send(node, out);
    }
}
