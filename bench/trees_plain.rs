//! What the work on trees of `rsvp_bench` is timed against: a plain Rust program, as one would write it, that goes the same
//! way. It prints the same line.
use std::cmp::Ordering;
use std::collections::BTreeMap;

#[derive(Clone, Copy, PartialEq, Eq, PartialOrd, Ord)]
struct Hop {
    from: u16,
    to: u16,
}

#[derive(Clone, Copy)]
struct Known {
    group: u32,
    source: u32,
    hop: Hop,
    vertex: u16,
    before: Option<u16>,
}

struct End {
    node: u16,
    addr: u32,
}

#[derive(Default)]
struct Topology {
    nodes: u16,
    ends: Vec<End>,
    links: Vec<(u16, u16)>,
    hops: Vec<Known>,
}

enum HopErr {
    NotTree,
    Loop(Hop),
}

impl Topology {
    fn node_of(&self, end: u16) -> u16 {
        self.ends.get(end as usize).map_or(0, |end| end.node)
    }

    fn link_of(&self, end: u16) -> Option<(u16, u16)> {
        self.links.iter().copied().find(|link| link.0 == end || link.1 == end)
    }

    fn tree(&self, group: u32, source: u32) -> impl Iterator<Item = &Known> {
        self.hops.iter().filter(move |k| k.group == group && k.source == source)
    }

    fn is_reached(&self, group: u32, source: u32, node: u16) -> bool {
        let root = self.ends.iter().find(|end| end.addr == source).map(|end| end.node);
        root == Some(node) || self.tree(group, source).any(|k| self.node_of(k.hop.to) == node)
    }

    fn can_grow(&self, group: u32, source: u32, hop: Hop) -> bool {
        let Some(link) = self.link_of(hop.from) else { return false };
        let is_on = |end: u16| link.0 == end || link.1 == end;
        hop.to != hop.from
            && is_on(hop.to)
            && self.is_reached(group, source, self.node_of(hop.from))
            && !self.is_reached(group, source, self.node_of(hop.to))
            && self.tree(group, source).all(|k| !is_on(k.hop.from) || k.hop.from == hop.from)
    }

    fn leads(&self, from: u16, to: u16) -> bool {
        let mut marks = vec![false; self.hops.len() + 1];
        marks[from as usize] = true;
        let mut moved = true;
        while moved {
            moved = false;
            for known in &self.hops {
                if let Some(before) = known.before {
                    if marks[before as usize] && !marks[known.vertex as usize] {
                        marks[known.vertex as usize] = true;
                        moved = true;
                    }
                }
            }
        }
        marks[to as usize]
    }

    fn add_hop(&mut self, group: u32, source: u32, hop: Hop) -> Result<(), HopErr> {
        if !self.can_grow(group, source, hop) {
            return Err(HopErr::NotTree);
        }
        let vertex = self.hops.iter().position(|k| k.group == group && k.hop == hop).unwrap_or(self.hops.len()) as u16;
        let node = self.node_of(hop.from);
        let before = self.tree(group, source).find(|k| self.node_of(k.hop.to) == node).map(|k| k.vertex);
        if let Some(before) = before {
            if self.leads(vertex, before) {
                let on = |k: &&Known| k.group == group && self.leads(vertex, k.vertex) && self.leads(k.vertex, before);
                let least = self.hops.iter().filter(on).map(|k| k.hop).min();
                return Err(HopErr::Loop(least.map_or(hop, |least| least.min(hop))));
            }
        }
        self.hops.push(Known { group, source, hop, vertex, before });
        Ok(())
    }

    fn close(self) -> Routing {
        let mut levels = vec![1u16; self.hops.len()];
        for _ in 0..self.hops.len() {
            for known in &self.hops {
                if let Some(before) = known.before {
                    if levels[before as usize] <= levels[known.vertex as usize] {
                        levels[before as usize] = levels[known.vertex as usize] + 1;
                    }
                }
            }
        }
        let chain = self.hops.iter().map(|k| levels[k.vertex as usize]).max().unwrap_or(0);
        let firsts: Vec<Known> =
            self.hops.iter().enumerate().filter(|(i, k)| k.vertex as usize == *i).map(|(_, k)| *k).collect();
        let mut order = Vec::new();
        for level in 1..=chain {
            order.extend(firsts.iter().filter(|k| levels[k.vertex as usize] == level).map(|k| (k.group, k.hop)));
        }
        let mut sorted: Vec<(u32, u32, Hop)> = self.hops.iter().map(|k| (k.group, k.source, k.hop)).collect();
        sorted.sort();
        Routing { net: self, chain, order, sorted }
    }
}

struct Routing {
    net: Topology,
    chain: u16,
    order: Vec<(u32, Hop)>,
    sorted: Vec<(u32, u32, Hop)>,
}

impl Routing {
    fn tree(&self, group: u32, source: u32) -> &[(u32, u32, Hop)] {
        let start = self.sorted.partition_point(|row| (row.0, row.1) < (group, source));
        let end = self.sorted.partition_point(|row| (row.0, row.1) <= (group, source));
        &self.sorted[start..end]
    }

    fn iface_of(&self, end: u16) -> u8 {
        let node = self.net.node_of(end);
        self.net.ends[..end as usize].iter().filter(|end| end.node == node).count() as u8
    }

    fn inward(&self, node: u16, group: u32, source: u32) -> Option<u8> {
        let row = self.tree(group, source).iter().find(|row| self.net.node_of(row.2.to) == node)?;
        Some(self.iface_of(row.2.to))
    }

    fn outward(&self, node: u16, group: u32, source: u32) -> u16 {
        let rows = self.tree(group, source).iter().filter(|row| self.net.node_of(row.2.from) == node);
        rows.fold(0, |ways, row| ways | 1 << self.iface_of(row.2.from))
    }
}

type Sender = (u32, u16);
type Session = (u32, u16);

#[derive(Clone, Copy, PartialEq, Eq, PartialOrd, Ord)]
enum Style {
    Wild,
    Fixed,
    Shared,
}

#[derive(Clone)]
struct Part {
    senders: Vec<Sender>,
    rate: u64,
}

fn unit(style: Style, part: &Part) -> Option<Sender> {
    if style == Style::Fixed { part.senders.first().copied() } else { None }
}

// The union of lists in order.
fn union(a: &[Sender], b: &[Sender]) -> Vec<Sender> {
    let (mut i, mut j, mut all) = (0, 0, Vec::with_capacity(a.len() + b.len()));
    while i < a.len() && j < b.len() {
        match a[i].cmp(&b[j]) {
            Ordering::Less => {
                all.push(a[i]);
                i += 1;
            }
            Ordering::Greater => {
                all.push(b[j]);
                j += 1;
            }
            Ordering::Equal => {
                all.push(a[i]);
                i += 1;
                j += 1;
            }
        }
    }
    all.extend_from_slice(&a[i..]);
    all.extend_from_slice(&b[j..]);
    all
}

fn join(map: &mut BTreeMap<Option<Sender>, Part>, unit: Option<Sender>, part: Part) {
    match map.get_mut(&unit) {
        Some(there) => {
            there.senders = union(&there.senders, &part.senders);
            there.rate = there.rate.max(part.rate);
        }
        None => {
            map.insert(unit, part);
        }
    }
}

struct Want {
    node: u16,
    session: Session,
    style: Style,
    part: Part,
}

fn demand(routing: &Routing, senders: &[(Session, Sender)], wants: &[Want]) -> Vec<BTreeMap<(Session, Style, Option<Sender>), Part>> {
    let mut ends = vec![BTreeMap::new(); routing.net.ends.len()];
    let mut sessions: Vec<Session> = Vec::new();
    for want in wants {
        if !sessions.contains(&want.session) {
            sessions.push(want.session);
        }
    }
    for style in [Style::Wild, Style::Fixed, Style::Shared] {
        for session in &sessions {
            let live: Vec<Sender> = senders.iter().filter(|s| s.0 == *session).map(|s| s.1).collect();
            let name = |s: Sender| if style == Style::Wild { (s.0, 0) } else { s };
            let mut names: Vec<Sender> = live.iter().map(|s| name(*s)).collect();
            names.sort();
            let mut asked: Vec<Vec<Part>> = vec![Vec::new(); routing.net.nodes as usize];
            for want in wants.iter().filter(|w| w.session == *session && w.style == style) {
                let senders = if style == Style::Wild { names.clone() } else { want.part.senders.clone() };
                asked[want.node as usize].push(Part { senders, rate: want.part.rate });
            }
            for (group, hop) in &routing.order {
                if *group != session.0 {
                    continue;
                }
                let over: Vec<Sender> = {
                    let has = |s: &&Sender| routing.sorted.binary_search(&(*group, s.0, *hop)).is_ok();
                    let mut over: Vec<Sender> = live.iter().filter(has).map(|s| name(*s)).collect();
                    over.sort();
                    over
                };
                let mut parts = BTreeMap::new();
                for part in &asked[routing.net.node_of(hop.to) as usize] {
                    let senders: Vec<Sender> = part.senders.iter().copied().filter(|s| over.contains(s)).collect();
                    if !senders.is_empty() {
                        let part = Part { senders, rate: part.rate };
                        join(&mut parts, unit(style, &part), part);
                    }
                }
                for (unit, part) in parts {
                    let book: &mut BTreeMap<_, Part> = &mut ends[hop.from as usize];
                    match book.get_mut(&(*session, style, unit)) {
                        Some(there) => {
                            there.senders = union(&there.senders, &part.senders);
                            there.rate = there.rate.max(part.rate);
                        }
                        None => {
                            book.insert((*session, style, unit), part.clone());
                        }
                    }
                    asked[routing.net.node_of(hop.from) as usize].push(part);
                }
            }
        }
    }
    ends
}

const NODES: u16 = 256;
const TREES: u16 = 33;

fn chain() -> Topology {
    let mut net = Topology { nodes: NODES, ..Topology::default() };
    for link in 0..NODES - 1 {
        net.ends.push(End { node: link, addr: addr(2 * link) });
        net.ends.push(End { node: link + 1, addr: addr(2 * link + 1) });
        net.links.push((2 * link, 2 * link + 1));
    }
    net
}

fn addr(number: u16) -> u32 {
    0x0a00_0000 + number as u32
}

fn group(is_apart: bool, tree: u16) -> u32 {
    0xef01_0100 + if is_apart { tree as u32 } else { 0 }
}

fn session(is_apart: bool, tree: u16) -> Session {
    (group(is_apart, tree), if is_apart { 5004 } else { 5004 + tree / 11 })
}

fn is_wanted(is_apart: bool, tree: u16) -> bool {
    if is_apart { tree < 32 } else { tree % 11 == 0 }
}

fn grow(is_apart: bool, until: &str) -> Option<(u64, u64)> {
    let mut net = chain();
    for tree in 0..TREES {
        let root = tree * 7;
        let right = (root..NODES - 1).map(|link| Hop { from: 2 * link, to: 2 * link + 1 });
        let left = (0..root).rev().map(|link| Hop { from: 2 * link + 1, to: 2 * link });
        for hop in right.chain(left) {
            if net.hops.len() < 8192 {
                match net.add_hop(group(is_apart, tree), addr(2 * root), hop) {
                    Ok(()) => {}
                    Err(HopErr::NotTree) => return None,
                    Err(HopErr::Loop(hop)) => {
                        eprintln!("a loop at {}", hop.from);
                        return None;
                    }
                }
            }
        }
    }
    let hops = net.hops.len() as u64;
    if until == "grow" {
        return Some((hops, 0));
    }
    let routing = net.close();
    let sum = routing.chain as u64;
    if until == "close" {
        return Some((hops, sum));
    }
    if until == "ask" {
        let mut ways = 0;
        for tree in 0..TREES {
            let (group, source) = (group(is_apart, tree), addr(2 * tree * 7));
            for node in 0..NODES {
                ways += routing.inward(node, group, source).map_or(0, |iface| 1 + iface as u64);
                ways += routing.outward(node, group, source) as u64;
            }
        }
        return Some((hops, sum + ways));
    }
    let (mut senders, mut wants) = (Vec::new(), Vec::new());
    for tree in 0..TREES {
        let sender = (addr(2 * tree * 7), 5004);
        senders.push((session(is_apart, tree), sender));
        if is_wanted(is_apart, tree) {
            for node in 0..NODES {
                let style = [Style::Wild, Style::Fixed, Style::Shared][node as usize % 3];
                let names = if style == Style::Wild { Vec::new() } else { vec![sender] };
                let part = Part { senders: names, rate: 1000 + node as u64 };
                wants.push(Want { node, session: session(is_apart, tree), style, part });
            }
        }
    }
    let owed = demand(&routing, &senders, &wants);
    let weight: u64 = owed.iter().flat_map(|book| book.values()).map(|part| part.senders.len() as u64 + part.rate).sum();
    Some((hops, sum + weight))
}

fn main() {
    let words: Vec<String> = std::env::args().skip(1).collect();
    let (until, is_apart) = match words[0].strip_suffix("-apart") {
        Some(until) => (until, true),
        None => (words[0].as_str(), false),
    };
    let mut all = (0, 0);
    for _ in 0..words[1].parse::<u32>().unwrap() {
        let Some(grown) = grow(is_apart, until) else { std::process::exit(1) };
        all = (all.0 + grown.0, all.1 + grown.1);
    }
    println!("hops {} sum {}", all.0, all.1);
}
