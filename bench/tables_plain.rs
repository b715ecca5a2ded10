//! What the work on tables of reservations and on a pool of `rsvp_bench` is timed against: a plain Rust program, as one would
//! write it, that makes the same calls. It prints the same line.
use std::collections::{BTreeMap, BTreeSet};

type Session = (u32, u8, u16);
type Sender = (u32, u16);
type Hop = (u8, u32);

#[derive(Clone, Copy, PartialEq, Eq)]
struct Flow {
    r: u64,
    b: u64,
    p: Option<u64>,
    low: u32,
    most: u32,
}

// `None` is no bound.
fn least_peak(a: Option<u64>, b: Option<u64>) -> Option<u64> {
    match (a, b) {
        (Some(x), Some(y)) => Some(x.min(y)),
        (x, None) => x,
        (None, y) => y,
    }
}

fn join(a: &Flow, b: &Flow) -> Flow {
    Flow {
        r: a.r.max(b.r),
        b: a.b.max(b.b),
        p: match (a.p, b.p) {
            (Some(x), Some(y)) => Some(x.max(y)),
            _ => None,
        },
        low: a.low.min(b.low),
        most: a.most.max(b.most),
    }
}

fn meet(a: &Flow, b: &Flow) -> Flow {
    Flow {
        r: a.r.min(b.r),
        b: a.b.min(b.b),
        p: least_peak(a.p, b.p),
        low: a.low.max(b.low),
        most: a.most.min(b.most),
    }
}

#[derive(Clone)]
struct Part {
    senders: Vec<Sender>,
    flow: Flow,
}

fn union(a: &[Sender], b: &[Sender]) -> Vec<Sender> {
    let mut all: Vec<Sender> = a.iter().chain(b).copied().collect();
    all.sort();
    all.dedup();
    all
}

#[derive(Clone)]
struct Fact {
    part: Part,
    _confirm: Option<u32>,
}

type Unit = Option<Sender>;
type Own = BTreeMap<(Hop, Unit), (Fact, u32)>;

#[derive(Clone, Copy)]
struct Wall {
    flow: Flow,
    sub: u16,
}

struct Way {
    outward: u16,
    wall: Option<Wall>,
}

fn is_walled(asked: &Flow, wall: &Option<Wall>) -> bool {
    wall.is_some_and(|wall| if wall.sub == 3 { asked.most >= wall.flow.most } else { asked.r >= wall.flow.r })
}

struct Table {
    is_shared: bool,
    facts: usize,
    sessions: BTreeMap<Session, Own>,
}

impl Table {
    fn unit(&self, part: &Part) -> Unit {
        if self.is_shared { None } else { part.senders.first().copied() }
    }

    fn put(&mut self, session: Session, hop: Hop, part: Part, left: u32) -> Result<(), ()> {
        let key = (hop, self.unit(&part));
        match self.sessions.get(&session) {
            None if self.sessions.len() == 32 => return Err(()),
            None => {}
            Some(own) => {
                let mut hops: BTreeSet<Hop> = own.keys().map(|k| k.0).collect();
                hops.insert(hop);
                let mut names: BTreeSet<Sender> = part.senders.iter().copied().collect();
                names.extend(own.iter().filter(|(k, _)| **k != key).flat_map(|(_, e)| e.0.part.senders.iter().copied()));
                if hops.len() > 64 || names.len() > 16 {
                    return Err(());
                }
            }
        }
        let is_new = self.sessions.get(&session).is_none_or(|own| !own.contains_key(&key));
        if is_new && self.facts == 1024 {
            return Err(());
        }
        self.sessions.entry(session).or_default().insert(key, (Fact { part, _confirm: None }, left));
        self.facts += is_new as usize;
        Ok(())
    }

    fn find(&self, session: Session, hop: Hop, unit: Unit) -> Option<Fact> {
        let (fact, _) = self.sessions.get(&session)?.get(&(hop, unit))?;
        Some(fact.clone())
    }

    fn remove(&mut self, session: Session, hop: Hop, gone: &[Sender]) -> bool {
        let Some(own) = self.sessions.get_mut(&session) else {
            return false;
        };
        let units: Vec<Unit> = if self.is_shared { vec![None] } else { gone.iter().copied().map(Some).collect() };
        let mut had = false;
        for unit in units {
            let Some((fact, _)) = own.get_mut(&(hop, unit)) else {
                continue;
            };
            let before = fact.part.senders.len();
            fact.part.senders.retain(|x| !gone.contains(x));
            had |= fact.part.senders.len() < before;
            if fact.part.senders.is_empty() {
                own.remove(&(hop, unit));
                self.facts -= 1;
            }
        }
        if own.is_empty() {
            self.sessions.remove(&session);
        }
        had
    }

    fn merge<'a>(&self, parts: impl Iterator<Item = &'a Part>) -> BTreeMap<Unit, Part> {
        let mut all: BTreeMap<Unit, Part> = BTreeMap::new();
        for part in parts {
            match all.get_mut(&self.unit(part)) {
                Some(has) => {
                    has.senders = union(&has.senders, &part.senders);
                    has.flow = join(&has.flow, &part.flow);
                }
                None => {
                    all.insert(self.unit(part), part.clone());
                }
            }
        }
        all
    }

    fn parts(&self, session: Session, iface: u8) -> BTreeMap<Unit, Part> {
        let own = self.sessions.get(&session).into_iter().flatten();
        self.merge(own.filter(|(k, _)| k.0.0 == iface).map(|(_, e)| &e.0.part))
    }

    fn toward(&self, session: Session, up: &BTreeMap<Sender, Way>) -> BTreeMap<Unit, Part> {
        let mut open: BTreeMap<Unit, Part> = BTreeMap::new();
        let mut walled: BTreeMap<Unit, Part> = BTreeMap::new();
        for ((hop, _), (fact, _)) in self.sessions.get(&session).into_iter().flatten() {
            let goes = |x: &&Sender| up.get(x).is_some_and(|way| way.outward >> hop.0 & 1 == 1);
            let senders: Vec<Sender> = fact.part.senders.iter().filter(goes).copied().collect();
            if senders.is_empty() {
                continue;
            }
            let flow = fact.part.flow;
            let is_blockaded = senders.iter().any(|x| up.get(x).is_some_and(|way| is_walled(&flow, &way.wall)));
            let unit = if self.is_shared { None } else { senders.first().copied() };
            let (table, merge): (_, fn(&Flow, &Flow) -> Flow) =
                if is_blockaded { (&mut walled, meet) } else { (&mut open, join) };
            match table.get_mut(&unit) {
                Some(has) => {
                    has.senders = union(&has.senders, &senders);
                    has.flow = merge(&has.flow, &flow);
                }
                None => {
                    table.insert(unit, Part { senders, flow });
                }
            }
        }
        for (unit, part) in walled {
            open.entry(unit).or_insert(part);
        }
        open
    }
}

fn source(k: u32) -> Sender {
    (0x0a00_0101 + k, 5004)
}

fn session(number: u16) -> Session {
    (0xef01_0101, 17, number)
}

fn flow(r: u64) -> Flow {
    Flow { r, b: 2000, p: None, low: 64, most: 1500 }
}

fn reservation(is_shared: bool, k: u32) -> (Hop, Part) {
    let (hop, senders) = if is_shared { (k, (0..16).map(source).collect()) } else { (k / 16, vec![source(k % 16)]) };
    (((k / 16) as u8, 0x0a01_0001 + hop), Part { senders, flow: flow(1000 + k as u64) })
}

/// Makes a call for each reservation of the table.
fn each(table: &mut Table, call: impl Fn(&mut Table, Session, Hop, Part) -> Option<u64>) -> (u64, u64) {
    let mut served = (0, 0);
    for number in 0..32u16 {
        for k in 0..32u32 {
            let (hop, part) = reservation(table.is_shared, k);
            let Some(sum) = call(table, session(number), hop, part) else {
                std::process::exit(1);
            };
            served = (served.0 + 1, served.1 + sum);
        }
    }
    served
}

fn put(table: &mut Table, session: Session, hop: Hop, part: Part) -> Option<u64> {
    table.put(session, hop, part, 157_500).ok().map(|()| 1)
}

fn find(table: &mut Table, session: Session, hop: Hop, part: Part) -> Option<u64> {
    let unit = table.unit(&part);
    table.find(session, hop, unit).map(|fact| fact.part.flow.r)
}

fn remove(table: &mut Table, session: Session, hop: Hop, part: Part) -> Option<u64> {
    if !table.remove(session, hop, &part.senders) {
        return None;
    }
    put(table, session, hop, part)
}

fn weight(parts: &BTreeMap<Unit, Part>) -> u64 {
    parts.values().map(|part| part.senders.len() as u64 + part.flow.r).sum()
}

/// Values that run out, by the moment at which they do.
#[derive(Default)]
struct Pool {
    clock: u64,
    values: BTreeMap<u32, u32>,
    moments: BTreeSet<(u64, u32)>,
    due: Vec<u32>,
}

impl Pool {
    fn add(&mut self, slot: u32, value: u32, left: u32) {
        self.values.insert(slot, value);
        self.moments.insert((self.clock + u64::from(left), slot));
    }

    fn advance(&mut self, ms: u32) {
        self.clock += u64::from(ms);
        while let Some(&(moment, slot)) = self.moments.first() {
            if moment > self.clock {
                break;
            }
            self.moments.pop_first();
            self.due.push(slot);
        }
    }

    fn pull_due(&mut self) -> Option<u32> {
        self.due.pop().and_then(|slot| self.values.remove(&slot))
    }
}

fn wait_times(living: u32, times: u64) -> (u64, u64) {
    let mut pool = Pool::default();
    let mut served = (0, 0);
    for _ in 0..times {
        pool.values.clear();
        pool.moments.clear();
        (0..living).for_each(|value| pool.add(value, value, 262_000));
        for _ in 0..4000 {
            if pool.pull_due().is_some() {
                std::process::exit(1);
            }
            pool.advance(64);
            served = (served.0 + 1, served.1 + 64);
        }
    }
    served
}

fn main() {
    let words: Vec<String> = std::env::args().collect();
    let times: u64 = words[2].parse().unwrap();
    if let Some(living) = words[1].strip_prefix("wait-") {
        let (calls, sum) = wait_times(if living == "one" { 1 } else { 1024 }, times);
        println!("calls {calls} sum {sum}");
        return;
    }
    let (verb, is_shared) = match words[1].strip_suffix("-shared") {
        Some(verb) => (verb, true),
        None => (words[1].as_str(), false),
    };
    let mut table = Table { is_shared, facts: 0, sessions: BTreeMap::new() };
    each(&mut table, put);
    let refused = flow(1010);
    let wall = |k: u32| (k % 4 == 0).then_some(Wall { flow: refused, sub: 2 });
    let up: BTreeMap<Sender, Way> = (0..16).map(|k| (source(k), Way { outward: 3, wall: wall(k) })).collect();
    let (mut calls, mut sum) = (0, 0);
    for _ in 0..times {
        let (more, weights) = match verb {
            "fill" => {
                table.sessions.clear();
                table.facts = 0;
                each(&mut table, put)
            }
            "put" => each(&mut table, put),
            "find" => each(&mut table, find),
            "remove" => each(&mut table, remove),
            "parts" => {
                let all = (0..32).flat_map(|n| [(n, 0), (n, 1)]);
                (64, all.map(|(n, iface)| weight(&table.parts(session(n), iface))).sum())
            }
            _ => (32, (0..32).map(|n| weight(&table.toward(session(n), &up))).sum()),
        };
        calls += more;
        sum += weights;
    }
    println!("calls {calls} sum {sum}");
}
