//! A router: what it keeps, and what each message, local call, wait and new route makes of it (RFC 2205, 2209).
use crate::adverts::{Advert, Source};
use crate::messages::*;
use crate::values::*;
use std::collections::{BTreeMap, BTreeSet, HashMap};

#[derive(Clone, Copy)]
pub struct Iface {
    pub addr: Addr,
    pub capacity: u64,
    pub mtu: u32,
    // In microseconds.
    pub latency: u32,
}

#[derive(Clone)]
pub struct Path {
    pub iface: u8,
    pub hop: (Addr, u32),
    pub tspec: Flow,
    pub police: bool,
    pub advert: Option<Advert>,
    pub dies: u64,
}

#[derive(Clone, Copy)]
pub struct Resv {
    pub part: Part,
    pub confirm: Option<Addr>,
    pub dies: u64,
}

#[derive(Clone, Copy)]
pub struct Want {
    pub style: Style,
    pub part: Part,
    pub confirm: bool,
}

#[derive(Clone, Copy, PartialEq, Eq, PartialOrd, Ord)]
pub enum Target {
    Hop(u8, Addr),
    Sender(Sender),
}

#[derive(Clone, Copy)]
pub struct Wall {
    pub flow: Flow,
    pub sub: u16,
    pub dies: u64,
}

impl Wall {
    pub fn blocks(&self, asked: &Flow) -> bool {
        match self.sub {
            2 => self.flow.r <= asked.r,
            3 => self.flow.most <= asked.most,
            _ => false,
        }
    }
}

#[derive(Clone, Copy, PartialEq, Debug)]
pub enum Heard {
    Taken,
    Dropped(&'static str),
    Answered(u8, u16),
}

pub struct Send {
    pub iface: u8,
    pub dst: Addr,
    pub message: Message,
}

// A wish to be confirmed that a Resv brought, and what was taken of it.
pub struct Asked {
    pub session: Session,
    pub confirm: Addr,
    pub iface: u8,
    pub hop: Addr,
    pub taken: Option<Ask>,
}

pub struct Error {
    pub iface: u8,
    pub dst: Addr,
    pub first: Option<Sender>,
    pub message: Message,
}

// A sender, its flow, whether it is a local one, and where what is told of its path comes from.
pub type Offers = Vec<(Sender, Flow, bool, Source)>;

#[derive(Default)]
pub struct Node {
    pub period: u64,
    pub clock: u64,
    pub ifaces: Vec<Iface>,
    pub routes: HashMap<(Addr, Addr), (Option<u8>, u16)>,
    pub old: Option<HashMap<(Addr, Addr), (Option<u8>, u16)>>,
    pub senders: BTreeMap<(Session, Sender), Flow>,
    // Of these, the advertised ones.
    pub advertised: BTreeSet<(Session, Sender)>,
    pub wants: BTreeMap<(Session, Unit), Want>,
    pub paths: BTreeMap<(Session, Sender), Path>,
    pub resvs: [BTreeMap<(Session, Hop, Unit), Resv>; 3],
    pub walls: BTreeMap<(Session, Target), Wall>,
    pub due: BTreeMap<Session, u64>,
    pub said: BTreeMap<(Session, Style, Hop), Parts>,
}

pub const LEAST: Sender = Sender { addr: 0, port: 0 };
pub const MOST: Sender = Sender {
    addr: u32::MAX,
    port: u16::MAX,
};

pub type ResvKey = (Session, Hop, Unit);

pub fn resv_range(s: Session) -> std::ops::RangeInclusive<ResvKey> {
    (s, (0, 0), None)..=(s, (u8::MAX, u32::MAX), Some(MOST))
}

impl Node {
    pub fn life(&self, said: u32) -> u64 {
        (21 * u64::from(said).clamp(1, self.period) + 3) / 4
    }

    pub fn own(&self, iface: u8) -> Addr {
        self.ifaces[iface as usize].addr
    }

    pub fn is_own(&self, addr: Addr) -> bool {
        self.ifaces.iter().any(|i| i.addr == addr)
    }

    pub fn ways(&self, s: Session, x: Sender) -> u16 {
        self.routes.get(&(s.group, x.addr)).map_or(0, |r| r.1)
    }

    pub fn goes_out(&self, s: Session, iface: u8, x: Sender) -> bool {
        self.ways(s, x) >> iface & 1 == 1
    }

    pub fn known(&self, s: Session) -> Vec<Sender> {
        let own = self.senders.range((s, LEAST)..=(s, MOST)).map(|e| e.0.1);
        let far = self.paths.range((s, LEAST)..=(s, MOST)).map(|e| e.0.1);
        let mut all: Vec<Sender> = own.chain(far).collect();
        all.sort();
        all.dedup();
        all
    }

    pub fn offers(&self, s: Session) -> Offers {
        self.known(s)
            .into_iter()
            .map(|x| match self.senders.get(&(s, x)) {
                Some(flow) => {
                    let source = match self.advertised.contains(&(s, x)) {
                        true => Source::Begins,
                        false => Source::Silent,
                    };
                    (x, *flow, true, source)
                }
                None => {
                    let path = &self.paths[&(s, x)];
                    let source = path.advert.clone().map_or(Source::Silent, Source::Passes);
                    (x, path.tspec, false, source)
                }
            })
            .collect()
    }

    pub fn hops(&self, s: Session) -> BTreeSet<Hop> {
        let paths = self.paths.range((s, LEAST)..=(s, MOST));
        paths.map(|e| (e.1.iface, e.1.hop.0)).collect()
    }

    pub fn via(&self, s: Session, hop: Hop) -> Vec<Sender> {
        let paths = self.paths.range((s, LEAST)..=(s, MOST));
        paths
            .filter(|e| (e.1.iface, e.1.hop.0) == hop)
            .map(|e| e.0.1)
            .collect()
    }

    pub fn wall(&self, s: Session, t: Target, flow: &Flow) -> bool {
        self.walls.get(&(s, t)).is_some_and(|w| w.blocks(flow))
    }

    pub fn is_blockaded(&self, s: Session, style: Style, hop: Hop, part: &Part) -> bool {
        match style {
            Style::Wild => self.wall(s, Target::Hop(hop.0, hop.1), &part.flow),
            _ => {
                let mut names = part.names.slice().iter();
                names.any(|x| self.wall(s, Target::Sender(*x), &part.flow))
            }
        }
    }

    // The requests of a style toward a hop: unit, part, blockaded, and whether it is a marked local want.
    pub fn requests(&self, s: Session, style: Style, hop: Hop) -> Vec<(Unit, Part, bool, bool)> {
        let via = self.via(s, hop);
        let mut all = Vec::new();
        for (key, r) in self.resvs[style.number()].range(resv_range(s)) {
            let names = r.part.names.filter(|n| {
                via.iter()
                    .any(|x| style.name(*x) == n && self.goes_out(s, key.1.0, *x))
            });
            if !names.is_empty() {
                all.push((key.2, names, r.part.flow, false));
            }
        }
        for (key, w) in self.wants.range((s, None)..=(s, Some(MOST))) {
            if w.style == style {
                let names = match style {
                    Style::Wild => {
                        let mut names = Names::new();
                        for x in &via {
                            names.add(style.name(*x));
                        }
                        names
                    }
                    _ => w.part.names.filter(|n| via.contains(&n)),
                };
                if !names.is_empty() {
                    all.push((key.1, names, w.part.flow, w.confirm));
                }
            }
        }
        let parts = all.into_iter().map(|(unit, names, flow, mark)| {
            let part = Part { names, flow };
            (unit, part, self.is_blockaded(s, style, hop, &part), mark)
        });
        parts.collect()
    }

    pub fn toward(all: &[(Unit, Part, bool, bool)]) -> Parts {
        let units: BTreeSet<Unit> = all.iter().map(|r| r.0).collect();
        let mut parts = Parts::new();
        for unit in units {
            let open = all.iter().any(|r| r.0 == unit && !r.2);
            let mut merged: Option<Part> = None;
            for (_, part, _, _) in all.iter().filter(|r| r.0 == unit && (!open || !r.2)) {
                merged = Some(match merged {
                    None => *part,
                    Some(m) => Part {
                        names: m.names.union(&part.names),
                        flow: if open {
                            m.flow.join(&part.flow)
                        } else {
                            m.flow.meet(&part.flow)
                        },
                    },
                });
            }
            parts.extend(merged.map(|m| (unit, m)));
        }
        parts
    }

    // ---- the book
    pub fn entries(&self, iface: u8) -> Vec<(Session, Style, Unit, Part)> {
        let mut book: BTreeMap<(Session, Style, Unit), Part> = BTreeMap::new();
        for style in STYLES {
            for (key, r) in &self.resvs[style.number()] {
                if key.1.0 == iface {
                    let place = book.entry((key.0, style, key.2));
                    place
                        .and_modify(|p| {
                            p.names = p.names.union(&r.part.names);
                            p.flow = p.flow.join(&r.part.flow);
                        })
                        .or_insert(r.part);
                }
            }
        }
        book.into_iter().map(|(k, p)| (k.0, k.1, k.2, p)).collect()
    }

    pub fn flags(&self, iface: u8, s: Session, style: Style, unit: Unit, part: &Part) -> [bool; 3] {
        let paths = self.paths.range((s, LEAST)..=(s, MOST));
        let matching: Vec<&Path> = paths
            .filter(|e| part.names.has(style.name(e.0.1)) && self.goes_out(s, iface, e.0.1))
            .map(|e| e.1)
            .collect();
        let mut beside = self.resvs[style.number()].range(resv_range(s)).filter(|e| {
            !(e.0.1.0 == iface && e.0.2 == unit)
                && e.1.part.names.slice().iter().any(|x| part.names.has(*x))
        });
        [
            matching.iter().any(|p| p.police),
            style != Style::Fixed && matching.len() > 1,
            beside.any(|e| !e.1.part.flow.le(&part.flow)),
        ]
    }

    // ---- what follows each input
    pub fn before(&self, touched: &[Session]) -> Vec<Offers> {
        touched.iter().map(|s| self.offers(*s)).collect()
    }

    pub fn settle(&mut self, touched: &[Session], before: &[Offers]) {
        for (s, was) in touched.iter().zip(before) {
            let now = self.known(*s);
            for style in STYLES {
                let gone: Vec<Sender> = was
                    .iter()
                    .map(|o| style.name(o.0))
                    .filter(|n| !now.iter().any(|x| style.name(*x) == *n))
                    .collect();
                if gone.is_empty() {
                    continue;
                }
                let keys: Vec<_> = self.resvs[style.number()]
                    .range(resv_range(*s))
                    .map(|e| *e.0)
                    .collect();
                for key in keys {
                    let r = self.resvs[style.number()].get_mut(&key).unwrap();
                    r.part.names = r.part.names.filter(|n| !gone.contains(&n));
                    if r.part.names.is_empty() {
                        self.resvs[style.number()].remove(&key);
                    }
                }
            }
            if now.is_empty() {
                self.due.remove(s);
            } else {
                let start = self.clock + self.period;
                self.due.entry(*s).or_insert(start);
            }
        }
    }

    pub fn ask_of(style: Style, parts: &Parts) -> Option<Ask> {
        if parts.is_empty() {
            return None;
        }
        Some(match style {
            Style::Wild => Ask::Wild(Some(parts[0].1.names), parts[0].1.flow),
            Style::Fixed => Ask::Fixed(parts.iter().map(|(u, p)| (u.unwrap(), p.flow)).collect()),
            Style::Shared => Ask::Shared(parts[0].1),
        })
    }

    #[allow(clippy::too_many_arguments)]
    pub fn tell(
        &mut self,
        touched: &[Session],
        before: &[Offers],
        mut errors: Vec<Error>,
        mut confs: Vec<(Hop, Message)>,
        fired: &[Session],
        changed: &BTreeSet<Session>,
        asked: Option<Asked>,
        out: &mut Vec<Send>,
    ) {
        let after = self.before(touched);
        let moved = self.old.take();
        let old_ways = |node: &Node, s: Session, x: Sender| match &moved {
            Some(old) => old.get(&(s.group, x.addr)).map_or(0, |r| r.1),
            None => node.ways(s, x),
        };
        // Gone offers.
        for (i, s) in touched.iter().enumerate() {
            for o in &before[i] {
                let stays = after[i].iter().any(|n| n.0 == o.0);
                let was = old_ways(self, *s, o.0);
                let now = if stays { self.ways(*s, o.0) } else { 0 };
                for iface in 0..self.ifaces.len() as u8 {
                    if was >> iface & 1 == 1 && now >> iface & 1 == 0 {
                        let body = Body::PathTear { sender: Some(o.0) };
                        out.push(self.to_group(*s, iface, body));
                    }
                }
            }
        }
        // What goes toward each lane.
        let mut lanes: Vec<(Session, Style, Hop, Parts, Parts, Vec<Unit>)> = Vec::new();
        for s in touched {
            let known: BTreeSet<(Style, Hop)> = self
                .said
                .range((*s, Style::Wild, (0, 0))..=(*s, Style::Shared, (u8::MAX, u32::MAX)))
                .map(|e| (e.0.1, e.0.2))
                .collect();
            if !changed.contains(s) {
                // Only due: what went there before goes there again.
                for (style, hop) in known {
                    let said = self.said.remove(&(*s, style, hop)).unwrap();
                    lanes.push((*s, style, hop, said.clone(), said, vec![]));
                }
                continue;
            }
            let hops = self.hops(*s);
            for style in STYLES {
                let mut all: BTreeSet<Hop> = hops.clone();
                all.extend(known.iter().filter(|k| k.0 == style).map(|k| k.1));
                for hop in all {
                    let requests = self.requests(*s, style, hop);
                    let now = Node::toward(&requests);
                    let was = self.said.remove(&(*s, style, hop)).unwrap_or_default();
                    let marks = requests
                        .iter()
                        .filter(|r| r.3 && (!r.2 || !requests.iter().any(|q| q.0 == r.0 && !q.2)))
                        .map(|r| r.0)
                        .collect();
                    lanes.push((*s, style, hop, was, now, marks));
                }
            }
        }
        for (s, style, hop, was, now, _) in &lanes {
            let mut names = Names::new();
            let via: Vec<Sender> = self.via(*s, *hop).iter().map(|x| style.name(*x)).collect();
            for (unit, part) in was {
                if !now.iter().any(|n| n.0 == *unit) {
                    names = names.union(&part.names.filter(|n| via.contains(&n)));
                }
            }
            if !names.is_empty() {
                let body = Body::ResvTear {
                    style: *style,
                    names: Some(names),
                };
                out.push(self.to_hop(*s, *hop, body));
            }
        }
        errors.sort_by_key(|e| (e.iface, e.dst, e.first));
        out.extend(errors.into_iter().map(|e| Send {
            iface: e.iface,
            dst: e.dst,
            message: e.message,
        }));
        let is_new =
            |l: &(Session, Style, Hop, Parts, Parts, Vec<Unit>)| !l.4.is_empty() && l.3 != l.4;
        if let Some(a) = &asked {
            let goes_on = lanes.iter().any(|l| l.0 == a.session && is_new(l));
            if let (false, Some(taken)) = (goes_on, &a.taken) {
                let ask = match taken.clone() {
                    Ask::Wild(_, flow) => Ask::Wild(None, flow),
                    other => other,
                };
                let err = self.spec(a.iface, false, 0, 0);
                let body = Body::ResvConf {
                    err,
                    confirm: a.confirm,
                    ask,
                };
                let message = Message {
                    session: a.session,
                    hop: (0, 0),
                    body,
                };
                confs.push(((a.iface, a.hop), message));
            }
        }
        confs.sort_by_key(|c| c.0);
        out.extend(confs.into_iter().map(|(hop, message)| Send {
            iface: hop.0,
            dst: hop.1,
            message,
        }));
        // Offers that are new, or due.
        for (i, s) in touched.iter().enumerate() {
            let due = fired.binary_search(s).is_ok();
            for o in &after[i] {
                let ways = self.ways(*s, o.0);
                let was = before[i].iter().find(|b| b.0 == o.0);
                let old = was.map_or(0, |_| old_ways(self, *s, o.0));
                for iface in 0..self.ifaces.len() as u8 {
                    if ways >> iface & 1 == 0 {
                        continue;
                    }
                    let by = self.ifaces[iface as usize];
                    let told = o.3.told(&by);
                    let same = old >> iface & 1 == 1
                        && was.is_some_and(|b| b.1 == o.1 && b.3.told(&by) == told);
                    if due || !same {
                        let body = Body::Path {
                            police: o.2,
                            period: self.period as u32,
                            sender: Some((o.0, o.1)),
                            advert: told,
                        };
                        out.push(self.to_group(*s, iface, body));
                    }
                }
            }
        }
        // Requests that changed, or are due.
        let mut used: BTreeSet<(Session, Unit)> = BTreeSet::new();
        for lane in lanes {
            let new = is_new(&lane);
            let (s, style, hop, _, now, marks) = lane;
            let due = fired.binary_search(&s).is_ok();
            if let (true, Some(ask)) = (new || due, Node::ask_of(style, &now)) {
                let confirm = match (&asked, new) {
                    (_, false) => None,
                    (Some(a), true) => Some(a.confirm),
                    (None, true) if marks.is_empty() => None,
                    (None, true) => {
                        used.extend(marks.iter().map(|u| (s, *u)));
                        Some(self.own(hop.0))
                    }
                };
                let body = Body::Resv {
                    period: self.period as u32,
                    confirm,
                    ask,
                };
                out.push(self.to_hop(s, hop, body));
            }
            if !now.is_empty() {
                self.said.insert((s, style, hop), now);
            }
        }
        for key in used {
            self.wants.get_mut(&key).unwrap().confirm = false;
        }
    }

    pub fn to_group(&self, session: Session, iface: u8, body: Body) -> Send {
        Send {
            iface,
            dst: session.group,
            message: Message {
                session,
                hop: (self.own(iface), 0),
                body,
            },
        }
    }

    pub fn to_hop(&self, session: Session, hop: Hop, body: Body) -> Send {
        let first = self.via(session, hop).first().copied();
        let handle = first.map_or(0, |x| self.paths[&(session, x)].hop.1);
        Send {
            iface: hop.0,
            dst: hop.1,
            message: Message {
                session,
                hop: (self.own(hop.0), handle),
                body,
            },
        }
    }

    pub fn spec(&self, iface: u8, in_place: bool, code: u8, value: u16) -> ErrSpec {
        ErrSpec {
            node: self.own(iface),
            in_place,
            not_guilty: false,
            code,
            value,
        }
    }

    // ---- inputs
    pub fn local(&mut self, session: Session, act: impl FnOnce(&mut Node), out: &mut Vec<Send>) {
        let before = self.before(&[session]);
        act(self);
        self.settle(&[session], &before);
        self.tell(
            &[session],
            &before,
            vec![],
            vec![],
            &[],
            &[session].into(),
            None,
            out,
        );
    }

    pub fn wait(&mut self, ms: u64, word: u32, out: &mut Vec<Send>) {
        self.clock += ms;
        let now = self.clock;
        let mut fired = Vec::new();
        for (s, at) in &mut self.due {
            if *at <= now {
                *at += self.period / 2 + u64::from(word) % (self.period + 1);
                fired.push(*s);
            }
        }
        let mut touched = BTreeSet::new();
        touched.extend(self.paths.iter().filter(|e| e.1.dies <= now).map(|e| e.0.0));
        touched.extend(self.walls.iter().filter(|e| e.1.dies <= now).map(|e| e.0.0));
        for table in &self.resvs {
            touched.extend(table.iter().filter(|e| e.1.dies <= now).map(|e| e.0.0));
        }
        let changed = touched.clone();
        touched.extend(&fired);
        if touched.is_empty() {
            return;
        }
        let touched: Vec<Session> = touched.into_iter().collect();
        let before = self.before(&touched);
        self.paths.retain(|_, p| p.dies > now);
        self.walls.retain(|_, w| w.dies > now);
        for table in &mut self.resvs {
            table.retain(|_, r| r.dies > now);
        }
        self.settle(&touched, &before);
        self.tell(
            &touched,
            &before,
            vec![],
            vec![],
            &fired,
            &changed,
            None,
            out,
        );
    }

    // Left-over state asked for what it asks for: only what changes from here on is sent.
    pub fn remember(&mut self) {
        for s in self.sessions() {
            for hop in self.hops(s) {
                for style in STYLES {
                    let now = Node::toward(&self.requests(s, style, hop));
                    if !now.is_empty() {
                        self.said.insert((s, style, hop), now);
                    }
                }
            }
        }
    }

    pub fn clear(&mut self) {
        self.paths.clear();
        self.walls.clear();
        self.said.clear();
        self.due.clear();
        self.resvs.iter_mut().for_each(BTreeMap::clear);
        let sessions: BTreeSet<Session> = self.senders.keys().map(|k| k.0).collect();
        for s in sessions {
            self.due.insert(s, self.clock + self.period);
        }
    }

    pub fn sessions(&self) -> Vec<Session> {
        let own = self.senders.keys().map(|k| k.0);
        let far = self.paths.keys().map(|k| k.0);
        let all: BTreeSet<Session> = own.chain(far).collect();
        all.into_iter().collect()
    }

    pub fn reroute(
        &mut self,
        routes: HashMap<(Addr, Addr), (Option<u8>, u16)>,
        out: &mut Vec<Send>,
    ) {
        let touched = self.sessions();
        let before = self.before(&touched);
        self.old = Some(std::mem::replace(&mut self.routes, routes));
        let changed = touched.iter().copied().collect();
        self.tell(&touched, &before, vec![], vec![], &[], &changed, None, out);
        self.old = None;
    }

    // Bytes that spell no message. Some faults of a Path or a Resv are answered.
    pub fn refuse(
        &self,
        iface: u8,
        dst: Addr,
        b: &[u8],
        fault: Fault,
        out: &mut Vec<Send>,
    ) -> Heard {
        let hint = hint(b);
        let (Some((code, value)), Some(session), Some(hop)) = (fault.0, hint.session, hint.hop)
        else {
            return Heard::Dropped("Unspelt");
        };
        let err = self.spec(iface, false, code, value);
        let (right, body) = match (b[1], hint.style) {
            (1, _) => (
                session.group,
                Body::PathErr {
                    err,
                    sender: hint.sender,
                },
            ),
            (2, Some(style)) => {
                let blame = Blame {
                    style,
                    names: None,
                    flow: None,
                };
                (self.own(iface), Body::ResvErr { err, blame })
            }
            _ => return Heard::Dropped("Unspelt"),
        };
        if dst != right {
            return Heard::Dropped("Unspelt");
        }
        let message = Message {
            session,
            hop: (self.own(iface), 0),
            body,
        };
        out.push(Send {
            iface,
            dst: hop.0,
            message,
        });
        Heard::Answered(code, value)
    }

    pub fn arrive(&mut self, iface: u8, dst: Addr, m: &Message, out: &mut Vec<Send>) -> Heard {
        let to_group = matches!(m.body, Body::Path { .. } | Body::PathTear { .. });
        let right = if to_group {
            m.session.group
        } else {
            self.own(iface)
        };
        if dst != right {
            return Heard::Dropped("NotMine");
        }
        let s = m.session;
        let touched = [s];
        if self.is_refreshed(iface, m) {
            return Heard::Taken;
        }
        let before = self.before(&touched);
        let (mut errors, mut confs, mut asked) = (vec![], vec![], None);
        let heard = match &m.body {
            Body::Path {
                police,
                period,
                sender,
                advert,
            } => self.path(s, iface, m.hop, *police, *period, sender, advert),
            Body::PathTear { sender } => match sender {
                None => Heard::Dropped("NoSender"),
                Some(x) => match self.paths.get(&(s, *x)) {
                    Some(p) if p.iface == iface && p.hop.0 == m.hop.0 => {
                        self.paths.remove(&(s, *x));
                        Heard::Taken
                    }
                    _ => Heard::Dropped("NoState"),
                },
            },
            Body::Resv {
                period,
                confirm,
                ask,
            } => {
                let (heard, taken) = self.resv(
                    s,
                    iface,
                    m.hop.0,
                    self.life(*period),
                    *confirm,
                    ask,
                    &mut errors,
                );
                asked = confirm.map(|confirm| Asked {
                    session: s,
                    confirm,
                    iface,
                    hop: m.hop.0,
                    taken: Node::ask_of(ask.style(), &taken),
                });
                heard
            }
            Body::ResvTear { style, names } => self.resv_tear(s, iface, m.hop.0, *style, names),
            Body::PathErr { sender, .. } => match sender {
                None => Heard::Dropped("NoSender"),
                Some(x) if !self.goes_out(s, iface, *x) => Heard::Dropped("NotOutward"),
                Some(x) if self.senders.contains_key(&(s, *x)) => Heard::Taken,
                Some(x) => match self.paths.get(&(s, *x)) {
                    None => Heard::Dropped("NoState"),
                    Some(p) => {
                        errors.push(Error {
                            iface: p.iface,
                            dst: p.hop.0,
                            first: Some(*x),
                            message: m.clone(),
                        });
                        Heard::Taken
                    }
                },
            },
            Body::ResvErr { err, blame } => {
                self.resv_err(s, (iface, m.hop.0), err, blame, &mut errors)
            }
            Body::ResvConf { confirm, ask, .. } => self.resv_conf(s, *confirm, ask, m, &mut confs),
        };
        if matches!(heard, Heard::Dropped(_)) && errors.is_empty() && confs.is_empty() {
            // A unit that was left out may stand beside others that were taken.
            if !matches!(m.body, Body::Resv { .. }) {
                return heard;
            }
        }
        self.settle(&touched, &before);
        self.tell(
            &touched,
            &before,
            errors,
            confs,
            &[],
            &[s].into(),
            asked,
            out,
        );
        heard
    }

    // A Path or a Resv that says what is kept already: it lives longer, and nothing else changes.
    pub fn is_refreshed(&mut self, iface: u8, m: &Message) -> bool {
        let (s, clock) = (m.session, self.clock);
        match &m.body {
            Body::Path {
                police,
                period,
                sender: Some((x, tspec)),
                advert,
            } => {
                let life = self.life(*period);
                let Some(p) = self.paths.get_mut(&(s, *x)) else {
                    return false;
                };
                let same = (p.iface, p.hop, p.police) == (iface, m.hop, *police)
                    && p.tspec == *tspec
                    && p.advert == *advert;
                let inward = self.routes.get(&(s.group, x.addr)).and_then(|r| r.0);
                if same && inward == Some(iface) {
                    p.dies = clock + life;
                    return true;
                }
                false
            }
            Body::Resv {
                period,
                confirm: None,
                ask,
            } => {
                let hop = (iface, m.hop.0);
                let dies = clock + self.life(*period);
                let units: Vec<(Unit, Part)> = match ask {
                    Ask::Wild(Some(names), flow) => vec![(
                        None,
                        Part {
                            names: *names,
                            flow: *flow,
                        },
                    )],
                    Ask::Wild(None, _) => return false,
                    Ask::Fixed(list) => list
                        .iter()
                        .map(|(x, flow)| {
                            let names = Names::of(&[*x]);
                            (Some(*x), Part { names, flow: *flow })
                        })
                        .collect(),
                    Ask::Shared(part) => vec![(None, *part)],
                };
                let style = ask.style();
                if self.other_style(s, style).is_some() {
                    return false;
                }
                let are_same = units.iter().all(|(unit, part)| {
                    let kept = self.resvs[style.number()].get(&(s, hop, *unit));
                    kept.is_some_and(|r| r.part == *part)
                        && part.names.slice().iter().all(|n| match style {
                            Style::Wild => self
                                .known(s)
                                .iter()
                                .any(|x| x.addr == n.addr && self.goes_out(s, iface, *x)),
                            _ => self.goes_out(s, iface, *n),
                        })
                });
                if !are_same {
                    return false;
                }
                for (unit, _) in units {
                    let r = self.resvs[style.number()].get_mut(&(s, hop, unit)).unwrap();
                    r.dies = dies;
                }
                true
            }
            _ => false,
        }
    }

    #[allow(clippy::too_many_arguments)]
    pub fn path(
        &mut self,
        s: Session,
        iface: u8,
        hop: (Addr, u32),
        police: bool,
        period: u32,
        sender: &Option<(Sender, Flow)>,
        advert: &Option<Advert>,
    ) -> Heard {
        let Some((x, tspec)) = *sender else {
            return Heard::Dropped("NoSender");
        };
        let inward = self.routes.get(&(s.group, x.addr)).and_then(|r| r.0);
        if inward != Some(iface) {
            return Heard::Dropped("NotInward");
        }
        if !self.paths.contains_key(&(s, x)) {
            let sessions: BTreeSet<Session> = self.paths.keys().map(|k| k.0).collect();
            let of_it = self.paths.range((s, LEAST)..=(s, MOST)).count();
            if of_it >= 16 || (!sessions.contains(&s) && sessions.len() >= 32) {
                return Heard::Dropped("Full");
            }
        }
        let dies = self.clock + self.life(period);
        let path = Path {
            iface,
            hop,
            tspec,
            police,
            advert: advert.clone(),
            dies,
        };
        self.paths.insert((s, x), path);
        Heard::Taken
    }

    pub fn refusal(
        &self,
        s: Session,
        hop: Hop,
        style: Style,
        err: ErrSpec,
        names: Option<Names>,
        flow: Flow,
    ) -> Error {
        Error {
            iface: hop.0,
            dst: hop.1,
            first: names.and_then(|n| n.slice().first().copied()),
            message: Message {
                session: s,
                hop: (self.own(hop.0), 0),
                body: Body::ResvErr {
                    err,
                    blame: Blame {
                        style,
                        names,
                        flow: Some(flow),
                    },
                },
            },
        }
    }

    // The first other style of which the session has a reservation or a local want.
    fn other_style(&self, s: Session, style: Style) -> Option<Style> {
        let is_reserved = |st: Style| {
            self.resvs[st.number()]
                .range(resv_range(s))
                .next()
                .is_some()
        };
        let is_wanted = |st: Style| {
            self.wants
                .range((s, None)..=(s, Some(MOST)))
                .any(|w| w.1.style == st)
        };
        STYLES
            .into_iter()
            .find(|st| *st != style && (is_reserved(*st) || is_wanted(*st)))
    }

    #[allow(clippy::too_many_arguments)]
    pub fn resv(
        &mut self,
        s: Session,
        iface: u8,
        next: Addr,
        life: u64,
        confirm: Option<Addr>,
        ask: &Ask,
        errors: &mut Vec<Error>,
    ) -> (Heard, Parts) {
        let style = ask.style();
        let hop = (iface, next);
        let units: Vec<(Option<Names>, Flow)> = match ask {
            Ask::Wild(scope, flow) => vec![(*scope, *flow)],
            Ask::Fixed(list) => list
                .iter()
                .map(|(x, f)| (Some(Names::of(&[*x])), *f))
                .collect(),
            Ask::Shared(part) => vec![(Some(part.names), part.flow)],
        };
        let mut taken = Parts::new();
        let mut left_out = false;
        let known = self.known(s);
        let other = self.other_style(s, style);
        let refused = match (known.is_empty(), other) {
            (true, _) => Some((3, 0)),
            (false, Some(st)) => Some((5, u16::from(st.vector()))),
            _ => None,
        };
        if let Some((code, value)) = refused {
            for (names, flow) in units {
                let err = self.spec(iface, false, code, value);
                errors.push(self.refusal(s, hop, style, err, names, flow));
            }
        } else {
            let mut matched = Vec::new();
            for x in known {
                if self.goes_out(s, iface, x) {
                    matched.push(style.name(x));
                }
            }
            matched.sort();
            matched.dedup();
            for (names, flow) in units {
                let fit = match &names {
                    Some(n) => n.filter(|x| matched.contains(&x)),
                    None => Names::of(&matched),
                };
                let lost = match (style, &names) {
                    (Style::Wild, n) => fit.is_empty().then_some(*n),
                    (_, Some(n)) => {
                        let lost = n.filter(|x| !matched.contains(&x));
                        (!lost.is_empty()).then_some(Some(lost))
                    }
                    (_, None) => None,
                };
                if let Some(names) = lost {
                    let err = self.spec(iface, false, 4, 0);
                    errors.push(self.refusal(s, hop, style, err, names, flow));
                }
                if fit.is_empty() {
                    continue;
                }
                let part = Part { names: fit, flow };
                let unit = unit_of(style, &fit);
                let key = (s, hop, unit);
                if fit.len > 16 || !self.fits(style, key, &part) {
                    left_out = true;
                    continue;
                }
                match self.admit(iface, style, key, &flow) {
                    Some(value) => {
                        let there = self.resvs[style.number()]
                            .range(resv_range(s))
                            .any(|e| e.0.1.0 == iface && e.0.2 == unit);
                        let err = self.spec(iface, there, 1, value);
                        errors.push(self.refusal(s, hop, style, err, Some(fit), flow));
                    }
                    None => {
                        let dies = self.clock + life;
                        let table = &mut self.resvs[style.number()];
                        let kept = table.get(&key).and_then(|r| r.confirm);
                        let confirm = confirm.or(kept);
                        let fact = Resv {
                            part,
                            confirm,
                            dies,
                        };
                        table.insert(key, fact);
                        taken.push((unit, part));
                    }
                }
            }
        }
        let first = errors.iter().min_by_key(|e| (e.iface, e.dst, e.first));
        let heard = match first.map(|e| &e.message.body) {
            Some(Body::ResvErr { err, .. }) => Heard::Answered(err.code, err.value),
            _ if left_out => Heard::Dropped("Full"),
            _ => Heard::Taken,
        };
        (heard, taken)
    }

    pub fn fits(&self, style: Style, key: ResvKey, part: &Part) -> bool {
        let table = &self.resvs[style.number()];
        let is_new = !table.contains_key(&key);
        if is_new && table.len() >= 1024 {
            return false;
        }
        let (mut hops, mut names) = (BTreeSet::from([key.1]), BTreeSet::<Sender>::new());
        names.extend(part.names.slice());
        let mut any = false;
        for (k, r) in table.range(resv_range(key.0)) {
            any = true;
            hops.insert(k.1);
            if *k != key {
                names.extend(r.part.names.slice());
            }
        }
        if !any {
            let sessions: BTreeSet<Session> = table.keys().map(|k| k.0).collect();
            if sessions.len() >= 32 {
                return false;
            }
        }
        hops.len() <= 64 && names.len() <= 16
    }

    // Why the interface refuses the flow with those of the other next hops: 3 for the packet size, 2 for the rate.
    pub fn admit(&self, iface: u8, style: Style, key: ResvKey, flow: &Flow) -> Option<u16> {
        let mut entry = *flow;
        for (k, r) in self.resvs[style.number()].range(resv_range(key.0)) {
            if k.1.0 == iface && k.2 == key.2 && *k != key {
                entry = entry.join(&r.part.flow);
            }
        }
        let on = self.ifaces[iface as usize];
        if entry.most > on.mtu {
            return Some(3);
        }
        let mut others = 0;
        for (s, st, unit, part) in self.entries(iface) {
            if (s, st, unit) != (key.0, style, key.2) {
                others += part.flow.r;
            }
        }
        (entry.r > on.capacity - others).then_some(2)
    }

    pub fn resv_tear(
        &mut self,
        s: Session,
        iface: u8,
        next: Addr,
        style: Style,
        names: &Option<Names>,
    ) -> Heard {
        let gone = |x: Sender| names.is_none_or(|n| n.has(x));
        let table = &mut self.resvs[style.number()];
        let keys: Vec<ResvKey> = table
            .range(resv_range(s))
            .filter(|e| e.0.1 == (iface, next) && e.1.part.names.slice().iter().any(|x| gone(*x)))
            .map(|e| *e.0)
            .collect();
        if keys.is_empty() {
            return Heard::Dropped("NoState");
        }
        for key in keys {
            let r = table.get_mut(&key).unwrap();
            r.part.names = r.part.names.filter(|x| !gone(x));
            if r.part.names.is_empty() {
                table.remove(&key);
            }
        }
        Heard::Taken
    }

    pub fn resv_err(
        &mut self,
        s: Session,
        hop: Hop,
        err: &ErrSpec,
        blame: &Blame,
        errors: &mut Vec<Error>,
    ) -> Heard {
        let style = blame.style;
        if self.via(s, hop).is_empty() {
            return Heard::Dropped("NoState");
        }
        if let (1, 2 | 3, Some(flow)) = (err.code, err.value, blame.flow) {
            let targets: Vec<(Session, Target)> = match style {
                Style::Wild => vec![(s, Target::Hop(hop.0, hop.1))],
                _ => {
                    let names = blame.names.unwrap_or(Names::new());
                    names
                        .slice()
                        .iter()
                        .map(|x| (s, Target::Sender(*x)))
                        .collect()
                }
            };
            let new = targets
                .iter()
                .filter(|t| !self.walls.contains_key(t))
                .count();
            if self.walls.len() + new > 512 {
                return Heard::Dropped("Full");
            }
            for t in targets {
                let wall = Wall {
                    flow,
                    sub: err.value,
                    dies: self.clock + 4 * self.period,
                };
                self.walls.insert(t, wall);
            }
        }
        let via: Vec<Sender> = self.via(s, hop);
        let only_blockaded = err.in_place && err.code == 1 && blame.flow.is_some();
        let mut told: BTreeMap<Hop, Error> = BTreeMap::new();
        for (key, r) in self.resvs[style.number()].range(resv_range(s)) {
            if only_blockaded {
                let names = r.part.names.filter(|n| {
                    via.iter()
                        .any(|x| style.name(*x) == n && self.goes_out(s, key.1.0, *x))
                });
                let cut = Part {
                    names,
                    flow: r.part.flow,
                };
                if names.is_empty() || !self.is_blockaded(s, style, hop, &cut) {
                    continue;
                }
            }
            let names = match (style, &blame.names) {
                (_, Some(n)) => {
                    let cut = r.part.names.filter(|x| n.has(x));
                    if cut.is_empty() {
                        continue;
                    }
                    Some(cut)
                }
                (Style::Wild, None) => Some(r.part.names),
                (_, None) => None,
            };
            let message = Message {
                session: s,
                hop: (self.own(key.1.0), 0),
                body: Body::ResvErr {
                    err: *err,
                    blame: Blame {
                        style,
                        names,
                        flow: blame.flow,
                    },
                },
            };
            let error = Error {
                iface: key.1.0,
                dst: key.1.1,
                first: names.and_then(|n| n.slice().first().copied()),
                message,
            };
            told.insert(key.1, error);
        }
        errors.extend(told.into_values());
        Heard::Taken
    }

    pub fn resv_conf(
        &self,
        s: Session,
        confirm: Addr,
        ask: &Ask,
        m: &Message,
        confs: &mut Vec<(Hop, Message)>,
    ) -> Heard {
        if self.is_own(confirm) {
            return Heard::Taken;
        }
        let style = ask.style();
        for (key, r) in self.resvs[style.number()].range(resv_range(s)) {
            let speaks = match ask {
                Ask::Wild(..) => true,
                Ask::Fixed(list) => list.iter().any(|e| r.part.names.has(e.0)),
                Ask::Shared(part) => part.names.slice().iter().any(|x| r.part.names.has(*x)),
            };
            if r.confirm == Some(confirm) && speaks && confs.iter().all(|c| c.0 != key.1) {
                confs.push((key.1, m.clone()));
            }
        }
        if confs.is_empty() {
            Heard::Dropped("NoState")
        } else {
            Heard::Taken
        }
    }
}
