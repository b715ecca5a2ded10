//! The messages of RSVP and their bytes (RFC 2205, 3.1 and appendix A).
use crate::adverts::Advert;
use crate::values::*;

#[derive(Clone, Debug)]
pub enum Ask {
    Wild(Option<Names>, Flow),
    Fixed(Vec<(Sender, Flow)>),
    Shared(Part),
}

impl Ask {
    pub fn style(&self) -> Style {
        match self {
            Ask::Wild(..) => Style::Wild,
            Ask::Fixed(_) => Style::Fixed,
            Ask::Shared(_) => Style::Shared,
        }
    }
}

#[derive(Clone, Copy, Debug)]
pub struct ErrSpec {
    pub node: Addr,
    pub in_place: bool,
    pub not_guilty: bool,
    pub code: u8,
    pub value: u16,
}

#[derive(Clone, Copy, Debug)]
pub struct Blame {
    pub style: Style,
    pub names: Option<Names>,
    pub flow: Option<Flow>,
}

#[derive(Clone, Debug)]
pub enum Body {
    Path {
        police: bool,
        period: u32,
        sender: Option<(Sender, Flow)>,
        advert: Option<Advert>,
    },
    Resv {
        period: u32,
        confirm: Option<Addr>,
        ask: Ask,
    },
    PathErr {
        err: ErrSpec,
        sender: Option<Sender>,
    },
    ResvErr {
        err: ErrSpec,
        blame: Blame,
    },
    PathTear {
        sender: Option<Sender>,
    },
    ResvTear {
        style: Style,
        names: Option<Names>,
    },
    ResvConf {
        err: ErrSpec,
        confirm: Addr,
        ask: Ask,
    },
}

#[derive(Clone, Debug)]
pub struct Message {
    pub session: Session,
    pub hop: (Addr, u32),
    pub body: Body,
}

impl Message {
    pub fn kind(&self) -> &'static str {
        match self.body {
            Body::Path { .. } => "Path",
            Body::Resv { .. } => "Resv",
            Body::PathErr { .. } => "PathErr",
            Body::ResvErr { .. } => "ResvErr",
            Body::PathTear { .. } => "PathTear",
            Body::ResvTear { .. } => "ResvTear",
            Body::ResvConf { .. } => "ResvConf",
        }
    }
}

pub fn rate_word(rate: u64) -> u32 {
    if rate == INFINITE {
        0x7f80_0000
    } else {
        (rate as f32).to_bits()
    }
}

pub fn rate_of(word: u32) -> Option<u64> {
    let value = f32::from_bits(word);
    if word == 0x7f80_0000 {
        return Some(INFINITE);
    }
    if word >> 31 == 1
        || !value.is_finite()
        || value.fract() != 0.0
        || value >= 70_368_744_177_664.0
    {
        return None;
    }
    Some(value as u64)
}

pub struct Writer<'a> {
    pub out: &'a mut Vec<u8>,
}

impl Writer<'_> {
    pub fn head(&mut self, len: u16, class: u8, ctype: u8) {
        self.out.extend_from_slice(&len.to_be_bytes());
        self.out.extend_from_slice(&[class, ctype]);
    }

    pub fn word(&mut self, w: u32) {
        self.out.extend_from_slice(&w.to_be_bytes());
    }

    pub fn session(&mut self, s: Session, police: bool) {
        self.head(12, 1, 1);
        self.word(s.group);
        self.out.extend_from_slice(&[s.proto, u8::from(police)]);
        self.out.extend_from_slice(&s.port.to_be_bytes());
    }

    pub fn hop(&mut self, hop: (Addr, u32)) {
        self.head(12, 3, 1);
        self.word(hop.0);
        self.word(hop.1);
    }

    pub fn time(&mut self, period: u32) {
        self.head(8, 5, 1);
        self.word(period);
    }

    pub fn error(&mut self, err: &ErrSpec) {
        self.head(12, 6, 1);
        self.word(err.node);
        let flags = u8::from(err.in_place) | u8::from(err.not_guilty) << 1;
        self.out.extend_from_slice(&[flags, err.code]);
        self.out.extend_from_slice(&err.value.to_be_bytes());
    }

    pub fn scope(&mut self, names: &Names) {
        self.head(4 + 4 * u16::from(names.len), 7, 1);
        for s in names.slice() {
            self.word(s.addr);
        }
    }

    pub fn style(&mut self, style: Style) {
        self.head(8, 8, 1);
        self.word(u32::from(style.vector()));
    }

    pub fn flow(&mut self, class: u8, service: u32, f: &Flow) {
        self.head(36, class, 2);
        self.word(7);
        self.word(service << 24 | 6);
        self.word(0x7f00_0005);
        self.word(rate_word(f.r));
        self.word(rate_word(f.b));
        self.word(rate_word(f.p));
        self.word(f.low);
        self.word(f.most);
    }

    pub fn sender(&mut self, class: u8, s: Sender) {
        self.head(12, class, 1);
        self.word(s.addr);
        self.word(u32::from(s.port));
    }

    pub fn ask(&mut self, ask: &Ask) {
        if let Ask::Wild(Some(scope), _) = ask {
            self.scope(scope);
        }
        self.style(ask.style());
        match ask {
            Ask::Wild(_, flow) => self.flow(9, 5, flow),
            Ask::Fixed(list) => {
                for (s, flow) in list {
                    self.flow(9, 5, flow);
                    self.sender(10, *s);
                }
            }
            Ask::Shared(part) => {
                self.flow(9, 5, &part.flow);
                for s in part.names.slice() {
                    self.sender(10, *s);
                }
            }
        }
    }
}

pub fn sum(bytes: &[u8]) -> u16 {
    let mut all = 0u64;
    for pair in bytes.chunks(2) {
        all += u64::from(u16::from_be_bytes([pair[0], *pair.get(1).unwrap_or(&0)]));
    }
    while all >> 16 != 0 {
        all = (all & 0xffff) + (all >> 16);
    }
    all as u16
}

pub fn encode(m: &Message, out: &mut Vec<u8>) {
    out.clear();
    out.extend_from_slice(&[0x10, 0, 0, 0, 0x40, 0, 0, 0]);
    let mut w = Writer { out };
    let kind = match &m.body {
        Body::Path {
            police,
            period,
            sender,
            advert,
        } => {
            w.session(m.session, *police);
            w.hop(m.hop);
            w.time(*period);
            if let Some((s, flow)) = sender {
                w.sender(11, *s);
                w.flow(12, 1, flow);
            }
            if let Some(advert) = advert {
                advert.write(&mut w);
            }
            1
        }
        Body::Resv {
            period,
            confirm,
            ask,
        } => {
            w.session(m.session, false);
            w.hop(m.hop);
            w.time(*period);
            if let Some(addr) = confirm {
                w.head(8, 15, 1);
                w.word(*addr);
            }
            w.ask(ask);
            2
        }
        Body::PathErr { err, sender } => {
            w.session(m.session, false);
            w.error(err);
            if let Some(s) = sender {
                w.sender(11, *s);
            }
            3
        }
        Body::ResvErr { err, blame } => {
            w.session(m.session, false);
            w.hop(m.hop);
            w.error(err);
            if let (Style::Wild, Some(scope)) = (blame.style, &blame.names) {
                w.scope(scope);
            }
            w.style(blame.style);
            if let Some(flow) = &blame.flow {
                w.flow(9, 5, flow);
                if blame.style != Style::Wild {
                    for s in blame.names.unwrap_or(Names::new()).slice() {
                        w.sender(10, *s);
                    }
                }
            }
            4
        }
        Body::PathTear { sender } => {
            w.session(m.session, false);
            w.hop(m.hop);
            if let Some(s) = sender {
                w.sender(11, *s);
            }
            5
        }
        Body::ResvTear { style, names } => {
            w.session(m.session, false);
            w.hop(m.hop);
            if let (Style::Wild, Some(scope)) = (style, names) {
                w.scope(scope);
            }
            w.style(*style);
            if *style != Style::Wild {
                for s in names.unwrap_or(Names::new()).slice() {
                    w.sender(10, *s);
                }
            }
            6
        }
        Body::ResvConf { err, confirm, ask } => {
            w.session(m.session, false);
            w.error(err);
            w.head(8, 15, 1);
            w.word(*confirm);
            w.ask(ask);
            7
        }
    };
    out[1] = kind;
    let len = (out.len() as u16).to_be_bytes();
    out[6..8].copy_from_slice(&len);
    let check = !sum(out);
    out[2..4].copy_from_slice(&check.to_be_bytes());
}

pub fn be32(b: &[u8], at: usize) -> u32 {
    u32::from_be_bytes([b[at], b[at + 1], b[at + 2], b[at + 3]])
}

pub fn be16(b: &[u8], at: usize) -> u16 {
    u16::from_be_bytes([b[at], b[at + 1]])
}

pub fn read_flow(b: &[u8], service: u8) -> Option<Flow> {
    if b.len() != 32 || b[0] >> 4 != 0 || be16(b, 2) != 7 || b[4] != service || be16(b, 6) != 6 {
        return None;
    }
    if b[8] != 127 || be16(b, 10) != 5 {
        return None;
    }
    let flow = Flow {
        r: rate_of(be32(b, 12))?,
        b: rate_of(be32(b, 16))?,
        p: rate_of(be32(b, 20))?,
        low: be32(b, 24),
        most: be32(b, 28),
    };
    let fine = flow.r >= 1
        && flow.b >= 1
        && flow.r != INFINITE
        && flow.b != INFINITE
        && flow.low >= 1
        && flow.most >= 1;
    fine.then_some(flow)
}

// The C-Type of a class that is read.
pub fn c_type(class: u8) -> Option<u8> {
    match class {
        1 | 3 | 5..=8 | 10 | 11 | 15 => Some(1),
        9 | 12 => Some(2),
        _ => None,
    }
}

pub fn style_of(contents: &[u8]) -> Option<Style> {
    match contents[3] & 31 {
        0x11 => Some(Style::Wild),
        0x0a => Some(Style::Fixed),
        0x12 => Some(Style::Shared),
        _ => None,
    }
}

// Whether a kind of message has a place for a class: once at most, any number of times and unread, or none.
#[derive(Clone, Copy, PartialEq)]
enum Place {
    Once,
    Unread,
    None,
}

fn place_of(kind: u8, class: u8) -> Place {
    let once: &[u8] = match kind {
        1 => &[1, 3, 5, 11, 12, 13],
        2 => &[1, 3, 5, 7, 8, 15],
        3 => &[1, 6, 11],
        4 => &[1, 3, 6, 7, 8],
        5 => &[1, 3, 11],
        6 => &[1, 3, 7, 8],
        _ => &[1, 6, 8, 15],
    };
    match class {
        _ if once.contains(&class) => Place::Once,
        12 | 13 if kind == 3 || kind == 5 => Place::Unread,
        14 => Place::Unread,
        _ => Place::None,
    }
}

// Why bytes spell no message: the error that their first fault has in a Path or a Resv, if it has one.
#[derive(Clone, Copy, PartialEq, Debug)]
pub struct Fault(pub Option<(u8, u16)>);

const OTHER: Fault = Fault(None);

fn fault(code: u8, value: u16) -> Fault {
    Fault(Some((code, value)))
}

// What the objects said so far.
#[derive(Default)]
struct Said {
    classes: u16,
    begun: bool,
    session: Option<Session>,
    police: bool,
    hop: Option<(Addr, u32)>,
    period: Option<u32>,
    error: Option<ErrSpec>,
    scope: Option<Names>,
    style: Option<Style>,
    template: Option<Sender>,
    tspec: Option<Flow>,
    advert: Option<Advert>,
    confirm: Option<Addr>,
    // The last FLOWSPEC, and whether no FILTER_SPEC stood behind it yet.
    flow: Option<Flow>,
    is_open: bool,
    list: Vec<(Sender, Flow)>,
    names: Names,
}

impl Said {
    // Whether an object of this class may stand here. Behind STYLE stands the list alone.
    fn may_stand(&self, kind: u8, class: u8) -> bool {
        let Some(style) = self.style else {
            return match class {
                0 | 128..=255 => true,
                4 => !self.begun,
                _ => place_of(kind, class) != Place::None,
            };
        };
        let is_list = kind == 2 || kind == 7;
        match (class, style) {
            (0 | 128..=255, _) => true,
            (9, _) if kind == 6 => true,
            (9, Style::Fixed) if is_list => !self.is_open,
            (9, _) => (is_list || kind == 4) && self.flow.is_none(),
            (10, Style::Wild) => false,
            (10, _) if kind == 6 => true,
            (10, Style::Fixed) if kind == 4 => self.flow.is_some() && self.names.is_empty(),
            (10, _) => self.flow.is_some(),
            _ => false,
        }
    }

    fn read(&mut self, kind: u8, class: u8, ctype: u8, c: &[u8]) -> Result<(), Fault> {
        let of_class = 256 * u16::from(class) + u16::from(ctype);
        if matches!(class, 2 | 16..=127) {
            return Err(fault(13, of_class));
        }
        if !self.may_stand(kind, class) {
            return Err(OTHER);
        }
        let place = place_of(kind, class);
        if place == Place::Once {
            if self.classes >> class & 1 == 1 {
                return Err(OTHER);
            }
            self.classes |= 1 << class;
        }
        self.begun |= class != 0;
        let skipped = matches!(class, 0 | 4 | 13 | 128..=255) || (kind == 6 && class == 9);
        if place == Place::Unread || skipped {
            if kind == 1 && (class, ctype) == (13, 2) {
                self.advert = Advert::read(c);
            }
            return Ok(());
        }
        if c_type(class) != Some(ctype) {
            return Err(fault(14, of_class));
        }
        let size = match class {
            1 | 3 | 6 | 10 | 11 => 8,
            5 | 8 | 15 => 4,
            _ => c.len(),
        };
        if c.len() != size {
            return Err(OTHER);
        }
        match class {
            1 => {
                self.police = c[5] & 1 == 1;
                self.session = Some(session_in(c));
            }
            3 => self.hop = Some((be32(c, 0), be32(c, 4))),
            5 => self.period = Some(be32(c, 0)),
            6 => {
                self.error = Some(ErrSpec {
                    node: be32(c, 0),
                    in_place: c[4] & 1 == 1,
                    not_guilty: c[4] & 2 == 2,
                    code: c[5],
                    value: be16(c, 6),
                })
            }
            7 => {
                let mut names = Names::new();
                for k in 0..c.len() / 4 {
                    let addr = be32(c, 4 * k);
                    names.add(Sender { addr, port: 0 });
                    if names.len > 16 {
                        return Err(OTHER);
                    }
                }
                self.scope = Some(names);
            }
            8 => self.style = Some(style_of(c).ok_or(OTHER)?),
            9 => {
                if c.len() >= 8 && c[4] != 5 {
                    return Err(fault(21, 2));
                }
                self.flow = Some(read_flow(c, 5).ok_or(fault(21, 3))?);
                self.is_open = true;
            }
            10 => {
                let x = sender_in(c);
                if self.names.has(x) || self.names.len == 16 {
                    return Err(OTHER);
                }
                self.names.add(x);
                self.list.extend(self.flow.map(|flow| (x, flow)));
                self.is_open = false;
            }
            11 => self.template = Some(sender_in(c)),
            12 => self.tspec = Some(read_flow(c, 1).ok_or(fault(21, 4))?),
            _ => self.confirm = Some(be32(c, 0)),
        }
        Ok(())
    }

    // The list of a Resv or a ResvConf.
    fn ask(&mut self) -> Option<Ask> {
        let flow = self.flow?;
        Some(match self.style? {
            Style::Wild => Ask::Wild(self.scope, flow),
            _ if self.is_open => return None,
            Style::Fixed => {
                self.list.sort_by_key(|e| e.0);
                Ask::Fixed(std::mem::take(&mut self.list))
            }
            Style::Shared => Ask::Shared(Part {
                names: self.names,
                flow,
            }),
        })
    }

    // The names of an error that has a flow, or of a tear.
    fn named(&self) -> Option<Names> {
        (!self.names.is_empty()).then_some(self.names)
    }

    // None where something is missing.
    fn body(&mut self, kind: u8) -> Option<Body> {
        let err = self.error;
        Some(match kind {
            1 => Body::Path {
                police: self.police,
                period: self.period?,
                sender: match (self.template, self.tspec) {
                    (Some(x), Some(flow)) => Some((x, flow)),
                    (None, None) => None,
                    _ => return None,
                },
                advert: self.advert.take(),
            },
            2 => Body::Resv {
                period: self.period?,
                confirm: self.confirm,
                ask: self.ask()?,
            },
            3 => Body::PathErr {
                err: err?,
                sender: self.template,
            },
            4 => {
                let style = self.style?;
                let names = match (style, self.flow) {
                    (Style::Wild, _) => self.scope,
                    (_, Some(_)) => Some(self.named()?),
                    _ => None,
                };
                Body::ResvErr {
                    err: err?,
                    blame: Blame {
                        style,
                        names,
                        flow: self.flow,
                    },
                }
            }
            5 => Body::PathTear {
                sender: self.template,
            },
            6 => {
                let style = self.style?;
                let names = match style {
                    Style::Wild => self.scope,
                    _ => Some(self.named()?),
                };
                Body::ResvTear { style, names }
            }
            _ => {
                self.scope = None;
                Body::ResvConf {
                    err: err?,
                    confirm: self.confirm?,
                    ask: self.ask()?,
                }
            }
        })
    }
}

fn session_in(c: &[u8]) -> Session {
    Session {
        group: be32(c, 0),
        proto: c[4],
        port: be16(c, 6),
    }
}

fn sender_in(c: &[u8]) -> Sender {
    Sender {
        addr: be32(c, 0),
        port: be16(c, 6),
    }
}

// The message that bytes spell, or their first fault.
pub fn decode(b: &[u8]) -> Result<Message, Fault> {
    if b.len() > 4096 || b.len() < 8 || b[0] >> 4 != 1 || be16(b, 6) as usize != b.len() {
        return Err(OTHER);
    }
    let kind = b[1];
    if (be16(b, 2) != 0 && sum(b) != 0xffff) || kind == 0 || kind > 7 {
        return Err(OTHER);
    }
    let mut said = Said::default();
    let mut at = 8;
    while let Some((object, next)) = object_at(b, at) {
        said.read(kind, object[2], object[3], &object[4..])?;
        at = next;
    }
    if at < b.len() {
        return Err(OTHER);
    }
    let needs_hop = kind != 3 && kind != 7;
    match (said.session, said.hop, said.body(kind)) {
        (Some(session), hop, Some(body)) if hop.is_some() || !needs_hop => Ok(Message {
            session,
            hop: hop.unwrap_or((0, 0)),
            body,
        }),
        _ => Err(OTHER),
    }
}

// The object at a place, and the place behind it; none at the end, nor where its length is at fault.
fn object_at(b: &[u8], at: usize) -> Option<(&[u8], usize)> {
    if at + 4 > b.len() {
        return None;
    }
    let end = at + be16(b, at) as usize;
    (end >= at + 4 && (end - at).is_multiple_of(4) && end <= b.len()).then(|| (&b[at..end], end))
}

// What bytes that spell no message say of where an answer goes: each the first object of its class that is in order.
#[derive(Default)]
pub struct Hint {
    pub session: Option<Session>,
    pub hop: Option<(Addr, u32)>,
    pub sender: Option<Sender>,
    pub style: Option<Style>,
}

pub fn hint(b: &[u8]) -> Hint {
    let mut hint = Hint::default();
    let mut at = 8;
    while let Some((object, next)) = object_at(b, at) {
        let (class, c) = (object[2], &object[4..]);
        at = next;
        if c_type(class) != Some(object[3]) {
            continue;
        }
        match (class, c.len()) {
            (1, 8) => hint.session = hint.session.or(Some(session_in(c))),
            (3, 8) => hint.hop = hint.hop.or(Some((be32(c, 0), be32(c, 4)))),
            (8, 4) => hint.style = hint.style.or(style_of(c)),
            (11, 8) => hint.sender = hint.sender.or(Some(sender_in(c))),
            _ => {}
        }
    }
    hint
}
