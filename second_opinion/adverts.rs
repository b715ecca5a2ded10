//! What a Path tells of the path of its sender (RFC 2210, 3.3), and what a router makes of it (RFC 2215, 3).
use crate::messages::{Writer, be16, be32, rate_of, rate_word};
use crate::router::Iface;
use crate::values::INFINITE;
use std::fmt;

const BROKEN: u32 = 1 << 23;

#[derive(Clone, PartialEq, Debug)]
pub struct Advert {
    pub broken: bool,
    pub hops: u32,
    pub rate: u64,
    pub latency: u32,
    pub mtu: u32,
    // Of controlled load, where it is told of.
    pub load: Option<bool>,
    // Whole fragments of other services.
    pub others: Vec<u32>,
}

// Where what is told of a sender's path comes from.
#[derive(Clone, PartialEq)]
pub enum Source {
    // Nothing is told.
    Silent,
    // It begins here: an advertised local sender.
    Begins,
    // It came with the Path.
    Passes(Advert),
}

// The largest rate that is no larger: 24 bits from the highest one on, and less than 2^46.
pub fn rate_below(n: u64) -> u64 {
    let cut = 40u32.saturating_sub(n.leading_zeros());
    ((n >> cut) << cut).min((1 << 46) - (1 << 22))
}

impl Advert {
    // What contents of an ADSPEC say; none where they are of another form.
    pub fn read(c: &[u8]) -> Option<Advert> {
        if c.len() < 40 || c[0] >> 4 != 0 || 4 + 4 * be16(c, 2) as usize != c.len() {
            return None;
        }
        let heads = [(4, 1, 8), (8, 4, 1), (16, 6, 1), (24, 8, 1), (32, 10, 1)];
        if heads.iter().any(|h| c[h.0] != h.1 || be16(c, h.0 + 2) != h.2) {
            return None;
        }
        let mut advert = Advert {
            broken: be32(c, 4) & BROKEN != 0,
            hops: be32(c, 12),
            rate: rate_of(be32(c, 20))?,
            latency: be32(c, 28),
            mtu: be32(c, 36),
            load: None,
            others: vec![],
        };
        let words: Vec<u32> = (10..c.len() / 4).map(|k| be32(c, 4 * k)).collect();
        let mut rest = &words[..];
        while let Some(head) = rest.first() {
            let (service, len) = (head >> 24, (head & 0xffff) as usize);
            match (service, len, advert.load) {
                (1, ..) => return None,
                (5, 0, None) => advert.load = Some(head & BROKEN != 0),
                (5, ..) => return None,
                _ => advert.others.extend(rest.get(..=len)?),
            }
            rest = &rest[1 + len..];
        }
        (advert.others.len() <= 24).then_some(advert)
    }

    pub fn write(&self, w: &mut Writer) {
        let words = 9 + u16::from(self.load.is_some()) + self.others.len() as u16;
        let bit = |is: bool| if is { BROKEN } else { 0 };
        w.head(8 + 4 * words, 13, 2);
        w.word(u32::from(words));
        w.word(1 << 24 | bit(self.broken) | 8);
        for (parameter, value) in [
            (4, self.hops),
            (6, rate_word(self.rate)),
            (8, self.latency),
            (10, self.mtu),
        ] {
            w.word(parameter << 24 | 1);
            w.word(value);
        }
        if let Some(is) = self.load {
            w.word(5 << 24 | bit(is));
        }
        for word in &self.others {
            w.word(*word);
        }
    }

    // What the node of the sender tells by an interface.
    pub fn begun(by: &Iface) -> Advert {
        Advert {
            broken: false,
            hops: 1,
            rate: rate_below(by.capacity),
            latency: by.latency,
            mtu: by.mtu,
            load: Some(false),
            others: vec![],
        }
    }

    // What goes on of it by an interface.
    pub fn passed(&self, by: &Iface) -> Advert {
        let mut others = self.others.clone();
        let mut at = 0;
        while at < others.len() {
            others[at] |= BROKEN;
            at += 1 + (others[at] & 0xffff) as usize;
        }
        Advert {
            hops: self.hops.saturating_add(1),
            rate: self.rate.min(rate_below(by.capacity)),
            latency: self.latency.saturating_add(by.latency),
            mtu: self.mtu.min(by.mtu),
            others,
            ..self.clone()
        }
    }
}

impl Source {
    // What is told by an interface.
    pub fn told(&self, by: &Iface) -> Option<Advert> {
        match self {
            Source::Silent => None,
            Source::Begins => Some(Advert::begun(by)),
            Source::Passes(kept) => Some(kept.passed(by)),
        }
    }
}

// The words of a line of `adverts`.
impl fmt::Display for Advert {
    fn fmt(&self, f: &mut fmt::Formatter) -> fmt::Result {
        write!(f, "hops {} rate ", self.hops)?;
        match self.rate {
            INFINITE => write!(f, "inf")?,
            rate => write!(f, "{rate}")?,
        }
        write!(f, " latency {} mtu {}", self.latency, self.mtu)?;
        if self.broken {
            write!(f, " broken")?;
        }
        match self.load {
            None => Ok(()),
            Some(true) => write!(f, " cl broken"),
            Some(false) => write!(f, " cl ok"),
        }
    }
}
