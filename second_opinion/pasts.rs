//! Random networks with random pasts, and calm rounds that do what such rounds may do to keep what is wrong: how many rounds does a network
//! need until it reports its demand? `main pasts HOPS FIRST COUNT` tries seeds, `main past HOPS SEED` writes the script of one.
use crate::network::*;
use crate::router::*;
use crate::script::*;
use std::collections::{BTreeMap, HashSet};
use std::fmt::Write as _;

const HALF: u64 = 15_000;
const LIFE: u64 = 157_500;
const ROOM: u64 = 1_000_000;
const SPARE: [u64; 6] = [0, 10, 50, 99, 150, 200];
const RATES: [u64; 7] = [100, 150, 200, 300, 500, 600, 900];

struct Draw(u64);

impl Draw {
    fn of(seed: u64) -> Draw {
        let mut draw = Draw(seed.wrapping_mul(0x9e37_79b9_7f4a_7c15) | 1);
        for _ in 0..5 {
            draw.below(2);
        }
        draw
    }

    fn below(&mut self, n: u64) -> u64 {
        self.0 ^= self.0 << 13;
        self.0 ^= self.0 >> 7;
        self.0 ^= self.0 << 17;
        (self.0 >> 11) % n
    }

    fn percent(&mut self, p: u64) -> bool {
        self.below(100) < p
    }

    fn one<T: Copy>(&mut self, list: &[T]) -> T {
        list[self.below(list.len() as u64) as usize]
    }
}

fn flow(rate: u64) -> String {
    format!("{rate}/1500/inf/1/1500")
}

// The lines of a network and its past; the ends get their capacities when the demand is known.
#[derive(Default)]
struct Plan {
    seed: u64,
    nodes: Vec<String>,
    ends: Vec<[String; 3]>,
    links: Vec<String>,
    hops: Vec<String>,
    stale: Vec<String>,
    calls: Vec<String>,
}

impl Plan {
    fn end(&mut self, name: &str, node: &str, addr: String) {
        self.ends.push([name.to_string(), node.to_string(), addr]);
    }

    fn hop(&mut self, out: &str, into: &str) {
        self.hops
            .push(format!("hop 239.1.1.1 10.0.1.1 {out} {into}"));
    }

    // A chain. Some links have a guest, to which the tree does not go; some nodes have a leaf beside the chain.
    fn chain(hops: u64, draw: &mut Draw) -> (Plan, Vec<u64>) {
        let mut plan = Plan {
            seed: draw.below(1 << 40),
            ..Plan::default()
        };
        plan.nodes.extend((0..=hops).map(|k| format!("n{k}")));
        let mut guests = Vec::new();
        for k in 0..hops {
            let (here, there) = (format!("n{k}"), format!("n{}", k + 1));
            let (down, up) = (format!("down{k}"), format!("up{}", k + 1));
            plan.end(&down, &here, format!("10.0.{}.1", k + 1));
            plan.end(&up, &there, format!("10.0.{}.2", k + 1));
            let mut link = format!("link {down} {up}");
            plan.hop(&down, &up);
            if draw.percent(40) {
                guests.push(k);
                plan.nodes.push(format!("guest{k}"));
                plan.end(
                    &format!("in{k}"),
                    &format!("guest{k}"),
                    format!("10.0.{}.3", k + 1),
                );
                let _ = write!(link, " in{k}");
            }
            plan.links.push(link);
            if draw.percent(25) {
                let (out, into, leaf) = (format!("out{k}"), format!("to{k}"), format!("leaf{k}"));
                plan.nodes.push(leaf.clone());
                plan.end(&out, &here, format!("10.1.{}.1", k + 1));
                plan.end(&into, &leaf, format!("10.1.{}.2", k + 1));
                plan.links.push(format!("link {out} {into}"));
                plan.hop(&out, &into);
            }
        }
        (plan, guests)
    }

    // Sessions with senders at the root, of which some are there and of some only paths are left, and wants of both.
    fn sessions(&mut self, hops: u64, guests: &[u64], draw: &mut Draw) {
        let count = 1 + draw.below(3);
        let full = if draw.percent(25) {
            draw.below(count)
        } else {
            count
        };
        for s in 0..count {
            let name = format!("239.1.1.1/17/{}", 5004 + s);
            let style = draw.one(&["WF", "FF", "SE"]);
            let many = if s == full {
                15
            } else {
                u64::from(draw.percent(60))
            };
            let gone: Vec<String> = (0..many).map(|k| format!("10.0.1.1:{}", 9 + k)).collect();
            for x in &gone {
                let root = format!(
                    "stale-path n0 {name} {x} down0 10.0.9.9 {} {LIFE}",
                    flow(100)
                );
                self.stale.push(root);
                for k in 1..=hops {
                    if s == full || draw.percent(60) {
                        let line = format!(
                            "stale-path n{k} {name} {x} up{k} 10.0.{k}.1 {} {LIFE}",
                            flow(100)
                        );
                        self.stale.push(line);
                    }
                }
            }
            let mut names = vec!["10.0.1.1:5004".to_string()];
            if s == full || draw.percent(50) {
                names.push("10.0.1.1:5006".to_string());
            }
            for k in guests {
                if draw.percent(60) {
                    for x in &names {
                        let line = format!(
                            "stale-path guest{k} {name} {x} in{k} 10.0.{}.1 {} {LIFE}",
                            k + 1,
                            flow(100)
                        );
                        self.stale.push(line);
                    }
                }
            }
            let sends = names
                .iter()
                .map(|x| format!("send n0 {name} {x} {}", flow(100)));
            self.calls.extend(sends);
            names.extend(gone.first().cloned());
            for node in self.nodes.iter().skip(1) {
                if draw.percent(if *node == format!("n{hops}") { 85 } else { 45 }) {
                    let whom = match (style, draw.percent(50)) {
                        ("WF", _) => "*".to_string(),
                        (_, true) => names.join(","),
                        _ => names[draw.below(names.len() as u64) as usize].clone(),
                    };
                    let rate = flow(draw.one(&RATES));
                    self.calls
                        .push(format!("want {node} {name} {style} {whom} {rate}"));
                }
            }
        }
    }
}

// A network that is run line by line, and its lines.
struct Play {
    net: Network,
    part: u8,
    out: Vec<Send>,
    lines: Vec<String>,
}

impl Play {
    fn of(plan: &Plan, capacities: &[u64], stale: &[String]) -> Play {
        let net = Network {
            period: 2 * HALF,
            ..Network::default()
        };
        let mut play = Play {
            net,
            part: 1,
            out: Vec::new(),
            lines: Vec::new(),
        };
        play.line(format!("seed {}", plan.seed));
        for node in &plan.nodes {
            play.line(format!("node {node}"));
        }
        for ([name, node, addr], capacity) in plan.ends.iter().zip(capacities) {
            play.line(format!("end {name} {node} {addr} {capacity} 1500"));
        }
        for text in [&plan.links, &plan.hops, stale].into_iter().flatten() {
            play.line(text.clone());
        }
        play
    }

    fn line(&mut self, text: String) {
        let words: Vec<&str> = text.split(' ').collect();
        if part_of(words[0]) == 3 {
            begin(&mut self.net, &mut self.part);
        }
        line(&mut self.net, &mut self.part, &words, &mut self.out);
        self.lines.push(text);
    }

    // Does this to the datagram of this number.
    fn datagram(&mut self, verb: &str, id: u64) {
        if let Some(k) = self.net.flight.iter().position(|p| p.id == id) {
            self.line(format!("{verb} {}", k + 1));
        }
    }

    fn report(&mut self) -> String {
        self.net.text.clear();
        self.net.report(None, false);
        std::mem::take(&mut self.net.text)
    }

    // What is in flight: the number, the type of its message, and whether a settled network sends it too.
    fn flight(&self, right: &HashSet<(usize, Vec<u8>)>) -> Vec<(u64, u8, bool)> {
        let parcels = self.net.flight.iter();
        parcels
            .map(|p| (p.id, p.bytes[1], right.contains(&(p.end, p.bytes.clone()))))
            .collect()
    }
}

const PATH: u8 = 1;
const RESV: u8 = 2;
const RESV_ERR: u8 = 4;

struct Trial {
    needed: u64,
    rounds: u64,
    lines: Vec<String>,
}

// Runs the network of a seed through as many calm rounds as are promised to be enough. Behind these of them a report is written.
fn trial(hops: u64, seed: u64, reports: &[u64]) -> Trial {
    let mut draw = Draw::of(seed);
    let (mut plan, guests) = Plan::chain(hops, &mut draw);
    plan.sessions(hops, &guests, &mut draw);
    let rounds = 13 * hops + 13;

    // What settles where there is room for all and nothing is left over: what each end holds, and what is refreshed.
    let mut clean = Play::of(&plan, &vec![ROOM; plan.ends.len()], &[]);
    for call in &plan.calls {
        clean.line(call.clone());
    }
    clean.line(format!("rounds {}", hops + 4));
    let demand_of = |play: &mut Play| {
        let heads = |l: &str| match l.split_once(" of ") {
            Some((head, _)) => format!("{head}\n"),
            None => format!("{l}\n"),
        };
        play.report().lines().map(heads).collect::<String>()
    };
    let demand = demand_of(&mut clean);
    let mut capacities = Vec::new();
    for e in &clean.net.ends {
        let entries = clean.net.nodes[e.node].entries(e.iface);
        let held: u64 = entries.iter().map(|x| x.3.flow.r).sum();
        let spare = if draw.percent(70) {
            draw.one(&SPARE)
        } else {
            ROOM
        };
        capacities.push(held + spare);
    }
    let mut right = HashSet::new();
    for _ in 0..12 {
        clean.line(format!("wait {HALF}"));
        right.extend(clean.net.flight.iter().map(|p| (p.end, p.bytes.clone())));
        clean.line("pass 1".to_string());
    }

    // The past: all that is asked for, in some order, with what is left over.
    let mut play = Play::of(&plan, &capacities, &plan.stale);
    if draw.percent(70) {
        for k in (1..plan.calls.len()).rev() {
            let other = draw.below(k as u64 + 1) as usize;
            plan.calls.swap(k, other);
        }
    }
    for call in &plan.calls {
        play.line(call.clone());
        for _ in 0..draw.below(2 * hops + 2) {
            play.line("pass 1".to_string());
        }
    }
    if draw.percent(70) {
        while !play.net.flight.is_empty() {
            play.line("lose 1".to_string());
        }
    }

    // Refreshes come at the end of their round, those that a settled network sends before the others; of the others a copy comes at the end of
    // the next round. Tears and changes are lost. Errors are lost up to some round, and then come as late as they may.
    let from = draw.below(9 * hops + 3);
    let (sooner, either) = (draw.below(60), draw.percent(50));
    let (mut copies, mut errors): (Vec<u64>, Vec<u64>) = (Vec::new(), Vec::new());
    let (mut needed, mut backward) = (0, draw.percent(50));
    for round in 1..=rounds {
        let first = play.net.ids;
        for piece in 0..3 {
            play.line(format!("wait {HALF}"));
            if piece < 2 && draw.percent(sooner) {
                for (id, kind, is_right) in play.flight(&right) {
                    if id >= first && kind <= RESV && is_right {
                        play.datagram("deliver", id);
                    }
                }
                for (id, kind, _) in play.flight(&right) {
                    if id >= first && kind > RESV && (kind != RESV_ERR || round < from) {
                        play.datagram("lose", id);
                    }
                }
            }
        }
        if either {
            backward = draw.percent(50);
        }
        let (mut good, mut bad, mut later) = (Vec::new(), Vec::new(), Vec::new());
        for (id, kind, is_right) in play.flight(&right) {
            if copies.contains(&id) || errors.contains(&id) {
                continue;
            }
            match kind {
                PATH | RESV if id < first || is_right => good.push(id),
                PATH | RESV => bad.push(id),
                RESV_ERR if round >= from && id >= first => later.push(id),
                RESV_ERR if id < first => errors.push(id),
                _ => play.datagram("lose", id),
            }
        }
        if backward {
            good.reverse();
        }
        let mut kept = Vec::new();
        for id in &bad {
            if draw.percent(92) {
                kept.push(play.net.ids);
                play.datagram("copy", *id);
            }
        }
        let answers = play.net.ids;
        for id in good.into_iter().chain(bad).chain(copies).chain(errors) {
            play.datagram("deliver", id);
        }
        for (id, kind, _) in play.flight(&right) {
            if id >= answers && kind == RESV_ERR && round >= from {
                later.push(id);
            } else if id >= answers && kind <= RESV && draw.percent(10) {
                play.datagram("deliver", id);
            }
        }
        for (id, _, _) in play.flight(&right) {
            if !kept.contains(&id) && !later.contains(&id) {
                play.datagram("lose", id);
            }
        }
        (copies, errors) = (kept, later);
        if demand_of(&mut play) != demand {
            needed = round + 1;
        }
        if reports.contains(&round) {
            play.line("report".to_string());
        }
    }
    Trial {
        needed,
        rounds,
        lines: play.lines,
    }
}

// Of the seeds each that needs more rounds than those before it, or more than are promised; and how many need how many.
pub fn pasts(hops: u64, first: u64, count: u64) -> String {
    let (mut text, mut most) = (String::new(), 0);
    let mut counts: BTreeMap<u64, u64> = BTreeMap::new();
    for seed in first..first + count {
        let t = trial(hops, seed, &[]);
        *counts.entry(t.needed).or_default() += 1;
        if t.needed > t.rounds {
            let _ = writeln!(text, "seed {seed}: against the promise");
        } else if t.needed > most {
            most = t.needed;
            let _ = writeln!(text, "seed {seed} needs {most} of {} rounds", t.rounds);
        }
    }
    for (needed, networks) in counts {
        let _ = writeln!(text, "{networks} need {needed}");
    }
    text
}

// The script of a seed, with a report behind one round fewer than it needs, and one behind as many.
pub fn past(hops: u64, seed: u64) -> String {
    let needed = trial(hops, seed, &[]).needed.max(1);
    let lines = trial(hops, seed, &[needed - 1, needed]).lines;
    lines.iter().map(|l| format!("{l}\n")).collect()
}
