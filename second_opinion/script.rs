//! Scripts that are right: each line is carried out as it is read.
use crate::events::*;
use crate::network::*;
use crate::node::Watched;
use crate::router::*;
use crate::values::*;
use std::io::Read;

pub fn addr(w: &str) -> Addr {
    w.split('.')
        .fold(0, |a, n| a << 8 | n.parse::<u32>().unwrap())
}

pub fn session(w: &str) -> Session {
    let mut p = w.split('/');
    Session {
        group: addr(p.next().unwrap()),
        proto: p.next().unwrap().parse().unwrap(),
        port: p.next().unwrap().parse().unwrap(),
    }
}

pub fn sender(w: &str) -> Sender {
    let (a, port) = w.split_once(':').unwrap_or((w, "0"));
    Sender {
        addr: addr(a),
        port: port.parse().unwrap(),
    }
}

pub fn senders(w: &str) -> Names {
    let list: Vec<Sender> = w.split(',').map(sender).collect();
    Names::of(&list)
}

pub fn flow(w: &str) -> Flow {
    let p: Vec<&str> = w.split('/').collect();
    Flow {
        r: p[0].parse().unwrap(),
        b: p[1].parse().unwrap(),
        p: if p[2] == "inf" {
            INFINITE
        } else {
            p[2].parse().unwrap()
        },
        low: p[3].parse().unwrap(),
        most: p[4].parse().unwrap(),
    }
}

pub fn style(w: &str) -> Style {
    match w {
        "WF" => Style::Wild,
        "FF" => Style::Fixed,
        _ => Style::Shared,
    }
}

pub fn wants(st: Style, names: &Names, f: Flow, confirm: bool) -> Vec<(Unit, Want)> {
    let want = |names: Names| Want {
        style: st,
        part: Part { names, flow: f },
        confirm,
    };
    match st {
        Style::Wild => vec![(None, want(Names::new()))],
        Style::Shared => vec![(None, want(*names))],
        Style::Fixed => {
            let each = names.slice().iter();
            each.map(|x| (Some(*x), want(Names::of(&[*x])))).collect()
        }
    }
}

pub fn part_of(first: &str) -> u8 {
    match first {
        "period" | "seed" | "node" | "end" | "latency" | "link" | "hop" => 1,
        "stale-path" | "stale-resv" | "stale-blockade" => 2,
        _ => 3,
    }
}

// Before the first line of part 3: what is left over stands.
pub fn begin(net: &mut Network, part: &mut u8) {
    if *part == 1 {
        net.start();
    }
    if *part < 3 {
        net.nodes.iter_mut().for_each(Node::remember);
        net.standing_events();
        *part = 3;
    }
}

// `part` is that of the lines before.
pub fn line(net: &mut Network, part: &mut u8, words: &[&str], out: &mut Vec<Send>) {
    let number = |k: usize| words[k].parse::<u64>().unwrap();
    let new = part_of(words[0]);
    if *part == 1 && new > 1 {
        net.start();
    }
    *part = new;
    let node = |net: &Network, k: usize| net.names[words[k]];
    let end = |net: &Network, k: usize| net.end_names[words[k]];
    match words[0] {
        "period" => net.period = number(1),
        "seed" => net.x = number(1),
        "node" => net.add_node(words[1]),
        "end" => {
            let n = node(net, 2);
            let iface = Iface {
                addr: addr(words[3]),
                capacity: number(4),
                mtu: number(5) as u32,
                latency: 0,
            };
            net.add_end(words[1], n, iface);
        }
        "latency" => {
            let e = &net.ends[end(net, 1)];
            net.nodes[e.node].ifaces[e.iface as usize].latency = number(2) as u32;
        }
        "link" => {
            let ends: Vec<usize> = (1..words.len()).map(|k| end(net, k)).collect();
            net.add_link(&ends);
        }
        "hop" => {
            let hop = (addr(words[1]), addr(words[2]), end(net, 3), end(net, 4));
            net.hops.push(hop);
        }
        "reroute" => {
            let (g, a) = (addr(words[1]), addr(words[2]));
            net.hops.retain(|h| (h.0, h.1) != (g, a));
            for k in (3..words.len()).step_by(2) {
                let hop = (g, a, end(net, k), end(net, k + 1));
                net.hops.push(hop);
            }
            let routes = net.routes();
            for (n, r) in routes.into_iter().enumerate() {
                net.nodes[n].reroute(r, out);
                net.send(n, out);
            }
        }
        "stale-path" => {
            let (n, s, x) = (node(net, 1), session(words[2]), sender(words[3]));
            let iface = net.ends[end(net, 4)].iface;
            let left = number(7);
            let node = &mut net.nodes[n];
            let path = Path {
                iface,
                hop: (addr(words[5]), 0),
                tspec: flow(words[6]),
                police: false,
                advert: None,
                dies: left,
            };
            node.paths.insert((s, x), path);
            node.due.entry(s).or_insert(node.period);
        }
        "stale-resv" => {
            let e = end(net, 1);
            let (s, st, names) = (session(words[2]), style(words[3]), senders(words[5]));
            let (n, iface) = (net.ends[e].node, net.ends[e].iface);
            let part = Part {
                names,
                flow: flow(words[6]),
            };
            let fact = Resv {
                part,
                confirm: None,
                dies: number(7),
            };
            let key = (s, (iface, addr(words[4])), unit_of(st, &names));
            net.nodes[n].resvs[st.number()].insert(key, fact);
        }
        "stale-blockade" => {
            let (n, s) = (node(net, 1), session(words[2]));
            let (target, k) = match words[3] {
                "hop" => (Target::Hop(net.ends[end(net, 4)].iface, addr(words[5])), 6),
                _ => (Target::Sender(sender(words[4])), 5),
            };
            let wall = Wall {
                sub: number(k) as u16,
                flow: flow(words[k + 1]),
                dies: number(k + 2),
            };
            net.nodes[n].walls.insert((s, target), wall);
        }
        "send" => {
            let (n, s, x, f) = (
                node(net, 1),
                session(words[2]),
                sender(words[3]),
                flow(words[4]),
            );
            net.local(
                n,
                s,
                |node| {
                    let _ = node.senders.insert((s, x), f);
                },
                out,
            );
        }
        "drop" => {
            let (n, s, x) = (node(net, 1), session(words[2]), sender(words[3]));
            net.local(
                n,
                s,
                |node| {
                    let _ = node.senders.remove(&(s, x));
                    node.advertised.remove(&(s, x));
                },
                out,
            );
        }
        "advert" => {
            let (n, s, x) = (node(net, 1), session(words[2]), sender(words[3]));
            net.local(
                n,
                s,
                |node| {
                    node.advertised.insert((s, x));
                },
                out,
            );
        }
        "want" => {
            let (n, s, st) = (node(net, 1), session(words[2]), style(words[3]));
            let names = match st {
                Style::Wild => Names::new(),
                _ => senders(words[4]),
            };
            let list = wants(st, &names, flow(words[5]), words.len() > 6);
            let act = |node: &mut Node| {
                for (unit, want) in list {
                    node.wants.insert((s, unit), want);
                }
            };
            net.local(n, s, act, out);
        }
        "quit" => {
            let (n, s) = (node(net, 1), session(words[2]));
            net.local(n, s, |node| node.wants.retain(|k, _| k.0 != s), out);
        }
        "wait" => net.wait(number(1), out),
        "pass" => {
            for _ in 0..words.get(1).map_or(1, |w| w.parse().unwrap()) {
                net.pass(out);
            }
        }
        "rounds" => net.rounds(number(1), out),
        "deliver" => net.deliver(number(1) as usize - 1, out),
        "lose" => {
            if let Some(p) = net.flight.remove(number(1) as usize - 1) {
                net.lost_event(p.id);
            }
        }
        "copy" => {
            if let Some(p) = net.flight.get(number(1) as usize - 1) {
                let (end, dst, bytes, of, from) = (p.end, p.dst, p.bytes.clone(), p.id, p.from);
                net.copied_event(net.ids, of);
                net.put(end, dst, bytes, from);
                net.crowd();
            }
        }
        "clear" => {
            let n = node(net, 1);
            net.nodes[n].clear();
            net.watch_clear(n);
        }
        "inject" => {
            let digits = words[3].as_bytes().chunks(2);
            let bytes = digits
                .map(|d| u8::from_str_radix(std::str::from_utf8(d).unwrap(), 16).unwrap())
                .collect();
            net.put(end(net, 1), addr(words[2]), bytes, None);
            net.sent_event();
            net.crowd();
        }
        "trace" => net.trace = words[1] == "on",
        "report" => {
            let only = words.get(1).map(|w| net.end_names[*w]);
            net.report(only, false);
        }
        "flags" => net.report(None, true),
        "adverts" => net.adverts(),
        other => panic!("{other}"),
    }
}

// Carries out the script on standard input; the line that crowds the network writes nothing.
fn run(events: Option<Events>, watched: Option<Watched>) -> Network {
    let mut input = String::new();
    std::io::stdin().read_to_string(&mut input).unwrap();
    let mut net = Network {
        period: 30000,
        x: 1,
        events,
        watched,
        ..Network::default()
    };
    let (mut part, mut out) = (1, Vec::new());
    for (at, text) in input.lines().enumerate() {
        let words: Vec<&str> = text.split(' ').filter(|w| !w.is_empty()).collect();
        if !words.is_empty() && !text.starts_with('#') {
            let written = net.text.len();
            let new = part_of(words[0]);
            if new == 3 {
                begin(&mut net, &mut part);
            }
            net.line_event(at + 1, text);
            line(&mut net, &mut part, &words, &mut out);
            if ["report", "flags", "adverts"].contains(&words[0]) {
                net.report_event(written);
            }
            if new == 3 {
                net.standing_events();
            }
            if net.crowded {
                net.text.truncate(written);
                break;
            }
        }
    }
    net.end_event();
    net
}

// The text, and whether the run was crowded. Or the events in place of the text.
pub fn replay(events: Option<Events>) -> (String, bool) {
    let net = run(events, None);
    let text = net.events.map_or(net.text, |e| e.text);
    (text, net.crowded)
}

// What comes to a router in the run, as frames; none where no router has this number, or the script has no line behind its network.
pub fn stream(node: usize) -> Option<Vec<u8>> {
    run(None, Some(Watched::new(node))).watched?.frames()
}
