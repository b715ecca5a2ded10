//! A network from a seed.
use crate::network::*;
use crate::router::*;
use crate::script::*;
use crate::values::*;
use std::collections::{HashMap, VecDeque};

// The longest chain of hops of a group; the network has no cycle.
pub fn longest(net: &Network) -> u64 {
    let mut best: HashMap<(Addr, usize, usize), u64> = HashMap::new();
    let mut all: Vec<(Addr, Addr, usize, usize)> = net.hops.clone();
    all.sort_unstable();
    let mut grew = true;
    while grew {
        grew = false;
        for (g, a, from, to) in &all {
            let node = net.ends[*to].node;
            let next = all
                .iter()
                .filter(|h| (h.0, h.1) == (*g, *a) && net.ends[h.2].node == node);
            let behind = next
                .map(|h| best.get(&(*g, h.2, h.3)).copied().unwrap_or(1))
                .max();
            let level = 1 + behind.unwrap_or(0);
            let old = best.entry((*g, *from, *to)).or_insert(1);
            if level > *old {
                *old = level;
                grew = true;
            }
        }
    }
    best.values().copied().max().unwrap_or(0)
}

pub fn grow(seed: u64) -> String {
    let mut net = Network {
        period: 30000,
        x: seed,
        ..Network::default()
    };
    let mut out = Vec::new();
    for k in 0..64 {
        net.add_node(&format!("n{k}"));
    }
    let mut down = vec![0; 64];
    let mut up = vec![0; 64];
    for k in 1..64usize {
        let iface = |last: u32| Iface {
            addr: 10 << 24 | 1 << 16 | (k as u32) << 8 | last,
            capacity: 70_000_000,
            mtu: 1500,
            latency: 0,
        };
        down[k] = net.add_end(&format!("d{k}"), (k - 1) / 2, iface(1));
        up[k] = net.add_end(&format!("u{k}"), k, iface(2));
        net.add_link(&[down[k], up[k]]);
    }
    let home = |k: usize| -> Addr {
        if k == 0 {
            10 << 24 | 1 << 16 | 1 << 8 | 1
        } else {
            10 << 24 | 1 << 16 | (k as u32) << 8 | 2
        }
    };
    let f = |r: u64| Flow {
        r,
        b: r,
        p: INFINITE,
        low: 64,
        most: 1500,
    };
    let sessions: Vec<Session> = (1..=3)
        .map(|n| Session {
            group: 239 << 24 | 3 << 16 | n,
            proto: 17,
            port: 5004,
        })
        .collect();
    let mut at = Vec::new();
    for s in &sessions {
        let w = net.next_word() as usize;
        let mut list = Vec::new();
        for i in 0..4 {
            let root = (w + 16 * i) % 64;
            list.push((
                root,
                Sender {
                    addr: home(root),
                    port: 5004,
                },
            ));
            // All hops that lead away from the root.
            let (mut seen, mut queue) = (vec![false; 64], VecDeque::from([root]));
            seen[root] = true;
            while let Some(n) = queue.pop_front() {
                let mut go = |to: usize, hop: (usize, usize), queue: &mut VecDeque<usize>| {
                    if !seen[to] {
                        seen[to] = true;
                        net.hops.push((s.group, home(root), hop.0, hop.1));
                        queue.push_back(to);
                    }
                };
                if n > 0 {
                    go((n - 1) / 2, (up[n], down[n]), &mut queue);
                }
                for c in [2 * n + 1, 2 * n + 2] {
                    if c < 64 {
                        go(c, (down[c], up[c]), &mut queue);
                    }
                }
            }
        }
        at.push(list);
    }
    let mut asked = Vec::new();
    for n in 0..64 {
        for (k, s) in sessions.iter().enumerate() {
            let w = u64::from(net.next_word());
            if w % 4 == 0 {
                continue;
            }
            let rate = 1000 * (1 + w / 256 % 16);
            let mask = match w / 16 % 16 {
                0 => 15,
                m => m,
            };
            let mut names = Names::new();
            if k > 0 {
                for (i, e) in at[k].iter().enumerate() {
                    if mask >> i & 1 == 1 {
                        names.add(e.1);
                    }
                }
            }
            asked.push((n, *s, STYLES[k], names, f(rate)));
        }
    }
    // The words of the run begin again with the seed.
    net.x = seed;
    net.start();
    for (k, s) in sessions.iter().enumerate() {
        for (n, x) in &at[k] {
            let (s, x) = (*s, *x);
            net.local(
                *n,
                s,
                |node| {
                    let _ = node.senders.insert((s, x), f(1000));
                },
                &mut out,
            );
        }
    }
    for (n, s, st, names, flow) in asked {
        let list = wants(st, &names, flow, false);
        let act = |node: &mut Node| {
            for (unit, want) in list {
                node.wants.insert((s, unit), want);
            }
        };
        net.local(n, s, act, &mut out);
    }
    let h = longest(&net);
    let rounds = 16 * h + 16;
    net.rounds(rounds, &mut out);
    assert!(!net.crowded);
    let (mut ends, mut entries, mut held) = (0, 0, 0);
    for e in &net.ends {
        let list = net.nodes[e.node].entries(e.iface);
        ends += u32::from(!list.is_empty());
        entries += list.len();
        held += list.iter().map(|x| x.3.flow.r).sum::<u64>();
    }
    format!(
        "seed {seed}\nnodes 64 hops {} longest {h}\nrounds {rounds} delivered {}\nbooked ends {ends} entries {entries} held {held}\n",
        net.hops.len(),
        net.delivered
    )
}
