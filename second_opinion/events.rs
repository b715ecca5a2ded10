//! What happens in a run, as lines of JSON (docs/EVENTS.md), but for the words of each message: written only where it is asked for.
use crate::messages::*;
use crate::network::*;
use crate::router::*;
use std::fmt::Write as _;

#[derive(Default)]
pub struct Events {
    pub text: String,
    clock: u64,
    books: Vec<String>,
    flight: String,
}

// Text between quotes: a script that is right is printable ASCII.
fn quoted(text: &str) -> String {
    let text = text.replace('\\', "\\\\").replace('"', "\\\"");
    format!("\"{}\"", text.replace('\n', "\\n"))
}

impl Network {
    fn event(&mut self, kind: &str, more: &str) {
        if let Some(e) = &mut self.events {
            let t = e.clock;
            let _ = writeln!(e.text, "{{\"event\":\"{kind}\",\"t\":{t}{more}}}");
        }
    }

    pub fn passed(&mut self, ms: u64) {
        if let Some(e) = &mut self.events {
            e.clock += ms;
        }
    }

    pub fn line_event(&mut self, number: usize, text: &str) {
        if self.events.is_some() {
            let more = format!(",\"line\":{number},\"text\":{}", quoted(text));
            self.event("line", &more);
        }
    }

    // The datagram that was put in flight last.
    pub fn sent_event(&mut self) {
        if self.events.is_some() {
            let p = &self.flight[self.flight.len() - 1];
            let message = decode(&p.bytes);
            let kind = message.as_ref().map_or("?", Message::kind);
            let from = p
                .from
                .map_or("null".to_string(), |f| quoted(&self.ends[f].name));
            let hex: String = p.bytes.iter().map(|b| format!("{b:02x}")).collect();
            let more = format!(
                ",\"id\":{},\"from\":{from},\"end\":\"{}\",\"to\":\"{}\",\"kind\":\"{kind}\",\"hex\":\"{hex}\"",
                p.id,
                self.ends[p.end].name,
                dotted(p.dst)
            );
            self.event("sent", &more);
        }
    }

    pub fn delivered_event(&mut self, parcel: &Parcel, heard: &Heard) {
        if self.events.is_some() {
            let became = match heard {
                Heard::Taken => "\"taken\"".to_string(),
                Heard::Dropped(why) => format!("\"dropped\",\"why\":\"{why}\""),
                Heard::Answered(c, v) => format!("\"answered\",\"code\":{c},\"value\":{v}"),
            };
            let end = &self.ends[parcel.end].name;
            let more = format!(
                ",\"id\":{},\"end\":\"{end}\",\"became\":{became}",
                parcel.id
            );
            self.event("delivered", &more);
        }
    }

    pub fn lost_event(&mut self, id: u64) {
        self.event("lost", &format!(",\"id\":{id}"));
    }

    pub fn copied_event(&mut self, id: u64, of: u64) {
        self.event("copied", &format!(",\"id\":{id},\"of\":{of}"));
    }

    pub fn round_event(&mut self, round: u64, of: u64) {
        self.event("round", &format!(",\"round\":{round},\"of\":{of}"));
        self.standing_events();
    }

    pub fn report_event(&mut self, from: usize) {
        if self.events.is_some() {
            let more = format!(",\"text\":{}", quoted(&self.text[from..]));
            self.event("report", &more);
        }
    }

    pub fn end_event(&mut self) {
        let more = if self.crowded {
            ",\"status\":6,\"message\":\"crowded\""
        } else {
            ",\"status\":0"
        };
        self.event("end", more);
    }

    // What an end has booked, in the members of its event.
    fn book(&self, end: usize) -> String {
        let e = &self.ends[end];
        let node = &self.nodes[e.node];
        let (mut held, mut entries) = (0, Vec::new());
        for (s, style, unit, part) in &node.entries(e.iface) {
            held += part.flow.r;
            let [first, many, beside] = node.flags(e.iface, *s, *style, *unit, part);
            let mark = |is: bool, c: char| if is { c } else { '-' };
            entries.push(format!(
                "{{\"session\":\"{}/{}/{}\",\"style\":\"{}\",\"senders\":\"{}\",\"flow\":\"{}\",\"flags\":\"{}{}{}\"}}",
                dotted(s.group),
                s.proto,
                s.port,
                style.word(),
                names_text(*style, &part.names),
                flow_text(&part.flow),
                mark(first, 'e'),
                mark(many, 'm'),
                mark(beside, 'b')
            ));
        }
        let capacity = node.ifaces[e.iface as usize].capacity;
        format!(
            ",\"end\":\"{}\",\"held\":{held},\"capacity\":{capacity},\"entries\":[{}]",
            e.name,
            entries.join(",")
        )
    }

    // Each book that changed, and what is in flight, where that changed.
    pub fn standing_events(&mut self) {
        if self.events.is_none() || self.crowded {
            return;
        }
        for end in 0..self.ends.len() {
            let book = self.book(end);
            let books = &mut self.events.as_mut().unwrap().books;
            if books.len() == end {
                // A book is empty before its first event.
                books.push(if book.ends_with(":[]") {
                    book.clone()
                } else {
                    String::new()
                });
            }
            if books[end] != book {
                books[end].clone_from(&book);
                self.event("book", &book);
            }
        }
        let ids: Vec<String> = self.flight.iter().map(|p| p.id.to_string()).collect();
        let flight = format!(",\"ids\":[{}]", ids.join(","));
        let e = self.events.as_mut().unwrap();
        if e.flight != flight && !(e.flight.is_empty() && ids.is_empty()) {
            e.flight.clone_from(&flight);
            self.event("flight", &flight);
        }
    }
}
