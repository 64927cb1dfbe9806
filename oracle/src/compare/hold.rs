//! Holds one input at a time against all sides, counts, and says where they part. A run fails where (a) the port is not the model with every
//! switch off, (b) the crate's text is not the model with all on, or (c) the two differ and no listed entry tells why.
use super::corpus::Corpus;
use super::model::{Entries, Switches};
use super::shape::*;
use super::{model, model_write, port, text};
use bytes::BytesMut;
use std::collections::BTreeMap;

/// What was seen of one class: how often, and the shortest input.
#[derive(Default)]
pub struct Seen {
    pub count: u64,
    pub bytes: usize,
    pub what: String,
}

#[derive(Default)]
pub struct Hold {
    pub reads: u64,
    pub items: u64,
    pub writes: u64,
    pub sizes: u64,
    pub failures: u64,
    pub panics: u64,
    /// answers of the port by the number of the refusal, 0 for accepted: reads, then writes
    pub read_answers: [u64; 32],
    pub write_answers: [u64; 32],
    pub read_classes: BTreeMap<Entries, Seen>,
    pub write_classes: BTreeMap<Entries, Seen>,
    pub corpus: Option<Corpus>,
    /// print each input with its answers
    pub show: bool,
    /// end at the first failure
    pub stop: bool,
    of_port: Lists,
    of_rules: Lists,
    of_crate: Lists,
    of_set: Lists,
}

/// The numbers of the entries.
pub fn entries(class: Entries) -> String {
    let named: Vec<String> = (1..=64)
        .filter(|n| class & model::entry(*n) != 0)
        .map(|n| if n < 8 { format!("D{n}") } else { format!("entry {n}") })
        .collect();
    if named.is_empty() {
        "none".into()
    } else {
        named.join(" + ")
    }
}

fn note(classes: &mut BTreeMap<Entries, Seen>, class: Entries, bytes: usize, what: impl FnOnce() -> String) {
    let seen = classes.entry(class).or_default();
    seen.count += 1;
    if class != 0 && (seen.count == 1 || bytes < seen.bytes) {
        seen.bytes = bytes;
        seen.what = what();
    }
}

/// What is asked for: the n-th item at a place.
struct At<'a> {
    s: &'a [u8],
    p: Span,
    n: usize,
}

impl std::fmt::Debug for At<'_> {
    fn fmt(&self, f: &mut std::fmt::Formatter) -> std::fmt::Result {
        write!(
            f,
            "number {} of start {} length {} in {}",
            self.n,
            self.p.start,
            self.p.len,
            hex(self.s)
        )
    }
}

/// What the rules find at a place, by places and kinds; none where it is not well-formed.
pub struct Found {
    /// after PLACES
    blocks: [Option<Lists>; 4],
    filters: Option<Vec<(Span, u8)>>,
    /// of SubAck and UnsubAck
    reasons: [Option<Vec<u8>>; 2],
    topics: Option<Vec<Span>>,
}

const PLACES: [Place; 4] = [Place::Publish, Place::Subscribe, Place::Ack, Place::Unsubscribe];

impl Found {
    pub fn user(&self, kind: u8, n: usize) -> Option<(Span, Span)> {
        let place = place_of(kind)?;
        let at = PLACES.iter().position(|p| *p == place)?;
        self.blocks[at].as_ref()?.users.get(n).copied()
    }
    pub fn identifier(&self, n: usize) -> Option<u32> {
        self.blocks[0].as_ref()?.ids.get(n).copied()
    }
    pub fn filter(&self, n: usize) -> Option<(Span, u8)> {
        self.filters.as_ref()?.get(n).copied()
    }
    pub fn reason(&self, kind: u8, n: usize) -> Option<u8> {
        let run = match kind {
            9 => &self.reasons[0],
            11 => &self.reasons[1],
            _ => return None,
        };
        run.as_ref()?.get(n).copied()
    }
    pub fn topic(&self, n: usize) -> Option<Span> {
        self.topics.as_ref()?.get(n).copied()
    }
}

impl Hold {
    pub fn new() -> Self {
        Hold::default()
    }

    fn fail(&mut self, which: &str, what: String) {
        self.failures += 1;
        if self.failures <= 20 {
            println!("FAILED {which}\n{what}");
        }
        if self.stop {
            std::process::exit(1);
        }
    }

    /// The smallest set of entries with which the model gives the text's answer.
    fn class_of_read(&mut self, s: &[u8], limit: Option<u64>, said: &text::Text, asked: Entries) -> Option<Entries> {
        let of_set = &mut self.of_set;
        model::smallest(asked, |by| {
            let answer = model::read(s, limit, by, of_set);
            text::same(said, &answer, of_set, s)
        })
    }

    /// Reads a stream on all sides.
    pub fn read(&mut self, s: &[u8], limit: Option<u32>) {
        self.reads += 1;
        let most = limit.map(u64::from);
        let said = text::read(s, limit);
        let answered = port::read(s, most, &mut self.of_port);
        let off = Switches::of(0);
        let rules = model::read(s, most, &off, &mut self.of_rules);
        let modelled = model::read(s, most, &Switches::of(model::ALL), &mut self.of_crate);
        let alike = text::same(&said, &answered, &self.of_port, s);
        let class = if text::same(&said, &rules, &self.of_rules, s) {
            0
        } else {
            self.class_of_read(s, most, &said, off.asked()).unwrap_or(0)
        };
        let shown = || {
            format!(
                "  stream {}\n  limit {limit:?}\n  port  {answered:?}\n  rules {rules:?}\n  crate {said:?}\n  model {modelled:?}",
                hex(s)
            )
        };
        if answered != rules || self.of_port != self.of_rules {
            let lists = format!(
                "{}\n  lists of the port {:?}, of the rules {:?}",
                shown(),
                self.of_port,
                self.of_rules
            );
            self.fail("(a): the port does not answer by the rules", lists);
        }
        if !text::same(&said, &modelled, &self.of_crate, s) {
            self.fail("(b): the crate does not answer as its model", shown());
        }
        if !alike && class == 0 {
            self.fail("(c): crate and port differ, and no entry tells why", shown());
        }
        self.panics += matches!(said.0, Err(No { no: PANIC, .. })) as u64;
        self.read_answers[answered.0.as_ref().map_or_else(|e| e.no as usize & 31, |_| 0)] += 1;
        let line = || {
            let of_port = match &answered.0 {
                Ok(r) => record(r, &self.of_port, s),
                Err(e) => format!("{e:?}"),
            };
            format!(
                "{}; limit {limit:?}; crate {:?}; port {of_port}; taken {} and {}",
                hex(s),
                said.0,
                said.1,
                answered.1
            )
        };
        if self.show {
            println!("read {}\n    class {}", line(), entries(class));
        }
        note(&mut self.read_classes, class, s.len(), line);
        if let Some(corpus) = &mut self.corpus {
            corpus.read(s, limit, class, &rules, &self.of_rules);
        }
    }

    /// Reads under a limit that the crate cannot be handed.
    pub fn read_wide(&mut self, s: &[u8], limit: u64) {
        self.reads += 1;
        let answered = port::read(s, Some(limit), &mut self.of_port);
        let rules = model::read(s, Some(limit), &Switches::of(0), &mut self.of_rules);
        if answered != rules || self.of_port != self.of_rules {
            self.fail(
                "(a): the port does not answer by the rules",
                format!("  stream {}\n  limit {limit}\n  port {answered:?}\n  rules {rules:?}", hex(s)),
            );
        }
    }

    /// One item of the port against that of the rules, if these find a well-formed place and an item there.
    fn item<T: PartialEq + std::fmt::Debug>(&mut self, (list, kind): (&str, u8), answered: Result<T, No>, item: Option<T>, at: &At) {
        self.items += 1;
        let expected = item.ok_or(no(21));
        if answered != expected {
            let shown = format!("  {list} of {}, {at:?}\n  port {answered:?}\n  rules {expected:?}", name(kind));
            self.fail("(a): item", shown);
        }
        if self.show {
            println!("    {list} of {}: {answered:?}", name(kind));
        }
    }

    /// Asks for the n-th item of each list at any place of any bytes.
    pub fn items(&mut self, s: &[u8], p: Span, n: usize) {
        if self.show {
            println!("item {n} of start {} length {} in {}", p.start, p.len, hex(s));
        }
        let found = Found {
            blocks: PLACES.map(|place| model::block_items(place, s, p)),
            filters: model::run_items(s, p),
            reasons: [9, 11].map(|kind| model::reason_items(kind, s, p)),
            topics: model::topic_items(s, p),
        };
        let at = At { s, p, n };
        // kinds that have no block or no reasons are asked too
        for kind in 2..=12 {
            self.item(("pair", kind), port::user(kind, s, p, n), found.user(kind, n), &at);
        }
        self.item(("identifier", 3), port::identifier(s, p, n), found.identifier(n), &at);
        self.item(("filter", 8), port::filter(s, p, n), found.filter(n), &at);
        for kind in 8..=12 {
            self.item(("reason", kind), port::reason(kind, s, p, n), found.reason(kind, n), &at);
        }
        self.item(("topic", 10), port::topic(s, p, n), found.topic(n), &at);
        let expected = if s.get(p.start..).is_some_and(|t| p.len <= t.len()) { 0 } else { 21 };
        let answered = port::part(s, p);
        if answered != expected {
            self.fail("(a): part", format!("  {p:?} of {}\n  port {answered}\n  rules {expected}", hex(s)));
        }
        if let Some(corpus) = &mut self.corpus {
            corpus.items(s, p, n, &found);
        }
    }

    /// The smallest set of entries with which the model of the writer gives the text's answer, its bytes and its size.
    fn class_of_write(
        &self,
        g: &Given,
        limit: Option<u64>,
        room: usize,
        said: &(Result<u64, No>, Result<u64, No>),
        put: &[u8],
    ) -> Option<Entries> {
        let mut out = vec![];
        let off = Switches::of(0);
        let _ = (model_write::write(g, limit, room, &off, &mut out), model_write::size(g, &off));
        model::smallest(off.asked(), |by| {
            let answer = model_write::write(g, limit, room, by, &mut out);
            answer == said.0 && out == put && model_write::size(g, by) == said.1
        })
    }

    /// Writes a record on all sides, into an output of `room` bytes, and asks for its size; gives the frame, if it was accepted.
    pub fn write(&mut self, g: &Given, limit: Option<u32>, room: usize) -> Option<Vec<u8>> {
        self.writes += 1;
        self.sizes += 1;
        let most = limit.map(u64::from);
        let fill = (self.writes % 251) as u8;
        let mut out = vec![fill; room];
        let answered = (port::write(g, most, &mut out), port::size(g));
        let mut by_rules = vec![];
        let off = Switches::of(0);
        let rules = (model_write::write(g, most, room, &off, &mut by_rules), model_write::size(g, &off));
        let kept = out.get(by_rules.len()..).is_some_and(|rest| rest.iter().all(|b| *b == fill));
        let alike = kept && out[..by_rules.len()] == by_rules;
        if answered != rules || !alike {
            let shown = format!(
                "  {}\n  limit {limit:?} room {room} fill {fill}\n  port {answered:?} {}\n  rules {rules:?} {}",
                short(g),
                hex(&out),
                hex(&by_rules)
            );
            self.fail("(a): the port does not write by the rules", shown);
        }
        let class = self.write_in_text(g, limit, room, &answered, &out, fill, &rules, &by_rules);
        self.write_answers[answered.0.as_ref().map_or_else(|e| e.no as usize & 31, |_| 0)] += 1;
        if let Some(corpus) = &mut self.corpus {
            corpus.write(g, limit, room, fill, class, &rules, &by_rules);
        }
        rules.0.is_ok().then_some(by_rules)
    }

    /// The same in the crate's text, if it can be handed the record; gives the class.
    #[allow(clippy::too_many_arguments)]
    fn write_in_text(
        &mut self,
        g: &Given,
        limit: Option<u32>,
        room: usize,
        answered: &(Result<u64, No>, Result<u64, No>),
        out: &[u8],
        fill: u8,
        rules: &(Result<u64, No>, Result<u64, No>),
        by_rules: &[u8],
    ) -> Entries {
        let most = limit.map(u64::from);
        let packet = if model_write::belongs(g) { text::packet(g) } else { None };
        let Some(packet) = packet else {
            let class = if model_write::belongs(g) {
                model_write::NO_TEXT
            } else {
                model_write::MISMATCH
            };
            let line = || {
                format!(
                    "{}; limit {limit:?} room {room}; the crate cannot be handed it; port {answered:?}",
                    short(g)
                )
            };
            if self.show {
                println!("write {:.900}\n    class {}", line(), entries(class));
            }
            note(&mut self.write_classes, class, weight(g), line);
            return class;
        };
        let mut put = BytesMut::new();
        let said = (text::write(&packet, limit, &mut put), text::size(&packet));
        let mut by_model = vec![];
        let on = Switches::of(model_write::ALL);
        let modelled = (model_write::write(g, most, room, &on, &mut by_model), model_write::size(g, &on));
        let shown = || {
            format!(
                "  {}\n  limit {limit:?} room {room}\n  port {answered:?} {}\n  crate {said:?} {}\n  model {modelled:?} {}",
                short(g),
                hex(out),
                hex(&put),
                hex(&by_model)
            )
        };
        if said != modelled || by_model != put {
            self.fail("(b): the crate does not write as its model", shown());
        }
        let class = if said == *rules && put == by_rules {
            0
        } else {
            self.class_of_write(g, most, room, &said, &put).unwrap_or(0)
        };
        let set = match answered.0 {
            Ok(size) => out.get(..size as usize) == Some(&put) && out[size as usize..].iter().all(|b| *b == fill),
            Err(_) => put.is_empty() && out.iter().all(|b| *b == fill),
        };
        if class == 0 && (said != *answered || !set) {
            self.fail("(c): crate and port write otherwise, and no entry tells why", shown());
        }
        self.panics += matches!(said.0, Err(No { no: PANIC, .. })) as u64;
        let line = || {
            format!(
                "{}; limit {limit:?} room {room}; crate {said:?}, put {}; port {answered:?}",
                short(g),
                hex(&put)
            )
        };
        if self.show {
            println!("write {:.900}\n    class {}", line(), entries(class));
        }
        note(&mut self.write_classes, class, weight(g), line);
        class
    }
}

/// What a record as read is, in one line.
fn record(r: &Record, lists: &Lists, s: &[u8]) -> String {
    let run = |p: Span| format!("[{}]", hex(p.of(s)));
    let pairs: Vec<String> = lists.users.iter().map(|(a, b)| run(*a) + "=" + &run(*b)).collect();
    let filters: Vec<String> = lists.filters.iter().map(|(p, o)| format!("{} options {o:02X}", run(*p))).collect();
    let kind = name(r.kind);
    match r.kind {
        3 => format!(
            "accepted: Publish qos {} id {} topic {} payload {} identifiers {:?} pairs {pairs:?}",
            r.qos,
            r.id,
            run(r.topic),
            run(r.payload),
            lists.ids
        ),
        8 => format!(
            "accepted: Subscribe id {} identifier {:?} pairs {pairs:?} filters {filters:?}",
            r.id, r.sid
        ),
        4..=7 => format!("accepted: {kind} id {} reason {:02X} pairs {pairs:?}", r.id, r.reason),
        9 | 11 => format!("accepted: {kind} id {} pairs {pairs:?} reasons [{}]", r.id, hex(&lists.reasons)),
        10 => {
            let topics: Vec<String> = lists.topics.iter().map(|t| run(*t)).collect();
            format!("accepted: Unsubscribe id {} pairs {pairs:?} topics {topics:?}", r.id)
        }
        _ => format!("accepted: {kind}"),
    }
}

/// How much is handed over.
fn weight(g: &Given) -> usize {
    let runs = g.topic.len() + g.payload.len() + g.users.len() + g.filters.len() + g.response.bytes.len() + g.correlation.bytes.len();
    let lists = g.user_lengths.len() + g.ids.len() + g.filter_lengths.len() + g.options.len() + g.topic_lengths.len();
    let numbers = g.block as usize + g.format.is_some() as usize + g.expiry.is_some() as usize + g.alias.is_some() as usize + g.off.count_ones() as usize;
    runs + g.topics.len() + g.reasons.len() + g.content.bytes.len() + g.reason_string.bytes.len() + 2 * lists + numbers
}

/// What a record is, in one line, long runs left out.
fn short(g: &Given) -> String {
    let run = |s: &[u8]| {
        if s.len() > 40 {
            format!("[{} bytes]", s.len())
        } else {
            format!("[{}]", hex(s))
        }
    };
    let lent = |l: &Lent| {
        if l.present {
            run(&l.bytes)
        } else {
            format!("absent{}", if l.bytes.is_empty() { String::new() } else { run(&l.bytes) })
        }
    };
    match g.kind {
        3 => {
            format!(
            "Publish dup {} qos {} retain {} id {} topic {} block {} off {} 1 {:?} 2 {:?} 35 {:?} 8 {} 9 {} 38 {} {:?} 11 {:?} 3 {} payload {}",
            g.dup as u8, g.qos, g.retain as u8, g.id, run(&g.topic), g.block, g.off, g.format, g.expiry, g.alias, lent(&g.response),
            lent(&g.correlation), run(&g.users), g.user_lengths, g.ids, lent(&g.content), run(&g.payload)
        )
        }
        8 => format!(
            "Subscribe id {} block {} 11 {:?} 38 {} {:?} filters {} {:?} options {}",
            g.id,
            g.block,
            g.sid,
            run(&g.users),
            g.user_lengths,
            run(&g.filters),
            g.filter_lengths,
            run(&g.options)
        ),
        4..=7 => format!(
            "{} id {} reason {:02X} block {} 31 {} 38 {} {:?}",
            name(g.kind),
            g.id,
            g.reason,
            g.block,
            lent(&g.reason_string),
            run(&g.users),
            g.user_lengths
        ),
        9 | 11 => format!(
            "{} id {} block {} 31 {} 38 {} {:?} reasons {}",
            name(g.kind),
            g.id,
            g.block,
            lent(&g.reason_string),
            run(&g.users),
            g.user_lengths,
            run(&g.reasons)
        ),
        10 => format!(
            "Unsubscribe id {} block {} 38 {} {:?} topics {} {:?}",
            g.id,
            g.block,
            run(&g.users),
            g.user_lengths,
            run(&g.topics),
            g.topic_lengths
        ),
        kind => name(kind).into(),
    }
}
