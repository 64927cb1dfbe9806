//! The client's record (02, P4): the library (bindings/c/ecchjulmina.h), the crate's bookkeeping (src/state.rs) and a model of P4 with a switch for
//! each difference that docs/DIFFERENCES.md lists. On random calls the library is the model with every switch off, and the crate the model with
//! all on: answers, what every identifier waits for, and the count. Then, for one identifier in each state and every answer with each
//! reason of its list, where the two part must be told by a switch. The last line reads 'no unlisted difference', or the exit status is 1.
//! `--listed` prints both answers to the smallest calls of each difference; `--calls N` and `--seed N` are for trying.
use oracle::codec::{PubAckReason, PubCompReason, PubRecReason, Publish};
use oracle::state::MqttState;
use oracle::QoS;
use std::process::exit;

const LIMIT: usize = 1024;

#[link(name = "ecchjulmina", kind = "static")]
extern "C" {
    fn ecch_inflight_start(table: *mut u8, table_len: usize) -> u32;
    fn ecch_inflight_claim(qos: u8, table: *mut u8, table_len: usize, answer: *mut u64, answer_len: usize) -> u32;
    fn ecch_inflight_acked(kind: u8, id: u16, reason: u8, table: *mut u8, table_len: usize, answer: *mut u64, answer_len: usize) -> u32;
    fn ecch_inflight_waiting(table: *const u8, table_len: usize, answer: *mut u64, answer_len: usize) -> u32;
}

#[derive(Clone, Copy, Debug, PartialEq)]
enum Call {
    Claim(u8),
    PubAck(u16, u8),
    PubRec(u16, u8),
    PubComp(u16, u8),
}
use Call::*;

#[derive(Clone, Copy, Debug, PartialEq)]
enum Said {
    Identifier(u16),
    /// the message waits beside the table for that identifier
    Aside(u16),
    NoIdentifier,
    Full,
    Taken,
    Unsolicited,
}

/// A table as one can look at it: what each identifier from 1 on waits for (1 PubAck, 2 PubRec, plus 4 if it was released and waits for PubComp),
/// the identifier of a message kept aside, and the count.
#[derive(Clone, Debug, PartialEq)]
struct Seen {
    waits: Vec<u8>,
    aside: Option<u16>,
    count: u64,
}

// ---- the differences

const ROUND: u32 = 1; // identifiers go round
const ASIDE: u32 = 2; // a message whose identifier waits is kept aside, and takes it when it is freed
const RELEASED: u32 = 4; // an identifier that waits for PubComp is given to another message
const ANY_QOS: u32 = 8; // a PubAck ends a message of QoS 2, a PubRec moves one of QoS 1 on
const REFUSED: u32 = 16; // a PubRec at 0x80 or above, and a PubComp with a reason, are not counted down
const ALL: u32 = 31;

/// P4 with switches.
#[derive(Clone)]
struct Model {
    switches: u32,
    waits: Vec<u8>,
    last: usize,
    aside: Option<(usize, u8)>,
    count: u64,
}

impl Model {
    fn new(switches: u32) -> Model {
        Model { switches, waits: vec![0; LIMIT + 1], last: 0, aside: None, count: 0 }
    }
    fn on(&self, s: u32) -> bool {
        self.switches & s != 0
    }
    fn is_free(&self, id: usize) -> bool {
        self.waits[id] == 0 || self.on(RELEASED) && self.waits[id] == 4
    }
    fn claim(&mut self, qos: u8) -> Said {
        if qos == 0 {
            return Said::NoIdentifier;
        }
        let id = if self.on(ROUND) {
            let id = self.last % LIMIT + 1;
            self.last = id;
            id
        } else {
            (1..=LIMIT).find(|id| self.is_free(*id)).unwrap_or(0)
        };
        if id == 0 || !self.is_free(id) {
            if self.on(ASIDE) {
                self.aside = Some((id, qos));
                return Said::Aside(id as u16);
            }
            return Said::Full;
        }
        self.waits[id] |= qos;
        self.count += 1;
        Said::Identifier(id as u16)
    }
    fn take(&mut self, id: u16, qos: u8) -> bool {
        let id = id as usize;
        if id == 0 || id > LIMIT || self.waits[id] & 3 == 0 || !self.on(ANY_QOS) && self.waits[id] & 3 != qos {
            return false;
        }
        self.waits[id] &= 4;
        true
    }
    fn call(&mut self, c: Call) -> Said {
        match c {
            Claim(qos) => return self.claim(qos),
            PubAck(id, reason) => {
                if !self.take(id, 1) {
                    return Said::Unsolicited;
                }
                self.count -= 1;
                if let (true, true, Some((at, qos))) = (self.on(ASIDE), reason < 0x80, self.aside) {
                    if at == id as usize {
                        self.aside = None;
                        self.waits[at] |= qos;
                        self.count += 1;
                    }
                }
            }
            PubRec(id, reason) => {
                if !self.take(id, 2) {
                    return Said::Unsolicited;
                }
                if reason < 0x80 {
                    self.waits[id as usize] = 4;
                } else if !self.on(REFUSED) {
                    self.count -= 1;
                }
            }
            PubComp(id, reason) => {
                if self.on(ASIDE) && self.aside.map(|a| a.0) == Some(id as usize) {
                    self.aside = None;
                }
                if id as usize > LIMIT || self.waits[id as usize] & 4 == 0 {
                    return Said::Unsolicited;
                }
                self.waits[id as usize] &= 3;
                if reason == 0 || !self.on(REFUSED) {
                    self.count -= 1;
                }
            }
        }
        Said::Taken
    }
    fn seen(&self) -> Seen {
        Seen { waits: self.waits[1..].to_vec(), aside: self.aside.map(|a| a.0 as u16), count: self.count }
    }
}

// ---- the library

#[derive(Clone)]
struct Port {
    table: [u8; LIMIT],
}

impl Port {
    fn new() -> Port {
        let mut table = [9; LIMIT];
        assert_eq!(unsafe { ecch_inflight_start(table.as_mut_ptr(), LIMIT) }, 0);
        Port { table }
    }
    fn call(&mut self, c: Call) -> Said {
        let mut v = 77;
        let (n, granted) = match c {
            Claim(qos) => (unsafe { ecch_inflight_claim(qos, self.table.as_mut_ptr(), LIMIT, &mut v, 1) }, true),
            PubAck(id, r) => (unsafe { ecch_inflight_acked(4, id, r, self.table.as_mut_ptr(), LIMIT, &mut v, 1) }, false),
            PubRec(id, r) => (unsafe { ecch_inflight_acked(5, id, r, self.table.as_mut_ptr(), LIMIT, &mut v, 1) }, false),
            PubComp(id, r) => (unsafe { ecch_inflight_acked(7, id, r, self.table.as_mut_ptr(), LIMIT, &mut v, 1) }, false),
        };
        match n {
            0 if granted => Said::Identifier(v as u16),
            0 => Said::Taken,
            29 => Said::Full,
            30 => Said::NoIdentifier,
            31 => Said::Unsolicited,
            n => panic!("the library gave {n}"),
        }
    }
    fn seen(&self) -> Seen {
        let mut count = 77;
        assert_eq!(unsafe { ecch_inflight_waiting(self.table.as_ptr(), LIMIT, &mut count, 1) }, 0);
        Seen { waits: self.table.iter().map(|w| if *w == 3 { 4 } else { *w }).collect(), aside: None, count }
    }
}

// ---- the crate

#[derive(Clone)]
struct Text {
    state: MqttState,
}

fn qos(q: u8) -> QoS {
    [QoS::AtMostOnce, QoS::AtLeastOnce, QoS::ExactlyOnce][q as usize]
}

const ACK: [(u8, PubAckReason); 9] = [
    (0x00, PubAckReason::Success), (0x10, PubAckReason::NoMatchingSubscribers), (0x80, PubAckReason::UnspecifiedError),
    (0x83, PubAckReason::ImplementationSpecificError), (0x87, PubAckReason::NotAuthorized), (0x90, PubAckReason::TopicNameInvalid),
    (0x91, PubAckReason::PacketIdentifierInUse), (0x97, PubAckReason::QuotaExceeded), (0x99, PubAckReason::PayloadFormatInvalid),
];
const REC: [(u8, PubRecReason); 9] = [
    (0x00, PubRecReason::Success), (0x10, PubRecReason::NoMatchingSubscribers), (0x80, PubRecReason::UnspecifiedError),
    (0x83, PubRecReason::ImplementationSpecificError), (0x87, PubRecReason::NotAuthorized), (0x90, PubRecReason::TopicNameInvalid),
    (0x91, PubRecReason::PacketIdentifierInUse), (0x97, PubRecReason::QuotaExceeded), (0x99, PubRecReason::PayloadFormatInvalid),
];
const COMP: [(u8, PubCompReason); 2] = [(0x00, PubCompReason::Success), (0x92, PubCompReason::PacketIdentifierNotFound)];

impl Text {
    fn new() -> Text {
        Text { state: MqttState::new(LIMIT as u16) }
    }
    fn call(&mut self, c: Call) -> Said {
        let answer = match c {
            Claim(q) => {
                return match self.state.outgoing_publish(Publish::new("t", qos(q), "", None)).unwrap() {
                    (0, _) => Said::NoIdentifier,
                    (id, true) => Said::Identifier(id),
                    (id, false) => Said::Aside(id),
                }
            }
            PubAck(id, r) => {
                let mut p = oracle::codec::PubAck::new(id, None);
                p.reason = ACK.iter().find(|a| a.0 == r).unwrap().1;
                self.state.handle_incoming_puback(&p)
            }
            PubRec(id, r) => {
                let mut p = oracle::codec::PubRec::new(id, None);
                p.reason = REC.iter().find(|a| a.0 == r).unwrap().1;
                self.state.handle_incoming_pubrec(&p)
            }
            PubComp(id, r) => {
                let mut p = oracle::codec::PubComp::new(id, None);
                p.reason = COMP.iter().find(|a| a.0 == r).unwrap().1;
                self.state.handle_incoming_pubcomp(&p)
            }
        };
        if answer.is_ok() { Said::Taken } else { Said::Unsolicited }
    }
    fn seen(&self) -> Seen {
        let waits = (1..=LIMIT).map(|id| {
            let (p, released) = self.state.kept(id);
            p.map_or(0, |q| q as u8) | if released { 4 } else { 0 }
        });
        Seen { waits: waits.collect(), aside: self.state.aside(), count: self.state.inflight as u64 }
    }
}

// ---- the run

struct Draw(u64);

impl Draw {
    fn next(&mut self, n: usize) -> usize {
        self.0 ^= self.0 << 13;
        self.0 ^= self.0 >> 7;
        self.0 ^= self.0 << 17;
        (self.0 >> 11) as usize % n
    }
    fn call(&mut self, crowded: bool) -> Call {
        let id = match self.next(16) {
            0 => [0, 1, LIMIT, LIMIT + 1, 65535][self.next(5)],
            _ => self.next(if crowded { LIMIT + 2 } else { 12 }),
        } as u16;
        match self.next(8) {
            0..=2 => Claim(self.next(3) as u8),
            3 if crowded => Claim(1 + self.next(2) as u8),
            3 | 4 => PubAck(id, ACK[self.next(9)].0),
            5 | 6 => PubRec(id, REC[self.next(3)].0),
            _ => PubComp(id, COMP[self.next(2)].0),
        }
    }
}

fn fail(what: &str, c: Call, a: impl std::fmt::Debug, b: impl std::fmt::Debug) -> ! {
    println!("{what} at {c:?}: {a:?} and {b:?}");
    exit(1)
}

fn random(calls: usize, seed: u64) {
    let mut draw = Draw(seed);
    let (mut port, mut off) = (Port::new(), Model::new(0));
    let (mut text, mut on) = (Text::new(), Model::new(ALL));
    // all switches but one: each must be seen to part from the crate
    let without = || [ROUND, ASIDE, RELEASED, ANY_QOS, REFUSED].map(|s| Model::new(ALL & !s));
    let (mut less, mut seen) = (without(), [false; 5]);
    let mut said = [0; 5];
    for n in 0..calls {
        if n % 40_000 == 0 {
            (port, off, text, on, less) = (Port::new(), Model::new(0), Text::new(), Model::new(ALL), without());
        }
        let c = draw.call(n / 20_000 % 2 == 1);
        let (a, b) = (port.call(c), off.call(c));
        if a != b {
            fail("the library is not P4", c, a, b);
        }
        let (x, y) = (text.call(c), on.call(c));
        if x != y {
            fail("the crate is not the model with every switch on", c, x, y);
        }
        for (model, seen) in less.iter_mut().zip(&mut seen) {
            *seen |= model.call(c) != x || model.count != text.state.inflight as u64;
        }
        said[match (a, x) {
            (Said::Identifier(_), _) => 0,
            (Said::Full, _) => 1,
            (Said::Taken, _) => 2,
            _ => 3,
        }] += 1;
        said[4] += usize::from(a != x);
        if n % 64 == 0 {
            if port.seen() != off.seen() {
                fail("the library's table is not P4's", c, port.seen().count, off.seen().count);
            }
            if text.seen() != on.seen() {
                fail("the crate's table is not the model's", c, text.seen().count, on.seen().count);
            }
        }
    }
    if seen.contains(&false) {
        println!("a switch that nothing needed: {seen:?}");
        exit(1);
    }
    println!("{calls} calls: {} granted, {} full, {} answers taken, {} refused otherwise; crate and library part in {}", said[0], said[1], said[2], said[3], said[4]);
}

/// Both sides, and the model, after the same calls from a fresh table.
fn after(calls: &[Call], switches: u32) -> [(Said, Seen); 3] {
    let (mut port, mut text, mut model) = (Port::new(), Text::new(), Model::new(switches));
    let mut last = [Said::Taken; 3];
    for c in calls {
        last = [port.call(*c), text.call(*c), model.call(*c)];
    }
    [(last[0], port.seen()), (last[1], text.seen()), (last[2], model.seen())]
}

/// One identifier in each state, every answer with each reason.
fn each() {
    let ways: [&[Call]; 4] = [&[], &[Claim(1)], &[Claim(2)], &[Claim(2), PubRec(1, 0)]];
    let (mut same, mut part) = (0, 0);
    for way in ways {
        for c in ACK.iter().map(|a| PubAck(1, a.0)).chain(REC.iter().map(|a| PubRec(1, a.0))).chain(COMP.iter().map(|a| PubComp(1, a.0))) {
            let mut calls = way.to_vec();
            calls.push(c);
            let [port, text, _] = after(&calls, 0);
            if port == text {
                same += 1;
                continue;
            }
            part += 1;
            let told = [ANY_QOS, REFUSED, ANY_QOS | REFUSED].into_iter().find(|s| after(&calls, *s)[2] == text);
            if told.is_none() {
                fail("an unlisted difference", c, port.0, text.0);
            }
        }
    }
    println!("one identifier, every state, answer and reason: {same} alike, {part} told by a switch");
}

fn listed() {
    let full: Vec<Call> = (0..=LIMIT).map(|_| Claim(1)).collect();
    let mut again: Vec<Call> = vec![Claim(2), PubRec(1, 0)];
    again.extend((0..LIMIT).map(|_| Claim(1)));
    let lists: [(&str, Vec<Call>); 8] = [
        ("identifiers go round", vec![Claim(1), Claim(1), PubAck(1, 0), Claim(1)]),
        ("kept aside", full.clone()),
        ("kept aside, and taken in", [full, vec![PubAck(1, 0)]].concat()),
        ("a released one given away", again),
        ("a PubAck for QoS 2", vec![Claim(2), PubAck(1, 0)]),
        ("a PubRec for QoS 1", vec![Claim(1), PubRec(1, 0)]),
        ("the count after a refusing PubRec", vec![Claim(2), PubRec(1, 0x80)]),
        ("the count after a PubComp with a reason", vec![Claim(2), PubRec(1, 0), PubComp(1, 0x92)]),
    ];
    for (what, calls) in lists {
        let [port, text, _] = after(&calls, 0);
        if port == text {
            fail("no difference", calls[calls.len() - 1], what, port.0);
        }
        println!("{what}: the library {:?}, {} waiting; the crate {:?}, {} waiting, aside {:?}", port.0, port.1.count, text.0, text.1.count, text.1.aside);
    }
}

fn main() {
    let args: Vec<String> = std::env::args().collect();
    let number = |name: &str, or: u64| args.iter().position(|a| a == name).map_or(or, |i| args[i + 1].parse().unwrap());
    if args.iter().any(|a| a == "--listed") {
        listed();
        return;
    }
    let (calls, seed) = (number("--calls", 2_000_000), number("--seed", 2026));
    println!("seed {seed}");
    random(calls as usize, seed);
    each();
    println!("no unlisted difference");
}
