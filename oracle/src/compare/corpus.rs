//! Chooses answers and writes them to a file that a program without Rust can replay. oracle/README.md describes the file. What is expected
//! is the crate's answer where the class is empty, and that of the rules where an entry of docs/DIFFERENCES.md tells why they differ.
use super::hold::Found;
use super::model::{entry, Entries, REASON_NAME, REPLY_NAME};
use super::port::numbers;
use super::shape::*;
use std::collections::{HashMap, HashSet};

/// How much is kept: rows of one bucket, and bytes of one input.
const BYTES: usize = 30;
/// Of a record, crates/corpus replays the numbers up to ECCH_TOPICS_LEN.
const REPLAYED: usize = 42;

#[derive(Default)]
pub struct Corpus {
    rows: Vec<Vec<u8>>,
    seen: HashSet<Vec<u8>>,
    buckets: HashMap<Vec<u64>, u32>,
    pub tally: HashMap<(u8, u8, Entries), u64>,
    /// rows of one bucket that are kept
    cap: u32,
    /// inputs of any length are kept
    pub long: bool,
}

fn u16s(row: &mut Vec<u8>, n: usize) {
    row.extend((n as u16).to_be_bytes());
}
fn u32s(row: &mut Vec<u8>, n: u64) {
    row.extend((n as u32).to_be_bytes());
}
fn run(row: &mut Vec<u8>, s: &[u8]) {
    u32s(row, s.len() as u64);
    row.extend(s);
}
fn on(row: &mut Vec<u8>, limit: Option<u32>) {
    row.push(limit.is_some() as u8);
    u32s(row, limit.unwrap_or(0) as u64);
}
fn lengths(row: &mut Vec<u8>, list: &[usize]) {
    u16s(row, list.len());
    list.iter().for_each(|n| u32s(row, *n as u64));
}
fn lent(row: &mut Vec<u8>, l: &Lent) {
    row.push(l.present as u8);
    run(row, &l.bytes);
}

/// The number of the refusal or 0, and those of the filled array that are not 0, each behind its index.
fn answer(row: &mut Vec<u8>, no: u8, filled: &[u64]) {
    row.push(no);
    let set: Vec<(usize, u64)> = filled.iter().copied().enumerate().filter(|(_, v)| *v != 0).collect();
    row.push(set.len() as u8);
    for (i, v) in set {
        row.push(i as u8);
        u32s(row, v);
    }
}

fn start(kind: u8, class: Entries) -> Vec<u8> {
    let mut row = vec![kind];
    row.extend(class.to_be_bytes());
    row
}

fn bits(flags: &[bool]) -> u64 {
    flags.iter().enumerate().map(|(i, b)| (*b as u64) << i).sum()
}

impl Corpus {
    pub fn new(cap: u32) -> Self {
        Corpus { cap, ..Corpus::default() }
    }

    /// Keeps the row if its bucket has room and it is new.
    fn keep(&mut self, bucket: Vec<u64>, cap: u32, no: u8, row: Vec<u8>) {
        let count = self.buckets.get(&bucket).copied().unwrap_or(0);
        if count >= cap || !self.seen.insert(row.clone()) {
            return;
        }
        *self.buckets.entry(bucket).or_default() += 1;
        let class = Entries::from_be_bytes(row[1..9].try_into().unwrap());
        *self.tally.entry((row[0], no, class)).or_default() += 1;
        self.rows.push(row);
    }

    pub fn read(&mut self, s: &[u8], limit: Option<u32>, class: Entries, rules: &Answer, lists: &Lists) {
        if s.len() > BYTES {
            return;
        }
        let first = s.first().copied().unwrap_or(0);
        let filled = numbers(rules);
        let mut bucket = vec![1, first as u64 >> 4, class, limit.is_some() as u64];
        let no = match &rules.0 {
            Err(e) => {
                // every identifier and every reason, once
                let each = matches!((e.no, class), (10, 0) | (15, REASON_NAME | REPLY_NAME)) && limit.is_none();
                bucket.extend([e.no as u64, if each { 4 + e.a } else { e.a.min(4) }]);
                e.no
            }
            Ok(r) => {
                let set = [
                    r.format.is_some(),
                    r.expiry.is_some(),
                    r.alias.is_some(),
                    r.response.is_some(),
                    r.correlation.is_some(),
                ];
                let more = [
                    !lists.users.is_empty(),
                    !lists.ids.is_empty(),
                    r.content.is_some(),
                    r.sid.is_some(),
                    r.reason_string.is_some(),
                ];
                let options = lists.filters.first().map_or(0, |f| f.1 as u64);
                let reasons = lists.reasons.first().map_or(0, |k| *k as u64) + 256 * lists.reasons.len().min(2) as u64;
                let topics = lists.topics.len().min(2) as u64;
                bucket.extend([0, bits(&set), bits(&more), r.reason as u64, r.qos as u64, options, reasons, topics]);
                0
            }
        };
        let mut row = start(1, class);
        on(&mut row, limit);
        run(&mut row, s);
        answer(&mut row, no, &filled[..REPLAYED]);
        let cap = match no {
            // these have few buckets
            0 if matches!(first >> 4, 6 | 7 | 10) => self.cap,
            0 => self.cap / 4,
            _ if bucket[5] > 4 => 1,
            _ if class.count_ones() > 1 => self.cap / 3,
            _ => self.cap,
        };
        self.keep(bucket, cap, no, row);
    }

    pub fn items(&mut self, s: &[u8], p: Span, n: usize, found: &Found) {
        if s.len() > BYTES || p.start > u32::MAX as usize || p.len > u32::MAX as usize || n > u32::MAX as usize {
            return;
        }
        for kind in 2..=12 {
            let item = found.user(kind, n);
            let filled = item.map(|(k, v)| vec![k.start as u64, k.len as u64, v.start as u64, v.len as u64]);
            self.item(38, kind, s, p, n, filled);
        }
        self.item(11, 3, s, p, n, found.identifier(n).map(|id| vec![id as u64]));
        let filled = found.filter(n).map(|(path, o)| {
            let o = o as u64;
            vec![path.start as u64, path.len as u64, o & 3, o >> 2 & 1, o >> 3 & 1, o >> 4]
        });
        self.item(0, 8, s, p, n, filled);
        for kind in 8..=12 {
            self.item(9, kind, s, p, n, found.reason(kind, n).map(|k| vec![k as u64]));
        }
        let filled = found.topic(n).map(|t| vec![t.start as u64, t.len as u64]);
        self.item(10, 10, s, p, n, filled);
    }

    fn item(&mut self, list: u8, kind: u8, s: &[u8], p: Span, n: usize, filled: Option<Vec<u64>>) {
        let (no, class) = if filled.is_some() { (0, 0) } else { (21, entry(12)) };
        let filled = filled.unwrap_or_default();
        let outside = p.start.saturating_add(p.len) > s.len();
        let bucket = vec![
            2,
            list as u64,
            kind as u64,
            no as u64,
            n.min(4) as u64,
            outside as u64,
            p.len.min(12) as u64,
        ];
        let mut row = start(2, class);
        row.extend([list, kind]);
        [p.start, p.len, n].iter().for_each(|v| u32s(&mut row, *v as u64));
        run(&mut row, s);
        answer(&mut row, no, &filled);
        let cap = if no == 0 { self.cap / 2 } else { self.cap / 6 };
        self.keep(bucket, cap, no, row);
    }

    #[allow(clippy::too_many_arguments)]
    pub fn write(
        &mut self,
        g: &Given,
        limit: Option<u32>,
        room: usize,
        fill: u8,
        class: Entries,
        rules: &(Result<u64, No>, Result<u64, No>),
        put: &[u8],
    ) {
        let lents = [&g.response, &g.correlation, &g.content, &g.reason_string];
        let runs = g.topic.len() + g.payload.len() + g.users.len() + g.filters.len() + g.topics.len() + g.reasons.len();
        let held = runs + lents.iter().map(|l| l.bytes.len()).sum::<usize>();
        let mut lists = g.user_lengths.iter().chain(&g.filter_lengths).chain(&g.topic_lengths);
        let large = lists.any(|n| *n > u32::MAX as usize);
        if (held > BYTES || room > 2 * BYTES) && !self.long || held > 140_000 || large {
            return;
        }
        let told = |a: &Result<u64, No>| a.map_or_else(|e| (e.no, [0, e.a, e.b]), |n| (0, [n, 0, 0]));
        let ((no, written), (no_size, size)) = (told(&rules.0), told(&rules.1));
        let mut row = start(g.kind, class);
        match g.kind {
            3 => {
                row.extend([g.dup as u8, g.qos, g.retain as u8]);
                u16s(&mut row, g.id as usize);
                run(&mut row, &g.topic);
                row.push(g.block as u8);
                row.extend([g.format.is_some() as u8, g.numbers().0]);
                row.push(g.expiry.is_some() as u8);
                u32s(&mut row, g.numbers().1 as u64);
                row.push(g.alias.is_some() as u8);
                u16s(&mut row, g.numbers().2 as usize);
                lent(&mut row, &g.response);
                lent(&mut row, &g.correlation);
                run(&mut row, &g.users);
                lengths(&mut row, &g.user_lengths);
                u16s(&mut row, g.ids.len());
                g.ids.iter().for_each(|n| u32s(&mut row, *n as u64));
                lent(&mut row, &g.content);
                run(&mut row, &g.payload);
            }
            4..=7 => {
                u16s(&mut row, g.id as usize);
                row.extend([g.reason, g.block as u8]);
                lent(&mut row, &g.reason_string);
                run(&mut row, &g.users);
                lengths(&mut row, &g.user_lengths);
            }
            8 => {
                u16s(&mut row, g.id as usize);
                row.extend([g.block as u8, g.sid.is_some() as u8]);
                u32s(&mut row, g.numbers().3 as u64);
                run(&mut row, &g.users);
                lengths(&mut row, &g.user_lengths);
                run(&mut row, &g.filters);
                lengths(&mut row, &g.filter_lengths);
                run(&mut row, &g.options);
            }
            9 | 11 => {
                u16s(&mut row, g.id as usize);
                row.push(g.block as u8);
                lent(&mut row, &g.reason_string);
                run(&mut row, &g.users);
                lengths(&mut row, &g.user_lengths);
                run(&mut row, &g.reasons);
            }
            10 => {
                u16s(&mut row, g.id as usize);
                row.push(g.block as u8);
                run(&mut row, &g.users);
                lengths(&mut row, &g.user_lengths);
                run(&mut row, &g.topics);
                lengths(&mut row, &g.topic_lengths);
            }
            _ => {}
        }
        on(&mut row, limit);
        u32s(&mut row, room as u64);
        row.push(fill);
        answer(&mut row, no_size, &size);
        answer(&mut row, no, &written);
        run(&mut row, put);
        let set = [
            g.block,
            g.format.is_some(),
            g.expiry.is_some(),
            g.alias.is_some(),
            !g.users.is_empty(),
            !g.ids.is_empty(),
            g.sid.is_some(),
        ];
        let present: Vec<bool> = lents.iter().map(|l| l.present).collect();
        let mut bucket = vec![g.kind as u64, class, no as u64, no_size as u64, limit.is_some() as u64];
        if no == 0 {
            let options = g.options.first().map_or(0, |o| *o as u64 & 63);
            let reasons = g.reasons.first().map_or(0, |k| *k as u64);
            bucket.extend([bits(&set), bits(&present), g.reason as u64, g.qos as u64, options, reasons]);
            // these two have buckets enough
            if !matches!(g.kind, 3 | 8) {
                let counts = [g.user_lengths.len(), g.topic_lengths.len(), g.reasons.len().min(2)];
                bucket.extend(counts.map(|n| n as u64));
            }
        }
        let cap = match no {
            _ if self.long => 1,
            // these have few buckets
            0 if matches!(g.kind, 6 | 7 | 10) => self.cap / 4,
            0 => self.cap / 10,
            _ if class.count_ones() > 1 => self.cap,
            _ => 2 * self.cap,
        };
        self.keep(bucket, cap, no, row);
    }

    pub fn len(&self) -> usize {
        self.rows.len()
    }

    pub fn is_empty(&self) -> bool {
        self.rows.is_empty()
    }

    /// The file: the count of rows, then the rows.
    pub fn bytes(&self) -> Vec<u8> {
        let mut out = vec![];
        u32s(&mut out, self.rows.len() as u64);
        for row in &self.rows {
            out.extend(row);
        }
        out
    }
}
