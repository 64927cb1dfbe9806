//! A model of the reader. With every switch off it reads by the rules of 01 and 02; each switch puts one listed difference of the crate back,
//! and with all on it is to answer as the crate does, for every stream. A switch is the bit of its entry in docs/DIFFERENCES.md.
use super::shape::*;
use std::cell::Cell;

/// A set of entries of docs/DIFFERENCES.md: entry n is bit n - 1.
pub type Entries = u64;
pub const fn entry(n: u32) -> Entries {
    1 << (n - 1)
}
/// D1: the byte of property 11 is counted twice.
pub const D1: Entries = entry(1);
/// D2: the last property may run past L, and L may exceed the frame.
pub const D2: Entries = entry(2);
/// D3: a variable length number cut off inside a frame is InsufficientBytes(1).
pub const D3: Entries = entry(3);
/// 6: the text that is compared does not carry the other kinds either, and says so by another error.
pub const KIND: Entries = entry(8);
/// An acknowledgement's bad reason has another name.
pub const REASON_NAME: Entries = entry(14);
/// An acknowledgement's reason is looked at after the block.
pub const REASON_LAST: Entries = entry(15);
/// Bytes after an acknowledgement's block are let pass.
pub const AFTER_BLOCK: Entries = entry(16);
/// P2: the limit is held to R, and 3 says R.
pub const LIMIT: Entries = entry(30);
/// P8: a number may have more bytes than it needs.
pub const WINDED: Entries = entry(31);
/// P9: of a doubled property the last counts.
pub const TWICE: Entries = entry(32);
/// P9: a subscription identifier may be 0, read or written.
pub const ZERO: Entries = entry(33);
/// P9: text may hold U+0000, read or written.
pub const NUL: Entries = entry(34);
/// A bad reason of a SubAck or UnsubAck has another name.
pub const REPLY_NAME: Entries = entry(35);
/// A SubAck or UnsubAck with no reason is 7.
pub const NO_REASON: Entries = entry(36);
/// An Unsubscribe with no topic is read.
pub const NO_TOPIC: Entries = entry(37);
pub const ALL: Entries =
    D1 | D2 | D3 | KIND | REASON_NAME | REASON_LAST | AFTER_BLOCK | LIMIT | WINDED | TWICE | ZERO | NUL | REPLY_NAME | NO_REASON | NO_TOPIC;

/// Which entries are switched on; keeps which were asked for.
pub struct Switches {
    on: Entries,
    asked: Cell<Entries>,
}

impl Switches {
    pub fn of(on: Entries) -> Self {
        Switches { on, asked: Cell::new(0) }
    }
    pub fn has(&self, e: Entries) -> bool {
        self.asked.set(self.asked.get() | e);
        self.on & e != 0
    }
    pub fn asked(&self) -> Entries {
        self.asked.get()
    }
}

/// The smallest set of entries with which `right` holds, the lowest of several, where it does not with every switch off and that run asked for
/// `asked`. A set is grown by what was asked for and was off: a set that leaves all of that off has the same run, so no smaller set is passed
/// over.
pub fn smallest(asked: Entries, mut right: impl FnMut(&Switches) -> bool) -> Option<Entries> {
    let mut sets: Vec<(Entries, Entries)> = vec![(0, asked)];
    while !sets.is_empty() {
        let mut larger: Vec<Entries> = vec![];
        for (on, asked) in sets {
            let mut open = asked & !on;
            while open != 0 {
                let lowest = open & open.wrapping_neg();
                larger.push(on | lowest);
                open ^= lowest;
            }
        }
        larger.sort_unstable();
        larger.dedup();
        sets = vec![];
        for on in larger {
            let by = Switches::of(on);
            if right(&by) {
                return Some(on);
            }
            sets.push((on, by.asked()));
        }
    }
    None
}

const PUBLISH: [u8; 8] = [1, 2, 35, 8, 9, 38, 11, 3];
const SUBSCRIBE: [u8; 2] = [11, 38];
const ACK: [u8; 2] = [31, 38];
const UNSUBSCRIBE: [u8; 1] = [38];

pub fn row(place: Place) -> &'static [u8] {
    match place {
        Place::Publish => &PUBLISH,
        Place::Subscribe => &SUBSCRIBE,
        Place::Ack => &ACK,
        Place::Unsubscribe => &UNSUBSCRIBE,
    }
}

/// 38, and 11 in Publish, are lists; any other is single-valued.
pub fn is_list(place: Place, k: u8) -> bool {
    k == 38 || k == 11 && place == Place::Publish
}

/// The reasons that a kind lists.
pub fn reasons(kind: u8) -> &'static [u8] {
    match kind {
        4 | 5 => &[0x00, 0x10, 0x80, 0x83, 0x87, 0x90, 0x91, 0x97, 0x99],
        6 | 7 => &[0x00, 0x92],
        9 => &[0x00, 0x01, 0x02, 0x80, 0x83, 0x87, 0x8F, 0x91, 0x97, 0x9E, 0xA1, 0xA2],
        11 => &[0x00, 0x11, 0x80, 0x83, 0x87, 0x8F, 0x91],
        _ => &[],
    }
}

/// A number of one to four bytes from `at` on: its value and the index after it, or why there is none.
enum Number {
    Value(usize, usize),
    Cut,
    Long,
}

fn number(s: &[u8], at: usize, end: usize, by: &Switches) -> Number {
    let mut value = 0;
    for k in 0..4 {
        if at + k >= end {
            return Number::Cut;
        }
        let b = s[at + k] as usize;
        value += b % 128 * 128usize.pow(k as u32);
        if b < 128 {
            // a last group of 0 behind others is not needed
            if b == 0 && k > 0 && !by.has(WINDED) {
                return Number::Long;
            }
            return Number::Value(value, at + k + 1);
        }
    }
    Number::Long
}

/// Is it text? U+0000 is none, unless NUL is on.
pub fn is_text(s: &[u8], by: &Switches) -> bool {
    std::str::from_utf8(s).is_ok() && (!s.contains(&0) || by.has(NUL))
}

/// Reads from `at` up to `end`, which is the end of the frame or of the block.
struct Walk<'a> {
    s: &'a [u8],
    at: usize,
    end: usize,
    by: &'a Switches,
}

impl Walk<'_> {
    fn left(&self) -> usize {
        self.end - self.at
    }
    fn rest(&self) -> Span {
        Span {
            start: self.at,
            len: self.left(),
        }
    }
    /// A number of `width` bytes, or 7.
    fn fixed(&mut self, width: usize) -> Result<u64, No> {
        if self.left() < width {
            return Err(no(7));
        }
        let value = self.s[self.at..self.at + width].iter().fold(0, |v, b| v * 256 + *b as u64);
        self.at += width;
        Ok(value)
    }
    /// Cut off it is 7, with D3 InsufficientBytes(1).
    fn number(&mut self) -> Result<usize, No> {
        match number(self.s, self.at, self.end, self.by) {
            Number::Value(value, next) => {
                self.at = next;
                Ok(value)
            }
            Number::Cut if self.by.has(D3) => Err(no1(1, 1)),
            Number::Cut => Err(no(7)),
            Number::Long => Err(no(2)),
        }
    }
    fn string(&mut self) -> Result<Span, No> {
        let len = self.fixed(2)? as usize;
        if len > self.left() {
            return Err(no1(8, len as u64));
        }
        let span = Span { start: self.at, len };
        self.at += len;
        Ok(span)
    }
    fn text(&mut self) -> Result<Span, No> {
        let span = self.string()?;
        if is_text(span.of(self.s), self.by) {
            Ok(span)
        } else {
            Err(no(9))
        }
    }
    /// One property after its identifier `k`; `met` has a bit for each that came before it.
    fn value(&mut self, k: u8, met: &mut u64, place: Place, r: &mut Record, lists: &mut Lists) -> Result<(), No> {
        if !row(place).contains(&k) {
            return Err(no1(10, k as u64));
        }
        if *met >> k & 1 == 1 && !is_list(place, k) && !self.by.has(TWICE) {
            return Err(no1(22, k as u64));
        }
        *met |= 1 << k;
        match k {
            1 => r.format = Some(self.fixed(1)? as u8),
            2 => r.expiry = Some(self.fixed(4)? as u32),
            35 => r.alias = Some(self.fixed(2)? as u16),
            8 => r.response = Some(self.text()?),
            9 => r.correlation = Some(self.string()?),
            3 => r.content = Some(self.text()?),
            31 => r.reason_string = Some(self.text()?),
            38 => {
                let key = self.text()?;
                lists.users.push((key, self.text()?));
            }
            _ => {
                let id = self.number()? as u32;
                if id == 0 && !self.by.has(ZERO) {
                    return Err(no(23));
                }
                match place {
                    Place::Publish => lists.ids.push(id),
                    _ => r.sid = Some(id),
                }
            }
        }
        Ok(())
    }
    /// The properties that fill the next `len` bytes. With D2 a value may run on to the end of the frame, with D1 property 11 counts for one
    /// byte more than it has.
    fn properties(&mut self, len: usize, place: Place, r: &mut Record, lists: &mut Lists) -> Result<(), No> {
        let outer = self.end;
        if !self.by.has(D2) {
            self.end = self.at + len;
        }
        let (mut counted, mut met) = (0, 0);
        while counted < len {
            let before = self.at;
            let k = self.fixed(1)? as u8;
            self.value(k, &mut met, place, r, lists)?;
            counted += self.at - before;
            if k == 11 && self.by.has(D1) {
                counted += 1;
            }
        }
        self.end = outer;
        Ok(())
    }
    fn block(&mut self, place: Place, r: &mut Record, lists: &mut Lists) -> Result<(), No> {
        let len = self.number()?;
        // P7: after the block's length, and where its bytes end
        r.bounds = Bounds(Some((self.at, self.at + len)));
        if len == 0 {
            return Ok(());
        }
        if len > self.left() && !self.by.has(D2) {
            return Err(no1(8, len as u64));
        }
        r.block = Some(Span { start: self.at, len });
        self.properties(len, place, r, lists)
    }
    fn publish(&mut self, first: u8, r: &mut Record, lists: &mut Lists) -> Result<(), No> {
        (r.dup, r.qos, r.retain) = (first & 8 != 0, first >> 1 & 3, first & 1 != 0);
        if r.qos == 3 {
            return Err(no1(11, 3));
        }
        r.topic = self.string()?;
        if r.qos > 0 {
            r.id = self.fixed(2)? as u16;
            if r.id == 0 {
                return Err(no(12));
            }
        }
        self.block(Place::Publish, r, lists)?;
        r.payload = self.rest();
        Ok(())
    }
    fn filters(&mut self, lists: &mut Lists) -> Result<(), No> {
        if self.left() == 0 {
            return Err(no(13));
        }
        while self.left() > 0 {
            let path = self.text()?;
            let options = self.fixed(1)? as u8;
            if options >> 4 & 3 == 3 {
                return Err(no1(14, 3));
            }
            if options & 3 == 3 {
                return Err(no1(11, 3));
            }
            lists.filters.push((path, options & 63));
        }
        Ok(())
    }
    fn subscribe(&mut self, r: &mut Record, lists: &mut Lists) -> Result<(), No> {
        r.id = self.fixed(2)? as u16;
        self.block(Place::Subscribe, r, lists)?;
        r.filters = self.rest();
        self.filters(lists)
    }
    fn topics(&mut self, lists: &mut Lists) -> Result<(), No> {
        if self.left() == 0 && !self.by.has(NO_TOPIC) {
            return Err(no(13));
        }
        while self.left() > 0 {
            let topic = self.text()?;
            lists.topics.push(topic);
        }
        Ok(())
    }
    fn unsubscribe(&mut self, r: &mut Record, lists: &mut Lists) -> Result<(), No> {
        r.id = self.fixed(2)? as u16;
        self.block(Place::Unsubscribe, r, lists)?;
        r.topics = self.rest();
        self.topics(lists)
    }
    fn reasons(&mut self, kind: u8, lists: &mut Lists) -> Result<(), No> {
        if self.left() == 0 {
            return Err(no(if self.by.has(NO_REASON) { 7 } else { 13 }));
        }
        while self.left() > 0 {
            let k = self.fixed(1)? as u8;
            if !reasons(kind).contains(&k) {
                let name = if self.by.has(REPLY_NAME) { SUBSCRIBE_CODE } else { 15 };
                return Err(no1(name, k as u64));
            }
            lists.reasons.push(k);
        }
        Ok(())
    }
    fn reply(&mut self, r: &mut Record, lists: &mut Lists) -> Result<(), No> {
        r.id = self.fixed(2)? as u16;
        self.block(Place::Ack, r, lists)?;
        r.reasons = self.rest();
        self.reasons(r.kind, lists)
    }
    fn reason(&self, kind: u8, k: u8) -> Result<(), No> {
        if reasons(kind).contains(&k) {
            return Ok(());
        }
        let name = if self.by.has(REASON_NAME) { RETURN_CODE } else { 15 };
        Err(no1(name, k as u64))
    }
    fn ack(&mut self, r: &mut Record, lists: &mut Lists) -> Result<(), No> {
        r.id = self.fixed(2)? as u16;
        if self.left() == 0 {
            return Ok(());
        }
        r.reason = self.fixed(1)? as u8;
        let good = self.reason(r.kind, r.reason);
        if self.left() > 0 {
            if good.is_err() && !self.by.has(REASON_LAST) {
                return good;
            }
            self.block(Place::Ack, r, lists)?;
        }
        good?;
        if self.left() > 0 && !self.by.has(AFTER_BLOCK) {
            return Err(no(7));
        }
        Ok(())
    }
}

/// The answer to a stream under a limit; the lists of an accepted record are left in `lists`.
pub fn read(s: &[u8], limit: Option<u64>, by: &Switches, lists: &mut Lists) -> Answer {
    lists.clear();
    if s.len() < 2 {
        return (Err(no1(1, 2 - s.len() as u64)), 0);
    }
    let (r, start) = match number(s, 1, s.len(), by) {
        Number::Value(r, start) => (r, start),
        Number::Cut => return (Err(no1(1, 1)), 0),
        Number::Long => return (Err(no(2)), 0),
    };
    let end = start + r;
    if let Some(most) = limit.filter(|most| end as u64 > *most) {
        if !by.has(LIMIT) {
            return (Err(no2(3, end as u64, most)), 0);
        }
        if r as u64 > most {
            return (Err(no2(3, r as u64, most)), 0);
        }
    }
    if s.len() < end {
        return (Err(no1(1, (end - s.len()) as u64)), 0);
    }
    let kind = s[0] >> 4;
    // P7: F where no length is sent
    let mut record = Record {
        kind,
        bounds: Bounds(Some((end, end))),
        ..Record::default()
    };
    let mut walk = Walk { s, at: start, end, by };
    let done = match kind {
        0 | 15 => Err(no1(4, kind as u64)),
        12 | 13 => Ok(()),
        _ if r == 0 => Err(no(5)),
        3 => walk.publish(s[0], &mut record, lists),
        4..=7 => walk.ack(&mut record, lists),
        8 => walk.subscribe(&mut record, lists),
        9 | 11 => walk.reply(&mut record, lists),
        10 => walk.unsubscribe(&mut record, lists),
        _ if by.has(KIND) => Err(no(TRIMMED)),
        _ => Err(no1(6, kind as u64)),
    };
    if done.is_err() {
        lists.clear();
    }
    (done.map(|_| record), end)
}

/// What the rules find at the place `p`, if it lies within the bytes and is well-formed (21 otherwise).
fn at_place(s: &[u8], p: Span, walked: impl FnOnce(&mut Walk, &mut Lists) -> Result<(), No>) -> Option<Lists> {
    let end = p.start.checked_add(p.len).filter(|end| *end <= s.len())?;
    let by = Switches::of(0);
    let mut walk = Walk {
        s,
        at: p.start,
        end,
        by: &by,
    };
    let mut lists = Lists::default();
    walked(&mut walk, &mut lists).ok()?;
    Some(lists)
}

/// The lists of the block at `p`.
pub fn block_items(place: Place, s: &[u8], p: Span) -> Option<Lists> {
    at_place(s, p, |walk, lists| walk.properties(p.len, place, &mut Record::default(), lists))
}

/// The filters of the run at `p`.
pub fn run_items(s: &[u8], p: Span) -> Option<Vec<(Span, u8)>> {
    at_place(s, p, |walk, lists| walk.filters(lists)).map(|l| l.filters)
}

/// The reasons of the run at `p`; no kind but SubAck and UnsubAck has such.
pub fn reason_items(kind: u8, s: &[u8], p: Span) -> Option<Vec<u8>> {
    at_place(s, p, |walk, lists| walk.reasons(kind, lists))
        .map(|l| l.reasons)
        .filter(|_| is_reply(kind))
}

/// The topics of the run at `p`.
pub fn topic_items(s: &[u8], p: Span) -> Option<Vec<Span>> {
    at_place(s, p, |walk, lists| walk.topics(lists)).map(|l| l.topics)
}
