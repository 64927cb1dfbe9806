//! Targets of libFuzzer over the library and an oracle of its own for each: FUZZ_TARGET says which. What is handed over lies on the heap, or in an
//! array of its own, and is as long as it is said to be, so that an access outside of it is seen. oracle/fuzz builds this and runs it.
#![no_main]
use oracle::compare::frames;
use oracle::compare::hold::Hold;
use oracle::compare::pieces::{whole, Port};
use oracle::compare::shape::{is_reply, Given, Lent, Span};
use oracle::compare::tidy::{self, port_tidy};
use oracle::journal;
use oracle::limit;
use oracle::streams::Dice;
use oracle::topics::{self, model, CRATE, CRATES, PORTED};
use std::cell::RefCell;
use std::sync::OnceLock;

type Target = fn(&mut Hold, &[u8]);
const TARGETS: [(&str, Target); 6] =
    [("read", read), ("write", write), ("tidy", tidied), ("pieces", pieces), ("topics", matched), ("journal", journalled)];

/// libFuzzer keeps the input that ends so.
fn fail(what: &str) -> ! {
    eprintln!("FIND: {what}");
    std::process::abort()
}

/// As long as it is, and no longer.
fn exact(s: &[u8]) -> Box<[u8]> {
    s.into()
}

/// Takes what an input is made of, byte after byte; zeros after its end.
struct Feed<'a>(&'a [u8]);

impl Feed<'_> {
    fn byte(&mut self) -> u8 {
        match self.0.split_first() {
            None => 0,
            Some((b, rest)) => {
                self.0 = rest;
                *b
            }
        }
    }
    fn number(&mut self) -> u32 {
        (0..4).fold(0, |n, _| n << 8 | self.byte() as u32)
    }
    fn run(&mut self) -> Vec<u8> {
        let n = (self.byte() as usize % 64).min(self.0.len());
        let (run, rest) = self.0.split_at(n);
        self.0 = rest;
        run.to_vec()
    }
    fn lengths(&mut self) -> Vec<usize> {
        (0..self.byte() % 9).map(|_| self.byte() as usize).collect()
    }
    fn lent(&mut self, present: bool) -> Lent {
        Lent {
            present,
            bytes: self.run(),
        }
    }
    fn record(&mut self) -> Given {
        let mut g = Given {
            kind: 3 + self.byte() % 11,
            ..Given::default()
        };
        if g.kind > 11 {
            return g;
        }
        let on = self.byte();
        g.id = self.number() as u16;
        g.block = on & 1 != 0;
        g.users = self.run();
        g.user_lengths = self.lengths();
        match g.kind {
            3 => {
                (g.dup, g.retain, g.qos) = (on & 2 != 0, on & 4 != 0, self.byte());
                g.topic = self.run().into();
                g.payload = self.run().into();
                g.format = (on & 8 != 0).then(|| self.byte());
                g.expiry = (on & 16 != 0).then(|| self.number());
                g.alias = (on & 32 != 0).then(|| self.number() as u16);
                g.response = self.lent(on & 64 != 0);
                g.correlation = self.lent(on & 128 != 0);
                let more = self.byte();
                g.content = self.lent(more & 1 != 0);
                g.ids = (0..more >> 1 & 3).map(|_| self.number()).collect();
            }
            8 => {
                g.sid = (on & 2 != 0).then(|| self.number());
                g.filters = self.run();
                g.filter_lengths = self.lengths();
                g.options = self.run();
            }
            10 => {
                g.topics = self.run();
                g.topic_lengths = self.lengths();
            }
            kind => {
                g.reason_string = self.lent(on & 2 != 0);
                if is_reply(kind) {
                    g.reasons = self.run();
                } else {
                    g.reason = self.byte();
                }
            }
        }
        g
    }
}

fn held(hold: &Hold) {
    if hold.failures > 0 {
        fail("the sides differ, as printed");
    }
}

/// A stream that is read, or places that are asked for items: port, crate's text and model, as in oracle/compare.
fn read(hold: &mut Hold, data: &[u8]) {
    let Some((how, rest)) = data.split_first() else { return };
    let limit = (how & 1 != 0).then(|| rest.len() as u32 / (1 + (*how as u32 >> 4)));
    if how >> 1 & 3 == 3 {
        let mut feed = Feed(rest);
        let (start, len, n) = (feed.byte() as usize, feed.byte() as usize, feed.byte() as usize % 8);
        hold.items(&exact(feed.0), Span { start, len }, n);
    } else {
        let s = exact(rest);
        hold.read(&s, limit);
        // the hand-written reader is there for its coverage
        std::hint::black_box(limit::read::<false>(&s, limit).1);
    }
    held(hold);
}

/// A record that is written, and read again.
fn write(hold: &mut Hold, data: &[u8]) {
    let mut feed = Feed(data);
    let how = feed.byte();
    let g = feed.record();
    let limit = (how & 1 != 0).then(|| feed.byte() as u32 * 2);
    hold.write(&g, limit, feed.byte() as usize * 2);
    if let Some(frame) = hold.write(&g, None, 4_096) {
        // with just the room, and one byte less
        hold.write(&g, None, frame.len());
        hold.write(&g, None, frame.len() - 1);
        hold.read(&exact(&frame), None);
    }
    held(hold);
}

/// The tidy form is the model's, whatever the room; tidied again it stays, and it says the same record; so does the record in other bytes.
fn tidied(_: &mut Hold, data: &[u8]) {
    let Some((how, rest)) = data.split_first() else { return };
    let s = exact(rest);
    let call = |s: &[u8], room: usize| {
        let right = tidy::tidy(s, room);
        if port_tidy(s, room, *how).as_ref() != Some(&right) {
            fail(&format!("tidy of {s:02x?} into {room}"));
        }
        right
    };
    let (answer, _) = call(&s, s.len() + 1);
    let _ = call(&s, *how as usize % (s.len() + 1));
    let Ok(form) = answer else { return };
    let form = exact(&form);
    let _ = (call(&s, form.len()), call(&s, form.len() - 1));
    let g = tidy::record(&s).unwrap();
    let other = exact(&tidy::untidy(&g, &mut Dice::new(1 + *how as u64)));
    for same in [&form, &other] {
        if call(same, form.len()) != (Ok(form.to_vec()), same.len()) || tidy::record(same).as_ref() != Ok(&g) {
            fail(&format!("tidied again: {s:02x?}, {same:02x?}"));
        }
    }
}

/// A stream in pieces against the whole stream so far, after each piece.
fn pieces(_: &mut Hold, data: &[u8]) {
    let mut feed = Feed(data);
    let (how, room) = (feed.byte(), 5 + 2 * feed.byte() as usize);
    let limit = (how & 1 != 0).then(|| feed.byte() as u64);
    let sizes: Vec<usize> = (0..1 + how / 16).map(|_| feed.byte() as usize % 64).collect();
    let (s, mut port, mut at) = (feed.0, Port::new(room, limit), 0);
    // the sizes turn by turn; one that is none is followed by one byte
    for turn in 0.. {
        if at == s.len() {
            break;
        }
        let n = (sizes[turn % sizes.len()] + (turn + 1).is_multiple_of(sizes.len()) as usize).min(s.len() - at);
        if let Err(what) = port.push(&exact(&s[at..at + n])) {
            fail(what);
        }
        at += n;
        if port.list != whole(&s[..at], limit, room) {
            fail(&format!("pieces {sizes:?} of {s:02x?}, room {room}, limit {limit:?}"));
        }
    }
}

/// Topic and filter: the port is the model with no switch; the crate's text, where it can be handed them, the model with both.
fn matched(_: &mut Hold, data: &[u8]) {
    let Some((how, rest)) = data.split_first() else { return };
    // few characters, so that levels meet
    let few = |b: &u8| if how & 128 != 0 { b"a/+#$b/+"[*b as usize % 8] } else { *b };
    let bytes: Vec<u8> = rest.iter().map(few).collect();
    let (a, b) = bytes.split_at(*how as usize % 128 % (bytes.len() + 1));
    for (topic, filter) in [(exact(a), exact(b)), (exact(b), exact(a))] {
        let (t, f) = (model::split(&topic), model::split(&filter));
        let said = Some(topics::matches(&topic, &filter));
        let one = topics::has_wildcards(&topic) == model::has_wildcards(&topic)
            && topics::valid_topic(&topic) == model::valid_topic(&topic)
            && topics::valid_filter(&filter) == model::valid_filter(&filter);
        if !one || said != model::matches(&t, &f, PORTED) {
            fail(&format!("topic {topic:02x?}, filter {filter:02x?}: {said:?}"));
        }
        if let (Ok(topic), Ok(filter)) = (std::str::from_utf8(&topic), std::str::from_utf8(&filter)) {
            if (CRATE.matches)(topic, filter) != model::matches(&t, &f, CRATES) {
                fail(&format!("the crate is not its model: topic {topic:?}, filter {filter:?}"));
            }
        }
    }
}

/// What an area went through: the states that were saved since it was started, unless something else wrote a good block.
struct Area {
    bytes: Box<[u8]>,
    saved: Option<Vec<(u64, journal::Table)>>,
    /// blocks that were damaged once: twice might undo it
    damaged: Vec<usize>,
}

fn right<T>(held: Result<T, String>) -> T {
    held.unwrap_or_else(|what| fail(&what))
}

impl Area {
    fn table(feed: &mut Feed) -> Box<[u8]> {
        let mut t = vec![0; journal::IDENTIFIERS];
        for _ in 0..feed.byte() % 8 {
            let at = feed.number() as usize % t.len();
            t[at] = feed.byte() % 4;
        }
        t.into()
    }
    fn blocks(&self) -> usize {
        self.bytes.len() / journal::BLOCK
    }
    /// One call, or one damage.
    fn step(&mut self, feed: &mut Feed) {
        match feed.byte() % 8 {
            0 => {
                right(journal::hold_start(&mut self.bytes));
                self.saved = journal::is_area(&self.bytes).then(Vec::new);
                self.damaged.clear();
            }
            1 | 2 => {
                let t = Self::table(feed);
                if let Ok((number, at)) = right(journal::hold_save(&t, &mut self.bytes)) {
                    self.damaged.retain(|d| *d != at);
                    self.saved.iter_mut().for_each(|s| s.push((number, t.to_vec())));
                }
            }
            // 02's premise: only saves wrote to it
            3 if self.saved.is_some() => {
                let (t, at) = (Self::table(feed), feed.number() as usize % (journal::BLOCK + 1));
                right(journal::hold_cut(&t, &self.bytes, |old, new| [&new[..at], &old[at..]].concat()));
            }
            4 if self.blocks() > 0 => self.damage(feed.number() as usize, feed.number()),
            5 if self.blocks() > 0 => {
                // a good block of another make, or one that is not good for its number
                let (at, n) = (feed.byte() as usize % self.blocks(), feed.number() as u64);
                let number = [n, n << 32 | n, u64::MAX, 0][feed.byte() as usize % 4];
                let b = journal::block(number, &Self::table(feed));
                self.bytes[at * journal::BLOCK..][..journal::BLOCK].copy_from_slice(&b);
                self.saved = None;
            }
            6 => {
                // the bytes as they come
                let n = (feed.byte() as usize * 4).min(self.bytes.len()).min(feed.0.len());
                self.bytes[..n].copy_from_slice(&feed.0[..n]);
                feed.0 = &feed.0[n..];
                self.saved = None;
            }
            _ => {
                let mut t = Self::table(feed);
                t[0] = feed.byte();
                let _ = right(journal::hold_save(&t[..journal::IDENTIFIERS - feed.byte() as usize % 2], &mut exact(&self.bytes)));
            }
        }
    }
    /// Up to four bytes behind each other of one block, once: the check always sees it.
    fn damage(&mut self, place: usize, by: u32) {
        let (block, at) = (place / 512 % self.blocks(), place % 509);
        if self.damaged.contains(&block) {
            return;
        }
        self.damaged.push(block);
        for (b, x) in self.bytes[block * journal::BLOCK + at..].iter_mut().zip(by.to_be_bytes()) {
            *b ^= x;
        }
    }
    fn recovered(&self, feed: &mut Feed) {
        let room = [journal::IDENTIFIERS, journal::IDENTIFIERS, journal::IDENTIFIERS - 1, 0][feed.byte() as usize % 4];
        let found = right(journal::hold_recover(&self.bytes, room, feed.byte()));
        match (&self.saved, found) {
            (Some(saved), Ok(state)) if !saved.contains(&state) => fail("a state that was not saved"),
            (Some(saved), Err(journal::EMPTY)) if self.damaged.is_empty() && !saved.is_empty() => fail("what was saved is lost"),
            _ => {}
        }
    }
}

/// An area and what happens to it: the library is the model at each call, and damage never gives a state that was not saved.
fn journalled(_: &mut Hold, data: &[u8]) {
    let mut feed = Feed(data);
    let (blocks, more) = (feed.byte() as usize % 5, [0, 0, 0, 1, 511][feed.byte() as usize % 5]);
    let bytes = vec![0xA5; blocks * journal::BLOCK + more].into();
    let mut area = Area { bytes, saved: None, damaged: vec![] };
    for _ in 0..24 {
        if feed.0.is_empty() {
            break;
        }
        area.step(&mut feed);
        area.recovered(&mut feed);
    }
}

/// Inputs to begin with: frames of every kind, one or several, in the shape that the target takes; chance for the others.
fn seeds(name: &str, dir: &str) {
    let mut d = Dice::new(2026);
    for i in 0..600u32 {
        let mut s: Vec<u8> = match name {
            "read" | "tidy" => vec![0],
            // a buffer for most frames, and pieces of three sizes
            "pieces" => vec![0x20, 40 + d.below(80) as u8, d.below(64) as u8, d.below(9) as u8, d.below(20) as u8],
            _ => (0..20 + d.below(200)).map(|_| d.below(256) as u8).collect(),
        };
        if s.len() < 6 {
            (0..1 + d.below(3)).for_each(|_| s.extend(frames::well_formed(&mut d).stream(0)));
        }
        s.truncate(512);
        std::fs::write(format!("{dir}/seed-{i}"), s).unwrap();
    }
}

static TARGET: OnceLock<Target> = OnceLock::new();
thread_local! {
    static HOLD: RefCell<Hold> = RefCell::new(Hold::new());
}

fn target() -> Target {
    let name = std::env::var("FUZZ_TARGET").unwrap_or_default();
    if let Ok(dir) = std::env::var("FUZZ_SEEDS") {
        seeds(&name, &dir);
        std::process::exit(0);
    }
    let found = TARGETS.iter().find(|(n, _)| *n == name);
    // a panic of the crate's text is an answer
    std::panic::set_hook(Box::new(|_| {}));
    found.unwrap_or_else(|| fail("FUZZ_TARGET is none of read, write, tidy, pieces, topics, journal")).1
}

/// # Safety
/// libFuzzer hands over `size` bytes at `data`.
#[no_mangle]
pub unsafe extern "C" fn LLVMFuzzerTestOneInput(data: *const u8, size: usize) -> i32 {
    let data = if size == 0 { &[] } else { std::slice::from_raw_parts(data, size) };
    let target = TARGET.get_or_init(target);
    HOLD.with(|hold| {
        let hold = &mut *hold.borrow_mut();
        if std::panic::catch_unwind(std::panic::AssertUnwindSafe(|| target(hold, data))).is_err() {
            fail("a panic");
        }
    });
    0
}
