//! The crate's text against the port: every short frame, random ones and damaged copies of them, records written; see oracle/README.md.
//! compare [--seed N] [--share PERCENT] [--part I/N] [--stop] [--listed] [--corpus FILE]
use oracle::compare::corpus::Corpus;
use oracle::compare::frames::{self, one_in, pick, Frame};
use oracle::compare::hold::{entries, Hold};
use oracle::compare::model::{self, Entries, Switches};
use oracle::compare::shape::{first_byte, is_ack, place_of, Given, Lent, Lists, Place, Span, KINDS};
use oracle::compare::{given, model_write, port};
use oracle::streams::Dice;
use std::collections::BTreeMap;
use std::time::Instant;

struct Run {
    hold: Hold,
    dice: Dice,
    start: Instant,
    /// how much of the whole is run, in percent
    share: u64,
    /// which part of how many, from 0; each is a process of its own
    part: (u32, u32),
    /// reads of every short input of a form, and of random frames and damaged copies
    short: u64,
    random: u64,
}

impl Run {
    fn say(&self, what: &str) {
        let h = &self.hold;
        let seconds = self.start.elapsed().as_secs();
        println!(
            "{seconds:4} s  {what}: {} reads, {} items, {} writes so far",
            h.reads, h.items, h.writes
        );
    }
    fn scaled(&self, n: u64) -> u64 {
        (n * self.share / 100 / self.part.1 as u64).max(1)
    }
    fn is_first(&self) -> bool {
        self.part.0 == 0
    }
    /// Whether this part has the first byte.
    fn has(&self, first: u8) -> bool {
        first as u32 % self.part.1 == self.part.0
    }
    fn read_short(&mut self, s: &[u8]) {
        self.short += 1;
        self.hold.read(s, None);
    }

    /// Every stream of up to two bytes, and of three with every first byte of a kind (all of them in the whole run).
    fn streams(&mut self) {
        self.read_short(&[]);
        for a in (0..=255).filter(|a| self.has(*a)).collect::<Vec<_>>() {
            self.read_short(&[a]);
            for b in 0..=255 {
                self.read_short(&[a, b]);
            }
            for bc in 0..if self.share == 100 || a % 16 == 0 { 65_536u32 } else { 0 } {
                self.read_short(&[a, (bc >> 8) as u8, bc as u8]);
            }
        }
        self.say("every stream of up to 3 bytes");
    }

    /// Every first byte with every body of one and two bytes.
    fn short_bodies(&mut self) {
        let taken = |a: &u8| self.has(*a) && (self.share == 100 || a % 16 == 0 || a >> 4 == 3);
        for first in (0..=255u8).filter(taken).collect::<Vec<_>>() {
            for a in 0..=255 {
                self.read_short(&[first, 1, a]);
                for b in 0..=255 {
                    self.read_short(&[first, 2, a, b]);
                }
            }
        }
        self.say("every first byte with every body of 1 and 2 bytes");
    }

    /// Every body of three bytes, behind `head`; a sample of them in a part of the whole.
    fn three_behind(&mut self, first: u8, head: &[u8]) {
        self.three_between(first, head, &[]);
    }

    /// The same with `tail` behind the three.
    fn three_between(&mut self, first: u8, head: &[u8], tail: &[u8]) {
        let step = if self.share == 100 { 1 } else { 1009 };
        let mut s = vec![first, (head.len() + 3 + tail.len()) as u8];
        s.extend(head);
        let at = s.len();
        s.extend([0; 3]);
        s.extend(tail);
        for n in (self.part.0..1u32 << 24).step_by(step * self.part.1 as usize) {
            s[at..at + 3].copy_from_slice(&n.to_be_bytes()[1..]);
            self.read_short(&s);
        }
    }

    /// Every first byte of a Publish, and that of each other kind carried, with every body of three bytes.
    fn bodies_of_three(&mut self) {
        let others = KINDS.iter().map(|(kind, _)| first_byte(*kind)).filter(|first| *first != 0x30);
        for first in (0x30..0x40).chain(others) {
            self.three_behind(first, &[]);
        }
        self.say("every body of 3 bytes");
    }

    /// Each kind with every three bytes behind its identifier, or behind the empty topic of a Publish; acknowledgements behind a reason too.
    fn bodies_behind(&mut self) {
        for (kind, _) in KINDS.iter().take(9) {
            self.three_behind(first_byte(*kind), if *kind == 3 { &[0, 0] } else { &[0, 1] });
            if is_ack(*kind) {
                self.three_behind(first_byte(*kind), &[0, 1, 0]);
            }
        }
        self.say("every 3 bytes behind an identifier, an empty topic, a reason");
    }

    /// Every block of three bytes in each kind; every three bytes where entries stand, and behind a reason that is none of success.
    fn bodies_between(&mut self) {
        for (first, _, head, end) in Self::heads() {
            self.three_between(first, &[head, &[3]].concat(), end);
        }
        for kind in 8..=11 {
            self.three_behind(first_byte(kind), &[0, 1, 0]);
        }
        for (kind, reason) in [(4, 0x10), (5, 0x80), (6, 0x92), (7, 0x92)] {
            self.three_behind(first_byte(kind), &[0, 1, reason]);
        }
        self.say("every block of 3 bytes, every 3 bytes of entries, and behind a reason");
    }

    /// Every text of three bytes: a topic, a response topic, key and value of a user property, a reason string, a filter, a topic of an Unsubscribe.
    fn texts_of_three(&mut self) {
        self.three_between(0x30, &[0, 3], &[0]);
        self.three_between(0x30, &[0, 0, 6, 8, 0, 3], &[]);
        self.three_between(0x30, &[0, 0, 8, 38, 0, 3], &[0, 0]);
        self.three_between(0x40, &[0, 1, 0, 8, 38, 0, 0, 0, 3], &[]);
        self.three_between(0x90, &[0, 1, 6, 31, 0, 3], &[0]);
        self.three_between(0x82, &[0, 1, 0, 0, 3], &[0]);
        self.three_between(0xA2, &[0, 1, 0, 0, 3], &[]);
        self.say("every text of 3 bytes");
    }

    fn read_body(&mut self, first: u8, body: &[u8]) {
        let mut s = vec![first];
        frames::spell(&mut s, body.len() as u32, 0);
        s.extend(body);
        self.hold.read(&s, None);
    }

    /// Every options byte, in the first filter and behind another; every reason of every kind, alone and with blocks, good and bad.
    fn every_option_and_reason(&mut self) {
        let tails: [&[u8]; 9] = [
            &[],
            &[0],
            &[0x80],
            &[1],
            &[0, 0xFF],
            &[1, 0xFF],
            &[3, 31, 0, 0],
            &[5, 38, 0, 0, 0, 0],
            &[3, 31, 0, 0, 1],
        ];
        for o in 0..=255 {
            self.read_body(0x82, &[0, 1, 0, 0, 1, b'a', o]);
            self.read_body(0x82, &[0, 1, 0, 0, 0, o]);
            for first in 0..=255 {
                self.read_body(0x82, &[0, 1, 0, 0, 1, b'a', first, 0, 1, b'b', o]);
            }
            for kind in 4..=7 {
                for tail in tails {
                    self.read_body(first_byte(kind), &[&[0, 1, o], tail].concat());
                }
            }
            for kind in [9, 11] {
                for block in tails {
                    self.read_body(first_byte(kind), &[&[0, 1], block, &[o]].concat());
                }
                for first in 0..=255 {
                    self.read_body(first_byte(kind), &[0, 1, 0, first, o]);
                    self.read_body(first_byte(kind), &[0, 1, 3, 31, 0, 0, first, 0, o]);
                }
            }
        }
        self.say("every options byte and every reason");
    }

    /// What stands before the block in each kind, and what may end the frame behind it.
    fn heads() -> [(u8, Place, &'static [u8], &'static [u8]); 10] {
        let of = |kind| place_of(kind).unwrap();
        [
            (0x30, of(3), &[0, 0], &[]),
            (0x32, of(3), &[0, 0, 0, 1], &[7]),
            (0x40, of(4), &[0, 1, 0], &[]),
            (0x50, of(5), &[0, 1, 0x10], &[]),
            (0x62, of(6), &[0, 1, 0x92], &[]),
            (0x70, of(7), &[0, 1, 0], &[]),
            (0x82, of(8), &[0, 1], &[0, 1, b'a', 1]),
            (0x90, of(9), &[0, 1], &[1]),
            (0xA2, of(10), &[0, 1], &[0, 1, b'a']),
            (0xB0, of(11), &[0, 1], &[0x11]),
        ]
    }

    /// Every identifier in every place with values that fit one property or another, the block's length right and off by one.
    fn every_property(&mut self) {
        let values: [&[u8]; 13] = [
            &[],
            &[0],
            &[0, 0],
            &[0, 0, 0, 0],
            &[0, 1, b'a'],
            &[0, 1, 0x80],
            &[0, 1, 0],
            &[0, 1, b'a', 0, 1, b'b'],
            &[0, 1, b'a', 0, 1, 0xFF],
            &[0x80, 0],
            &[0x80, 0x80, 0x80],
            &[0x80, 0x80, 0x80, 0x80],
            &[0xFF, 0xFF, 0xFF, 0x7F],
        ];
        for k in 0..=255u8 {
            for value in values {
                for (before, twice) in [(false, false), (true, false), (false, true)] {
                    for off in [-1i32, 0, 1, 2] {
                        let one: Vec<u8> = [&[k], value].concat();
                        let mut block: Vec<u8> = if before { vec![38, 0, 0, 0, 0] } else { vec![] };
                        (0..1 + twice as u8).for_each(|_| block.extend(&one));
                        let l = (block.len() as i32 + off) as u8;
                        for (first, _, head, end) in Self::heads() {
                            for tail in [end, &[0, 0, 0], &[k, 0, 1, b'a', 1]] {
                                self.read_body(first, &[head, &[l], &block, tail].concat());
                            }
                        }
                    }
                }
            }
        }
        self.say("every property identifier in every place");
    }

    /// A well-formed property.
    fn property(k: u8) -> &'static [u8] {
        match k {
            1 => &[1, 1],
            2 => &[2, 0, 0, 0, 1],
            3 => &[3, 0, 1, b't'],
            8 => &[8, 0, 0],
            9 => &[9, 0, 1, 0xFF],
            11 => &[11, 1],
            31 => &[31, 0, 1, b'r'],
            35 => &[35, 0, 1],
            _ => &[38, 0, 1, b'k', 0, 0],
        }
    }

    /// Every two and three properties of every place behind each other, and the identifier alone of one that came before.
    fn every_double(&mut self) {
        for (first, place, head, end) in Self::heads() {
            for a in model::row(place) {
                for b in model::row(place) {
                    let two = [Self::property(*a), Self::property(*b)].concat();
                    for c in model::row(place) {
                        let three = [&two, Self::property(*c)].concat();
                        for block in [&two, &three, &[&two[..], &[*c]].concat()] {
                            self.read_body(first, &[head, &[block.len() as u8], block, end].concat());
                        }
                    }
                }
            }
        }
        self.say("every two and three properties of every place");
    }

    /// Numbers in every spelling, as R, as L and as an identifier, whole and cut off.
    fn every_spelling(&mut self) {
        let numbers = (0..300).chain([16_383, 16_384, 16_385, 2_097_151, 2_097_152, 268_435_455]);
        for n in numbers {
            for more in 0..4 {
                let mut spelt = vec![];
                frames::spell(&mut spelt, n, more);
                // one byte more, and the top bit of the last byte set
                let mut endless = spelt.clone();
                *endless.last_mut().unwrap() |= 128;
                for number in [&spelt, &endless, &[&endless[..], &[1]].concat()] {
                    self.spelled(number, n);
                }
            }
        }
        self.say("every spelling of numbers");
    }

    fn spelled(&mut self, number: &[u8], n: u32) {
        let body = |len: usize| vec![0; len.min(300)];
        for (first, _, head, end) in Self::heads() {
            // as R
            for len in [0, 3, n as usize] {
                self.hold.read(&[&[first], number, &body(len)].concat(), None);
                self.hold.read(&[&[first], number, &body(len)].concat(), Some(n));
            }
            // as L, of user properties that fill it where they can
            let pairs = [38, 0, 0, 0, 0].repeat(n.min(300) as usize / 5);
            self.read_body(first, &[head, number, &pairs, end].concat());
            self.read_body(first, &[head, number].concat());
            // as an identifier
            let property = [&[11], number].concat();
            self.read_body(first, &[head, &[property.len() as u8], &property, end].concat());
            self.read_body(first, &[head, &[property.len() as u8], &property].concat());
        }
    }

    /// U+0000 at every index of texts of up to 130 bytes, in every text of every kind, and as bytes where these are no text.
    fn every_nul(&mut self) {
        let firsts = |s: &[u8]| (s.len() as u16).to_be_bytes();
        for len in (0..40).chain([47, 48, 63, 64, 65, 79, 80, 81, 128, 130]) {
            for at in 0..=len {
                let mut t = vec![b'a'; len];
                // at the last turn there is none
                if at < len {
                    t[at] = 0;
                }
                let text = [&firsts(&t)[..], &t].concat();
                for (first, place, head, end) in Self::heads() {
                    let texts = model::row(place).iter().filter(|k| matches!(k, 3 | 8 | 9 | 31 | 38));
                    for k in texts {
                        let values = if *k == 38 {
                            vec![[&text, &[0, 0][..]].concat(), [&[0, 0], &text[..]].concat()]
                        } else {
                            vec![text.clone()]
                        };
                        for v in values {
                            let mut body = head.to_vec();
                            frames::spell(&mut body, v.len() as u32 + 1, 0);
                            self.read_body(first, &[&body[..], &[*k], &v[..], end].concat());
                        }
                    }
                }
                self.read_body(0x30, &[&text, &[0][..]].concat());
                self.read_body(0x82, &[&[0, 1, 0], &text[..], &[0]].concat());
                self.read_body(0xA2, &[&[0, 1, 0], &text[..]].concat());
                self.write_nul(&t);
            }
        }
        self.say("U+0000 at every index");
    }

    /// The same text written, in every place.
    fn write_nul(&mut self, t: &[u8]) {
        let lent = Lent {
            present: true,
            bytes: t.to_vec(),
        };
        let pair = |kind, key: bool| Given {
            kind,
            block: true,
            users: t.to_vec(),
            user_lengths: if key { vec![t.len(), 0] } else { vec![0, t.len()] },
            ..entry_of(kind)
        };
        for (kind, _) in KINDS.iter().take(9) {
            self.write_some(&pair(*kind, true));
            self.write_some(&pair(*kind, false));
            if place_of(*kind) == Some(Place::Ack) {
                self.write_some(&Given {
                    block: true,
                    reason_string: lent.clone(),
                    ..entry_of(*kind)
                });
            }
        }
        let publish = Given {
            block: true,
            ..entry_of(3)
        };
        self.write_some(&Given {
            response: lent.clone(),
            ..publish.clone()
        });
        self.write_some(&Given {
            correlation: lent.clone(),
            ..publish.clone()
        });
        self.write_some(&Given {
            content: lent,
            ..publish.clone()
        });
        self.write_some(&Given {
            topic: t.to_vec().into(),
            ..publish
        });
        self.write_some(&Given {
            filters: t.to_vec(),
            filter_lengths: vec![t.len()],
            ..entry_of(8)
        });
        self.write_some(&Given {
            topics: t.to_vec(),
            topic_lengths: vec![t.len()],
            ..entry_of(10)
        });
    }

    /// No limit, or one about R and F.
    fn limit(&mut self, s: &[u8]) -> Option<u32> {
        let f = s.len() as u32;
        match self.dice.below(12) {
            0 => Some(f.saturating_sub(self.dice.below(6) as u32)),
            1 => Some(f.saturating_sub(1)),
            2 => Some(f),
            3 => Some(self.dice.below(8) as u32),
            4 => Some(u32::MAX),
            _ => None,
        }
    }

    /// Places in a stream: that of a list, and such about it.
    fn some_items(&mut self, s: &[u8]) {
        let n = s.len() as u64;
        let (start, len) = match self.dice.below(20) {
            0 => (usize::MAX - self.dice.below(3) as usize, self.dice.below(n + 3) as usize),
            1 => (self.dice.below(n + 3) as usize, usize::MAX - self.dice.below(n + 3) as usize),
            2 => (n as usize, 0),
            _ => (self.dice.below(n + 2) as usize, self.dice.below(n + 2) as usize),
        };
        let nth = if one_in(&mut self.dice, 30) {
            usize::MAX
        } else {
            self.dice.below(4) as usize
        };
        self.hold.items(s, Span { start, len }, nth);
    }

    /// A property block or a run of filters alone, at a place of its own.
    fn items_of(&mut self, f: &Frame) {
        let s = &f.body;
        if let Some(m) = f.marks.get(f.first as usize % f.marks.len().max(1)) {
            let start = (*m).saturating_sub(self.dice.below(3) as usize);
            for len in [s.len().saturating_sub(start), self.dice.below(s.len() as u64 + 1) as usize] {
                let nth = self.dice.below(3) as usize;
                self.hold.items(s, Span { start, len }, nth);
            }
        }
    }

    /// The lists of a frame that is accepted, each item, and the number after the last.
    fn items_of_read(&mut self, s: &[u8]) {
        let mut lists = Lists::default();
        if let (Ok(r), _) = model::read(s, None, &Switches::of(0), &mut lists) {
            let entries = match r.kind {
                8 => Some(r.filters),
                9 | 11 => Some(r.reasons),
                10 => Some(r.topics),
                _ => None,
            };
            for p in r.block.into_iter().chain(entries) {
                (0..=lists.most()).for_each(|n| self.hold.items(s, p, n));
            }
        }
    }

    fn random(&mut self, count: u64) {
        let before = self.hold.reads;
        for i in 0..count {
            let f = frames::well_formed(&mut self.dice);
            let more = frames::winded(&mut self.dice);
            let s = f.stream(more);
            self.hold.read(&s, None);
            let limit = self.limit(&s);
            self.hold.read(&s, limit);
            if i % 16 == 0 {
                self.hold.read_wide(&s, u64::MAX - i);
                self.hold.read_wide(&s, 1 << 32);
                self.items_of_read(&s);
                self.items_of(&f);
            }
            for j in 0..6 {
                let s = frames::damaged(&f, &mut self.dice);
                let limit = self.limit(&s);
                self.hold.read(&s, limit);
                if i % 8 == 0 && j < 2 {
                    self.some_items(&s);
                }
            }
        }
        self.random += self.hold.reads - before;
        self.say("random frames and damaged copies");
    }

    fn write_some(&mut self, g: &Given) {
        let size = model_write::size(g, &Switches::of(0)).unwrap_or(20).min(300_000) as usize;
        let limit = match self.dice.below(8) {
            0 => Some(size.saturating_sub(1) as u32),
            1 => Some(size as u32),
            2 => Some(size as u32 + 1),
            3 => Some(pick(&mut self.dice, &[0, 1, 2, 5, u32::MAX])),
            _ => None,
        };
        let room = match self.dice.below(10) {
            0 => size.saturating_sub(1),
            1 => self.dice.below(size as u64 + 1) as usize,
            2 => size + 1 + self.dice.below(9) as usize,
            3 => 0,
            _ => size,
        };
        if let Some(frame) = self.hold.write(g, limit, room) {
            self.hold.read(&frame, None);
        }
    }

    fn writes(&mut self, count: u64) {
        for i in 0..count {
            let g = given::record(&mut self.dice, i % 2_000 == 7);
            self.write_some(&g);
        }
        self.say("records written, and read again");
    }

    /// Every options byte, reason and QoS written, with no other fault and with one before or behind it.
    fn every_write(&mut self) {
        for o in 0..=255 {
            for faults in 0..4 {
                self.write_byte(o, faults & 1 != 0, faults & 2 != 0);
            }
        }
        self.say("every options byte, reason and QoS written");
    }

    /// The byte in each place that it has in a record; `bad` gives the block a text that is none, `none` takes away what the block belongs to.
    fn write_byte(&mut self, o: u8, bad: bool, none: bool) {
        let faulty = |g: Given| Given {
            block: bad && !none,
            users: if bad { vec![0xFF] } else { vec![] },
            user_lengths: if bad { vec![1, 0] } else { vec![] },
            ..g
        };
        let filter = Given {
            filters: vec![b'a'],
            filter_lengths: vec![1],
            options: vec![o],
            ..entry_of(8)
        };
        self.write_some(&faulty(filter));
        for kind in 4..=7 {
            for block in [false, true] {
                let ack = Given {
                    reason: o,
                    ..entry_of(kind)
                };
                let ack = faulty(ack);
                self.write_some(&Given {
                    block: ack.block || block,
                    ..ack
                });
            }
        }
        for kind in [9, 11] {
            for id in 0..2 {
                for reasons in [vec![o], vec![0, o], vec![o, 3]] {
                    self.write_some(&faulty(Given {
                        id,
                        reasons,
                        ..entry_of(kind)
                    }));
                }
            }
        }
        for block in [false, true] {
            self.write_some(&Given {
                kind: 3,
                qos: o,
                id: o as u16 % 3,
                block,
                ..Given::default()
            });
        }
    }

    /// The smallest records of docs/DIFFERENCES.md, and about the largest R.
    fn large_writes(&mut self) {
        let empty = Given {
            kind: 3,
            ..Given::default()
        };
        let topic = |n: usize| bytes::Bytes::from(vec![b'x'; n]);
        for n in [65_535, 65_536, 65_537, 131_072] {
            let g = Given {
                topic: topic(n),
                ..empty.clone()
            };
            for limit in [None, Some(5)] {
                self.hold.write(&g, limit, n + 10);
            }
        }
        let most = 268_435_455;
        // a part of the whole has one of each
        let taken = if self.share == 100 { 3 } else { 1 };
        let payloads = [
            (most - 2, &[None, Some(5), Some(u32::MAX)][..]),
            (most - 3, &[None, Some(5), Some(268_435_459), Some(268_435_460)]),
            (most + 70_000, &[None, Some(0)]),
        ];
        for (bytes, limits) in payloads.into_iter().take(taken) {
            let g = Given {
                payload: bytes::Bytes::from(vec![0; bytes]),
                ..empty.clone()
            };
            for limit in limits {
                self.hold.write(&g, *limit, 16);
            }
            self.hold.write(&Given { qos: 1, ..g.clone() }, None, 16);
        }
        let g = Given {
            payload: bytes::Bytes::from(vec![0; most - 3]),
            ..empty.clone()
        };
        if let Some(frame) = (taken == 3).then(|| self.hold.write(&g, None, most + 5)).flatten() {
            self.hold.read(&frame, None);
            self.hold.read(&frame[..frame.len() - 1], None);
        }
        for count in [4_096, 4_095, 4_097].into_iter().take(taken) {
            // filters, topics and pairs of 65,535 bytes, whose sum is about the largest R
            let g = Given {
                kind: 8,
                filters: vec![b'x'; 65_535 * count],
                filter_lengths: vec![65_535; count],
                options: vec![0; count],
                ..Given::default()
            };
            self.hold.write(&g, None, 16);
            self.hold.write(&g, Some(7), 16);
            let topics = Given {
                topics: g.filters,
                topic_lengths: g.filter_lengths,
                ..entry_of(10)
            };
            self.hold.write(&topics, None, 16);
            self.hold.write(&topics, Some(7), 16);
            let mut pairs = Given {
                block: true,
                users: topics.topics,
                user_lengths: vec![65_535; count / 2 * 2],
                ..Given::default()
            };
            for kind in [4, 9, 10, 5, 6, 7, 11].into_iter().take(3 * taken) {
                let with = Given {
                    users: std::mem::take(&mut pairs.users),
                    user_lengths: pairs.user_lengths.clone(),
                    block: true,
                    ..entry_of(kind)
                };
                self.hold.write(&with, None, 16);
                pairs.users = with.users;
            }
        }
        for bytes in [most - 2, most - 3, most + 70_000].into_iter().take(taken) {
            let g = Given {
                reasons: vec![0; bytes],
                ..entry_of(9)
            };
            self.hold.write(&g, None, 16);
            self.hold.write(&g, Some(5), 16);
        }
        self.say("records about the largest R");
    }
}

/// A record of the kind that is accepted, with one entry where it needs one and no block.
fn entry_of(kind: u8) -> Given {
    let g = Given { kind, ..Given::default() };
    match kind {
        8 => Given {
            filter_lengths: vec![0],
            options: vec![0],
            ..g
        },
        9 | 11 => Given { reasons: vec![0], ..g },
        10 => Given {
            topic_lengths: vec![0],
            ..g
        },
        _ => g,
    }
}

/// The frames of 01's table, and the smallest ones of docs/DIFFERENCES.md.
const LISTED: [&str; 71] = [
    "",
    "30",
    "30 80",
    "30 80 80 80 80",
    "F0 00",
    "30 00",
    "C0 00",
    "30 08 00 03 61 2F 62 00 68 69",
    "32 06 00 01 61 00 00 00",
    "30 0B 00 01 61 06 0B 01 0B 02 0B 03 07",
    "30 06 00 01 61 01 01 00",
    "30 03 00 01 61",
    "82 07 00 01 00 00 01 61 01",
    "82 07 00 01 00 00 01 61 33",
    "82 03 00 01 00",
    "40 02 00 0A",
    "40 03 00 0A 10",
    "30 06 00 00 03 0B 01 00",
    "82 08 00 00 03 0B 01 00 00 00",
    "30 05 00 00 01 01 00",
    "30 03 00 00 01",
    "30 08 00 00 04 0B 80 80 80 80",
    "30 02 00 00",
    "82 02 00 00",
    "30 07 00 00 04 0B 80 80 80",
    "30 05 00 00 03 0B 01",
    "E0 01 00",
    "E0 00",
    "36 00",
    "40 03 00 01 01",
    "40 05 00 01 01 01 FF",
    "40 05 00 01 00 00 FF",
    "40 04 00 00 00 01",
    "40 04 00 00 00 80",
    "40 06 00 01 00 01 FF 00",
    "D0 02 01 02",
    "F0 05",
    // 02, P1
    "50 02 00 0A",
    "62 02 00 0A",
    "70 02 00 0A",
    "90 04 00 01 00 00",
    "A2 05 00 01 00 00 00",
    "B0 04 00 01 00 11",
    "50 03 00 00 01",
    "62 03 00 00 01",
    "70 03 00 00 01",
    "50 05 00 00 01 01 FF",
    "50 05 00 00 00 00 FF",
    "90 02 00 00",
    "90 03 00 00 00",
    "A2 03 00 00 00",
    "B0 03 00 00 00",
    "90 04 00 00 00 03",
    "B0 04 00 00 00 01",
    "90 04 00 00 01 00",
    "B0 02 00 00",
    "A2 04 00 00 01 00",
    // 02, P8
    "30 80 00",
    "C0 80 00",
    "30 04 00 00 80 00",
    "30 06 00 00 03 0B 81 00",
    "82 07 00 00 80 00 00 00 00",
    // 02, P9
    "30 06 00 00 03 01 00 01",
    "30 07 00 00 04 01 00 01 00",
    "82 0A 00 00 04 0B 01 0B 01 00 00 00",
    "40 0A 00 00 00 06 1F 00 00 1F 00 00",
    "30 05 00 00 02 0B 00",
    "82 08 00 00 02 0B 00 00 00 00",
    "82 07 00 00 00 00 01 00 00",
    "A2 06 00 00 00 00 01 00",
    "30 07 00 00 04 03 00 01 00",
];

fn unhex(s: &str) -> Vec<u8> {
    s.split_whitespace().map(|b| u8::from_str_radix(b, 16).unwrap()).collect()
}

/// A record with no entry.
fn of_none(kind: u8) -> Given {
    Given { kind, ..Given::default() }
}

/// The records of docs/DIFFERENCES.md, and whether each goes under a limit.
fn listed_records() -> Vec<(Given, Option<u32>)> {
    let publish = Given {
        kind: 3,
        ..Given::default()
    };
    let zero = Given { qos: 1, ..publish.clone() };
    let identifier = Given {
        block: true,
        ids: vec![268_435_456],
        ..publish.clone()
    };
    let long = Given {
        topic: vec![b'x'; 65_536].into(),
        ..publish.clone()
    };
    let most = Given {
        payload: vec![0; 268_435_453].into(),
        ..publish.clone()
    };
    let bare = Given {
        kind: 8,
        ..Given::default()
    };
    let plain = Given {
        kind: 4,
        id: 10,
        ..Given::default()
    };
    let text = Given {
        kind: 8,
        filters: vec![0xFF],
        filter_lengths: vec![1],
        options: vec![0],
        ..Given::default()
    };
    let extra = Given {
        sid: Some(1),
        ..bare.clone()
    };
    let words = [
        (extra, None),
        (zero, None),
        (identifier, None),
        (most.clone(), None),
        (long.clone(), None),
        (long, Some(5)),
        (bare, None),
        (most, Some(5)),
        (plain, None),
        (text, None),
        // 02, P1
        (Given { reason: 1, ..entry_of(6) }, None),
        (
            Given {
                reasons: vec![3],
                ..entry_of(9)
            },
            None,
        ),
        (of_none(9), None),
        (of_none(10), None),
        (of_none(11), None),
        // 02, P9
        (
            Given {
                block: true,
                ids: vec![0],
                ..entry_of(3)
            },
            None,
        ),
        (
            Given {
                block: true,
                sid: Some(0),
                ..entry_of(8)
            },
            None,
        ),
        (
            Given {
                topics: vec![0],
                topic_lengths: vec![1],
                ..entry_of(10)
            },
            None,
        ),
    ];
    let pings = [12, 13]
        .into_iter()
        .flat_map(|kind| [None, Some(1)].map(|limit| (Given { kind, ..Given::default() }, limit)));
    words.into_iter().chain(pings).collect()
}

fn listed(run: &mut Run) {
    for (g, limit) in listed_records() {
        run.hold.write(&g, limit, 16);
        run.hold.write(&g, limit, 0);
    }
    for s in LISTED {
        let s = unhex(s);
        for limit in [None, Some(0), Some(3), Some(4), Some(7), Some(8), Some(9), Some(10), Some(u32::MAX)] {
            run.hold.read(&s, limit);
        }
        run.items_of_read(&s);
    }
    // entry 12; the rows of the gate's corpus stay as they are
    if run.hold.corpus.is_none() {
        run.hold.items(&[], Span { start: 0, len: 0 }, 0);
    }
    run.say("the frames of 01 and of docs/DIFFERENCES.md");
}

/// Chooses rows for the gate: short inputs, every bucket filled up to a cap.
fn corpus(run: &mut Run, file: &str, cap: u32) {
    run.hold.corpus = Some(Corpus::new(cap));
    listed(run);
    run.every_option_and_reason();
    run.every_property();
    run.every_double();
    run.every_spelling();
    run.every_nul();
    for first in 0..=255u8 {
        for body in [&[0][..], &[0, 0], &[0, 0, 0], &[0x80, 1, 2]] {
            run.read_body(first, body);
        }
    }
    run.every_write();
    run.random(60_000);
    run.writes(120_000);
    let x = vec![b'x'; 65_536];
    let text = |bytes: &[u8]| Lent {
        present: true,
        bytes: bytes.to_vec(),
    };
    let long = [
        Given {
            kind: 3,
            topic: x.clone().into(),
            ..Given::default()
        },
        Given {
            kind: 4,
            block: true,
            reason_string: text(&x),
            ..Given::default()
        },
        Given {
            kind: 8,
            filters: x.clone(),
            filter_lengths: vec![65_536],
            options: vec![0],
            ..Given::default()
        },
        Given {
            topics: x,
            topic_lengths: vec![65_536],
            ..entry_of(10)
        },
    ];
    run.hold.corpus.as_mut().unwrap().long = true;
    for g in &long {
        run.hold.write(g, Some(5), 8);
    }
    let kept = run.hold.corpus.take().unwrap();
    let bytes = kept.bytes();
    if run.hold.failures > 0 {
        return;
    }
    std::fs::write(file, &bytes).unwrap();
    println!("{file}: {} rows, {} bytes", kept.len(), bytes.len());
    let mut types: BTreeMap<u8, u64> = BTreeMap::new();
    let mut refusals: BTreeMap<u8, u64> = BTreeMap::new();
    let mut classes: BTreeMap<Entries, u64> = BTreeMap::new();
    for ((kind, no, class), count) in &kept.tally {
        *types.entry(*kind).or_default() += count;
        *refusals.entry(*no).or_default() += count;
        *classes.entry(*class).or_default() += count;
    }
    println!("rows by type {types:?}\nrows by refusal {refusals:?}");
    for (class, count) in classes {
        println!("{count:7} rows of class {}", entries(class));
    }
}

fn report(run: &Run) {
    let h = &run.hold;
    let seconds = run.start.elapsed().as_secs();
    println!(
        "\n{} reads, {} items, {} writes with their sizes, {seconds} s",
        h.reads, h.items, h.writes
    );
    println!("of the reads {} are every short input of a form, {} random frames and damaged copies", run.short, run.random);
    println!("answers to reads, by refusal (0: accepted): {:?}", &h.read_answers[..24]);
    println!("answers to writes, by refusal (0: accepted): {:?}", &h.write_answers[..24]);
    println!("panics of the crate: {}", h.panics);
    for (what, classes) in [("reads", &h.read_classes), ("writes", &h.write_classes)] {
        for (class, seen) in classes {
            println!("{:10} {what} of class {}", seen.count, entries(*class));
            if *class != 0 {
                println!("           {}", seen.what.chars().take(600).collect::<String>());
            }
        }
    }
}

fn main() {
    let mut args = std::env::args().skip(1);
    let (mut seed, mut share, mut part, mut file, mut cap) = (2026u64, 100, (0, 1), None, 14);
    let (mut only_listed, mut stop) = (false, false);
    while let Some(a) = args.next() {
        let mut value = || args.next().unwrap_or_else(|| panic!("{a} wants a value"));
        match a.as_str() {
            "--seed" => seed = value().parse().unwrap(),
            "--share" => share = value().parse().unwrap(),
            "--part" => {
                let of = value();
                let (i, n) = of.split_once('/').expect("I/N");
                part = (i.parse::<u32>().unwrap() - 1, n.parse().unwrap());
                assert!(part.0 < part.1, "a part of {}", part.1);
            }
            "--cap" => cap = value().parse().unwrap(),
            "--corpus" => file = Some(value()),
            "--listed" => only_listed = true,
            "--stop" => stop = true,
            _ => panic!("what is {a}?"),
        }
    }
    std::panic::set_hook(Box::new(|_| {}));
    // each part draws other frames and records
    seed += part.0 as u64;
    println!("the port: {}; seed {seed}; {share} percent; part {} of {}", port::name(), part.0 + 1, part.1);
    let mut run = Run {
        hold: Hold::new(),
        dice: Dice::new(seed),
        start: Instant::now(),
        share,
        part,
        short: 0,
        random: 0,
    };
    run.hold.stop = stop;
    match file {
        Some(file) => corpus(&mut run, &file, cap),
        None if only_listed => {
            run.hold.show = true;
            listed(&mut run);
        }
        None => {
            // what is small is the first part's
            if run.is_first() {
                listed(&mut run);
                run.every_option_and_reason();
                run.every_property();
                run.every_double();
                run.every_spelling();
                run.every_nul();
                run.every_write();
                run.large_writes();
            }
            run.writes(run.scaled(5_000_000));
            run.random(run.scaled(4_000_000));
            run.streams();
            run.short_bodies();
            run.bodies_behind();
            run.bodies_of_three();
            run.bodies_between();
            run.texts_of_three();
        }
    }
    report(&run);
    if run.hold.failures > 0 {
        println!("FAILED: {} differences on no list", run.hold.failures);
        std::process::exit(1);
    }
    println!("no unlisted difference");
}
