//! Frames: well-formed ones of every kind with every property, and damaged copies of them.
use super::model::{is_list, reasons, row};
use super::shape::{first_byte, place_of, Place};
use crate::streams::Dice;

/// A frame before its length is spelled: the first byte, the body, and where in the body lengths stand.
#[derive(Clone)]
pub struct Frame {
    pub first: u8,
    pub body: Vec<u8>,
    pub marks: Vec<usize>,
}

pub const TEXTS: [&str; 11] = [
    "",
    "a",
    "a/b",
    "hi",
    "ä",
    "€",
    "😀",
    "unit",
    "m",
    "line3/armour/length",
    "{\"n\":1}",
];
/// Bytes that are no text, and some that are by a hair.
pub const BROKEN: [&[u8]; 10] = [
    b"\x80",
    b"\xC0\x80",
    b"\xC2",
    b"\xED\xA0\x80",
    b"\xE0\x9F\xBF",
    b"\xF4\x90\x80\x80",
    b"\xF0\x8F\xBF\xBF",
    b"\xFF",
    b"a\xE2\x82",
    b"\xEF\xBF\xBF",
];
/// Texts that hold U+0000: alone, in front, behind, between others, behind eight and sixteen bytes of ASCII.
pub const WITH_NUL: [&str; 7] = ["\0", "\0a", "a\0", "ä\0b", "12345678\0", "1234567890123456\0x", "€\0"];
pub const NUMBERS: [u32; 8] = [1, 127, 128, 16_383, 16_384, 2_097_151, 2_097_152, 268_435_455];

pub fn pick<T: Copy>(d: &mut Dice, of: &[T]) -> T {
    of[d.below(of.len() as u64) as usize]
}

/// One in `n`.
pub fn one_in(d: &mut Dice, n: u64) -> bool {
    d.below(n) == 0
}

pub fn text(d: &mut Dice) -> Vec<u8> {
    if one_in(d, 100) {
        return pick(d, &WITH_NUL).as_bytes().to_vec();
    }
    match d.below(40) {
        0 => (0..d.below(200)).map(|_| b' ' + d.below(95) as u8).collect(),
        1 => "😀€".repeat(d.below(30) as usize).into_bytes(),
        2..=8 => (0..d.below(9)).map(|_| b'a' + d.below(26) as u8).collect(),
        _ => pick(d, &TEXTS).as_bytes().to_vec(),
    }
}

pub fn bytes(d: &mut Dice, most: u64) -> Vec<u8> {
    (0..d.below(most + 1)).map(|_| d.below(256) as u8).collect()
}

/// A subscription identifier, now and then 0.
pub fn identifier(d: &mut Dice) -> u32 {
    if one_in(d, 40) {
        0
    } else {
        pick(d, &NUMBERS)
    }
}

/// A variable length number with so many bytes more than it needs, four at most.
pub fn spell(out: &mut Vec<u8>, n: u32, more: usize) {
    let start = out.len();
    crate::streams::spell(out, n);
    for _ in 0..more.min(4 + start - out.len()) {
        *out.last_mut().unwrap() += 128;
        out.push(0);
    }
}

/// How many bytes a number is too long: mostly none.
pub fn winded(d: &mut Dice) -> usize {
    if one_in(d, 50) {
        1 + d.below(3) as usize
    } else {
        0
    }
}

impl Frame {
    fn string(&mut self, s: &[u8]) {
        self.marks.push(self.body.len() + 1);
        self.body.extend((s.len() as u16).to_be_bytes());
        self.body.extend(s);
    }
    fn property(&mut self, k: u8, d: &mut Dice) {
        self.body.push(k);
        match k {
            1 => self.body.push(d.below(3) as u8),
            2 => self.body.extend((d.below(1 << 32) as u32).to_be_bytes()),
            35 => self.body.extend((d.below(65_536) as u16).to_be_bytes()),
            9 => self.string(&bytes(d, 6)),
            11 => {
                let (n, more) = (identifier(d), winded(d));
                spell(&mut self.body, n, more);
            }
            38 => {
                self.string(&text(d));
                self.string(&text(d));
            }
            _ => self.string(&text(d)),
        }
    }
    fn block(&mut self, place: Place, d: &mut Dice) {
        let mut inner = Frame {
            first: 0,
            body: vec![],
            marks: vec![],
        };
        let count = match d.below(8) {
            0 | 1 => 0,
            2 => d.below(10),
            _ => 1 + d.below(3),
        };
        let mut met = 0u64;
        for _ in 0..count {
            let k = pick(d, row(place));
            // a single-valued one is seldom doubled
            if met >> k & 1 == 0 || is_list(place, k) || one_in(d, 20) {
                met |= 1 << k;
                inner.property(k, d);
            }
        }
        self.marks.push(self.body.len());
        spell(&mut self.body, inner.body.len() as u32, winded(d));
        self.marks.extend(inner.marks.iter().map(|m| m + self.body.len()));
        self.body.extend(inner.body);
    }
    /// The stream, its length spelled with so many bytes more than it needs.
    pub fn stream(&self, more: usize) -> Vec<u8> {
        let mut out = vec![self.first];
        spell(&mut out, self.body.len() as u32, more);
        out.extend(&self.body);
        out
    }
}

/// A sentence of the grammar, but for a doubled property, an identifier 0, U+0000 and a number that is too long now and then.
pub fn well_formed(d: &mut Dice) -> Frame {
    let mut f = Frame {
        first: 0,
        body: vec![],
        marks: vec![],
    };
    let kind = pick(d, &[3, 3, 3, 3, 3, 3, 3, 4, 5, 6, 7, 8, 8, 8, 9, 9, 10, 10, 11, 11, 12, 13]);
    f.first = if one_in(d, 4) {
        kind << 4 | d.below(16) as u8
    } else {
        first_byte(kind)
    };
    let id = if one_in(d, 8) { 0 } else { 1 + d.below(65_535) as u16 };
    match kind {
        3 => {
            let qos = d.below(3) as u8;
            f.first = 0x30 + d.below(2) as u8 * 8 + qos * 2 + d.below(2) as u8;
            let topic = if one_in(d, 8) { bytes(d, 5) } else { text(d) };
            f.string(&topic);
            if qos > 0 {
                f.body.extend(id.max(1).to_be_bytes());
            }
            f.block(Place::Publish, d);
            f.body.extend(bytes(d, 8));
            return f;
        }
        12 | 13 => {
            f.body = if one_in(d, 3) { bytes(d, 4) } else { vec![] };
            return f;
        }
        _ => {}
    }
    f.body.extend(id.to_be_bytes());
    let place = place_of(kind).unwrap();
    let count = 1 + d.below(3);
    match kind {
        4..=7 => {
            let reason = pick(d, reasons(kind));
            match d.below(8) {
                0 => {}
                1 => f.body.push(reason),
                _ => {
                    f.body.push(reason);
                    f.block(place, d);
                }
            }
        }
        8 => {
            f.block(place, d);
            for _ in 0..count {
                f.string(&text(d));
                f.body
                    .push(d.below(3) as u8 + d.below(4) as u8 * 4 + d.below(3) as u8 * 16 + d.below(4) as u8 * 64);
            }
        }
        10 => {
            f.block(place, d);
            (0..count).for_each(|_| f.string(&text(d)));
        }
        _ => {
            f.block(place, d);
            (0..count).for_each(|_| f.body.push(pick(d, reasons(kind))));
        }
    }
    f
}

/// A byte that is likely to matter.
fn byte(d: &mut Dice) -> u8 {
    match d.below(4) {
        0 => d.below(256) as u8,
        1 => pick(d, &[1, 2, 3, 8, 9, 11, 31, 35, 38]),
        2 => pick(d, &[0, 0x7F, 0x80, 0xFF, 0x33, 0x30, 0x03, 0x92, 0x8F, 0xA2, 0x11]),
        _ => d.below(12) as u8,
    }
}

/// Something done to the body, whose length is put right afterwards.
fn harm(f: &mut Frame, d: &mut Dice) {
    let n = f.body.len() as u64;
    match d.below(9) {
        0 if n > 0 => f.body.truncate(d.below(n) as usize),
        1 => f.body.extend(bytes(d, 4)),
        2 if n > 0 => f.body[d.below(n) as usize] ^= 1 << d.below(8),
        3 if n > 0 => f.body[d.below(n) as usize] = byte(d),
        4 | 5 if !f.marks.is_empty() => {
            let m = pick(d, &f.marks);
            if let Some(b) = f.body.get_mut(m) {
                *b = if one_in(d, 2) { b.wrapping_add(1) } else { b.wrapping_sub(1) };
            }
        }
        6 if n > 0 => {
            f.body.remove(d.below(n) as usize);
        }
        7 => f.body.insert(d.below(n + 1) as usize, byte(d)),
        8 => {
            let other = well_formed(d);
            let (a, b) = (d.below(n + 1) as usize, d.below(other.body.len() as u64 + 1) as usize);
            f.body.truncate(a);
            f.body.extend(&other.body[b..]);
        }
        // another kind, or other flags
        _ if one_in(d, 2) => f.first = f.first & 0x0F | (d.below(16) as u8) << 4,
        _ => f.first = f.first & 0xF0 | d.below(16) as u8,
    }
}

/// A damaged copy, as a stream: its body harmed, or the stream cut, grown or flipped so that its length is off.
pub fn damaged(f: &Frame, d: &mut Dice) -> Vec<u8> {
    let mut f = f.clone();
    for _ in 0..1 + d.below(3) {
        harm(&mut f, d);
    }
    let mut s = f.stream(winded(d));
    let n = s.len() as u64;
    match d.below(12) {
        0 => s.truncate(d.below(n) as usize),
        1 => s.extend(bytes(d, 5)),
        2 => s[1] = s[1].wrapping_add(1),
        3 => s[1] = s[1].wrapping_sub(1),
        4 => s[0] = d.below(256) as u8,
        5 => s[d.below(n) as usize] = byte(d),
        _ => {}
    }
    s
}
