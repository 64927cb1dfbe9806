//! What is read: numbers, texts and streams, the same in every run.
use crate::codec::{Publish, PublishProperties};
use crate::QoS;
use bytes::{Bytes, BytesMut};

/// A small generator of numbers (xorshift), so that every run has the same bytes.
pub struct Dice(u64);

impl Dice {
    pub fn new(seed: u64) -> Self {
        Dice(seed)
    }
    pub fn below(&mut self, n: u64) -> u64 {
        self.0 ^= self.0 << 13;
        self.0 ^= self.0 >> 7;
        self.0 ^= self.0 << 17;
        (self.0 >> 11) % n
    }
}

/// A variable length number in its shortest spelling.
pub fn spell(out: &mut Vec<u8>, mut n: u32) {
    while n >= 128 {
        out.push((n % 128 + 128) as u8);
        n /= 128;
    }
    out.push(n as u8);
}

/// `count` variable length numbers; `bytes` says how many bytes the i-th has.
pub fn numbers(count: usize, mut bytes: impl FnMut(usize, &mut Dice) -> u64) -> Vec<u8> {
    let mut dice = Dice::new(3);
    let mut out = vec![];
    for i in 0..count {
        let k = bytes(i, &mut dice) as u32;
        let low = if k == 1 { 0 } else { 128u64.pow(k - 1) };
        spell(&mut out, (low + dice.below(128u64.pow(k) - low)) as u32);
    }
    out
}

/// `len` bytes of text; one character in `every` is not ASCII (0: none).
pub fn text(len: usize, every: u64) -> Vec<u8> {
    let other: Vec<char> = "äößéñλΩжя€日本語한𝄞😀".chars().collect();
    let mut dice = Dice::new(5);
    let mut out = String::new();
    while out.len() < len {
        let c = if every > 0 && dice.below(every) == 0 {
            other[dice.below(other.len() as u64) as usize]
        } else {
            (b' ' + dice.below(95) as u8) as char
        };
        out.push(if out.len() + c.len_utf8() <= len { c } else { '.' });
    }
    out.into_bytes()
}

/// The topic of P13's records.
pub const TOPIC: &[u8] = b"line3/armour/length";

/// P13: `count` Publish records with 40-byte payloads and two user properties.
pub fn records(count: usize, qos: QoS) -> Vec<Publish> {
    let record = |i: usize| {
        let mut payload = format!("{{\"seq\":{:08},\"len\":{:010.3},\"ok\":1}}", i, i as f64 * 0.125).into_bytes();
        payload.resize(40, b'.');
        Publish {
            dup: false,
            qos,
            retain: false,
            topic: Bytes::from_static(TOPIC),
            pkid: if qos == QoS::AtMostOnce { 0 } else { (i % 65_535 + 1) as u16 },
            payload: Bytes::from(payload),
            properties: Some(PublishProperties {
                user_properties: vec![("unit".into(), "m".into()), ("gateway".into(), "gw-07".into())],
                ..Default::default()
            }),
        }
    };
    (0..count).map(record).collect()
}

/// The frames of these records, one behind the other.
pub fn publishes(count: usize, qos: QoS) -> BytesMut {
    let mut out = BytesMut::new();
    for publish in records(count, qos) {
        publish.write(&mut out).unwrap();
    }
    out
}

fn frame(first: u8, body: Vec<u8>) -> Vec<u8> {
    let mut out = vec![first];
    spell(&mut out, body.len() as u32);
    out.extend(body);
    out
}

/// A Publish whose block is `count` times the same property.
fn publish_of(count: usize, property: &[u8]) -> Vec<u8> {
    let mut body = b"\0\x01a".to_vec();
    spell(&mut body, (count * property.len()) as u32);
    body.extend(property.repeat(count));
    frame(0x30, body)
}

/// A Publish with `count` empty user properties; five bytes each.
pub fn users(count: usize) -> Vec<u8> {
    publish_of(count, &[38, 0, 0, 0, 0])
}

/// A Publish with `count` subscription identifiers.
pub fn identifiers(count: usize) -> Vec<u8> {
    publish_of(count, &[11, 1])
}

/// A Subscribe with `count` filters.
pub fn filters(count: usize) -> Vec<u8> {
    let mut body = vec![0, 1, 0];
    body.extend([0, 1, b'a', 1].repeat(count));
    frame(0x82, body)
}
