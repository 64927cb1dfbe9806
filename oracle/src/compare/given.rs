//! Records to write: such that are accepted, and such that meet each refusal.
use super::frames::{bytes, identifier, one_in, pick, text, BROKEN};
use super::model::reasons;
use super::shape::{is_ack, is_reply, Given, Lent};
use crate::streams::Dice;
use bytes::Bytes;

/// Text; now and then none, and rarely a long one.
fn word(d: &mut Dice, long: bool) -> Vec<u8> {
    if long && one_in(d, 4) {
        return vec![b'x'; pick(d, &[65_535, 65_536, 65_537, 70_000])];
    }
    if one_in(d, 60) {
        return pick(d, &BROKEN).to_vec();
    }
    text(d)
}

fn lent(d: &mut Dice, long: bool) -> Lent {
    let present = one_in(d, 2);
    let bytes = if present || one_in(d, 200) { word(d, long) } else { vec![] };
    Lent { present, bytes }
}

fn number(d: &mut Dice) -> u32 {
    match d.below(12) {
        0 => 268_435_456,
        1 => u32::MAX,
        _ => identifier(d),
    }
}

/// A reason that the kind lists, mostly.
fn reason(d: &mut Dice, kind: u8) -> u8 {
    if one_in(d, 60) {
        d.below(256) as u8
    } else {
        pick(d, reasons(kind))
    }
}

fn run(d: &mut Dice, count: u64, long: bool) -> (Vec<u8>, Vec<usize>) {
    let words: Vec<Vec<u8>> = (0..count).map(|_| word(d, long)).collect();
    (words.concat(), words.iter().map(|w| w.len()).collect())
}

/// Now and then a list of lengths that does not fit.
fn unfit(lengths: &mut Vec<usize>, d: &mut Dice) {
    match d.below(400) {
        0 => lengths.push(0),
        1 => lengths.push(d.below(3) as usize),
        2 => {
            lengths.pop();
        }
        3 => lengths.iter_mut().take(1).for_each(|n| *n += 1),
        4 => lengths.extend([usize::MAX, 1]),
        5 => lengths.push(usize::MAX),
        _ => {}
    }
}

fn some<T>(d: &mut Dice, v: T) -> Option<T> {
    one_in(d, 2).then_some(v)
}

/// Only what a kind has is given to it. With `long`, some strings have 65,535 bytes and more.
pub fn record(d: &mut Dice, long: bool) -> Given {
    let mut g = Given {
        kind: pick(d, &[3, 3, 3, 3, 3, 3, 4, 5, 6, 7, 8, 8, 8, 9, 9, 10, 10, 10, 11, 11, 12, 13]),
        ..Given::default()
    };
    if g.kind > 11 {
        return g;
    }
    g.id = if one_in(d, 8) { 0 } else { d.below(65_536) as u16 };
    g.block = !one_in(d, 4);
    g.off = if one_in(d, 50) { d.below(16) as u8 } else { 0 };
    let filled = g.block || one_in(d, 40);
    if filled && !one_in(d, 10) {
        let pairs = d.below(4);
        (g.users, g.user_lengths) = run(d, pairs * 2, long);
        unfit(&mut g.user_lengths, d);
    }
    match g.kind {
        3 => {
            (g.dup, g.retain) = (one_in(d, 2), one_in(d, 2));
            g.qos = if one_in(d, 100) { d.below(256) as u8 } else { d.below(3) as u8 };
            g.topic = Bytes::from(if one_in(d, 8) { bytes(d, 5) } else { word(d, long) });
            g.payload = Bytes::from(if one_in(d, 30) {
                vec![7; d.below(300) as usize]
            } else {
                bytes(d, 8)
            });
            if filled {
                let (a, b, c) = (d.below(256) as u8, d.below(1 << 32) as u32, d.below(65_536) as u16);
                (g.format, g.expiry, g.alias) = (some(d, a), some(d, b), some(d, c));
                (g.response, g.correlation, g.content) = (lent(d, long), lent(d, long), lent(d, long));
                let count = d.below(4) * d.below(2);
                g.ids = (0..count).map(|_| number(d)).collect();
            }
        }
        8 => {
            if filled {
                let n = number(d);
                g.sid = some(d, n);
            }
            let count = if one_in(d, 12) { 0 } else { 1 + d.below(3) };
            (g.filters, g.filter_lengths) = run(d, count, long);
            unfit(&mut g.filter_lengths, d);
            g.options = (0..count)
                .map(|_| d.below(256) as u8 & pick(d, &[0xEE, 0xDD, 0xEC, 0xCE, 0xFF]))
                .collect();
            if one_in(d, 200) {
                g.options.push(0);
            }
        }
        10 => {
            let count = if one_in(d, 12) { 0 } else { 1 + d.below(3) };
            (g.topics, g.topic_lengths) = run(d, count, long);
            unfit(&mut g.topic_lengths, d);
        }
        _ => {}
    }
    if is_ack(g.kind) {
        g.reason = if one_in(d, 3) { 0 } else { reason(d, g.kind) };
    }
    if is_reply(g.kind) {
        let count = if one_in(d, 12) { 0 } else { 1 + d.below(4) };
        g.reasons = (0..count).map(|_| reason(d, g.kind)).collect();
    }
    if filled && (is_ack(g.kind) || is_reply(g.kind)) {
        g.reason_string = lent(d, long);
    }
    g
}
