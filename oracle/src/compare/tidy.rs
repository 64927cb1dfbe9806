//! The tidy form of a frame (02, P14) by the model: "writing the record that was read". And the same record in other bytes.
use super::frames::{one_in, spell};
use super::model::{self, Switches};
use super::model_write::{self, parts};
use super::shape::*;
use crate::streams::Dice;
use bytes::Bytes;

fn lent(p: Option<Span>, s: &[u8]) -> Lent {
    Lent { present: p.is_some(), bytes: p.map_or(vec![], |p| p.of(s).to_vec()) }
}

fn run(places: impl Iterator<Item = Span>, s: &[u8]) -> (Vec<u8>, Vec<usize>) {
    let (mut bytes, mut lengths) = (vec![], vec![]);
    for p in places {
        bytes.extend(p.of(s));
        lengths.push(p.len);
    }
    (bytes, lengths)
}

/// What is handed over to write the record that was read of `s`: its fields, and no place.
pub fn given(r: &Record, lists: &Lists, s: &[u8]) -> Given {
    let (users, user_lengths) = run(lists.users.iter().flat_map(|(k, v)| [*k, *v]), s);
    let (filters, filter_lengths) = run(lists.filters.iter().map(|(path, _)| *path), s);
    let (topics, topic_lengths) = run(lists.topics.iter().copied(), s);
    Given {
        kind: r.kind,
        dup: r.dup,
        qos: r.qos,
        retain: r.retain,
        id: r.id,
        block: r.block.is_some(),
        format: r.format,
        expiry: r.expiry,
        alias: r.alias,
        off: 0,
        response: lent(r.response, s),
        correlation: lent(r.correlation, s),
        content: lent(r.content, s),
        reason_string: lent(r.reason_string, s),
        users,
        user_lengths,
        ids: lists.ids.clone(),
        sid: r.sid,
        topic: Bytes::copy_from_slice(r.topic.of(s)),
        payload: Bytes::copy_from_slice(r.payload.of(s)),
        filters,
        filter_lengths,
        options: lists.filters.iter().map(|(_, options)| *options).collect(),
        reason: r.reason,
        reasons: lists.reasons.clone(),
        topics,
        topic_lengths,
    }
}

/// What a call answers: the tidy form or the refusal, and the bytes taken; none with NoRoom.
pub type Tidied = (Result<Vec<u8>, No>, usize);

/// The record of the frame at the start of `s`, as it is handed over.
pub fn record(s: &[u8]) -> Result<Given, No> {
    let mut lists = Lists::default();
    let r = model::read(s, None, &Switches::of(0), &mut lists).0?;
    Ok(given(&r, &lists, s))
}

/// 02, P14: read with no limit, then written into so many bytes.
pub fn tidy(s: &[u8], room: usize) -> Tidied {
    let mut lists = Lists::default();
    let (answer, taken) = model::read(s, None, &Switches::of(0), &mut lists);
    let g = match answer {
        Ok(r) => given(&r, &lists, s),
        Err(no) => return (Err(no), taken),
    };
    let mut out = vec![];
    match model_write::write(&g, None, room, &Switches::of(0), &mut out) {
        Ok(_) => (Ok(out), taken),
        Err(no) if no.no == 19 => (Err(no), 0),
        Err(no) => panic!("the model does not write {g:?}, which it read: {no:?}"),
    }
}

fn string(out: &mut Vec<u8>, s: &[u8]) {
    out.extend((s.len() as u16).to_be_bytes());
    out.extend(s);
}

/// A frame that says the record in other bytes: its properties in another order, flags that are not looked at, bits 6 and 7 of options, a body
/// of a ping, an acknowledgement in another length.
pub fn untidy(g: &Given, d: &mut Dice) -> Vec<u8> {
    let mut properties: Vec<Vec<u8>> = vec![];
    // of each list its items in order; `put` says where among the others
    let mut put = |p: Vec<u8>, after: usize, d: &mut Dice| {
        let at = after + d.below((properties.len() - after) as u64 + 1) as usize;
        properties.insert(at, p);
        at + 1
    };
    let mut at = 0;
    let users: Vec<&[u8]> = parts(&g.users, &g.user_lengths).collect();
    for pair in users.chunks(2) {
        let mut p = vec![38];
        string(&mut p, pair[0]);
        string(&mut p, pair[1]);
        at = put(p, at, d);
    }
    at = 0;
    for id in g.ids.iter().chain(&g.sid) {
        let mut p = vec![11];
        spell(&mut p, *id, 0);
        at = put(p, at, d);
    }
    for (k, l) in [(8, &g.response), (9, &g.correlation), (3, &g.content), (31, &g.reason_string)] {
        if l.present {
            let mut p = vec![k];
            string(&mut p, &l.bytes);
            put(p, 0, d);
        }
    }
    if let Some(v) = g.format {
        put(vec![1, v], 0, d);
    }
    if let Some(v) = g.expiry {
        put([&[2][..], &v.to_be_bytes()].concat(), 0, d);
    }
    if let Some(v) = g.alias {
        put([&[35][..], &v.to_be_bytes()].concat(), 0, d);
    }
    let properties = properties.concat();
    let mut block = vec![];
    spell(&mut block, properties.len() as u32, 0);
    block.extend(properties);
    let mut body = vec![];
    match g.kind {
        3 => {
            string(&mut body, &g.topic);
            if g.qos > 0 {
                body.extend(g.id.to_be_bytes());
            }
            body.extend(block);
            body.extend_from_slice(&g.payload);
        }
        12 | 13 => body.extend((0..d.below(5)).map(|_| d.below(256) as u8)),
        _ => {
            body.extend(g.id.to_be_bytes());
            if is_ack(g.kind) {
                // where there are no properties, reason and length may be left out
                let short = if g.block { 0 } else { d.below(3) };
                if short < 2 || g.reason != 0 {
                    body.push(g.reason);
                }
                if short == 0 {
                    body.extend(block);
                }
            } else {
                body.extend(block);
            }
            for (path, options) in parts(&g.filters, &g.filter_lengths).zip(&g.options) {
                string(&mut body, path);
                body.push(options | (d.below(4) as u8) << 6);
            }
            parts(&g.topics, &g.topic_lengths).for_each(|t| string(&mut body, t));
            body.extend(&g.reasons);
        }
    }
    let first = match g.kind {
        3 => 0x30 | g.retain as u8 | g.qos << 1 | (g.dup as u8) << 3,
        kind if one_in(d, 2) => kind << 4 | d.below(16) as u8,
        kind => first_byte(kind),
    };
    let mut out = vec![first];
    spell(&mut out, body.len() as u32, 0);
    out.extend(body);
    out
}

#[cfg(feature = "ecchjulmina")]
#[link(name = "ecchjulmina", kind = "static")]
extern "C" {
    fn ecch_tidy(stream: *const u8, stream_len: usize, out: *mut u8, out_len: usize, answer: *mut u64, answer_len: usize) -> u32;
}

/// The library's answer for an output of `room` bytes. None if it set a byte or a number that it had to keep, or left one that it had to set.
#[cfg(feature = "ecchjulmina")]
pub fn port_tidy(s: &[u8], room: usize, fill: u8) -> Option<Tidied> {
    let (mut out, mut n) = (vec![fill; room], [u64::MAX; 5]);
    // Sound: whole slices of Rust's own.
    let number = unsafe { ecch_tidy(s.as_ptr(), s.len(), out.as_mut_ptr(), out.len(), n.as_mut_ptr(), 4) };
    let (size, taken) = (n[0] as usize, n[3] as usize);
    if n[4] != u64::MAX || taken > s.len() || size > room || out[size..].iter().any(|b| *b != fill) {
        return None;
    }
    match number {
        0 if n[1..3] == [0, 0] => {
            out.truncate(size);
            Some((Ok(out), taken))
        }
        0 => None,
        _ if size == 0 => Some((Err(No { no: number as u8, a: n[1], b: n[2] }), taken)),
        _ => None,
    }
}
