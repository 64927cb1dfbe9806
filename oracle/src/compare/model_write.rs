//! A model of the writer, in the same manner: the rules of 01 and 02 with every switch off, the crate with all on.
use super::model::{entry, is_text, reasons, Entries, Switches, NUL, ZERO};
use super::shape::*;

/// D4: what was put before 12 or 17 stays put.
pub const D4: Entries = entry(4);
/// D5: the length of a string is cut to 16 bits, not refused.
pub const D5: Entries = entry(5);
/// D6: a Subscribe without filters is written.
pub const D6: Entries = entry(6);
/// D7: the limit is tested before R, and size tests no R.
pub const D7: Entries = entry(7);
/// 19: the crate's output grows.
pub const ROOM: Entries = entry(10);
/// A SubAck, Unsubscribe or UnsubAck without entries is written.
pub const NO_ENTRY: Entries = entry(38);
pub const ALL: Entries = D4 | D5 | D6 | D7 | ROOM | ZERO | NUL | NO_ENTRY;
/// 20: such a record cannot be handed to the crate.
pub const MISMATCH: Entries = entry(11);
/// The written 9, 11, 14 and 15: nor can such a one.
pub const NO_TEXT: Entries = entry(13);

/// The largest number of four bytes.
pub const MOST: u64 = 268_435_455;

fn lent_fits(l: &Lent) -> bool {
    l.present || l.bytes.is_empty()
}

fn adds_up(bytes: &[u8], lengths: &[usize]) -> bool {
    let sum = lengths.iter().try_fold(0usize, |n, k| n.checked_add(*k));
    sum == Some(bytes.len())
}

/// A QoS that cannot be handed over as an enum is refused after 20 and before all else (bindings/c/ecchjulmina.h).
fn enums(g: &Given) -> Result<(), No> {
    match g.kind {
        3 if g.qos > 2 => Err(no1(11, g.qos as u64)),
        _ => Ok(()),
    }
}

/// Row 20: does all that is handed over belong together?
pub fn belongs(g: &Given) -> bool {
    let lents = [&g.response, &g.correlation, &g.content, &g.reason_string];
    let pairs = g.user_lengths.len() % 2 == 0 && adds_up(&g.users, &g.user_lengths);
    let filters = g.filter_lengths.len() == g.options.len() && adds_up(&g.filters, &g.filter_lengths);
    let topics = adds_up(&g.topics, &g.topic_lengths);
    let numbers = g.format.is_some() || g.expiry.is_some() || g.alias.is_some() || g.sid.is_some();
    let lists = !g.users.is_empty() || !g.user_lengths.is_empty() || !g.ids.is_empty();
    let anything = numbers || lists || lents.iter().any(|l| l.present || !l.bytes.is_empty());
    !g.off_number() && pairs && filters && topics && lents.iter().all(|l| lent_fits(l)) && (g.block || !anything)
}

/// Bytes and the parts that the lengths cut them into.
pub fn parts<'a>(mut bytes: &'a [u8], lengths: &'a [usize]) -> impl Iterator<Item = &'a [u8]> {
    lengths.iter().map(move |n| {
        let (part, rest) = bytes.split_at(*n);
        bytes = rest;
        part
    })
}

/// 18, unless D5; then 9 for text.
fn string(s: &[u8], text: bool, by: &Switches) -> Result<(), No> {
    if s.len() > 65_535 && !by.has(D5) {
        return Err(no1(18, s.len() as u64));
    }
    if text && !is_text(s, by) {
        return Err(no(9));
    }
    Ok(())
}

/// 15, where the kind does not list the reason.
fn listed(kind: u8, reason: u8) -> Result<(), No> {
    if reasons(kind).contains(&reason) {
        return Ok(());
    }
    Err(no1(15, reason as u64))
}

/// Strings, options and reasons, field by field as they are written.
fn fields(g: &Given, by: &Switches) -> Result<(), No> {
    if g.kind == 3 {
        string(&g.topic, false, by)?;
    }
    if is_ack(g.kind) {
        listed(g.kind, g.reason)?;
    }
    string(&g.reason_string.bytes, true, by)?;
    string(&g.response.bytes, true, by)?;
    string(&g.correlation.bytes, false, by)?;
    for part in parts(&g.users, &g.user_lengths) {
        string(part, true, by)?;
    }
    string(&g.content.bytes, true, by)?;
    for (path, options) in parts(&g.filters, &g.filter_lengths).zip(&g.options) {
        string(path, true, by)?;
        if options >> 4 & 3 == 3 {
            return Err(no1(14, 3));
        }
        if options & 3 == 3 {
            return Err(no1(11, 3));
        }
    }
    for topic in parts(&g.topics, &g.topic_lengths) {
        string(topic, true, by)?;
    }
    g.reasons.iter().try_for_each(|k| listed(g.kind, *k))
}

/// How many bytes a number takes; four if it is too large to write.
fn width(n: u64) -> u64 {
    match n {
        0..=127 => 1,
        128..=16_383 => 2,
        16_384..=2_097_151 => 3,
        _ => 4,
    }
}

fn lent_size(l: &Lent) -> u64 {
    if l.present {
        3 + l.bytes.len() as u64
    } else {
        0
    }
}

/// L.
fn block_size(g: &Given) -> u64 {
    let pairs = g.users.len() as u64 + g.user_lengths.len() as u64 / 2 * 5;
    let ids: u64 = g.ids.iter().chain(&g.sid).map(|id| 1 + width(*id as u64)).sum();
    let numbers = 2 * g.format.is_some() as u64 + 5 * g.expiry.is_some() as u64 + 3 * g.alias.is_some() as u64;
    let lents = [&g.response, &g.correlation, &g.content, &g.reason_string];
    numbers + pairs + ids + lents.iter().map(|l| lent_size(l)).sum::<u64>()
}

/// A success without properties is four bytes.
fn is_plain(g: &Given) -> bool {
    g.reason == 0 && !g.block
}

/// R.
fn rest(g: &Given) -> u64 {
    let l = block_size(g);
    let block = width(l) + l;
    match g.kind {
        3 => 2 + g.topic.len() as u64 + 2 * (g.qos > 0 && g.id != 0) as u64 + block + g.payload.len() as u64,
        8 => 2 + block + g.filters.len() as u64 + 3 * g.filter_lengths.len() as u64,
        9 | 11 => 2 + block + g.reasons.len() as u64,
        10 => 2 + block + g.topics.len() as u64 + 2 * g.topic_lengths.len() as u64,
        4..=7 if is_plain(g) => 2,
        4..=7 => 3 + block,
        _ => 0,
    }
}

fn frame(r: u64) -> u64 {
    1 + width(r) + r
}

/// The size asked alone: 20, then the QoS, then 17 for R.
pub fn size(g: &Given, by: &Switches) -> Result<u64, No> {
    if !belongs(g) {
        return Err(no(20));
    }
    enums(g)?;
    let r = rest(g);
    if r > MOST && !by.has(D7) {
        return Err(no(17));
    }
    Ok(frame(r))
}

fn put_number(out: &mut Vec<u8>, mut n: u64) {
    while n >= 128 {
        out.push((n % 128 + 128) as u8);
        n /= 128;
    }
    out.push(n as u8);
}

fn put_string(out: &mut Vec<u8>, s: &[u8]) {
    out.extend((s.len() as u16).to_be_bytes());
    out.extend(s);
}

fn put_lent(out: &mut Vec<u8>, k: u8, l: &Lent) {
    if l.present {
        out.push(k);
        put_string(out, &l.bytes);
    }
}

fn put_pairs(out: &mut Vec<u8>, g: &Given) {
    for (i, part) in parts(&g.users, &g.user_lengths).enumerate() {
        if i % 2 == 0 {
            out.push(38);
        }
        put_string(out, part);
    }
}

/// Identifiers in order; 17 at the first that is too large, 23 at the first that is 0.
fn put_ids<'a>(out: &mut Vec<u8>, ids: impl Iterator<Item = &'a u32>, by: &Switches) -> Result<(), No> {
    for id in ids {
        out.push(11);
        if *id as u64 > MOST {
            return Err(no(17));
        }
        if *id == 0 && !by.has(ZERO) {
            return Err(no(23));
        }
        put_number(out, *id as u64);
    }
    Ok(())
}

/// L and the properties, in the order of 01's table. A kind has none of the others' fields.
fn put_block(out: &mut Vec<u8>, g: &Given, by: &Switches) -> Result<(), No> {
    put_number(out, block_size(g));
    if let Some(v) = g.format {
        out.extend([1, v]);
    }
    if let Some(v) = g.expiry {
        out.push(2);
        out.extend(v.to_be_bytes());
    }
    if let Some(v) = g.alias {
        out.push(35);
        out.extend(v.to_be_bytes());
    }
    put_ids(out, g.sid.iter(), by)?;
    put_lent(out, 31, &g.reason_string);
    put_lent(out, 8, &g.response);
    put_lent(out, 9, &g.correlation);
    put_pairs(out, g);
    put_ids(out, g.ids.iter(), by)?;
    put_lent(out, 3, &g.content);
    Ok(())
}

fn put_publish(out: &mut Vec<u8>, g: &Given, by: &Switches) -> Result<(), No> {
    put_string(out, &g.topic);
    if g.qos > 0 {
        if g.id == 0 {
            return Err(no(12));
        }
        out.extend(g.id.to_be_bytes());
    }
    put_block(out, g, by)?;
    out.extend_from_slice(&g.payload);
    Ok(())
}

fn put_ack(out: &mut Vec<u8>, g: &Given, by: &Switches) -> Result<(), No> {
    out.extend(g.id.to_be_bytes());
    if is_plain(g) {
        return Ok(());
    }
    out.push(g.reason);
    put_block(out, g, by)
}

/// Identifier and block, then filters, topics or reasons.
fn put_entries(out: &mut Vec<u8>, g: &Given, by: &Switches) -> Result<(), No> {
    out.extend(g.id.to_be_bytes());
    put_block(out, g, by)?;
    let none = g.filter_lengths.is_empty() && g.topic_lengths.is_empty() && g.reasons.is_empty();
    if none && !by.has(if g.kind == 8 { D6 } else { NO_ENTRY }) {
        return Err(no(13));
    }
    for (path, options) in parts(&g.filters, &g.filter_lengths).zip(&g.options) {
        put_string(out, path);
        out.push(options & 63);
    }
    for topic in parts(&g.topics, &g.topic_lengths) {
        put_string(out, topic);
    }
    out.extend(&g.reasons);
    Ok(())
}

fn first_of(g: &Given) -> u8 {
    match g.kind {
        3 => first_byte(3) | g.retain as u8 | g.qos << 1 | (g.dup as u8) << 3,
        kind => first_byte(kind),
    }
}

fn within(size: u64, limit: Option<u64>) -> Result<(), No> {
    match limit {
        Some(most) if size > most => Err(no2(16, size, most)),
        _ => Ok(()),
    }
}

/// The whole frame, put byte after byte; `out` keeps what was put before a refusal.
fn put(g: &Given, limit: Option<u64>, by: &Switches, out: &mut Vec<u8>) -> Result<u64, No> {
    let r = rest(g);
    let size = frame(r);
    if r > MOST {
        if by.has(D7) {
            // the crate says the size as u32
            within(size, limit).map_err(|e| no2(16, e.a as u32 as u64, e.b))?;
        }
        out.push(first_of(g));
        return Err(no(17));
    }
    within(size, limit)?;
    out.push(first_of(g));
    put_number(out, r);
    match g.kind {
        3 => put_publish(out, g, by)?,
        4..=7 => put_ack(out, g, by)?,
        8..=11 => put_entries(out, g, by)?,
        _ => {}
    }
    Ok(size)
}

/// What a write answers, and in `out` what it puts; a refused write puts nothing, but for D4.
pub fn write(g: &Given, limit: Option<u64>, room: usize, by: &Switches, out: &mut Vec<u8>) -> Result<u64, No> {
    out.clear();
    if !belongs(g) {
        return Err(no(20));
    }
    enums(g)?;
    fields(g, by)?;
    let answer = match put(g, limit, by, out) {
        Ok(size) if (room as u64) < size && !by.has(ROOM) => Err(no1(19, size)),
        answer => answer,
    };
    match answer {
        // D4 speaks of 12 and 17 alone
        Err(e) if !matches!(e.no, 12 | 17) || !by.has(D4) => out.clear(),
        _ => {}
    }
    answer
}
