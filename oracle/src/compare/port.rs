//! The port, reached through its C interface (feature `ecchjulmina`, bindings/c/ecchjulmina.h). Without the feature the hand-written reader
//! of limit.rs and the model of the writer stand in for it.
use super::shape::*;

/// The numbers of `record`, after enum ecch_record_layout.
pub const RECORD: usize = 44;

/// A record's numbers, as ecch_read fills them.
pub fn numbers(answer: &Answer) -> [u64; RECORD] {
    let mut n = [0; RECORD];
    n[0] = answer.1 as u64;
    let r = match &answer.0 {
        Err(e) => {
            (n[1], n[2]) = (e.a, e.b);
            return n;
        }
        Ok(r) => r,
    };
    let mut set = |at: usize, v: &[u64]| n[at..at + v.len()].copy_from_slice(v);
    let span = |p: Span| [p.start as u64, p.len as u64];
    let maybe = |p: Option<Span>| p.map_or([0; 3], |p| [1, p.start as u64, p.len as u64]);
    let value = |v: Option<u64>| v.map_or([0; 2], |v| [1, v]);
    set(
        3,
        &[
            r.kind as u64,
            r.id as u64,
            r.dup as u64,
            r.qos as u64,
            r.retain as u64,
            r.reason as u64,
        ],
    );
    if r.kind == 3 {
        set(9, &span(r.topic));
        set(11, &span(r.payload));
    }
    if r.kind == 8 {
        set(13, &span(r.filters));
    }
    set(15, &maybe(r.block));
    set(18, &value(r.format.map(u64::from)));
    set(20, &value(r.expiry.map(u64::from)));
    set(22, &value(r.alias.map(u64::from)));
    set(24, &maybe(r.response));
    set(27, &maybe(r.correlation));
    set(30, &maybe(r.content));
    set(33, &maybe(r.reason_string));
    set(36, &value(r.sid.map(u64::from)));
    if is_reply(r.kind) {
        set(38, &span(r.reasons));
    }
    if r.kind == 10 {
        set(40, &span(r.topics));
    }
    if let Some((start, end)) = r.bounds.0 {
        set(42, &[start as u64, end as u64]);
    }
    n
}

/// The record that the numbers tell. Numbers that tell none give a record of kind 0, which no side has.
#[cfg(feature = "ecchjulmina")]
fn told(n: &[u64; RECORD]) -> Record {
    let span = |at: usize| Span {
        start: n[at] as usize,
        len: n[at + 1] as usize,
    };
    let maybe = |at: usize| (n[at] == 1).then(|| span(at + 1));
    let value = |at: usize| (n[at] == 1).then(|| n[at + 1]);
    let r = Record {
        kind: n[3] as u8,
        id: n[4] as u16,
        dup: n[5] == 1,
        qos: n[6] as u8,
        retain: n[7] == 1,
        reason: n[8] as u8,
        topic: span(9),
        payload: span(11),
        filters: span(13),
        block: maybe(15),
        format: value(18).map(|v| v as u8),
        expiry: value(20).map(|v| v as u32),
        alias: value(22).map(|v| v as u16),
        response: maybe(24),
        correlation: maybe(27),
        content: maybe(30),
        reason_string: maybe(33),
        sid: value(36).map(|v| v as u32),
        reasons: span(38),
        topics: span(40),
        bounds: Bounds(Some((n[42] as usize, n[43] as usize))),
    };
    let back = numbers(&(Ok(r.clone()), n[0] as usize));
    if back == *n {
        r
    } else {
        Record::default()
    }
}

#[cfg(feature = "ecchjulmina")]
mod side {
    use super::*;
    type Bytes = *const u8;
    /// The arguments, as the header has them.
    macro_rules! externs {
        ($($name:ident($($arg:ident: $type:ty),* $(,)?) -> $gives:ty;)*) => {
            #[link(name = "ecchjulmina", kind = "static")]
            extern "C" { $(fn $name($($arg: $type),*) -> $gives;)* }
        };
    }
    externs! {
        ecch_read(stream: Bytes, n: usize, limited: u8, limit: usize, record: *mut u64, record_len: usize) -> u32;
        ecch_part(stream: Bytes, n: usize, start: usize, len: usize) -> u32;
        ecch_user_property(stream: Bytes, n: usize, kind: u8, start: usize, len: usize, nth: usize, item: *mut u64, item_len: usize) -> u32;
        ecch_subscription_identifier(stream: Bytes, n: usize, start: usize, len: usize, nth: usize, item: *mut u64, item_len: usize) -> u32;
        ecch_filter(stream: Bytes, n: usize, start: usize, len: usize, nth: usize, item: *mut u64, item_len: usize) -> u32;
        ecch_reason(stream: Bytes, n: usize, kind: u8, start: usize, len: usize, nth: usize, item: *mut u64, item_len: usize) -> u32;
        ecch_topic(stream: Bytes, n: usize, start: usize, len: usize, nth: usize, item: *mut u64, item_len: usize) -> u32;
        ecch_publish_size(dup: u8, qos: u8, retain: u8, pkid: u16, topic: Bytes, topic_len: usize, block: u8, format_on: u8, format: u8,
            expiry_on: u8, expiry: u32, alias_on: u8, alias: u16, response_on: u8, response: Bytes, response_len: usize, correlation_on: u8,
            correlation: Bytes, correlation_len: usize, user: Bytes, user_len: usize, user_lengths: *const usize, user_lengths_len: usize,
            identifiers: *const u32, identifiers_len: usize, content_on: u8, content: Bytes, content_len: usize, payload: Bytes,
            payload_len: usize, answer: *mut u64, answer_len: usize) -> u32;
        ecch_publish_write(dup: u8, qos: u8, retain: u8, pkid: u16, topic: Bytes, topic_len: usize, block: u8, format_on: u8, format: u8,
            expiry_on: u8, expiry: u32, alias_on: u8, alias: u16, response_on: u8, response: Bytes, response_len: usize, correlation_on: u8,
            correlation: Bytes, correlation_len: usize, user: Bytes, user_len: usize, user_lengths: *const usize, user_lengths_len: usize,
            identifiers: *const u32, identifiers_len: usize, content_on: u8, content: Bytes, content_len: usize, payload: Bytes,
            payload_len: usize, limited: u8, limit: usize, out: *mut u8, out_len: usize, answer: *mut u64, answer_len: usize) -> u32;
        ecch_subscribe_size(pkid: u16, block: u8, identifier_on: u8, identifier: u32, user: Bytes, user_len: usize,
            user_lengths: *const usize, user_lengths_len: usize, filters: Bytes, filters_len: usize, filter_lengths: *const usize,
            filter_lengths_len: usize, options: Bytes, options_len: usize, answer: *mut u64, answer_len: usize) -> u32;
        ecch_subscribe_write(pkid: u16, block: u8, identifier_on: u8, identifier: u32, user: Bytes, user_len: usize,
            user_lengths: *const usize, user_lengths_len: usize, filters: Bytes, filters_len: usize, filter_lengths: *const usize,
            filter_lengths_len: usize, options: Bytes, options_len: usize, limited: u8, limit: usize, out: *mut u8, out_len: usize,
            answer: *mut u64, answer_len: usize) -> u32;
        ecch_puback_size(pkid: u16, reason: u8, block: u8, reason_string_on: u8, reason_string: Bytes, reason_string_len: usize,
            user: Bytes, user_len: usize, user_lengths: *const usize, user_lengths_len: usize, answer: *mut u64, answer_len: usize) -> u32;
        ecch_puback_write(pkid: u16, reason: u8, block: u8, reason_string_on: u8, reason_string: Bytes, reason_string_len: usize,
            user: Bytes, user_len: usize, user_lengths: *const usize, user_lengths_len: usize, limited: u8, limit: usize, out: *mut u8,
            out_len: usize, answer: *mut u64, answer_len: usize) -> u32;
        ecch_pubrec_size(pkid: u16, reason: u8, block: u8, reason_string_on: u8, reason_string: Bytes, reason_string_len: usize,
            user: Bytes, user_len: usize, user_lengths: *const usize, user_lengths_len: usize, answer: *mut u64, answer_len: usize) -> u32;
        ecch_pubrec_write(pkid: u16, reason: u8, block: u8, reason_string_on: u8, reason_string: Bytes, reason_string_len: usize,
            user: Bytes, user_len: usize, user_lengths: *const usize, user_lengths_len: usize, limited: u8, limit: usize, out: *mut u8,
            out_len: usize, answer: *mut u64, answer_len: usize) -> u32;
        ecch_pubrel_size(pkid: u16, reason: u8, block: u8, reason_string_on: u8, reason_string: Bytes, reason_string_len: usize,
            user: Bytes, user_len: usize, user_lengths: *const usize, user_lengths_len: usize, answer: *mut u64, answer_len: usize) -> u32;
        ecch_pubrel_write(pkid: u16, reason: u8, block: u8, reason_string_on: u8, reason_string: Bytes, reason_string_len: usize,
            user: Bytes, user_len: usize, user_lengths: *const usize, user_lengths_len: usize, limited: u8, limit: usize, out: *mut u8,
            out_len: usize, answer: *mut u64, answer_len: usize) -> u32;
        ecch_pubcomp_size(pkid: u16, reason: u8, block: u8, reason_string_on: u8, reason_string: Bytes, reason_string_len: usize,
            user: Bytes, user_len: usize, user_lengths: *const usize, user_lengths_len: usize, answer: *mut u64, answer_len: usize) -> u32;
        ecch_pubcomp_write(pkid: u16, reason: u8, block: u8, reason_string_on: u8, reason_string: Bytes, reason_string_len: usize,
            user: Bytes, user_len: usize, user_lengths: *const usize, user_lengths_len: usize, limited: u8, limit: usize, out: *mut u8,
            out_len: usize, answer: *mut u64, answer_len: usize) -> u32;
        ecch_suback_size(pkid: u16, block: u8, reason_string_on: u8, reason_string: Bytes, reason_string_len: usize, user: Bytes,
            user_len: usize, user_lengths: *const usize, user_lengths_len: usize, reasons: Bytes, reasons_len: usize, answer: *mut u64,
            answer_len: usize) -> u32;
        ecch_suback_write(pkid: u16, block: u8, reason_string_on: u8, reason_string: Bytes, reason_string_len: usize, user: Bytes,
            user_len: usize, user_lengths: *const usize, user_lengths_len: usize, reasons: Bytes, reasons_len: usize, limited: u8,
            limit: usize, out: *mut u8, out_len: usize, answer: *mut u64, answer_len: usize) -> u32;
        ecch_unsuback_size(pkid: u16, block: u8, reason_string_on: u8, reason_string: Bytes, reason_string_len: usize, user: Bytes,
            user_len: usize, user_lengths: *const usize, user_lengths_len: usize, reasons: Bytes, reasons_len: usize, answer: *mut u64,
            answer_len: usize) -> u32;
        ecch_unsuback_write(pkid: u16, block: u8, reason_string_on: u8, reason_string: Bytes, reason_string_len: usize, user: Bytes,
            user_len: usize, user_lengths: *const usize, user_lengths_len: usize, reasons: Bytes, reasons_len: usize, limited: u8,
            limit: usize, out: *mut u8, out_len: usize, answer: *mut u64, answer_len: usize) -> u32;
        ecch_unsubscribe_size(pkid: u16, block: u8, user: Bytes, user_len: usize, user_lengths: *const usize, user_lengths_len: usize,
            topics: Bytes, topics_len: usize, topic_lengths: *const usize, topic_lengths_len: usize, answer: *mut u64,
            answer_len: usize) -> u32;
        ecch_unsubscribe_write(pkid: u16, block: u8, user: Bytes, user_len: usize, user_lengths: *const usize, user_lengths_len: usize,
            topics: Bytes, topics_len: usize, topic_lengths: *const usize, topic_lengths_len: usize, limited: u8, limit: usize,
            out: *mut u8, out_len: usize, answer: *mut u64, answer_len: usize) -> u32;
        ecch_ping_size(answer: *mut u64, answer_len: usize) -> u32;
        ecch_pingreq_write(limited: u8, limit: usize, out: *mut u8, out_len: usize, answer: *mut u64, answer_len: usize) -> u32;
        ecch_pingresp_write(limited: u8, limit: usize, out: *mut u8, out_len: usize, answer: *mut u64, answer_len: usize) -> u32;
    }

    pub fn name() -> &'static str {
        "libecchjulmina.a"
    }

    pub fn read(s: &[u8], limit: Option<u64>) -> Answer {
        // what does not apply must be set to 0
        let mut n = [u64::MAX; RECORD];
        let got = unsafe {
            ecch_read(
                s.as_ptr(),
                s.len(),
                limit.is_some() as u8,
                limit.unwrap_or(77) as usize,
                n.as_mut_ptr(),
                RECORD,
            )
        };
        if got == 0 {
            return (Ok(told(&n)), n[0] as usize);
        }
        // a refusal tells its values and no more
        let number = if n[3..].iter().all(|v| *v == 0) { got as u8 } else { UNKNOWN };
        (Err(no2(number, n[1], n[2])), n[0] as usize)
    }

    /// 0 if the place lies in the bytes, else 21.
    pub fn part(s: &[u8], p: Span) -> u32 {
        unsafe { ecch_part(s.as_ptr(), s.len(), p.start, p.len) }
    }

    /// The refusal, or the item.
    fn item<const N: usize>(got: u32, n: [u64; N]) -> Result<[u64; N], No> {
        match got {
            0 => Ok(n),
            _ if n == [0; N] => Err(no(got as u8)),
            _ => Err(no(UNKNOWN)),
        }
    }

    pub fn user(kind: u8, s: &[u8], p: Span, nth: usize) -> Result<(Span, Span), No> {
        let mut n = [u64::MAX; 4];
        let got = unsafe { ecch_user_property(s.as_ptr(), s.len(), kind, p.start, p.len, nth, n.as_mut_ptr(), 4) };
        let n = item(got, n)?;
        let span = |a: u64, b: u64| Span {
            start: a as usize,
            len: b as usize,
        };
        Ok((span(n[0], n[1]), span(n[2], n[3])))
    }

    pub fn identifier(s: &[u8], p: Span, nth: usize) -> Result<u32, No> {
        let mut n = [u64::MAX; 1];
        let got = unsafe { ecch_subscription_identifier(s.as_ptr(), s.len(), p.start, p.len, nth, n.as_mut_ptr(), 1) };
        let n = item(got, n)?;
        u32::try_from(n[0]).map_err(|_| no(UNKNOWN))
    }

    pub fn filter(s: &[u8], p: Span, nth: usize) -> Result<(Span, u8), No> {
        let mut n = [u64::MAX; 6];
        let got = unsafe { ecch_filter(s.as_ptr(), s.len(), p.start, p.len, nth, n.as_mut_ptr(), 6) };
        let n = item(got, n)?;
        if n[2] > 2 || n[3] > 1 || n[4] > 1 || n[5] > 2 {
            return Err(no(UNKNOWN));
        }
        let path = Span {
            start: n[0] as usize,
            len: n[1] as usize,
        };
        Ok((path, (n[2] + n[3] * 4 + n[4] * 8 + n[5] * 16) as u8))
    }

    pub fn reason(kind: u8, s: &[u8], p: Span, nth: usize) -> Result<u8, No> {
        let mut n = [u64::MAX; 1];
        let got = unsafe { ecch_reason(s.as_ptr(), s.len(), kind, p.start, p.len, nth, n.as_mut_ptr(), 1) };
        let n = item(got, n)?;
        u8::try_from(n[0]).map_err(|_| no(UNKNOWN))
    }

    pub fn topic(s: &[u8], p: Span, nth: usize) -> Result<Span, No> {
        let mut n = [u64::MAX; 2];
        let got = unsafe { ecch_topic(s.as_ptr(), s.len(), p.start, p.len, nth, n.as_mut_ptr(), 2) };
        let n = item(got, n)?;
        Ok(Span {
            start: n[0] as usize,
            len: n[1] as usize,
        })
    }

    fn answer(got: u32, n: [u64; 3]) -> Result<u64, No> {
        match got {
            0 if n[1..] == [0, 0] => Ok(n[0]),
            0 => Err(no(UNKNOWN)),
            _ if n[0] == 0 => Err(no2(got as u8, n[1], n[2])),
            _ => Err(no(UNKNOWN)),
        }
    }

    macro_rules! publish {
        ($f:ident, $g:ident, $($rest:expr),*) => {
            $f($g.dup as u8, $g.qos, $g.retain as u8, $g.id, $g.topic.as_ptr(), $g.topic.len(), $g.block as u8, $g.format.is_some() as u8,
                $g.numbers().0, $g.expiry.is_some() as u8, $g.numbers().1, $g.alias.is_some() as u8, $g.numbers().2,
                $g.response.present as u8, $g.response.bytes.as_ptr(), $g.response.bytes.len(), $g.correlation.present as u8,
                $g.correlation.bytes.as_ptr(), $g.correlation.bytes.len(), $g.users.as_ptr(), $g.users.len(), $g.user_lengths.as_ptr(),
                $g.user_lengths.len(), $g.ids.as_ptr(), $g.ids.len(), $g.content.present as u8, $g.content.bytes.as_ptr(),
                $g.content.bytes.len(), $g.payload.as_ptr(), $g.payload.len(), $($rest),*)
        };
    }
    macro_rules! subscribe {
        ($f:ident, $g:ident, $($rest:expr),*) => {
            $f($g.id, $g.block as u8, $g.sid.is_some() as u8, $g.numbers().3, $g.users.as_ptr(), $g.users.len(), $g.user_lengths.as_ptr(),
                $g.user_lengths.len(), $g.filters.as_ptr(), $g.filters.len(), $g.filter_lengths.as_ptr(), $g.filter_lengths.len(),
                $g.options.as_ptr(), $g.options.len(), $($rest),*)
        };
    }
    macro_rules! ack {
        ($f:ident, $g:ident, $($rest:expr),*) => {
            $f($g.id, $g.reason, $g.block as u8, $g.reason_string.present as u8, $g.reason_string.bytes.as_ptr(),
                $g.reason_string.bytes.len(), $g.users.as_ptr(), $g.users.len(), $g.user_lengths.as_ptr(), $g.user_lengths.len(),
                $($rest),*)
        };
    }

    macro_rules! reply {
        ($f:ident, $g:ident, $($rest:expr),*) => {
            $f($g.id, $g.block as u8, $g.reason_string.present as u8, $g.reason_string.bytes.as_ptr(), $g.reason_string.bytes.len(),
                $g.users.as_ptr(), $g.users.len(), $g.user_lengths.as_ptr(), $g.user_lengths.len(), $g.reasons.as_ptr(),
                $g.reasons.len(), $($rest),*)
        };
    }
    macro_rules! unsubscribe {
        ($f:ident, $g:ident, $($rest:expr),*) => {
            $f($g.id, $g.block as u8, $g.users.as_ptr(), $g.users.len(), $g.user_lengths.as_ptr(), $g.user_lengths.len(),
                $g.topics.as_ptr(), $g.topics.len(), $g.topic_lengths.as_ptr(), $g.topic_lengths.len(), $($rest),*)
        };
    }

    pub fn size(g: &Given) -> Result<u64, No> {
        let mut n = [u64::MAX; 3];
        let a = n.as_mut_ptr();
        let got = unsafe {
            match g.kind {
                3 => publish!(ecch_publish_size, g, a, 3),
                4 => ack!(ecch_puback_size, g, a, 3),
                5 => ack!(ecch_pubrec_size, g, a, 3),
                6 => ack!(ecch_pubrel_size, g, a, 3),
                7 => ack!(ecch_pubcomp_size, g, a, 3),
                8 => subscribe!(ecch_subscribe_size, g, a, 3),
                9 => reply!(ecch_suback_size, g, a, 3),
                10 => unsubscribe!(ecch_unsubscribe_size, g, a, 3),
                11 => reply!(ecch_unsuback_size, g, a, 3),
                _ => ecch_ping_size(a, 3),
            }
        };
        answer(got, n)
    }

    pub fn write(g: &Given, limit: Option<u64>, out: &mut [u8]) -> Result<u64, No> {
        let mut n = [u64::MAX; 3];
        let a = n.as_mut_ptr();
        let (limited, limit) = (limit.is_some() as u8, limit.unwrap_or(1) as usize);
        let (o, room) = (out.as_mut_ptr(), out.len());
        let got = unsafe {
            match g.kind {
                3 => publish!(ecch_publish_write, g, limited, limit, o, room, a, 3),
                4 => ack!(ecch_puback_write, g, limited, limit, o, room, a, 3),
                5 => ack!(ecch_pubrec_write, g, limited, limit, o, room, a, 3),
                6 => ack!(ecch_pubrel_write, g, limited, limit, o, room, a, 3),
                7 => ack!(ecch_pubcomp_write, g, limited, limit, o, room, a, 3),
                8 => subscribe!(ecch_subscribe_write, g, limited, limit, o, room, a, 3),
                9 => reply!(ecch_suback_write, g, limited, limit, o, room, a, 3),
                10 => unsubscribe!(ecch_unsubscribe_write, g, limited, limit, o, room, a, 3),
                11 => reply!(ecch_unsuback_write, g, limited, limit, o, room, a, 3),
                12 => ecch_pingreq_write(limited, limit, o, room, a, 3),
                _ => ecch_pingresp_write(limited, limit, o, room, a, 3),
            }
        };
        answer(got, n)
    }
}

#[cfg(not(feature = "ecchjulmina"))]
mod side {
    use super::super::model::Switches;
    use super::super::{model, model_write};
    use super::*;
    use crate::limit::{self, Rec};

    pub fn name() -> &'static str {
        "the hand-written reader and the model of the writer, in place of the port"
    }

    fn span(s: &[u8], part: &[u8]) -> Span {
        Span {
            start: part.as_ptr() as usize - s.as_ptr() as usize,
            len: part.len(),
        }
    }

    pub fn read(s: &[u8], limit: Option<u64>) -> Answer {
        let most = limit.map(|n| n.min(u32::MAX as u64) as u32);
        let (answer, taken) = limit::read::<true>(s, most);
        let at = |p: &[u8]| span(s, p);
        let block = |b: &[u8]| (!b.is_empty()).then(|| at(b));
        let record = match answer {
            Err(e) => return (Err(no2(e.no, e.a, if e.no == 3 { limit.unwrap() } else { e.b })), taken),
            Ok(Rec::Publish(p)) => Record {
                kind: 3,
                dup: p.dup,
                qos: p.qos,
                retain: p.retain,
                id: p.id,
                topic: at(p.topic),
                payload: at(p.payload),
                block: block(p.block),
                format: p.props.pfi,
                expiry: p.props.expiry,
                alias: p.props.alias,
                response: p.props.response.map(at),
                correlation: p.props.correlation.map(at),
                content: p.props.content.map(at),
                ..Record::default()
            },
            Ok(Rec::Subscribe(p)) => Record {
                kind: 8,
                id: p.id,
                block: block(p.block),
                sid: p.sid,
                filters: at(p.filters),
                ..Record::default()
            },
            Ok(Rec::Ack(p)) => Record {
                kind: p.kind,
                id: p.id,
                reason: p.reason,
                block: block(p.block),
                reason_string: p.rstr.map(at),
                ..Record::default()
            },
            Ok(Rec::Reply(p)) => Record {
                kind: p.kind,
                id: p.id,
                block: block(p.block),
                reason_string: p.rstr.map(at),
                reasons: at(p.reasons),
                ..Record::default()
            },
            Ok(Rec::Unsubscribe(p)) => Record {
                kind: 10,
                id: p.id,
                block: block(p.block),
                topics: at(p.topics),
                ..Record::default()
            },
            Ok(Rec::Ping(kind)) => Record { kind, ..Record::default() },
        };
        (Ok(record), taken)
    }

    pub fn part(s: &[u8], p: Span) -> u32 {
        s.get(p.start..).and_then(|s| s.get(..p.len)).map_or(21, |_| 0)
    }

    pub fn user(kind: u8, s: &[u8], p: Span, nth: usize) -> Result<(Span, Span), No> {
        place_of(kind)
            .and_then(|place| model::block_items(place, s, p))
            .and_then(|l| l.users.get(nth).copied())
            .ok_or(no(21))
    }

    pub fn identifier(s: &[u8], p: Span, nth: usize) -> Result<u32, No> {
        model::block_items(Place::Publish, s, p)
            .and_then(|l| l.ids.get(nth).copied())
            .ok_or(no(21))
    }

    pub fn filter(s: &[u8], p: Span, nth: usize) -> Result<(Span, u8), No> {
        model::run_items(s, p).and_then(|l| l.get(nth).copied()).ok_or(no(21))
    }

    pub fn reason(kind: u8, s: &[u8], p: Span, nth: usize) -> Result<u8, No> {
        model::reason_items(kind, s, p).and_then(|l| l.get(nth).copied()).ok_or(no(21))
    }

    pub fn topic(s: &[u8], p: Span, nth: usize) -> Result<Span, No> {
        model::topic_items(s, p).and_then(|l| l.get(nth).copied()).ok_or(no(21))
    }

    pub fn size(g: &Given) -> Result<u64, No> {
        model_write::size(g, &Switches::of(0))
    }

    pub fn write(g: &Given, limit: Option<u64>, out: &mut [u8]) -> Result<u64, No> {
        let mut put = vec![];
        let answer = model_write::write(g, limit, out.len(), &Switches::of(0), &mut put);
        out[..put.len()].copy_from_slice(&put);
        answer
    }
}

pub use side::{filter, identifier, name, part, reason, size, topic, user, write};

/// Asks for the items by their numbers until there is none.
fn each<T>(into: &mut Vec<T>, nth: impl Fn(usize) -> Result<T, No>) {
    while let Ok(item) = nth(into.len()) {
        into.push(item);
    }
}

/// The record or the refusal with the bytes taken; `lists` gets the items.
pub fn read(s: &[u8], limit: Option<u64>, lists: &mut Lists) -> Answer {
    lists.clear();
    let answer = side::read(s, limit);
    if let Ok(r) = &answer.0 {
        if let Some(block) = r.block {
            each(&mut lists.users, |n| side::user(r.kind, s, block, n));
            if r.kind == 3 {
                each(&mut lists.ids, |n| side::identifier(s, block, n));
            }
        }
        match r.kind {
            8 => each(&mut lists.filters, |n| side::filter(s, r.filters, n)),
            9 | 11 => each(&mut lists.reasons, |n| side::reason(r.kind, s, r.reasons, n)),
            10 => each(&mut lists.topics, |n| side::topic(s, r.topics, n)),
            _ => {}
        }
    }
    answer
}
